//! Makes the two Rust files modules of this crate.
//!
//! Both are compiled with patches, THREE in all, and are otherwise as they are. Each is one departure from the Rust: in v2.rs, below, document
//! 01's "its priority is below the running priority" and request Two of document 02, the binary point; in interrupt.rs request Four, a held
//! line, which is in `source`, since the program `interrupt` has it too. After the end of interrupt.rs our `access` is declared.
//!
//! Request Five is no patch: neither file says which SPIs are candidates. The stand-in does, and goes by the summary's bits (`redistributor`).
//! Nor is request Seven: neither file has a message frame. The stand-in has one (`message_frame`), over the pulse that devices have.

/// Both go where a candidate has been found and nothing has been changed yet, the second before the first. After them v2.rs uses the
/// candidate's priority once more: it is pushed on the stack.
const BEFORE: &str = "        let mut delivery = state\n";

const RUNNING_PRIORITY: &str = r#"        // PATCH 1 of 3: document 01 and IHI 0048, the running-priority test of GICC_IAR.
        let running = state
            .redistributor(vcpu, "read GICC_IAR")?
            .cpu_interface()
            .v2_running_priority();
        if priority >= running {
            return Ok(GIC_SPURIOUS_INTID);
        }
"#;

const GROUP_PRIORITY: &str = r#"        // PATCH 2 of 3: document 02 (Two) and IHI 0048, the group priority: with binary point b the low b+1 bits are cleared.
        let cleared = 1 + state
            .redistributor(vcpu, "read GICC_IAR")?
            .cpu_interface()
            .v2_binary_point();
        let priority = crate::Priority((u16::from(priority.raw()) >> cleared << cleared) as u8);
"#;

fn main() {
    source::patched_interrupt_module();
    let mut v2 = source::read("src/controller/v2.rs");
    for lines in [GROUP_PRIORITY, RUNNING_PRIORITY] {
        v2 = source::patched(&v2, "acknowledge_v2", BEFORE, lines)
            .unwrap_or_else(|why| panic!("v2.rs is not the file that the patches are for: {why}"));
    }
    source::module("v2", &v2);
}
