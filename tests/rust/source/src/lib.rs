//! For build scripts: finds the Rust files where they lie and makes them modules of a program. The files are not copied into the tree.
use std::{
    env, fs,
    path::{Path, PathBuf},
};

/// The text of a file of arm_vgic, such as `src/interrupt.rs`, below `ARM_VGIC_SRC` or beside the repository.
pub fn read(name: &str) -> String {
    println!("cargo:rerun-if-env-changed=ARM_VGIC_SRC");
    let beside = || PathBuf::from(env!("CARGO_MANIFEST_DIR")).join("../../../../shared/docs/src");
    let source = env::var_os("ARM_VGIC_SRC").map_or_else(beside, PathBuf::from);
    let file = source.join(name);
    println!("cargo:rerun-if-changed={}", file.display());
    fs::read_to_string(&file).unwrap_or_else(|e| panic!("{}: {e}", file.display()))
}

/// Writes `text` and, to be included by the program as NAME_root.rs, the declaration of it as the module `name`.
pub fn module(name: &str, text: &str) {
    let out = PathBuf::from(env::var("OUT_DIR").unwrap());
    let compiled = out.join(format!("{name}.rs"));
    fs::write(&compiled, text).unwrap();
    let root = format!("#[path = {compiled:?}]\nmod {name};\n");
    fs::write(out.join(format!("{name}_root.rs")), root).unwrap();
}

/// `text` as it is, with a declaration after its end of our file `below` as the module `access`, which sees what is private in `text`.
pub fn with_access(text: &str, below: &Path) -> String {
    format!("{text}\n#[path = {below:?}]\npub(crate) mod access;\n")
}

/// Makes interrupt.rs a module: its text as it lies, and below it our `access`, which makes and reads a record's private fields.
pub fn interrupt_module() {
    module_of_interrupt(&read("src/interrupt.rs"));
}

/// The same with its one patch, request Four's; the build stops where the file reads otherwise there.
pub fn patched_interrupt_module() {
    let text = patched_interrupt(&read("src/interrupt.rs"))
        .unwrap_or_else(|why| panic!("interrupt.rs is not the file that the patch is for: {why}"));
    module_of_interrupt(&text);
}

fn module_of_interrupt(text: &str) {
    let below = Path::new(env!("CARGO_MANIFEST_DIR")).join("../interrupt/src/access.rs");
    module("interrupt", &with_access(text, &below));
}

/// The third departure from the Rust: document 02's request Four. The other two are in v2.rs, see the oracle's build.rs.
const HELD_LINE: &str = r#"        // PATCH 3 of 3: document 02 (Four) and IHI 0048, clearing pending on a held level line: the bit stays, the note goes.
        if !pending && self.trigger == TriggerMode::Level && self.line_asserted {
            self.redelivery_pending = false;
            return;
        }
"#;

/// All of `set_pending`, before which the patch goes: it does itself what this does beside the pending bit.
const SET_PENDING: &str = r#"        self.pending = pending;
        if !pending {
            self.redelivery_pending = false;
        }
    }
"#;

fn patched_interrupt(text: &str) -> Result<String, String> {
    patched(text, "set_pending", SET_PENDING, HELD_LINE)
}

/// `text` with `lines` put before its only occurrence of `place`, which must stand in the function `name`.
pub fn patched(text: &str, name: &str, place: &str, lines: &str) -> Result<String, String> {
    let only = |what: &str| match text.matches(what).count() {
        1 => Ok(text.find(what).unwrap()),
        n => Err(format!("{what:?} stands there {n} times, not once")),
    };
    let start = only(&format!("fn {name}("))?;
    let at = only(place)?;
    let inside = at > start && !text[start + 3..at].contains("fn ");
    if !inside {
        return Err(format!("{place:?} does not stand in {name}"));
    }
    Ok(format!("{}{lines}{}", &text[..at], &text[at..]))
}

#[cfg(test)]
mod tests {
    use super::{HELD_LINE, SET_PENDING, patched, patched_interrupt};

    const TEXT: &str = "fn a() {\n    x();\n}\n\nfn b() {\n    y();\n    z();\n}\n";

    #[test]
    fn goes_before_the_place() {
        let whole = patched(TEXT, "b", "    z();\n", "    // ours\n").unwrap();
        assert_eq!(whole, TEXT.replace("    z();", "    // ours\n    z();"));
    }

    #[test]
    fn refuses_another_text() {
        for (name, place) in [
            ("b", "    w();\n"), // not there
            ("c", "    z();\n"), // no such function
            ("b", "    x();\n"), // before the function
            ("a", "    z();\n"), // after it
            ("b", "();\n"),      // more than once
        ] {
            assert!(
                patched(TEXT, name, place, "// ours\n").is_err(),
                "{name} {place}"
            );
        }
    }

    #[test]
    fn a_record_is_patched_only_as_it_lies() {
        let record = |body: &str| format!("    fn pending() {{}}\n    fn set_pending() {{\n{body}");
        let whole = record(&format!("{HELD_LINE}{SET_PENDING}"));
        assert_eq!(patched_interrupt(&record(SET_PENDING)), Ok(whole));
        for other in [
            record(&SET_PENDING.replace("if !pending", "if pending")),
            record(&SET_PENDING.replace("    }\n", "    }\n    more();\n")),
            record(&format!("{SET_PENDING}    fn other() {{\n{SET_PENDING}")),
            record(&format!("    }}\n    fn other() {{\n{SET_PENDING}")),
            SET_PENDING.into(),
        ] {
            assert!(patched_interrupt(&other).is_err(), "{other}");
        }
    }
}
