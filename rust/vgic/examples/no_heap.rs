//! A controller without a heap: its words are a static behind a lock, sized when the program is compiled. A device's thread raises its line
//! and a vCPU's thread takes the interrupt.
//!
//! `cargo run --example no_heap`
use std::sync::Mutex;
use vgic::{
    AccessWidth::{Byte, Dword},
    Gic, GicVcpuId, IntId, Refusal, offset,
};

const COUNT: u64 = 2;
const LIMIT: u64 = 64;
const WORDS: usize = vgic::state_words(COUNT, LIMIT).expect("in range");

static STATE: Mutex<[u32; WORDS]> = Mutex::new([0; WORDS]);

const VCPU: GicVcpuId = GicVcpuId(1);
const NETWORK: IntId = IntId(40);

/// Each call has the words to itself.
fn with<T>(call: impl FnOnce(&mut Gic) -> Result<T, Refusal>) -> Result<T, Refusal> {
    let mut words = STATE.lock().unwrap_or_else(|broken| broken.into_inner());
    call(&mut Gic::lend(&mut *words))
}

/// What the guest does as it starts: interrupt 40 goes to vCPU 1.
fn boot(gic: &mut Gic) -> Result<(), Refusal> {
    let enable = offset::GICD_ISENABLER + NETWORK.0 / 32 * 4;
    gic.setup(COUNT, LIMIT)?;
    gic.write_v2_distributor(VCPU, offset::GICD_CTLR, Dword, 1)?;
    gic.write_v2_distributor(VCPU, offset::GICD_ITARGETSR + NETWORK.0, Byte, 1 << VCPU.0)?;
    gic.write_v2_distributor(VCPU, enable, Dword, 1 << (NETWORK.0 % 32))?;
    gic.write_v2_cpu_interface(VCPU, offset::GICC_CTLR, Dword, 1)?;
    gic.write_v2_cpu_interface(VCPU, offset::GICC_PMR, Dword, 255)?;
    Ok(())
}

fn main() -> Result<(), Refusal> {
    with(boot)?;

    let raised = with(|gic| gic.set_level(VCPU, NETWORK, true))?;
    for GicVcpuId(vcpu) in raised.wake.vcpus() {
        println!("wake vCPU {vcpu}");
    }

    // Before it enters the guest, a vCPU's thread asks whether to signal an interrupt.
    while with(|gic| gic.irq_level(VCPU))? {
        let taken = with(|gic| gic.read_v2_cpu_interface(VCPU, offset::GICC_IAR, Dword))?;
        println!("the guest takes {}", taken.value);
        println!("{:?}", with(|gic| gic.interrupt(VCPU, NETWORK))?);
        with(|gic| gic.set_level(VCPU, NETWORK, false))?;
        let ended = with(|gic| {
            gic.write_v2_cpu_interface(VCPU, offset::GICC_EOIR, Dword, taken.value.into())
        })?;
        println!("the guest ends {:?}", ended.retired);
    }
    Ok(())
}
