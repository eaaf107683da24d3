//! Where the registers stand, in bytes from the start of a frame: Arm IHI 0048, and the message frame (GICv2m).

/// Distributor control: bit 0 turns it on.
pub const GICD_CTLR: u64 = 0x000;
/// How many vCPUs and interrupts there are.
pub const GICD_TYPER: u64 = 0x004;
/// Who made it.
pub const GICD_IIDR: u64 = 0x008;
/// Groups, one bit for each interrupt; they read 0.
pub const GICD_IGROUPR: u64 = 0x080;
/// Set enables.
pub const GICD_ISENABLER: u64 = 0x100;
/// Clear enables.
pub const GICD_ICENABLER: u64 = 0x180;
/// Set pending.
pub const GICD_ISPENDR: u64 = 0x200;
/// Clear pending; a level interrupt with its line up stays as it is.
pub const GICD_ICPENDR: u64 = 0x280;
/// Set active.
pub const GICD_ISACTIVER: u64 = 0x300;
/// Clear active.
pub const GICD_ICACTIVER: u64 = 0x380;
/// Priorities, a byte for each interrupt.
pub const GICD_IPRIORITYR: u64 = 0x400;
/// Targets, a byte for each interrupt with a bit for each vCPU.
pub const GICD_ITARGETSR: u64 = 0x800;
/// Triggers, two bits for each interrupt.
pub const GICD_ICFGR: u64 = 0xc00;
/// Sends an SGI.
pub const GICD_SGIR: u64 = 0xf00;
/// Clear the sources of SGIs, a byte for each.
pub const GICD_CPENDSGIR: u64 = 0xf10;
/// Set the sources of SGIs, a byte for each.
pub const GICD_SPENDSGIR: u64 = 0xf20;
/// CPU interface control: bit 0 turns it on, bit 9 is the EOI mode.
pub const GICC_CTLR: u64 = 0x000;
/// The priority that an interrupt has to be below.
pub const GICC_PMR: u64 = 0x004;
/// Binary point b: an interrupt is given if its priority without the low b+1 bits is below RPR.
pub const GICC_BPR: u64 = 0x008;
/// A read acknowledges an interrupt.
pub const GICC_IAR: u64 = 0x00c;
/// Ends an interrupt, or in EOI mode drops its priority.
pub const GICC_EOIR: u64 = 0x010;
/// The priority under service, as the binary point cut it when it was given; 255 for none.
pub const GICC_RPR: u64 = 0x014;
/// The best that is pending.
pub const GICC_HPPIR: u64 = 0x018;
/// The binary point by another name.
pub const GICC_ABPR: u64 = 0x01c;
/// IAR by another name.
pub const GICC_AIAR: u64 = 0x020;
/// EOIR by another name.
pub const GICC_AEOIR: u64 = 0x024;
/// HPPIR by another name.
pub const GICC_AHPPIR: u64 = 0x028;
/// Reads 0.
pub const GICC_APR: u64 = 0x0d0;
/// Who made it.
pub const GICC_IIDR: u64 = 0x0fc;
/// Deactivates an interrupt.
pub const GICC_DIR: u64 = 0x1000;
/// The window of a message frame: its first SPI in bits 25:16, how many in bits 9:0. Ignores writes.
pub const V2M_TYPER: u64 = 0x008;
/// A write of a number of the window pulses that SPI. Reads 0.
pub const V2M_SETSPI: u64 = 0x040;
