//! The register offsets of document 01, which v2.rs imports, and what stands at an offset of the Distributor.
pub const GICD_CTLR: u64 = 0x000;
pub const GICD_TYPER: u64 = 0x004;
pub const GICD_IIDR: u64 = 0x008;
pub const GICD_IGROUPR: u64 = 0x080;
pub const GICD_ISENABLER: u64 = 0x100;
pub const GICD_ICENABLER: u64 = 0x180;
pub const GICD_ISPENDR: u64 = 0x200;
pub const GICD_ICPENDR: u64 = 0x280;
pub const GICD_ISACTIVER: u64 = 0x300;
pub const GICD_ICACTIVER: u64 = 0x380;
pub const GICD_IPRIORITYR: u64 = 0x400;
pub const GICD_ITARGETSR: u64 = 0x800;
pub const GICD_ICFGR: u64 = 0xc00;
pub const GICD_SGIR: u64 = 0xf00;
pub const GICD_CPENDSGIR: u64 = 0xf10;
pub const GICD_SPENDSGIR: u64 = 0xf20;

pub const GICC_CTLR: u64 = 0x00;
pub const GICC_PMR: u64 = 0x04;
pub const GICC_BPR: u64 = 0x08;
pub const GICC_IAR: u64 = 0x0c;
pub const GICC_EOIR: u64 = 0x10;
pub const GICC_RPR: u64 = 0x14;
pub const GICC_HPPIR: u64 = 0x18;
pub const GICC_ABPR: u64 = 0x1c;
pub const GICC_AIAR: u64 = 0x20;
pub const GICC_AEOIR: u64 = 0x24;
pub const GICC_AHPPIR: u64 = 0x28;
pub const GICC_APR: u64 = 0xd0;
pub const GICC_IIDR: u64 = 0xfc;
pub const GICC_DIR: u64 = 0x1000;

/// The Distributor's registers of one or two bits for each interrupt.
#[derive(Clone, Copy, Debug, PartialEq, Eq)]
pub enum BitRegister {
    Igroupr,
    Isenabler,
    Icenabler,
    Ispendr,
    Icpendr,
    Isactiver,
    Icactiver,
    Icfgr,
}

/// Where an access to the Distributor starts, among the places that v2.rs passes on without deciding.
#[derive(Clone, Copy, Debug, PartialEq, Eq)]
pub enum Place {
    /// A word of a bit register, and its first interrupt.
    Bits(BitRegister, u32),
    /// A priority byte, and its interrupt.
    Priority(u32),
    Other,
}

impl Place {
    pub fn at(offset: u64) -> Self {
        use BitRegister::*;
        let bits =
            |register, base, in_word| Self::Bits(register, (offset - base) as u32 / 4 * in_word);
        match offset {
            0x080..0x100 => bits(Igroupr, GICD_IGROUPR, 32),
            0x100..0x180 => bits(Isenabler, GICD_ISENABLER, 32),
            0x180..0x200 => bits(Icenabler, GICD_ICENABLER, 32),
            0x200..0x280 => bits(Ispendr, GICD_ISPENDR, 32),
            0x280..0x300 => bits(Icpendr, GICD_ICPENDR, 32),
            0x300..0x380 => bits(Isactiver, GICD_ISACTIVER, 32),
            0x380..0x400 => bits(Icactiver, GICD_ICACTIVER, 32),
            0x400..0x7fc => Self::Priority((offset - GICD_IPRIORITYR) as u32),
            0xc00..0xd00 => bits(Icfgr, GICD_ICFGR, 16),
            _ => Self::Other,
        }
    }
}
