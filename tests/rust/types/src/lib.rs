//! The numbers, names and errors that the two Rust files import: document 01 gives their values.
pub mod register;

#[derive(Clone, Copy, Debug, PartialEq, Eq)]
pub enum AccessWidth {
    Byte = 1,
    Word = 2,
    Dword = 4,
    Qword = 8,
}

impl AccessWidth {
    pub const ALL: [Self; 4] = [Self::Byte, Self::Word, Self::Dword, Self::Qword];

    pub fn size(self) -> usize {
        self as usize
    }
}

#[derive(Clone, Copy, Debug, PartialEq, Eq)]
pub enum RegisterRegion {
    Distributor,
    CpuInterface,
}

pub type VgicResult<T = ()> = Result<T, VgicError>;

#[derive(Debug, PartialEq, Eq)]
pub enum VgicError {
    InvalidAccess {
        region: RegisterRegion,
        operation: &'static str,
        offset: u64,
        width: AccessWidth,
        detail: String,
    },
    InvalidStateTransition {
        intid: IntId,
        operation: &'static str,
        detail: String,
    },
    /// Ours: a number that does not decode.
    NoInterrupt(u32),
    /// Ours: a stand-in's register does not allow the width.
    Width,
    /// Ours: the vCPU was looked up and is not there.
    NoVcpu(GicVcpuId),
    /// Ours: a device's number is no PPI and no SPI below the limit.
    NoInput(u64),
    /// Ours: the window of a message frame, by its first number and its count, is no part of the SPIs.
    NoWindow(u64, u64),
    /// Ours: an access to a message frame is unaligned or not inside it.
    OutsideMessageFrame(u64),
}

#[derive(Clone, Copy, Debug, PartialEq, Eq)]
pub struct GicVcpuId(usize);

impl GicVcpuId {
    pub const fn new(raw: usize) -> Self {
        Self(raw)
    }

    pub fn raw(self) -> usize {
        self.0
    }
}

/// An affinity is here the vCPU's number.
#[derive(Clone, Copy, Debug, PartialEq, Eq)]
pub struct GicAffinity(pub usize);

#[derive(Clone, Copy, Debug, PartialEq, Eq)]
pub struct SgiId(u8);

impl SgiId {
    pub fn new(raw: u8) -> VgicResult<Self> {
        match raw {
            0..16 => Ok(Self(raw)),
            _ => Err(VgicError::NoInterrupt(raw.into())),
        }
    }

    pub fn raw(self) -> u8 {
        self.0
    }
}

#[derive(Clone, Copy, Debug, PartialEq, Eq)]
pub struct SpiId(u32);

impl SpiId {
    pub fn new(raw: u32) -> VgicResult<Self> {
        match raw {
            32..1020 => Ok(Self(raw)),
            _ => Err(VgicError::NoInterrupt(raw)),
        }
    }

    pub fn raw(self) -> u32 {
        self.0
    }
}

#[derive(Clone, Copy, Debug, PartialEq, Eq)]
pub enum IntId {
    Sgi(SgiId),
    Ppi(u32),
    Spi(SpiId),
}

impl IntId {
    pub fn new(raw: u32) -> VgicResult<Self> {
        match raw {
            0..16 => SgiId::new(raw as u8).map(Self::Sgi),
            16..32 => Ok(Self::Ppi(raw)),
            _ => SpiId::new(raw).map(Self::Spi),
        }
    }

    pub fn raw(self) -> u32 {
        match self {
            Self::Sgi(sgi) => sgi.raw().into(),
            Self::Ppi(raw) => raw,
            Self::Spi(spi) => spi.raw(),
        }
    }
}

#[derive(Clone, Copy, Debug, PartialEq, Eq, PartialOrd, Ord)]
pub struct Priority(pub u8);

impl Priority {
    pub const DEFAULT: Self = Self(0);
    /// The running priority while nothing is served.
    pub const IDLE: Self = Self(255);

    pub fn raw(self) -> u8 {
        self.0
    }
}

#[derive(Clone, Copy, Debug, PartialEq, Eq)]
pub enum TriggerMode {
    Level,
    Edge,
}

#[derive(Clone, Copy, Debug, PartialEq, Eq)]
pub enum InterruptState {
    Inactive,
    Pending,
    Active,
    ActivePending,
}

pub enum SgiTarget {
    Affinities(Vec<GicAffinity>),
    AllExceptSelf,
    SelfOnly,
}

/// The fields of a record, which interrupt.rs keeps private. Everything but the route, which is left out.
#[derive(Clone, Copy, Debug, PartialEq, Eq)]
pub struct Parts {
    pub intid: IntId,
    pub enabled: bool,
    pub pending: bool,
    pub active: bool,
    pub inflight: bool,
    pub redelivery_pending: bool,
    pub line_asserted: bool,
    pub priority: Priority,
    pub trigger: TriggerMode,
    pub cpu_target_mask: Option<u8>,
}
