//! A call as the C face takes it: any numbers at all, also a width that is none, and any bytes for an image.
use oracle::{
    RegisterRegion::{self, CpuInterface, Distributor},
    lines,
    machine::{Access, Answer, Call, Input},
    message_frame::{FrameAccess, SETSPI, Window},
    register::{GICC_AHPPIR, GICC_AIAR, GICC_HPPIR, GICC_IAR, GICD_ICPENDR, GICD_ISACTIVER},
};
use std::{fmt, rc::Rc};

/// Where a register is read or written, and by whom; the width is a number.
#[derive(Clone, Copy, Debug, PartialEq, Eq)]
pub struct Place {
    pub region: RegisterRegion,
    pub vcpu: u64,
    pub offset: u64,
    pub width: u64,
}

/// Where a message frame is read or written, and of which window; the width is a number.
#[derive(Clone, Copy, Debug, PartialEq, Eq)]
pub struct FramePlace {
    pub window: Window,
    pub offset: u64,
    pub width: u64,
}

#[derive(Clone, Debug, PartialEq, Eq)]
pub enum Request {
    Setup { count: u64, limit: u64 },
    Read(Place),
    Write(Place, u64),
    SetLevel(Input, bool),
    Pulse(Input),
    ReadMessageFrame(FramePlace),
    WriteMessageFrame(FramePlace, u64),
    Save { room: usize },
    Load(Rc<[u8]>),
}

impl Request {
    /// The oracle's call: none where the width is none, and none of images.
    pub fn call(&self) -> Option<Call> {
        Some(match *self {
            Self::Setup { count, limit } => Call::Setup { count, limit },
            Self::Read(at) => Call::Read(at.access()?),
            Self::Write(at, value) => Call::Write(at.access()?, value),
            Self::SetLevel(input, asserted) => Call::SetLevel(input, asserted),
            Self::Pulse(input) => Call::Pulse(input),
            Self::ReadMessageFrame(at) => Call::ReadMessageFrame(at.access()?),
            Self::WriteMessageFrame(at, value) => Call::WriteMessageFrame(at.access()?, value),
            Self::Save { .. } | Self::Load(_) => return None,
        })
    }

    /// The vCPU that this gave an interrupt to, if it is an acknowledge that gave one.
    pub fn acknowledged_by(&self, answer: &Answer) -> Option<u64> {
        let Self::Read(at) = self else {
            return None;
        };
        self.call()?.acknowledged(answer).map(|_| at.vcpu)
    }

    /// The vCPU whose best this takes or shows, if it is a read that does.
    pub fn selects(&self) -> Option<u64> {
        match self {
            Self::Read(at)
                if at.region == CpuInterface
                    && [GICC_IAR, GICC_AIAR, GICC_HPPIR, GICC_AHPPIR].contains(&at.offset) =>
            {
                Some(at.vcpu)
            }
            _ => None,
        }
    }

    /// Whose pending bits this clears where it is accepted, if it writes ICPENDR: its vCPU, and the numbers, which may be above the limit.
    pub fn clears(&self) -> Option<(u64, impl Iterator<Item = usize>)> {
        match *self {
            Self::Write(at, value)
                if at.region == Distributor
                    && (GICD_ICPENDR..GICD_ISACTIVER).contains(&at.offset) =>
            {
                let first = (at.offset - GICD_ICPENDR) as usize * 8;
                let named = (0..32).filter(move |bit| value >> bit & 1 == 1);
                let numbers = named.map(move |bit| first + bit);
                Some((at.vcpu, numbers.filter(|number| *number >= 16)))
            }
            _ => None,
        }
    }

    /// Where a message frame is read or written, if it is.
    pub fn message_frame(&self) -> Option<FramePlace> {
        match self {
            Self::ReadMessageFrame(at) | Self::WriteMessageFrame(at, _) => Some(*at),
            _ => None,
        }
    }

    /// The SPI that this rings where it is accepted, if it is a message of the window.
    pub fn rings(&self) -> Option<usize> {
        match *self {
            Self::WriteMessageFrame(at, value) if at.offset == SETSPI => {
                let number = value & 0xffff_ffff;
                at.window.contains(number).then_some(number as usize)
            }
            _ => None,
        }
    }

    /// The same access at another width; other calls have none.
    pub fn at_width(self, width: u64) -> Self {
        match self {
            Self::Read(at) => Self::Read(Place { width, ..at }),
            Self::Write(at, value) => Self::Write(Place { width, ..at }, value),
            Self::ReadMessageFrame(at) => Self::ReadMessageFrame(FramePlace { width, ..at }),
            Self::WriteMessageFrame(at, value) => {
                Self::WriteMessageFrame(FramePlace { width, ..at }, value)
            }
            other => other,
        }
    }
}

impl Place {
    fn access(&self) -> Option<Access> {
        Some(Access {
            region: self.region,
            vcpu: self.vcpu,
            offset: self.offset,
            width: lines::width(self.width)?,
        })
    }
}

impl FramePlace {
    fn access(&self) -> Option<FrameAccess> {
        Some(FrameAccess {
            window: self.window,
            offset: self.offset,
            width: lines::width(self.width)?,
        })
    }
}

impl From<FrameAccess> for FramePlace {
    fn from(at: FrameAccess) -> Self {
        Self {
            window: at.window,
            offset: at.offset,
            width: at.width.size() as u64,
        }
    }
}

impl From<Access> for Place {
    fn from(at: Access) -> Self {
        Self {
            region: at.region,
            vcpu: at.vcpu,
            offset: at.offset,
            width: at.width.size() as u64,
        }
    }
}

impl From<Call> for Request {
    fn from(call: Call) -> Self {
        match call {
            Call::Setup { count, limit } => Self::Setup { count, limit },
            Call::Read(at) => Self::Read(at.into()),
            Call::Write(at, value) => Self::Write(at.into(), value),
            Call::SetLevel(input, asserted) => Self::SetLevel(input, asserted),
            Call::Pulse(input) => Self::Pulse(input),
            Call::ReadMessageFrame(at) => Self::ReadMessageFrame(at.into()),
            Call::WriteMessageFrame(at, value) => Self::WriteMessageFrame(at.into(), value),
        }
    }
}

/// An answer as the C face gives it, in one number.
pub fn packed(answer: &Answer) -> u64 {
    let value = u32::try_from(answer.value).expect("no value has more than 32 bits");
    u64::from(value)
        | u64::from(answer.retired) << 32
        | u64::from(answer.wake) << 48
        | u64::from(answer.refusal) << 56
}

/// What a packed answer says, in the runner's form.
pub fn shown(packed: u64) -> String {
    let (value, retired) = (packed as u32, (packed >> 32) as u16);
    let (wake, refusal) = ((packed >> 48) as u8, (packed >> 56) as u8);
    format!("{refusal} {value} {wake} {retired}")
}

/// The runner's line, and of a message frame the one that tests/c/lines.c has more; neither has any for images.
impl fmt::Display for Request {
    fn fmt(&self, f: &mut fmt::Formatter) -> fmt::Result {
        match self {
            Self::Setup { count, limit } => write!(f, "n {count} {limit}"),
            Self::Read(at) => match at.region {
                Distributor => write!(f, "d {at}"),
                CpuInterface => write!(f, "c {at}"),
            },
            Self::Write(at, value) => match at.region {
                Distributor => write!(f, "D {at} {value}"),
                CpuInterface => write!(f, "C {at} {value}"),
            },
            Self::SetLevel(input, asserted) => write!(f, "l {input} {}", u8::from(*asserted)),
            Self::Pulse(input) => write!(f, "p {input}"),
            Self::ReadMessageFrame(at) => write!(f, "m {at}"),
            Self::WriteMessageFrame(at, value) => write!(f, "M {at} {value}"),
            Self::Save { room } => write!(f, "# save into {room} bytes"),
            Self::Load(image) => {
                write!(f, "# load ")?;
                image.iter().try_for_each(|byte| write!(f, "{byte:02x}"))
            }
        }
    }
}

impl fmt::Display for Place {
    fn fmt(&self, f: &mut fmt::Formatter) -> fmt::Result {
        write!(f, "{} {} {}", self.vcpu, self.offset, self.width)
    }
}

impl fmt::Display for FramePlace {
    fn fmt(&self, f: &mut fmt::Formatter) -> fmt::Result {
        let Window { first, count } = self.window;
        write!(f, "{first} {count} {} {}", self.offset, self.width)
    }
}
