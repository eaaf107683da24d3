//! What a call answers.
use crate::{GicVcpuId, IntId};
use core::{error::Error, fmt};

/// The vCPUs that a call wakes: those whose read of IAR gave nothing before it, and gives an interrupt now.
#[derive(Clone, Copy, Debug, Default, PartialEq, Eq)]
pub struct WakeSet(u8);

/// What an accepted call gives.
#[derive(Clone, Copy, Debug, Default, PartialEq, Eq)]
#[non_exhaustive]
pub struct Reply {
    /// What was read; 0 for all but reads.
    pub value: u32,
    /// Whom the call wakes; nobody in a read.
    pub wake: WakeSet,
    /// The interrupt whose service this call ended, if it did.
    pub retired: Option<IntId>,
}

/// Why a call was refused; the lent words, and a lent buffer, are then as they were.
#[derive(Clone, Copy, Debug, PartialEq, Eq)]
#[non_exhaustive]
pub enum Refusal {
    /// 1: the access is unaligned, or its end overflows or passes the frame.
    Access,
    /// 2: the width is not allowed at that register.
    Width,
    /// 3: there is no such vCPU.
    Vcpu,
    /// 4: setup: the count is not 1 to 8, or the limit not 32 to 1020.
    Limits,
    /// 5: setup, load: too few words are lent.
    ShortState,
    /// 6: the lent words are no controller's state.
    BrokenState,
    /// 7: an interrupt cannot be acknowledged, since 128 are under service.
    FullStack,
    /// 8: no device has this number: it is an SGI's, or not below the limit.
    Input,
    /// 9: load: the bytes are no image; save: the words hold what no calls lead to.
    Image,
    /// 10: save: the buffer is too short.
    Room,
    /// 11: message frame: the window is empty, or has a number below 32 or not below the limit.
    Window,
    /// A number that has no name here: the linked library is later than this face.
    Other(u8),
}

impl WakeSet {
    /// One bit for each vCPU, vCPU 0 in bit 0.
    pub const fn bits(self) -> u8 {
        self.0
    }

    /// Whether nobody is to be woken.
    pub const fn is_empty(self) -> bool {
        self.0 == 0
    }

    /// Whether this vCPU is to be woken.
    pub const fn contains(self, vcpu: GicVcpuId) -> bool {
        vcpu.0 < 8 && self.0 & 1_u8.wrapping_shl(vcpu.0 as u32) != 0
    }

    /// The vCPUs that are to be woken.
    pub fn vcpus(self) -> impl Iterator<Item = GicVcpuId> {
        (0..8)
            .map(GicVcpuId)
            .filter(move |vcpu| self.contains(*vcpu))
    }
}

impl Refusal {
    /// The documents' number, 1 to 11; any but 0 where the library is later than this face.
    pub const fn number(self) -> u8 {
        match self {
            Self::Access => 1,
            Self::Width => 2,
            Self::Vcpu => 3,
            Self::Limits => 4,
            Self::ShortState => 5,
            Self::BrokenState => 6,
            Self::FullStack => 7,
            Self::Input => 8,
            Self::Image => 9,
            Self::Room => 10,
            Self::Window => 11,
            Self::Other(number) => number,
        }
    }

    const fn from_number(number: u8) -> Self {
        match number {
            1 => Self::Access,
            2 => Self::Width,
            3 => Self::Vcpu,
            4 => Self::Limits,
            5 => Self::ShortState,
            6 => Self::BrokenState,
            7 => Self::FullStack,
            8 => Self::Input,
            9 => Self::Image,
            10 => Self::Room,
            11 => Self::Window,
            other => Self::Other(other),
        }
    }
}

impl fmt::Display for Refusal {
    fn fmt(&self, f: &mut fmt::Formatter) -> fmt::Result {
        f.write_str(match self {
            Self::Access => "the access is unaligned or outside the frame",
            Self::Width => "the register does not take this width",
            Self::Vcpu => "there is no such vCPU",
            Self::Limits => "the count or the limit is out of range",
            Self::ShortState => "the lent state is too short",
            Self::BrokenState => "the lent words are no controller's state",
            Self::FullStack => "128 interrupts are under service",
            Self::Input => "no device has this number",
            Self::Image => "the bytes are no image, or the words of no controller in use",
            Self::Room => "the buffer is too short for the image",
            Self::Window => "the window is empty, or has a number below 32 or not below the limit",
            Self::Other(number) => return write!(f, "refused by {number}"),
        })
    }
}

impl Error for Refusal {}

/// Takes the C face's one number apart.
pub(crate) const fn unpacked(answer: u64) -> Result<Reply, Refusal> {
    let [v0, v1, v2, v3, low, high, wake, refusal] = answer.to_le_bytes();
    if refusal != 0 {
        return Err(Refusal::from_number(refusal));
    }
    let retired = IntId(u16::from_le_bytes([low, high]) as u64);
    Ok(Reply {
        value: u32::from_le_bytes([v0, v1, v2, v3]),
        wake: WakeSet(wake),
        retired: if retired.0 == IntId::SPURIOUS.0 {
            None
        } else {
            Some(retired)
        },
    })
}

#[cfg(test)]
mod tests {
    use super::*;

    #[test]
    fn every_part_of_an_answer_has_its_place() {
        let wake = WakeSet(0b1000_0010);
        let retired = Some(IntId(33));
        let value = 0xffff_fff5;
        let answer = 0x0082_0021_ffff_fff5;
        let reply = Reply {
            value,
            wake,
            retired,
        };
        assert_eq!(unpacked(answer), Ok(reply));
        assert!(wake.vcpus().eq([GicVcpuId(1), GicVcpuId(7)]));
        for (vcpu, woken) in [(0, false), (1, true), (6, false), (7, true)] {
            assert_eq!(wake.contains(GicVcpuId(vcpu)), woken, "{vcpu}");
        }
        for stranger in [8, 15, 1 << 32, u64::MAX] {
            assert!(!WakeSet(u8::MAX).contains(GicVcpuId(stranger)));
        }
        assert_eq!(unpacked(1023 << 32).unwrap().retired, None);
    }

    #[test]
    fn every_refusal_has_its_number() {
        for number in 1..=u8::MAX {
            let refused = unpacked(u64::from(number) << 56 | 1023 << 32).unwrap_err();
            assert_eq!(refused.number(), number);
            assert_eq!(refused == Refusal::Other(number), number > 11, "{refused}");
        }
    }
}
