//! One interrupt as the controller keeps it.
use crate::GicVcpuId;

const ENABLED: u8 = 0x01;
const PENDING: u8 = 0x02;
const ACTIVE: u8 = 0x04;
const INFLIGHT: u8 = 0x08;
const REDELIVERY: u8 = 0x10;
const LINE: u8 = 0x20;
const EDGE: u8 = 0x40;
const TARGETED: u8 = 0x80;

/// How a device's line is read.
#[derive(Clone, Copy, Debug, Default, PartialEq, Eq)]
pub enum TriggerMode {
    /// The interrupt waits while the line is up.
    #[default]
    Level,
    /// Once the line has risen, the interrupt waits until it is taken.
    Edge,
}

/// What the controller knows of one interrupt: [`Gic::interrupt`](crate::Gic::interrupt) shows it, and nothing but calls changes it.
#[derive(Clone, Copy, Debug, Default, PartialEq, Eq)]
#[non_exhaustive]
pub struct InterruptRecord {
    /// The guest has enabled it.
    pub enabled: bool,
    /// It waits to be taken.
    pub pending: bool,
    /// It is under service.
    pub active: bool,
    /// It was taken by a read of IAR, and its service has not ended.
    pub inflight: bool,
    /// It came again while it was in flight, and is to be given again.
    pub redelivery_pending: bool,
    /// Its device holds its line up.
    pub line_asserted: bool,
    /// 0 is the most urgent.
    pub priority: u8,
    /// How its line is read.
    pub trigger: TriggerMode,
    /// The vCPUs that an SPI is offered to, a bit for each; none as long as none were written.
    pub cpu_target_mask: Option<u8>,
    /// Who has taken it, while it is in flight.
    pub owner: Option<GicVcpuId>,
}

impl InterruptRecord {
    /// What a record's word means: `docs/STATE.md`, "What a word means".
    pub const fn from_word(word: u32) -> Self {
        let [flags, priority, mask, owner] = word.to_le_bytes();
        Self {
            enabled: flags & ENABLED != 0,
            pending: flags & PENDING != 0,
            active: flags & ACTIVE != 0,
            inflight: flags & INFLIGHT != 0,
            redelivery_pending: flags & REDELIVERY != 0,
            line_asserted: flags & LINE != 0,
            priority,
            trigger: if flags & EDGE != 0 {
                TriggerMode::Edge
            } else {
                TriggerMode::Level
            },
            cpu_target_mask: if flags & TARGETED != 0 {
                Some(mask)
            } else {
                None
            },
            owner: match owner.checked_sub(1) {
                Some(vcpu) => Some(GicVcpuId(vcpu as u64)),
                None => None,
            },
        }
    }
}

#[cfg(test)]
mod tests {
    use super::*;

    /// The record in which this bit alone counts.
    fn of_bit(bit: u32) -> InterruptRecord {
        let (mut it, part) = (InterruptRecord::default(), 1_u8 << (bit % 8));
        match bit {
            0 => it.enabled = true,
            1 => it.pending = true,
            2 => it.active = true,
            3 => it.inflight = true,
            4 => it.redelivery_pending = true,
            5 => it.line_asserted = true,
            6 => it.trigger = TriggerMode::Edge,
            7 => it.cpu_target_mask = Some(0),
            8..16 => it.priority = part,
            16..24 => it.cpu_target_mask = Some(part),
            _ => it.owner = Some(GicVcpuId(u64::from(part) - 1)),
        }
        it
    }

    #[test]
    fn every_bit_has_its_place() {
        for bit in 0..32 {
            // The bits of a mask count where there is one.
            let set = u32::from((16..24).contains(&bit)) << 7;
            assert_eq!(InterruptRecord::from_word(1 << bit | set), of_bit(bit));
        }
        let maskless = InterruptRecord::from_word(0x00ff_0000);
        assert_eq!(maskless, InterruptRecord::default());
    }
}
