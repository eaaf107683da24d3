//! One interrupt: its record, and the vCPU that has it in flight. The transitions are interrupt.rs's own but for `set_pending`, which
//! request Four has depart from it: the file's is not called.
use crate::{IntId, TriggerMode};
use types::Parts;

#[allow(dead_code)] // routes, `set_pending`, and what only other files of arm_vgic call
mod file {
    include!(concat!(env!("OUT_DIR"), "/interrupt_root.rs"));
    pub(crate) use interrupt::{InterruptRecord, access};
}
pub(crate) use file::{InterruptRecord, access};

#[derive(Clone)]
pub struct Record {
    pub(crate) file: InterruptRecord,
    pub owner: Option<u64>,
}

fn trigger(edge: bool) -> TriggerMode {
    if edge {
        TriggerMode::Edge
    } else {
        TriggerMode::Level
    }
}

impl Record {
    /// SGIs start edge, the others level.
    pub fn new(id: u64) -> Record {
        let intid = IntId::new(id as u32).expect("below the limit");
        Record {
            file: InterruptRecord::new(intid, trigger(id < 16)),
            owner: None,
        }
    }

    pub(crate) fn priority(&self) -> u8 {
        self.file.priority().raw()
    }

    /// An unset mask reads 0.
    pub(crate) fn mask(&self) -> u8 {
        self.file.cpu_target_mask().unwrap_or(0)
    }

    pub(crate) fn is_edge(&self) -> bool {
        self.file.trigger() == TriggerMode::Edge
    }

    pub(crate) fn set_edge(&mut self, edge: bool) {
        self.file.set_trigger(trigger(edge));
    }

    pub(crate) fn inflight(&self) -> bool {
        self.parts().inflight
    }

    /// What an SPI's bit of the summary has to say: "enabled, pending and not active".
    pub(crate) fn is_ready(&self) -> bool {
        self.file.enabled() && self.file.pending() && !self.file.active()
    }

    /// "Clearing pending on a level interrupt with its line asserted must leave the pending bit as it stands; the redelivery note is still
    /// cleared."
    pub(crate) fn set_pending(&mut self, pending: bool) {
        let mut parts = self.parts();
        let held = !self.is_edge() && parts.line_asserted;
        if pending {
            parts.pending = true;
        } else {
            parts.pending = parts.pending && held;
            parts.redelivery_pending = false;
        }
        self.file = access::make(&parts);
    }

    pub fn parts(&self) -> Parts {
        access::parts(&self.file)
    }

    pub fn make(parts: &Parts, owner: Option<u64>) -> Record {
        Record {
            file: access::make(parts),
            owner,
        }
    }
}
