//! One vCPU's CPU interface: document 01, "CPU interface places".
use crate::{IntId, Priority};

const ENABLE: u32 = 1 << 0;
const EOI_MODE: u32 = 1 << 9;

/// Refusal 7: the service stack holds no more (document 02, Two).
const DEPTH: usize = 128;

#[derive(Clone, PartialEq)]
pub struct CpuInterfaceState {
    control: u32,
    priority_mask: Priority,
    binary_point: u8,
    /// What is served, the newest last, by number: a lent state may name one that does not decode. Its priority is the group priority as
    /// it was when the interrupt was taken.
    active: Vec<(u32, Priority)>,
}

impl CpuInterfaceState {
    pub(crate) fn new() -> Self {
        Self {
            control: 0,
            priority_mask: Priority(0),
            binary_point: 0,
            active: Vec::new(),
        }
    }

    pub(crate) fn v2_control(&self) -> u32 {
        self.control
    }

    pub(crate) fn set_v2_control(&mut self, value: u32) {
        self.control = value & (ENABLE | EOI_MODE);
    }

    pub(crate) fn v2_enabled(&self) -> bool {
        self.control & ENABLE != 0
    }

    pub(crate) fn v2_eoi_mode(&self) -> bool {
        self.control & EOI_MODE != 0
    }

    pub(crate) fn v2_priority_mask(&self) -> Priority {
        self.priority_mask
    }

    pub(crate) fn set_v2_priority_mask(&mut self, value: u8) {
        self.priority_mask = Priority(value);
    }

    pub(crate) fn v2_binary_point(&self) -> u8 {
        self.binary_point
    }

    pub(crate) fn set_v2_binary_point(&mut self, value: u8) {
        self.binary_point = value & 0b111;
    }

    pub(crate) fn v2_running_priority(&self) -> Priority {
        self.active
            .last()
            .map_or(Priority::IDLE, |&(_, priority)| priority)
    }

    pub(crate) fn is_full(&self) -> bool {
        self.active.len() >= DEPTH
    }

    pub(crate) fn push_v2_active(&mut self, intid: IntId, priority: Priority) {
        self.active.push((intid.raw(), priority));
    }

    /// Pops the newest only if it is this number, and says whether it did.
    pub(crate) fn drop_v2_priority(&mut self, intid: IntId) -> bool {
        let newest = |entry: &mut (u32, Priority)| entry.0 == intid.raw();
        self.active.pop_if(newest).is_some()
    }

    pub(crate) fn active(&self) -> &[(u32, Priority)] {
        &self.active
    }

    /// For lent words: any numbers and priorities at all.
    pub(crate) fn set_active(&mut self, active: Vec<(u32, Priority)>) {
        self.active = active;
    }
}
