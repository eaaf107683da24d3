//! One interrupt, and its transitions: as interrupt.rs has them, but for the held line of request Four.

#[derive(Clone, Copy, Debug, PartialEq, Eq)]
pub enum Trigger {
    Level,
    Edge,
}

#[derive(Clone, Debug)]
pub struct Record {
    pub enabled: bool,
    pub pending: bool,
    pub active: bool,
    pub inflight: bool,
    pub redelivery_pending: bool,
    pub line_asserted: bool,
    pub priority: u8,
    pub trigger: Trigger,
    pub targets: Option<u8>,
    pub owner: Option<u8>,
}

impl Record {
    /// SGIs start enabled and edge, the others disabled and level.
    pub fn new(id: u16) -> Self {
        let sgi = id < 16;
        Self {
            enabled: sgi,
            pending: false,
            active: false,
            inflight: false,
            redelivery_pending: false,
            line_asserted: false,
            priority: 0,
            trigger: if sgi { Trigger::Edge } else { Trigger::Level },
            targets: None,
            owner: None,
        }
    }

    /// Enabled, pending and not active: a candidate if its priority and its targets allow.
    pub fn offered(&self) -> bool {
        self.enabled && self.pending && !self.active
    }

    pub fn targets(&self, vcpu: usize) -> bool {
        self.targets.unwrap_or(0) >> vcpu & 1 == 1
    }

    pub fn set_enabled(&mut self, enabled: bool) {
        self.enabled = enabled;
        if enabled && self.line_asserted {
            self.pending = true;
        }
    }

    /// Clearing leaves the bit as it stands while a level is held.
    pub fn set_pending(&mut self, pending: bool) {
        if pending || !self.held() {
            self.pending = pending;
        }
        if !pending {
            self.redelivery_pending = false;
        }
    }

    pub fn clear_active(&mut self) {
        self.active = false;
        if self.inflight {
            self.cancel();
        }
    }

    fn cancel(&mut self) {
        if self.redelivery_pending {
            self.pending = true;
        }
        self.inflight = false;
        self.redelivery_pending = false;
        self.owner = None;
    }

    /// A held level stays pending when it is cleared, and pends the interrupt again when its service ends.
    fn held(&self) -> bool {
        self.trigger == Trigger::Level && self.line_asserted
    }

    /// Acknowledged by this vCPU.
    pub fn acknowledge(&mut self, vcpu: usize) {
        self.inflight = true;
        self.owner = Some(vcpu as u8);
        self.active = true;
        self.pending = self.redelivery_pending;
        self.redelivery_pending = false;
    }

    /// Deactivated by this vCPU; whether that ends a service.
    pub fn deactivate(&mut self, vcpu: usize) -> bool {
        if self.inflight && self.owner == Some(vcpu as u8) {
            self.pending = self.pending || self.redelivery_pending || self.held();
            self.inflight = false;
            self.active = false;
            self.redelivery_pending = false;
            self.owner = None;
            return true;
        }
        if self.active && !self.inflight {
            self.active = false;
            self.pending = self.pending || self.held();
        }
        false
    }

    pub fn set_level(&mut self, asserted: bool) {
        let rising = asserted && !self.line_asserted;
        self.line_asserted = asserted;
        if asserted {
            self.pending = true;
            if self.inflight && self.active && rising {
                self.redelivery_pending = true;
            }
        } else if self.trigger == Trigger::Level && !self.active {
            self.pending = false;
            self.redelivery_pending = false;
        }
    }

    pub fn pulse(&mut self) {
        self.pending = true;
        if self.inflight {
            self.redelivery_pending = true;
        }
    }
}
