//! What v2.rs names for an interrupt that is offered or retired. The stand-in has none, so nothing here is ever called.
use super::{CpuInterfaceState, Distributor, GicV3Controller, Redistributor, State};
use crate::{GicVcpuId, IntId, InterruptState, Priority, SgiId, SpiId, VgicResult};

pub mod state {
    #[allow(dead_code)] // v2.rs takes one apart, and nothing makes one
    pub enum DeliveryRetirement {
        Emulated { intid: crate::IntId },
        Physical { binding: super::Binding },
    }
}

pub struct Backend;

pub struct Binding;

pub struct Delivery;

pub struct Record;

pub fn backend_result(_result: VgicResult) -> VgicResult {
    unreachable!()
}

impl Backend {
    pub fn retire_emulated_interrupt(&self, _vcpu: GicVcpuId, _intid: IntId) -> VgicResult {
        unreachable!()
    }
}

impl GicV3Controller {
    pub fn complete_physical_spi(&self, _vcpu: GicVcpuId, _binding: Binding) -> VgicResult {
        unreachable!()
    }
}

impl State {
    pub fn mark_inflight(&mut self, _vcpu: GicVcpuId, _intid: IntId) -> VgicResult {
        unreachable!()
    }

    pub fn synchronize_inflight(
        &mut self,
        _vcpu: GicVcpuId,
        _intid: IntId,
        _state: InterruptState,
    ) -> VgicResult<InterruptState> {
        unreachable!()
    }
}

impl Distributor {
    pub fn interrupt(&self, _spi: SpiId) -> VgicResult<Record> {
        unreachable!()
    }
}

impl Redistributor {
    pub fn take_pending_delivery(&mut self, _intid: IntId) -> Option<Delivery> {
        unreachable!()
    }

    pub fn take_sgi_source(&mut self, _sgi: SgiId) -> u8 {
        unreachable!()
    }

    pub fn has_sgi_sources(&self, _sgi: SgiId) -> bool {
        unreachable!()
    }

    pub fn private_mut(&mut self, _intid: IntId) -> VgicResult<Record> {
        unreachable!()
    }

    pub fn store_active_delivery(&mut self, _delivery: Delivery, _state: InterruptState) {
        unreachable!()
    }
}

impl CpuInterfaceState {
    pub fn push_v2_active(&mut self, _intid: IntId, _priority: Priority) {
        unreachable!()
    }
}

impl Delivery {
    pub fn set_state(&mut self, _state: InterruptState) {
        unreachable!()
    }
}

impl Record {
    pub fn priority(&self) -> Priority {
        unreachable!()
    }

    pub fn set_pending(&mut self, _pending: bool) {
        unreachable!()
    }
}
