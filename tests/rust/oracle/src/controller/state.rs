//! The state behind the lock, and what v2.rs does to an interrupt through it.
use super::{Config, GicV3VcpuWake};
use crate::{
    GicVcpuId, IntId, InterruptState, SpiId, VgicError, VgicResult,
    distributor::DistributorState,
    redistributor::{Redistributor, RedistributorState},
    registers::{Bank, Interrupt},
};
use std::sync::Arc;

#[derive(Clone, PartialEq)]
pub(crate) struct State {
    pub distributor: DistributorState,
    pub redistributors: Vec<(GicVcpuId, RedistributorState)>,
}

pub(crate) enum DeliveryRetirement {
    Emulated {
        intid: IntId,
    },
    /// v2.rs takes one apart; physical bindings are left out, and none can be made.
    #[allow(dead_code)]
    Physical {
        binding: PhysicalBinding,
    },
}

pub(crate) enum PhysicalBinding {}

type Wake = Option<Arc<dyn GicV3VcpuWake>>;

impl State {
    pub fn new(vcpu_count: usize, spi_limit: u32) -> Self {
        Self {
            distributor: DistributorState::new(spi_limit),
            redistributors: (0..vcpu_count)
                .map(GicVcpuId::new)
                .map(|vcpu| (vcpu, RedistributorState::new(vcpu)))
                .collect(),
        }
    }

    /// The look-up of a vCPU, behind refusal 3.
    pub fn redistributor(
        &self,
        vcpu: GicVcpuId,
        _operation: &'static str,
    ) -> VgicResult<Redistributor<'_>> {
        let found = self.redistributors.get(vcpu.raw());
        let (_, own) = found.ok_or(VgicError::NoVcpu(vcpu))?;
        Ok(Redistributor {
            own,
            distributor: &self.distributor,
        })
    }

    pub fn redistributor_mut(
        &mut self,
        vcpu: GicVcpuId,
        _operation: &'static str,
    ) -> VgicResult<&mut RedistributorState> {
        let found = self.redistributors.get_mut(vcpu.raw());
        found.map(|(_, own)| own).ok_or(VgicError::NoVcpu(vcpu))
    }

    /// An interrupt as this vCPU sees it; nothing from the limit up. Only a private one looks the vCPU up.
    fn interrupt(&self, vcpu: GicVcpuId, intid: IntId) -> VgicResult<Option<&Interrupt>> {
        match intid {
            IntId::Spi(spi) => Ok(self.distributor.find(spi.raw())),
            _ => {
                let seen = self.redistributor(vcpu, "private interrupt")?;
                Ok(seen.own.find(intid.raw()))
            }
        }
    }

    /// Calls transitions of an interrupt as this vCPU sees it, which has to be there.
    pub fn transit<T>(
        &mut self,
        vcpu: GicVcpuId,
        intid: IntId,
        transitions: impl FnOnce(&mut Interrupt) -> T,
    ) -> VgicResult<T> {
        let outcome = match intid {
            IntId::Spi(spi) => self.distributor.transit(spi.raw(), transitions),
            _ => self
                .redistributor_mut(vcpu, "private interrupt")?
                .transit(intid.raw(), transitions),
        };
        outcome.ok_or(VgicError::NoInterrupt(intid.raw()))
    }

    pub fn mark_inflight(&mut self, vcpu: GicVcpuId, intid: IntId) -> VgicResult {
        self.transit(vcpu, intid, |it| {
            it.record.mark_inflight();
            it.owner = Some(vcpu);
        })
    }

    pub fn synchronize_inflight(
        &mut self,
        vcpu: GicVcpuId,
        intid: IntId,
        state: InterruptState,
    ) -> VgicResult<InterruptState> {
        self.transit(vcpu, intid, |it| it.record.synchronize_inflight(state))
    }

    /// Document 01's Deactivate. Where neither of its cases is, no transition is called.
    pub fn deactivate_interrupt(
        &mut self,
        vcpu: GicVcpuId,
        intid: IntId,
    ) -> VgicResult<Option<DeliveryRetirement>> {
        self.redistributor(vcpu, "deactivate interrupt")?;
        let Some(it) = self.interrupt(vcpu, intid)? else {
            return Ok(None);
        };
        if it.inflight() && it.owner == Some(vcpu) {
            self.transit(vcpu, intid, |it| {
                it.record.deactivate_inflight(it.record.pending());
                it.owner = None;
            })?;
            return Ok(Some(DeliveryRetirement::Emulated { intid }));
        }
        if it.record.active() && !it.inflight() {
            self.transit(vcpu, intid, |it| it.record.complete())?;
        }
        Ok(None)
    }

    /// There are no slots to queue in; what v2.rs relies on is the look-up.
    pub fn queue_local_if_deliverable(&self, vcpu: GicVcpuId, _intid: IntId) -> VgicResult<Wake> {
        self.redistributor(vcpu, "queue local interrupt")?;
        Ok(None)
    }

    pub fn queue_spi_if_deliverable(&self, _spi: SpiId) -> VgicResult<Wake> {
        Ok(None)
    }

    /// Physical bindings are left out.
    pub fn has_software_backing(&self, _spi: SpiId, _config: &Config) -> bool {
        true
    }
}
