//! The controller that v2.rs adds its calls to, and the methods of it that v2.rs calls without containing them.
use crate::{
    AccessWidth, GicAffinity, GicVcpuId, IntId, SgiId, SgiTarget, VgicError, VgicResult,
    register::GICD_CTLR, registers,
};
use std::cell::{Cell, RefCell, RefMut};

include!(concat!(env!("OUT_DIR"), "/v2_root.rs"));
pub mod message_frame;
pub mod state;
use state::{PhysicalBinding, State};

#[derive(Clone)]
pub struct GicV3Controller {
    inner: Inner,
}

#[derive(Clone)]
struct Inner {
    config: Config,
    state: Lock,
    backend: Backend,
}

#[derive(Clone)]
pub(crate) struct Config {
    vcpu_count: usize,
    spi_limit: u32,
}

/// Nobody else has the state: a lock is a borrow.
#[derive(Clone)]
struct Lock(RefCell<State>);

/// Keeps the retired number until the call's answer takes it.
#[derive(Clone)]
struct Backend {
    retired: Cell<Option<IntId>>,
}

/// The wake set is found by trying IAR, so no wake is ever made.
pub trait GicV3VcpuWake {
    fn wake(&self) -> VgicResult;
}

impl GicV3Controller {
    /// A fresh controller. The numbers are within document 01's limits.
    pub(crate) fn new(vcpu_count: usize, spi_limit: u32) -> Self {
        Self {
            inner: Inner {
                config: Config {
                    vcpu_count,
                    spi_limit,
                },
                state: Lock(RefCell::new(State::new(vcpu_count, spi_limit))),
                backend: Backend {
                    retired: Cell::new(None),
                },
            },
        }
    }

    pub(crate) fn vcpu_count(&self) -> usize {
        self.inner.config.vcpu_count
    }

    pub(crate) fn state(&self) -> RefMut<'_, State> {
        self.inner.state.lock()
    }

    pub(crate) fn take_retired(&self) -> Option<IntId> {
        self.inner.backend.retired.take()
    }

    fn read_distributor(&self, offset: u64, width: AccessWidth) -> VgicResult<u64> {
        registers::read(&self.state().distributor, offset, width)
    }

    /// CTLR comes in the GICv3 form: v2.rs has moved the enable bit to bit 1.
    fn write_distributor(&self, offset: u64, width: AccessWidth, value: u64) -> VgicResult {
        let distributor = &mut self.state().distributor;
        if offset == GICD_CTLR {
            distributor.set_enabled(value & 0b10 != 0);
            return Ok(());
        }
        registers::write(distributor, offset, width, value)
    }

    /// Looks the sender up even where no target is left.
    fn send_sgi(&self, source: GicVcpuId, sgi: SgiId, targets: SgiTarget) -> VgicResult {
        let mut state = self.state();
        state.redistributor(source, "send SGI")?;
        let own = GicAffinity(source.raw());
        for (_, redistributor) in &mut state.redistributors {
            let affinity = redistributor.affinity();
            let sent = match &targets {
                SgiTarget::Affinities(affinities) => affinities.contains(&affinity),
                SgiTarget::AllExceptSelf => affinity != own,
                SgiTarget::SelfOnly => affinity == own,
            };
            if sent {
                redistributor.pend_sgi(source, sgi);
            }
        }
        Ok(())
    }

    fn complete_physical_spi(&self, _vcpu: GicVcpuId, binding: PhysicalBinding) -> VgicResult {
        match binding {}
    }

    /// Device input (document 01's design): sets the line of a PPI of this vCPU, or of an SPI.
    pub(crate) fn set_level(&self, vcpu: GicVcpuId, number: u64, asserted: bool) -> VgicResult {
        let input = self.input(number)?;
        self.state()
            .transit(vcpu, input, |it| it.record.set_level(asserted))
    }

    /// Device input: pulses a PPI of this vCPU, or an SPI.
    pub(crate) fn pulse(&self, vcpu: GicVcpuId, number: u64) -> VgicResult {
        let input = self.input(number)?;
        self.state().transit(vcpu, input, |it| it.record.pulse())
    }

    fn input(&self, number: u64) -> VgicResult<IntId> {
        if (16..u64::from(self.inner.config.spi_limit)).contains(&number) {
            IntId::new(number as u32)
        } else {
            Err(VgicError::NoInput(number))
        }
    }
}

impl Config {
    fn distributor_size(&self) -> u64 {
        0x1000
    }

    fn spi_limit(&self) -> u32 {
        self.spi_limit
    }

    fn vcpu_count(&self) -> usize {
        self.vcpu_count
    }
}

impl Lock {
    fn lock(&self) -> RefMut<'_, State> {
        self.0.borrow_mut()
    }

    fn lock_irqsave(&self) -> RefMut<'_, State> {
        self.lock()
    }
}

impl Backend {
    fn retire_emulated_interrupt(&self, _vcpu: GicVcpuId, intid: IntId) -> VgicResult {
        self.retired.set(Some(intid));
        Ok(())
    }
}

pub fn backend_result(result: VgicResult) -> VgicResult {
    result
}
