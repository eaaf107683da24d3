//! The stand-in that v2.rs is compiled over. It keeps no state: it writes down what it is asked and answers something harmless.
//!
//! There are 8 vCPUs, the SPI limit is 1020, Distributor and CPU interfaces are on, and no interrupt is ever offered.
use crate::{
    AccessWidth, GicAffinity, GicVcpuId, IntId, Priority, SgiId, SgiTarget, SpiId, VgicResult,
    log::see, place,
};
use std::{array, sync::Arc};

include!(concat!(env!("OUT_DIR"), "/v2_root.rs"));
pub(crate) use v2::access;

mod unreached;
use unreached::Backend;
pub use unreached::{backend_result, state};

const VCPUS: usize = 8;

pub struct GicV3Controller {
    inner: Inner,
}

struct Inner {
    config: Config,
    state: Lock,
    backend: Backend,
}

struct Config;

struct Lock;

struct State {
    distributor: Distributor,
    redistributors: [(GicVcpuId, Redistributor); VCPUS],
}

struct Distributor;

struct Redistributor {
    affinity: GicAffinity,
    cpu: CpuInterfaceState,
}

#[derive(Clone)]
pub struct CpuInterfaceState;

pub trait GicV3VcpuWake {
    fn wake(&self) -> VgicResult;
}

type Wake = Option<Arc<dyn GicV3VcpuWake>>;

impl GicV3Controller {
    pub fn new() -> Self {
        Self {
            inner: Inner {
                config: Config,
                state: Lock,
                backend: Backend,
            },
        }
    }

    fn read_distributor(&self, offset: u64, width: AccessWidth) -> VgicResult<u64> {
        see("read_distributor", [offset, width.size() as u64]);
        place::test(offset, width, "read").map(|()| 0)
    }

    fn write_distributor(&self, offset: u64, width: AccessWidth, value: u64) -> VgicResult {
        see("write_distributor", [offset, width.size() as u64, value]);
        place::test(offset, width, "write")
    }

    /// Listed targets are written down as a mask, the other two forms by names of their own.
    fn send_sgi(&self, source: GicVcpuId, sgi: SgiId, targets: SgiTarget) -> VgicResult {
        let (source, sgi) = (source.raw() as u64, sgi.raw().into());
        match targets {
            SgiTarget::Affinities(vcpus) => {
                let mask = vcpus.iter().map(|vcpu| 1 << vcpu.0).sum();
                see("send_sgi", [source, sgi, mask]);
            }
            SgiTarget::AllExceptSelf => see("send_sgi to the others", [source, sgi]),
            SgiTarget::SelfOnly => see("send_sgi to itself", [source, sgi]),
        }
        Ok(())
    }
}

impl Config {
    fn distributor_size(&self) -> u64 {
        0x1000
    }

    fn spi_limit(&self) -> u32 {
        1020
    }

    fn vcpu_count(&self) -> usize {
        VCPUS
    }
}

impl Lock {
    fn lock(&self) -> State {
        State {
            distributor: Distributor,
            redistributors: array::from_fn(|vcpu| {
                let redistributor = Redistributor {
                    affinity: GicAffinity(vcpu),
                    cpu: CpuInterfaceState,
                };
                (GicVcpuId::new(vcpu), redistributor)
            }),
        }
    }

    fn lock_irqsave(&self) -> State {
        self.lock()
    }
}

impl State {
    fn redistributor(
        &self,
        vcpu: GicVcpuId,
        operation: &'static str,
    ) -> VgicResult<&Redistributor> {
        see(operation, [vcpu.raw() as u64]);
        Ok(&self.redistributors[vcpu.raw()].1)
    }

    fn redistributor_mut(
        &mut self,
        vcpu: GicVcpuId,
        operation: &'static str,
    ) -> VgicResult<&mut Redistributor> {
        see(operation, [vcpu.raw() as u64]);
        Ok(&mut self.redistributors[vcpu.raw()].1)
    }

    fn queue_local_if_deliverable(&self, vcpu: GicVcpuId, intid: IntId) -> VgicResult<Wake> {
        see(
            "queue_local_if_deliverable",
            [vcpu.raw() as u64, intid.raw().into()],
        );
        Ok(None)
    }

    fn has_software_backing(&self, spi: SpiId, _config: &Config) -> bool {
        see("has_software_backing", [spi.raw().into()]);
        true
    }

    fn queue_spi_if_deliverable(&self, spi: SpiId) -> VgicResult<Wake> {
        see("queue_spi_if_deliverable", [spi.raw().into()]);
        Ok(None)
    }

    fn deactivate_interrupt(
        &self,
        vcpu: GicVcpuId,
        intid: IntId,
    ) -> VgicResult<Option<state::DeliveryRetirement>> {
        see(
            "deactivate_interrupt",
            [vcpu.raw() as u64, intid.raw().into()],
        );
        Ok(None)
    }
}

impl Distributor {
    fn enabled(&self) -> bool {
        see("enabled", []);
        true
    }

    fn cpu_target_mask(&self, spi: SpiId) -> VgicResult<u8> {
        see("cpu_target_mask", [spi.raw().into()]);
        Ok(0)
    }

    fn set_cpu_target_mask(&mut self, spi: SpiId, mask: u8) -> VgicResult {
        see("set_cpu_target_mask", [spi.raw().into(), mask.into()]);
        Ok(())
    }
}

impl Redistributor {
    fn read_private_register(
        &self,
        offset: u64,
        width: AccessWidth,
        _config: &Config,
    ) -> VgicResult<u64> {
        see("read_private_register", [offset, width.size() as u64]);
        place::test(offset, width, "read").map(|()| 0)
    }

    fn write_private_register(
        &mut self,
        offset: u64,
        width: AccessWidth,
        value: u64,
        _config: &Config,
    ) -> VgicResult<Vec<IntId>> {
        see(
            "write_private_register",
            [offset, width.size() as u64, value],
        );
        place::test(offset, width, "write").map(|()| Vec::new())
    }

    fn affinity(&self) -> GicAffinity {
        self.affinity
    }

    fn sgi_sources(&self, sgi: SgiId) -> u8 {
        see("sgi_sources", [sgi.raw().into()]);
        0
    }

    fn pend_sgi(&mut self, source: GicVcpuId, sgi: SgiId) {
        see("pend_sgi", [source.raw() as u64, sgi.raw().into()]);
    }

    fn clear_sgi_sources(&mut self, sgi: SgiId, mask: u8) {
        see("clear_sgi_sources", [sgi.raw().into(), mask.into()]);
    }

    fn cpu_interface(&self) -> &CpuInterfaceState {
        &self.cpu
    }

    fn cpu_interface_mut(&mut self) -> &mut CpuInterfaceState {
        &mut self.cpu
    }

    fn highest_pending(
        &self,
        _mask: Priority,
        _priority: impl Fn(SpiId) -> VgicResult<Priority>,
    ) -> VgicResult<Option<(IntId, Priority)>> {
        see("highest_pending", []);
        Ok(None)
    }
}

impl CpuInterfaceState {
    fn v2_enabled(&self) -> bool {
        see("v2_enabled", []);
        true
    }

    fn v2_eoi_mode(&self) -> bool {
        see("v2_eoi_mode", []);
        false
    }

    fn v2_control(&self) -> u32 {
        see("v2_control", []);
        0
    }

    fn set_v2_control(&mut self, value: u32) {
        see("set_v2_control", [value.into()]);
    }

    fn v2_priority_mask(&self) -> Priority {
        see("v2_priority_mask", []);
        Priority(0)
    }

    fn set_v2_priority_mask(&mut self, value: u8) {
        see("set_v2_priority_mask", [value.into()]);
    }

    fn v2_binary_point(&self) -> u8 {
        see("v2_binary_point", []);
        0
    }

    fn set_v2_binary_point(&mut self, value: u8) {
        see("set_v2_binary_point", [value.into()]);
    }

    fn v2_running_priority(&self) -> Priority {
        see("v2_running_priority", []);
        Priority(0)
    }

    fn drop_v2_priority(&mut self, intid: IntId) -> bool {
        see("drop_v2_priority", [intid.raw().into()]);
        true
    }
}
