//! What each vCPU has of its own: its SGIs and PPIs, the SGIs' sources, its CPU interface.
use crate::{
    AccessWidth, CpuInterfaceState, GicAffinity, GicVcpuId, IntId, InterruptRecord, InterruptState,
    Priority, SgiId, SpiId, VgicError, VgicResult,
    controller::Config,
    distributor::DistributorState,
    registers::{self, Bank, Interrupt, Interrupts},
};

#[derive(Clone, PartialEq)]
pub(crate) struct RedistributorState {
    vcpu: GicVcpuId,
    /// Numbers 0 to 31.
    pub private: Interrupts,
    pub sources: [u8; 16],
    cpu: CpuInterfaceState,
}

/// Document 01 has the in-flight mark and the owner in place of delivery slots, so nothing is in one.
pub(crate) struct QueuedDelivery;

impl QueuedDelivery {
    pub fn set_state(&mut self, _state: InterruptState) {}
}

impl RedistributorState {
    pub fn new(vcpu: GicVcpuId) -> Self {
        Self {
            vcpu,
            private: Interrupts::new(0..32),
            sources: [0; 16],
            cpu: CpuInterfaceState::new(),
        }
    }

    pub fn affinity(&self) -> GicAffinity {
        GicAffinity(self.vcpu.raw())
    }

    pub fn private_mut(&mut self, intid: IntId) -> VgicResult<&mut InterruptRecord> {
        let it = self.private.get_mut(intid.raw() as usize);
        it.map(|it| &mut it.record)
            .ok_or(VgicError::NoInterrupt(intid.raw()))
    }

    pub fn cpu_interface(&self) -> &CpuInterfaceState {
        &self.cpu
    }

    pub fn cpu_interface_mut(&mut self) -> &mut CpuInterfaceState {
        &mut self.cpu
    }

    /// What v2.rs would offer to queue is left to the wake set, so none is named.
    pub fn write_private_register(
        &mut self,
        offset: u64,
        width: AccessWidth,
        value: u64,
        _config: &Config,
    ) -> VgicResult<Vec<IntId>> {
        registers::write(self, offset, width, value).map(|()| Vec::new())
    }

    pub fn sgi_sources(&self, sgi: SgiId) -> u8 {
        self.sources[usize::from(sgi.raw())]
    }

    pub fn has_sgi_sources(&self, sgi: SgiId) -> bool {
        self.sgi_sources(sgi) != 0
    }

    pub fn pend_sgi(&mut self, source: GicVcpuId, sgi: SgiId) {
        self.set_sgi_sources(sgi, self.sgi_sources(sgi) | 1 << source.raw());
    }

    /// A zero byte changes nothing.
    pub fn clear_sgi_sources(&mut self, sgi: SgiId, mask: u8) {
        if mask != 0 {
            self.set_sgi_sources(sgi, self.sgi_sources(sgi) & !mask);
        }
    }

    /// "A byte with a 1 bit leaves its SGI pending, by `set_pending`, exactly when a source is then set."
    fn set_sgi_sources(&mut self, sgi: SgiId, sources: u8) {
        let number = usize::from(sgi.raw());
        self.sources[number] = sources;
        self.private[number].record.set_pending(sources != 0);
    }

    /// Takes the lowest source, 0 if none is set.
    pub fn take_sgi_source(&mut self, sgi: SgiId) -> u8 {
        let sources = &mut self.sources[usize::from(sgi.raw())];
        match sources.trailing_zeros() {
            8 => 0,
            lowest => {
                *sources &= !(1 << lowest);
                lowest as u8
            }
        }
    }

    /// The chosen interrupt is there, unless the stack holds no more: then v2.rs ends the call with nothing changed (refusal 7).
    pub fn take_pending_delivery(&mut self, _intid: IntId) -> Option<QueuedDelivery> {
        (!self.cpu.is_full()).then_some(QueuedDelivery)
    }

    pub fn store_active_delivery(&mut self, _delivery: QueuedDelivery, _state: InterruptState) {}
}

impl Bank for RedistributorState {
    fn find(&self, number: u32) -> Option<&Interrupt> {
        self.private.get(number as usize)
    }

    fn transit<T>(
        &mut self,
        number: u32,
        transitions: impl FnOnce(&mut Interrupt) -> T,
    ) -> Option<T> {
        self.private.get_mut(number as usize).map(transitions)
    }
}

/// One vCPU's state as v2.rs reads it. It sees the SPIs too, since without delivery slots nothing of them is kept at a vCPU.
pub(crate) struct Redistributor<'a> {
    pub own: &'a RedistributorState,
    pub distributor: &'a DistributorState,
}

impl<'a> Redistributor<'a> {
    pub fn read_private_register(
        &self,
        offset: u64,
        width: AccessWidth,
        _config: &Config,
    ) -> VgicResult<u64> {
        registers::read(self.own, offset, width)
    }

    pub fn cpu_interface(&self) -> &'a CpuInterfaceState {
        self.own.cpu_interface()
    }

    pub fn sgi_sources(&self, sgi: SgiId) -> u8 {
        self.own.sgi_sources(sgi)
    }

    /// Document 01's best candidate: the smallest priority below the mask, then the smallest number.
    pub fn highest_pending(
        &self,
        mask: Priority,
        spi_priority: impl Fn(SpiId) -> VgicResult<Priority>,
    ) -> VgicResult<Option<(IntId, Priority)>> {
        let named = |it: &&Interrupt| {
            let mask = it.record.cpu_target_mask().unwrap_or(0);
            mask & 1 << self.own.vcpu.raw() != 0
        };
        let private = self.own.private.iter().filter(|it| it.ready());
        // DEPARTURE, here in the stand-in: document 02 (Five), an SPI is a candidate by its bit, and not by its record as in document 01.
        let spis = self.distributor.summarized().filter(named);
        let mut best: Option<(IntId, Priority)> = None;
        for it in private.chain(spis) {
            let intid = it.record.intid();
            let priority = match intid {
                IntId::Spi(spi) => spi_priority(spi)?,
                _ => it.record.priority(),
            };
            // Numbers rise, so of equal priorities the first stays.
            if priority < best.map_or(mask, |(_, priority)| priority) {
                best = Some((intid, priority));
            }
        }
        Ok(best)
    }
}
