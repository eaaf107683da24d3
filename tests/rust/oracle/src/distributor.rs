//! The Distributor's own state: its switch, the SPIs, and beside them the summary of the ready (document 02, Five).
use crate::{
    InterruptRecord, SpiId, VgicError, VgicResult,
    registers::{Bank, Interrupt, Interrupts},
    words::summary_words,
};

#[derive(Clone, PartialEq)]
pub(crate) struct DistributorState {
    enabled: bool,
    /// The SPIs, from number 32 to the limit. A call changes one by `transit` alone.
    pub spis: Interrupts,
    /// A bit for each SPI, 32 to a word; those of the last word from the limit up are nobody's, and stay. In lent words any may be false.
    pub summary: Vec<u32>,
}

impl DistributorState {
    pub fn new(spi_limit: u32) -> Self {
        Self {
            enabled: false,
            spis: Interrupts::new(32..spi_limit),
            summary: vec![0; summary_words(spi_limit as usize)],
        }
    }

    pub fn enabled(&self) -> bool {
        self.enabled
    }

    pub fn set_enabled(&mut self, enabled: bool) {
        self.enabled = enabled;
    }

    pub fn interrupt(&self, spi: SpiId) -> VgicResult<&InterruptRecord> {
        let it = self.find(spi.raw());
        it.map(|it| &it.record)
            .ok_or(VgicError::NoInterrupt(spi.raw()))
    }

    /// Unset reads 0.
    pub fn cpu_target_mask(&self, spi: SpiId) -> VgicResult<u8> {
        Ok(self.interrupt(spi)?.cpu_target_mask().unwrap_or(0))
    }

    pub fn set_cpu_target_mask(&mut self, spi: SpiId, mask: u8) -> VgicResult {
        self.transit(spi.raw(), |it| it.record.set_cpu_target_mask(mask))
            .ok_or(VgicError::NoInterrupt(spi.raw()))
    }

    /// The SPIs whose bits are set, whatever their records say.
    pub fn summarized(&self) -> impl Iterator<Item = &Interrupt> {
        let bits = |index: usize| self.summary[index / 32] >> (index % 32);
        let all = self.spis.iter().enumerate();
        all.filter(move |(index, _)| bits(*index) & 1 == 1)
            .map(|(_, it)| it)
    }
}

impl Bank for DistributorState {
    fn find(&self, number: u32) -> Option<&Interrupt> {
        self.spis.get(number.checked_sub(32)? as usize)
    }

    /// Sets the SPI's own bit anew, and no other.
    fn transit<T>(
        &mut self,
        number: u32,
        transitions: impl FnOnce(&mut Interrupt) -> T,
    ) -> Option<T> {
        let index = number.checked_sub(32)? as usize;
        let it = self.spis.get_mut(index)?;
        let outcome = transitions(it);
        let (word, bit) = (&mut self.summary[index / 32], 1 << (index % 32));
        *word = if it.ready() {
            *word | bit
        } else {
            *word & !bit
        };
        Some(outcome)
    }
}
