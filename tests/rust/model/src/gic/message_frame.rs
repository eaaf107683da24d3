//! Request Seven's frame, by which a device rings with memory writes: "a GICv2m frame of 0x1000 bytes beside the Distributor". The window
//! "is a first number and a count that the caller gives with each call; it is in no state or image". "No vCPU is looked up."
use super::{Answer, Gic, gives, refused};
use crate::place::{bad_span, cut};

const V2M_FRAME: u64 = 0x1000;
const TYPER: u64 = 0x008;
const SETSPI: u64 = 0x040;

impl Gic {
    /// "TYPER at 0x008 with the first SPI in bits 25:16 and how many in bits 9:0"; "SETSPI reads 0", "other places read 0".
    pub fn v2m_read(&self, first: u64, count: u64, off: u64, width: u64) -> Answer {
        match self.v2m_refusal(first, count, off, width) {
            0 if off == TYPER => gives((first << 16) | count),
            0 => gives(0),
            no => refused(no),
        }
    }

    /// "TYPER ignores writes", "other places [..] ignore writes".
    pub fn v2m_write(
        &mut self,
        first: u64,
        count: u64,
        off: u64,
        width: u64,
        value: u64,
    ) -> Answer {
        let no = self.v2m_refusal(first, count, off, width);
        if no != 0 {
            return refused(no);
        }
        match self.rung(first, count, off, width, value) {
            Some(id) => self.input(0, id, None), // of an SPI, so vCPU 0 is not looked up either
            None => gives(0),
        }
    }

    /// "Writing a number inside the window pulses that SPI; any other number does nothing": which SPI an accepted write pulses.
    pub(crate) fn rung(
        &self,
        first: u64,
        count: u64,
        off: u64,
        width: u64,
        value: u64,
    ) -> Option<u64> {
        let number = cut(value, width); // all 32 bits of it
        let accepted = self.v2m_refusal(first, count, off, width) == 0;
        let inside = accepted && (first..first + count).contains(&number);
        (inside && off == SETSPI).then_some(number)
    }

    /// "11, after 6 and before 1 and 2, for a window that breaks these limits"; 0 for none. "Both take 4-byte accesses; another width at
    /// their first byte is refused by 2, a start further in is an other place."
    fn v2m_refusal(&self, first: u64, count: u64, off: u64, width: u64) -> u64 {
        let is_register = off == TYPER || off == SETSPI;
        if !self.is_window(first, count) {
            11
        } else if bad_span(off, width, V2M_FRAME) {
            1
        } else if is_register && width != 4 {
            2
        } else {
            0
        }
    }

    /// "It lies from 32 up to, not including, the limit and has at least one number." A sum that overflows is past every limit.
    fn is_window(&self, first: u64, count: u64) -> bool {
        let end = first.checked_add(count);
        first >= 32 && count >= 1 && end.is_some_and(|end| end <= self.limit)
    }
}
