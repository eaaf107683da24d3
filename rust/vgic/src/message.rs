//! The message-signalled frame (GICv2m): a card rings an SPI by a memory write.
use crate::{AccessWidth, Gic, IntId, Refusal, Reply, answer, raw};

/// The SPIs that a frame rings, for one card or several: `count` of them from `first` on, at least one, none below 32 and all below the limit. It is the host's, and
/// in no state and no image: give the same one with each call, and after a move.
#[derive(Clone, Copy, Debug, PartialEq, Eq)]
pub struct Window {
    /// The first SPI's number.
    pub first: IntId,
    /// How many there are.
    pub count: u64,
}

impl Gic<'_> {
    /// A read of the message frame of this window: [`V2M_TYPER`](crate::offset::V2M_TYPER) tells the window, all else reads 0.
    pub fn read_v2m(
        &self,
        window: Window,
        offset: u64,
        width: AccessWidth,
    ) -> Result<Reply, Refusal> {
        let (words, length) = (self.words.as_ptr(), self.words.len());
        let Window {
            first: IntId(first),
            count,
        } = window;
        // SAFETY: the words are ours, and are read only.
        answer::unpacked(unsafe {
            raw::vgic_read_v2m(words, length, first, count, offset, width.size())
        })
    }

    /// A write to the message frame of this window, by a card or by the guest: at [`V2M_SETSPI`](crate::offset::V2M_SETSPI) a number of the
    /// window pulses that SPI, and all else does nothing. Wake whom the reply names, as after any write. Bits of the value above the width are
    /// ignored.
    pub fn write_v2m(
        &mut self,
        window: Window,
        offset: u64,
        width: AccessWidth,
        value: u64,
    ) -> Result<Reply, Refusal> {
        let (words, length) = self.lent();
        let Window {
            first: IntId(first),
            count,
        } = window;
        // SAFETY: as in `setup`.
        answer::unpacked(unsafe {
            raw::vgic_write_v2m(words, length, first, count, offset, width.size(), value)
        })
    }
}
