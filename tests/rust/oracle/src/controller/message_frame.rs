//! The message-signalled frame of document 02 (Seven). Neither file has one: this is a stand-in by the request's text, over the pulse that
//! devices have.
use super::GicV3Controller;
use crate::{AccessWidth, GicVcpuId, VgicError, VgicResult};

/// The window: its first number in bits 25:16, how many in bits 9:0.
pub const TYPER: u64 = 0x008;
/// A write of a number of the window pulses it.
pub const SETSPI: u64 = 0x040;
/// The frame's bytes.
pub const SIZE: u64 = 0x1000;

/// The SPIs that messages ring: any numbers, which the caller gives with each call.
#[derive(Clone, Copy, Debug, PartialEq, Eq)]
pub struct Window {
    pub first: u64,
    pub count: u64,
}

/// Where the frame is read or written. Nobody is looked up.
#[derive(Clone, Copy, Debug, PartialEq, Eq)]
pub struct FrameAccess {
    pub window: Window,
    pub offset: u64,
    pub width: AccessWidth,
}

impl Window {
    /// From 32 up to, not including, the limit, and at least one number. The sum of any two numbers is below 2^128.
    pub fn lies_below(self, limit: u64) -> bool {
        let end = u128::from(self.first) + u128::from(self.count);
        self.first >= 32 && self.count >= 1 && end <= u128::from(limit)
    }

    pub fn contains(self, number: u64) -> bool {
        number >= self.first && number - self.first < self.count
    }
}

impl GicV3Controller {
    pub(crate) fn read_message_frame(&self, at: FrameAccess) -> VgicResult<u64> {
        self.accept(at)?;
        Ok(match at.offset {
            TYPER => at.window.first << 16 | at.window.count,
            _ => 0,
        })
    }

    /// The number is all of the 4 bytes that are written.
    pub(crate) fn write_message_frame(&self, at: FrameAccess, value: u64) -> VgicResult {
        self.accept(at)?;
        let number = value & 0xffff_ffff;
        if at.offset == SETSPI && at.window.contains(number) {
            self.pulse(GicVcpuId::new(0), number)?;
        }
        Ok(())
    }

    /// Refusals 11, 1 and 2, in this order. Another width is refused at the first byte of a register alone.
    fn accept(&self, at: FrameAccess) -> VgicResult {
        let FrameAccess { window, offset, .. } = at;
        let size = at.width.size() as u64;
        if !window.lies_below(self.inner.config.spi_limit.into()) {
            return Err(VgicError::NoWindow(window.first, window.count));
        }
        if !offset.is_multiple_of(size) || offset.checked_add(size).is_none_or(|end| end > SIZE) {
            return Err(VgicError::OutsideMessageFrame(offset));
        }
        if matches!(offset, TYPER | SETSPI) && at.width != AccessWidth::Dword {
            return Err(VgicError::Width);
        }
        Ok(())
    }
}
