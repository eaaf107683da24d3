//! The message-signalled frame: document 02's request Seven.
use crate::{
    Width,
    distributor::check_span,
    gic::{Answer, Gic, Refusal, Reply, value},
};

const FRAME: u64 = 0x1000;

/// The SPIs that a card may ring, which the caller gives with each call.
#[derive(Clone, Copy, Debug, PartialEq, Eq)]
pub struct Window {
    pub first: u64,
    pub count: u64,
}

/// What stands at an offset.
enum Place {
    Typer,
    SetSpi,
    Other,
}

impl Window {
    fn contains(self, number: u64) -> bool {
        number >= self.first && number - self.first < self.count
    }
}

impl Gic {
    pub fn read_message_frame(&self, window: Window, offset: u64, width: Width) -> Answer {
        Ok(value(match self.frame_place(window, offset, width)? {
            Place::Typer => (window.first << 16 | window.count) as u32,
            Place::SetSpi | Place::Other => 0,
        }))
    }

    /// A number of the window is pulsed; any other does nothing.
    pub fn write_message_frame(
        &mut self,
        window: Window,
        offset: u64,
        width: Width,
        written: u64,
    ) -> Answer {
        let number = u64::from(written as u32);
        match self.frame_place(window, offset, width)? {
            Place::SetSpi if window.contains(number) => self.pulse(0, number),
            _ => Ok(Reply::default()),
        }
    }

    fn frame_place(&self, window: Window, offset: u64, width: Width) -> Result<Place, Refusal> {
        let end = window.first.checked_add(window.count);
        let ends_below = end.is_some_and(|end| end <= u64::from(self.limit));
        if window.first < 32 || window.count == 0 || !ends_below {
            return Err(Refusal::Window);
        }
        check_span(offset, width, FRAME)?;
        let place = match offset {
            0x008 => Place::Typer,
            0x040 => Place::SetSpi,
            _ => return Ok(Place::Other),
        };
        if width == Width::Dword {
            Ok(place)
        } else {
            Err(Refusal::Width)
        }
    }
}
