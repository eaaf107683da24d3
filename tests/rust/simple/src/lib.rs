//! Document 01's rules in plain Rust, as one would write them in a day: records in a `Vec`, loops, a `match` on offsets. It is what
//! `tests/bench` measures the library against, and owns its state. `image`, by contrast, is over lent words, as what it is measured against.
mod cpu_interface;
mod distributor;
mod gic;
pub mod image;
pub mod lines;
mod message_frame;
mod record;

pub use gic::{Answer, Gic, Refusal, Reply};
pub use message_frame::Window;

/// How many bytes an access reads or writes.
#[derive(Clone, Copy, Debug, PartialEq, Eq)]
pub enum Width {
    Byte = 1,
    Word = 2,
    Dword = 4,
    Qword = 8,
}

impl Width {
    pub fn new(bytes: u64) -> Option<Self> {
        match bytes {
            1 => Some(Self::Byte),
            2 => Some(Self::Word),
            4 => Some(Self::Dword),
            8 => Some(Self::Qword),
            _ => None,
        }
    }

    pub fn bytes(self) -> u64 {
        self as u64
    }
}
