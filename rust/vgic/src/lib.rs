//! A GICv2 interrupt controller for small Arm guests: the proved library `libvgic.a`, safe to call from Rust. It needs neither `std` nor a
//! heap, and nothing in it panics.
//!
//! The caller lends the controller's whole state as words ([`Gic::lend`]) and has them back after each call. There is no call that is
//! undefined: for any words, any length and any numbers each answers a [`Reply`] or a [`Refusal`], and a refused call leaves every word as
//! it was.
//!
//! A guest's first steps, and one software interrupt from vCPU 0 to vCPU 1:
//!
//! ```
//! use vgic::{AccessWidth::{Dword, Qword}, Gic, GicVcpuId, IntId, Refusal, offset};
//!
//! # fn main() -> Result<(), Refusal> {
//! // Two vCPUs, and interrupts below 40.
//! const WORDS: usize = vgic::state_words(2, 40).expect("in range");
//! let mut words = [0; WORDS];
//! let mut gic = Gic::lend(&mut words);
//! gic.setup(2, 40)?;
//! let (first, second) = (GicVcpuId(0), GicVcpuId(1));
//!
//! // The guest turns on the Distributor and vCPU 1's interface, and lets every priority through.
//! gic.write_v2_distributor(first, offset::GICD_CTLR, Dword, 1)?;
//! gic.write_v2_cpu_interface(second, offset::GICC_CTLR, Dword, 1)?;
//! gic.write_v2_cpu_interface(second, offset::GICC_PMR, Dword, 255)?;
//!
//! // vCPU 0 sends SGI 5 to vCPU 1, which has to be woken: its IRQ line is up.
//! let sent = gic.write_v2_distributor(first, offset::GICD_SGIR, Dword, 0x0002_0005)?;
//! assert!(sent.wake.vcpus().eq([second]));
//! assert!(gic.irq_level(second)?);
//!
//! // It acknowledges the interrupt, and the line is down: there is no other.
//! assert_eq!(gic.read_v2_cpu_interface(second, offset::GICC_IAR, Dword)?.value, 5);
//! assert!(!gic.irq_level(second)?);
//! assert_eq!(gic.read_v2_cpu_interface(second, offset::GICC_IAR, Dword)?.value, 1023);
//! assert_eq!(gic.interrupt(second, IntId(5))?.owner, Some(second));
//!
//! // It ends it: the service of 5 has ended.
//! let ended = gic.write_v2_cpu_interface(second, offset::GICC_EOIR, Dword, 5)?;
//! assert_eq!(ended.retired, Some(IntId(5)));
//! assert_eq!(gic.interrupt(second, IntId(5))?.owner, None);
//!
//! // What a guest may get wrong is refused by its reason, and changes nothing.
//! let wide = gic.read_v2_distributor(first, offset::GICD_ITARGETSR, Qword);
//! assert_eq!(wide, Err(Refusal::Width));
//! let stranger = gic.read_v2_cpu_interface(GicVcpuId(9), offset::GICC_HPPIR, Dword);
//! assert_eq!(stranger, Err(Refusal::Vcpu));
//! # Ok(())
//! # }
//! ```
//!
//! A guest moves to another host: its controller is saved as an image and loaded into other words, and whoever has an interrupt to take
//! is woken there.
//!
//! ```
//! use vgic::{AccessWidth::Dword, Gic, GicVcpuId, Refusal, offset};
//!
//! # fn main() -> Result<(), Refusal> {
//! # const WORDS: usize = vgic::state_words(2, 40).expect("in range");
//! # let mut words = [0; WORDS];
//! # let mut gic = Gic::lend(&mut words);
//! # gic.setup(2, 40)?;
//! # let (first, second) = (GicVcpuId(0), GicVcpuId(1));
//! # gic.write_v2_distributor(first, offset::GICD_CTLR, Dword, 1)?;
//! # gic.write_v2_cpu_interface(second, offset::GICC_CTLR, Dword, 1)?;
//! # gic.write_v2_cpu_interface(second, offset::GICC_PMR, Dword, 255)?;
//! // vCPU 0 has sent SGI 5 to vCPU 1, which has not taken it yet. The guest is stopped: nobody makes a call any more.
//! gic.write_v2_distributor(first, offset::GICD_SGIR, Dword, 0x0002_0005)?;
//! let mut buffer = [0; vgic::MAX_IMAGE_BYTES];
//! let length = gic.save(&mut buffer)?;
//! let image = &buffer[..length];
//!
//! // On the other host the image tells how many words to lend. They may hold anything.
//! let shape = vgic::image_shape(image)?;
//! assert_eq!(vgic::state_words(shape.count, shape.limit), Some(WORDS));
//! let mut elsewhere = [0xffff_ffff; WORDS];
//! let mut moved = Gic::lend(&mut elsewhere);
//! moved.load(image)?;
//!
//! // A load wakes nobody, so ask for every line: vCPU 1's is up, and it has to be woken.
//! for vcpu in (0..shape.count).map(GicVcpuId) {
//!     assert_eq!(moved.irq_level(vcpu)?, vcpu == second);
//! }
//!
//! // It takes there what was sent here.
//! assert_eq!(moved.read_v2_cpu_interface(second, offset::GICC_IAR, Dword)?.value, 5);
//!
//! // Bytes that are no image are refused, and the words are as they were.
//! assert_eq!(moved.load(&image[..length - 1]), Err(Refusal::Image));
//! # Ok(())
//! # }
//! ```
//!
//! A card rings by memory writes: the guest learns from the message frame which SPIs are the card's, and gives it one of their numbers.
//!
//! ```
//! use vgic::{AccessWidth::{Byte, Dword}, Gic, GicVcpuId, IntId, Refusal, Window, offset};
//!
//! # fn main() -> Result<(), Refusal> {
//! # const WORDS: usize = vgic::state_words(2, 40).expect("in range");
//! # let mut words = [0; WORDS];
//! # let mut gic = Gic::lend(&mut words);
//! # gic.setup(2, 40)?;
//! # let (first, second) = (GicVcpuId(0), GicVcpuId(1));
//! # gic.write_v2_distributor(first, offset::GICD_CTLR, Dword, 1)?;
//! # gic.write_v2_cpu_interface(second, offset::GICC_CTLR, Dword, 1)?;
//! # gic.write_v2_cpu_interface(second, offset::GICC_PMR, Dword, 255)?;
//! // The host's frame rings the SPIs 34 to 37. The guest reads TYPER, and takes 36 for its receive queue: edge, to vCPU 1.
//! let window = Window { first: IntId(34), count: 4 };
//! let typer = gic.read_v2m(window, offset::V2M_TYPER, Dword)?.value;
//! assert_eq!((typer >> 16 & 0x3ff, typer & 0x3ff), (34, 4));
//! let queue = u64::from(typer >> 16) + 2;
//! gic.write_v2_distributor(first, offset::GICD_ITARGETSR + queue, Byte, 0b10)?;
//! gic.write_v2_distributor(first, offset::GICD_ICFGR + 8, Dword, 2 << (2 * (queue - 32)))?;
//! gic.write_v2_distributor(first, offset::GICD_ISENABLER + 4, Dword, 1 << (queue - 32))?;
//!
//! // It programs the card with the address of SETSPI and this number. The card's memory write is one call, and wakes vCPU 1.
//! let rung = gic.write_v2m(window, offset::V2M_SETSPI, Dword, queue)?;
//! assert!(rung.wake.vcpus().eq([second]));
//! assert_eq!(gic.read_v2_cpu_interface(second, offset::GICC_IAR, Dword)?.value, 36);
//!
//! // A number that is not in the window does nothing, and a window that no host may give is refused.
//! assert!(gic.write_v2m(window, offset::V2M_SETSPI, Dword, 38)?.wake.is_empty());
//! let past = Window { first: IntId(34), count: 7 };
//! assert_eq!(gic.write_v2m(past, offset::V2M_SETSPI, Dword, queue), Err(Refusal::Window));
//! # Ok(())
//! # }
//! ```
//!
//! To link it, `libvgic.a` has to lie where `build.rs` looks: in the folder that `VGIC_LIB_DIR` names, else in `target/archive/TARGET` of
//! the repository, where `tools/archive --target TARGET target/archive/TARGET` writes it.
#![no_std]
#![deny(missing_docs)]
#![deny(unsafe_op_in_unsafe_fn)]
#![cfg_attr(
    not(test),
    deny(
        clippy::arithmetic_side_effects,
        clippy::expect_used,
        clippy::indexing_slicing,
        clippy::panic,
        clippy::todo,
        clippy::unimplemented,
        clippy::unreachable,
        clippy::unwrap_used
    )
)]

mod answer;
mod image;
mod message;
pub mod offset;
pub mod raw;
mod record;
mod size;

pub use answer::{Refusal, Reply, WakeSet};
pub use image::{ImageShape, MAX_IMAGE_BYTES, image_bytes, image_shape};
pub use message::Window;
pub use record::{InterruptRecord, TriggerMode};
pub use size::{LAYOUT, MAX_STATE_WORDS, state_words};

/// A vCPU's number, whether it exists or not.
#[derive(Clone, Copy, Debug, PartialEq, Eq, PartialOrd, Ord, Hash)]
pub struct GicVcpuId(pub u64);

/// An interrupt's number: SGIs are 0 to 15, PPIs 16 to 31, SPIs from 32. It is never taken for a vCPU's:
///
/// ```compile_fail,E0308
/// use vgic::{Gic, GicVcpuId, IntId};
/// let _ = Gic::lend(&mut []).pulse(IntId(33), GicVcpuId(0));
/// ```
#[derive(Clone, Copy, Debug, PartialEq, Eq, PartialOrd, Ord, Hash)]
pub struct IntId(pub u64);

/// How many bytes an access reads or writes.
#[derive(Clone, Copy, Debug, PartialEq, Eq)]
pub enum AccessWidth {
    /// 1 byte.
    Byte = 1,
    /// 2 bytes.
    Word = 2,
    /// 4 bytes.
    Dword = 4,
    /// 8 bytes.
    Qword = 8,
}

impl IntId {
    /// What a read of IAR or HPPIR gives where there is no interrupt.
    pub const SPURIOUS: Self = Self(1023);
}

impl AccessWidth {
    /// The number of bytes.
    pub const fn size(self) -> u64 {
        self as u64
    }
}

/// 1, 2, 4 and 8 bytes are widths; any other is refused as the library refuses it.
impl TryFrom<u64> for AccessWidth {
    type Error = Refusal;

    fn try_from(bytes: u64) -> Result<Self, Refusal> {
        match bytes {
            1 => Ok(Self::Byte),
            2 => Ok(Self::Word),
            4 => Ok(Self::Dword),
            8 => Ok(Self::Qword),
            _ => Err(Refusal::Width),
        }
    }
}

/// As for a `u64`: for the length of what is read or written.
impl TryFrom<usize> for AccessWidth {
    type Error = Refusal;

    fn try_from(bytes: usize) -> Result<Self, Refusal> {
        Self::try_from(bytes as u64)
    }
}

/// The controller over the words that the caller lends. It keeps nothing else, so words may be copied, kept and lent again.
#[derive(Debug)]
pub struct Gic<'a> {
    words: &'a mut [u32],
}

impl<'a> Gic<'a> {
    /// Over any words at all; words that are no state are refused by every call but [`setup`](Self::setup) and [`load`](Self::load).
    pub fn lend(words: &'a mut [u32]) -> Self {
        Self { words }
    }

    /// The lent words as they are.
    pub fn words(&self) -> &[u32] {
        self.words
    }

    /// Makes the words a fresh state; [`state_words`] says how many are needed, and words past these are never touched.
    pub fn setup(&mut self, count: u64, limit: u64) -> Result<(), Refusal> {
        let (words, length) = self.lent();
        // SAFETY: the words are ours for as long as `self` is borrowed, as in every call below.
        let answer = unsafe { raw::vgic_setup(words, length, count, limit) };
        answer::unpacked(answer).map(|_| ())
    }

    /// A guest's read of the Distributor.
    pub fn read_v2_distributor(
        &self,
        vcpu: GicVcpuId,
        offset: u64,
        width: AccessWidth,
    ) -> Result<Reply, Refusal> {
        let (words, length) = (self.words.as_ptr(), self.words.len());
        // SAFETY: the words are ours, and are read only.
        answer::unpacked(unsafe {
            raw::vgic_read_v2_distributor(words, length, vcpu.0, offset, width.size())
        })
    }

    /// A guest's write to the Distributor; bits of the value above the width are ignored.
    pub fn write_v2_distributor(
        &mut self,
        vcpu: GicVcpuId,
        offset: u64,
        width: AccessWidth,
        value: u64,
    ) -> Result<Reply, Refusal> {
        let (words, length) = self.lent();
        // SAFETY: as in `setup`.
        answer::unpacked(unsafe {
            raw::vgic_write_v2_distributor(words, length, vcpu.0, offset, width.size(), value)
        })
    }

    /// A guest's read of its CPU interface; a read of IAR acknowledges an interrupt.
    pub fn read_v2_cpu_interface(
        &mut self,
        vcpu: GicVcpuId,
        offset: u64,
        width: AccessWidth,
    ) -> Result<Reply, Refusal> {
        let (words, length) = self.lent();
        // SAFETY: as in `setup`.
        answer::unpacked(unsafe {
            raw::vgic_read_v2_cpu_interface(words, length, vcpu.0, offset, width.size())
        })
    }

    /// A guest's write to its CPU interface.
    pub fn write_v2_cpu_interface(
        &mut self,
        vcpu: GicVcpuId,
        offset: u64,
        width: AccessWidth,
        value: u64,
    ) -> Result<Reply, Refusal> {
        let (words, length) = self.lent();
        // SAFETY: as in `setup`.
        answer::unpacked(unsafe {
            raw::vgic_write_v2_cpu_interface(words, length, vcpu.0, offset, width.size(), value)
        })
    }

    /// A device raises or lowers its line: of a PPI of this vCPU, or of an SPI, for which the vCPU does not matter.
    pub fn set_level(
        &mut self,
        vcpu: GicVcpuId,
        number: IntId,
        asserted: bool,
    ) -> Result<Reply, Refusal> {
        let (words, length) = self.lent();
        // SAFETY: as in `setup`.
        answer::unpacked(unsafe { raw::vgic_set_level(words, length, vcpu.0, number.0, asserted) })
    }

    /// A device pulses its line.
    pub fn pulse(&mut self, vcpu: GicVcpuId, number: IntId) -> Result<Reply, Refusal> {
        let (words, length) = self.lent();
        // SAFETY: as in `setup`.
        answer::unpacked(unsafe { raw::vgic_pulse(words, length, vcpu.0, number.0) })
    }

    /// Whether a read of IAR by this vCPU would now give an interrupt: whether its IRQ line is up.
    pub fn irq_level(&self, vcpu: GicVcpuId) -> Result<bool, Refusal> {
        let (words, length) = (self.words.as_ptr(), self.words.len());
        // SAFETY: as in `read_v2_distributor`.
        let answer = unsafe { raw::vgic_irq_level(words, length, vcpu.0) };
        answer::unpacked(answer).map(|reply| reply.value != 0)
    }

    /// One interrupt as it stands: a private one of this vCPU, or an SPI, for which the vCPU does not matter. From the limit up there is
    /// none, and every field is as in the default record.
    pub fn interrupt(&self, vcpu: GicVcpuId, number: IntId) -> Result<InterruptRecord, Refusal> {
        let (words, length) = (self.words.as_ptr(), self.words.len());
        // SAFETY: as in `read_v2_distributor`.
        let answer = unsafe { raw::vgic_interrupt(words, length, vcpu.0, number.0) };
        answer::unpacked(answer).map(|reply| InterruptRecord::from_word(reply.value))
    }

    /// Writes the controller's image to the front of the buffer, and no byte behind it; gives its length. [`image_bytes`] says how many
    /// bytes are always enough. The words stay as they are.
    pub fn save(&self, buffer: &mut [u8]) -> Result<usize, Refusal> {
        let (words, length) = (self.words.as_ptr(), self.words.len());
        let (image, room) = (buffer.as_mut_ptr(), buffer.len());
        // SAFETY: the words are ours and are read only, and the buffer is lent to us for the call.
        let answer = unsafe { raw::vgic_save(words, length, image, room) };
        answer::unpacked(answer).map(|reply| reply.value as usize)
    }

    /// Makes the words the controller that the image is of, whatever they held; words past its size are not touched. It wakes nobody: ask
    /// [`irq_level`](Self::irq_level) of every vCPU. Any bytes may be given, from anywhere: what is no image is refused.
    pub fn load(&mut self, image: &[u8]) -> Result<(), Refusal> {
        let (words, length) = self.lent();
        // SAFETY: as in `setup`; the image is lent to us and is read only.
        let answer = unsafe { raw::vgic_load(words, length, image.as_ptr(), image.len()) };
        answer::unpacked(answer).map(|_| ())
    }

    fn lent(&mut self) -> (*mut u32, usize) {
        (self.words.as_mut_ptr(), self.words.len())
    }
}
