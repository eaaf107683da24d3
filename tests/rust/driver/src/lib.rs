//! `libvgic.a` in the place of the library that is compared with the oracle.
use comparison::{
    Library,
    question::Question,
    request::{FramePlace, Place, Request},
};
use oracle::RegisterRegion::{CpuInterface, Distributor};
use vgic::raw;

/// Through the raw face: the safe one takes no width that is none, and shows no value of a refused call.
pub struct Vgic;

impl Library for Vgic {
    fn state_words(&self, count: u64, limit: u64) -> u64 {
        raw::vgic_state_words(count, limit)
    }

    fn image_bytes(&self, count: u64, limit: u64) -> u64 {
        raw::vgic_image_bytes(count, limit)
    }

    fn image_shape(&self, image: &[u8]) -> u64 {
        // SAFETY: the bytes are lent to us for the call.
        unsafe { raw::vgic_image_shape(image.as_ptr(), image.len()) }
    }

    fn call(&self, words: &mut [u32], buffer: &mut [u8], request: &Request) -> u64 {
        let (at, length) = (words.as_mut_ptr(), words.len());
        // SAFETY: the words and the buffer are lent to us for the call.
        match *request {
            Request::Setup { count, limit } => unsafe { raw::vgic_setup(at, length, count, limit) },
            Request::Read(place) => read(words, place),
            Request::Write(place, value) => write(words, place, value),
            Request::Save { .. } => unsafe {
                raw::vgic_save(at, length, buffer.as_mut_ptr(), buffer.len())
            },
            Request::Load(ref image) => unsafe {
                raw::vgic_load(at, length, image.as_ptr(), image.len())
            },
            Request::SetLevel(input, asserted) => unsafe {
                raw::vgic_set_level(at, length, input.vcpu, input.number, asserted)
            },
            Request::Pulse(input) => unsafe {
                raw::vgic_pulse(at, length, input.vcpu, input.number)
            },
            Request::ReadMessageFrame(place) => read_message_frame(words, place),
            Request::WriteMessageFrame(place, value) => write_message_frame(words, place, value),
        }
    }

    fn ask(&self, words: &[u32], question: &Question) -> u64 {
        let (at, length) = (words.as_ptr(), words.len());
        // SAFETY: the words are lent to us for the call.
        match *question {
            Question::IrqLevel { vcpu } => unsafe { raw::vgic_irq_level(at, length, vcpu) },
            Question::Interrupt(input) => unsafe {
                raw::vgic_interrupt(at, length, input.vcpu, input.number)
            },
        }
    }
}

fn read(words: &mut [u32], place: Place) -> u64 {
    let Place {
        region,
        vcpu,
        offset,
        width,
    } = place;
    let (at, length) = (words.as_mut_ptr(), words.len());
    // SAFETY: the words are lent to us for the call.
    unsafe {
        match region {
            Distributor => raw::vgic_read_v2_distributor(at, length, vcpu, offset, width),
            CpuInterface => raw::vgic_read_v2_cpu_interface(at, length, vcpu, offset, width),
        }
    }
}

fn write(words: &mut [u32], place: Place, value: u64) -> u64 {
    let Place {
        region,
        vcpu,
        offset,
        width,
    } = place;
    let (at, length) = (words.as_mut_ptr(), words.len());
    // SAFETY: the words are lent to us for the call.
    unsafe {
        match region {
            Distributor => raw::vgic_write_v2_distributor(at, length, vcpu, offset, width, value),
            CpuInterface => {
                raw::vgic_write_v2_cpu_interface(at, length, vcpu, offset, width, value)
            }
        }
    }
}

fn read_message_frame(words: &[u32], place: FramePlace) -> u64 {
    let FramePlace {
        window,
        offset,
        width,
    } = place;
    let (at, length) = (words.as_ptr(), words.len());
    // SAFETY: the words are lent to us for the call.
    unsafe { raw::vgic_read_v2m(at, length, window.first, window.count, offset, width) }
}

fn write_message_frame(words: &mut [u32], place: FramePlace, value: u64) -> u64 {
    let FramePlace {
        window,
        offset,
        width,
    } = place;
    let (at, length) = (words.as_mut_ptr(), words.len());
    // SAFETY: the words are lent to us for the call.
    unsafe { raw::vgic_write_v2m(at, length, window.first, window.count, offset, width, value) }
}
