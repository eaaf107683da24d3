//! What an image needs, and what it says of itself: `docs/IMAGE.md`.
use crate::{Refusal, answer, raw};

/// The most bytes that an image takes: a buffer of so many is enough for every controller.
pub const MAX_IMAGE_BYTES: usize = 16384;

/// What an image says of its controller: for how many vCPUs it is, and the first number that is no interrupt.
#[derive(Clone, Copy, Debug, PartialEq, Eq)]
pub struct ImageShape {
    /// 1 to 8 vCPUs.
    pub count: u64,
    /// 32 to 1020.
    pub limit: u64,
}

/// How many bytes the image of such a controller takes at the most: [`Gic::save`](crate::Gic::save) never refuses a buffer of so many. None
/// where one of the numbers is out of range.
pub fn image_bytes(count: u64, limit: u64) -> Option<usize> {
    match raw::vgic_image_bytes(count, limit) {
        0 => None,
        bytes => Some(bytes as usize),
    }
}

/// The count and limit that an image begins with, so that words can be lent for it ([`state_words`](crate::state_words)) before it is
/// loaded. The rest is not looked at, and may still be refused.
pub fn image_shape(image: &[u8]) -> Result<ImageShape, Refusal> {
    // SAFETY: the bytes are lent to us, and are read only.
    let answer = unsafe { raw::vgic_image_shape(image.as_ptr(), image.len()) };
    answer::unpacked(answer).map(|reply| ImageShape {
        count: u64::from(reply.value & 0xffff),
        limit: u64::from(reply.value >> 16),
    })
}
