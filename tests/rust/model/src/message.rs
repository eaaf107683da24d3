//! Request Seven's calls over lent words, which may be any: refused by 6, and then as the frame's own.
use crate::{
    gic::{Answer, refused},
    words,
};

#[cfg(test)]
mod tests;

pub fn read(words: &[u32], first: u64, count: u64, off: u64, width: u64) -> Answer {
    match words::read(words) {
        None => refused(6),
        Some(gic) => gic.v2m_read(first, count, off, width),
    }
}

/// Writes the words of the SPI that is pulsed; all others stay bit for bit, and so does every word if none is.
pub fn write(
    words: &mut [u32],
    first: u64,
    count: u64,
    off: u64,
    width: u64,
    value: u64,
) -> Answer {
    let Some(mut gic) = words::read(words) else {
        return refused(6);
    };
    let answer = gic.v2m_write(first, count, off, width, value);
    if let Some(id) = gic.rung(first, count, off, width, value) {
        words::write_spi(&gic, id, words);
    }
    answer
}
