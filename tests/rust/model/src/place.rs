//! What stands at an offset of the Distributor, and the test of an access against its frame.

#[derive(Clone, Copy, PartialEq)]
pub enum Bit {
    Group,
    SetEnable,
    ClearEnable,
    SetPend,
    ClearPend,
    SetActive,
    ClearActive,
}

const BIT_RANGES: [Bit; 7] = [
    Bit::Group,
    Bit::SetEnable,
    Bit::ClearEnable,
    Bit::SetPend,
    Bit::ClearPend,
    Bit::SetActive,
    Bit::ClearActive,
];

#[derive(Clone, Copy)]
pub enum Place {
    Ctlr,
    Typer,
    Iidr,
    Sgir,
    Bits(Bit, u64), // which range, number of the word's first interrupt
    Config(u64),    // number of the word's first interrupt
    InsideWord,     // past the first byte of a bit or config word
    Priority(u64),  // number of the first byte's interrupt
    Target(u64),
    ClearSgi(u64),
    SetSgi(u64),
    Other,
}

pub fn dist_place(off: u64) -> Place {
    match off {
        0x000 => Place::Ctlr,
        0x004 => Place::Typer,
        0x008 => Place::Iidr,
        0xF00 => Place::Sgir,
        0x080..=0x3FF | 0xC00..=0xCFF if !off.is_multiple_of(4) => Place::InsideWord,
        0x080..=0x3FF => {
            let range = (off - 0x080) / 0x80;
            let word = (off % 0x80) / 4;
            Place::Bits(BIT_RANGES[range as usize], word * 32)
        }
        0xC00..=0xCFF => Place::Config((off - 0xC00) / 4 * 16),
        0x400..=0x7FB => Place::Priority(off - 0x400),
        0x800..=0xBFB => Place::Target(off - 0x800),
        0xF10..=0xF1F => Place::ClearSgi(off - 0xF10),
        0xF20..=0xF2F => Place::SetSgi(off - 0xF20),
        _ => Place::Other,
    }
}

/// Refusal 1.
pub fn bad_span(off: u64, width: u64, frame: u64) -> bool {
    if !off.is_multiple_of(width) {
        return true;
    }
    match off.checked_add(width) {
        None => true,
        Some(end) => end > frame,
    }
}

pub fn cut(value: u64, width: u64) -> u64 {
    match width {
        1 => value & 0xFF,
        2 => value & 0xFFFF,
        4 => value & 0xFFFF_FFFF,
        _ => value,
    }
}
