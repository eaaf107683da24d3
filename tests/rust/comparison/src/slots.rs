//! Where things stand in the words of a state, and for a reader of a difference what stands at a place.
use crate::request::Request;
use oracle::{
    machine::Machine,
    words::{HEADER, STACK, VCPU, size, summary_words, within_limits},
};
use std::ops::Range;

/// Bits of a record's word.
pub const ENABLED: u32 = 1 << 0;
pub const PENDING: u32 = 1 << 1;
pub const ACTIVE: u32 = 1 << 2;
pub const INFLIGHT: u32 = 1 << 3;
pub const NOTE: u32 = 1 << 4;
pub const LINE: u32 = 1 << 5;
pub const EDGE: u32 = 1 << 6;

/// A vCPU's first word, and its stack's.
pub fn places(words: &[u32], vcpu: u64) -> (usize, usize) {
    let (count, limit, vcpu) = (words[0] as usize, words[1] as usize, vcpu as usize);
    let stacks = size(count, limit) - STACK * count;
    (HEADER + VCPU * vcpu, stacks + STACK * vcpu)
}

/// The word of an interrupt's record.
pub fn record(words: &[u32], vcpu: u64, number: usize) -> usize {
    match number {
        0..32 => places(words, vcpu).0 + 20 + number,
        _ => HEADER + VCPU * words[0] as usize + number - 32,
    }
}

/// Where the records of the SPIs stand.
pub fn spis(words: &[u32]) -> Range<usize> {
    let start = HEADER + VCPU * words[0] as usize;
    start..start + words[1] as usize - 32
}

/// Where the summary of the ready stands.
pub fn summary(words: &[u32]) -> Range<usize> {
    let start = spis(words).end;
    start..start + summary_words(words[1] as usize)
}

/// The word that has an SPI's bit, and the bit.
pub fn bit(words: &[u32], number: usize) -> (usize, u32) {
    (spis(words).end + number / 32 - 1, 1 << (number % 32))
}

pub fn has_bit(words: &[u32], number: usize) -> bool {
    let (at, bit) = bit(words, number);
    words[at] & bit != 0
}

pub fn put_bit(words: &mut [u32], number: usize, set: bool) {
    let (at, bit) = bit(words, number);
    words[at] = if set {
        words[at] | bit
    } else {
        words[at] & !bit
    };
}

/// What an SPI's bit has to say of its record.
pub fn is_ready(record: u32) -> bool {
    record & (ENABLED | PENDING | ACTIVE) == ENABLED | PENDING
}

/// The words of a state with every SPI's bit as its record has it.
pub fn exact(words: &[u32]) -> Vec<u32> {
    let mut exact = words.to_vec();
    for (number, at) in (32..).zip(spis(words)) {
        put_bit(&mut exact, number, is_ready(words[at]));
    }
    exact
}

/// The bits of the summary that are no SPI's.
pub fn past(words: &[u32]) -> Option<(usize, u32)> {
    let limit = words[1] as usize;
    let shared = !limit.is_multiple_of(32);
    shared.then(|| (bit(words, limit).0, u32::MAX << (limit % 32)))
}

/// Whether a bit from the limit up is set.
pub fn has_past(words: &[u32]) -> bool {
    past(words).is_some_and(|(at, bits)| words[at] & bits != 0)
}

/// The best candidate of a vCPU if its SPIs were chosen by their records; none while it or the Distributor is off.
pub fn best_by_records(words: &[u32], vcpu: u64) -> Option<usize> {
    let own = places(words, vcpu).0;
    let (on, mask) = (words[2] & words[own] & 1 == 1, words[own + 1] & 255);
    let private = words[own + 20..own + VCPU].iter().enumerate();
    let named = |record: &u32| record & 0x80 != 0 && record >> (16 + vcpu) & 1 == 1;
    let shared = (32..).zip(&words[spis(words)]);
    let shared = shared.filter(|(_, record)| named(record));
    let candidates = private
        .chain(shared)
        .filter(|(_, record)| is_ready(**record));
    let best = candidates
        .map(|(number, record)| (record >> 8 & 255, number))
        .min();
    best.filter(|(priority, _)| on && *priority < mask)
        .map(|(_, number)| number)
}

/// Writes what does not mean what it should, the depths first: they say which entries mean anything.
pub fn put(words: &mut [u32], after: &[u32]) {
    let mut meaning = vec![];
    for _ in 0..2 {
        Machine::lent(words).write_words(&mut meaning);
        for (index, word) in after.iter().enumerate() {
            if meaning[index] != *word {
                words[index] = *word;
            }
        }
    }
}

/// Level, with the line high.
pub fn is_held(record: u32) -> bool {
    record & (LINE | EDGE) == LINE
}

/// The numbers and the words of the records that an accepted write of ICPENDR clears; none of another call.
pub fn cleared(words: &[u32], request: &Request) -> Vec<(usize, usize)> {
    let Some((vcpu, numbers)) = request.clears() else {
        return vec![];
    };
    let below = numbers.filter(|number| *number < words[1] as usize);
    below
        .map(|number| (number, record(words, vcpu, number)))
        .collect()
}

pub fn binary_point(words: &[u32], vcpu: u64) -> usize {
    words[places(words, vcpu).0 + 2] as usize % 8
}

/// `place` counts from the first lent word; before that there is none.
pub fn name(words: &[u32], place: Option<usize>) -> String {
    let Some(place) = place else {
        return "before the lent words".into();
    };
    let (count, limit) = (words[0], words[1]);
    let what = if within_limits(count.into(), limit.into()) {
        slot(count as usize, limit as usize, place)
    } else {
        "no state".into()
    };
    format!("word {place} ({what})")
}

fn slot(count: usize, limit: usize, place: usize) -> String {
    let spis = HEADER + VCPU * count;
    let summary = spis + limit - 32;
    let stacks = summary + summary_words(limit);
    if place < HEADER {
        ["count", "limit", "CTLR of the Distributor"][place].into()
    } else if place < spis {
        let (vcpu, at) = ((place - HEADER) / VCPU, (place - HEADER) % VCPU);
        format!("vCPU {vcpu}, {}", own_slot(at))
    } else if place < summary {
        format!("record {}", 32 + place - spis)
    } else if place < stacks {
        format!("summary from {} on", 32 * (1 + place - summary))
    } else if place < size(count, limit) {
        let (vcpu, at) = ((place - stacks) / STACK, (place - stacks) % STACK);
        format!("vCPU {vcpu}, stack entry {at}")
    } else {
        "past the state".into()
    }
}

fn own_slot(at: usize) -> String {
    match at {
        0..4 => ["CTLR", "PMR", "BPR", "depth"][at].into(),
        4..20 => format!("sources of SGI {}", at - 4),
        _ => format!("record {}", at - 20),
    }
}
