//! Request Four taken wrong: what clearing pending leaves of a held line.
use super::{Controller, is_accepted, taken, wrong};
use crate::{
    request::Request,
    slots::{ACTIVE, EDGE, LINE, NOTE, PENDING, cleared, is_held, places, record},
};
use oracle::{
    RegisterRegion::Distributor,
    register::{GICD_CPENDSGIR, GICD_SPENDSGIR},
};

pub const CONTROLLERS: [Controller; 11] = [
    wrong(
        "clears a held line, as the Rust did",
        3,
        |request, before, given, words| {
            left(request, before, *given, words, |_, was, now| {
                without(now, PENDING, is_held(was))
            });
        },
    ),
    wrong("clears a held PPI", 3, |request, before, given, words| {
        left(request, before, *given, words, |number, was, now| {
            without(now, PENDING, is_held(was) && number < 32)
        });
    }),
    wrong(
        "clears a held line that is served",
        9,
        |request, before, given, words| {
            left(request, before, *given, words, |_, was, now| {
                without(now, PENDING, is_held(was) && was & ACTIVE != 0)
            });
        },
    ),
    wrong(
        "sets the bit of a held line",
        9,
        |request, before, given, words| {
            left(request, before, *given, words, |_, was, now| {
                with(now, PENDING, is_held(was))
            });
        },
    ),
    wrong(
        "keeps the note of a held line",
        12,
        |request, before, given, words| {
            left(request, before, *given, words, |_, was, now| {
                with(now, was & NOTE, is_held(was))
            });
        },
    ),
    wrong(
        "keeps an edge interrupt whose line is high",
        4,
        |request, before, given, words| {
            left(request, before, *given, words, |_, was, now| {
                with(now, was & PENDING, was & LINE != 0)
            });
        },
    ),
    wrong(
        "keeps a level interrupt whose line is low",
        3,
        |request, before, given, words| {
            left(request, before, *given, words, |_, was, now| {
                with(now, was & PENDING, was & EDGE == 0)
            });
        },
    ),
    wrong("clears nothing behind a held line", 4, stops_short),
    wrong(
        "keeps a level interrupt pending when its line falls",
        3,
        kept_by_a_fall,
    ),
    wrong("keeps a held line pending when it is taken", 8, kept_by_iar),
    wrong("clears a held SGI without a source", 1, sgi_cleared),
];

fn with(record: u32, bits: u32, is_so: bool) -> u32 {
    if is_so { record | bits } else { record }
}

fn without(record: u32, bits: u32, is_so: bool) -> u32 {
    if is_so { record & !bits } else { record }
}

/// Leaves something else of the records that a write of ICPENDR clears, by their numbers and what they were before and are now.
fn left(
    request: &Request,
    before: &[u32],
    given: u64,
    words: &mut [u32],
    made: fn(usize, u32, u32) -> u32,
) {
    if is_accepted(given) {
        for (number, at) in cleared(before, request) {
            words[at] = made(number, before[at], words[at]);
        }
    }
}

fn stops_short(request: &Request, before: &[u32], given: &mut u64, words: &mut [u32]) {
    if is_accepted(*given) {
        let records = cleared(before, request).into_iter();
        for (_, at) in records.skip_while(|(_, at)| !is_held(before[*at])).skip(1) {
            words[at] = before[at];
        }
    }
}

fn kept_by_a_fall(request: &Request, before: &[u32], given: &mut u64, words: &mut [u32]) {
    if let (Request::SetLevel(input, false), true) = (request, is_accepted(*given)) {
        let at = record(before, input.vcpu, input.number as usize);
        words[at] = with(words[at], before[at] & PENDING, before[at] & EDGE == 0);
    }
}

fn kept_by_iar(request: &Request, before: &[u32], given: &mut u64, words: &mut [u32]) {
    if let Some((vcpu, number)) = taken(request, *given) {
        let at = record(before, vcpu, number);
        words[at] = with(words[at], PENDING, is_held(before[at]));
    }
}

/// An SGI is level, and its line high, in lent words alone.
fn sgi_cleared(request: &Request, before: &[u32], given: &mut u64, words: &mut [u32]) {
    if let Request::Write(at, value) = request
        && at.region == Distributor
        && (GICD_CPENDSGIR..GICD_SPENDSGIR).contains(&at.offset)
        && is_accepted(*given)
    {
        let own = places(before, at.vcpu).0;
        let first = (at.offset - GICD_CPENDSGIR) as usize;
        for (sgi, byte) in (first..).zip(value.to_le_bytes()).take(at.width as usize) {
            let (sources, record) = (own + 4 + sgi, own + 20 + sgi);
            let emptied = byte != 0 && words[sources] & 255 == 0;
            words[record] = without(words[record], PENDING, emptied && is_held(before[record]));
        }
    }
}
