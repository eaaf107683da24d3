//! Request Five taken wrong: when a bit of the summary is set anew and as what, and who goes by the bits.
use super::{Controller, as_if, is_accepted, taken, wrong};
use crate::{
    request::Request,
    slots::{
        ACTIVE, ENABLED, PENDING, exact, has_bit, has_past, is_ready, past, places, put_bit, spis,
        summary,
    },
};
use model::image;
use oracle::{
    RegisterRegion::{CpuInterface, Distributor},
    machine::SPURIOUS,
    register::*,
};
use std::ops::Range;

pub const CONTROLLERS: [Controller; 28] = [
    wrong(
        "leaves the bit of one that is taken",
        9,
        |request, before, given, words| {
            if let Some((_, number @ 32..)) = taken(request, *given) {
                put_bit(words, number, has_bit(before, number));
            }
        },
    ),
    wrong(
        "leaves the bit of one that is ended",
        12,
        |request, before, given, words| {
            if let Some(number) = ended(request, before, *given) {
                put_bit(words, number, has_bit(before, number));
            }
        },
    ),
    wrong(
        "leaves the bits at a write of ICENABLER",
        5,
        |request, before, given, words| {
            left(request, before, *given, words, GICD_ICENABLER..GICD_ISPENDR);
        },
    ),
    wrong(
        "leaves the bits at a write of ISACTIVER",
        5,
        |request, before, given, words| {
            left(
                request,
                before,
                *given,
                words,
                GICD_ISACTIVER..GICD_ICACTIVER,
            );
        },
    ),
    wrong(
        "leaves the bits at a write of priorities",
        1,
        |request, before, given, words| {
            left(
                request,
                before,
                *given,
                words,
                GICD_IPRIORITYR..GICD_ITARGETSR,
            );
        },
    ),
    wrong(
        "leaves the bits at a write of targets",
        1,
        |request, before, given, words| {
            left(request, before, *given, words, GICD_ITARGETSR..GICD_ICFGR);
        },
    ),
    wrong(
        "leaves the bits at a write of triggers",
        1,
        |request, before, given, words| {
            left(request, before, *given, words, GICD_ICFGR..GICD_SGIR);
        },
    ),
    wrong(
        "leaves the bit when a line moves",
        3,
        |request, before, given, words| {
            if matches!(request, Request::SetLevel(..)) && is_accepted(*given) {
                leave_summary(before, words);
            }
        },
    ),
    wrong(
        "leaves the bit at a pulse",
        3,
        |request, before, given, words| {
            if matches!(request, Request::Pulse(_)) && is_accepted(*given) {
                leave_summary(before, words);
            }
        },
    ),
    wrong(
        "counts those that are not enabled",
        2,
        |request, before, given, words| {
            made(request, before, *given, words, |record| {
                record & (PENDING | ACTIVE) == PENDING
            });
        },
    ),
    wrong(
        "counts those that are active",
        4,
        |request, before, given, words| {
            made(request, before, *given, words, |record| {
                record & (ENABLED | PENDING) == ENABLED | PENDING
            });
        },
    ),
    wrong(
        "counts only those that are sent to somebody",
        3,
        |request, before, given, words| {
            made(request, before, *given, words, |record| {
                is_ready(record) && record & 0x80 != 0 && record & 0xff_0000 != 0
            });
        },
    ),
    wrong("leaves a false bit where the record stays", 1, only_changes),
    wrong("sets the bits of a whole word anew", 1, whole_words),
    wrong("clears the bits from the limit up", 1, clears_past),
    wrong(
        "sets the bit anew where EOIR or DIR does nothing",
        1,
        |request, before, given, words| {
            if let Some(number) = ended(request, before, *given) {
                put_bit(words, number, is_ready(words[spis(words)][number - 32]));
            }
        },
    ),
    wrong(
        "sets the bits of what a bit register leaves",
        1,
        for_all_of_a_register,
    ),
    wrong("selects by the records", 1, |request, before, given, _| {
        selected(request, before, given, |_, ready| ready);
    }),
    wrong(
        "selects what has its bit and is ready",
        1,
        |request, before, given, _| {
            selected(request, before, given, |set, ready| set && ready);
        },
    ),
    wrong(
        "selects what has its bit or is ready",
        1,
        |request, before, given, _| {
            selected(request, before, given, |set, ready| set || ready);
        },
    )
    .among_messages(2),
    wrong("selects a bit from the limit up", 1, selects_past).among_messages(2),
    wrong("wakes by the records", 1, wakes_by_records),
    wrong("shows the bits as pending", 7, shows_bits),
    wrong(
        "leaves the summary at setup",
        1,
        |request, before, given, words| {
            if matches!(request, Request::Setup { .. }) && is_accepted(*given) {
                leave_summary(before, words);
            }
        },
    ),
    wrong(
        "leaves the summary at load",
        1,
        |request, before, given, words| {
            if matches!(request, Request::Load(_)) && is_accepted(*given) {
                leave_summary(before, words);
            }
        },
    ),
    wrong("makes no bits at load", 1, |request, _, given, words| {
        if matches!(request, Request::Load(_)) && is_accepted(*given) {
            let summary = summary(words);
            words[summary].fill(0);
        }
    }),
    wrong(
        "saves what has a false bit",
        1,
        |request, before, given, _| {
            if let (Request::Save { room }, 9) = (request, *given >> 56) {
                let saved = image::save(&exact(before), &mut vec![0; *room]);
                if saved.refusal == 0 {
                    *given = u64::from(SPURIOUS) << 32 | saved.value;
                }
            }
        },
    ),
    wrong(
        "saves nothing that has a bit from the limit up",
        1,
        |request, before, given, _| {
            if matches!(request, Request::Save { .. }) && is_accepted(*given) && has_past(before) {
                *given = 9 << 56 | u64::from(SPURIOUS) << 32;
            }
        },
    ),
];

/// The SPI that a write of EOIR or DIR names, whatever becomes of it.
fn ended(request: &Request, before: &[u32], given: u64) -> Option<usize> {
    match request {
        Request::Write(at, value)
            if at.region == CpuInterface
                && [GICC_EOIR, GICC_AEOIR, GICC_DIR].contains(&at.offset)
                && is_accepted(given) =>
        {
            let number = (*value % 1024) as usize;
            (32..before[1] as usize).contains(&number).then_some(number)
        }
        _ => None,
    }
}

/// The summary as it was.
fn leave_summary(before: &[u32], words: &mut [u32]) {
    let summary = summary(words);
    words[summary.clone()].copy_from_slice(&before[summary]);
}

/// Leaves the bits at a write of the Distributor at these places.
fn left(request: &Request, before: &[u32], given: u64, words: &mut [u32], places: Range<u64>) {
    if let Request::Write(at, _) = request
        && at.region == Distributor
        && places.contains(&at.offset)
        && is_accepted(given)
    {
        leave_summary(before, words);
    }
}

/// Makes another bit of each record that the call has changed.
fn made(request: &Request, before: &[u32], given: u64, words: &mut [u32], made: fn(u32) -> bool) {
    if goes_on(request, given) {
        for number in 32..words[1] as usize {
            let at = spis(words).start + number - 32;
            if words[at] != before[at] {
                put_bit(words, number, made(words[at]));
            }
        }
    }
}

/// Whether the words were a state before the call, and the same controller's after it.
fn goes_on(request: &Request, given: u64) -> bool {
    let starts = matches!(request, Request::Setup { .. } | Request::Load(_));
    is_accepted(given) && !starts
}

fn only_changes(request: &Request, before: &[u32], given: &mut u64, words: &mut [u32]) {
    if goes_on(request, *given) {
        for number in 32..words[1] as usize {
            let at = spis(words).start + number - 32;
            if words[at] == before[at] {
                put_bit(words, number, has_bit(before, number));
            }
        }
    }
}

/// Where a word of the summary or one of its records has changed.
fn touched(request: &Request, before: &[u32], given: u64, words: &[u32]) -> Vec<usize> {
    if !goes_on(request, given) {
        return vec![];
    }
    let records = spis(words);
    let changed = |group: &usize| {
        let (at, first) = (records.end + group, records.start + 32 * group);
        let last = records.end.min(first + 32);
        words[at] != before[at] || words[first..last] != before[first..last]
    };
    (0..summary(words).len()).filter(changed).collect()
}

fn whole_words(request: &Request, before: &[u32], given: &mut u64, words: &mut [u32]) {
    for group in touched(request, before, *given, words) {
        let (at, exact) = (summary(words).start + group, exact(words));
        words[at] = exact[at];
    }
}

fn clears_past(request: &Request, before: &[u32], given: &mut u64, words: &mut [u32]) {
    let touched = touched(request, before, *given, words);
    if let Some(last) = touched.last()
        && let Some((at, bits)) = past(words)
        && summary(words).start + last == at
    {
        words[at] &= !bits;
    }
}

/// All 32 of a word of ISENABLER to ICACTIVER, named or not.
fn for_all_of_a_register(request: &Request, before: &[u32], given: &mut u64, words: &mut [u32]) {
    if let Request::Write(at, _) = request
        && at.region == Distributor
        && (GICD_ISENABLER..GICD_IPRIORITYR).contains(&at.offset)
        && is_accepted(*given)
    {
        let first = at.offset as usize % 128 * 8;
        for number in first.max(32)..before[1].min(first as u32 + 32) as usize {
            let record = words[spis(words)][number - 32];
            put_bit(words, number, is_ready(record));
        }
    }
}

/// Answers a read of IAR or HPPIR by other bits: of what each bit says and whether its record is ready.
fn selected(request: &Request, before: &[u32], given: &mut u64, chosen: fn(bool, bool) -> bool) {
    if request.selects().is_some() && is_accepted(*given) {
        as_if(request, given, before.to_vec(), |words| {
            for number in 32..words[1] as usize {
                let record = words[spis(words)][number - 32];
                put_bit(
                    words,
                    number,
                    chosen(has_bit(words, number), is_ready(record)),
                );
            }
        });
    }
}

/// Where nothing else is selected.
fn selects_past(request: &Request, before: &[u32], given: &mut u64, _: &mut [u32]) {
    if let (Some(vcpu), true) = (request.selects(), *given as u32 == SPURIOUS)
        && is_accepted(*given)
        && vcpu < before[0].into()
        && before[2] & before[places(before, vcpu).0] & 1 == 1
        && let Some((at, bits)) = past(before)
        && before[at] & bits != 0
    {
        let place = (before[at] & bits).trailing_zeros();
        let number = before[1] / 32 * 32 + place;
        *given = *given >> 32 << 32 | u64::from(number);
    }
}

fn wakes_by_records(request: &Request, before: &[u32], given: &mut u64, _: &mut [u32]) {
    if goes_on(request, *given) && request.call().is_some() {
        let mut by_records = 0;
        as_if(request, &mut by_records, exact(before), |_| {});
        *given = *given & !(0xff << 48) | by_records & 0xff << 48;
    }
}

fn shows_bits(request: &Request, before: &[u32], given: &mut u64, _: &mut [u32]) {
    if let Request::Read(at) = request
        && at.region == Distributor
        && (GICD_ISPENDR + 4..GICD_ISPENDR + 128).contains(&at.offset)
        && is_accepted(*given)
    {
        let first = (at.offset - GICD_ISPENDR) as usize * 8;
        let below = (first..first + 32).filter(|number| *number < before[1] as usize);
        let shown = below.fold(0, |value, number| {
            value | u64::from(has_bit(before, number)) << (number - first)
        });
        *given = *given >> 32 << 32 | shown;
    }
}
