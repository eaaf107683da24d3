//! Request Two taken wrong: what the binary point makes of priorities.
use super::{Controller, as_if, is_accepted, read, taken, wrong};
use crate::{
    request::{Place, Request},
    slots::{binary_point, places, record, spis},
};
use model::{edits, image};
use oracle::{
    RegisterRegion::CpuInterface,
    machine::SPURIOUS,
    register::*,
    words::{HEADER, STACK, VCPU},
};

pub const CONTROLLERS: [Controller; 14] = [
    wrong(
        "clears b bits, and not b + 1",
        7,
        |request, _, given, words| {
            pushed(request, *given, words, |priority, point| {
                priority >> point << point
            });
        },
    ),
    wrong("clears b + 2 bits", 7, |request, _, given, words| {
        pushed(request, *given, words, |priority, point| {
            group(priority, point + 1)
        });
    }),
    wrong("clears nothing at 7", 8, |request, _, given, words| {
        pushed(request, *given, words, |priority, point| {
            group(priority, point % 7)
        });
    }),
    wrong(
        "pushes the priority as it is",
        7,
        |request, _, given, words| {
            pushed(request, *given, words, |priority, _| priority);
        },
    ),
    wrong("groups again what RPR shows", 9, shown_again),
    wrong(
        "groups again what is served at a write of BPR",
        8,
        served_again,
    )
    .among_messages(9),
    wrong("compares the best as it is", 10, compared_as_it_is).among_messages(12),
    wrong("holds the group against the mask", 8, masked_by_group),
    wrong("chooses the best by its group", 10, best_by_group),
    wrong(
        "wakes nobody at a write of BPR",
        10,
        |request, _, given, _| {
            if writes_point(request) {
                *given &= !(0xff << 48);
            }
        },
    )
    .among_messages(11),
    wrong("takes in a 129th", 1, one_more),
    wrong("takes a depth of 129 for a state's", 1, deeper),
    wrong("saves odd entries", 1, saves_odd),
    wrong("loads odd entries", 1, loads_odd),
];

/// The group priority.
fn group(priority: u32, point: usize) -> u32 {
    priority >> (point + 1) << (point + 1)
}

fn writes_point(request: &Request) -> bool {
    matches!(
        request,
        Request::Write(
            Place {
                region: CpuInterface,
                offset: GICC_BPR | GICC_ABPR,
                ..
            },
            _
        )
    )
}

fn priority(words: &[u32], vcpu: u64, number: usize) -> u32 {
    words[record(words, vcpu, number)] >> 8 & 255
}

/// The newest entry of a vCPU's stack, if it has one.
fn newest(words: &[u32], vcpu: u64) -> Option<usize> {
    let (own, stack) = places(words, vcpu);
    (stack + words[own + 3] as usize)
        .checked_sub(1)
        .filter(|at| *at >= stack)
}

/// Pushes another priority.
fn pushed(request: &Request, given: u64, words: &mut [u32], made: fn(u32, usize) -> u32) {
    if let Some((vcpu, number)) = taken(request, given)
        && let Some(at) = newest(words, vcpu)
    {
        let made = made(priority(words, vcpu, number), binary_point(words, vcpu));
        words[at] = number as u32 | made << 10;
    }
}

fn shown_again(request: &Request, _: &[u32], given: &mut u64, words: &mut [u32]) {
    if let Some(at) = read(request).filter(|at| at.offset == GICC_RPR)
        && is_accepted(*given)
        && newest(words, at.vcpu).is_some()
    {
        let shown = group(*given as u32, binary_point(words, at.vcpu));
        *given = *given >> 32 << 32 | u64::from(shown);
    }
}

fn served_again(request: &Request, _: &[u32], given: &mut u64, words: &mut [u32]) {
    if let (Request::Write(at, _), true) = (request, writes_point(request) && is_accepted(*given)) {
        let point = binary_point(words, at.vcpu);
        let (own, stack) = places(words, at.vcpu);
        let depth = words[own + 3] as usize;
        for word in &mut words[stack..stack + depth] {
            *word = *word & 0x3ff | group(*word >> 10 & 255, point) << 10;
        }
    }
}

/// What the binary point, made greater since, would let through is not given.
fn compared_as_it_is(request: &Request, before: &[u32], given: &mut u64, words: &mut [u32]) {
    if let Some((vcpu, number)) = taken(request, *given)
        && let Some(at) = newest(before, vcpu)
        && priority(words, vcpu, number) >= before[at] >> 10 & 255
    {
        words.copy_from_slice(before);
        *given = u64::from(SPURIOUS) << 32 | u64::from(SPURIOUS);
    }
}

/// The vCPU whose best is asked for or taken, of those that there are.
fn asks_for_best(request: &Request, given: u64, words: &[u32]) -> Option<u64> {
    let exists = |vcpu: &u64| is_accepted(given) && *vcpu < u64::from(words[0]);
    request.selects().filter(exists)
}

/// A group is below the mask just where its priorities are below the mask rounded up.
fn masked_by_group(request: &Request, before: &[u32], given: &mut u64, _: &mut [u32]) {
    if let Some(vcpu) = asks_for_best(request, *given, before) {
        as_if(request, given, before.to_vec(), |words| {
            let point = binary_point(words, vcpu);
            let mask = &mut words[places(before, vcpu).0 + 1];
            *mask = group((*mask & 255) + (2 << point) - 1, point).min(255);
        });
    }
}

fn best_by_group(request: &Request, before: &[u32], given: &mut u64, _: &mut [u32]) {
    if let Some(vcpu) = asks_for_best(request, *given, before) {
        as_if(request, given, before.to_vec(), |words| {
            let (point, own) = (binary_point(words, vcpu), places(words, vcpu).0);
            let mask = words[own + 1] & 255;
            for at in (own + 20..own + VCPU).chain(spis(words)) {
                let priority = words[at] >> 8 & 255;
                let grouped = if priority < mask {
                    group(priority, point)
                } else {
                    255
                };
                words[at] = words[at] & !0xff00 | grouped << 8;
            }
        });
    }
}

/// Where it is full, the oldest entry counts for nothing.
fn one_more(request: &Request, before: &[u32], given: &mut u64, _: &mut [u32]) {
    if let (Some(at), 7) = (read(request), *given >> 56) {
        as_if(request, given, before.to_vec(), |words| {
            let (own, stack) = places(words, at.vcpu);
            words[own + 3] -= 1;
            words[stack..stack + STACK].rotate_left(1);
        });
    }
}

fn deeper(request: &Request, before: &[u32], given: &mut u64, _: &mut [u32]) {
    if *given >> 56 == 6 {
        as_if(request, given, before.to_vec(), |words| {
            let depths = words.iter_mut().skip(HEADER + 3).step_by(VCPU).take(8);
            depths
                .filter(|depth| **depth == STACK as u32 + 1)
                .for_each(|depth| *depth -= 1);
        });
    }
}

/// Refused by 9, though it would be saved if its entries were even.
fn saves_odd(request: &Request, before: &[u32], given: &mut u64, _: &mut [u32]) {
    if let (Request::Save { room }, 9) = (request, *given >> 56) {
        let (mut words, stacks) = (before.to_vec(), places(before, 0).1);
        words[stacks..]
            .iter_mut()
            .for_each(|word| *word &= !(1 << 10));
        let saved = image::save(&words, &mut vec![0; *room]);
        if saved.refusal == 0 {
            *given = u64::from(SPURIOUS) << 32 | saved.value;
        }
    }
}

fn loads_odd(request: &Request, _: &[u32], given: &mut u64, words: &mut [u32]) {
    if let (Request::Load(image), 9) = (request, *given >> 56)
        && let Some(even) = evened(image)
        && image::load(&mut words.to_vec(), &even).refusal == 0
    {
        *given = u64::from(SPURIOUS) << 32;
    }
}

/// The bytes with every entry's priority even; none if they end before the stacks do.
fn evened(image: &[u8]) -> Option<Vec<u8>> {
    let (mut even, mut numbers) = (image.to_vec(), edits::numbers(image).into_iter());
    let value = |at: std::ops::Range<usize>| {
        let groups = image[at].iter().rev().take(2);
        groups.fold(0, |number, byte| number * 128 + usize::from(byte % 128))
    };
    let count = value(numbers.next()?);
    numbers.nth(1 + 3 * count)?;
    for _ in 0..count {
        for _ in 0..value(numbers.next()?) {
            even[numbers.nth(1)?.start] &= !1;
        }
    }
    Some(even)
}
