//! The states that two writes start from: reached from setup, with demand 3's properties alone, and any words.
use crate::{cast::Cast, random::Random, scene::Scene};
use model::{
    TriggerMode,
    gic::{Gic, STACK_MAX},
    record::Record,
    words,
};
use types::Parts;

#[derive(Clone, Copy, Debug, PartialEq, Eq, PartialOrd, Ord)]
pub enum Kind {
    /// After calls from setup on.
    Reached,
    /// With demand 3's properties, and against each of request One's further ones.
    Loose,
    /// Any words that are not refused by 6.
    Any,
}

impl Kind {
    pub const ALL: [Kind; 3] = [Kind::Reached, Kind::Loose, Kind::Any];
}

/// A scene's state, or one made from it.
pub fn made(random: &mut Random, scene: &Scene, kind: Kind) -> Gic {
    let mut gic = scene.gic.clone();
    if kind == Kind::Reached {
        return gic;
    }
    loosen(random, &scene.cast, &mut gic);
    if kind == Kind::Loose {
        return gic;
    }
    let mut strewn = words::write(&gic);
    if random.percent(15) {
        strew(random, &mut strewn, &gic);
    } else {
        falsify(random, &scene.cast, &mut strewn);
    }
    let mut gic = words::read(&strewn).expect("a state");
    if random.percent(30) {
        mend(random, &mut gic);
    }
    gic
}

fn loosen(random: &mut Random, cast: &Cast, gic: &mut Gic) {
    for vcpu in 0..gic.count {
        for _ in 0..random.below(8) {
            let number = cast.number(random) % 32;
            loosen_record(random, gic, vcpu, number);
        }
        if random.percent(30) {
            gic.stack[vcpu as usize] = any_stack(random);
        }
    }
    for _ in 0..random.below(8) {
        let number = cast.number(random);
        if (32..gic.limit).contains(&number) {
            loosen_record(random, gic, 0, number);
        }
    }
    summarize(random, gic);
}

/// Any record that demand 3 allows, often one that waits for nothing but its enable; an SGI's sources with it.
fn loosen_record(random: &mut Random, gic: &mut Gic, vcpu: u64, number: u64) {
    let slot = gic.slot(vcpu, number);
    let mut parts = gic.records[slot].parts();
    let mut coin = || random.percent(50);
    parts.enabled = coin();
    parts.pending = coin();
    parts.inflight = coin() && coin();
    parts.active = parts.inflight || coin() && coin();
    parts.redelivery_pending = parts.inflight && coin();
    parts.line_asserted = coin();
    let (edge, masked) = (coin(), coin() || number >= 32);
    parts.trigger = if edge {
        TriggerMode::Edge
    } else {
        TriggerMode::Level
    };
    parts.cpu_target_mask = masked.then_some(random.number() as u8);
    if number < 16 {
        let sources = random.number() as u8 & random.pick(&[0, 0, 3, 0xff]);
        let slot = gic.source_slot(vcpu, number);
        gic.sources[slot] = sources;
        parts.pending = sources != 0;
    }
    let anybody = random.below(255);
    let stray = random.pick(&[None, None, Some(anybody)]);
    let owner = parts.inflight.then(|| random.below(gic.count)).or(stray);
    gic.records[slot] = Record::make(&parts, owner);
}

/// Even and falling, of any numbers at all; at times full.
fn any_stack(random: &mut Random) -> Vec<(u64, u8)> {
    let kept = random.pick(&[0, 1, 2, 5, 60, 100]);
    let priorities = (0..STACK_MAX as u8).rev().map(|half| 2 * half);
    let kept = priorities
        .filter(|_| random.percent(kept))
        .collect::<Vec<_>>();
    let entry = |priority| (random.below(1024), priority);
    kept.into_iter().map(entry).collect()
}

/// Exact below the limit, anything from there up.
fn summarize(random: &mut Random, gic: &mut Gic) {
    for word in &mut gic.summary {
        *word = random.number() as u32;
    }
    for number in 32..gic.limit {
        let (word, bit) = (number as usize / 32 - 1, 1 << (number % 32));
        gic.summary[word] &= !bit;
        if is_ready(gic, number) {
            gic.summary[word] |= bit;
        }
    }
}

/// Enough of demand 3 comes back.
fn mend(random: &mut Random, gic: &mut Gic) {
    for (at, _) in gic.sources.iter().enumerate().filter(|it| *it.1 != 0) {
        let record = &mut gic.records[at / 16 * 32 + at % 16];
        let mut parts = record.parts();
        parts.pending = true;
        *record = Record::make(&parts, record.owner);
    }
    summarize(random, gic);
}

fn is_ready(gic: &Gic, spi: u64) -> bool {
    let parts = gic.records[gic.slot(0, spi)].parts();
    parts.enabled && parts.pending && !parts.active
}

/// Any words; only the shape stays, and the depths.
fn strew(random: &mut Random, words: &mut [u32], gic: &Gic) {
    let is_depth = |at: usize| at < 3 + 52 * gic.count as usize && at % 52 == 6;
    for at in (2..words.len()).filter(|at| !is_depth(*at)) {
        words[at] = random.number() as u32;
    }
}

/// Bits turned in the words of the cast: of their records, their sources, and the summary.
fn falsify(random: &mut Random, cast: &Cast, words: &mut [u32]) {
    let spis = 3 + 52 * cast.count as usize;
    let summary = spis + cast.limit as usize - 32;
    for number in cast.numbers().iter().map(|it| *it as usize) {
        let own = 3 + 52 * cast.vcpu(random) as usize;
        let record = if number < 32 {
            own + 20 + number
        } else {
            spis + number - 32
        };
        if random.percent(40) {
            words[record] ^= 1 << random.below(32);
        }
        if number < 16 && random.percent(50) {
            words[own + 4 + number] ^= random.number() as u32;
        }
        if number >= 32 && random.percent(50) {
            words[summary + number / 32 - 1] ^= 1 << (number % 32);
        }
    }
}

/// Demand 3's properties, with those that requests Two and Five have join them.
pub fn has_demand_three(gic: &Gic) -> bool {
    let in_order = |stack: &Vec<(u64, u8)>| {
        let even = stack.iter().all(|it| it.1 < 255 && it.1.is_multiple_of(2));
        even && stack.is_sorted_by(|older, newer| older.1 > newer.1)
    };
    let charged = |record: &Record| {
        let (parts, exists) = (record.parts(), record.owner.is_some_and(|v| v < gic.count));
        (!parts.inflight || parts.active && exists) && (!parts.redelivery_pending || parts.inflight)
    };
    gic.stack.iter().all(in_order)
        && gic.records.iter().all(charged)
        && !has_pending_without_source(gic)
        && !has_source_without_pending(gic)
        && !has_false_bit(gic)
}

/// Those that the sentences about wake sets and CPENDSGIR need.
pub fn has_enough(gic: &Gic) -> bool {
    !has_source_without_pending(gic) && !has_false_bit(gic)
}

/// Each SGI's record, and whether it has a source.
fn sgis(gic: &Gic) -> impl Iterator<Item = (Parts, bool)> {
    let vcpus = gic.records.chunks(32).take(gic.count as usize);
    let records = vcpus.flat_map(|own| own[..16].iter().map(Record::parts));
    records.zip(gic.sources.iter().map(|set| *set != 0))
}

fn has_pending_without_source(gic: &Gic) -> bool {
    sgis(gic).any(|(sgi, has_source)| sgi.pending && !has_source)
}

fn has_source_without_pending(gic: &Gic) -> bool {
    sgis(gic).any(|(sgi, has_source)| has_source && !sgi.pending)
}

fn has_false_bit(gic: &Gic) -> bool {
    let bit = |spi: u64| gic.summary[spi as usize / 32 - 1] >> (spi % 32) & 1 == 1;
    (32..gic.limit).any(|spi| bit(spi) != is_ready(gic, spi))
}

/// What a state has, to be counted.
pub fn features(gic: &Gic) -> Vec<&'static str> {
    let mut all = unlawful(gic);
    let mut note = |what, has: bool| all.extend(has.then_some(what));
    let full = |stack: &Vec<(u64, u8)>| stack.len() == STACK_MAX;
    note("a full stack", gic.stack.iter().any(full));
    note("a false bit", has_false_bit(gic));
    note("sources, not pending", has_source_without_pending(gic));
    let more = has_enough(gic) && !has_demand_three(gic);
    note("enough, not demand 3", more);
    note("a limit in a word", !gic.limit.is_multiple_of(32));
    note("eight vCPUs", gic.count == 8);
    note("every number", gic.limit == 1020);
    all
}

/// Those of request One's further sentences that fail.
fn unlawful(gic: &Gic) -> Vec<&'static str> {
    let mut all = vec![];
    let mut note = |what, has: bool| all.extend(has.then_some(what));
    let held = |sgi: &Parts| sgi.trigger == TriggerMode::Level && sgi.line_asserted;
    note("a held SGI", sgis(gic).any(|(sgi, _)| held(&sgi)));
    let noted = |(sgi, _): (Parts, bool)| sgi.redelivery_pending;
    note("an SGI with a note", sgis(gic).any(noted));
    let (private, spis) = gic.records.split_at(32 * gic.count as usize);
    let mask = |it: &Record| it.parts().cpu_target_mask;
    let nobody = |it: &Record| u64::from(mask(it).unwrap_or(0)) >> gic.count != 0;
    note("a target that there is not", spis.iter().any(nobody));
    note(
        "a private mask",
        private.iter().any(|it| mask(it).is_some()),
    );
    let mut slots = private.iter().enumerate();
    let elsewhere = |at: usize, it: &Record| it.owner != Some(at as u64 / 32);
    let elsewhere = slots.any(|(at, it)| it.parts().inflight && elsewhere(at, it));
    note("a private record served elsewhere", elsewhere);
    let stray = |it: &Record| it.owner.is_some() && !it.parts().inflight;
    note("a stray owner", gic.records.iter().any(stray));
    let mut entries = gic.stack.iter().flatten();
    note(
        "an entry from the limit up",
        entries.any(|it| it.0 >= gic.limit),
    );
    all
}
