//! Request Seven, "Message-signalled frame", as the network card meets it: after histories with messages in them, and from the states of
//! `merging`. From any words a message is document 01's pulse, and two may come in either order; if the bits of their SPIs are exact, the
//! same vCPUs are woken. What is rung for in flight is given after the end (`delivery`). `histories` has demand 3's sequences, `lent` the
//! calls over lent words.
#[path = "messages/access.rs"]
mod access;
#[allow(dead_code)] // what only `merging` asks of them, here and below
#[path = "merging/cast.rs"]
mod cast;
#[path = "messages/delivery.rs"]
mod delivery;
#[path = "messages/histories.rs"]
mod histories;
#[path = "messages/lent.rs"]
mod lent;
#[path = "messages/program.rs"]
mod program;
#[path = "../../oracle/src/scripts/random.rs"]
mod random;
#[allow(dead_code)]
#[path = "merging/registers.rs"]
mod registers;
#[path = "merging/scene.rs"]
mod scene;
#[allow(dead_code)]
#[path = "merging/states.rs"]
mod states;
#[path = "merging/tally.rs"]
mod tally;

use access::{Access, Window, any_spi};
use cast::Cast;
use model::{
    gic::{Answer, Gic, SPURIOUS},
    words,
};
use random::Random;
use scene::Scene;
use states::Kind;
use tally::Tally;
use types::register::*;

fn told(answer: Answer) -> [u64; 4] {
    [answer.refusal, answer.value, answer.wake, answer.retired]
}

/// Notes what holds.
fn note(tally: &mut Tally, of: &'static str, kind: Kind, facts: &[(&'static str, bool)]) {
    for (what, _) in facts.iter().filter(|it| it.1) {
        tally.note(of, kind, what);
    }
}

/// What has to be met, and how often, or the sentences would say little.
#[track_caller]
fn expect(tally: &Tally, of: &'static str, kind: Kind, least: &[(&'static str, u64)]) {
    for (what, least) in least {
        tally.expect(of, kind, what, *least);
    }
}

/// A driver makes ready for its card: what waits is taken back, most that is served is ended, and the SPIs of the cast go to somebody.
fn attend(random: &mut Random, scene: &mut Scene) {
    let (gic, cast) = (&mut scene.gic, &scene.cast);
    for vcpu in 0..cast.count {
        if random.percent(70) {
            unwind(gic, vcpu);
        }
        for bytes in 0..4 {
            gic.dist_write(vcpu, GICD_CPENDSGIR + 4 * bytes, 4, u64::MAX);
        }
        for number in cast.numbers() {
            gic.input(vcpu, *number, Some(false));
        }
        for word in 0..cast.limit.div_ceil(32) {
            gic.dist_write(vcpu, GICD_ICPENDR + 4 * word, 4, u64::MAX);
        }
    }
    for spi in cast.numbers().iter().filter(|it| **it >= 32) {
        let (word, bit) = (spi / 32 * 4, 1 << (spi % 32));
        gic.dist_write(0, GICD_ISENABLER + word, 4, bit);
        let (one, any) = (1 << cast.vcpu(random), random.below(256));
        gic.dist_write(0, GICD_ITARGETSR + spi, 1, random.pick(&[1, one, any]));
        let priority = random.pick(&[0, 1, 0x40, 0x80]);
        gic.dist_write(0, GICD_IPRIORITYR + spi, 1, priority);
    }
}

/// Everything that a vCPU serves is ended.
fn unwind(gic: &mut Gic, vcpu: u64) {
    while let Some((number, _)) = gic.stack[vcpu as usize].last().copied() {
        gic.cpu_write(vcpu, GICC_EOIR, 4, number);
        gic.cpu_write(vcpu, GICC_DIR, 4, number);
    }
}

/// States of the three kinds after histories with messages in them.
fn walk(seed: u64, scenes: u64, mut see: impl FnMut(&mut Random, &Cast, Kind, &Gic)) {
    let mut random = Random::new(seed);
    for _ in 0..scenes {
        let mut scene = Scene::new(&mut random, Cast::new);
        for _ in 0..4 {
            scene.play(&mut random);
            if random.percent(60) {
                attend(&mut random, &mut scene);
            }
            for _ in 0..random.below(3) {
                Access::any(&mut random, &scene.cast).run(&mut scene.gic);
            }
            for kind in Kind::ALL {
                let gic = states::made(&mut random, &scene, kind);
                assert!(kind == Kind::Any || states::has_demand_three(&gic));
                see(&mut random, &scene.cast, kind, &gic);
            }
        }
    }
}

/// What IAR gives; None if 7 refuses it.
fn iar(gic: &Gic, vcpu: u64) -> Option<u64> {
    let answer = gic.clone().cpu_read(vcpu, GICC_IAR, 4);
    (answer.refusal == 0).then_some(answer.value)
}

/// 01's wake set: "an IAR read by v would give 1023 before the call and another number after it".
fn woken(before: &Gic, after: &Gic) -> u64 {
    let number = |it: Option<u64>| it.is_some_and(|it| it != SPURIOUS);
    let wakes = |v: &u64| iar(before, *v) == Some(SPURIOUS) && number(iar(after, *v));
    (0..before.count)
        .filter(wakes)
        .fold(0, |all, v| all | 1 << v)
}

/// Flags of a record and its places by docs/STATE.md.
const ENABLED: u32 = 1;
const PENDING: u32 = 2;
const ACTIVE: u32 = 4;
const IN_FLIGHT: u32 = 8;
const NOTED: u32 = 16;

/// Where the record of an SPI is, and its word of the summary.
fn places(gic: &Gic, spi: u64) -> (usize, usize) {
    let spis = 3 + 52 * gic.count as usize;
    let summary = spis + gic.limit as usize - 32;
    (spis + spi as usize - 32, summary + spi as usize / 32 - 1)
}

/// The words after a pulse: pending, noted if it is in flight, its bit anew; no other word.
fn pulsed(gic: &Gic, spi: u64) -> Vec<u32> {
    let mut words = words::write(gic);
    let (record, summary) = places(gic, spi);
    words[record] |= PENDING;
    if words[record] & IN_FLIGHT != 0 {
        words[record] |= NOTED;
    }
    let ready = words[record] & (ENABLED | ACTIVE) == ENABLED;
    words[summary] &= !(1 << (spi % 32));
    words[summary] |= u32::from(ready) << (spi % 32);
    words
}

/// A message is a device's pulse.
#[test]
fn a_message_is_a_pulse() {
    let mut tally = Tally::default();
    walk(7, 250, |random, cast, kind, gic| {
        for _ in 0..if cast.limit == 32 { 0 } else { 4 } {
            let spi = any_spi(random, cast);
            let window = Window::around(random, gic.limit, spi, spi);
            let (mut after, mut input) = (gic.clone(), gic.clone());
            let answer = window.ring(&mut after, spi | random.number() << 32);
            let by_input = told(input.input(random.number(), spi, None)); // of any vCPU
            let expected = [0, 0, woken(gic, &after), SPURIOUS];
            assert_eq!((answer, by_input), (expected, expected), "{window:?} {spi}");
            let words = [&after, &input].map(words::write);
            assert_eq!(words, [pulsed(gic, spi), pulsed(gic, spi)]);
            note_pulse(&mut tally, kind, gic, spi, answer[2]);
            see_silent(&mut tally, random, kind, gic, window);
        }
    });
    tally.print();
    for kind in Kind::ALL {
        let least = [
            ("rung", 3000),
            ("woke", 150),
            ("woke several", 40),
            ("changed a word", 1000),
            ("in flight", 150),
            ("noted", 60),
            ("not enabled", 500),
            ("pending before", 800),
            ("beside the window", 3000),
            ("far outside", 3000),
        ];
        expect(&tally, "a message", kind, &least);
    }
    tally.expect("a message", Kind::Any, "a false bit", 800);
}

fn note_pulse(tally: &mut Tally, kind: Kind, gic: &Gic, spi: u64, wake: u64) {
    let words = words::write(gic);
    let flags = words[places(gic, spi).0];
    let facts = [
        ("rung", true),
        ("woke", wake != 0),
        ("woke several", wake.count_ones() > 1),
        ("changed a word", words != pulsed(gic, spi)),
        ("in flight", flags & IN_FLIGHT != 0),
        ("noted", flags & (IN_FLIGHT | NOTED) == IN_FLIGHT),
        ("not enabled", flags & ENABLED == 0),
        ("pending before", flags & PENDING != 0),
        ("a false bit", !is_exact(gic, spi)),
    ];
    note(tally, "a message", kind, &facts);
}

/// "Any other number does nothing": those on both sides of the window, and far ones.
fn see_silent(tally: &mut Tally, random: &mut Random, kind: Kind, gic: &Gic, window: Window) {
    let beside = random.pick(&[window.first - 1, window.first + window.count]);
    let inside = window.first + random.below(window.count);
    let bit = 1 << (10 + random.below(22));
    let (private, large) = (random.below(32), random.number() | 1 << 31);
    let far = random.pick(&[private, inside | bit, gic.limit, 1023, large]);
    for (number, what) in [(beside, "beside the window"), (far, "far outside")] {
        let mut after = gic.clone();
        let answer = window.ring(&mut after, number);
        assert_eq!(answer, [0, 0, 0, SPURIOUS], "{window:?} {number:x}");
        assert_eq!(words::write(&after), words::write(gic));
        tally.note("a message", kind, what);
    }
}

/// The card's second story: two messages for two SPIs of one window.
#[test]
fn two_messages_in_either_order() {
    let mut tally = Tally::default();
    walk(77, 250, |random, cast, kind, gic| {
        for _ in 0..4 {
            let spis = (cast.limit >= 34).then(|| [any_spi(random, cast), any_spi(random, cast)]);
            let Some([x, y]) = spis.filter(|[x, y]| x != y) else {
                continue;
            };
            let window = Window::around(random, gic.limit, x.min(y), x.max(y));
            see_two(&mut tally, kind, gic, window, [x, y]);
        }
    });
    tally.print();
    for kind in Kind::ALL {
        let least = [
            ("two", 2000),
            ("exact", 800),
            ("both changed", 800),
            ("woke", 200),
            ("both woke", 15),
            ("told by the other", 10),
        ];
        expect(&tally, "two messages", kind, &least);
    }
    // Where a bit is false the order may show, and `a_false_bit_parts_the_wake_sets` has the least of it.
    tally.expect("two messages", Kind::Any, "parted", 5);
}

fn see_two(tally: &mut Tally, kind: Kind, gic: &Gic, window: Window, [x, y]: [u64; 2]) {
    let rung = |order: [u64; 2]| {
        let mut after = gic.clone();
        let wakes = order.map(|spi| window.ring(&mut after, spi)[2]);
        (after, wakes)
    };
    let ((after, first), (other, second)) = (rung([x, y]), rung([y, x]));
    let told = format!("{window:?} {x} {y}: {first:?} {second:?}");
    assert_eq!(words::write(&after), words::write(&other), "{told}");
    assert!(is_pending(&after, x) && is_pending(&after, y), "{told}");
    let exact = is_exact(gic, x) && is_exact(gic, y);
    assert!(exact || kind == Kind::Any);
    let together = [first, second].map(|wakes| wakes[0] | wakes[1]);
    assert!(!exact || together == [woken(gic, &after); 2], "{told}");
    let changed = |spi| pulsed(gic, spi) != words::write(gic);
    let facts = [
        ("two", true),
        ("exact", exact),
        ("both changed", changed(x) && changed(y)),
        ("woke", together[0] != 0),
        ("both woke", first[0] != 0 && first[1] != 0),
        ("told by the other", exact && first[0] != second[1]),
        ("parted", together[0] != together[1]),
    ];
    note(tally, "two messages", kind, &facts);
}

/// By its record, and by ISPENDR.
fn is_pending(gic: &Gic, spi: u64) -> bool {
    let register = gic.dist_read(0, GICD_ISPENDR + spi / 32 * 4, 4).value;
    let pending = gic.records[gic.slot(0, spi)].parts().pending;
    assert_eq!(pending, register >> (spi % 32) & 1 == 1);
    pending
}

fn is_exact(gic: &Gic, spi: u64) -> bool {
    let parts = gic.records[gic.slot(0, spi)].parts();
    let bit = gic.summary[spi as usize / 32 - 1] >> (spi % 32) & 1 == 1;
    bit == (parts.enabled && parts.pending && !parts.active)
}

/// 32 is not enabled and its bit is set, so it is given until it is rung. Whom it kept awake is told of 33 only if 33 comes later.
#[test]
fn a_false_bit_parts_the_wake_sets() {
    let mut gic = Gic::new(1, 34);
    (gic.on, gic.ctlr[0], gic.pmr[0]) = (true, 1, 255);
    gic.dist_write(0, GICD_ITARGETSR + 32, 2, 0x0101);
    gic.dist_write(0, GICD_ISENABLER + 4, 4, 2);
    let window = Window {
        first: 32,
        count: 2,
    };
    let wakes = |gic: &Gic, order: [u64; 2]| {
        let mut gic = gic.clone();
        order.map(|spi| window.ring(&mut gic, spi)[2])
    };
    assert_eq!(wakes(&gic, [32, 33]), [0, 1]);
    assert_eq!(wakes(&gic, [33, 32]), [1, 0]);
    gic.summary[0] = 1;
    assert_eq!(wakes(&gic, [32, 33]), [0, 1]);
    assert_eq!(wakes(&gic, [33, 32]), [0, 0]);
}

/// A card that rings twice before it is heard is heard once: the second message changes nothing and wakes nobody.
#[test]
fn two_messages_for_one_spi() {
    let mut tally = Tally::default();
    walk(777, 100, |random, cast, kind, gic| {
        if cast.limit == 32 {
            return;
        }
        let spi = any_spi(random, cast);
        let window = Window::around(random, gic.limit, spi, spi);
        let mut after = gic.clone();
        let first = window.ring(&mut after, spi);
        let once = words::write(&after);
        assert_eq!(window.ring(&mut after, spi), [0, 0, 0, SPURIOUS]);
        assert_eq!(words::write(&after), once);
        let facts = [("twice", true), ("woke", first[2] != 0)];
        note(&mut tally, "one SPI", kind, &facts);
    });
    tally.print();
    for kind in Kind::ALL {
        expect(&tally, "one SPI", kind, &[("twice", 300), ("woke", 20)]);
    }
}
