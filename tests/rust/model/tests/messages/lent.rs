//! Messages over lent words: any at all.
use crate::{
    Access, Cast, Random, SPURIOUS, Tally, Window, expect, note, places, states::Kind, told, walk,
};
use model::{gic::Gic, message, words};

/// Any words, which are a state; mostly of a controller with some words strewn over. Some lie past the end.
fn any_words(random: &mut Random, gic: &Gic) -> Vec<u32> {
    let mut lent = words::write(gic);
    let strewn = random.pick(&[0, 2, 30, 100]);
    for (at, word) in lent.iter_mut().enumerate().skip(2) {
        let is_depth = at < 3 + 52 * gic.count as usize && at % 52 == 6;
        if !is_depth && random.percent(strewn) {
            *word = random.number() as u32;
        }
    }
    lent.extend((0..random.below(3)).map(|_| 0xdead_beef));
    lent
}

/// Makes them no state, in one of the ways that 6 names.
fn broken(random: &mut Random, mut lent: Vec<u32>, gic: &Gic) -> Vec<u32> {
    let (count, limit) = (gic.count as u32, gic.limit as u32);
    let vcpu = random.below(gic.count) as usize;
    match random.below(5) {
        0 => lent[0] = random.pick(&[0, 9, count + (1 << 16), u32::MAX]),
        1 => lent[1] = random.pick(&[0, 31, 1021, limit + (1 << 16), u32::MAX]),
        2 => lent.truncate(random.below(words::size(gic.count, gic.limit) as u64) as usize),
        _ => lent[3 + 52 * vcpu + 3] = random.pick(&[129, 255, 1 << 31, u32::MAX]),
    }
    lent
}

fn run(access: Access, lent: &mut [u32]) -> [u64; 4] {
    let Window { first, count } = access.window;
    let (offset, width) = (access.offset, access.width);
    told(match access.value {
        None => message::read(lent, first, count, offset, width),
        Some(value) => message::write(lent, first, count, offset, width, value),
    })
}

#[test]
fn messages_over_lent_words() {
    let mut tally = Tally::default();
    walk(700, 150, |random, cast, kind, gic| {
        for _ in 0..4 {
            let lent = any_words(random, gic);
            see_state(&mut tally, random, cast, kind, &lent);
            let lent = broken(random, lent, gic);
            let mut after = lent.clone();
            let answer = run(Access::any(random, cast), &mut after);
            assert_eq!((answer, after), ([6, 0, 0, SPURIOUS], lent));
            tally.note("lent words", kind, "refused by 6");
        }
    });
    tally.print();
    for kind in Kind::ALL {
        let least = [
            ("refused by 6", 2000),
            ("refused", 600),
            ("rang", 700),
            ("woke", 30),
            ("words past the end", 400),
            ("wrote bits that count for nothing", 100),
            ("left bits that count for nothing", 400),
        ];
        expect(&tally, "lent words", kind, &least);
    }
}

/// The answer is that of the controller that the words mean, and a pulse's; no word is written but the two of its SPI.
fn see_state(tally: &mut Tally, random: &mut Random, cast: &Cast, kind: Kind, lent: &[u32]) {
    let access = Access::any(random, cast);
    let mut meant = words::read(lent).expect("a state");
    let refusal = access.refusal(meant.limit);
    let rings = (refusal == 0).then(|| access.rings()).flatten();
    let (mut after, mut answer) = (lent.to_vec(), [refusal, 0, 0, SPURIOUS]);
    if refusal == 0 {
        answer[1] = access.value_read();
    }
    let mut expected = lent.to_vec();
    if let Some(spi) = rings {
        answer = told(meant.input(0, spi, None));
        let (record, summary) = places(&meant, spi);
        let canonical = words::write(&meant);
        expected[record] = canonical[record];
        expected[summary] = canonical[summary];
    }
    assert_eq!(run(access, &mut after), answer, "{access:x?}");
    assert_eq!(after, expected, "{access:x?}");
    let again = words::read(&after).expect("a state");
    assert_eq!(words::write(&again), words::write(&meant));
    let past = lent.len() > words::size(meant.count, meant.limit);
    let (before, left) = (unmeant(lent), unmeant(&after));
    let facts = [
        ("refused", refusal != 0),
        ("rang", rings.is_some()),
        ("woke", answer[2] != 0),
        ("words past the end", rings.is_some() && past),
        ("wrote bits that count for nothing", left < before),
        (
            "left bits that count for nothing",
            rings.is_some() && left > 0,
        ),
    ];
    note(tally, "lent words", kind, &facts);
}

/// How many words have bits that count for nothing.
fn unmeant(words: &[u32]) -> usize {
    let canonical = words::write(&words::read(words).expect("a state"));
    canonical.iter().zip(words).filter(|(a, b)| a != b).count()
}
