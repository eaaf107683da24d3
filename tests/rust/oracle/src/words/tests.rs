//! The places and bits of docs/STATE.md, by hand; and that words mean what they are written for.
use crate::{lines, machine::Machine, scripts::random::Random, words::size};

fn words(machine: &Machine) -> Vec<u32> {
    let mut words = vec![];
    machine.write_words(&mut words);
    words
}

fn answer(machine: &mut Machine, line: &str) -> String {
    lines::answer(machine, lines::parse(line.as_bytes())).unwrap()
}

/// The state after these lines.
fn after(lines: &[&str]) -> Vec<u32> {
    let mut machine = Machine::default();
    for line in lines {
        assert!(answer(&mut machine, line).starts_with("0 "), "{line}");
    }
    words(&machine)
}

#[test]
fn the_sizes_of_the_document() {
    let rows = [
        (1, 32, 183),
        (2, 40, 372),
        (4, 64, 756),
        (4, 288, 987),
        (8, 1020, 2462),
    ];
    for (count, limit, words) in rows {
        assert_eq!(size(count, limit), words);
        assert_eq!(after(&[&format!("n {count} {limit}")]).len(), words);
    }
}

#[test]
fn a_fresh_state_has_its_header_and_sgis_alone() {
    for (place, word) in after(&["n 2 40"]).into_iter().enumerate() {
        let own = |start: usize| (start + 20..start + 36).contains(&place);
        let expected = match place {
            0 => 2,
            1 => 40,
            _ if own(3) || own(55) => 0b0100_0001,
            _ => 0,
        };
        assert_eq!(word, expected, "word {place}");
    }
}

#[test]
fn every_call_writes_where_the_document_says() {
    let fresh = ["n 2 40"];
    for (lines, place, word) in [
        (&["D 0 0 4 1"][..], 2, 1),
        (&["C 1 0 4 4294967295"], 55, 0x201),
        (&["C 1 4 4 511"], 56, 0xff),
        (&["C 1 8 4 255"], 57, 7),
        (&["D 1 3879 1 129"], 55 + 4 + 7, 0x81),
        (&["D 1 3879 1 129"], 55 + 20 + 7, 0b0100_0011),
        (&["l 1 17 1"], 55 + 20 + 17, 0b0010_0010),
        (&["D 0 2087 1 3"], 107 + 7, 0x0003_0080),
        (&["D 0 1063 1 128"], 107 + 7, 0x8000),
        (&["D 0 772 4 128"], 107 + 7, 0b100),
    ] {
        let all = [&fresh[..], lines].concat();
        assert_eq!(after(&all)[place], word, "{lines:?}");
    }
}

#[test]
fn the_bits_of_the_ready_stand_behind_the_records() {
    // Pulsed, and enabled by three words: 32 and 63 in one word of the summary, 64 in the next, the last number in the last.
    let (records, summary) = (3 + 2 * 52, 3 + 2 * 52 + 100 - 32);
    let mut state = vec!["n 2 100"];
    state.extend(["p 0 32", "p 0 63", "p 0 64", "p 0 99"]);
    assert_eq!(after(&state)[summary..][..3], [0, 0, 0]);
    state.extend(["D 0 260 4 2147483649", "D 0 264 4 1", "D 0 268 4 8"]);
    let ready = after(&state);
    assert_eq!(ready[summary..][..3], [1 | 1 << 31, 1, 1 << 3]);
    assert_eq!((ready[records], ready[summary - 1]), (0b11, 0b11));
    assert_eq!(ready.len(), summary + 3 + 2 * 128);
    for (line, left) in [
        ("D 0 388 4 1", [1 << 31, 1, 1 << 3]),     // not enabled
        ("D 0 644 4 2147483648", [1, 1, 1 << 3]),  // not pending
        ("D 0 776 4 1", [1 | 1 << 31, 0, 1 << 3]), // active
    ] {
        let all = [&state[..], &[line]].concat();
        assert_eq!(after(&all)[summary..][..3], left, "{line}");
    }
}

#[test]
fn what_is_served_stands_on_the_stack_and_has_its_owner() {
    let taken = [
        "n 2 40",
        "D 0 0 4 1",
        "C 1 0 4 1",
        "C 1 4 4 255", // all on
        "D 0 260 4 2",
        "D 0 2081 1 2",
        "D 0 1057 1 16",
        "p 0 33",
        "c 1 12 4",
        "p 0 33",
    ];
    let stack = 107 + 8 + 1 + 128;
    let state = after(&taken);
    assert_eq!(
        (state[58], state[stack], state[stack + 1]),
        (1, 33 | 16 << 10, 0)
    );
    assert_eq!(state[107 + 1], 2 << 24 | 2 << 16 | 16 << 8 | 0b1001_1111);
    assert_eq!(state[107 + 8], 0);
    let state = after(&[&taken[..], &["C 1 16 4 33"]].concat());
    assert_eq!((state[58], state[stack]), (0, 0));
    assert_eq!(state[107 + 1], 2 << 16 | 16 << 8 | 0b1000_0011);
    assert_eq!(state[107 + 8], 0b10);
}

#[test]
fn any_words_are_written_as_they_are_meant() {
    let mut random = Random::new(0);
    for _ in 0..200 {
        let mut lent: Vec<u32> = (0..size(2, 40)).map(|_| random.number() as u32).collect();
        (lent[0], lent[1], lent[6], lent[58]) = (2, 40, 128, random.below(129) as u32);
        let state = words(&Machine::lent(&lent));
        let places = [2, 3, 4, 5, 7, 115, 244 - 1];
        let kept = [1, 0x201, 255, 7, 255, u32::MAX, 0x3_ffff];
        for (place, kept) in places.into_iter().zip(kept) {
            assert_eq!(state[place], lent[place] & kept, "word {place}");
        }
        let mask = if lent[30] & 0x80 == 0 {
            0xff00_ffff
        } else {
            u32::MAX
        };
        assert_eq!(state[30], lent[30] & mask);
        assert_eq!(words(&Machine::lent(&state)), state);
    }
}

#[test]
fn what_is_no_state_answers_6() {
    let fresh = after(&["n 2 40"]);
    let with = |place: usize, word: u32| {
        let mut words = fresh.clone();
        words[place] = word;
        answer(&mut Machine::lent(&words), "d 0 4 4")
    };
    assert_eq!(with(0, 2), "0 33 0 1023");
    assert_eq!(with(6, 128), "0 33 0 1023");
    for (place, word) in [
        (0, 0),
        (0, 9),
        (1, 31),
        (1, 1021),
        (0, 3),
        (1, 41),
        (6, 129),
        (6, 255),
        (58, 1 << 31),
    ] {
        assert_eq!(with(place, word), "6 0 0 1023", "{place} {word}");
    }
    for length in [0, 1, 2, 3, 371] {
        let mut machine = Machine::lent(&fresh[..length]);
        assert_eq!(answer(&mut machine, "d 0 4 4"), "6 0 0 1023", "{length}");
    }
}
