//! IMAGE.md's two worked examples, and what its rules leave out.
use super::*;
use crate::lines::answer_line;

/// The words after these lines, each of them accepted.
fn after(lines: &[&str]) -> Vec<u32> {
    let mut state = None;
    for line in lines {
        let mut answer = vec![];
        answer_line(&mut state, line.as_bytes(), &mut answer);
        assert!(answer.starts_with(b"0 "), "{line}");
    }
    words::write(&state.expect("a setup"))
}

fn saved(words: &[u32]) -> Vec<u8> {
    let mut buffer = vec![0xee; 20_000];
    let answer = save(words, &mut buffer);
    assert_eq!(answer.refusal, 0);
    assert!(buffer[answer.value as usize..].iter().all(|it| *it == 0xee));
    buffer.truncate(answer.value as usize);
    buffer
}

fn busier() -> Vec<u32> {
    after(&[
        "n 2 34",
        "D 0 0 4 1",
        "C 0 0 4 513",
        "C 0 4 4 240",
        "C 0 8 4 2",
        "C 1 0 4 1",
        "C 1 4 4 255",
        "D 0 3840 4 16908293",
        "D 1 3840 4 65539",
        "D 0 1056 4 41120",
        "D 0 2080 4 515",
        "D 0 260 4 3",
        "l 0 33 1",
        "c 0 12 4",
        "c 0 12 4",
    ])
}

fn refusal(image: &[u8]) -> u64 {
    load(&mut [0; 1000], image).refusal
}

/// With other bytes in the place of these.
fn with(image: &[u8], at: usize, gone: usize, put: &[u8]) -> Vec<u8> {
    [&image[..at], put, &image[at + gone..]].concat()
}

#[test]
fn numbers_in_groups() {
    for (number, groups) in [
        (0, &[0x00][..]),
        (127, &[0x7f]),
        (128, &[0x80, 0x01]),
        (256, &[0x80, 0x02]),
        (513, &[0x81, 0x04]),
    ] {
        let mut written = vec![];
        write_number(&mut written, number);
        assert_eq!(written, groups);
        let mut reader = Reader { rest: groups };
        assert_eq!(reader.number(0..=u64::MAX), Some(number));
        assert!(reader.rest.is_empty());
    }
    let most = [[0xff; 9].as_slice(), &[1]].concat();
    let read = |rest| Reader { rest }.number(0..=u64::MAX);
    assert_eq!(read(&most), Some(u64::MAX));
    for none in [
        &[][..],
        &[0x80],
        &[0x80, 0x00],
        &[0xff, 0x80, 0x00],
        &with(&most, 9, 1, &[2]),
        &with(&most, 9, 0, &[0xff]),
        &[0x80; 30],
    ] {
        assert_eq!(read(none), None, "{none:x?}");
    }
}

#[test]
fn a_fresh_controller() {
    let image = saved(&after(&["n 1 33"]));
    let expected = [
        &[0x01, 0x21, 0x00, 0x00, 0x00, 0x00, 0x00][..],
        &[0x41, 0x00, 0x00].repeat(16),
        &[0x00, 0x00].repeat(16),
        &[0x00, 0x00, 0x00, 0x80, 0x02],
    ];
    assert_eq!(image, expected.concat());
    assert_eq!(image.len(), 92);
}

#[test]
fn a_busier_one() {
    let image = saved(&busier());
    let begins = [
        0x02, 0x22, 0x01, 0x81, 0x04, 0xf0, 0x01, 0x02, 0x01, 0xff, 0x01, 0x00, 0x01, 0x03, 0x00,
        0x00,
    ];
    let ends = [0x01, 0xa0, 0x01, 0x00, 0x03, 0x23, 0xa0, 0x01, 0x00, 0x02];
    assert!(image.starts_with(&begins) && image.ends_with(&ends));
    assert_eq!(image.len(), 186);
}

#[test]
fn load_gives_the_words_back_and_reads_none() {
    for state in [after(&["n 1 33"]), busier(), after(&["n 8 1020"])] {
        let image = saved(&state);
        for old in [0, u32::MAX] {
            let mut words = vec![old; state.len() + 2];
            let answer = load(&mut words, &image);
            assert_eq!((answer.refusal, answer.value, answer.wake), (0, 0, 0));
            assert_eq!(words, [&state[..], &[old; 2]].concat());
        }
        let mut short = vec![7; state.len() - 1];
        assert_eq!(load(&mut short, &image).refusal, 5);
        assert_eq!(load(&mut short, &image[1..]).refusal, 9);
        assert!(short.iter().all(|word| *word == 7));
    }
}

#[test]
fn no_other_bytes_are_an_image() {
    let image = saved(&busier());
    for end in 0..image.len() {
        assert_eq!(refusal(&image[..end]), 9, "{end}");
    }
    assert_eq!(refusal(&image), 0);
    assert_eq!(refusal(&with(&image, image.len(), 0, &[0])), 9);
    for (at, gone, put) in [
        (0, 1, &[0x00][..]),     // no vCPU
        (0, 1, &[0x82, 0x00]),   // 2, and longer than it has to be
        (1, 1, &[0x1f]),         // a limit of 31
        (2, 1, &[0x02]),         // CTLR
        (3, 2, &[0x80, 0x02]),   // bit 8 of an interface's CTLR
        (5, 2, &[0x80, 0x02]),   // PMR 256
        (7, 1, &[0x08]),         // BPR 8
        (12, 1, &[0x00]),        // a depth of 0, and an entry
        (13, 1, &[0x22]),        // an entry's number, which is the limit
        (14, 1, &[0xff, 0x01]),  // its priority
        (14, 1, &[0xfd, 0x01]),  // an odd one
        (14, 1, &[0x01]),        // another
        (16, 1, &[0x43]),        // an SGI that is pending, and has no source
        (16, 1, &[0x01]),        // a level SGI
        (16, 1, &[0x61]),        // an SGI's line
        (176, 1, &[0x08]),       // in flight, not active
        (176, 1, &[0x10]),       // redelivery, not in flight
        (176, 1, &[0x80, 0x01]), // flags of 128
        (179, 1, &[0x01]),       // an owner, not in flight
        (180, 1, &[0x04]),       // a target that there is not
        (180, 1, &[0x81, 0x02]), // a mask of 257
    ] {
        assert_eq!(refusal(&with(&image, at, gone, put)), 9, "{at} {put:x?}");
    }
}

#[test]
fn others_beside_them_are() {
    let image = saved(&busier());
    for (at, gone, put) in [
        (3, 2, &[0x80, 0x04][..]), // bit 9 alone
        (13, 1, &[0x21]),
        (14, 1, &[0xfe, 0x01]),
        (14, 1, &[0x02]),
        (16, 1, &[0x4d]),
        (180, 1, &[0x80, 0x02]), // unset
        (180, 1, &[0x00]),       // a mask of 0
    ] {
        assert_eq!(refusal(&with(&image, at, gone, put)), 0, "{at} {put:x?}");
    }
    let served = with(&with(&image, 179, 1, &[0x02]), 176, 1, &[0x0d]);
    assert_eq!(refusal(&served), 0);
    assert_eq!(refusal(&with(&served, 179, 1, &[0x03])), 9); // owned by vCPU 2
}

#[test]
fn stray_bits_are_not_saved_and_unlawful_words_are_refused() {
    let state = busier();
    let image = saved(&state);
    let stacks = state.len() - 2 * 128;
    let changed = |place: usize, bits: u32| {
        let mut words = state.clone();
        words[place] ^= bits;
        words
    };
    for (place, bits) in [
        (2, 2),
        (3, 0x100),
        (4, 0x100),
        (5, 8),
        (7, 0x100),
        (23, 0xff_0000), // a mask that was never set
        (stacks, 1 << 18),
        (stacks + 1, 5),
    ] {
        assert_eq!(saved(&changed(place, bits)), image, "{place}");
    }
    for (place, bits, number) in [
        (0, 1, 6),
        (6, 0x100, 6),
        (6, 0x80, 6), // a depth of 129
        (6, 2, 9),
        (7, 1, 9),
        (23, 0x40, 9),
        (23, 0x80, 9),
        (23, 1 << 24, 9),
        (107, 3 << 16, 0),
        (107, 4 << 16, 9),
        (107, 1 << 24, 9),
        (stacks, 1 << 10, 9), // an odd entry
        (stacks, 1 << 11, 0),
        (stacks + 128, 1 << 10, 0), // one past the depth
    ] {
        let answer = save(&changed(place, bits), &mut [0; 999]);
        assert_eq!(answer.refusal, number, "{place} {bits:x}");
    }
}

/// Of SGI 0 at these priorities, in a controller of one vCPU.
fn stacked(priorities: &[u64]) -> Vec<u8> {
    let mut stack = vec![];
    write_number(&mut stack, priorities.len() as u64);
    for priority in priorities {
        stack.push(0);
        write_number(&mut stack, *priority);
    }
    with(&saved(&after(&["n 1 33"])), 6, 1, &stack)
}

#[test]
fn a_stack_holds_even_priorities_and_128_at_most() {
    let even: Vec<u64> = (0..128).map(|index| 254 - 2 * index).collect();
    assert_eq!(refusal(&stacked(&even)), 0);
    let mut words = vec![0; words::size(1, 33)];
    load(&mut words, &stacked(&even));
    assert_eq!(saved(&words), stacked(&even));
    for index in 0..128 {
        let mut odd = even.clone();
        odd[index] += 1;
        assert_eq!(refusal(&stacked(&odd)), 9, "{index}");
    }
    let deeper: Vec<u64> = [&even[..127], &[1, 0]].concat();
    assert_eq!(refusal(&stacked(&deeper)), 9);
    let of_one: Vec<u64> = (0..255).rev().collect();
    assert_eq!(refusal(&stacked(&of_one)), 9);
}

/// Of 66: SPI 63 is ready, and 64 pending but not enabled. Its summary stands in words 141 and 142.
fn summarized() -> Vec<u32> {
    let words = after(&["n 2 66", "D 0 260 4 2147483648", "l 0 63 1", "l 0 64 1"]);
    assert_eq!(words[141..143], [1 << 31, 0]);
    words
}

/// "Exactness joins demand 3's properties", for each SPI below the limit and no other number.
#[test]
fn a_false_bit_is_not_saved() {
    let state = summarized();
    let image = saved(&state);
    for id in 32..96 {
        let mut words = state.clone();
        words[141 + (id - 32) / 32] ^= 1 << (id % 32);
        if id < 66 {
            let mut buffer = [0xee; 999];
            let answer = save(&words, &mut buffer);
            assert_eq!((answer.refusal, answer.value), (9, 0), "{id}");
            assert!(buffer.iter().all(|byte| *byte == 0xee));
            assert_eq!(save(&words, &mut []).refusal, 9); // 9 comes before 10
        } else {
            assert_eq!(saved(&words), image, "{id}");
        }
    }
}

/// Two wrongs make no right: what is saved is what the records say, and the bits are held to it one by one.
#[test]
fn another_bit_does_not_make_up_for_it() {
    let mut words = summarized();
    words[141] = 1 << 30;
    assert_eq!(save(&words, &mut [0; 999]).refusal, 9);
    words[137] |= 3; // SPI 62, enabled and pending
    words[138] &= !2; // SPI 63, not pending
    assert_eq!(save(&words, &mut [0; 999]).refusal, 0);
}

/// "Loading makes them": exact, and 0 from the limit up, whatever stood there and in the words that were saved.
#[test]
fn load_makes_the_bits() {
    let state = summarized();
    let mut strewn = state.clone();
    strewn[142] |= 0xffff_fffc;
    let image = saved(&strewn);
    for old in [0, u32::MAX] {
        let mut words = vec![old; state.len()];
        assert_eq!(load(&mut words, &image).refusal, 0);
        assert_eq!(words, state);
    }
    // The flags of SPI 65, and all of which it is ready by.
    let at = image.len() - 5;
    assert_eq!(image[at..], [0, 0, 0, 0x80, 2]);
    for flags in 0..128 {
        let changed = with(&with(&image, at, 1, &[flags]), at + 2, 1, &[flags >> 3 & 1]);
        let mut words = vec![0; state.len()];
        let lawful = flags & 12 != 8 && flags & 24 != 16;
        let refusal = if lawful { 0 } else { 9 };
        assert_eq!(load(&mut words, &changed).refusal, refusal, "{flags}");
        if lawful {
            let ready = flags & 7 == 3;
            assert_eq!(words[141..143], [1 << 31, 2 * u32::from(ready)]);
            assert_eq!(saved(&words), changed);
        }
    }
}

#[test]
fn a_buffer_that_is_too_short_is_left_alone() {
    let state = busier();
    for room in [0, 1, 185] {
        let mut buffer = vec![0xee; room];
        assert_eq!(save(&state, &mut buffer).refusal, 10);
        assert!(buffer.iter().all(|byte| *byte == 0xee));
    }
    assert_eq!(save(&state, &mut [0; 186]).refusal, 0);
}

#[test]
fn the_first_two_numbers() {
    let image = saved(&busier());
    let value = 2 + 65536 * 34;
    assert_eq!(shape(&image).value, value);
    assert_eq!(shape(&[&image[..2], &[0xff]].concat()).value, value);
    assert_eq!(shape(&[8, 0xfc, 7]).value, 8 + 65536 * 1020);
    for none in [
        &[][..],
        &[2],
        &[0, 34],
        &[9, 34],
        &[0x82, 0, 34],
        &[2, 31],
        &[8, 0xfd, 7],
        &[2, 0xa2],
    ] {
        assert_eq!(shape(none).refusal, 9, "{none:x?}");
    }
}
