//! Request Seven: the message-signalled frame, a sentence at a time. The answers are worked out from its text.
use super::*;
use crate::lines::{Call, run};

const TYPER: u64 = 0x008;
const SETSPI: u64 = 0x040;
const WIDTHS: [u64; 4] = [1, 2, 4, 8];
const WINDOW: (u64, u64) = (33, 4); // 33 to 36
const NOTHING: [u64; 4] = [0, 0, 0, 1023];

fn refusal(number: u64) -> [u64; 4] {
    [number, 0, 0, 1023]
}

fn told(answer: Answer) -> [u64; 4] {
    [answer.refusal, answer.value, answer.wake, answer.retired]
}

fn read(gic: &Gic, window: (u64, u64), off: u64, width: u64) -> [u64; 4] {
    told(gic.v2m_read(window.0, window.1, off, width))
}

fn write(gic: &mut Gic, window: (u64, u64), off: u64, width: u64, value: u64) -> [u64; 4] {
    told(gic.v2m_write(window.0, window.1, off, width, value))
}

/// Writes SETSPI; gives the wake set.
fn ring(gic: &mut Gic, value: u64) -> u64 {
    let [refusal, zero, wake, retired] = write(gic, WINDOW, SETSPI, 4, value);
    assert_eq!([refusal, zero, retired], [0, 0, 1023]);
    wake
}

/// The numbers that are pending, by ISPENDR.
fn pending(gic: &Gic) -> Vec<u64> {
    let word = |id: u64| gic.dist_read(0, 0x200 + id / 32 * 4, 4).value;
    (0..gic.limit)
        .filter(|id| word(*id) >> (id % 32) & 1 == 1)
        .collect()
}

/// 34 is in flight and 35 pending, so that there is something to spoil.
fn busy() -> Gic {
    let mut gic = controller(2, 40);
    pend(&mut gic, 34, 0x40);
    assert_eq!(iar(&mut gic, 1), 34);
    pend(&mut gic, 35, 0x40);
    gic
}

/// That both accesses are answered so and leave every word, also with a number that would be pulsed.
#[track_caller]
fn both_are(window: (u64, u64), off: u64, width: u64, answer: [u64; 4]) {
    let mut gic = busy();
    let before = words::write(&gic);
    assert_eq!(read(&gic, window, off, width), answer);
    for value in [33, 34, 35, 0, u64::MAX] {
        assert_eq!(write(&mut gic, window, off, width, value), answer);
        assert_eq!(words::write(&gic), before);
    }
}

/// "A GICv2m frame of 0x1000 bytes": 01's refusal 1.
#[test]
fn the_frame_ends_at_0x1000() {
    for (off, width) in [(0xFFF, 1), (0xFFE, 2), (0xFFC, 4), (0xFF8, 8), (0, 8)] {
        both_are(WINDOW, off, width, NOTHING);
    }
    for width in WIDTHS {
        both_are(WINDOW, 0x1000, width, refusal(1)); // passes the frame
        both_are(WINDOW, 1 << 32, width, refusal(1));
        both_are(WINDOW, (1 << 32) + SETSPI, width, refusal(1));
        both_are(WINDOW, 0_u64.wrapping_sub(width), width, refusal(1)); // overflows
    }
    for (off, width) in [(0xFFC, 8), (0xFFE, 4), (0xFFF, 2), (0x041, 2), (0x042, 4)] {
        both_are(WINDOW, off, width, refusal(1)); // unaligned
    }
    for (off, width) in [(0x009, 2), (0x00A, 4), (0x00C, 8), (0x044, 8), (0x004, 8)] {
        both_are(WINDOW, off, width, refusal(1));
    }
}

#[test]
fn typer_has_the_first_and_how_many() {
    let gic = Gic::new(1, 1020);
    for (window, value) in [
        ((32, 1), 0x0020_0001),
        ((32, 988), 0x0020_03DC),
        ((1019, 1), 0x03FB_0001),
        ((1018, 2), 0x03FA_0002),
        ((512, 508), 0x0200_01FC),
        ((33, 4), 0x0021_0004),
    ] {
        assert_eq!(read(&gic, window, TYPER, 4), [0, value, 0, 1023]);
    }
    assert_eq!(
        read(&Gic::new(8, 33), (32, 1), TYPER, 4),
        [0, 0x0020_0001, 0, 1023]
    );
}

/// Whatever is pending or in flight.
#[test]
fn setspi_reads_0() {
    let mut gic = busy();
    assert_eq!(read(&gic, WINDOW, SETSPI, 4), NOTHING);
    ring(&mut gic, 33);
    assert_eq!(read(&gic, WINDOW, SETSPI, 4), NOTHING);
    assert_eq!(
        (read(&gic, WINDOW, TYPER, 4)[1], pending(&gic)),
        (0x0021_0004, vec![33, 35])
    );
}

#[test]
fn typer_ignores_writes() {
    let mut gic = busy();
    let before = words::write(&gic);
    for value in [0, 33, 0x0020_0008, u64::MAX] {
        assert_eq!(write(&mut gic, WINDOW, TYPER, 4, value), NOTHING);
        assert_eq!(words::write(&gic), before);
        assert_eq!(read(&gic, WINDOW, TYPER, 4)[1], 0x0021_0004);
    }
}

/// "Both take 4-byte accesses; another width at their first byte is refused by 2".
#[test]
fn another_width_at_the_first_byte() {
    for (off, width) in [TYPER, SETSPI]
        .into_iter()
        .flat_map(|off| [(off, 1), (off, 2), (off, 8)])
    {
        both_are(WINDOW, off, width, refusal(2));
    }
}

/// "A start further in is an other place", and so is one past, or one before.
#[test]
fn a_start_further_in() {
    for register in [TYPER, SETSPI] {
        for (into, width) in [(1, 1), (2, 1), (3, 1), (2, 2)] {
            both_are(WINDOW, register + into, width, NOTHING);
        }
        for (off, width) in [(register + 4, 4), (register + 4, 2), (register + 4, 1)] {
            both_are(WINDOW, off, width, NOTHING);
        }
        for width in WIDTHS {
            both_are(WINDOW, register + 8, width, NOTHING);
            both_are(WINDOW, register - width, width, NOTHING);
        }
    }
}

/// "Other places read 0 and ignore writes", at any width: every start in the frame, and some past it.
#[test]
fn every_start_and_width() {
    let fresh = controller(1, 40);
    let before = words::write(&fresh);
    let mut seen = [0; 3];
    let (mut values, mut rings) = (vec![], vec![]);
    for (off, width) in (0..0x1010).flat_map(|off| WIDTHS.map(|width| (off, width))) {
        let mut gic = fresh.clone();
        let [refused, value, ..] = read(&gic, WINDOW, off, width);
        assert_eq!(write(&mut gic, WINDOW, off, width, 36)[0], refused);
        seen[refused as usize] += 1;
        if value != 0 {
            values.push((off, width, value));
        }
        if words::write(&gic) != before {
            rings.push((off, width, pending(&gic)));
        }
    }
    // So many starts are aligned in the frame, less the three widths that each of the two registers refuses.
    let aligned = 0x1000 + 0x800 + 0x400 + 0x200;
    assert_eq!(seen, [aligned - 6, 4 * 0x1010 - aligned, 6]);
    assert_eq!(values, [(TYPER, 4, 0x0021_0004)]);
    assert_eq!(rings, [(SETSPI, 4, vec![36])]);
}

/// "Writing a number inside the window pulses that SPI; any other number does nothing."
#[test]
fn numbers_inside_and_outside() {
    let fresh = controller(2, 40);
    let before = words::write(&fresh);
    let far = [1020, 1023, 1057, 33 << 16, 0xFFFF_FFFF, 0x8000_0021];
    for number in (0..1100).chain(far) {
        let mut gic = fresh.clone();
        let answer = write(&mut gic, WINDOW, SETSPI, 4, number);
        if (33..37).contains(&number) {
            assert_eq!((answer, pending(&gic)), ([0, 0, 3, 1023], vec![number]));
            let mut pulsed = fresh.clone();
            assert_eq!(told(pulsed.input(0, number, None)), answer);
            assert_eq!(words::write(&gic), words::write(&pulsed));
            assert_eq!(iar(&mut gic, 1), number);
        } else {
            assert_eq!((answer, words::write(&gic)), (NOTHING, before.clone()));
        }
    }
}

/// The ends of the largest window, and of the smallest.
#[test]
fn the_ends_of_a_window() {
    let fresh = controller(1, 1020);
    for (window, number, rings) in [
        ((32, 988), 31, false),
        ((32, 988), 32, true),
        ((32, 988), 1019, true),
        ((32, 988), 1020, false),
        ((32, 1), 31, false),
        ((32, 1), 32, true),
        ((32, 1), 33, false),
        ((1019, 1), 1018, false),
        ((1019, 1), 1019, true),
        ((1019, 1), 1020, false),
    ] {
        let mut gic = fresh.clone();
        let answer = write(&mut gic, window, SETSPI, 4, number);
        assert_eq!(answer, [0, 0, u64::from(rings), 1023]);
        let rung = if rings { vec![number] } else { vec![] };
        assert_eq!(pending(&gic), rung, "{window:?}");
    }
}

/// The number is all 32 bits of what is written; "bits of a written value above the access width are ignored".
#[test]
fn all_bits_of_the_width_count() {
    for bit in 10..64 {
        let mut gic = controller(1, 40);
        let rings = bit >= 32;
        assert_eq!(ring(&mut gic, 33 + (1 << bit)), u64::from(rings), "{bit}");
        assert_eq!(pending(&gic), if rings { vec![33] } else { vec![] });
    }
    let mut gic = controller(1, 40);
    assert_eq!((ring(&mut gic, 33 + (1 << 16)), pending(&gic)), (0, vec![]));
    assert_eq!(ring(&mut gic, 0xFFFF_FFFF_0000_0022), 1);
    assert_eq!(pending(&gic), [34]);
}

/// That a window is refused by 11 wherever the access is, and before 1 and 2, or nowhere.
#[track_caller]
fn is_taken(gic: &Gic, window: (u64, u64), taken: bool) {
    let before = words::write(gic);
    for (off, width, other) in [
        (TYPER, 4, 0),
        (SETSPI, 4, 0),
        (0, 8, 0),
        (0xFFF, 1, 0),
        (TYPER, 8, 2),
        (SETSPI, 1, 2),
        (SETSPI + 1, 2, 1),
        (0x1000, 4, 1),
        (u64::MAX, 1, 1),
    ] {
        let mut gic = gic.clone();
        let answer = refusal(if taken { other } else { 11 });
        let mut read = read(&gic, window, off, width);
        if taken && (off, width) == (TYPER, 4) {
            read[1] = 0; // its value is another test's
        }
        assert_eq!(read, answer, "{window:?} {off:x} {width}");
        let number = window.0.wrapping_sub(1); // which is not in the window
        assert_eq!(write(&mut gic, window, off, width, number), answer);
        if !taken {
            assert_eq!(write(&mut gic, window, off, width, window.0), answer);
        }
        assert_eq!(words::write(&gic), before);
    }
}

/// "It lies from 32 up to, not including, the limit and has at least one number": number by number.
#[test]
fn every_small_window() {
    for limit in [32, 33, 40] {
        let gic = controller(1, limit);
        let mut taken = 0;
        for (first, count) in (0..44).flat_map(|first| (0..44).map(move |count| (first, count))) {
            let lies = (first..first + count).all(|number| (32..limit).contains(&number));
            is_taken(&gic, (first, count), lies && count != 0);
            taken += u64::from(lies && count != 0);
        }
        let spis = limit - 32;
        assert_eq!(taken, spis * (spis + 1) / 2);
    }
}

#[test]
fn windows_at_the_limits() {
    let gic = controller(1, 1020);
    for window in [(32, 988), (1019, 1), (1018, 2), (32, 1)] {
        is_taken(&gic, window, true);
    }
    for window in [
        (32, 989),
        (1019, 2),
        (1020, 1),
        (1020, 0),
        (31, 989),
        (31, 1),
    ] {
        is_taken(&gic, window, false);
    }
    let gic = controller(1, 1019);
    is_taken(&gic, (32, 987), true);
    is_taken(&gic, (32, 988), false);
    is_taken(&gic, (1018, 1), true);
    is_taken(&gic, (1019, 1), false);
}

/// Sums that overflow, most of them into a number below the limit; and numbers that are small only in their low 32 bits.
#[test]
fn windows_that_overflow() {
    let gic = controller(1, 40);
    let top = u64::MAX;
    for window in [
        (top, 1),
        (top, 2),
        (top, 34),
        (top, 40),
        (top, top),
        (32, top),
        (32, top - 31),
        (33, top - 31),
        (39, top - 5),
        (40, top),
        (top - 7, 40),
        (1 << 63, 1 << 63),
        ((1 << 32) + 33, 1),
        (33, (1 << 32) + 1),
        ((1 << 32) + 33, top - (1 << 32) + 3),
    ] {
        is_taken(&gic, window, false);
    }
}

/// "11, after 6": before a setup nothing else is judged.
#[test]
fn six_comes_first() {
    for (first, count) in [(33, 1), (0, 0), (u64::MAX, u64::MAX)] {
        for (off, width) in [(TYPER, 4), (SETSPI, 4), (SETSPI, 8), (0x1001, 2)] {
            let calls = [
                Call::V2mRead(first, count, off, width),
                Call::V2mWrite(first, count, off, width, 33),
            ];
            for call in calls {
                let mut state = None;
                assert_eq!(told(run(&mut state, call)), refusal(6));
                assert!(state.is_none());
            }
        }
    }
}

/// The calls that a line makes are these.
#[test]
fn run_passes_them_on() {
    let mut state = Some(controller(2, 40));
    let typer = run(&mut state, Call::V2mRead(32, 8, TYPER, 4));
    assert_eq!(told(typer), [0, 0x0020_0008, 0, 1023]);
    let rung = run(&mut state, Call::V2mWrite(33, 4, SETSPI, 4, 36));
    assert_eq!(told(rung), [0, 0, 3, 1023]);
    assert_eq!(pending(state.as_ref().unwrap()), [36]);
    let refused = run(&mut state, Call::V2mWrite(33, 8, SETSPI, 4, 36));
    assert_eq!(told(refused), refusal(11));
}

/// "Wake sets are as in 01": those whose IAR gave 1023 and now gives a number.
#[test]
fn wake_sets() {
    let mut gic = controller(3, 40);
    for (id, mask) in [(33, 1), (34, 4), (35, 7)] {
        gic.dist_write(0, 0x800 + id, 1, mask);
    }
    gic.dist_write(0, 0x400 + 34, 1, 0x40);
    assert_eq!(ring(&mut gic, 34), 4);
    assert_eq!(ring(&mut gic, 34), 0); // it is awake
    assert_eq!(iar(&mut gic, 2), 34);
    gic.dist_write(0, 0x400 + 35, 1, 0x40);
    assert_eq!(ring(&mut gic, 35), 3); // 2 serves one of its priority
    assert_eq!(ring(&mut gic, 33), 0);
    assert_eq!(ring(&mut gic, 36), 4); // more urgent
    assert_eq!(pending(&gic), [33, 35, 36]);
}

/// Switches one of the things without which 33 is not given; gives the wake set.
fn switch(gic: &mut Gic, what: u64, on: bool) -> u64 {
    let value = u64::from(on);
    let answer = match what {
        0 => gic.dist_write(0, 0, 4, value),
        1 => gic.cpu_write(0, 0, 4, value),
        2 => gic.cpu_write(0, 4, 4, 255 * value),
        3 => gic.dist_write(0, 0x800 + 33, 1, value),
        _ => gic.dist_write(0, if on { 0x104 } else { 0x184 }, 4, 2),
    };
    answer.wake
}

/// An SPI that nobody may be given is pending all the same, and is given once it may.
#[test]
fn nobody_wakes_yet() {
    for what in 0..5 {
        let mut gic = controller(1, 40);
        switch(&mut gic, what, false);
        assert_eq!((ring(&mut gic, 33), iar(&mut gic, 0)), (0, 1023), "{what}");
        assert_eq!(pending(&gic), [33]);
        assert_eq!(switch(&mut gic, what, true), 1, "{what}");
        assert_eq!(iar(&mut gic, 0), 33);
    }
}

/// "Pulses that SPI", be it edge or level: what comes while it is in flight is noted, once, and given after its end.
#[test]
fn one_in_flight_is_given_again() {
    for edge in [true, false] {
        let mut gic = controller(1, 40);
        gic.dist_write(0, 0xC08, 4, if edge { 0xAAAA_AAAA } else { 0 });
        assert_eq!((ring(&mut gic, 33), iar(&mut gic, 0)), (1, 33));
        assert_eq!((ring(&mut gic, 33), ring(&mut gic, 33)), (0, 0));
        let parts = gic.records[gic.slot(0, 33)].parts();
        assert!(parts.pending && parts.redelivery_pending && !parts.line_asserted);
        assert_eq!(iar(&mut gic, 0), 1023); // it is active
        let ended = told(gic.cpu_write(0, 0x10, 4, 33));
        assert_eq!((ended, iar(&mut gic, 0)), ([0, 0, 1, 33], 33));
        assert_eq!(told(gic.cpu_write(0, 0x10, 4, 33)), [0, 0, 0, 33]);
        assert_eq!((iar(&mut gic, 0), pending(&gic)), (1023, vec![]));
    }
}

/// The window "is in no state or image": by whichever the number came, words and image are a pulse's.
#[test]
fn the_window_is_in_no_state_or_image() {
    let mut pulsed = busy();
    pulsed.input(0, 36, None);
    for window in [(36, 1), (32, 8), (33, 4), (36, 4)] {
        let mut gic = busy();
        read(&gic, window, TYPER, 4);
        write(&mut gic, window, SETSPI, 4, 36);
        assert_eq!(words::write(&gic), words::write(&pulsed));
        assert_eq!(gic.image().unwrap(), pulsed.image().unwrap());
        // Nothing of it is left for the next call.
        assert_eq!(write(&mut gic, (37, 1), SETSPI, 4, 36), NOTHING);
        assert_eq!(read(&gic, (38, 2), TYPER, 4)[1], 0x0026_0002);
    }
}

/// A message is a transition, so its SPI's bit of the summary is set anew, and no other.
#[test]
fn false_bits() {
    let mut gic = controller(1, 40);
    gic.input(0, 33, None);
    gic.dist_write(0, 0x184, 4, 4); // 34 is not enabled
    gic.summary[0] = 1 << 2 | 1 << 4 | 1 << 20;
    assert_eq!((ring(&mut gic, 37), gic.summary[0]), (0, 0x0010_0014));
    assert_eq!((ring(&mut gic, 34), gic.summary[0]), (0, 0x0010_0010));
    assert_eq!((ring(&mut gic, 33), gic.summary[0]), (0, 0x0010_0012));
    assert_eq!((ring(&mut gic, 36), gic.summary[0]), (0, 0x0010_0012));
    gic.summary[0] = 0;
    assert_eq!((ring(&mut gic, 33), gic.summary[0]), (1, 2)); // 33 was pending all the while
}
