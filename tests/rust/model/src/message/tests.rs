//! Request Seven's calls over lent words: which words they write, and refusal 6.
use super::*;
use crate::gic::Gic;

const TYPER: u64 = 0x008;
const SETSPI: u64 = 0x040;

fn told(answer: Answer) -> [u64; 4] {
    [answer.refusal, answer.value, answer.wake, answer.retired]
}

/// Two vCPUs, limit 40, everything on; every SPI is enabled, and goes to vCPU 1. Two words more than it needs.
fn lent() -> Vec<u32> {
    let mut gic = Gic::new(2, 40);
    gic.dist_write(0, 0, 4, 1);
    gic.cpu_write(1, 0, 4, 1);
    gic.cpu_write(1, 4, 4, 255);
    gic.dist_write(0, 0x104, 4, 0xFF);
    gic.dist_write(0, 0x820, 4, 0x0202_0202);
    gic.dist_write(0, 0x824, 4, 0x0202_0202);
    let mut words = words::write(&gic);
    words.extend([0xDEAD_BEEF, 7]);
    words
}

const SPIS: usize = 3 + 52 * 2;
const SUMMARY: usize = SPIS + 8;

/// Accesses that are refused, each by its number, if the words are a state; and some that do nothing.
const ACCESSES: [(u64, u64, u64, u64, u64); 9] = [
    (0, 1, SETSPI, 4, 11),
    (33, 8, SETSPI, 8, 11),
    (33, 8, SETSPI + 1, 8, 11),
    (u64::MAX, 34, 0x1000, 1, 11),
    (33, 7, SETSPI + 1, 8, 1),
    (33, 7, SETSPI, 8, 2),
    (33, 7, TYPER, 1, 2),
    (33, 7, 0, 8, 0),
    (34, 6, SETSPI, 4, 0), // where 33 is no number of the window
];

/// What is answered to each of the accesses is its own refusal, or this one; and every word stays.
#[track_caller]
fn all_stays(words: &[u32], refusal: Option<u64>) {
    for (first, count, off, width, own) in ACCESSES {
        let mut after = words.to_vec();
        let answer = [refusal.unwrap_or(own), 0, 0, 1023];
        assert_eq!(told(read(&after, first, count, off, width)), answer);
        let written = write(&mut after, first, count, off, width, 33);
        assert_eq!(told(written), answer);
        assert_eq!(after, words);
    }
}

#[test]
fn words_that_are_no_state() {
    let good = lent();
    let shortest = good.len() - 2;
    all_stays(&good, None);
    all_stays(&good[..shortest], None);
    for length in [0, 1, 2, 3, SPIS, shortest - 1] {
        all_stays(&good[..length], Some(6));
    }
    for (at, broken) in [
        (0, 0),
        (0, 9),
        (0, 3), // which needs more words
        (1, 31),
        (1, 43), // there is room for two more
        (1, 1021),
        (3 + 3, 129),
        (3 + 52 + 3, 129), // of each vCPU
        (3 + 52 + 3, u32::MAX),
    ] {
        let mut words = good.clone();
        words[at] = broken;
        all_stays(&words, Some(6));
        // Nor is a window taken that would be.
        assert_eq!(told(read(&words, 33, 4, TYPER, 4)), [6, 0, 0, 1023]);
        let written = write(&mut words, 33, 4, SETSPI, 4, 33);
        assert_eq!(told(written), [6, 0, 0, 1023]);
        assert_eq!(words[at], broken);
    }
}

/// Of the bits that count for nothing those of the SPI's record go, and all others stay.
#[test]
fn only_the_words_of_one_spi_are_written() {
    let mut words = lent();
    words[2] |= 0xFFFF_FFFE;
    words[3] |= 0xFFFF_FDFE;
    words[5] |= 0xFFFF_FFF8;
    words[3 + 20] |= 0x00FF_0000; // of a private record
    words[SUMMARY + 1] = 0xFFFF_FFFF; // a stack entry past the depth
    for spi in 0..8 {
        words[SPIS + spi] = 0x00FF_0041; // enabled and edge; a mask that is not set
    }
    words[SUMMARY] = 0xFFFF_FF00;
    let before = words.clone();
    assert_eq!(
        told(read(&words, 33, 4, TYPER, 4)),
        [0, 0x0021_0004, 0, 1023]
    );
    assert_eq!(
        told(write(&mut words, 33, 4, SETSPI, 4, 35)),
        [0, 0, 0, 1023]
    );
    let mut expected = before;
    expected[SPIS + 3] = 0x43;
    expected[SUMMARY] = 0xFFFF_FF08;
    assert_eq!(words, expected);
}

/// A record that stays what it was is written too: its bit of the summary is set anew.
#[test]
fn a_pending_record_is_written() {
    let mut words = lent();
    words[SPIS + 3] = 0x0002_00C3;
    let mut expected = words.clone();
    expected[SUMMARY] = 8;
    let rung = told(write(&mut words, 32, 8, SETSPI, 4, 35));
    assert_eq!((rung, words), ([0, 0, 2, 1023], expected));
}

/// 35 is not enabled, so its bit goes; 34 keeps its own, which is false too.
#[test]
fn a_false_bit_goes() {
    let mut words = lent();
    words[SPIS + 3] = 0x0002_00C0;
    words[SUMMARY] = 0x0000_000C;
    let mut expected = words.clone();
    expected[SPIS + 3] = 0x0002_00C2;
    expected[SUMMARY] = 4;
    let rung = told(write(&mut words, 32, 8, SETSPI, 4, 35));
    assert_eq!((rung, words), ([0, 0, 0, 1023], expected));
}

/// In the largest state, where bits lie in 31 words.
#[test]
fn the_places_of_the_largest() {
    let fresh = words::write(&Gic::new(8, 1020));
    let spis = 3 + 52 * 8;
    for spi in [32, 63, 64, 95, 96, 991, 992, 1018, 1019] {
        let mut words = fresh.clone();
        words[spis + spi - 32] = 1;
        let mut expected = words.clone();
        expected[spis + spi - 32] = 3;
        expected[spis + 988 + (spi - 32) / 32] = 1 << (spi % 32);
        write(&mut words, 32, 988, SETSPI, 4, spi as u64);
        assert_eq!(words, expected, "{spi}");
    }
}
