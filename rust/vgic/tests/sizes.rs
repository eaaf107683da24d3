//! The size that is known when a program is compiled, held to the proved function, over every count and limit and some beyond.
use vgic::{MAX_STATE_WORDS, raw, state_words};

/// As the library has it.
fn proved(count: u64, limit: u64) -> Option<usize> {
    match raw::vgic_state_words(count, limit) {
        0 => None,
        words => Some(words as usize),
    }
}

#[test]
fn every_count_and_limit() {
    let mut most = 0;
    for count in 0..=10 {
        for limit in 0..=1100 {
            let words = state_words(count, limit);
            assert_eq!(words, proved(count, limit), "{count} {limit}");
            most = most.max(words.unwrap_or(0));
        }
    }
    assert_eq!(most, MAX_STATE_WORDS);
}

#[test]
fn numbers_of_no_state() {
    let large = [1 << 16, 1 << 32, 1 << 63, u64::MAX / 128, u64::MAX / 52];
    for large in large.into_iter().chain([u64::MAX]) {
        for large in [large, large.wrapping_add(1), large.wrapping_add(40)] {
            for (count, limit) in [(large, 40), (1, large), (large, large)] {
                let words = state_words(count, limit);
                assert_eq!(words, proved(count, limit), "{count} {limit}");
            }
        }
    }
}

#[test]
fn a_constant_of_each_form() {
    const WORDS: usize = state_words(4, 288).expect("in range");
    const NONE: Option<usize> = state_words(0, 40);
    assert_eq!(([0_u8; WORDS].len(), NONE), (987, None));
}
