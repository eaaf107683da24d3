//! How many words a state takes: `docs/STATE.md`, "Size".

/// The layout of the words. It changes when a kept state of an earlier version means something else, so keep it beside words that you keep.
pub const LAYOUT: u32 = 3;

/// The most words that a state takes: those of 8 vCPUs and a limit of 1020.
pub const MAX_STATE_WORDS: usize = 2462;

/// In front: count, limit, CTLR of the Distributor.
const HEADER: u64 = 3;
/// For each vCPU: 4 values of its CPU interface, 16 source sets, 32 records.
const VCPU: u64 = 52;
/// For each vCPU: its stack.
const STACK: u64 = 128;
/// The numbers below are private; each SPI, from here on, has a record, and a bit that says whether it is ready.
const SPIS: u64 = 32;
/// So many of these bits are a word.
const BITS: u64 = 32;

/// How many words a state takes: `count` is 1 to 8 vCPUs, and `limit`, 32 to 1020, the first number that is no interrupt. In a constant it
/// sizes an array, and numbers that are out of range do not compile:
///
/// ```
/// const WORDS: usize = vgic::state_words(2, 40).expect("in range");
/// let words = [0_u32; WORDS];
/// assert_eq!(words.len(), 372);
/// ```
///
/// ```compile_fail,E0080
/// const WORDS: usize = vgic::state_words(9, 40).expect("in range");
/// let words = [0_u32; WORDS];
/// ```
#[expect(
    clippy::arithmetic_side_effects,
    reason = "in range it is at most MAX_STATE_WORDS"
)]
pub const fn state_words(count: u64, limit: u64) -> Option<usize> {
    match (count, limit) {
        (1..=8, SPIS..=1020) => {
            let summary = (limit - 1) / BITS;
            Some((HEADER + VCPU * count + (limit - SPIS) + summary + STACK * count) as usize)
        }
        _ => None,
    }
}
