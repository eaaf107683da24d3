//! What v2.rs asked of the stand-in: each call by its name and its numbers, the look-up of a vCPU by the operation it is for.
use std::cell::RefCell;

pub type Call = (&'static str, Vec<u64>);

thread_local! {
    static CALLS: RefCell<Vec<Call>> = const { RefCell::new(Vec::new()) };
}

pub fn see<const N: usize>(name: &'static str, numbers: [u64; N]) {
    CALLS.with_borrow_mut(|calls| calls.push(call(name, numbers)));
}

pub fn take() -> Vec<Call> {
    CALLS.take()
}

pub fn call<const N: usize>(name: &'static str, numbers: [u64; N]) -> Call {
    (name, numbers.to_vec())
}

/// The calls in a form that patterns can take apart.
pub fn view(calls: &[Call]) -> Vec<(&str, &[u64])> {
    calls
        .iter()
        .map(|(name, numbers)| (*name, &numbers[..]))
        .collect()
}
