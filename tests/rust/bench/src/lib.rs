//! The library, the plain Rust and the oracle behind one trait, and the workloads that they are measured on.
mod controllers;
pub mod measure;
pub mod moves;
pub mod programs;
pub mod workloads;

pub use controllers::{Library, Oracle, Plain};
use std::fmt;

/// What a call gave. Only accepted calls are measured.
#[derive(Clone, Copy, Debug, PartialEq, Eq)]
pub struct Given {
    pub value: u32,
    pub wake: u8,
    /// 1023 for none.
    pub retired: u32,
}

pub trait Controller {
    const NAME: &'static str;
    fn setup(count: u64, limit: u64) -> Self;
    /// All accesses to the Distributor and to a CPU interface; the width is a number of bytes.
    fn read_distributor(&mut self, vcpu: u64, offset: u64, width: u64) -> Given;
    fn write_distributor(&mut self, vcpu: u64, offset: u64, width: u64, value: u64) -> Given;
    fn read_interface(&mut self, vcpu: u64, offset: u64) -> Given;
    fn write_interface(&mut self, vcpu: u64, offset: u64, value: u64) -> Given;
    fn set_level(&mut self, vcpu: u64, number: u64, asserted: bool) -> Given;
    fn pulse(&mut self, vcpu: u64, number: u64) -> Given;
    /// A card's write to SETSPI, with the window `count` SPIs from `first` on.
    fn message(&mut self, first: u64, count: u64, number: u64) -> Given;
    fn irq_level(&mut self, vcpu: u64) -> Given;
}

/// All answers so far in one number: it keeps every call from being left out, and tells whether two gave the same.
#[derive(Clone, Copy, Debug, Default, PartialEq, Eq)]
pub struct Sum(u64);

impl Sum {
    pub fn note(&mut self, given: Given) {
        let all =
            u64::from(given.value) | u64::from(given.retired) << 32 | u64::from(given.wake) << 48;
        self.0 = self.0.rotate_left(7) ^ all;
    }
}

impl fmt::Display for Sum {
    fn fmt(&self, f: &mut fmt::Formatter<'_>) -> fmt::Result {
        write!(f, "{:016x}", self.0)
    }
}
