//! Turns taken and timed, and what comes of several rounds.
use crate::{
    Controller, Sum,
    workloads::{Shape, Workload},
};
use std::{mem, ops::Sub};

/// A time as the C library has it: seconds, and parts of one.
#[repr(C)]
#[derive(Clone, Copy, Default)]
struct Parts {
    seconds: i64,
    rest: i64,
}

unsafe extern "C" {
    fn clock_gettime(clock: i32, time: *mut Parts) -> i32;
    fn getrusage(who: i32, usage: *mut [Parts; 32]) -> i32;
}

/// Nanoseconds of a processor's time: on a busy machine they tell more than a clock on the wall.
#[derive(Clone, Copy)]
pub struct Used(f64);

impl Used {
    /// What this thread has used.
    pub fn by_thread() -> Self {
        const CLOCK_THREAD_CPUTIME_ID: i32 = 3;
        let mut time = Parts::default();
        // SAFETY: the call writes one time.
        let failed = unsafe { clock_gettime(CLOCK_THREAD_CPUTIME_ID, &mut time) };
        assert_eq!(failed, 0);
        Self(time.seconds as f64 * 1e9 + time.rest as f64)
    }

    /// What the programs that were run and have ended have used, the system's part included.
    pub fn by_programs() -> Self {
        const RUSAGE_CHILDREN: i32 = -1;
        // SAFETY: the call writes 144 bytes, of which the first two times are the user's and the system's, in microseconds.
        let all = unsafe {
            let mut all: [Parts; 32] = mem::zeroed();
            assert_eq!(getrusage(RUSAGE_CHILDREN, &mut all), 0);
            all
        };
        let nanoseconds = |time: Parts| time.seconds as f64 * 1e9 + time.rest as f64 * 1e3;
        Self(nanoseconds(all[0]) + nanoseconds(all[1]))
    }
}

impl Sub for Used {
    type Output = f64;

    fn sub(self, other: Self) -> f64 {
        self.0 - other.0
    }
}

/// So many turns from a fresh start: nanoseconds for each call, and all answers.
pub fn time<C: Controller>(workload: &Workload<C>, shape: Shape, turns: u64) -> (f64, Sum) {
    let mut gic = C::setup(shape.count, shape.limit);
    (workload.start)(&mut gic, shape);
    let mut sum = Sum::default();
    let began = Used::by_thread();
    for turn in 0..turns {
        (workload.turn)(&mut gic, shape, turn, &mut sum);
    }
    let took = Used::by_thread() - began;
    (took / (turns * workload.calls) as f64, sum)
}

/// How many turns take about so many nanoseconds.
pub fn turns_for<C: Controller>(workload: &Workload<C>, shape: Shape, nanoseconds: f64) -> u64 {
    let (mut turns, mut each) = (1, 0.0);
    while turns < 1 << 20 {
        each = time(workload, shape, turns).0 * workload.calls as f64;
        if each * turns as f64 > nanoseconds / 10.0 {
            break;
        }
        turns *= 4;
    }
    ((nanoseconds / each) as u64).max(1)
}

/// The middle of some figures, and how far the farthest is from it.
#[derive(Clone, Copy, Debug)]
pub struct Figure {
    pub median: f64,
    pub low: f64,
    pub high: f64,
}

impl Figure {
    pub fn of(mut all: Vec<f64>) -> Self {
        all.sort_by(f64::total_cmp);
        let middle = all.len() / 2;
        let median = if all.len() % 2 == 1 {
            all[middle]
        } else {
            (all[middle - 1] + all[middle]) / 2.0
        };
        Self {
            median,
            low: all[0],
            high: all[all.len() - 1],
        }
    }

    /// The widest distance from the median, in percent of it.
    pub fn spread(&self) -> f64 {
        let widest = (self.high - self.median).max(self.median - self.low);
        100.0 * widest / self.median
    }
}
