//! Controllers that have the rule of request Two, Four, Five or Seven wrong, each in a way in which it may be read or written. A comparison has to
//! find every one.
mod binary_point;
mod held_line;
mod messages;
mod summary;

use crate::{
    report::Case,
    request::{Place, Request, packed},
};
use oracle::{
    RegisterRegion::CpuInterface,
    machine::{Machine, SPURIOUS},
    register::{GICC_AIAR, GICC_IAR},
};

/// What a controller does beside a sound call: it sees the words before, and changes answer and words.
pub type Spoil = fn(&Request, &[u32], &mut u64, &mut [u32]);

pub struct Controller {
    pub what: &'static str,
    /// It is found, and told by at most so many calls.
    pub at_most: usize,
    /// The same where there are messages among the calls.
    pub among_messages: usize,
    pub spoil: Spoil,
}

/// Those of requests Two, Four and Five.
pub fn controllers() -> impl Iterator<Item = Controller> {
    let two = binary_point::CONTROLLERS.into_iter();
    two.chain(held_line::CONTROLLERS)
        .chain(summary::CONTROLLERS)
}

/// Those of request Seven, which only calls with messages among them find.
pub fn of_messages() -> impl Iterator<Item = Controller> {
    messages::CONTROLLERS.into_iter()
}

const fn wrong(what: &'static str, at_most: usize, spoil: Spoil) -> Controller {
    Controller {
        what,
        at_most,
        among_messages: at_most,
        spoil,
    }
}

impl Controller {
    /// Where there are messages among the calls, another call tells it first.
    const fn among_messages(self, among_messages: usize) -> Self {
        Self {
            among_messages,
            ..self
        }
    }

    /// That the case has at most so many calls.
    pub fn is_told(&self, at_most: usize, case: &Case) {
        let (what, calls) = (self.what, case.requests.len());
        assert!(calls <= at_most, "{what}: {calls}\n{}", case.text());
    }
}

fn is_accepted(given: u64) -> bool {
    given >> 56 == 0
}

/// A read of a CPU interface, and of which register.
fn read(request: &Request) -> Option<Place> {
    match request {
        Request::Read(at) if at.region == CpuInterface => Some(*at),
        _ => None,
    }
}

/// The vCPU that this gave an interrupt to, and the number.
fn taken(request: &Request, given: u64) -> Option<(u64, usize)> {
    let at = read(request).filter(|at| [GICC_IAR, GICC_AIAR].contains(&at.offset))?;
    let number = given as u32;
    (is_accepted(given) && number != SPURIOUS).then_some((at.vcpu, number as usize % 1024))
}

/// Answers as a sound controller would, had its words been changed so before the call.
fn as_if(request: &Request, given: &mut u64, mut words: Vec<u32>, change: impl FnOnce(&mut [u32])) {
    change(&mut words);
    if let Some(call) = request.call() {
        let answer = Machine::lent(&words).call(&call);
        *given = packed(&answer.expect("a sound oracle"));
    }
}
