//! Random histories that do something: a few interrupts that nest and collide, mostly by the rules, now and then against every one.
//!
//! A script is a row of scenes. Each begins with an `n` line and a boot like a guest's, and then takes steps. The scripts' own machine
//! answers each line as it is made, so that what was acknowledged can be ended in order, out of order, or cancelled.
mod messages;
pub mod random;
mod scene;
#[cfg(test)]
mod second_writing;
mod spoil;
mod steps;
#[cfg(test)]
mod tests;

use crate::{
    lines::{self, Parse},
    machine::{Answer, Call, Machine},
};
use random::Random;
use scene::Scene;
use std::collections::VecDeque;

/// The lines themselves: whoever makes the calls says what they were answered.
pub struct Histories {
    /// Whether there are messages among the calls: without them the lines are document 01's, and a seed's are as they ever were.
    messages: bool,
    random: Random,
    scene: Scene,
    /// Lines that are made and not yet given.
    ready: VecDeque<Vec<u8>>,
}

/// Lines without end; the same seed gives the same ones.
pub struct Scripts {
    histories: Histories,
    parse: Parse,
    machine: Machine,
}

impl Histories {
    pub fn new(seed: u64) -> Self {
        Self::start(seed, false)
    }

    /// With messages among the calls.
    pub fn with_messages(seed: u64) -> Self {
        Self::start(seed, true)
    }

    fn start(seed: u64, messages: bool) -> Self {
        let mut random = Random::new(seed);
        let mut scene = Scene::before_setup(&mut random);
        if messages {
            scene.open_window(&mut random);
        }
        Self {
            messages,
            random,
            scene,
            ready: VecDeque::new(),
        }
    }

    pub fn line(&mut self) -> Vec<u8> {
        while self.ready.is_empty() {
            self.refill();
        }
        self.ready.pop_front().expect("refilled")
    }

    pub fn see(&mut self, call: &Call, answer: &Answer) {
        self.scene.see(call, answer);
    }

    fn refill(&mut self) {
        let calls = if self.scene.is_over() {
            self.scene = Scene::new(&mut self.random);
            if self.messages {
                self.scene.open_window(&mut self.random);
            }
            self.scene.boot(&mut self.random)
        } else {
            steps::next(&mut self.scene, &mut self.random)
        };
        for call in calls {
            let lines = spoil::lines(&mut self.random, &self.scene, call);
            self.ready.extend(lines);
        }
    }
}

impl Scripts {
    pub fn new(seed: u64) -> Self {
        Self::of(Histories::new(seed), lines::parse)
    }

    /// With messages among the lines.
    pub fn with_messages(seed: u64) -> Self {
        Self::of(Histories::with_messages(seed), lines::parse_with_messages)
    }

    fn of(histories: Histories, parse: Parse) -> Self {
        Self {
            histories,
            parse,
            machine: Machine::default(),
        }
    }

    /// The next line and, if it is a call, what it was answered.
    fn play(&mut self) -> (Vec<u8>, Option<(Call, Answer)>) {
        let line = self.histories.line();
        let answered = (self.parse)(&line).map(|call| {
            let answer = self
                .machine
                .call(&call)
                .unwrap_or_else(|fault| panic!("{fault}"));
            self.histories.see(&call, &answer);
            (call, answer)
        });
        (line, answered)
    }
}

impl Iterator for Scripts {
    type Item = Vec<u8>;

    fn next(&mut self) -> Option<Vec<u8>> {
        Some(self.play().0)
    }
}
