//! A difference told with the calls that lead to it, and with the fewest of them that do.
use crate::{Difference, Library, pair::Pair, question::Question, request::Request};
use model::image;
use oracle::words::{size, within_limits};
use std::{fmt::Write, ops::Range};

/// The words as they were lent, the calls of them, and what differed in the last, or in what was asked after it.
#[derive(Clone, Debug)]
pub struct Case {
    pub start: Vec<u32>,
    pub requests: Vec<Request>,
    pub wrong: Option<Question>,
    pub difference: Difference,
}

impl Case {
    pub fn of<L: Library>(pair: &Pair<L>, difference: Difference) -> Self {
        Self {
            start: pair.start.clone(),
            requests: pair.requests.clone(),
            wrong: pair.wrong,
            difference,
        }
    }

    /// Leaves calls out and makes words 0, ever fewer at a time, as long as a difference remains.
    pub fn shrunk<L: Library>(self, library: &L) -> Self {
        let calls = self.requests.len();
        let fewer = self.smaller(library, calls, |case, part| {
            let part = part.start.min(case.requests.len())..part.end.min(case.requests.len());
            case.requests.drain(part);
        });
        if fewer.starts_fresh() {
            return fewer;
        }
        let words = fewer.start.len();
        fewer.smaller(library, words, |case, part| case.start[part].fill(0))
    }

    /// What is left where `change` is made in every part of it in which a difference remains, in halves, quarters, and so on.
    fn smaller<L: Library>(
        mut self,
        library: &L,
        length: usize,
        change: fn(&mut Self, Range<usize>),
    ) -> Self {
        let mut step = length.next_power_of_two();
        while step > 0 {
            let starts = (0..length).step_by(step);
            for start in starts.rev() {
                let mut smaller = self.clone();
                change(&mut smaller, start..length.min(start + step));
                if let Some(case) = smaller.replayed(library) {
                    self = case;
                }
            }
            step /= 2;
        }
        self
    }

    /// The calls up to the first difference, if there is one.
    fn replayed<L: Library>(&self, library: &L) -> Option<Self> {
        let mut pair = Pair::replay(library, self.wrong);
        pair.lend(self.start.clone());
        let mut calls = self.requests.iter();
        let found = calls.find_map(|request| pair.call(request).err());
        found.map(|difference| Self::of(&pair, difference))
    }

    /// Whether an accepted setup or load comes first, so that the words before it do not matter.
    fn starts_fresh(&self) -> bool {
        match self.requests.first() {
            Some(&Request::Setup { count, limit }) => {
                within_limits(count, limit)
                    && size(count as usize, limit as usize) <= self.start.len()
            }
            Some(Request::Load(image)) => image::load(&mut self.start.clone(), image).refusal == 0,
            _ => false,
        }
    }

    /// The runner's lines, the lent words before them where these matter, and the difference.
    pub fn text(&self) -> String {
        let mut text = String::new();
        if !self.starts_fresh() {
            let rows = self.start.chunks(8).enumerate();
            for (row, words) in rows.filter(|(_, words)| words.iter().any(|word| *word != 0)) {
                writeln!(text, "# words from {}: {words:x?}", 8 * row).unwrap();
            }
        }
        writeln!(text, "# {} words lent", self.start.len()).unwrap();
        for request in &self.requests {
            writeln!(text, "{request}").unwrap();
        }
        writeln!(text, "# the last: {}", self.difference.0).unwrap();
        text
    }
}
