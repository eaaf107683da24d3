//! What was met, and how often.
use crate::states::Kind;
use std::collections::BTreeMap;

#[derive(Default)]
pub struct Tally(BTreeMap<(&'static str, Kind), BTreeMap<&'static str, u64>>);

impl Tally {
    pub fn note(&mut self, of: &'static str, kind: Kind, what: &'static str) {
        *self
            .0
            .entry((of, kind))
            .or_default()
            .entry(what)
            .or_default() += 1;
    }

    pub fn seen(&self, of: &'static str, kind: Kind, what: &'static str) -> u64 {
        let row = self.0.get(&(of, kind));
        row.and_then(|row| row.get(what)).copied().unwrap_or(0)
    }

    #[track_caller]
    pub fn expect(&self, of: &'static str, kind: Kind, what: &'static str, least: u64) {
        let seen = self.seen(of, kind, what);
        assert!(
            seen >= least,
            "{of}, {kind:?}: {what} {seen} times, not {least}"
        );
    }

    pub fn print(&self) {
        for ((of, kind), row) in &self.0 {
            let row = row.iter().map(|(what, seen)| format!("{what} {seen}"));
            println!("{of}, {kind:?}: {}", row.collect::<Vec<_>>().join(", "));
        }
    }
}
