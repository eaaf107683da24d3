//! The pairs of merging.list show what their titles say of merging writes, and those of `may not` have no line too many.
//!
//! Compared are the values of all reads, the words at the end, and the wake sets or-ed together from the first line on in which the two
//! scripts differ; of these lines only writes may differ. `may`: the same reads and words, and with "wake sets add up" in the title the same
//! wake sets. `may not`: other reads; or, with "wake sets" in the title, the same reads and words, and other wake sets. Each line that both
//! have, but `n` and the writes at a place where they have other writes, takes the difference with it if it is left out of both.
mod rows;

use oracle::{lines, machine::Machine};
use rows::rows;
use std::{array, fs, path::Path};

const MAY: [&str; 2] = ["may: ", "as one: "];
const MAY_NOT: [&str; 2] = ["may not: ", "merged: "];

struct Pair {
    /// The first script's.
    title: String,
    scripts: [Vec<String>; 2],
    /// How many lines both begin with.
    beginning: usize,
}

/// What a script shows.
#[derive(Default)]
struct Shown {
    read: Vec<u64>,
    /// The wake sets behind the beginning, or-ed together.
    woken: u8,
    words: Vec<u32>,
}

/// The pairs whose titles begin with these.
fn pairs(marks: [&str; 2]) -> Vec<Pair> {
    let mut scripts: Vec<(String, Vec<String>)> = vec![];
    for (line, _) in rows("merging.list") {
        let line = String::from_utf8(line).unwrap();
        match line.strip_prefix("# ") {
            Some(title) => scripts.push((title.into(), vec![])),
            None => scripts.last_mut().expect("a title").1.push(line),
        }
    }
    let (twos, alone) = scripts.as_chunks::<2>();
    assert!(alone.is_empty(), "{}: has no other", alone[0].0);
    let mut found = vec![];
    for [(title, first), (other, second)] in twos {
        let is = |marks: [&str; 2]| title.starts_with(marks[0]) && other.starts_with(marks[1]);
        assert!(is(MAY) || is(MAY_NOT), "{title}, {other}: no pair");
        if is(marks) {
            found.push(Pair::new(title, [first.clone(), second.clone()]));
        }
    }
    assert!(!found.is_empty());
    found
}

fn is_read(line: &str) -> bool {
    line.starts_with(['d', 'c'])
}

fn is_write(line: &str) -> bool {
    line.starts_with(['D', 'C'])
}

/// Where a line writes, and by whom: its frame, vCPU and offset.
fn place(line: &str) -> &str {
    let (end, _) = line.match_indices(' ').nth(2).expect("a write");
    &line[..end]
}

/// The field of a write: its offset is 2, its value 4.
fn number(line: &str, field: usize) -> u64 {
    line.split(' ').nth(field).unwrap().parse().unwrap()
}

impl Pair {
    fn new(title: &str, scripts: [Vec<String>; 2]) -> Self {
        let [first, second] = &scripts;
        let both = first.iter().zip(second).take_while(|(a, b)| a == b);
        let beginning = both.count();
        let with_setup = beginning > 0 && first[0].starts_with("n ");
        assert!(with_setup, "{title}: no `n`, or two");
        let title = title.into();
        let pair = Self {
            title,
            scripts,
            beginning,
        };
        let [one, other] = [0, 1].map(|side| pair.rest(side).filter(|line| !is_write(line)));
        assert!(one.eq(other), "{}: not writes alone differ", pair.title);
        pair
    }

    /// What a script has behind the beginning.
    fn rest(&self, side: usize) -> impl Iterator<Item = &str> {
        let rest = self.scripts[side].iter().skip(self.beginning);
        rest.map(|line| &line[..])
    }

    /// Whether this is a write of the rest where the other script has other ones.
    fn is_merged(&self, line: &str) -> bool {
        let writes = |side| {
            let here = |other: &&str| is_write(other) && place(other) == place(line);
            let mut writes: Vec<&str> = self.rest(side).filter(here).collect();
            writes.sort();
            writes
        };
        is_write(line) && writes(0) != writes(1)
    }

    /// The lines that both have beside `n` and what is merged, by where they stand in each.
    fn set_up(&self) -> Vec<[usize; 2]> {
        let mut both: Vec<[usize; 2]> = (1..self.beginning).map(|index| [index; 2]).collect();
        let [one, other] = [0, 1].map(|side| {
            let rest = self.rest(side).zip(self.beginning..);
            let mut lines: Vec<_> = rest.filter(|(line, _)| !self.is_merged(line)).collect();
            lines.sort();
            lines
        });
        assert_eq!(one.len(), other.len(), "{}", self.title);
        for ((line, place), (again, other_place)) in one.into_iter().zip(other) {
            assert_eq!(line, again, "{}", self.title);
            both.push([place, other_place]);
        }
        both
    }

    /// What both show, perhaps without a line of each.
    fn shown(&self, left_out: Option<[usize; 2]>) -> [Shown; 2] {
        array::from_fn(|side| {
            let mut machine = Machine::default();
            let mut shown = Shown::default();
            for (index, line) in self.scripts[side].iter().enumerate() {
                if left_out.is_some_and(|places| places[side] == index) {
                    continue;
                }
                let call = lines::parse(line.as_bytes()).expect("a call");
                let answer = machine.call(&call).unwrap();
                assert_eq!(answer.refusal, 0, "{}: {line}", self.title);
                if is_read(line) {
                    shown.read.push(answer.value);
                }
                if index >= self.beginning {
                    shown.woken |= answer.wake;
                }
            }
            machine.write_words(&mut shown.words);
            shown
        })
    }

    fn is_about_wake_sets(&self) -> bool {
        self.title.contains("wake sets")
    }

    /// Whether the two of a `may not` differ.
    fn differ(&self, [one, other]: &[Shown; 2]) -> bool {
        if self.is_about_wake_sets() {
            one.woken != other.woken
        } else {
            one.read != other.read
        }
    }
}

/// Two writes and the one that stands for both, or the two in the other order; then reads.
fn assert_is_a_merge(pair: &Pair) {
    let title = &pair.title;
    let [two, one] = [0, 1].map(|side| pair.rest(side).collect::<Vec<_>>());
    let (writes, reads) = two.split_at(2);
    if title.ends_with("in either order") {
        assert_ne!(place(writes[0]), place(writes[1]), "{title}");
        assert_eq!(one[..2], [writes[1], writes[0]], "{title}");
        assert_eq!(reads, &one[2..], "{title}");
    } else {
        let [(at, a), (again, b), (once, value)] = [writes[0], writes[1], one[0]].map(|line| {
            assert!(is_write(line), "{title}: {line}");
            (line.rsplit_once(' ').unwrap().0, number(line, 4))
        });
        let merged = if title.contains("both") { a | b } else { b };
        assert_eq!((again, once, value), (at, at, merged), "{title}");
        assert_eq!(reads, &one[1..], "{title}");
    }
    let all_reads = reads.iter().all(|line| is_read(line));
    assert!(!reads.is_empty() && all_reads, "{title}");
}

/// The same writes in another order; or two, and their bits together, the later alone, or neither.
fn assert_would_be_a_merge(pair: &Pair) {
    let [written, merged] = [0, 1].map(|side| {
        let lines = pair.rest(side).filter(|line| pair.is_merged(line));
        lines.collect::<Vec<_>>()
    });
    let is_merge = match (&written[..], &merged[..]) {
        ([], []) | ([_, _], []) => true,
        ([first, later], [one]) => {
            let further = 8 * (number(later, 2) - number(first, 2));
            let both = number(first, 4) | number(later, 4) << further;
            one == later || place(one) == place(first) && number(one, 4) == both
        }
        _ => false,
    };
    assert!(is_merge, "{}: {written:?}, {merged:?}", pair.title);
}

#[test]
fn what_may_be_merged_is_as_one() {
    for pair in pairs(MAY) {
        assert_is_a_merge(&pair);
        let [two, one] = pair.shown(None);
        assert_eq!(two.read, one.read, "{}", pair.title);
        assert_eq!(two.words, one.words, "{}", pair.title);
        if pair.title.contains("wake sets add up") {
            assert_eq!(two.woken, one.woken, "{}: wake sets", pair.title);
        }
    }
}

#[test]
fn what_may_not_be_merged_is_other() {
    for pair in pairs(MAY_NOT) {
        assert_would_be_a_merge(&pair);
        let shown = pair.shown(None);
        assert!(pair.differ(&shown), "{}: no difference", pair.title);
        if pair.is_about_wake_sets() {
            let [written, merged] = shown;
            assert_eq!(written.read, merged.read, "{}", pair.title);
            assert_eq!(written.words, merged.words, "{}", pair.title);
        }
    }
}

#[test]
fn and_no_line_of_it_can_be_left_out() {
    for pair in pairs(MAY_NOT) {
        for places in pair.set_up() {
            let line = &pair.scripts[0][places[0]];
            let shown = pair.shown(Some(places));
            assert!(!pair.differ(&shown), "{}: without {line} too", pair.title);
        }
    }
}

/// A line for each script: its lines, and what it reads or whom it wakes.
#[test]
fn the_page_has_the_same_scripts() {
    let page = Path::new(env!("CARGO_MANIFEST_DIR")).join("../../../docs/MERGING.md");
    let page = fs::read_to_string(page).unwrap();
    let on_page = page.lines().filter(|line| line.starts_with("    n "));
    let mut listed = vec![];
    for pair in pairs(MAY_NOT) {
        for (script, shown) in pair.scripts.iter().zip(pair.shown(None)) {
            let read: Vec<String> = shown.read.iter().map(u64::to_string).collect();
            let shows = if pair.is_about_wake_sets() {
                format!("wakes {}", shown.woken)
            } else {
                format!("reads {}", read.join(", "))
            };
            listed.push(format!("    {}  => {shows}", script.join("; ")));
        }
    }
    assert_eq!(on_page.collect::<Vec<_>>(), listed);
}
