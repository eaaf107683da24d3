//! Request Six, "Writes that add up": two writes at one place beside the one that they would be merged into, and two writes of different
//! interrupts in either order. From demand 3's states everything holds that is said here, and it takes two of their properties only: the
//! summary is exact, and an SGI with a source is pending. From any words at all the sentences about the state hold but for CPENDSGIR's, and
//! those about wake sets do not: `small` keeps the least that fails.
#[path = "merging/cast.rs"]
mod cast;
#[path = "../../oracle/src/scripts/random.rs"]
mod random;
#[path = "merging/registers.rs"]
mod registers;
#[path = "merging/scene.rs"]
mod scene;
#[path = "merging/small.rs"]
mod small;
#[path = "merging/states.rs"]
mod states;
#[path = "merging/tally.rs"]
mod tally;

use cast::{Cast, Place};
use model::{
    gic::{Gic, SPURIOUS, STACK_MAX},
    words,
};
use random::Random;
use registers::{REGISTERS, Register, Rule};
use scene::Scene;
use states::Kind;
use tally::Tally;
use types::register::*;

type Write = (Place, u64);

/// Where two writes start from.
struct State {
    kind: Kind,
    /// Whether it has those of demand 3's properties that everything follows from.
    enough: bool,
    gic: Gic,
    words: Vec<u32>,
}

/// What writes were answered, and the words after each.
struct Run {
    refusals: Vec<u64>,
    wakes: Vec<u64>,
    states: Vec<Vec<u32>>,
}

impl State {
    fn new(kind: Kind, gic: Gic) -> State {
        State {
            kind,
            enough: states::has_enough(&gic),
            words: words::write(&gic),
            gic,
        }
    }

    fn run(&self, writes: &[Write]) -> Run {
        let mut gic = self.gic.clone();
        let (mut refusals, mut wakes, mut states) = (vec![], vec![], vec![]);
        for (at, value) in writes {
            let answer = gic.dist_write(at.vcpu, at.offset, at.width, *value);
            assert_eq!((answer.value, answer.retired), (0, SPURIOUS));
            refusals.push(answer.refusal);
            wakes.push(answer.wake);
            states.push(words::write(&gic));
        }
        Run {
            refusals,
            wakes,
            states,
        }
    }

    /// The words that a fresh controller of the shape has otherwise, to make the state again.
    fn shown(&self) -> String {
        let (count, limit) = (self.gic.count, self.gic.limit);
        let fresh = words::write(&Gic::new(count, limit));
        let words = self.words.iter().zip(fresh).enumerate();
        let others = words.filter(|(_, (word, fresh))| *word != fresh);
        let others = others.map(|(at, (word, _))| format!("{at}: {word:#x}"));
        let others = others.collect::<Vec<_>>().join(", ");
        format!("{:?} n {count} {limit}, {others}", self.kind)
    }
}

/// The vCPUs whose IAR would give a number.
fn lines(words: &[u32]) -> u64 {
    let gic = words::read(words).expect("a state");
    (0..gic.count).fold(0, |all, v| all | u64::from(gic.irq_level(v)) << v)
}

/// How many interrupts are pending.
fn pending(words: &[u32]) -> usize {
    let gic = words::read(words).expect("a state");
    gic.records.iter().filter(|it| it.parts().pending).count()
}

/// Two writes at one place, and the one that they are held against.
struct Case<'a> {
    state: &'a State,
    at: Place,
    register: &'static Register,
    both: Run,
    one: Run,
}

impl<'a> Case<'a> {
    /// None where nothing is said of two such writes.
    fn new(state: &'a State, at: Place, (a, b): (u64, u64)) -> Option<Self> {
        let register = registers::at(at.offset);
        let merged = register.rule.merged(a, b)?;
        Some(Case {
            state,
            at,
            register,
            both: state.run(&[(at, a), (at, b)]),
            one: state.run(&[(at, merged)]),
        })
    }

    fn is_same_state(&self) -> bool {
        self.both.states[1] == self.one.states[0]
    }

    fn together(&self) -> u64 {
        self.both.wakes[0] | self.both.wakes[1]
    }

    fn is_same_wake(&self) -> bool {
        self.together() == self.one.wakes[0]
    }

    /// Whether the two tell of everybody whom the one tells of.
    fn wakes_no_less(&self) -> bool {
        self.one.wakes[0] & !self.together() == 0
    }

    fn is_silent(&self) -> bool {
        let mut all = self.both.wakes.iter().chain(&self.one.wakes);
        all.all(|wake| *wake == 0)
    }

    fn is_untouched(&self) -> bool {
        let mut all = self.both.states.iter().chain(&self.one.states);
        all.all(|state| *state == self.state.words)
    }

    /// Which of the sentences fails, where they are said.
    fn broken(&self) -> Option<&'static str> {
        let enough = self.state.enough;
        let refusal = self.one.refusals[0];
        let nothing = refusal != 0 || self.register.rule == Rule::Nothing;
        let says_state = enough || self.register.first != GICD_CPENDSGIR;
        let wake = match self.register.rule {
            Rule::Adds => !enough || self.is_same_wake(),
            Rule::Rings => self.is_same_wake(),
            Rule::LaterAndSilent => !enough || self.is_silent(),
            Rule::Later | Rule::Nothing => true,
        };
        if self.both.refusals != [refusal; 2] {
            Some("refusal")
        } else if says_state && !self.is_same_state() {
            Some("state")
        } else if !wake || self.is_same_state() && !self.wakes_no_less() {
            Some("wake set")
        } else if nothing && !(self.is_untouched() && self.is_silent()) {
            Some("nothing")
        } else {
            None
        }
    }

    fn note(&self, tally: &mut Tally) {
        let mut note = |what| tally.note(self.register.name, self.state.kind, what);
        if self.one.refusals[0] != 0 {
            return note("refused");
        }
        note("accepted");
        if !self.is_same_state() {
            note("other state");
        }
        if !self.is_same_wake() {
            note("other wake set");
        }
        if !self.is_silent() {
            note("woke");
        }
        if self.both.wakes[0] != 0 && self.both.wakes[1] != 0 {
            note("both woke");
        }
        let (before, after) = (&self.state.words, &self.both.states);
        if after[0] != *before && after[1] != after[0] {
            note("both changed");
            if self.register.rule == Rule::Adds && lines(before) & !lines(&after[1]) != 0 {
                note("silenced");
            }
            if self.register.first == GICD_ISENABLER && pending(before) < pending(&after[1]) {
                note("pended");
            }
        }
        self.note_place(note);
    }

    fn note_place(&self, mut note: impl FnMut(&'static str)) {
        let limit = self.state.gic.limit;
        let numbers = self.register.numbers(self.at.offset, self.at.width);
        if numbers.start >= limit {
            note("past the limit");
        }
        if self.is_untouched() {
            return;
        }
        if numbers.start < limit && numbers.end > limit {
            note("across the limit");
        }
        if self.register.is_of_interrupts() {
            let private = numbers.start < 32;
            note(if private { "private" } else { "shared" });
        }
        let stacks = &self.state.gic.stack;
        if stacks.iter().any(|stack| stack.len() == STACK_MAX) {
            note("a full stack");
        }
    }
}

/// States of the three kinds, with those who play in them.
fn walk(seed: u64, scenes: u64, mut see: impl FnMut(&mut Random, &Cast, &State)) {
    let mut random = Random::new(seed);
    let mut tally = Tally::default();
    for _ in 0..scenes {
        let mut scene = Scene::new(&mut random, Cast::new);
        for _ in 0..4 {
            scene.play(&mut random);
            for kind in Kind::ALL {
                let gic = states::made(&mut random, &scene, kind);
                assert!(kind == Kind::Any || states::has_demand_three(&gic));
                assert!(kind != Kind::Reached || gic.is_lawful());
                for what in states::features(&gic) {
                    tally.note("states", kind, what);
                }
                let state = State::new(kind, gic);
                assert!(kind == Kind::Any || state.enough);
                see(&mut random, &scene.cast, &state);
            }
        }
    }
    tally.print();
    expect_states(&tally, scenes);
}

/// That the states are of their kinds, and not all alike.
fn expect_states(tally: &Tally, scenes: u64) {
    for what in [
        "a held SGI",
        "an SGI with a note",
        "a target that there is not",
        "a private mask",
        "a private record served elsewhere",
        "a stray owner",
        "an entry from the limit up",
    ] {
        tally.expect("states", Kind::Loose, what, scenes);
    }
    for what in ["a false bit", "sources, not pending"] {
        tally.expect("states", Kind::Any, what, scenes);
    }
    tally.expect("states", Kind::Any, "enough, not demand 3", scenes / 5);
    for kind in Kind::ALL {
        tally.expect("states", kind, "a full stack", scenes / 10);
        tally.expect("states", kind, "a limit in a word", scenes);
        tally.expect("states", kind, "eight vCPUs", scenes / 5);
        tally.expect("states", kind, "every number", scenes / 50);
    }
}

#[test]
fn two_writes_at_one_place() {
    let mut tally = Tally::default();
    walk(6, 700, |random, cast, state| {
        for register in &REGISTERS {
            let times = if register.rule == Rule::Nothing { 1 } else { 4 };
            for _ in 0..times {
                let at = cast.place(random, register);
                let values = cast.two_values(random, at);
                see_case(&mut tally, state, at, values);
            }
        }
    });
    tally.print();
    expect_cases(&tally);
    expect_failures(&tally);
}

/// For each register how often both writes changed something, and what else has to be met.
const LEAST: [(&str, u64, &str, u64); 13] = [
    ("ISENABLER", 1000, "woke", 400),
    ("ICENABLER", 1000, "silenced", 200),
    ("ISPENDR", 1000, "woke", 300),
    ("ICPENDR", 100, "silenced", 10),
    ("ISACTIVER", 2000, "silenced", 200),
    ("ICACTIVER", 200, "woke", 100),
    ("CPENDSGIR", 200, "silenced", 10),
    ("SPENDSGIR", 4000, "woke", 1000),
    ("SGIR", 500, "both woke", 30),
    ("ICFGR", 4000, "across the limit", 1000),
    // Here the wake sets are not the later write's.
    ("CTLR", 1000, "other wake set", 500),
    ("IPRIORITYR", 4000, "other wake set", 30),
    ("ITARGETSR", 2000, "other wake set", 100),
];

/// Or the sentences would say little.
fn expect_cases(tally: &Tally) {
    for kind in Kind::ALL {
        for (name, changed, what, least) in LEAST {
            tally.expect(name, kind, "both changed", changed);
            tally.expect(name, kind, what, least);
            tally.expect(name, kind, "a full stack", 40);
        }
        for register in REGISTERS.iter().filter(|it| it.is_of_spis()) {
            tally.expect(register.name, kind, "past the limit", 100);
            if register.rule != Rule::Nothing {
                tally.expect(register.name, kind, "across the limit", 400);
                tally.expect(register.name, kind, "shared", 800);
            }
        }
        for register in &REGISTERS {
            tally.expect(register.name, kind, "accepted", 2000);
        }
        tally.expect("ISENABLER", kind, "pended", 100); // a held line
        tally.expect("SGIR", kind, "not by a list", 400);
        tally.expect("SGIR", kind, "not claimed, other state", 400);
    }
}

/// In any words a false bit can part the wake sets, and CPENDSGIR's state can be another; `small` has the least of each.
fn expect_failures(tally: &Tally) {
    tally.expect("ISENABLER", Kind::Any, "other wake set", 2);
    tally.expect("CPENDSGIR", Kind::Any, "other wake set", 2);
    tally.expect("CPENDSGIR", Kind::Any, "other state", 20);
    tally.expect("ICFGR", Kind::Any, "woke", 20);
}

fn see_case(tally: &mut Tally, state: &State, at: Place, values: (u64, u64)) {
    let Some(case) = Case::new(state, at, values) else {
        return see_unclaimed(tally, state, at, values);
    };
    if let Some(what) = case.broken() {
        panic!("{what}: {at:x?} {values:x?}: {}", state.shown());
    }
    let by_list = case.register.rule != Rule::Rings || values.0 >> 24 & 3 == 0;
    if !by_list && !case.is_untouched() {
        tally.note(case.register.name, state.kind, "not by a list");
    }
    case.note(tally);
}

/// Two rings of different SGIs or by another filter: often no one write comes to the same.
fn see_unclaimed(tally: &mut Tally, state: &State, at: Place, (a, b): (u64, u64)) {
    let both = state.run(&[(at, a), (at, b)]);
    let one = state.run(&[(at, a | b)]);
    let same = both.states[1] == one.states[0];
    let what = if same {
        "not claimed"
    } else {
        "not claimed, other state"
    };
    tally.note(registers::at(at.offset).name, state.kind, what);
}

/// Every offset of the frame and some past it, at every width, in the largest shapes and others: two writes there are refused alike or come
/// to what is said of the register.
#[test]
fn every_place() {
    let mut tally = Tally::default();
    let mut random = Random::new(66);
    for eight in (0..0x1010).step_by(8) {
        let large = eight % 16 == 0;
        let cast = if large { Cast::large } else { Cast::new };
        let mut scene = Scene::new(&mut random, cast);
        scene.play(&mut random);
        for offset in eight..eight + 8 {
            see_offset(&mut tally, &mut random, &scene, offset);
        }
    }
    tally.print();
    for kind in Kind::ALL {
        for register in REGISTERS.iter().filter(|it| it.is_of_interrupts()) {
            tally.expect(register.name, kind, "accepted", 10);
            tally.expect(register.name, kind, "refused", 10);
        }
    }
}

fn see_offset(tally: &mut Tally, random: &mut Random, scene: &Scene, offset: u64) {
    let cast = &scene.cast;
    for kind in Kind::ALL {
        let state = State::new(kind, states::made(random, scene, kind));
        for width in [1, 2, 4, 8] {
            let vcpu = random.pick(&[0, cast.count - 1, cast.count]);
            let at = Place {
                vcpu,
                offset,
                width,
            };
            let values = cast.two_values(random, at);
            see_case(tally, &state, at, values);
        }
    }
}

const ORDERS: [&str; 3] = ["two ITARGETSR", "places apart", "numbers apart"];

/// Writes at places of different interrupts, and of different interrupts at places that have some in common.
#[test]
fn two_writes_in_either_order() {
    let mut tally = Tally::default();
    let of_interrupts = REGISTERS.iter().filter(|it| it.is_of_interrupts());
    let all: Vec<_> = of_interrupts.collect();
    let targets = [registers::at(GICD_ITARGETSR)];
    walk(666, 500, |random, cast, state| {
        for time in 0..24 {
            let from = if time < 6 { &targets[..] } else { &all };
            let writes = [(); 2].map(|()| {
                let register = random.pick(from);
                let at = cast.place(random, register);
                (at, cast.value(random, at))
            });
            if let Some(of) = apart(writes) {
                see_orders(&mut tally, state, writes, of);
            }
        }
    });
    tally.print();
    for (of, kind) in ORDERS
        .into_iter()
        .flat_map(|of| Kind::ALL.map(|kind| (of, kind)))
    {
        tally.expect(of, kind, "both changed", 400);
        tally.expect(of, kind, "by two vCPUs", 2000);
        tally.expect(of, kind, "woke", 100);
        tally.expect(of, kind, "other wake set", 1); // nothing is said of these
    }
}

/// In which way two writes are of different interrupts, if they are.
fn apart([x, y]: [Write; 2]) -> Option<&'static str> {
    let register = |it: Write| registers::at(it.0.offset);
    let place = |it: Write| register(it).numbers(it.0.offset, it.0.width);
    let named = |it: Write| register(it).named(it.0.offset, it.0.width, it.1);
    let is_target = |it: Write| register(it).first == GICD_ITARGETSR;
    let (a, b) = (place(x), place(y));
    if a.end <= b.start || b.end <= a.start {
        let targets = is_target(x) && is_target(y);
        Some(if targets { ORDERS[0] } else { ORDERS[1] })
    } else {
        let others = named(y);
        let common = named(x).iter().any(|it| others.contains(it));
        (!common).then_some(ORDERS[2])
    }
}

fn see_orders(tally: &mut Tally, state: &State, [x, y]: [Write; 2], of: &'static str) {
    let (first, second) = (state.run(&[x, y]), state.run(&[y, x]));
    let refusals = [second.refusals[1], second.refusals[0]];
    let same = first.states[1] == second.states[1] && first.refusals == refusals;
    assert!(same, "{of}: {x:x?} {y:x?}: {}", state.shown());
    if first.refusals != [0, 0] {
        return tally.note(of, state.kind, "refused");
    }
    let mut note = |what| tally.note(of, state.kind, what);
    note("accepted");
    let changed = |run: &Run| run.states[0] != state.words && run.states[1] != run.states[0];
    if changed(&first) && changed(&second) {
        note("both changed");
    }
    if x.0.vcpu != y.0.vcpu {
        note("by two vCPUs");
    }
    let wakes = |run: &Run| run.wakes[0] | run.wakes[1];
    if wakes(&first) | wakes(&second) != 0 {
        note("woke");
    }
    if wakes(&first) != wakes(&second) {
        note("other wake set");
    }
}
