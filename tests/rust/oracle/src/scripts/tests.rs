//! That the histories do what they are for, and that demand 3 holds along them.
use super::Scripts;
use crate::{
    AccessWidth, GicV3Controller, GicVcpuId,
    RegisterRegion::{self, CpuInterface, Distributor},
    SpiId, TriggerMode, access, invariants, lines,
    machine::{Access, Answer, Call, SPURIOUS},
    redistributor::RedistributorState,
    register::*,
    registers::{Bank, Interrupt},
    scripts::steps::{CPU_INTERFACE, DISTRIBUTOR},
};
use std::collections::BTreeMap;
use types::Parts;

mod messages;

pub const SEEDS: std::ops::Range<u64> = 0..4;
pub const LINES: usize = 50_000;

/// Runs every seed's lines and shows each line, the call that it is, its answer and the controller after it.
fn watch(see: impl FnMut(&[u8], Option<(Call, Answer)>, Option<&GicV3Controller>)) {
    watch_each(Scripts::new, see);
}

/// The same of lines with messages among them.
fn watch_messages(see: impl FnMut(&[u8], Option<(Call, Answer)>, Option<&GicV3Controller>)) {
    watch_each(Scripts::with_messages, see);
}

fn watch_each(
    scripts: fn(u64) -> Scripts,
    mut see: impl FnMut(&[u8], Option<(Call, Answer)>, Option<&GicV3Controller>),
) {
    for seed in SEEDS {
        let mut scripts = scripts(seed);
        for _ in 0..LINES {
            let (line, answered) = scripts.play();
            see(&line, answered, scripts.machine.controller());
        }
    }
}

#[derive(Default)]
struct Tally(BTreeMap<String, usize>);

impl Tally {
    fn note(&mut self, what: impl Into<String>) {
        *self.0.entry(what.into()).or_default() += 1;
    }

    fn expect(&self, what: &str, least: usize) {
        let seen = self.0.get(what).copied().unwrap_or(0);
        assert!(seen >= least, "{what}: {seen} times, not {least}");
    }
}

#[test]
fn a_seed_gives_its_lines_again_and_another_gives_others() {
    let lines = |seed| Scripts::new(seed).take(1000).collect::<Vec<_>>();
    assert_eq!(lines(1), lines(1));
    assert_ne!(lines(1), lines(2));
    let messages = |seed| Scripts::with_messages(seed).take(1000).collect::<Vec<_>>();
    assert_eq!(messages(1), messages(1));
    assert_ne!(messages(1), lines(1));
    let is_message = |line: &Vec<u8>| line.starts_with(b"m ") || line.starts_with(b"M ");
    assert!(messages(1).iter().any(is_message) && !lines(1).iter().any(is_message));
}

#[test]
fn demand_three_holds_after_every_line() {
    let holds = |line: &[u8], _: Option<(Call, Answer)>, gic: Option<&GicV3Controller>| {
        if let Some(broken) = gic.and_then(invariants::broken) {
            panic!("after {:?}: {broken}", String::from_utf8_lossy(line));
        }
    };
    watch(holds);
    watch_messages(holds);
}

#[test]
fn every_refusal_and_other_forms_come() {
    let mut tally = Tally::default();
    watch(|_, answered, _| match answered {
        Some((_, answer)) => tally.note(format!("refusal {}", answer.refusal)),
        None => tally.note("?"),
    });
    for refusal in [0, 1, 2, 3, 4, 6, 8] {
        tally.expect(&format!("refusal {refusal}"), 20);
    }
    tally.expect("?", 1000);
}

#[test]
fn every_register_is_read_and_written_at_every_width() {
    fn name(region: RegisterRegion, offset: u64, width: AccessWidth, what: &str) -> String {
        format!("{what} {region:?} {offset:#x} {width:?}")
    }
    let mut tally = Tally::default();
    watch(|_, answered, _| {
        let (at, what) = match answered.map(|(call, _)| call) {
            Some(Call::Read(at)) => (at, "read"),
            Some(Call::Write(at, _)) => (at, "write"),
            _ => return,
        };
        tally.note(name(at.region, at.offset, at.width, what));
    });
    let distributor = DISTRIBUTOR.map(|offset| (Distributor, offset));
    let cpu_interface = CPU_INTERFACE.map(|offset| (CpuInterface, offset));
    for (region, offset) in distributor.into_iter().chain(cpu_interface) {
        for width in AccessWidth::ALL {
            for what in ["read", "write"] {
                tally.expect(&name(region, offset, width, what), 1);
            }
        }
    }
}

#[test]
fn everything_that_can_wake_wakes() {
    let mut tally = Tally::default();
    watch(|_, answered, _| {
        if let Some((call, answer)) = answered
            && answer.wake != 0
        {
            tally.note(match call {
                Call::Write(at, _) if at.region == Distributor => {
                    let place = DISTRIBUTOR.into_iter().rfind(|first| *first <= at.offset);
                    format!("Distributor {:#x}", place.unwrap())
                }
                Call::Write(at, _) => format!("CpuInterface {:#x}", at.offset),
                Call::SetLevel(..) => "line".into(),
                Call::Pulse(_) => "pulse".into(),
                other => panic!("{other} woke"),
            });
            tally.note(format!("{} at once", answer.wake.count_ones()));
        }
    });
    for offset in [
        GICD_CTLR,
        GICD_ISENABLER,
        GICD_ISPENDR,
        GICD_ICACTIVER,
        GICD_IPRIORITYR,
        GICD_ITARGETSR,
        GICD_SGIR,
        GICD_SPENDSGIR,
    ] {
        tally.expect(&format!("Distributor {offset:#x}"), 20);
    }
    for offset in [
        GICC_CTLR, GICC_PMR, GICC_BPR, GICC_ABPR, GICC_EOIR, GICC_AEOIR, GICC_DIR,
    ] {
        tally.expect(&format!("CpuInterface {offset:#x}"), 20);
    }
    for what in ["line", "pulse", "1 at once", "2 at once", "3 at once"] {
        tally.expect(what, 20);
    }
}

#[test]
fn interrupts_nest_and_collide() {
    let mut tally = Tally::default();
    watch(|_, answered, gic| {
        if let (Some((call, answer)), Some(gic)) = (answered, gic) {
            note_call(&mut tally, &call, &answer);
            note_state(&mut tally, gic);
        }
    });
    for (what, least) in [
        ("acknowledged", 5000),
        ("retired by EOIR", 1000),
        ("retired by DIR", 500),
        ("from another vCPU", 500),
        ("depth 2", 1000),
        ("depth 4", 20),
        ("an SGI from three at once", 100),
        ("redelivery noted", 500),
        ("line high, in flight", 500),
        ("a number on one stack twice", 20),
        ("a number on two stacks", 20),
        ("served by a vCPU that is no target", 100),
    ] {
        tally.expect(what, least);
    }
}

#[test]
fn every_binary_point_decides() {
    let mut tally = Tally::default();
    watch(|_, answered, gic| {
        if let (Some((Call::Read(at), answer)), Some(gic)) = (answered, gic)
            && Call::Read(at).is_acknowledge()
            && answer.refusal == 0
            && at.vcpu < gic.vcpu_count() as u64
        {
            note_acknowledge(&mut tally, gic, at.vcpu as usize, &answer);
        }
    });
    for point in 0..8 {
        tally.expect(&format!("given at {point}"), 500);
        tally.expect(&format!("an odd priority given at {point}"), 100);
        tally.expect(&format!("held back by the group served at {point}"), 100);
        if point > 0 {
            tally.expect(&format!("given for its group alone at {point}"), 10);
        }
    }
}

/// What the binary point had to do with an acknowledge. What gave nothing has changed nothing, and what gave a number has left its priority.
fn note_acknowledge(tally: &mut Tally, gic: &GicV3Controller, vcpu: usize, answer: &Answer) {
    let state = gic.state();
    let seen = state.redistributor(GicVcpuId::new(vcpu), "test").unwrap();
    let cpu = seen.cpu_interface();
    let (point, served) = (cpu.v2_binary_point(), cpu.active());
    let priority = |number: u32| {
        let private = seen.own.find(number);
        private.or_else(|| seen.distributor.find(number)).unwrap()
    };
    let priority = |number: u32| priority(number).record.priority();
    if answer.value != u64::from(SPURIOUS) {
        let (number, _) = *served.last().unwrap();
        tally.note(format!("given at {point}"));
        if priority(number).raw() % 2 == 1 {
            tally.note(format!("an odd priority given at {point}"));
        }
        if served.len() > 1 && priority(number) >= served[served.len() - 2].1 {
            tally.note(format!("given for its group alone at {point}"));
        }
    } else if let (Some(&(newest, running)), true) = (served.last(), cpu.v2_enabled()) {
        let spi = |spi: SpiId| Ok(priority(spi.raw()));
        let best = seen.highest_pending(cpu.v2_priority_mask(), spi).unwrap();
        if best.is_some_and(|(_, best)| best >= running && best < priority(newest)) {
            tally.note(format!("held back by the group served at {point}"));
        }
    }
}

#[test]
fn pending_is_cleared_of_every_kind() {
    let mut tally = Tally::default();
    let mut before: Option<GicV3Controller> = None;
    watch(|_, answered, gic| {
        if let (Some((Call::Write(at, value), answer)), Some(before)) = (answered, &before)
            && answer.refusal == 0
            && at.region == Distributor
            && (GICD_ICPENDR..GICD_ISACTIVER).contains(&at.offset)
        {
            note_clears(&mut tally, before, &at, value);
        }
        before = gic.cloned();
    });
    for kind in ["a PPI", "an SPI"] {
        for (what, least) in [
            ("held, pending", 300),
            ("held, pending, served", 80),
            ("held, redelivery noted", 50),
            ("held, not pending", 30),
            ("edge, line high, pending", 200),
            ("level, line low, pending", 250),
        ] {
            tally.expect(&format!("{kind} {what}"), least);
        }
    }
}

/// What a write of ICPENDR finds at the numbers that it names.
fn note_clears(tally: &mut Tally, before: &GicV3Controller, at: &Access, value: u64) {
    let state = before.state();
    let first = ((at.offset - GICD_ICPENDR) * 8) as u32;
    for number in (first..first + 32).filter(|number| value >> (number - first) & 1 == 1) {
        let (kind, it) = match number {
            0..16 => continue,
            16..32 => {
                let (_, own) = &state.redistributors[at.vcpu as usize];
                ("a PPI", own.find(number))
            }
            _ => ("an SPI", state.distributor.find(number)),
        };
        if let Some(it) = it {
            note_cleared(tally, kind, &access::parts(&it.record));
        }
    }
}

fn note_cleared(tally: &mut Tally, kind: &str, parts: &Parts) {
    let level = parts.trigger == TriggerMode::Level;
    let mut note = |what: &str| tally.note(format!("{kind} {what}"));
    match (parts.line_asserted, parts.pending) {
        (true, false) if level => note("held, not pending"),
        (true, true) if level => {
            note("held, pending");
            if parts.active {
                note("held, pending, served");
            }
            if parts.redelivery_pending {
                note("held, redelivery noted");
            }
        }
        (true, true) => note("edge, line high, pending"),
        (false, true) if level => note("level, line low, pending"),
        _ => {}
    }
}

fn note_call(tally: &mut Tally, call: &Call, answer: &Answer) {
    if let Some(value) = call.acknowledged(answer) {
        tally.note("acknowledged");
        if value >= 1024 {
            tally.note("from another vCPU");
        }
    }
    if let Call::Write(at, _) = call
        && answer.retired != SPURIOUS
    {
        let by = if at.offset == GICC_DIR { "DIR" } else { "EOIR" };
        tally.note(format!("retired by {by}"));
    }
}

fn note_state(tally: &mut Tally, gic: &GicV3Controller) {
    let state = gic.state();
    let vcpus = || state.redistributors.iter().map(|(_, own)| own);
    note_stacks(tally, &vcpus().map(served).collect::<Vec<_>>());
    for own in vcpus() {
        if own.sources.iter().any(|set| set.count_ones() >= 3) {
            tally.note("an SGI from three at once");
        }
    }
    let private = vcpus().flat_map(|own| own.private.iter());
    for it in private.chain(state.distributor.spis.iter()) {
        note_interrupt(tally, it);
    }
}

fn served(own: &RedistributorState) -> Vec<u32> {
    let entries = own.cpu_interface().active().iter();
    entries.map(|entry| entry.0).collect()
}

fn note_stacks(tally: &mut Tally, stacks: &[Vec<u32>]) {
    for stack in stacks {
        tally.note(format!("depth {}", stack.len()));
        let times = |it: &u32| stack.iter().filter(|other| *other == it).count();
        if stack.iter().any(|it| times(it) > 1) {
            tally.note("a number on one stack twice");
        }
        let on = |it: &u32| stacks.iter().filter(|stack| stack.contains(it)).count();
        let shared = |it: &&u32| **it >= 32;
        if stack.iter().filter(shared).any(|it| on(it) > 1) {
            tally.note("a number on two stacks");
        }
    }
}

fn note_interrupt(tally: &mut Tally, it: &Interrupt) {
    let parts = access::parts(&it.record);
    if parts.redelivery_pending {
        tally.note("redelivery noted");
    }
    if parts.line_asserted && parts.inflight {
        tally.note("line high, in flight");
    }
    if let (Some(owner), Some(mask)) = (it.owner, parts.cpu_target_mask)
        && mask & 1 << owner.raw() == 0
    {
        tally.note("served by a vCPU that is no target");
    }
}

#[test]
fn a_call_is_written_as_it_is_read() {
    watch(|line, answered, _| is_written_as_read(line, answered, lines::parse));
    watch_messages(|line, answered, _| {
        is_written_as_read(line, answered, lines::parse_with_messages);
    });
}

fn is_written_as_read(line: &[u8], answered: Option<(Call, Answer)>, parse: lines::Parse) {
    if let Some((call, _)) = answered {
        let written = call.to_string();
        assert_eq!(parse(written.as_bytes()), Some(call));
        assert!(written.len() <= line.len(), "only zeros are added");
    }
}
