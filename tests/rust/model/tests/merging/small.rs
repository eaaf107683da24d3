//! Small controllers, whole: every record of an SPI, of two, and of an SGI. And the least of what is not so, each as small as it gets.
use crate::{Case, Place, State, registers::*, states::*};
use model::{
    TriggerMode,
    gic::Gic,
    lines::{parse, run},
    record::Record,
};
use types::{Parts, register::*};

/// One vCPU with everything on; SPIs go to it, and nothing is enabled.
fn controller(limit: u64) -> Gic {
    let mut gic = Gic::new(1, limit);
    (gic.on, gic.ctlr[0], gic.pmr[0]) = (true, 1, 255);
    (0..limit).for_each(|number| put(&mut gic, number, 0));
    gic
}

/// Gives an interrupt the record of these flags, which are docs/STATE.md's.
fn put(gic: &mut Gic, number: u64, flags: u64) {
    let slot = gic.slot(0, number);
    let flag = |place: u64| flags >> place & 1 == 1;
    let edge = [TriggerMode::Level, TriggerMode::Edge][usize::from(flag(6))];
    let parts = Parts {
        enabled: flag(0),
        pending: flag(1),
        active: flag(2),
        inflight: flag(3),
        redelivery_pending: flag(4),
        line_asserted: flag(5),
        trigger: edge,
        cpu_target_mask: (number >= 32).then_some(1),
        ..gic.records[slot].parts()
    };
    gic.records[slot] = Record::make(&parts, flag(3).then_some(0));
}

const ENABLED: u64 = 1;
const PENDING: u64 = 2;
const LINE: u64 = 32;
const EDGE: u64 = 64;

fn state(gic: &Gic) -> State {
    let known = has_demand_three(gic);
    let kind = if known { Kind::Loose } else { Kind::Any };
    State::new(kind, gic.clone())
}

/// By vCPU 0, of the first word or byte from this number on.
fn case(state: &State, register: u64, number: u64, values: (u64, u64)) -> Case<'_> {
    let (offset, width) = at(register).place(number, 1);
    let place = Place {
        vcpu: 0,
        offset,
        width,
    };
    let case = Case::new(state, place, values).expect("something is said");
    assert_eq!(case.one.refusals, [0]);
    let known = state.shown();
    assert_eq!(case.broken(), None, "{place:x?} {values:x?}: {known}");
    case
}

/// Not even a false bit parts the wake sets, if there is one SPI.
#[test]
fn every_record_of_one_spi() {
    let mut woke = 0;
    for (flags, bit) in (0..256).map(|it| (it / 2, it % 2)) {
        let mut gic = controller(33);
        put(&mut gic, 32, flags);
        gic.summary[0] = bit as u32;
        let state = state(&gic);
        for register in REGISTERS.iter().filter(|it| it.is_of_interrupts()) {
            for values in [(0, 0), (0, 1), (1, 0), (1, 1), (2, 1), (1, 2), (0, 255)] {
                let case = case(&state, register.first, 32, values);
                assert!(case.is_same_state());
                assert!(register.rule != Rule::Adds || case.is_same_wake());
                woke += u64::from(!case.is_silent());
            }
        }
    }
    assert!(woke > 100, "{woke}");
}

/// The records that demand 3 allows.
fn sound_flags() -> impl Iterator<Item = u64> {
    let sound = |flags: &u64| flags & 12 != 8 && flags & 24 != 16;
    (0..128).filter(sound)
}

/// Where the bits are exact all holds; where one is false the wake sets may part, at these registers and no others.
#[test]
fn every_two_records_of_spis() {
    const PARTED: [u64; 4] = [GICD_ISENABLER, GICD_ISPENDR, GICD_ICPENDR, GICD_ICACTIVER];
    let mut parted = [0; REGISTERS.len()];
    let (mut exact, mut false_bit) = (0, 0);
    for flags in sound_flags().flat_map(|x| sound_flags().map(move |y| [x, y])) {
        for bits in 0..4 {
            let mut gic = controller(34);
            put(&mut gic, 32, flags[0]);
            put(&mut gic, 33, flags[1]);
            gic.summary[0] = bits;
            let state = state(&gic);
            let is_exact = state.kind == Kind::Loose;
            *(if is_exact { &mut exact } else { &mut false_bit }) += 1;
            for (at, register) in REGISTERS.iter().enumerate() {
                if register.rule == Rule::Adds && register.is_of_spis() {
                    let case = case(&state, register.first, 32, (1, 2));
                    parted[at] += u64::from(!case.is_same_wake());
                }
            }
        }
    }
    assert_eq!((exact, false_bit), (64 * 64, 3 * 64 * 64));
    for (register, parted) in REGISTERS.iter().zip(parted) {
        println!("two SPIs, {}: parted {parted}", register.name);
        let can_part = PARTED.contains(&register.first);
        assert_eq!(parted != 0, can_part, "{}", register.name);
    }
}

/// Two sources, which are set and cleared in any way: the state is another exactly where a held level SGI had sources and was not pending.
#[test]
fn every_record_of_an_sgi() {
    let (mut others, mut parted) = (0, 0);
    for (flags, sources) in (0..128).flat_map(|flags| (0..4).map(move |set| (flags, set))) {
        let mut gic = controller(32);
        put(&mut gic, 0, flags);
        gic.sources[0] = sources;
        let state = state(&gic);
        let held_silent = flags & (PENDING | LINE | EDGE) == LINE;
        for (a, b) in (0..4).flat_map(|a| (0..4).map(move |b| (a, b))) {
            let set = case(&state, GICD_SPENDSGIR, 0, (a, b));
            assert!(set.is_same_state() && set.is_same_wake());
            let cleared = case(&state, GICD_CPENDSGIR, 0, (a, b));
            let left = u64::from(sources) & !a;
            let other = held_silent && a != 0 && b != 0 && left != 0 && left & !b == 0;
            assert_eq!(cleared.is_same_state(), !other, "{flags} {sources} {a} {b}");
            others += u64::from(other);
            parted += u64::from(!cleared.is_same_wake());
        }
    }
    println!("an SGI: another state {others}, wake sets parted {parted}");
    assert!(others > 0 && parted > 0);
}

/// A false bit: SPI 32 is given for it until it is written, and with it goes what 33 would have been woken for. The least in vCPUs and SPIs,
/// by `every_record_of_one_spi`; but for the bit it is as demand 3 says.
#[test]
fn a_false_bit_parts_the_wake_sets() {
    let mut gic = controller(34);
    put(&mut gic, 33, PENDING);
    let told = case(&state(&gic), GICD_ISENABLER, 32, (1, 2)).both.wakes;
    assert_eq!(told, [0, 1]);
    gic.summary[0] = 1;
    let state = state(&gic);
    assert_eq!(state.kind, Kind::Any);
    let case = case(&state, GICD_ISENABLER, 32, (1, 2));
    assert_eq!(case.both.wakes, [0, 1]);
    assert_eq!(case.one.wakes, [0]); // it was given a number before
    assert!(case.is_same_state() && !case.is_same_wake());
}

/// A bit that is missing: nobody is offered SPI 32, which is ready, until its trigger is written.
#[test]
fn a_missing_bit_wakes_by_a_trigger() {
    let mut gic = controller(33);
    put(&mut gic, 32, ENABLED | PENDING);
    let state = state(&gic);
    assert_eq!(state.kind, Kind::Any);
    let case = case(&state, GICD_ICFGR, 32, (0, 0));
    assert_eq!(case.both.wakes, [1, 0]);
}

/// Sources and not pending: the first write pends it, and a held level SGI stays so.
#[test]
fn an_sgi_with_sources_that_is_not_pending() {
    let mut gic = controller(32);
    gic.sources[0] = 3;
    for (flags, is_same_state, is_same_wake) in [
        (ENABLED | LINE, false, false),
        (LINE, false, true),
        (ENABLED | EDGE, true, false),
        (EDGE, true, true),
        (ENABLED | LINE | PENDING, true, true),
    ] {
        put(&mut gic, 0, flags);
        let state = state(&gic);
        let sound = flags & PENDING != 0;
        assert_eq!(state.kind == Kind::Loose, sound);
        let case = case(&state, GICD_CPENDSGIR, 0, (1, 2));
        assert_eq!(case.is_same_state(), is_same_state, "{flags}");
        assert_eq!(case.is_same_wake(), is_same_wake, "{flags}");
    }
}

/// What these accepted lines lead to.
fn after(lines: &[&str]) -> State {
    let mut gic = None;
    for line in lines {
        let call = parse(line.as_bytes()).expect("a line of the runner");
        assert_eq!(run(&mut gic, call).refusal, 0, "{line}");
    }
    let gic = gic.expect("a setup");
    assert!(gic.is_lawful());
    State::new(Kind::Reached, gic)
}

/// Of two writes only the later counts for the state; but what the first silenced the second wakes, and what the first woke is told.
#[test]
fn the_later_write_wakes_otherwise() {
    let ready = ["n 1 33", "D 0 0 4 1", "C 0 0 4 1", "C 0 4 4 255"];
    let spi = ["D 0 260 4 1", "D 0 2080 1 1", "l 0 32 1"];
    let state = after(&[&ready[..], &spi].concat());
    for (register, off, on) in [
        (GICD_CTLR, 0, 1),
        (GICD_IPRIORITYR, 255, 0),
        (GICD_ITARGETSR, 0, 1),
    ] {
        let again = case(&state, register, 32, (off, on));
        assert_eq!(
            (&again.both.wakes[..], again.one.wakes[0]),
            (&[0, 1][..], 0)
        );
        let mut silent = State::new(Kind::Reached, state.gic.clone());
        let at = again.at;
        silent.gic.dist_write(at.vcpu, at.offset, at.width, off);
        let silent = State::new(Kind::Reached, silent.gic);
        let told = case(&silent, register, 32, (on, off));
        assert_eq!((&told.both.wakes[..], told.one.wakes[0]), (&[1, 0][..], 0));
    }
}

/// One SPI comes to a vCPU and another leaves it: told only if it left first.
#[test]
fn the_order_of_targets_shows_in_wake_sets() {
    let ready = ["n 1 34", "D 0 0 4 1", "C 0 0 4 1", "C 0 4 4 255"];
    let spis = ["D 0 260 4 3", "D 0 2080 1 1", "l 0 32 1", "l 0 33 1"];
    let state = after(&[&ready[..], &spis].concat());
    let target = |offset| Place {
        vcpu: 0,
        offset,
        width: 1,
    };
    let (leaves, comes) = ((target(0x820), 0), (target(0x821), 1));
    let (first, second) = (state.run(&[leaves, comes]), state.run(&[comes, leaves]));
    assert_eq!(first.states[1], second.states[1]);
    assert_eq!((first.wakes, second.wakes), (vec![0, 1], vec![0, 0]));
}
