//! Request Five where the bits of the summary are false, which no history leads to: answers follow the bits, and each transition that is called
//! on a record sets its own anew.
use super::{answer, changed};
use crate::{
    GicVcpuId, IntId, Priority, TriggerMode, access,
    machine::{Input, Machine},
    registers::Bank,
};
use types::Parts;

/// Enabled, pending, active, in flight: every way in which SPI 33 may be, aimed at the vCPU, and its bit either way.
fn every_way(mut see: impl FnMut(&str, [bool; 4], bool, Machine)) {
    for bits in 0..32 {
        let set = |place: u32| bits >> place & 1 == 1;
        let flags = [0, 1, 2, 3].map(set);
        let machine = with(flags, u32::from(set(4)) << 1);
        see(&format!("{flags:?} {}", set(4)), flags, set(4), machine);
    }
}

/// SPI 33, in flight at the vCPU if it is in flight, and these words of the summary.
fn with([enabled, pending, active, inflight]: [bool; 4], summary: u32) -> Machine {
    changed(|state| {
        let it = &mut state.distributor.spis[1];
        it.record = access::make(&Parts {
            intid: IntId::new(33).unwrap(),
            enabled,
            pending,
            active,
            inflight,
            redelivery_pending: false,
            line_asserted: false,
            priority: Priority(7),
            trigger: TriggerMode::Edge,
            cpu_target_mask: Some(1),
        });
        it.owner = inflight.then(|| GicVcpuId::new(0));
        state.distributor.summary[0] = summary;
    })
}

fn summary(machine: &Machine) -> u32 {
    machine.controller().unwrap().state().distributor.summary[0]
}

/// Whether its bit is as its record has it.
fn is_exact(machine: &Machine) -> bool {
    let state = machine.controller().unwrap().state();
    let ready = state.distributor.find(33).unwrap().ready();
    ready == (state.distributor.summary[0] >> 1 & 1 == 1)
}

const READY: [bool; 4] = [true, true, false, false];
const IDLE: [bool; 4] = [false; 4];

#[test]
fn selection_follows_the_bit_and_registers_the_record() {
    every_way(|shown, [_, pending, _, _], bit, mut machine| {
        let given = if bit { "0 33 0 1023" } else { "0 1023 0 1023" };
        assert_eq!(machine.irq_level(0).value, u64::from(bit), "{shown}");
        let read = format!("0 {} 0 1023", u32::from(pending) << 1);
        assert_eq!(answer(&mut machine, "d 0 516 4"), read, "{shown}");
        for line in ["c 0 24 4", "c 0 12 4"] {
            assert_eq!(answer(&mut machine, line), given, "{line} {shown}");
        }
    });
}

#[test]
fn mask_and_priority_are_the_records() {
    // SPI 34, fresh, is more urgent and sent to nobody: its bit alone makes it no candidate.
    let mut machine = with(IDLE, 0b110);
    for (line, best) in [("C 0 4 4 8", "0 33 0 1023"), ("C 0 4 4 7", "0 1023 0 1023")] {
        answer(&mut machine, line);
        assert_eq!(answer(&mut machine, "c 0 24 4"), best, "{line}");
    }
}

#[test]
fn what_a_false_bit_gives_is_served_as_any_other() {
    every_way(|shown, flags, bit, mut machine| {
        if bit {
            answer(&mut machine, "c 0 12 4");
            assert_eq!(summary(&machine), 0, "{shown}");
            let input = Input {
                vcpu: 0,
                number: 33,
            };
            let served = 1 << 24 | 1 << 16 | 7 << 8 | 0b1100_1100 | u64::from(flags[0]);
            assert_eq!(machine.interrupt(input).value, served, "{shown}");
            assert_eq!(answer(&mut machine, "C 0 16 4 33"), "0 0 0 33", "{shown}");
            assert!(is_exact(&machine), "{shown}");
        }
    });
}

/// Of SPI 33; most leave its record as it was in one way or another.
const CALLS: [&str; 12] = [
    "D 0 260 4 2",
    "D 0 388 4 2",
    "D 0 516 4 2",
    "D 0 644 4 2",
    "D 0 772 4 2",
    "D 0 900 4 2",
    "D 0 1057 1 7",
    "D 0 2081 1 1",
    "l 0 33 1",
    "l 0 33 0",
    "p 0 33",
    "D 0 1056 4 117901063",
];

#[test]
fn each_transition_sets_its_own_bit_anew() {
    every_way(|shown, flags, bit, _| {
        for line in CALLS {
            // SPIs 36 and 39 are not ready, and from 40 up there are none: these bits are false, or nothing's.
            let others = 0xa5a5_a590;
            let mut machine = with(flags, others | u32::from(bit) << 1);
            answer(&mut machine, line);
            assert!(is_exact(&machine), "{line} {shown}");
            assert_eq!(summary(&machine) & !0b10, others, "{line} {shown}");
        }
    });
}

#[test]
fn a_write_of_triggers_calls_one_of_every_spi() {
    every_way(|shown, flags, bit, _| {
        let mut machine = with(flags, 0xffff_fffd | u32::from(bit) << 1);
        answer(&mut machine, "D 0 3080 4 0");
        assert!(is_exact(&machine), "{shown}");
        assert_eq!(summary(&machine) & !0b10, 0xffff_ff00, "{shown}");
    });
}

#[test]
fn where_no_transition_is_called_the_bit_stays() {
    every_way(|shown, flags, bit, _| {
        for line in [
            "D 0 132 4 4294967295", // IGROUPR
            "D 0 260 4 0",
            "D 0 388 4 4294967293",
            "D 0 1058 1 9",
            "D 0 2082 1 1",
            "D 0 0 4 1",
            "C 0 4 4 200",
            "C 0 8 4 3",
            "C 0 16 4 33", // not on the stack
            "d 0 260 4",
            "c 0 24 4",
            "p 0 34",
        ] {
            let mut machine = with(flags, u32::from(bit) << 1);
            answer(&mut machine, line);
            let own = summary(&machine) & 0b10;
            assert_eq!(own, u32::from(bit) << 1, "{line} {shown}");
        }
    });
}

#[test]
fn a_deactivation_sets_the_bit_of_what_it_deactivates() {
    every_way(|shown, flags @ [_, _, active, inflight], bit, _| {
        for elsewhere in [false, true] {
            let mut machine = with(flags, u32::from(bit) << 1);
            if elsewhere {
                let mut state = machine.controller().unwrap().state();
                state.distributor.spis[1].owner = Some(GicVcpuId::new(1));
            }
            answer(&mut machine, "C 0 4096 4 33");
            if inflight && !elsewhere || active && !inflight {
                assert!(is_exact(&machine), "{shown} {elsewhere}");
            } else {
                assert_eq!(
                    summary(&machine) >> 1,
                    u32::from(bit),
                    "{shown} {elsewhere}"
                );
            }
        }
    });
}

#[test]
fn a_bit_from_the_limit_up_is_no_candidate() {
    let mut machine = with(IDLE, 0xffff_ff00);
    assert_eq!(machine.irq_level(0).value, 0);
    for line in ["c 0 24 4", "c 0 12 4"] {
        assert_eq!(answer(&mut machine, line), "0 1023 0 1023");
    }
    let mut machine = with(READY, 0xffff_ff02);
    assert_eq!(answer(&mut machine, "c 0 12 4"), "0 33 0 1023");
    assert_eq!(summary(&machine), 0xffff_ff00);
}

/// Whom a call wakes is told by the bits before it and after it.
#[test]
fn wake_sets_follow_the_bits() {
    // Ready, and passed over until it is written; then it wakes, though its record is as it was.
    let mut machine = with(READY, 0);
    for (line, answered) in [
        ("c 0 12 4", "0 1023 0 1023"),
        ("C 0 4 4 254", "0 0 0 1023"),
        ("D 0 260 4 2", "0 0 1 1023"),
        ("c 0 12 4", "0 33 0 1023"),
    ] {
        assert_eq!(answer(&mut machine, line), answered, "{line}");
    }
    // Not ready, and a candidate: what makes it ready wakes nobody, and what makes its bit right takes it back.
    let mut machine = with(IDLE, 0b10);
    for (line, answered) in [
        ("C 0 4 4 0", "0 0 0 1023"),
        ("C 0 4 4 255", "0 0 1 1023"),
        ("D 0 1057 1 7", "0 0 0 1023"),
        ("c 0 24 4", "0 1023 0 1023"),
        ("p 0 33", "0 0 0 1023"),
        ("D 0 260 4 2", "0 0 1 1023"),
    ] {
        assert_eq!(answer(&mut machine, line), answered, "{line}");
    }
}
