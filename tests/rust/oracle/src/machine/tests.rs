//! What no script from setup can show: the full stack, states that no history reaches, and the oracle's check of itself.
use super::*;
use crate::{
    IntId, Priority, SgiId, TriggerMode, access, controller::state::State, lines,
    redistributor::RedistributorState, registers::Bank,
};
use types::Parts;

mod messages;
mod summary;

/// One vCPU, SPIs 32 to 39, everything on; then `change` does to the state what no call would.
fn changed(change: impl FnOnce(&mut State)) -> Machine {
    let mut machine = Machine::default();
    for line in ["n 1 40", "D 0 0 4 1", "C 0 0 4 1", "C 0 4 4 255"] {
        answer(&mut machine, line);
    }
    change(&mut machine.controller().unwrap().state());
    machine
}

fn own(state: &mut State) -> &mut RedistributorState {
    &mut state.redistributors[0].1
}

/// SGI 1 pending from oneself, and so many entries of SGI 5 at priority 128 on the stack.
fn with_depth(depth: usize) -> Machine {
    changed(|state| {
        let sgi = SgiId::new(1).unwrap();
        own(state).pend_sgi(GicVcpuId::new(0), sgi);
        for _ in 0..depth {
            let cpu = own(state).cpu_interface_mut();
            cpu.push_v2_active(IntId::new(5).unwrap(), Priority(128));
        }
    })
}

fn answer(machine: &mut Machine, line: &str) -> String {
    lines::answer(machine, lines::parse_with_messages(line.as_bytes())).unwrap()
}

#[test]
fn a_full_stack_refuses_an_acknowledge_by_7() {
    let mut machine = with_depth(128);
    assert_eq!(answer(&mut machine, "c 0 12 4"), "7 0 0 1023");
    assert_eq!(answer(&mut machine, "c 0 24 4"), "0 1 0 1023");
    let mut machine = with_depth(127);
    assert_eq!(answer(&mut machine, "c 0 12 4"), "0 1 0 1023");
}

#[test]
fn an_acknowledge_that_7_refuses_gave_no_1023() {
    // The pop makes room, so IAR gives 1 after it; before it was refused, which is not 1023.
    let mut machine = with_depth(128);
    assert_eq!(answer(&mut machine, "C 0 16 4 5"), "0 0 0 1023");
    assert_eq!(answer(&mut machine, "c 0 12 4"), "0 1 0 1023");
    // And while it would be refused it gives no number: nobody wakes.
    let mut machine = with_depth(128);
    assert_eq!(answer(&mut machine, "C 0 4 4 0"), "0 0 0 1023");
    assert_eq!(answer(&mut machine, "C 0 4 4 255"), "0 0 0 1023");
}

#[test]
fn a_line_is_up_where_iar_would_give_a_number() {
    let shown = |answer: Answer| answer.to_string();
    let mut machine = with_depth(127);
    assert_eq!(shown(machine.irq_level(0)), "0 1 0 1023");
    for vcpu in [1, 8, 1 << 32, u64::MAX] {
        assert_eq!(shown(machine.irq_level(vcpu)), "3 0 0 1023");
    }
    assert_eq!(answer(&mut machine, "D 0 0 4 0"), "0 0 0 1023");
    assert_eq!(shown(machine.irq_level(0)), "0 0 0 1023");
    assert_eq!(shown(machine.irq_level(1)), "3 0 0 1023"); // where IAR looks nobody up
    assert_eq!(shown(with_depth(128).irq_level(0)), "0 0 0 1023");
    assert_eq!(shown(Machine::default().irq_level(0)), "6 0 0 1023");
}

#[test]
fn a_record_is_shown_as_its_word() {
    let mut machine = with_depth(0);
    answer(&mut machine, "D 0 2081 1 1");
    let shown = |vcpu, number| machine.interrupt(Input { vcpu, number }).to_string();
    assert_eq!(shown(0, 1), "0 67 0 1023");
    assert_eq!(shown(9, 33), "0 65664 0 1023");
    for number in [40, 1019, (1 << 32) + 33, u64::MAX] {
        assert_eq!(shown(9, number), "0 0 0 1023");
    }
    for vcpu in [1, (1 << 32), u64::MAX] {
        assert_eq!(shown(vcpu, 31), "3 0 0 1023");
    }
    let none = Machine::default().interrupt(Input { vcpu: 0, number: 1 });
    assert_eq!(none, Answer::refused(6));
}

#[test]
fn an_sgi_pending_without_a_source_answers_source_0() {
    let pending = |state: &mut State| own(state).private[3].record.set_pending(true);
    let mut machine = changed(pending);
    assert_eq!(answer(&mut machine, "c 0 12 4"), "0 3 0 1023");
    assert_eq!(answer(&mut machine, "d 0 3856 4"), "0 0 0 1023");
    // A zero byte leaves it as it is, and one that clears nothing does not.
    for (line, left) in [
        ("D 0 3859 1 0", "0 8 0 1023"),
        ("D 0 3875 1 0", "0 8 0 1023"),
        ("D 0 3859 1 1", "0 0 0 1023"),
    ] {
        let mut machine = changed(pending);
        answer(&mut machine, line);
        assert_eq!(answer(&mut machine, "d 0 512 4"), left, "{line}");
    }
}

/// SGIs pend by their sources, and their lines are low: "whoever else clears pending" shows only where the state is not lawful.
#[test]
fn a_held_level_sgi_stays_pending_without_a_source() {
    for (edge, line, left) in [(false, true, 8), (false, false, 0), (true, true, 0)] {
        let mut machine = changed(|state| {
            let sgi = SgiId::new(3).unwrap();
            own(state).pend_sgi(GicVcpuId::new(0), sgi);
            let record = &mut own(state).private[3].record;
            if !edge {
                record.set_trigger(TriggerMode::Level);
            }
            if line {
                record.set_level(true);
            }
        });
        answer(&mut machine, "D 0 3859 1 1");
        assert_eq!(answer(&mut machine, "d 0 3856 4"), "0 0 0 1023");
        assert_eq!(
            answer(&mut machine, "d 0 512 4"),
            format!("0 {left} 0 1023")
        );
    }
}

/// The note goes, pending goes but from a held level, and nothing else changes, whatever the flags are.
#[test]
fn pending_is_cleared_as_request_four_says() {
    let number = IntId::new(33).unwrap();
    for bits in 0..128 {
        let set = |place: u32| bits >> place & 1 == 1;
        let before = Parts {
            intid: number,
            enabled: set(0),
            pending: set(1),
            active: set(2),
            inflight: set(3),
            redelivery_pending: set(4),
            line_asserted: set(5),
            priority: Priority(7),
            trigger: if set(6) {
                TriggerMode::Edge
            } else {
                TriggerMode::Level
            },
            cpu_target_mask: Some(1),
        };
        let machine = changed(|state| {
            state.distributor.spis[1].record = access::make(&before);
        });
        perform(
            machine.controller().unwrap(),
            &lines::parse(b"D 0 644 4 2").unwrap(),
        )
        .unwrap();
        let state = machine.controller().unwrap().state();
        let held = set(5) && !set(6);
        let expected = Parts {
            pending: held && set(1),
            redelivery_pending: false,
            ..before
        };
        let after = access::parts(&state.distributor.find(33).unwrap().record);
        assert_eq!(after, expected);
    }
}

#[test]
fn in_flight_but_not_active_is_acknowledged_again() {
    let mut machine = changed(|state| {
        let it = &mut own(state).private[20];
        it.record.set_enabled(true);
        it.record.set_pending(true);
        it.record.mark_inflight();
        it.owner = None;
    });
    assert_eq!(answer(&mut machine, "c 0 12 4"), "0 20 0 1023");
    assert_eq!(answer(&mut machine, "C 0 16 4 20"), "0 0 0 20");
}

#[test]
fn clearing_active_leaves_the_owner_of_one_not_in_flight() {
    let stray = Some(GicVcpuId::new(0));
    let mut machine = changed(|state| state.distributor.spis[1].owner = stray);
    answer(&mut machine, "D 0 900 4 2");
    let state = machine.controller().unwrap().state();
    assert_eq!(state.distributor.find(33).unwrap().owner, stray);
}

#[test]
fn ending_a_number_from_the_limit_up_pops_it_and_no_more() {
    let mut machine = changed(|state| {
        let number = IntId::new(1019).unwrap();
        own(state)
            .cpu_interface_mut()
            .push_v2_active(number, Priority(7));
    });
    assert_eq!(answer(&mut machine, "c 0 20 4"), "0 7 0 1023");
    assert_eq!(answer(&mut machine, "C 0 16 4 1019"), "0 0 0 1023");
    assert_eq!(answer(&mut machine, "c 0 20 4"), "0 255 0 1023");
}

/// SGI 1 pending at this priority, and one entry with this one on the stack; a read of IAR with this binary point, and RPR after it.
fn taken_above(entry: u8, priority: u8, binary_point: u8) -> [String; 2] {
    let mut machine = changed(|state| {
        let cpu = own(state).cpu_interface_mut();
        cpu.push_v2_active(IntId::new(5).unwrap(), Priority(entry));
        cpu.set_v2_binary_point(binary_point);
    });
    for line in [format!("D 0 1025 1 {priority}"), "D 0 3873 1 1".into()] {
        answer(&mut machine, &line);
    }
    ["c 0 12 4", "c 0 20 4"].map(|line| answer(&mut machine, line))
}

#[test]
fn an_odd_entry_is_compared_and_shown_as_it_is_stored() {
    let (given, none) = ("0 1 0 1023", "0 1023 0 1023");
    for (entry, priority, binary_point, iar, rpr) in [
        (7, 8, 0, none, "0 7 0 1023"),
        (7, 7, 0, given, "0 6 0 1023"), // its group is 6
        (7, 6, 0, given, "0 6 0 1023"),
        (7, 9, 2, none, "0 7 0 1023"),
        (7, 7, 2, given, "0 0 0 1023"),
        (1, 254, 7, given, "0 0 0 1023"),
        (0, 254, 7, none, "0 0 0 1023"),
        (255, 254, 0, given, "0 254 0 1023"),
    ] {
        let shown = taken_above(entry, priority, binary_point);
        assert_eq!(shown, [iar, rpr], "{entry} {priority} {binary_point}");
    }
}

#[test]
fn what_must_not_change_the_state_and_has_is_a_fault() {
    let before = GicV3Controller::new(1, 32);
    let (same, after) = (before.clone(), before.clone());
    let write = lines::parse(b"D 0 0 4 1").unwrap();
    perform(&after, &write).unwrap();
    let settled = |line: &str, outcome, now| {
        settle(
            &lines::parse(line.as_bytes()).unwrap(),
            outcome,
            &before,
            now,
        )
    };
    let refused = || Err(VgicError::Width);
    assert!(settled("D 0 0 4 1", refused(), &after).is_err());
    assert!(settled("d 0 0 4", Ok(0), &after).is_err());
    assert!(settled("c 0 24 4", Ok(0), &after).is_err());
    assert!(settled("c 0 12 4", Ok(1023), &after).is_err());
    assert!(settled("D 0 0 4 1", Ok(0), &after).is_ok());
    assert!(settled("c 0 12 4", Ok(0), &after).is_ok());
    assert!(settled("d 0 0 1", refused(), &same).is_ok());
    assert!(settled("d 0 0 4", Ok(0), &same).is_ok());
    assert!(settled("c 0 12 4", Ok(1023), &same).is_ok());
}
