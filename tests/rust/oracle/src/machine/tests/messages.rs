//! Request Seven's frame: what `tests/lists/messages.list` has not, since no script from setup shows it, or since it takes every number there is.
use super::{answer, changed, with_depth};
use crate::{
    AccessWidth, GicV3Controller, GicVcpuId, IntId, Priority, TriggerMode, VgicError, access,
    lines,
    machine::{Answer, Call, Machine, perform, settle},
    message_frame::{FrameAccess, SETSPI, TYPER, Window},
    registers::Bank,
};
use types::Parts;

const WINDOWS: [(u64, u64); 16] = [
    (33, 0),
    (0, 0),
    (31, 1),
    (31, 2),
    (31, 9),
    (0, 40),
    (32, 9),
    (39, 2),
    (40, 1),
    (1 << 32 | 33, 1),
    (33, 1 << 32 | 1),
    (33, u64::MAX - 32), // their sum is 2^64
    (33, u64::MAX),
    (u64::MAX, 1),
    (u64::MAX, 35),
    (u64::MAX, u64::MAX),
];

fn at((first, count): (u64, u64), offset: u64, width: AccessWidth) -> FrameAccess {
    FrameAccess {
        window: Window { first, count },
        offset,
        width,
    }
}

/// What a read and a write of 33 there are refused by; the oracle watches itself that neither changes anything then.
fn refused(machine: &mut Machine, at: FrameAccess) -> [u8; 2] {
    let calls = [Call::ReadMessageFrame(at), Call::WriteMessageFrame(at, 33)];
    calls.map(|call| {
        let answer = machine.call(&call).unwrap();
        assert_eq!(answer, Answer::refused(answer.refusal), "{call}");
        answer.refusal
    })
}

#[test]
fn a_window_that_breaks_the_limits_is_refused_wherever_the_access_is() {
    let mut machine = changed(|_| {});
    for window in WINDOWS {
        for offset in [0, 1, 7, TYPER, SETSPI, SETSPI + 2, 0xfff, 0x1000, u64::MAX] {
            for width in AccessWidth::ALL {
                let at = at(window, offset, width);
                assert_eq!(refused(&mut machine, at), [11, 11], "{at}");
                assert_eq!(refused(&mut Machine::default(), at), [6, 6], "{at}");
            }
        }
    }
}

#[test]
fn every_window_of_a_few_spis() {
    let mut machine = changed(|_| {});
    for first in 0..50 {
        for count in 0..50 {
            let window = Window { first, count };
            let numbers: Vec<u64> = (first..first + count).collect();
            let lies = !numbers.is_empty() && numbers.iter().all(|it| (32..40).contains(it));
            assert_eq!(window.lies_below(40), lies, "{window:?}");
            for number in 0..100 {
                let inside = numbers.contains(&number);
                assert_eq!(window.contains(number), inside, "{window:?} {number}");
            }
            let read = Call::ReadMessageFrame(at((first, count), TYPER, AccessWidth::Dword));
            let expected = Answer {
                value: first * 65536 + count,
                ..Answer::OK
            };
            let expected = if lies { expected } else { Answer::refused(11) };
            assert_eq!(machine.call(&read).unwrap(), expected, "{window:?}");
        }
    }
}

#[test]
fn every_place_at_every_width() {
    let mut machine = changed(|_| {});
    for offset in (0..0x1010).chain(u64::MAX - 16..=u64::MAX) {
        for width in AccessWidth::ALL {
            let (size, at) = (width.size() as u64, at((33, 1), offset, width));
            let end = offset.checked_add(size).filter(|end| *end <= 0x1000);
            let register = offset == TYPER || offset == SETSPI;
            let by = match end {
                Some(_) if offset % size == 0 => {
                    2 * u8::from(register && width != AccessWidth::Dword)
                }
                _ => 1,
            };
            if by != 0 {
                assert_eq!(refused(&mut machine, at), [by, by], "{at}");
                continue;
            }
            let read = machine.call(&Call::ReadMessageFrame(at)).unwrap();
            let value = if offset == TYPER { 33 << 16 | 1 } else { 0 };
            assert_eq!((read.refusal, read.value), (0, value), "{at}");
            let rang = rings(&at);
            assert_eq!(rang, offset == SETSPI, "{at}");
        }
    }
}

/// Whether a write of 33 there changes anything, in a fresh controller.
fn rings(at: &FrameAccess) -> bool {
    let mut machine = changed(|_| {});
    let before = machine.controller().unwrap().clone();
    let answer = machine.call(&Call::WriteMessageFrame(*at, 33)).unwrap();
    assert_eq!(answer, Answer::OK, "{at}");
    *machine.controller().unwrap().state() != *before.state()
}

/// Every value of 16 bits, and each of these with each higher bit of the 32 and of the 64: the number is 32 bits.
#[test]
fn all_32_bits_are_the_number() {
    let fresh = GicV3Controller::new(1, 1020);
    let at = at((100, 900), SETSPI, AccessWidth::Dword);
    for low in (0..1 << 16).filter(|low| low % 64 == 36 || *low < 1100) {
        for above in (16..64).map(|bit| 1 << bit).chain([0]) {
            let gic = fresh.clone();
            perform(&gic, &Call::WriteMessageFrame(at, low | above)).unwrap();
            let number = (low | above) & 0xffff_ffff;
            let rung = (100..1000).contains(&number).then_some(number as u32);
            let pending = gic
                .state()
                .distributor
                .spis
                .iter()
                .position(|it| it.record.pending());
            assert_eq!(
                pending.map(|index| 32 + index as u32),
                rung,
                "{low} {above}"
            );
        }
    }
}

/// As a pulse, whatever the record's flags are, and its bit is set anew.
#[test]
fn a_message_is_a_pulse_of_any_record() {
    for bits in 0..1 << 9 {
        let set = |place: u32| bits >> place & 1 == 1;
        let machine = || {
            changed(|state| {
                state.distributor.spis[1].record = access::make(&Parts {
                    intid: IntId::new(33).unwrap(),
                    enabled: set(0),
                    pending: set(1),
                    active: set(2),
                    inflight: set(3),
                    redelivery_pending: set(4),
                    line_asserted: set(5),
                    priority: Priority(7),
                    trigger: if set(6) {
                        TriggerMode::Edge
                    } else {
                        TriggerMode::Level
                    },
                    cpu_target_mask: Some(1),
                });
                state.distributor.spis[1].owner = set(7).then(|| GicVcpuId::new(0));
                state.distributor.summary[0] = 0xa5a5_a590 | u32::from(set(8)) << 1;
            })
        };
        let (mut rung, mut pulsed) = (machine(), machine());
        let message = answer(&mut rung, "M 32 8 64 4 33");
        assert_eq!(message, answer(&mut pulsed, "p 0 33"), "{bits:#b}");
        let (rung, pulsed) = (rung.controller().unwrap(), pulsed.controller().unwrap());
        assert!(*rung.state() == *pulsed.state(), "{bits:#b}");
        let (state, ready) = (rung.state(), set(0) && !set(2));
        assert!(state.distributor.find(33).unwrap().record.pending());
        let summary = 0xa5a5_a590 | u32::from(ready) << 1;
        assert_eq!(state.distributor.summary[0], summary, "{bits:#b}");
    }
}

/// While IAR would be refused by 7 it gives no number, so a message wakes nobody; its SPI waits.
#[test]
fn a_message_to_a_full_stack() {
    for (depth, woken) in [(128, 0), (127, 1)] {
        let mut machine = with_depth(depth);
        for line in ["C 0 4 4 128", "D 0 1025 1 200", "D 0 1057 1 16"] {
            answer(&mut machine, line); // SGI 1 is no candidate any more, and SPI 33 will be one
        }
        answer(&mut machine, "D 0 2081 1 1");
        answer(&mut machine, "D 0 260 4 2");
        let message = answer(&mut machine, "M 33 1 64 4 33");
        assert_eq!(message, format!("0 0 {woken} 1023"), "{depth}");
        assert_eq!(answer(&mut machine, "c 0 24 4"), "0 33 0 1023", "{depth}");
    }
}

#[test]
fn a_message_that_must_not_change_the_state_and_has_is_a_fault() {
    let before = GicV3Controller::new(1, 40);
    let (same, after) = (before.clone(), before.clone());
    let parse = |line: &str| lines::parse_with_messages(line.as_bytes()).unwrap();
    perform(&after, &parse("M 33 1 64 4 33")).unwrap();
    let settled = |line, outcome, now| settle(&parse(line), outcome, &before, now);
    let refused = || Err(VgicError::NoWindow(33, 0));
    assert!(settled("M 33 0 64 4 33", refused(), &after).is_err());
    assert!(settled("m 33 1 64 4", Ok(0), &after).is_err());
    assert!(settled("m 33 1 8 4", Ok(0), &after).is_err());
    assert!(settled("m 33 0 8 4", refused(), &after).is_err());
    assert!(settled("M 33 1 64 4 33", Ok(0), &after).is_ok());
    assert_eq!(
        settled("M 33 0 64 4 33", refused(), &same).unwrap().refusal,
        11
    );
    assert!(settled("m 33 1 8 4", Ok(0), &same).is_ok());
}

#[test]
fn messages_are_lines_of_another_form_where_they_are_not_asked_for() {
    for line in ["m 33 1 8 4", "M 33 1 64 4 33"] {
        let call = lines::parse_with_messages(line.as_bytes()).expect("a call");
        assert_eq!(call.to_string(), line);
        assert_eq!(lines::parse(line.as_bytes()), None);
    }
    for line in [
        "m",
        "m 33 1 8",
        "m 33 1 8 4 0",
        "m 33 1 8 3",
        "m 33 1 8 0",
        "m 33 1 8 4 ",
        "M 33 1 64 4",
        "M 33 1 64 4 33 0",
        "M 33 1 64 16 33",
        "M 33 1 64 4 18446744073709551616",
        "mm 33 1 8 4",
        "M 33 1 64 +4 33",
    ] {
        assert_eq!(lines::parse_with_messages(line.as_bytes()), None, "{line}");
    }
    let most = u64::MAX;
    let long = format!("M {most} {most} {most} 4 0");
    assert!(long.len() <= 80 && lines::parse_with_messages(long.as_bytes()).is_some());
    let longer = format!("M {most} {most} {most} 4 {most}");
    assert!(longer.len() > 80 && lines::parse_with_messages(longer.as_bytes()).is_none());
}
