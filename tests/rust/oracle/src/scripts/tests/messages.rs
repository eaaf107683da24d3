//! That messages come of every kind, in histories that have them.
use super::{Tally, watch_messages};
use crate::{
    GicV3Controller,
    machine::{Answer, Call},
    message_frame::{FrameAccess, SETSPI, TYPER},
    registers::{Bank, Interrupt},
};

#[test]
fn messages_of_every_kind_come() {
    let mut tally = Tally::default();
    let mut before: Option<GicV3Controller> = None;
    watch_messages(|line, answered, gic| {
        match answered {
            Some((Call::ReadMessageFrame(at), answer)) => note_read(&mut tally, &at, &answer),
            Some((Call::WriteMessageFrame(at, value), answer)) => {
                note_write(&mut tally, before.as_ref(), &at, value, &answer);
            }
            None if line.starts_with(b"m") => tally.note("a read of another form"),
            None if line.starts_with(b"M") => tally.note("a write of another form"),
            _ => {}
        }
        before = gic.cloned();
    });
    for (what, least) in [
        ("rings", 4000),
        ("rings one in flight", 1000),
        ("rings one that waits", 1000),
        ("rings one that is not enabled", 50),
        ("rings one that is held", 300),
        ("wakes", 150),
        ("wakes two at once", 5),
        ("rings by the low bits alone", 300),
        ("names none of the window", 800),
        ("is written elsewhere", 800),
        ("reads a window", 400),
        ("reads 0", 400),
        ("a read of another form", 20),
        ("a write of another form", 100),
    ] {
        tally.expect(what, least);
    }
    for (refusal, least) in [(1, 10), (2, 200), (6, 1), (11, 100)] {
        tally.expect(&format!("a read refused by {refusal}"), least);
        tally.expect(&format!("a write refused by {refusal}"), least);
    }
}

fn note_read(tally: &mut Tally, at: &FrameAccess, answer: &Answer) {
    tally.note(match answer.refusal {
        0 if at.offset == TYPER => "reads a window".into(),
        0 => "reads 0".into(),
        refusal => format!("a read refused by {refusal}"),
    });
}

fn note_write(
    tally: &mut Tally,
    before: Option<&GicV3Controller>,
    at: &FrameAccess,
    value: u64,
    answer: &Answer,
) {
    let number = value & 0xffff_ffff;
    if answer.refusal != 0 {
        tally.note(format!("a write refused by {}", answer.refusal));
    } else if at.offset != SETSPI {
        tally.note("is written elsewhere");
    } else if !at.window.contains(number) {
        tally.note("names none of the window");
    } else if let Some(gic) = before {
        let state = gic.state();
        let it = state.distributor.find(number as u32);
        note_ring(tally, it.expect("it is below the limit"), answer);
        if value != number {
            tally.note("rings by the low bits alone");
        }
    }
}

/// What a message meets, and whom it wakes.
fn note_ring(tally: &mut Tally, it: &Interrupt, answer: &Answer) {
    let parts = crate::access::parts(&it.record);
    tally.note("rings");
    for (what, is_so) in [
        ("rings one in flight", parts.inflight),
        ("rings one that waits", parts.pending),
        ("rings one that is not enabled", !parts.enabled),
        ("rings one that is held", parts.line_asserted),
        ("wakes", answer.wake != 0),
        ("wakes two at once", answer.wake.count_ones() > 1),
    ] {
        if is_so {
            tally.note(what);
        }
    }
}
