//! Request Four: pending is cleared while a line is held. The answers are worked out from its text.
use super::*;
use crate::{IntId, Priority, TriggerMode, lines::answer_line, record::access};
use types::Parts;

/// As `controller`, with 2 vCPUs; every PPI is enabled, and all from 16 up are level.
fn level_controller() -> Gic {
    let mut gic = controller(2, 40);
    for v in 0..2 {
        gic.dist_write(v, 0x100, 4, 0xFFFF_0000);
    }
    set_edge(&mut gic, false);
    gic
}

/// The SPIs' trigger.
fn set_edge(gic: &mut Gic, edge: bool) {
    gic.dist_write(0, 0xC08, 4, if edge { 0xAAAA_AAAA } else { 0 });
}

/// Gives the wake set.
fn line(gic: &mut Gic, v: u64, id: u64, high: bool) -> u64 {
    gic.input(v, id, Some(high)).wake
}

/// Writes this interrupt's bit to the register of that offset; gives the wake set.
fn write_bit(gic: &mut Gic, register: u64, v: u64, id: u64) -> u64 {
    let answer = gic.dist_write(v, register + id / 32 * 4, 4, 1 << (id % 32));
    assert_eq!(answer.refusal, 0);
    answer.wake
}

fn pend_by_register(gic: &mut Gic, v: u64, id: u64) {
    write_bit(gic, 0x200, v, id);
}

/// Writes ICPENDR, which wakes nobody.
fn clear(gic: &mut Gic, v: u64, id: u64) {
    assert_eq!(write_bit(gic, 0x280, v, id), 0);
}

/// By both registers, which read the same.
fn is_pending(gic: &Gic, v: u64, id: u64) -> bool {
    let words = [0x200, 0x280].map(|register| gic.dist_read(v, register + id / 32 * 4, 4).value);
    assert_eq!(words[0], words[1]);
    words[0] >> (id % 32) & 1 == 1
}

fn parts(gic: &Gic, v: u64, id: u64) -> Parts {
    gic.records[gic.slot(v, id)].parts()
}

/// Pending, and noted for redelivery.
fn pending_and_noted(gic: &Gic, v: u64, id: u64) -> (bool, bool) {
    let parts = parts(gic, v, id);
    (parts.pending, parts.redelivery_pending)
}

/// The request's driver: the ring is given for as long as the device holds its line, however often pending is cleared.
#[test]
fn the_driver_clears_as_often_as_it_likes() {
    let mut state = None;
    for row in [
        "n 1 40: 0 0 0 1023",
        "D 0 0 4 1: 0 0 0 1023",
        "C 0 0 4 1: 0 0 0 1023",
        "C 0 4 4 255: 0 0 0 1023",
        "D 0 2081 1 1: 0 0 0 1023", // SPI 33 to vCPU 0
        "D 0 260 4 2: 0 0 0 1023",
        "l 0 33 1: 0 0 1 1023",
        "D 0 644 4 2: 0 0 0 1023", // ICPENDR
        "D 0 644 4 4294967295: 0 0 0 1023",
        "d 0 644 4: 0 2 0 1023",
        "D 0 644 4 2: 0 0 0 1023",
        "c 0 24 4: 0 33 0 1023",
        "c 0 12 4: 0 33 0 1023",
        "d 0 644 4: 0 0 0 1023",
        "D 0 644 4 2: 0 0 0 1023", // in service
        "d 0 644 4: 0 0 0 1023",
        "c 0 12 4: 0 1023 0 1023",
        "C 0 16 4 33: 0 0 1 33", // EOIR
        "d 0 644 4: 0 2 0 1023",
        "D 0 644 4 2: 0 0 0 1023",
        "d 0 516 4: 0 2 0 1023",
        "c 0 12 4: 0 33 0 1023",
        "l 0 33 0: 0 0 0 1023", // the ring is empty
        "C 0 16 4 33: 0 0 0 33",
        "d 0 644 4: 0 0 0 1023",
        "c 0 12 4: 0 1023 0 1023",
    ] {
        let (line, expected) = row.split_once(": ").unwrap();
        let mut answer = vec![];
        answer_line(&mut state, line.as_bytes(), &mut answer);
        assert_eq!(answer, format!("{expected}\n").as_bytes(), "{row}");
    }
}

#[test]
fn held_spis_stay() {
    for id in 32..40 {
        let mut gic = level_controller();
        assert_eq!(line(&mut gic, 0, id, true), 3);
        let before = words::write(&gic);
        for v in [0, 1, 7] {
            clear(&mut gic, v, id); // a shared register: any vCPU
            assert_eq!(words::write(&gic), before);
        }
        assert!(is_pending(&gic, 0, id) && gic.irq_level(0) && gic.irq_level(1));
        assert_eq!((hppir(&mut gic, 1), iar(&mut gic, 1)), (id, id));
        assert_eq!(refusal_of_save(&gic), 0);
    }
}

/// Each vCPU's by its own line.
#[test]
fn held_ppis_stay() {
    for id in 16..32 {
        let mut gic = level_controller();
        assert_eq!(line(&mut gic, 1, id, true), 2);
        pend_by_register(&mut gic, 0, id);
        clear(&mut gic, 0, id);
        clear(&mut gic, 1, id);
        assert!(!is_pending(&gic, 0, id) && is_pending(&gic, 1, id));
        assert_eq!((iar(&mut gic, 0), iar(&mut gic, 1)), (1023, id));
        assert_eq!(end(&mut gic, 1, id), 2);
    }
}

#[test]
fn one_that_is_disabled_stays() {
    let mut gic = level_controller();
    write_bit(&mut gic, 0x180, 0, 32);
    assert_eq!(line(&mut gic, 0, 32, true), 0);
    clear(&mut gic, 0, 32);
    assert!(is_pending(&gic, 0, 32));
    assert_eq!(write_bit(&mut gic, 0x100, 0, 32), 3);
}

/// An acknowledge takes the pending bit as ever, and clearing does not bring it back.
#[test]
fn one_in_service_stays_not_pending() {
    for id in [20, 32] {
        let mut gic = level_controller();
        line(&mut gic, 0, id, true);
        assert_eq!(iar(&mut gic, 0), id);
        let before = words::write(&gic);
        clear(&mut gic, 0, id);
        assert_eq!(words::write(&gic), before);
        let parts = parts(&gic, 0, id);
        assert!(parts.active && parts.line_asserted && !parts.pending);
        assert_eq!((hppir(&mut gic, 0), iar(&mut gic, 0)), (1023, 1023));
        assert_eq!(end(&mut gic, 0, id), if id < 32 { 1 } else { 3 });
        assert!(is_pending(&gic, 0, id));
    }
}

/// ICACTIVER takes it out of service, and does not pend it.
#[test]
fn an_idle_one_stays_not_pending() {
    let mut gic = level_controller();
    line(&mut gic, 0, 32, true);
    assert_eq!(iar(&mut gic, 0), 32);
    write_bit(&mut gic, 0x380, 0, 32);
    end(&mut gic, 0, 32);
    clear(&mut gic, 0, 32);
    let parts = parts(&gic, 0, 32);
    assert!(parts.line_asserted && !parts.active && !parts.pending);
    assert_eq!(iar(&mut gic, 0), 1023);
    pend_by_register(&mut gic, 0, 32);
    clear(&mut gic, 0, 32);
    assert_eq!(iar(&mut gic, 0), 32);
}

#[test]
fn an_edge_one_is_cleared() {
    let mut gic = level_controller();
    set_edge(&mut gic, true);
    gic.dist_write(0, 0xC04, 4, 0xAAAA_AAAA); // the PPIs
    for id in [20, 32] {
        line(&mut gic, 0, id, true);
        clear(&mut gic, 0, id);
        assert!(parts(&gic, 0, id).line_asserted && !is_pending(&gic, 0, id));
        assert_eq!(iar(&mut gic, 0), 1023);
    }
}

/// The trigger counts as it is at the write.
#[test]
fn a_trigger_that_changes() {
    let mut gic = level_controller();
    line(&mut gic, 0, 32, true);
    set_edge(&mut gic, true);
    clear(&mut gic, 0, 32);
    assert!(!is_pending(&gic, 0, 32));
    set_edge(&mut gic, false);
    clear(&mut gic, 0, 32);
    assert!(!is_pending(&gic, 0, 32)); // as it stood
    set_edge(&mut gic, true);
    line(&mut gic, 0, 33, true);
    set_edge(&mut gic, false);
    clear(&mut gic, 0, 33);
    assert_eq!(iar(&mut gic, 0), 33);
}

#[test]
fn a_low_line_is_cleared() {
    for id in [20, 32] {
        let mut gic = level_controller();
        pend_by_register(&mut gic, 0, id);
        assert!(is_pending(&gic, 0, id));
        clear(&mut gic, 0, id);
        assert_eq!((is_pending(&gic, 0, id), iar(&mut gic, 0)), (false, 1023));
        gic.input(0, id, None);
        assert!(is_pending(&gic, 0, id));
        clear(&mut gic, 0, id);
        assert_eq!((is_pending(&gic, 0, id), iar(&mut gic, 0)), (false, 1023));
    }
}

/// The device's own fall of the line clears as before.
#[test]
fn a_line_that_falls_is_cleared() {
    let mut gic = level_controller();
    line(&mut gic, 0, 32, true);
    clear(&mut gic, 0, 32);
    line(&mut gic, 0, 32, false);
    assert_eq!((is_pending(&gic, 0, 32), iar(&mut gic, 0)), (false, 1023));
}

#[test]
fn one_write_takes_each_by_its_own() {
    let mut gic = level_controller();
    set_edge(&mut gic, true);
    line(&mut gic, 0, 38, true);
    clear(&mut gic, 0, 38); // so that it is held and not pending
    gic.dist_write(0, 0xC08, 4, 1 << 5 | 1 << 7); // only 34 and 35 are edge
    for id in [32, 34, 36, 39] {
        line(&mut gic, 0, id, true);
    }
    for id in [33, 35] {
        gic.input(0, id, None);
    }
    pend_by_register(&mut gic, 0, 37);
    assert_eq!(gic.dist_read(0, 0x284, 4).value, 0b1011_1111);
    gic.dist_write(0, 0x284, 4, 0b0111_1111);
    assert_eq!(gic.dist_read(0, 0x284, 4).value, 0b1001_0001);
    gic.dist_write(0, 0x284, 4, 0xFFFF_FFFF);
    assert_eq!(gic.dist_read(0, 0x284, 4).value, 0b1001_0001);
}

/// The line falls and rises while the interrupt is in service, or a pulse comes: pending stays, the note goes.
#[test]
fn the_note_is_cleared_where_pending_stays() {
    for pulsed in [false, true] {
        let mut gic = level_controller();
        line(&mut gic, 0, 32, true);
        assert_eq!(iar(&mut gic, 0), 32);
        if pulsed {
            gic.input(0, 32, None);
        } else {
            line(&mut gic, 0, 32, false);
            line(&mut gic, 0, 32, true);
        }
        assert_eq!(pending_and_noted(&gic, 0, 32), (true, true));
        clear(&mut gic, 0, 32);
        assert_eq!(pending_and_noted(&gic, 0, 32), (true, false));
        assert_eq!(gic.records[gic.slot(0, 32)].owner, Some(0));
        assert_eq!(refusal_of_save(&gic), 0);
        assert_eq!(end(&mut gic, 0, 32), 3);
    }
}

/// The same with the line low again, which a record in service bears: both go, and nothing comes after the end.
#[test]
fn the_note_is_cleared_with_pending() {
    let mut gic = level_controller();
    line(&mut gic, 0, 32, true);
    assert_eq!(iar(&mut gic, 0), 32);
    line(&mut gic, 0, 32, false);
    line(&mut gic, 0, 32, true);
    line(&mut gic, 0, 32, false);
    assert_eq!(pending_and_noted(&gic, 0, 32), (true, true));
    clear(&mut gic, 0, 32);
    assert_eq!(pending_and_noted(&gic, 0, 32), (false, false));
    assert_eq!((end(&mut gic, 0, 32), iar(&mut gic, 0)), (0, 1023));
}

/// Only lent words have it in flight and not active: there IAR shows whether the note is gone.
#[test]
fn the_note_is_seen_by_an_acknowledge() {
    for cleared in [false, true] {
        let mut gic = level_controller();
        line(&mut gic, 0, 32, true);
        let slot = gic.slot(0, 32);
        let mut parts = parts(&gic, 0, 32);
        parts.inflight = true;
        parts.redelivery_pending = true;
        gic.records[slot] = Record::make(&parts, None);
        let mut gic = words::read(&words::write(&gic)).expect("a controller");
        if cleared {
            clear(&mut gic, 0, 32);
        }
        assert_eq!(iar(&mut gic, 0), 32);
        assert_eq!(is_pending(&gic, 0, 32), !cleared);
    }
}

/// No history makes an SGI level or raises its line, but lent words may. SGI 5 at vCPU 1, from both vCPUs.
fn with_sgi(trigger: TriggerMode, high: bool) -> Gic {
    let mut gic = controller(2, 40);
    for sender in 0..2 {
        gic.dist_write(sender, 0xF00, 4, 5 + (2 << 16));
    }
    let slot = gic.slot(1, 5);
    let mut parts = parts(&gic, 1, 5);
    parts.trigger = trigger;
    parts.line_asserted = high;
    parts.redelivery_pending = true;
    gic.records[slot] = Record::make(&parts, None);
    words::read(&words::write(&gic)).expect("a controller")
}

fn clear_sources(gic: &mut Gic, sources: u64) {
    assert_eq!(gic.dist_write(1, 0xF15, 1, sources).refusal, 0);
}

/// "Whoever else clears pending": CPENDSGIR.
#[test]
fn a_held_sgi_stays_without_a_source() {
    let mut gic = with_sgi(TriggerMode::Level, true);
    clear_sources(&mut gic, 0); // changes nothing
    clear(&mut gic, 1, 5); // nor does this: pend bits of SGIs ignore writes
    assert_eq!(pending_and_noted(&gic, 1, 5), (true, true));
    clear_sources(&mut gic, 2);
    assert_eq!(pending_and_noted(&gic, 1, 5), (true, true)); // a source is left: set, not cleared
    clear_sources(&mut gic, 1);
    assert_eq!(pending_and_noted(&gic, 1, 5), (true, false));
    assert_eq!(
        (gic.dist_read(1, 0xF15, 1).value, gic.irq_level(1)),
        (0, true)
    );
    assert_eq!(iar(&mut gic, 1), 5); // from 0: none is set
    clear_sources(&mut gic, 0xFF);
    assert!(!is_pending(&gic, 1, 5)); // as it stood
    assert_eq!((end(&mut gic, 1, 5), is_pending(&gic, 1, 5)), (2, true));
}

#[test]
fn another_sgi_is_cleared_with_its_last_source() {
    for (trigger, high) in [
        (TriggerMode::Level, false),
        (TriggerMode::Edge, true),
        (TriggerMode::Edge, false),
    ] {
        let mut gic = with_sgi(trigger, high);
        clear_sources(&mut gic, 1);
        assert_eq!(pending_and_noted(&gic, 1, 5), (true, true));
        clear_sources(&mut gic, 2);
        assert_eq!(pending_and_noted(&gic, 1, 5), (false, false));
        assert_eq!(iar(&mut gic, 1), 1023);
    }
}

/// Each flag of a record both ways: all but the request's case is interrupt.rs's own.
#[test]
fn nothing_else_departs() {
    for (flags, pending) in (0..256).map(|index| (index / 2, index % 2 == 1)) {
        let flag = |place: u32| flags >> place & 1 == 1;
        let edge = flag(6);
        let parts = Parts {
            intid: IntId::new(32).unwrap(),
            enabled: flag(0),
            pending: flag(1),
            active: flag(2),
            inflight: flag(3),
            redelivery_pending: flag(4),
            line_asserted: flag(5),
            priority: Priority(7),
            trigger: if edge {
                TriggerMode::Edge
            } else {
                TriggerMode::Level
            },
            cpu_target_mask: Some(2),
        };
        let mut record = Record::make(&parts, Some(1));
        let mut file = record.file.clone();
        file.set_pending(pending);
        let mut expected = access::parts(&file);
        if !pending && !edge && parts.line_asserted {
            expected.pending = parts.pending;
            assert!(!expected.redelivery_pending);
        }
        record.set_pending(pending);
        assert_eq!((record.parts(), record.owner), (expected, Some(1)));
    }
}
