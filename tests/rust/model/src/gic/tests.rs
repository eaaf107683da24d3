//! Request Two's binary point, with answers worked out from its text. Request Four's are in `held_line`, request Five's in `summary`,
//! request Seven's in `message_frame`.
mod held_line;
mod message_frame;
mod summary;

use super::*;
use crate::{image, words};

const BPR: u64 = 0x08;
const ABPR: u64 = 0x1C;

/// Everything is on and PMR 255; the SPIs are enabled and edge, go to every vCPU, and have priority 0.
fn controller(count: u64, limit: u64) -> Gic {
    let mut gic = Gic::new(count, limit);
    gic.dist_write(0, 0, 4, 1);
    for v in 0..count {
        gic.cpu_write(v, 0x00, 4, 1);
        gic.cpu_write(v, 0x04, 4, 255);
    }
    for id in 32..limit {
        gic.dist_write(0, 0x800 + id, 1, 255);
        gic.dist_write(0, 0x100 + id / 32 * 4, 4, 1 << (id % 32));
    }
    for word in 2..64 {
        gic.dist_write(0, 0xC00 + word * 4, 4, 0xAAAA_AAAA);
    }
    gic
}

fn with_binary_point(b: u64) -> Gic {
    let mut gic = controller(1, 40);
    set(&mut gic, 0, b);
    gic
}

/// Writes BPR; gives the wake set.
fn set(gic: &mut Gic, v: u64, b: u64) -> u64 {
    gic.cpu_write(v, BPR, 4, b).wake
}

/// Pulses an SPI of this priority; gives the wake set.
fn pend(gic: &mut Gic, id: u64, priority: u64) -> u64 {
    gic.dist_write(0, 0x400 + id, 1, priority);
    gic.input(0, id, None).wake
}

fn iar(gic: &mut Gic, v: u64) -> u64 {
    gic.cpu_read(v, 0x0C, 4).value
}

fn rpr(gic: &mut Gic, v: u64) -> u64 {
    gic.cpu_read(v, 0x14, 4).value
}

fn hppir(gic: &mut Gic, v: u64) -> u64 {
    gic.cpu_read(v, 0x18, 4).value
}

/// Writes EOIR; gives the wake set.
fn end(gic: &mut Gic, v: u64, id: u64) -> u64 {
    gic.cpu_write(v, 0x10, 4, id).wake
}

fn refusal_of_save(gic: &Gic) -> u64 {
    image::save(&words::write(gic), &mut [0; 9999]).refusal
}

#[test]
fn low_bits_are_cleared() {
    let of_254 = [0xFE, 0xFC, 0xF8, 0xF0, 0xE0, 0xC0, 0x80, 0x00];
    let of_0x47 = [0x46, 0x44, 0x40, 0x40, 0x40, 0x40, 0x00, 0x00];
    for b in 0..8 {
        for (priority, groups) in [(254, of_254), (0x47, of_0x47), (0, [0; 8])] {
            let mut gic = with_binary_point(b);
            assert_eq!(pend(&mut gic, 32, priority), 1);
            assert_eq!((rpr(&mut gic, 0), iar(&mut gic, 0)), (255, 32));
            assert_eq!(rpr(&mut gic, 0), groups[b as usize], "{b} {priority:x}");
            assert_eq!(refusal_of_save(&gic), 0);
        }
    }
}

/// The request's kernel: 0x47 is served as 0x40, which nothing from 0x40 up interrupts.
#[test]
fn neighbours_wait() {
    for priority in 0..255 {
        let mut gic = with_binary_point(2);
        pend(&mut gic, 32, 0x47);
        assert_eq!((iar(&mut gic, 0), rpr(&mut gic, 0)), (32, 0x40));
        let given = priority < 0x40;
        assert_eq!(pend(&mut gic, 33, priority), u64::from(given));
        assert_eq!(hppir(&mut gic, 0), 33); // which knows no running priority
        assert_eq!(iar(&mut gic, 0), if given { 33 } else { 1023 });
        assert_eq!(
            rpr(&mut gic, 0),
            if given { priority / 8 * 8 } else { 0x40 }
        );
        assert_eq!(end(&mut gic, 0, 32), u64::from(!given));
    }
}

#[test]
fn the_least_binary_point_clears_one_bit() {
    let mut gic = with_binary_point(0);
    pend(&mut gic, 32, 0x41);
    assert_eq!((iar(&mut gic, 0), rpr(&mut gic, 0)), (32, 0x40));
    assert_eq!(pend(&mut gic, 33, 0x40), 0);
    assert_eq!(iar(&mut gic, 0), 1023);
    assert_eq!(pend(&mut gic, 34, 0x3F), 1);
    assert_eq!((iar(&mut gic, 0), rpr(&mut gic, 0)), (34, 0x3E));
}

#[test]
fn the_greatest_serves_one_at_a_time() {
    let mut gic = with_binary_point(7);
    pend(&mut gic, 32, 254);
    assert_eq!((iar(&mut gic, 0), rpr(&mut gic, 0)), (32, 0));
    assert_eq!(pend(&mut gic, 33, 0), 0);
    assert_eq!((hppir(&mut gic, 0), iar(&mut gic, 0)), (33, 1023));
    assert_eq!(end(&mut gic, 0, 32), 1);
    assert_eq!((iar(&mut gic, 0), rpr(&mut gic, 0)), (33, 0));
    assert_eq!((end(&mut gic, 0, 33), rpr(&mut gic, 0)), (0, 255));
}

#[test]
fn entries_are_not_regrouped() {
    let mut gic = with_binary_point(2);
    pend(&mut gic, 32, 0x4F);
    assert_eq!((iar(&mut gic, 0), rpr(&mut gic, 0)), (32, 0x48));
    for (register, b) in [(BPR, 7), (ABPR, 0), (BPR, 4)] {
        gic.cpu_write(0, register, 4, b);
        assert_eq!(gic.cpu_read(0, BPR, 4).value, b);
        assert_eq!(gic.cpu_read(0, ABPR, 4).value, b);
        assert_eq!(rpr(&mut gic, 0), 0x48, "{b}");
    }
}

/// 0x46 is served as 0x44; 0x45 is 0x44 too at first, and 0x40 from a binary point of 2 on.
#[test]
fn a_write_of_it_can_wake() {
    let mut gic = controller(2, 40);
    for v in 0..2 {
        set(&mut gic, v, 1);
        pend(&mut gic, 32 + v, 0x46);
        assert_eq!((iar(&mut gic, v), rpr(&mut gic, v)), (32 + v, 0x44));
    }
    assert_eq!(pend(&mut gic, 34, 0x45), 0);
    assert_eq!((iar(&mut gic, 0), iar(&mut gic, 1)), (1023, 1023));
    assert_eq!(set(&mut gic, 1, 2), 2); // each by its own
    assert_eq!(set(&mut gic, 1, 3), 0); // it was awake
    assert_eq!(set(&mut gic, 1, 1), 0);
    assert_eq!(gic.cpu_write(1, ABPR, 4, 7).wake, 2);
    assert_eq!(set(&mut gic, 0, 2), 1);
    assert_eq!((iar(&mut gic, 0), rpr(&mut gic, 0)), (34, 0x40));
    assert_eq!((iar(&mut gic, 1), rpr(&mut gic, 1)), (1023, 0x44));
}

#[test]
fn pmr_uses_all_bits() {
    for b in 0..8 {
        let mut gic = with_binary_point(b);
        gic.cpu_write(0, 0x04, 4, 0x46);
        assert_eq!(pend(&mut gic, 32, 0x46), 0);
        assert_eq!((hppir(&mut gic, 0), iar(&mut gic, 0)), (1023, 1023));
        assert_eq!(pend(&mut gic, 33, 0x45), 1);
        assert_eq!((hppir(&mut gic, 0), iar(&mut gic, 0)), (33, 33));
    }
}

#[test]
fn the_best_is_chosen_by_all_bits() {
    let mut gic = with_binary_point(7);
    for (id, priority) in [(32, 0x47), (33, 0x42), (34, 0x41), (35, 0x41)] {
        pend(&mut gic, id, priority);
    }
    for id in [34, 35, 33, 32] {
        assert_eq!((hppir(&mut gic, 0), iar(&mut gic, 0)), (id, id));
        end(&mut gic, 0, id);
    }
}

/// No history has odd entries, but lent words may: they are compared and shown as stored, and only a save refuses them.
#[test]
fn odd_entries_in_lent_words() {
    let mut gic = with_binary_point(0);
    gic.stack[0].push((39, 0x41));
    let mut gic = words::read(&words::write(&gic)).expect("a depth of 1");
    assert_eq!((rpr(&mut gic, 0), refusal_of_save(&gic)), (0x41, 9));
    assert_eq!(pend(&mut gic, 32, 0x42), 0);
    assert_eq!(pend(&mut gic, 33, 0x41), 1); // as 0x40
    assert_eq!((iar(&mut gic, 0), rpr(&mut gic, 0)), (33, 0x40));
    assert_eq!(refusal_of_save(&gic), 9);
    end(&mut gic, 0, 33);
    assert_eq!((rpr(&mut gic, 0), end(&mut gic, 0, 39)), (0x41, 1));
    assert_eq!(refusal_of_save(&gic), 0);
}

/// "So its bound" becomes 128, and is met: one for each even priority.
#[test]
fn a_history_serves_128() {
    let mut gic = controller(1, 161);
    for index in 0..128 {
        let (id, priority) = (32 + index, 254 - 2 * index);
        assert_eq!(pend(&mut gic, id, priority + index % 2), 1);
        assert_eq!((iar(&mut gic, 0), rpr(&mut gic, 0)), (id, priority));
    }
    assert_eq!(pend(&mut gic, 160, 0), 0);
    assert_eq!((iar(&mut gic, 0), hppir(&mut gic, 0)), (1023, 160));
    assert_eq!((gic.stack[0].len(), refusal_of_save(&gic)), (128, 0));
}

/// Only lent words show 7: here every entry has priority 255.
#[test]
fn a_stack_that_holds_128_is_full() {
    let mut gic = controller(1, 40);
    gic.stack[0] = vec![(39, 255); 127];
    assert_eq!(pend(&mut gic, 32, 0x80), 1);
    assert_eq!((iar(&mut gic, 0), gic.stack[0].len()), (32, 128));
    gic.stack[0].swap(0, 127); // so that 255 is running again
    assert_eq!(pend(&mut gic, 33, 0x40), 0);
    assert_eq!(gic.cpu_read(0, 0x0C, 4).refusal, 7);
    assert_eq!((gic.stack[0].len(), gic.records[33].owner), (128, None));
    set(&mut gic, 0, 7);
    assert_eq!(gic.cpu_read(0, 0x0C, 4).refusal, 7);
    assert_eq!(end(&mut gic, 0, 39), 0); // 7 gave no 1023
    assert_eq!(iar(&mut gic, 0), 33);
}

#[test]
fn a_stack_takes_128_words() {
    let gic = Gic::new(3, 40);
    let mut words = words::write(&gic);
    assert_eq!(words.len(), 3 + 52 * 3 + 8 + 1 + 128 * 3);
    let stacks = 3 + 52 * 3 + 8 + 1;
    words[3 + 52 + 3] = 128; // of vCPU 1
    words[stacks + 128] = 39 + 1024 * 254;
    words[stacks + 255] = 33 + 1024 * 2;
    let read = words::read(&words).expect("a depth of 128");
    assert_eq!(read.stack[1][0], (39, 254));
    assert_eq!(read.stack[1][127], (33, 2));
    assert_eq!(words::write(&read), words);
    words[3 + 52 + 3] = 129;
    assert!(words::read(&words).is_none());
}
