//! Request Five: the summary of the ready. The answers are worked out from its text and from docs/STATE.md.
use super::*;

const GROUP: u64 = 0x80;
const SET_ENABLE: u64 = 0x100;
const CLEAR_ENABLE: u64 = 0x180;
const SET_PEND: u64 = 0x200;
const CLEAR_PEND: u64 = 0x280;
const SET_ACTIVE: u64 = 0x300;
const CLEAR_ACTIVE: u64 = 0x380;

/// Writes this SPI's bit to the register of that offset; gives the wake set.
fn write_bit(gic: &mut Gic, register: u64, id: u64) -> u64 {
    let answer = gic.dist_write(0, register + id / 32 * 4, 4, 1 << (id % 32));
    assert_eq!(answer.refusal, 0);
    answer.wake
}

fn read_bit(gic: &Gic, register: u64, id: u64) -> bool {
    gic.dist_read(0, register + id / 32 * 4, 4).value >> (id % 32) & 1 == 1
}

/// The same controller with the bits of these SPIs turned, in the lent words.
fn turned(gic: &Gic, ids: &[u64]) -> Gic {
    let mut words = words::write(gic);
    let summary = 3 + 52 * gic.count as usize + gic.limit as usize - 32;
    for at in ids.iter().map(|id| *id as usize - 32) {
        words[summary + at / 32] ^= 1 << (at % 32);
    }
    words::read(&words).expect("a controller")
}

/// The SPIs whose bits are set, from the limit up too.
fn set_bits(gic: &Gic) -> Vec<u64> {
    let ids = 32..32 + 32 * gic.summary.len() as u64;
    ids.filter(|id| gic.summary_bit(*id)).collect()
}

fn is_exact(gic: &Gic) -> bool {
    (32..gic.limit).all(|id| gic.summary_bit(id) == gic.records[gic.slot(0, id)].is_ready())
}

#[test]
fn its_words_stand_between_the_spis_and_the_stacks() {
    for (count, limit, own, all) in [
        (1, 32, 0, 183),
        (2, 40, 1, 372),
        (4, 64, 1, 756),
        (4, 65, 2, 758),
        (4, 288, 8, 987),
        (8, 1020, 31, 2462),
    ] {
        let mut gic = Gic::new(count, limit);
        assert_eq!(gic.summary, vec![0; own]); // a fresh one has no bit
        let mut words = words::write(&gic);
        assert_eq!((words.len(), words::size(count, limit)), (all, all));
        assert!(words::read(&words[..all - 1]).is_none());
        let start = all - 128 * count as usize - own;
        assert_eq!(start, 3 + 52 * count as usize + limit as usize - 32);
        for word in 0..own {
            words[start + word] = 7 + word as u32;
            gic.summary[word] = 7 + word as u32;
        }
        assert_eq!(words::write(&gic), words);
        assert_eq!(words::read(&words).unwrap().summary, gic.summary);
    }
}

#[test]
fn bits_of_a_word() {
    let mut gic = controller(1, 1020);
    let ids = [32, 33, 63, 64, 95, 96, 1019];
    for id in ids {
        pend(&mut gic, id, 0);
    }
    assert_eq!(set_bits(&gic), ids);
    assert_eq!(gic.summary[..3], [0x8000_0003, 0x8000_0001, 1]);
    assert_eq!(gic.summary[30], 1 << 27);
}

/// "Set exactly when it is enabled, pending and not active": not mask, PMR or what is on.
#[test]
fn a_bit_says_ready() {
    let mut gic = Gic::new(1, 40);
    assert_eq!(write_bit(&mut gic, SET_PEND, 34), 0);
    assert_eq!(set_bits(&gic), []);
    write_bit(&mut gic, SET_ENABLE, 34);
    assert_eq!(set_bits(&gic), [34]);
    write_bit(&mut gic, SET_ACTIVE, 34);
    assert_eq!(set_bits(&gic), []);
    write_bit(&mut gic, CLEAR_ACTIVE, 34);
    assert_eq!(set_bits(&gic), [34]);
    write_bit(&mut gic, CLEAR_ENABLE, 34);
    assert_eq!(set_bits(&gic), []);
    write_bit(&mut gic, SET_ENABLE, 34);
    write_bit(&mut gic, CLEAR_PEND, 34);
    assert_eq!(set_bits(&gic), []);
    gic.input(0, 34, Some(true));
    assert_eq!(set_bits(&gic), [34]);
    gic.input(0, 34, Some(false));
    assert_eq!(set_bits(&gic), []);
}

#[test]
fn an_acknowledge_clears_it_and_an_end_can_set_it() {
    let mut gic = controller(1, 40);
    pend(&mut gic, 32, 0);
    pend(&mut gic, 34, 0);
    assert_eq!((iar(&mut gic, 0), set_bits(&gic)), (32, vec![34]));
    pend(&mut gic, 32, 0);
    assert_eq!(set_bits(&gic), [34]);
    assert_eq!((end(&mut gic, 0, 32), set_bits(&gic)), (1, vec![32, 34]));
}

/// Calls at random from a fresh controller: the bits stay exact, and those from the limit up 0.
#[test]
fn every_history_keeps_it_exact() {
    let mut gic = controller(2, 70);
    let mut seed = 1_u64;
    let mut next = |below: u64| {
        seed = seed.wrapping_mul(6364136223846793005).wrapping_add(1);
        (seed >> 33) % below
    };
    let (mut given, mut set) = (0, 0);
    for _ in 0..20_000 {
        let (v, id, byte) = (next(2), 60 + next(12), next(256));
        let refusal = match next(8) {
            0 => gic.input(v, id, Some(byte < 128)).refusal,
            1 => gic.input(v, id, None).refusal,
            2 | 3 => {
                let register = 0x80 * (1 + next(7)) + id / 32 * 4;
                gic.dist_write(v, register, 4, 1 << (id % 32)).refusal
            }
            4 => gic.dist_write(v, 0x400 + id, 1, byte).refusal,
            5 => gic.dist_write(v, 0x800 + id, 1, byte).refusal,
            6 => {
                let newest = gic.stack[v as usize].last().map_or(id, |entry| entry.0);
                let ended = if byte < 32 { id } else { newest };
                gic.cpu_write(v, 0x10, 4, ended).refusal
            }
            _ => {
                let answer = gic.cpu_read(v, 0x0C, 4);
                given += u64::from(answer.value != SPURIOUS);
                answer.refusal
            }
        };
        assert!(refusal == 0 || refusal == 8);
        assert!(is_exact(&gic) && gic.is_lawful());
        assert!(set_bits(&gic).iter().all(|id| *id < 70));
        set += set_bits(&gic).len();
    }
    assert!(given > 500 && set > 20_000, "{given} {set}"); // or it would show little
}

/// A record that is not pending, one that is not even enabled, and one that is active: each is given like any other.
#[test]
fn a_false_bit_is_given() {
    for state in 0..3 {
        let mut gic = controller(2, 40);
        match state {
            0 => {}
            1 => assert_eq!(write_bit(&mut gic, CLEAR_ENABLE, 34), 0),
            _ => assert_eq!(write_bit(&mut gic, SET_ACTIVE, 34), 0),
        }
        gic.dist_write(0, 0x400 + 34, 1, 0x47);
        let mut gic = turned(&gic, &[34]);
        assert!(gic.irq_level(0) && gic.irq_level(1));
        assert_eq!((hppir(&mut gic, 0), hppir(&mut gic, 1)), (34, 34));
        assert!(!read_bit(&gic, SET_PEND, 34)); // registers read the record
        assert_eq!(read_bit(&gic, SET_ENABLE, 34), state != 1);
        assert_eq!(iar(&mut gic, 1), 34);
        let record = &gic.records[gic.slot(0, 34)];
        let (parts, owner) = (record.parts(), record.owner);
        assert!(parts.active && parts.inflight && !parts.pending);
        assert_eq!((parts.enabled, owner), (state != 1, Some(1)));
        assert_eq!(gic.stack[1], [(34, 0x46)]);
        assert_eq!(set_bits(&gic), []);
        assert_eq!((iar(&mut gic, 0), gic.irq_level(0)), (1023, false));
        assert_eq!(refusal_of_save(&gic), 0);
        assert_eq!(gic.cpu_write(1, 0x10, 4, 34).retired, 34);
        assert_eq!(set_bits(&gic), []);
    }
}

/// One that another vCPU serves is taken from it.
#[test]
fn one_in_service_is_given_again() {
    let mut gic = controller(2, 40);
    pend(&mut gic, 34, 0x80);
    assert_eq!(iar(&mut gic, 0), 34);
    let mut gic = turned(&gic, &[34]);
    assert_eq!((gic.irq_level(0), gic.irq_level(1)), (false, true)); // 0 runs at its priority
    assert_eq!(iar(&mut gic, 1), 34);
    assert_eq!(gic.records[gic.slot(0, 34)].owner, Some(1));
    assert_eq!(set_bits(&gic), []);
    assert_eq!(gic.cpu_write(0, 0x10, 4, 34).retired, SPURIOUS);
    assert_eq!(gic.cpu_write(1, 0x10, 4, 34).retired, 34);
}

/// The bit folds in neither mask nor priority: these are the record's.
#[test]
fn a_false_bit_is_held_to_mask_and_priority() {
    let mut gic = controller(2, 40);
    gic.dist_write(0, 0x800 + 34, 1, 2);
    gic.dist_write(0, 0x400 + 35, 1, 255);
    gic.dist_write(0, 0x800 + 36, 1, 0);
    for id in [34, 37, 38] {
        gic.dist_write(0, 0x400 + id, 1, 9);
    }
    gic.dist_write(0, 0x400 + 39, 1, 8);
    pend(&mut gic, 38, 9);
    let mut gic = turned(&gic, &[34, 35, 36, 37]);
    assert_eq!((hppir(&mut gic, 0), hppir(&mut gic, 1)), (37, 34));
    gic.input(0, 39, None);
    assert_eq!((iar(&mut gic, 0), iar(&mut gic, 1)), (39, 34));
    assert_eq!(set_bits(&gic), [35, 36, 37, 38]);
}

/// 34 is ready and its bit clear. Whatever stores its record sets the bit, also if the record stays as it was.
#[test]
fn a_ready_record_without_its_bit_waits_for_a_write() {
    for way in 0..8 {
        let mut gic = controller(2, 40);
        pend(&mut gic, 34, 0x47);
        let written = words::write(&gic);
        let mut gic = turned(&gic, &[34]);
        assert_eq!(set_bits(&gic), []);
        assert_eq!((gic.irq_level(0), gic.irq_level(1)), (false, false));
        assert_eq!((hppir(&mut gic, 0), iar(&mut gic, 1)), (1023, 1023));
        assert!(read_bit(&gic, SET_PEND, 34));
        let wake = match way {
            0 => write_bit(&mut gic, SET_ENABLE, 34),
            1 => write_bit(&mut gic, SET_PEND, 34),
            2 => write_bit(&mut gic, CLEAR_ACTIVE, 34),
            3 => gic.dist_write(0, 0x400 + 34, 1, 0x47).wake,
            4 => gic.dist_write(0, 0x800 + 34, 1, 3).wake,
            5 => gic.dist_write(0, 0xC08, 4, 0xAAAA_AAAA).wake,
            6 => gic.input(0, 34, Some(false)).wake,
            _ => gic.input(0, 34, None).wake,
        };
        assert_eq!((wake, set_bits(&gic)), (3, vec![34]), "{way}");
        assert_eq!(words::write(&gic), written, "{way}");
        assert_eq!((hppir(&mut gic, 0), iar(&mut gic, 1)), (34, 34));
    }
}

/// 33 to 35 have bits that are false. Where no transition is called on their records these stay, whatever else is written.
#[test]
fn a_bit_stays_where_no_transition_is_called() {
    let mut gic = controller(2, 40);
    pend(&mut gic, 33, 0x47);
    pend(&mut gic, 35, 0x20);
    assert_eq!(iar(&mut gic, 1), 35);
    let mut gic = turned(&gic, &[33, 34, 35]);
    let before = words::write(&gic);
    for register in (GROUP..0x400).step_by(0x80) {
        gic.dist_write(0, register + 4, 4, 0);
    }
    gic.dist_write(0, GROUP + 4, 4, 0xFFFF_FFFF);
    for id in [33, 34, 35] {
        gic.cpu_write(0, 0x10, 4, id); // EOIR
        gic.cpu_write(0, 0x1000, 4, id); // DIR; 35 is in flight elsewhere
    }
    assert_eq!(words::write(&gic), before);
    gic.dist_write(0, 0x400 + 32, 1, 7); // their neighbours
    gic.dist_write(0, 0x400 + 36, 4, 7);
    write_bit(&mut gic, SET_PEND, 36);
    gic.input(0, 32, None);
    gic.dist_write(0, 0xF00, 4, 0x0200_0003); // an SGI
    assert_eq!(set_bits(&gic), [32, 34, 35, 36]);
    gic.dist_write(0, 0x400 + 33, 1, 0);
    gic.dist_write(0, 0x400 + 34, 1, 0);
    assert_eq!(set_bits(&gic), [32, 33, 35, 36]);
    gic.cpu_write(1, 0x1000, 4, 35); // DIR where it is in flight
    assert_eq!(set_bits(&gic), [32, 33, 36]);
    assert!(is_exact(&gic));
}

/// `complete` is a transition too.
#[test]
fn one_active_without_being_in_flight_is_set_anew() {
    let mut gic = controller(1, 40);
    write_bit(&mut gic, SET_ACTIVE, 34);
    let mut gic = turned(&gic, &[34]);
    assert_eq!(gic.cpu_write(0, 0x1000, 4, 34).retired, SPURIOUS);
    assert_eq!((set_bits(&gic), iar(&mut gic, 0)), (vec![], 1023));
}

#[test]
fn a_refused_call_leaves_false_bits() {
    let mut gic = turned(&controller(1, 40), &[34]);
    assert_eq!(gic.dist_write(0, 0x400 + 34, 8, 0).refusal, 1);
    assert_eq!(gic.dist_write(0, 0x100 + 4, 2, 4).refusal, 2);
    assert_eq!(gic.input(0, 40, None).refusal, 8);
    gic.stack[0] = vec![(39, 255); 128];
    assert_eq!(gic.cpu_read(0, 0x0C, 4).refusal, 7);
    assert_eq!(set_bits(&gic), [34]);
}

/// Private numbers have no bits: their records say who is a candidate.
#[test]
fn private_numbers_go_by_their_records() {
    let mut gic = controller(1, 40);
    pend(&mut gic, 33, 0);
    let mut gic = turned(&gic, &[33]);
    gic.dist_write(0, SET_ENABLE, 4, 1 << 20);
    assert_eq!(gic.input(0, 20, None).wake, 1);
    gic.dist_write(0, 0xF00, 4, 0x0200_0003);
    assert_eq!(iar(&mut gic, 0), 3);
    assert_eq!((end(&mut gic, 0, 3), iar(&mut gic, 0)), (1, 20));
    assert_eq!((end(&mut gic, 0, 20), iar(&mut gic, 0)), (0, 1023));
    assert_eq!(set_bits(&gic), []);
}

/// A wake set is of what IAR would give, so it follows the bits before the call and after it.
#[test]
fn wake_sets_follow_the_bits() {
    let mut gic = controller(2, 40);
    gic.dist_write(0, 0, 4, 0);
    let mut gic = turned(&gic, &[34]);
    assert_eq!(gic.dist_write(0, 0, 4, 1).wake, 3);
    assert_eq!(gic.input(0, 34, None).wake, 0); // it was given before
    let mut gic = turned(&gic, &[34]);
    assert_eq!(pend(&mut gic, 33, 0), 3); // 34 was not
    let mut gic = turned(&gic, &[33]);
    assert_eq!(write_bit(&mut gic, SET_ENABLE, 34), 3);
    let mut gic = turned(&gic, &[35]);
    assert_eq!(write_bit(&mut gic, CLEAR_PEND, 34), 0);
    assert_eq!(write_bit(&mut gic, CLEAR_PEND, 35), 0);
    assert_eq!((set_bits(&gic), iar(&mut gic, 0)), (vec![], 1023));
    assert_eq!(write_bit(&mut gic, SET_ENABLE, 33), 3);
}

/// "Bits of numbers from the limit up count for nothing, and stay."
#[test]
fn a_bit_past_the_limit_is_no_candidate() {
    let past: Vec<u64> = (40..64).collect();
    let mut gic = turned(&controller(2, 40), &past);
    assert_eq!((set_bits(&gic), gic.irq_level(0)), (past.clone(), false));
    assert_eq!((hppir(&mut gic, 0), iar(&mut gic, 1)), (1023, 1023));
    for register in (GROUP..0x400).step_by(0x80) {
        assert_eq!(gic.dist_write(0, register + 4, 4, 0xFFFF_FF00).wake, 0);
    }
    for byte in (0x400..0xC00).step_by(0x400) {
        gic.dist_write(0, byte + 40, 4, 0x0101_0101);
    }
    gic.dist_write(0, 0xC08, 4, 0);
    assert_eq!(gic.cpu_write(0, 0x1000, 4, 41).retired, SPURIOUS);
    assert_eq!(gic.input(0, 40, None).refusal, 8);
    assert_eq!(set_bits(&gic), past);
    assert_eq!(pend(&mut gic, 39, 0), 3);
    assert_eq!(set_bits(&gic), [&[39], &past[..]].concat());
    assert_eq!((iar(&mut gic, 1), iar(&mut gic, 0)), (39, 1023));
    assert_eq!((set_bits(&gic), refusal_of_save(&gic)), (past, 0));
}
