//! The message frame through the safe face: a card's stories, what the frame reads and ignores, and what is refused.
use vgic::{
    AccessWidth::{self, Byte, Dword, Qword, Word},
    Gic, GicVcpuId, IntId, MAX_IMAGE_BYTES, Refusal, Reply, Window,
    offset::{self, V2M_SETSPI, V2M_TYPER},
    state_words,
};

const COUNT: u64 = 2;
const LIMIT: u64 = 40;
const WORDS: usize = state_words(COUNT, LIMIT).expect("in range");
const FIRST: GicVcpuId = GicVcpuId(0);
const SECOND: GicVcpuId = GicVcpuId(1);
/// The card's: SPIs 34 to 37.
const CARD: Window = window(34, 4);
const WIDTHS: [AccessWidth; 4] = [Byte, Word, Dword, Qword];

const fn window(first: u64, count: u64) -> Window {
    Window {
        first: IntId(first),
        count,
    }
}

/// Everything on; every SPI enabled, edge, sent to vCPU 1 at priority 160.
fn ready() -> Vec<u32> {
    let mut words = vec![0; WORDS];
    let mut gic = Gic::lend(&mut words);
    gic.setup(COUNT, LIMIT).unwrap();
    for (offset, value) in [
        (offset::GICD_CTLR, 1),
        (offset::GICD_ITARGETSR + 32, 0x0202_0202),
        (offset::GICD_ITARGETSR + 36, 0x0202_0202),
        (offset::GICD_IPRIORITYR + 32, 0xa0a0_a0a0),
        (offset::GICD_IPRIORITYR + 36, 0xa0a0_a0a0),
        (offset::GICD_ICFGR + 8, 0xaaaa),
        (offset::GICD_ISENABLER + 4, 0xff),
    ] {
        let done = gic.write_v2_distributor(FIRST, offset, Dword, value);
        done.unwrap();
    }
    for (offset, value) in [(offset::GICC_CTLR, 1), (offset::GICC_PMR, 255)] {
        interface(&mut gic, offset, value);
    }
    words
}

fn interface(gic: &mut Gic, offset: u64, value: u64) -> Reply {
    let done = gic.write_v2_cpu_interface(SECOND, offset, Dword, value);
    done.unwrap()
}

/// The card writes this; whom it wakes.
fn ring(gic: &mut Gic, number: u64) -> u8 {
    let rung = gic.write_v2m(CARD, V2M_SETSPI, Dword, number);
    rung.unwrap().wake.bits()
}

fn take(gic: &mut Gic) -> u32 {
    let taken = gic.read_v2_cpu_interface(SECOND, offset::GICC_IAR, Dword);
    taken.unwrap().value
}

/// Ends it, and it has ended; whom that wakes.
fn end(gic: &mut Gic, number: u64) -> u8 {
    let ended = interface(gic, offset::GICC_EOIR, number);
    assert_eq!(ended.retired, Some(IntId(number)));
    ended.wake.bits()
}

#[test]
fn a_message_for_one_in_flight_is_given_again() {
    let mut words = ready();
    let mut gic = Gic::lend(&mut words);
    assert_eq!(ring(&mut gic, 36), 2);
    assert_eq!(take(&mut gic), 36);
    assert_eq!(ring(&mut gic, 36), 0); // it is served
    assert!(gic.interrupt(FIRST, IntId(36)).unwrap().redelivery_pending);
    assert_eq!(take(&mut gic), 1023);
    assert_eq!(end(&mut gic, 36), 2);
    assert_eq!(take(&mut gic), 36);
    assert_eq!(end(&mut gic, 36), 0);
    assert_eq!(take(&mut gic), 1023);
}

#[test]
fn two_messages_are_both_given_in_either_order() {
    for (one, other) in [(35, 37), (37, 35)] {
        let mut words = ready();
        let mut gic = Gic::lend(&mut words);
        assert_eq!(ring(&mut gic, one), 2);
        assert_eq!(ring(&mut gic, other), 0); // its line is up
        for (number, wake) in [(35, 2), (37, 0)] {
            assert_eq!(u64::from(take(&mut gic)), number);
            assert_eq!(end(&mut gic, number), wake);
        }
        assert_eq!(take(&mut gic), 1023);
    }
}

/// What each of these leaves of SPI 36 a message meets as a pulse does: fresh, waiting, in flight, disabled, sent to nobody, level and held.
#[test]
fn a_message_is_a_pulse() {
    type Before = fn(&mut Gic);
    let befores: [Before; 6] = [
        |_| {},
        |gic| assert_eq!(ring(gic, 36), 2),
        |gic| assert_eq!((ring(gic, 36), take(gic)), (2, 36)),
        |gic| distributor(gic, offset::GICD_ICENABLER + 4, 0x10),
        |gic| distributor(gic, offset::GICD_ITARGETSR + 36, 0),
        |gic| {
            distributor(gic, offset::GICD_ICFGR + 8, 0);
            gic.set_level(FIRST, IntId(36), true).unwrap();
        },
    ];
    for before in befores {
        let mut rung = ready();
        before(&mut Gic::lend(&mut rung));
        let mut pulsed = rung.clone();
        let message = Gic::lend(&mut rung).write_v2m(CARD, V2M_SETSPI, Dword, 36);
        assert_eq!(message, Gic::lend(&mut pulsed).pulse(FIRST, IntId(36)));
        assert_eq!(rung, pulsed);
        let it = Gic::lend(&mut rung).interrupt(FIRST, IntId(36)).unwrap();
        assert!(it.pending);
    }
}

fn distributor(gic: &mut Gic, offset: u64, value: u64) {
    let done = gic.write_v2_distributor(FIRST, offset, Dword, value);
    done.unwrap();
}

#[test]
fn all_32_bits_are_the_number() {
    let wide = 1 << 32;
    for (value, wake) in [
        (33, 0),
        (34, 2),
        (37, 2),
        (38, 0),
        (0, 0),
        (2, 0), // no place in the window
        (36 | 1 << 10, 0),
        (36 | 1 << 16, 0),
        (36 | 1 << 31, 0),
        (u64::from(u32::MAX), 0),
        (36 | wide, 2), // bits above the width are ignored
        (36 | 0xffff_ffff << 32, 2),
        (38 | wide, 0),
        (u64::MAX, 0),
    ] {
        let mut words = ready();
        let before = words.clone();
        assert_eq!(ring(&mut Gic::lend(&mut words), value), wake, "{value:#x}");
        assert_eq!(words == before, wake == 0, "{value:#x}");
    }
}

#[test]
fn what_the_frame_reads() {
    let mut words = ready();
    let mut gic = Gic::lend(&mut words);
    for (first, count) in [(32, 1), (32, 8), (34, 4), (39, 1)] {
        let typer = gic.read_v2m(window(first, count), V2M_TYPER, Dword);
        let expected = (first << 16 | count) as u32;
        assert_eq!(typer.unwrap().value, expected, "{first} {count}");
    }
    ring(&mut gic, 36);
    for offset in (0..0x1000).step_by(4).filter(|it| *it != V2M_TYPER) {
        let read = gic.read_v2m(CARD, offset, Dword);
        assert_eq!(read, Ok(Reply::default()), "{offset:#x}");
    }
}

/// The widest window: 988 numbers fit the field.
#[test]
fn the_widest_window() {
    let mut words = vec![0; state_words(8, 1020).unwrap()];
    let mut gic = Gic::lend(&mut words);
    gic.setup(8, 1020).unwrap();
    let all = window(32, 988);
    let typer = gic.read_v2m(all, V2M_TYPER, Dword).unwrap().value;
    assert_eq!(typer, 0x0020_03dc);
    for number in [32, 511, 1019] {
        gic.write_v2m(all, V2M_SETSPI, Dword, number).unwrap();
        assert!(gic.interrupt(FIRST, IntId(number)).unwrap().pending);
    }
}

/// Whether an access is refused by 1 or 2, or what it reads.
fn expected(offset: u64, width: AccessWidth) -> Result<u32, Refusal> {
    let bytes = width.size();
    if offset % bytes != 0 || offset.checked_add(bytes).is_none_or(|end| end > 0x1000) {
        Err(Refusal::Access)
    } else if [V2M_TYPER, V2M_SETSPI].contains(&offset) && width != Dword {
        Err(Refusal::Width)
    } else {
        Ok(if offset == V2M_TYPER { 34 << 16 | 4 } else { 0 })
    }
}

/// Every place, at every width: SETSPI alone does anything.
#[test]
fn every_place() {
    let mut words = ready();
    let before = words.clone();
    for offset in (0..0x1010).chain(u64::MAX - 16..=u64::MAX) {
        for width in WIDTHS {
            let mut gic = Gic::lend(&mut words);
            let place = format!("{offset:#x} {width:?}");
            let read = gic.read_v2m(CARD, offset, width).map(|it| it.value);
            assert_eq!(read, expected(offset, width), "{place}");
            let wrote = gic.write_v2m(CARD, offset, width, 36);
            assert_eq!(wrote.err(), expected(offset, width).err(), "{place}");
            let rang = wrote.is_ok_and(|it| !it.wake.is_empty());
            assert_eq!(rang, (offset, width) == (V2M_SETSPI, Dword), "{place}");
            assert_eq!(words != before, rang, "{place}");
            words.copy_from_slice(&before);
        }
    }
}

/// The call is refused so, and changes nothing.
fn refused(words: &mut [u32], at: Window, offset: u64, width: AccessWidth, why: Refusal) {
    let before = words.to_vec();
    let mut gic = Gic::lend(words);
    let place = format!("{at:?} {offset:#x} {width:?}");
    assert_eq!(gic.read_v2m(at, offset, width), Err(why), "{place}");
    let wrote = gic.write_v2m(at, offset, width, 36);
    assert_eq!(wrote, Err(why), "{place}");
    assert_eq!(words, before, "{place}");
}

/// Places that 1 or 2 would refuse, and some that neither would.
const PLACES: [(u64, AccessWidth); 8] = [
    (V2M_SETSPI, Dword),
    (V2M_TYPER, Dword),
    (0, Qword),
    (V2M_SETSPI, Byte),
    (V2M_TYPER, Qword),
    (1, Dword),
    (0x1000, Byte),
    (u64::MAX, Word),
];

#[test]
fn a_window_is_refused_before_its_place() {
    let mut words = ready();
    for bad in [
        window(34, 0),
        window(0, 0),
        window(31, 1),
        window(31, 9),
        window(0, 40),
        window(39, 2),
        window(40, 1),
        window(32, 9),
        window(1 << 32 | 34, 4),
        window(34, 1 << 32 | 4),
        window(34, u64::MAX - 33), // 34 + this is 0, and with one more 1, ..
        window(34, u64::MAX - 32),
        window(34, u64::MAX),
        window(u64::MAX, 1),
        window(u64::MAX, 38),
        window(u64::MAX, u64::MAX),
        window(1 << 63, 1 << 63),
    ] {
        for (offset, width) in PLACES {
            refused(&mut words, bad, offset, width, Refusal::Window);
        }
    }
}

#[test]
fn every_window_of_a_small_controller() {
    let mut words = ready();
    let gic = Gic::lend(&mut words);
    for first in 0..=50 {
        for count in 0..=50 {
            let within = first >= 32 && count >= 1 && first + count <= LIMIT;
            let read = gic.read_v2m(window(first, count), 0, Byte);
            let expected = if within {
                Ok(Reply::default())
            } else {
                Err(Refusal::Window)
            };
            assert_eq!(read, expected, "{first} {count}");
        }
    }
}

#[test]
fn words_that_are_no_state_are_refused_before_the_window() {
    let mut deep = ready();
    deep[3 + 3] = 129;
    let mut short = ready();
    short.pop();
    for mut words in [vec![], vec![2], vec![2, 40], vec![0; WORDS], deep, short] {
        for at in [CARD, window(34, 0), window(u64::MAX, u64::MAX)] {
            for (offset, width) in PLACES {
                refused(&mut words, at, offset, width, Refusal::BrokenState);
            }
        }
    }
}

/// Without SPIs there is no window.
#[test]
fn a_controller_without_spis() {
    let mut words = vec![0; state_words(1, 32).unwrap()];
    Gic::lend(&mut words).setup(1, 32).unwrap();
    for at in [window(32, 1), window(32, 0), window(31, 1)] {
        refused(&mut words, at, V2M_SETSPI, Dword, Refusal::Window);
    }
}

/// The window is in no image: after a move the host gives it again, and what was rung here is taken there.
#[test]
fn a_guest_that_is_moved_keeps_its_messages() {
    let saved = |words: &mut [u32]| {
        let mut buffer = vec![0; MAX_IMAGE_BYTES];
        let length = Gic::lend(words).save(&mut buffer).unwrap();
        buffer.truncate(length);
        buffer
    };
    let mut words = ready();
    assert_eq!(ring(&mut Gic::lend(&mut words), 36), 2);
    let image = saved(&mut words);
    let mut wider = ready();
    let rung = Gic::lend(&mut wider).write_v2m(window(32, 8), V2M_SETSPI, Dword, 36);
    rung.unwrap();
    assert_eq!(saved(&mut wider), image);
    let mut there = vec![u32::MAX; WORDS];
    let mut moved = Gic::lend(&mut there);
    moved.load(&image).unwrap();
    assert_eq!(take(&mut moved), 36);
    assert_eq!(ring(&mut moved, 37), 0);
    assert_eq!(end(&mut moved, 36), 2);
    assert_eq!(take(&mut moved), 37);
}
