//! What may be asked of a controller: a vCPU's IRQ line, and an interrupt as it stands. No question changes a word.
use vgic::{
    AccessWidth::{self, Byte, Dword, Qword, Word},
    Gic, GicVcpuId, IntId, InterruptRecord, Refusal, TriggerMode, offset, state_words,
};

const COUNT: u64 = 2;
const LIMIT: u64 = 40;
const WORDS: usize = state_words(COUNT, LIMIT).expect("in range");
const FIRST: GicVcpuId = GicVcpuId(0);
const SECOND: GicVcpuId = GicVcpuId(1);
const SPI: IntId = IntId(33);

/// Everything on, SPI 33 enabled and sent to vCPU 1 at priority 16.
fn ready() -> [u32; WORDS] {
    let mut words = [0; WORDS];
    let mut gic = Gic::lend(&mut words);
    gic.setup(COUNT, LIMIT).unwrap();
    for (offset, width, value) in [
        (offset::GICD_CTLR, Dword, 1),
        (offset::GICD_ITARGETSR + 33, Byte, 2),
        (offset::GICD_IPRIORITYR + 33, Byte, 16),
        (offset::GICD_ISENABLER + 4, Dword, 2),
    ] {
        gic.write_v2_distributor(FIRST, offset, width, value)
            .unwrap();
    }
    for vcpu in [FIRST, SECOND] {
        write(&mut gic, vcpu, offset::GICC_CTLR, 1);
        write(&mut gic, vcpu, offset::GICC_PMR, 255);
    }
    words
}

fn write(gic: &mut Gic, vcpu: GicVcpuId, offset: u64, value: u64) {
    gic.write_v2_cpu_interface(vcpu, offset, Dword, value)
        .unwrap();
}

fn take(gic: &mut Gic, vcpu: GicVcpuId) -> u32 {
    let taken = gic.read_v2_cpu_interface(vcpu, offset::GICC_IAR, Dword);
    taken.unwrap().value
}

/// The lines of both vCPUs; asked twice, for an answer must not change the next.
fn lines(gic: &Gic) -> [bool; 2] {
    let before = gic.words().to_vec();
    let lines = [FIRST, SECOND].map(|vcpu| gic.irq_level(vcpu).unwrap());
    assert_eq!(
        lines,
        [FIRST, SECOND].map(|vcpu| gic.irq_level(vcpu).unwrap())
    );
    assert_eq!(gic.words(), before);
    lines
}

#[test]
fn a_line_is_up_while_iar_would_give_a_number() {
    let mut words = ready();
    let mut gic = Gic::lend(&mut words);
    assert_eq!(lines(&gic), [false, false]);
    gic.set_level(FIRST, SPI, true).unwrap();
    assert_eq!(lines(&gic), [false, true]);
    for (register, off, on) in [(offset::GICC_CTLR, 0, 1), (offset::GICC_PMR, 16, 17)] {
        write(&mut gic, SECOND, register, off);
        assert_eq!(lines(&gic), [false, false]);
        write(&mut gic, SECOND, register, on);
        assert_eq!(lines(&gic), [false, true]);
    }
    assert_eq!(take(&mut gic, SECOND), 33);
    assert_eq!(lines(&gic), [false, false]);
    write(&mut gic, SECOND, offset::GICC_EOIR, 33);
    assert_eq!(lines(&gic), [false, true]);
    gic.set_level(FIRST, SPI, false).unwrap();
    assert_eq!(lines(&gic), [false, false]);
}

#[test]
fn with_the_distributor_off_every_line_is_down_and_no_stranger_has_one() {
    let mut words = ready();
    let mut gic = Gic::lend(&mut words);
    gic.set_level(FIRST, SPI, true).unwrap();
    let off = gic.write_v2_distributor(FIRST, offset::GICD_CTLR, Dword, 0);
    off.unwrap();
    assert_eq!(lines(&gic), [false, false]);
    assert_eq!(take(&mut gic, GicVcpuId(2)), 1023);
    for vcpu in [2, 7, 8, 1 << 32, u64::MAX] {
        assert_eq!(gic.irq_level(GicVcpuId(vcpu)), Err(Refusal::Vcpu));
    }
}

/// Words that no history makes: vCPU 1 serves 128 interrupts, the newest two SGIs 6 and 5, and SPI 33, which is above both, is up.
fn full() -> [u32; WORDS] {
    let mut words = ready();
    Gic::lend(&mut words).set_level(FIRST, SPI, true).unwrap();
    let depth = 3 + 52 + 3;
    words[depth] = 128;
    words[WORDS - 2] = 6 | 200 << 10;
    words[WORDS - 1] = 5 | 128 << 10;
    words
}

#[test]
fn a_full_stack_keeps_the_line_down() {
    let mut words = full();
    let mut gic = Gic::lend(&mut words);
    let refused = gic.read_v2_cpu_interface(SECOND, offset::GICC_IAR, Dword);
    assert_eq!(refused, Err(Refusal::FullStack));
    assert_eq!(lines(&gic), [false, false]);
}

/// There, and only there, a line rises and nobody is woken: IAR did not give 1023 before.
#[test]
fn a_rise_from_a_full_stack_is_in_no_wake_set() {
    let mut words = full();
    let mut gic = Gic::lend(&mut words);
    let ended = gic.write_v2_cpu_interface(SECOND, offset::GICC_EOIR, Dword, 5);
    assert!(ended.unwrap().wake.is_empty());
    assert_eq!(lines(&gic), [false, true]);
    assert_eq!(take(&mut gic, SECOND), 33);
}

/// Words that no history makes: the bit of SPI 33 is false, either way. The line follows it, until the record is next written.
#[test]
fn a_line_follows_the_summary() {
    let summary = WORDS - 2 * 128 - 1;
    let mut words = ready();
    words[summary] = 2;
    let mut gic = Gic::lend(&mut words);
    assert_eq!(lines(&gic), [false, true]);
    assert!(!gic.interrupt(FIRST, SPI).unwrap().pending);
    let down = gic.set_level(FIRST, SPI, false);
    assert!(down.unwrap().wake.is_empty());
    assert_eq!(lines(&gic), [false, false]);
    gic.set_level(FIRST, SPI, true).unwrap();
    words[summary] = 1 << 8; // no SPI's
    let mut gic = Gic::lend(&mut words);
    assert_eq!(lines(&gic), [false, false]);
    assert_eq!(take(&mut gic, SECOND), 1023);
    let up = gic.set_level(FIRST, SPI, true);
    assert!(up.unwrap().wake.vcpus().eq([SECOND]));
    assert_eq!(take(&mut gic, SECOND), 33);
    assert_eq!(words[summary], 1 << 8);
}

#[test]
fn an_interrupt_as_it_stands() {
    let mut words = ready();
    let mut gic = Gic::lend(&mut words);
    let mut expected = InterruptRecord::default();
    (expected.enabled, expected.priority) = (true, 16);
    expected.cpu_target_mask = Some(2);
    let shown = |gic: &Gic| gic.interrupt(GicVcpuId(9), SPI).unwrap();
    assert_eq!(shown(&gic), expected);
    gic.set_level(FIRST, SPI, true).unwrap();
    (expected.pending, expected.line_asserted) = (true, true);
    assert_eq!(shown(&gic), expected);
    assert_eq!(take(&mut gic, SECOND), 33);
    (expected.pending, expected.active, expected.inflight) = (false, true, true);
    expected.owner = Some(SECOND);
    assert_eq!(shown(&gic), expected);
    gic.pulse(FIRST, SPI).unwrap();
    (expected.pending, expected.redelivery_pending) = (true, true);
    assert_eq!(shown(&gic), expected);
}

#[test]
fn every_number_has_its_own_record() {
    let mut words = ready();
    for number in 0..32_u32 {
        words[3 + 20 + number as usize] = number << 8;
        words[3 + 52 + 20 + number as usize] = (100 + number) << 8;
    }
    for number in 32..40_u32 {
        words[3 + 2 * 52 + number as usize - 32] = (200 + number) << 8;
    }
    let gic = Gic::lend(&mut words);
    let priority = |vcpu, number| gic.interrupt(vcpu, IntId(number)).unwrap().priority;
    for number in 0..32 {
        assert_eq!(u64::from(priority(FIRST, number)), number);
        assert_eq!(u64::from(priority(SECOND, number)), 100 + number);
    }
    for number in 32..40 {
        assert_eq!(
            u64::from(priority(GicVcpuId(u64::MAX), number)),
            200 + number
        );
    }
    for number in [40, 1019, 1020, 1023, (1 << 32) + 33, u64::MAX] {
        let none = gic.interrupt(GicVcpuId(9), IntId(number));
        assert_eq!(none, Ok(InterruptRecord::default()));
    }
}

#[test]
fn a_fresh_sgi_and_a_stranger() {
    let mut words = ready();
    let gic = Gic::lend(&mut words);
    let sgi = gic.interrupt(SECOND, IntId(15)).unwrap();
    assert_eq!((sgi.enabled, sgi.trigger), (true, TriggerMode::Edge));
    for vcpu in [2, 8, 1 << 32, u64::MAX] {
        for number in [0, 15, 16, 31] {
            let refused = gic.interrupt(GicVcpuId(vcpu), IntId(number));
            assert_eq!(refused, Err(Refusal::Vcpu));
        }
    }
}

#[test]
fn words_that_are_no_state() {
    let mut broken = ready();
    broken[3 + 3] = 129;
    for words in [
        &mut broken[..],
        &mut [],
        &mut [2],
        &mut [2, 40],
        &mut ready()[..WORDS - 1],
    ] {
        let gic = Gic::lend(words);
        for vcpu in [FIRST, GicVcpuId(9)] {
            assert_eq!(gic.irq_level(vcpu), Err(Refusal::BrokenState));
            for number in [5, 33, 40] {
                let refused = gic.interrupt(vcpu, IntId(number));
                assert_eq!(refused, Err(Refusal::BrokenState));
            }
        }
    }
}

#[test]
fn a_width_is_1_2_4_or_8_bytes() {
    let widths = [(1, Byte), (2, Word), (4, Dword), (8, Qword)];
    for bytes in (0..=16).chain([1 << 32 | 4, u64::MAX]) {
        let width = widths.iter().find(|it| it.0 == bytes);
        let expected = width.map(|it| it.1).ok_or(Refusal::Width);
        assert_eq!(AccessWidth::try_from(bytes), expected, "{bytes}");
        assert_eq!(AccessWidth::try_from(bytes as usize), expected, "{bytes}");
        assert!(expected.is_err() || expected.unwrap().size() == bytes);
    }
}
