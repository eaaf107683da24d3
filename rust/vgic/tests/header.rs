//! That `include/vgic.h` and this face say the same: numbers, registers, refusals, bits, calls.
use vgic::{
    IntId, InterruptRecord, LAYOUT, MAX_IMAGE_BYTES, MAX_STATE_WORDS, Refusal, TriggerMode,
};

const HEADER: &str = include_str!("../../../include/vgic.h");

/// A number of C or Rust.
fn number(text: &str) -> Option<u64> {
    let digits = text.trim_end_matches('u');
    match digits.strip_prefix("0x") {
        Some(digits) => u64::from_str_radix(digits, 16).ok(),
        None => digits.parse().ok(),
    }
}

/// `#define NAME NUMBER` and `NAME = NUMBER` of the header, in their order, where the name starts so: the rest of it, and the number.
fn named(prefix: &str) -> Vec<(&'static str, u64)> {
    let of_line = |line: &'static str| {
        let line = line.trim_start().trim_start_matches("#define ");
        let mut words = line.split([' ', ',', '=']).filter(|word| !word.is_empty());
        let name = words.next()?.strip_prefix(prefix)?;
        Some((name, number(words.next()?)?))
    };
    HEADER.lines().filter_map(of_line).collect()
}

/// What stands between these two in a line.
fn between<'a>(line: &'a str, start: &str, end: &str) -> Option<&'a str> {
    let (_, rest) = line.split_once(start)?;
    rest.split_once(end).map(|(found, _)| found)
}

#[test]
fn numbers() {
    assert_eq!(named("VGIC_LAYOUT"), [("", LAYOUT.into())]);
    let most = MAX_STATE_WORDS as u64;
    assert_eq!(named("VGIC_STATE_WORDS_MAX"), [("", most)]);
    let most = MAX_IMAGE_BYTES as u64;
    assert_eq!(named("VGIC_IMAGE_BYTES_MAX"), [("", most)]);
    assert_eq!(named("VGIC_SPURIOUS"), [("", IntId::SPURIOUS.0)]);
}

/// The registers of this face whose names start so: the rest of each name, and where it stands.
fn registers_of(start: &str) -> Vec<(&'static str, u64)> {
    let start = format!("pub const {start}");
    let ours = include_str!("../src/offset.rs").lines().filter_map(|line| {
        let name = between(line, &start, ": u64")?;
        Some((name, number(between(line, " = ", ";")?)?))
    });
    ours.collect()
}

#[test]
fn registers() {
    let ours = registers_of("GIC");
    assert_eq!(named("VGIC_GIC"), ours);
    assert!(ours.len() >= 30 && ours.contains(&("C_DIR", vgic::offset::GICC_DIR)));
    let frame = [
        ("TYPER", vgic::offset::V2M_TYPER),
        ("SETSPI", vgic::offset::V2M_SETSPI),
    ];
    assert_eq!(registers_of("V2M_"), frame);
    assert_eq!(named("VGIC_V2M_"), frame);
}

#[test]
fn refusals() {
    let ours = [
        ("ACCESS", Refusal::Access),
        ("WIDTH", Refusal::Width),
        ("VCPU", Refusal::Vcpu),
        ("LIMITS", Refusal::Limits),
        ("SHORT_STATE", Refusal::ShortState),
        ("BROKEN_STATE", Refusal::BrokenState),
        ("FULL_STACK", Refusal::FullStack),
        ("INPUT", Refusal::Input),
        ("IMAGE", Refusal::Image),
        ("ROOM", Refusal::Room),
        ("WINDOW", Refusal::Window),
    ];
    let ours = ours.map(|(name, refusal)| (name, refusal.number().into()));
    assert_eq!(named("VGIC_REFUSED_"), ours);
}

#[test]
fn flags_of_a_record() {
    type Field = fn(InterruptRecord) -> bool;
    let fields: [(&str, Field); 8] = [
        ("ENABLED", |it| it.enabled),
        ("PENDING", |it| it.pending),
        ("ACTIVE", |it| it.active),
        ("INFLIGHT", |it| it.inflight),
        ("REDELIVERY", |it| it.redelivery_pending),
        ("LINE", |it| it.line_asserted),
        ("EDGE", |it| it.trigger == TriggerMode::Edge),
        ("TARGETED", |it| it.cpu_target_mask.is_some()),
    ];
    let masks = named("VGIC_INTERRUPT_");
    assert!(masks.iter().map(|it| it.0).eq(fields.map(|it| it.0)));
    for (name, mask) in masks {
        let record = InterruptRecord::from_word(mask as u32);
        for (other, field) in fields {
            assert_eq!(field(record), name == other, "{name}: {other}");
        }
    }
}

#[test]
fn calls() {
    let outside = HEADER.lines().filter(|line| !line.starts_with(' '));
    let declared = outside.filter(|line| line.ends_with(");"));
    let declared = declared.filter_map(|line| between(line, " vgic_", "("));
    let declared: Vec<_> = declared.collect();
    let raw = include_str!("../src/raw.rs").lines();
    let ours = raw.filter_map(|line| between(line, "fn vgic_", "("));
    assert_eq!(declared, ours.collect::<Vec<_>>());
    for one in ["irq_level", "load", "write_v2m"] {
        assert!(declared.contains(&one), "{one}");
    }
}
