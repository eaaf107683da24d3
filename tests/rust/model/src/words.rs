//! The lent words of docs/STATE.md: which controller they mean, and how a controller is written.
use crate::{
    IntId, Priority, TriggerMode,
    gic::{Gic, STACK_MAX},
    record::Record,
};
use types::Parts;

const HEADER: usize = 3;
const VCPU: usize = 52; // 4 values, 16 source sets, 32 records
const STACK: usize = STACK_MAX; // an entry is a word

pub fn in_range(count: u64, limit: u64) -> bool {
    (1..=8).contains(&count) && (32..=1020).contains(&limit)
}

/// How many words a controller in range takes.
pub fn size(count: u64, limit: u64) -> usize {
    HEADER + (VCPU + STACK) * count as usize + limit as usize - 32 + summary_size(limit)
}

/// Request Five: "one bit per SPI", 32 to a word.
pub fn summary_size(limit: u64) -> usize {
    (limit as usize - 1) / 32
}

/// None where refusal 6 is given.
pub fn read(words: &[u32]) -> Option<Gic> {
    let (count, limit) = (u64::from(*words.first()?), u64::from(*words.get(1)?));
    if !in_range(count, limit) {
        return None;
    }
    let words = words.get(..size(count, limit))?;
    let mut gic = Gic::new(count, limit);
    gic.on = words[2] % 2 == 1;
    for v in 0..count as usize {
        read_vcpu(&mut gic, words, v)?;
    }
    let spis = HEADER + VCPU * count as usize;
    for id in 32..limit {
        let slot = gic.slot(0, id);
        gic.records[slot] = record(id, words[spis + id as usize - 32]);
    }
    // As they lie, false bits and bits from the limit up too.
    let summary = &words[spis + limit as usize - 32..][..summary_size(limit)];
    gic.summary.copy_from_slice(summary);
    Some(gic)
}

fn read_vcpu(gic: &mut Gic, words: &[u32], v: usize) -> Option<()> {
    let own = &words[HEADER + VCPU * v..][..VCPU];
    let stacks = words.len() - STACK * gic.count as usize;
    let entries = &words[stacks + STACK * v..][..STACK];
    gic.ctlr[v] = u64::from(own[0]) & 0x201;
    gic.pmr[v] = u64::from(own[1]) % 256;
    gic.bpr[v] = u64::from(own[2]) % 8;
    let served = entries.get(..own[3] as usize)?.iter();
    let served = served.map(|word| (u64::from(word % 1024), (word / 1024 % 256) as u8));
    gic.stack[v] = served.collect();
    for (sgi, word) in own[4..20].iter().enumerate() {
        gic.sources[16 * v + sgi] = (word % 256) as u8;
    }
    for (id, word) in own[20..].iter().enumerate() {
        gic.records[32 * v + id] = record(id as u64, *word);
    }
    Some(())
}

/// Bit 7 says whether the mask counts.
fn record(id: u64, word: u32) -> Record {
    let bit = |place: u32| word >> place & 1 == 1;
    let byte = |place: u32| (word >> place) as u8;
    let parts = Parts {
        intid: IntId::new(id as u32).expect("below the limit"),
        enabled: bit(0),
        pending: bit(1),
        active: bit(2),
        inflight: bit(3),
        redelivery_pending: bit(4),
        line_asserted: bit(5),
        priority: Priority(byte(8)),
        trigger: if bit(6) {
            TriggerMode::Edge
        } else {
            TriggerMode::Level
        },
        cpu_target_mask: bit(7).then_some(byte(16)),
    };
    Record::make(&parts, u64::from(byte(24)).checked_sub(1))
}

/// With no bit that counts for nothing, and 0 past a stack's depth; but the summary as it is, since its bits from the limit up stay.
pub fn write(gic: &Gic) -> Vec<u32> {
    let mut words = vec![gic.count as u32, gic.limit as u32, gic.on.into()];
    for v in 0..gic.count as usize {
        words.extend([gic.ctlr[v], gic.pmr[v], gic.bpr[v]].map(|value| value as u32));
        words.push(gic.stack[v].len() as u32);
        words.extend(gic.sources[16 * v..][..16].iter().copied().map(u32::from));
        words.extend(gic.records[32 * v..][..32].iter().map(word));
    }
    let spis = 32 * gic.count as usize;
    words.extend(gic.records[spis..].iter().map(word));
    words.extend(&gic.summary);
    for stack in &gic.stack {
        let end = words.len() + STACK;
        let entry = |&(id, priority): &(u64, u8)| id as u32 + 1024 * u32::from(priority);
        words.extend(stack.iter().map(entry));
        words.resize(end, 0);
    }
    words
}

/// The words that a transition on one SPI writes: its record, without bits that count for nothing, and its word of the summary, of which no
/// other bit changes.
pub(crate) fn write_spi(gic: &Gic, id: u64, words: &mut [u32]) {
    let spis = HEADER + VCPU * gic.count as usize;
    let summary = spis + gic.limit as usize - 32;
    let at = id as usize - 32;
    words[spis + at] = word(&gic.records[gic.slot(0, id)]);
    words[summary + at / 32] = gic.summary[at / 32];
}

fn word(record: &Record) -> u32 {
    let parts = record.parts();
    let flag = |set: bool, place: u32| u32::from(set) << place;
    let mask = parts.cpu_target_mask.unwrap_or(0);
    let owner = record.owner.map_or(0, |v| v as u32 + 1);
    flag(parts.enabled, 0)
        + flag(parts.pending, 1)
        + flag(parts.active, 2)
        + flag(parts.inflight, 3)
        + flag(parts.redelivery_pending, 4)
        + flag(parts.line_asserted, 5)
        + flag(record.is_edge(), 6)
        + flag(parts.cpu_target_mask.is_some(), 7)
        + (u32::from(record.priority()) << 8)
        + (u32::from(mask) << 16)
        + (owner << 24)
}
