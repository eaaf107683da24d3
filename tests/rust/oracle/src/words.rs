//! The state as words: docs/STATE.md, written and read. By this the oracle's state is held against a library's, and words that no
//! history makes are put before the oracle.
use crate::{
    GicV3Controller, GicVcpuId, Priority, TriggerMode, VgicError, VgicResult, access,
    controller::state::State,
    machine::Input,
    redistributor::RedistributorState,
    registers::{Bank, Interrupt},
};
use types::Parts;

#[cfg(test)]
mod tests;

/// The words of a vCPU beside its stack: 4 interface values, 16 source sets, 32 records.
pub const VCPU: usize = 52;

/// The words in front of the first vCPU's.
pub const HEADER: usize = 3;

/// The entries that a stack has room for.
pub const STACK: usize = 128;

/// How many words the summary of the ready takes: a bit for each SPI.
pub const fn summary_words(limit: usize) -> usize {
    (limit - 1) / 32
}

/// How many words a state takes.
pub const fn size(count: usize, limit: usize) -> usize {
    HEADER + VCPU * count + (limit - 32) + summary_words(limit) + STACK * count
}

/// Whether a controller may have this count and limit.
pub fn within_limits(count: u64, limit: u64) -> bool {
    (1..=8).contains(&count) && (32..=1020).contains(&limit)
}

pub(crate) fn write(state: &State, words: &mut Vec<u32>) {
    let (vcpus, spis) = (&state.redistributors, &state.distributor.spis);
    words.extend([vcpus.len() as u32, 32 + spis.len() as u32]);
    words.push(state.distributor.enabled().into());
    for (_, own) in vcpus {
        let cpu = own.cpu_interface();
        let (mask, point) = (cpu.v2_priority_mask().raw(), cpu.v2_binary_point());
        words.extend([cpu.v2_control(), mask.into(), point.into()]);
        words.push(cpu.active().len() as u32);
        words.extend(own.sources.map(u32::from));
        words.extend(own.private.iter().map(record_word));
    }
    words.extend(spis.iter().map(record_word));
    words.extend(&state.distributor.summary);
    for (_, own) in vcpus {
        let (start, served) = (words.len(), own.cpu_interface().active());
        words.extend(
            served
                .iter()
                .map(|entry| entry.0 | u32::from(entry.1.raw()) << 10),
        );
        words.resize(start + STACK, 0);
    }
}

/// The word of one record. A private one is looked for at its vCPU, which has to be there; from the limit up it is 0.
pub(crate) fn record(state: &State, Input { vcpu, number }: Input) -> VgicResult<u32> {
    let number = u32::try_from(number).unwrap_or(u32::MAX);
    let found = if number < 32 {
        let vcpu = usize::try_from(vcpu).unwrap_or(usize::MAX);
        let own = state.redistributors.get(vcpu);
        own.ok_or(VgicError::NoVcpu(GicVcpuId::new(vcpu)))?
            .1
            .find(number)
    } else {
        state.distributor.find(number)
    };
    Ok(found.map_or(0, record_word))
}

fn record_word(it: &Interrupt) -> u32 {
    let parts = access::parts(&it.record);
    let flags = [
        parts.enabled,
        parts.pending,
        parts.active,
        parts.inflight,
        parts.redelivery_pending,
        parts.line_asserted,
        parts.trigger == TriggerMode::Edge,
        parts.cpu_target_mask.is_some(),
    ];
    let flags = flags
        .into_iter()
        .rfold(0, |bits, flag| bits << 1 | u8::from(flag));
    let mask = parts.cpu_target_mask.unwrap_or(0);
    let owner = it.owner.map_or(0, |vcpu| vcpu.raw() as u8 + 1);
    u32::from_le_bytes([flags, parts.priority.raw(), mask, owner])
}

/// What these words mean, if they are a state: refusal 6 is given where they are none.
pub(crate) fn read(words: &[u32]) -> Option<GicV3Controller> {
    let &[count, limit, ..] = words else {
        return None;
    };
    if !within_limits(count.into(), limit.into()) {
        return None;
    }
    let words = words.get(..size(count as usize, limit as usize))?;
    let gic = GicV3Controller::new(count as usize, limit);
    read_into(&mut gic.state(), words)?;
    Some(gic)
}

fn read_into(state: &mut State, words: &[u32]) -> Option<()> {
    state.distributor.set_enabled(words[2] & 1 != 0);
    let (vcpus, rest) = words[HEADER..].split_at(VCPU * state.redistributors.len());
    let (spis, rest) = rest.split_at(state.distributor.spis.len());
    let (summary, stacks) = rest.split_at(state.distributor.summary.len());
    read_records(&mut state.distributor.spis, spis);
    state.distributor.summary.copy_from_slice(summary);
    let own_words = vcpus.chunks(VCPU).zip(stacks.chunks(STACK));
    for ((_, own), (values, stack)) in state.redistributors.iter_mut().zip(own_words) {
        read_vcpu(own, values, stack)?;
    }
    Some(())
}

/// A depth over 128 is no state's.
fn read_vcpu(own: &mut RedistributorState, values: &[u32], stack: &[u32]) -> Option<()> {
    let served = stack.get(..values[3] as usize)?.iter();
    let entry = |word: &u32| (word & 0x3ff, Priority((word >> 10) as u8));
    let cpu = own.cpu_interface_mut();
    cpu.set_v2_control(values[0]);
    cpu.set_v2_priority_mask(values[1] as u8);
    cpu.set_v2_binary_point(values[2] as u8);
    cpu.set_active(served.map(entry).collect());
    for (sources, word) in own.sources.iter_mut().zip(&values[4..20]) {
        *sources = *word as u8;
    }
    read_records(&mut own.private, &values[20..]);
    Some(())
}

fn read_records(interrupts: &mut [Interrupt], words: &[u32]) {
    for (it, word) in interrupts.iter_mut().zip(words) {
        let [flags, priority, mask, owner] = word.to_le_bytes();
        let flag = |place: u32| flags >> place & 1 == 1;
        let edge = flag(6);
        it.record = access::make(&Parts {
            intid: it.record.intid(),
            enabled: flag(0),
            pending: flag(1),
            active: flag(2),
            inflight: flag(3),
            redelivery_pending: flag(4),
            line_asserted: flag(5),
            priority: Priority(priority),
            trigger: if edge {
                TriggerMode::Edge
            } else {
                TriggerMode::Level
            },
            cpu_target_mask: flag(7).then_some(mask),
        });
        it.owner = owner.checked_sub(1).map(|vcpu| GicVcpuId::new(vcpu.into()));
    }
}
