//! Demand 3 of the mission, on a state as it stands, with what request Five adds to it; and with it the rest of request One's lawful state,
//! which makes it last.
use crate::{
    GicV3Controller, GicVcpuId, Priority, SgiId, TriggerMode, access,
    distributor::DistributorState, redistributor::RedistributorState, registers::Interrupt,
};
use types::Parts;

/// The first property that does not hold.
pub(crate) fn broken(gic: &GicV3Controller) -> Option<String> {
    let state = gic.state();
    let count = state.redistributors.len();
    let limit = 32 + state.distributor.spis.len() as u32;
    let exists = |vcpu: GicVcpuId| vcpu.raw() < count;
    let names_existing = |mask: u8| mask.checked_shr(count as u32).unwrap_or(0) == 0;
    let broken_vcpu = |(vcpu, own): &(GicVcpuId, RedistributorState)| {
        let private = |parts: &Parts| parts.cpu_target_mask.is_none();
        broken_stack(own, limit)
            .or_else(|| broken_sgi(own))
            .or_else(|| broken_record(&own.private, |owner| owner == *vcpu, private))
    };
    let shared = |parts: &Parts| parts.cpu_target_mask.is_none_or(names_existing);
    state
        .redistributors
        .iter()
        .find_map(broken_vcpu)
        .or_else(|| broken_record(&state.distributor.spis, exists, shared))
        .or_else(|| broken_summary(&state.distributor))
}

/// The bit of an SPI is set exactly when it is enabled, pending and not active.
fn broken_summary(distributor: &DistributorState) -> Option<String> {
    let ready = distributor.spis.iter().filter(|it| it.ready());
    let exact = ready
        .map(|it| it.record.intid())
        .eq(distributor.summarized().map(|it| it.record.intid()));
    (!exact).then(|| format!("summary {:x?}", distributor.summary))
}

/// The priorities under service fall strictly, lie below 255 and are even, so that there are at most 128; the numbers lie below the limit.
fn broken_stack(own: &RedistributorState, limit: u32) -> Option<String> {
    let served = own.cpu_interface().active();
    let well = served.windows(2).all(|pair| pair[0].1 > pair[1].1)
        && served.iter().all(|entry| entry.1 < Priority::IDLE)
        && served.iter().all(|entry| entry.1.raw() % 2 == 0)
        && served.iter().all(|entry| entry.0 < limit)
        && served.len() <= 128;
    (!well).then(|| format!("under service: {served:?}"))
}

/// An SGI is pending exactly when a source bit is set; it is edge, its line low, no redelivery noted.
fn broken_sgi(own: &RedistributorState) -> Option<String> {
    own.private[..16].iter().zip(0..).find_map(|(it, raw)| {
        let parts = access::parts(&it.record);
        let sources = own.sgi_sources(SgiId::new(raw).ok()?);
        let well = parts.pending == (sources != 0)
            && parts.trigger == TriggerMode::Edge
            && !parts.line_asserted
            && !parts.redelivery_pending;
        (!well).then(|| format!("sources {sources}, {:?}", it.record))
    })
}

/// One in flight is active and has its one owner, no other has any; redelivery is noted only in flight; the mask is as it may be.
fn broken_record(
    interrupts: &[Interrupt],
    may_own: impl Fn(GicVcpuId) -> bool,
    may_have_mask: impl Fn(&Parts) -> bool,
) -> Option<String> {
    interrupts.iter().find_map(|it| {
        let parts = access::parts(&it.record);
        let well = if parts.inflight {
            parts.active && it.owner.is_some_and(&may_own)
        } else {
            it.owner.is_none() && !parts.redelivery_pending
        };
        let well = well && may_have_mask(&parts);
        (!well).then(|| format!("owner {:?}, {:?}", it.owner, it.record))
    })
}
