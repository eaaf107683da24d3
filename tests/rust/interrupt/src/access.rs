//! Below interrupt.rs: a record's fields, to make a record in any state and to read the flags that it has no accessor for.
use super::InterruptRecord;
use types::Parts;

pub(crate) fn make(parts: &Parts) -> InterruptRecord {
    InterruptRecord {
        intid: parts.intid,
        enabled: parts.enabled,
        pending: parts.pending,
        active: parts.active,
        inflight: parts.inflight,
        redelivery_pending: parts.redelivery_pending,
        line_asserted: parts.line_asserted,
        priority: parts.priority,
        trigger: parts.trigger,
        route: None,
        cpu_target_mask: parts.cpu_target_mask,
    }
}

pub(crate) fn parts(record: &InterruptRecord) -> Parts {
    Parts {
        intid: record.intid,
        enabled: record.enabled,
        pending: record.pending,
        active: record.active,
        inflight: record.inflight,
        redelivery_pending: record.redelivery_pending,
        line_asserted: record.line_asserted,
        priority: record.priority,
        trigger: record.trigger,
        cpu_target_mask: record.cpu_target_mask,
    }
}
