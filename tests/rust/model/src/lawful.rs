//! Request One's lawful state: demand 3's properties, which requests Two and Five add to, and those that One adds, each beside its sentence.
use crate::{gic::Gic, record::Record};

impl Gic {
    pub fn is_lawful(&self) -> bool {
        let lawful_vcpu = |v| {
            self.stack_in_order(v)
                && (0..16).all(|sgi| self.lawful_sgi(v, sgi))
                && (0..32).all(|id| self.lawful_private(v, id))
        };
        (0..self.count).all(lawful_vcpu) && (32..self.limit).all(|id| self.lawful_spi(id))
    }

    /// "The priorities under service fall strictly from the oldest to the newest and lie below 255"; "stored entries are now even"; "stack
    /// numbers lie below the limit".
    fn stack_in_order(&self, v: u64) -> bool {
        let mut above = 255;
        for &(id, priority) in &self.stack[v as usize] {
            if priority >= above || priority % 2 == 1 || id >= self.limit {
                return false;
            }
            above = priority;
        }
        true
    }

    /// "An SGI is pending at a vCPU exactly when a source bit is set there"; "every SGI is edge with its line low and no redelivery noted".
    fn lawful_sgi(&self, v: u64, sgi: u64) -> bool {
        let record = &self.records[self.slot(v, sgi)];
        let (parts, sources) = (record.parts(), self.sources[self.source_slot(v, sgi)]);
        parts.pending == (sources != 0)
            && record.is_edge()
            && !parts.line_asserted
            && !parts.redelivery_pending
    }

    /// "Private records have" no mask; "a private record in flight belongs to its own vCPU".
    fn lawful_private(&self, v: u64, id: u64) -> bool {
        let record = &self.records[self.slot(v, id)];
        let own = record.owner.is_none_or(|owner| owner == v);
        record.parts().cpu_target_mask.is_none() && own && lawful_record(record)
    }

    /// "Masks name existing vCPUs"; one in flight is "charged to one existing vCPU"; its bit is "set exactly when it is enabled, pending and
    /// not active". Only bits of SPIs below the limit are asked.
    fn lawful_spi(&self, id: u64) -> bool {
        let record = &self.records[self.slot(0, id)];
        let exists = record.owner.is_none_or(|owner| owner < self.count);
        let exact = self.summary_bit(id) == record.is_ready();
        u64::from(record.mask()) < 1 << self.count && exists && exact && lawful_record(record)
    }
}

/// "Each interrupt in flight is active and charged to one" vCPU, "one not in flight to nobody"; "redelivery is noted only for one in
/// flight".
fn lawful_record(record: &Record) -> bool {
    let parts = record.parts();
    if parts.inflight {
        parts.active && record.owner.is_some()
    } else {
        record.owner.is_none() && !parts.redelivery_pending
    }
}
