//! Prints what every transition of interrupt.rs, with its one patch, gives on every record state, in the form of the Rattle program
//! `interrupt_states`.
use std::io::{self, BufWriter, Write};

// What interrupt.rs takes from its crate's root.
pub use types::{GicAffinity, IntId, InterruptState, Priority, TriggerMode};

#[allow(dead_code)] // routes, and what only other files of the crate call
mod file {
    include!(concat!(env!("OUT_DIR"), "/interrupt_root.rs"));
    pub(crate) use interrupt::{InterruptRecord, access};
}
use file::{InterruptRecord, access};
use types::Parts;

/// One line of results. The Rust has no owner in the record: what the line starts with stays.
struct Row<'a, W: Write> {
    out: &'a mut W,
    owner: char,
}

impl<W: Write> Row<'_, W> {
    fn show(&mut self, record: &InterruptRecord) -> io::Result<()> {
        let parts = access::parts(record);
        let flag = |set: bool, letter: char| if set { letter } else { '-' };
        let mask = record
            .cpu_target_mask()
            .map_or("..".into(), |mask| format!("{mask:02x}"));
        write!(
            self.out,
            " {}{}{}{}{}{}{}:{:02x}:{mask}:{}",
            flag(record.enabled(), 'E'),
            flag(record.pending(), 'P'),
            flag(record.active(), 'A'),
            flag(parts.inflight, 'I'),
            flag(parts.redelivery_pending, 'R'),
            flag(parts.line_asserted, 'L'),
            if record.trigger() == TriggerMode::Level {
                'l'
            } else {
                'e'
            },
            record.priority().0,
            self.owner,
        )
    }

    /// The record after `change`, made anew from `start`.
    fn after(
        &mut self,
        start: &Parts,
        change: impl FnOnce(&mut InterruptRecord),
    ) -> io::Result<()> {
        let mut record = access::make(start);
        change(&mut record);
        self.show(&record)
    }

    fn truth(&mut self, b: bool) -> io::Result<()> {
        write!(self.out, " {}", if b { "yes" } else { "no" })
    }

    fn state(&mut self, state: InterruptState) -> io::Result<()> {
        write!(self.out, " {state:?}")
    }

    fn all(&mut self, start: &Parts) -> io::Result<()> {
        use InterruptState::{Active, ActivePending, Inactive, Pending};
        let states = [Inactive, Pending, Active, ActivePending];
        let record = access::make(start);
        self.show(&record)?;
        self.state(record.state())?;
        self.truth(record.has_delivery_state())?;
        self.truth(record.deliverable())?;
        for b in [false, true] {
            self.after(start, |r| r.set_enabled(b))?;
        }
        for b in [false, true] {
            self.after(start, |r| r.set_pending(b))?;
        }
        for b in [false, true] {
            self.after(start, |r| r.set_active(b))?;
        }
        for state in states {
            self.after(start, |r| r.set_state(state))?;
        }
        self.after(start, |r| r.clear_delivery_state())?;
        self.after(start, |r| r.mark_inflight())?;
        for state in states {
            let mut record = access::make(start);
            let merged = record.synchronize_inflight(state);
            self.show(&record)?;
            self.state(merged)?;
        }
        self.after(start, |r| r.cancel_inflight())?;
        self.after(start, |r| r.finish_inflight())?;
        for b in [false, true] {
            self.after(start, |r| r.deactivate_inflight(b))?;
        }
        self.after(start, |r| r.complete())?;
        for b in [false, true] {
            self.after(start, |r| r.set_level(b))?;
        }
        self.after(start, |r| r.pulse())?;
        for priority in [0, 128, 255] {
            self.after(start, |r| r.set_priority(Priority(priority)))?;
        }
        for trigger in [TriggerMode::Level, TriggerMode::Edge] {
            self.after(start, |r| r.set_trigger(trigger))?;
        }
        for mask in [0, 165, 255] {
            self.after(start, |r| r.set_cpu_target_mask(mask))?;
        }
        writeln!(self.out)
    }
}

/// SPI 32 with these seven flags.
fn start(low: u32, priority: Priority, cpu_target_mask: Option<u8>) -> Parts {
    let set = |place: u32| low >> place & 1 == 1;
    Parts {
        intid: IntId::new(32).unwrap(),
        enabled: set(0),
        pending: set(1),
        active: set(2),
        inflight: set(3),
        redelivery_pending: set(4),
        line_asserted: set(5),
        priority,
        trigger: if set(6) {
            TriggerMode::Edge
        } else {
            TriggerMode::Level
        },
        cpu_target_mask,
    }
}

fn main() -> io::Result<()> {
    let mut out = BufWriter::new(io::stdout().lock());
    for raw in 0..1024 {
        write!(out, "{raw}")?;
        let mut row = Row {
            out: &mut out,
            owner: '.',
        };
        match IntId::new(raw) {
            Ok(intid) => {
                for trigger in [TriggerMode::Level, TriggerMode::Edge] {
                    row.show(&InterruptRecord::new(intid, trigger))?;
                }
            }
            Err(_) => write!(row.out, " none")?,
        }
        writeln!(out)?;
    }
    for (priority, mask, owner) in [
        (0, None, '.'),
        (0x80, Some(0), '2'),
        (0xff, Some(0xa5), '7'),
    ] {
        for low in 0..128 {
            Row {
                out: &mut out,
                owner,
            }
            .all(&start(low, Priority(priority), mask))?;
        }
    }
    out.flush()
}
