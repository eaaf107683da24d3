//! The CPU interface's registers: acknowledge, end, deactivate.
use super::{Answer, Best, Gic, IIDR, Outlook, SPURIOUS, gives, refused};
use crate::{
    InterruptState,
    place::{bad_span, cut},
};

const CPU_FRAME: u64 = 0x2000;
const FIRST_UNDECODABLE: u64 = 1020;

impl Gic {
    pub fn cpu_read(&mut self, v: u64, off: u64, width: u64) -> Answer {
        if bad_span(off, width, CPU_FRAME) {
            return refused(1);
        }
        if width != 4 {
            return refused(2);
        }
        let looks_up = match off {
            0x00 | 0x04 | 0x08 | 0x1C | 0x14 | 0x18 | 0x28 => true,
            0x0C | 0x20 => self.on,
            _ => false,
        };
        if looks_up && v >= self.count {
            return refused(3);
        }
        match off {
            0x00 => gives(self.ctlr[v as usize]),
            0x04 => gives(self.pmr[v as usize]),
            0x08 | 0x1C => gives(self.bpr[v as usize]),
            0x0C | 0x20 => self.acknowledge(v),
            0x14 => gives(self.running(v) as u64), // "RPR shows it"
            0x18 | 0x28 => gives(self.highest_pending(v)),
            0xFC => gives(IIDR),
            _ => gives(0),
        }
    }

    fn highest_pending(&self, v: u64) -> u64 {
        if !self.on || !self.interface_on(v) {
            return SPURIOUS;
        }
        match self.best_of_each()[v as usize] {
            None => SPURIOUS,
            Some(best) => best.id,
        }
    }

    fn acknowledge(&mut self, v: u64) -> Answer {
        if !self.on {
            return gives(SPURIOUS); // v may be anything here
        }
        let best = self.best_of_each()[v as usize];
        match self.outlook(v, best) {
            Outlook::Spurious => return gives(SPURIOUS),
            Outlook::Refused => return refused(7),
            Outlook::Number => {}
        }
        // By a false bit its record may be not enabled, not pending or active: it is given like any other.
        let Best { id, priority } = best.unwrap();
        self.change(v, id, |r| {
            r.file.mark_inflight();
            r.owner = Some(v);
            r.file.synchronize_inflight(InterruptState::Active);
        });
        let entry = (id, self.group_priority(v, priority)); // "the stack holds it"
        self.stack[v as usize].push(entry);
        if id < 16 {
            gives(id + 1024 * self.take_source(v, id))
        } else {
            gives(id)
        }
    }

    /// Takes the lowest source of an SGI; pends again if others remain.
    fn take_source(&mut self, v: u64, id: u64) -> u64 {
        let at = self.source_slot(v, id);
        let mut lowest = 0;
        for s in 0..8 {
            if (self.sources[at] >> s) & 1 == 1 {
                lowest = s;
                break;
            }
        }
        self.sources[at] &= !(1 << lowest);
        if self.sources[at] != 0 {
            self.change(v, id, |r| r.set_pending(true));
        }
        lowest
    }

    pub fn cpu_write(&mut self, v: u64, off: u64, width: u64, value: u64) -> Answer {
        if bad_span(off, width, CPU_FRAME) {
            return refused(1);
        }
        if width != 4 {
            return refused(2);
        }
        let value = cut(value, width);
        let id = value & 0x3FF;
        let looks_up = match off {
            0x00 | 0x04 | 0x08 | 0x1C => true,
            0x10 | 0x24 | 0x1000 => id < FIRST_UNDECODABLE,
            _ => false,
        };
        if !looks_up {
            return gives(0); // nothing is kept and nobody wakes
        }
        if v >= self.count {
            return refused(3);
        }
        let before = self.outlooks();
        let mut answer = gives(0);
        match off {
            0x00 => self.ctlr[v as usize] = value & 0x201,
            0x04 => self.pmr[v as usize] = value & 0xFF,
            0x08 | 0x1C => self.bpr[v as usize] = value & 7,
            0x10 | 0x24 => answer.retired = self.end(v, id),
            _ => answer.retired = self.deactivate(v, id),
        }
        answer.wake = self.woken(before);
        answer
    }

    /// EOIR of a number that decodes; gives the retirement.
    fn end(&mut self, v: u64, id: u64) -> u64 {
        let newest = match self.stack[v as usize].last() {
            None => return SPURIOUS,
            Some(entry) => entry.0,
        };
        if newest != id {
            return SPURIOUS;
        }
        self.stack[v as usize].pop();
        if self.ctlr[v as usize] & 0x200 != 0 {
            return SPURIOUS; // EOI mode: only the priority drops
        }
        self.deactivate(v, id)
    }

    fn deactivate(&mut self, v: u64, id: u64) -> u64 {
        if id >= self.limit {
            return SPURIOUS;
        }
        let r = &self.records[self.slot(v, id)];
        if r.inflight() && r.owner == Some(v) {
            self.change(v, id, |r| {
                let pending = r.file.pending();
                r.file.deactivate_inflight(pending);
                r.owner = None;
            });
            return id;
        }
        if r.file.active() && !r.inflight() {
            self.change(v, id, |r| {
                r.file.complete();
            });
        }
        SPURIOUS // no transition but these two: else a false bit stays
    }
}
