//! The controller: its state, who is offered what, whom a call wakes, device inputs.
mod cpu_interface;
mod distributor;
mod message_frame;
#[cfg(test)]
mod tests;

use crate::{record::Record, words::summary_size};

pub const SPURIOUS: u64 = 1023; // also "nothing retired"
const IDLE: u8 = 255; // running priority of an empty stack
pub const STACK_MAX: usize = 128; // request Two: "the depths in 6 and 7 become 128"
const IIDR: u64 = 0x0002_043B;

pub struct Answer {
    pub refusal: u64,
    pub value: u64,
    pub wake: u64,
    pub retired: u64,
}

pub fn refused(number: u64) -> Answer {
    Answer {
        refusal: number,
        value: 0,
        wake: 0,
        retired: SPURIOUS,
    }
}

pub fn gives(value: u64) -> Answer {
    Answer {
        refusal: 0,
        value,
        wake: 0,
        retired: SPURIOUS,
    }
}

/// What an IAR read would answer.
#[derive(Clone, Copy, PartialEq)]
pub enum Outlook {
    Spurious,
    Refused, // by 7
    Number,
}

/// Which word of the summary has the bit of an SPI, and the bit.
fn summary_place(id: u64) -> (usize, u32) {
    ((id / 32 - 1) as usize, 1 << (id % 32))
}

#[derive(Clone, Copy)]
pub struct Best {
    pub priority: u8,
    pub id: u64,
}

#[derive(Clone)]
pub struct Gic {
    pub count: u64,
    pub limit: u64,
    pub on: bool,             // Distributor CTLR bit 0
    pub records: Vec<Record>, // 32 for each vCPU, then the SPIs
    pub sources: Vec<u8>,     // 16 for each vCPU
    pub ctlr: Vec<u64>,       // CPU interfaces
    pub pmr: Vec<u64>,
    pub bpr: Vec<u64>,
    pub stack: Vec<Vec<(u64, u8)>>, // number and group priority, newest last
    pub summary: Vec<u32>,          // request Five: a bit for each SPI, from bit 0 of word 0 on
}

impl Gic {
    pub fn new(count: u64, limit: u64) -> Gic {
        let mut records = Vec::new();
        for _ in 0..count {
            for id in 0..32 {
                records.push(Record::new(id));
            }
        }
        for id in 32..limit {
            records.push(Record::new(id));
        }
        Gic {
            count,
            limit,
            on: false,
            records,
            sources: vec![0; 16 * count as usize],
            ctlr: vec![0; count as usize],
            pmr: vec![0; count as usize],
            bpr: vec![0; count as usize],
            stack: vec![Vec::new(); count as usize],
            summary: vec![0; summary_size(limit)],
        }
    }

    /// Where the record of interrupt `id`, as vCPU `v` sees it, is kept.
    pub fn slot(&self, v: u64, id: u64) -> usize {
        if id < 32 {
            (v * 32 + id) as usize
        } else {
            (self.count * 32 + id - 32) as usize
        }
    }

    pub fn source_slot(&self, v: u64, id: u64) -> usize {
        (v * 16 + id) as usize
    }

    /// Whether the summary says that an SPI is ready. In lent words it may be false.
    pub(crate) fn summary_bit(&self, id: u64) -> bool {
        let (word, bit) = summary_place(id);
        self.summary[word] & bit != 0
    }

    /// The one way in which a call changes a record. "Each transition called on a record sets its bit anew", also where the record is then
    /// as it was; no other bit changes. Private numbers have none.
    pub(crate) fn change(&mut self, v: u64, id: u64, by: impl FnOnce(&mut Record)) {
        let slot = self.slot(v, id);
        by(&mut self.records[slot]);
        if id >= 32 {
            let (word, bit) = summary_place(id);
            if self.records[slot].is_ready() {
                self.summary[word] |= bit;
            } else {
                self.summary[word] &= !bit;
            }
        }
    }

    /// "PMR and the choice of the best still use all 8 bits."
    fn better(&self, v: u64, r: &Record, best: Option<Best>) -> bool {
        if u64::from(r.priority()) >= self.pmr[v as usize] {
            return false;
        }
        match best {
            None => true,
            Some(b) => r.priority() < b.priority,
        }
    }

    /// The best candidate of every vCPU. Numbers rise, so the first of equal
    /// priorities stays. An SPI is taken for ready by its bit alone: "on a lent
    /// state whose bits are false, answers follow the bits". Its mask and
    /// priority are the record's.
    fn best_of_each(&self) -> [Option<Best>; 8] {
        let mut best: [Option<Best>; 8] = [None; 8];
        for v in 0..self.count {
            for id in 0..32 {
                let r = &self.records[self.slot(v, id)];
                if r.is_ready() && self.better(v, r, best[v as usize]) {
                    best[v as usize] = Some(Best {
                        priority: r.priority(),
                        id,
                    });
                }
            }
        }
        for id in 32..self.limit {
            if !self.summary_bit(id) {
                continue;
            }
            let r = &self.records[self.slot(0, id)];
            let mask = r.mask();
            for v in 0..self.count {
                let named = (mask >> v) & 1 == 1;
                if named && self.better(v, r, best[v as usize]) {
                    best[v as usize] = Some(Best {
                        priority: r.priority(),
                        id,
                    });
                }
            }
        }
        best
    }

    /// "With binary point b the group priority is the priority with its low b+1 bits cleared": 7 leaves none.
    fn group_priority(&self, v: u64, priority: u8) -> u8 {
        let cleared = (2 << self.bpr[v as usize]) - 1;
        (u64::from(priority) & !cleared) as u8
    }

    /// As stored: a later binary point does not regroup it.
    fn running(&self, v: u64) -> u8 {
        match self.stack[v as usize].last() {
            None => IDLE,
            Some(entry) => entry.1,
        }
    }

    fn interface_on(&self, v: u64) -> bool {
        self.ctlr[v as usize] & 1 == 1
    }

    /// What IAR gives vCPU v when its best candidate is `best`: "IAR compares it", the group priority, "with the running priority".
    fn outlook(&self, v: u64, best: Option<Best>) -> Outlook {
        if !self.on || !self.interface_on(v) {
            return Outlook::Spurious;
        }
        match best {
            None => Outlook::Spurious,
            Some(b) if self.group_priority(v, b.priority) >= self.running(v) => Outlook::Spurious,
            Some(_) if self.stack[v as usize].len() >= STACK_MAX => Outlook::Refused,
            Some(_) => Outlook::Number,
        }
    }

    /// Whether an IAR read by this vCPU, which exists, would give a number.
    pub fn irq_level(&self, v: u64) -> bool {
        self.outlooks()[v as usize] == Outlook::Number
    }

    fn outlooks(&self) -> [Outlook; 8] {
        let mut out = [Outlook::Spurious; 8];
        if !self.on {
            return out;
        }
        let best = self.best_of_each();
        for v in 0..self.count {
            out[v as usize] = self.outlook(v, best[v as usize]);
        }
        out
    }

    /// Wake set of a call that started with the outlooks `before`.
    fn woken(&self, before: [Outlook; 8]) -> u64 {
        let after = self.outlooks();
        let mut wake = 0;
        for v in 0..8 {
            if before[v] == Outlook::Spurious && after[v] == Outlook::Number {
                wake |= 1 << v;
            }
        }
        wake
    }

    /// level: Some(high) sets the line, None pulses.
    pub fn input(&mut self, v: u64, id: u64, level: Option<bool>) -> Answer {
        if id < 16 || id >= self.limit {
            return refused(8);
        }
        if id < 32 && v >= self.count {
            return refused(3);
        }
        let before = self.outlooks();
        match level {
            Some(high) => self.change(v, id, |r| r.file.set_level(high)),
            None => self.change(v, id, |r| r.file.pulse()),
        }
        let mut answer = gives(0);
        answer.wake = self.woken(before);
        answer
    }
}
