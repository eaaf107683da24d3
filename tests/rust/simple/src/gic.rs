//! The controller's state, who is offered what, whom a call wakes, and the inputs of devices.
use crate::record::Record;

/// The running priority of a vCPU that serves nothing.
const IDLE: u8 = 255;
/// How many interrupts a vCPU may have under service.
const STACK: usize = 128;
/// What IAR and HPPIR give where there is no interrupt.
pub const SPURIOUS: u32 = 1023;
pub const IIDR: u32 = 0x0002_043b;

/// Why a call is refused, by the numbers of documents 01 and 02.
#[derive(Clone, Copy, Debug, PartialEq, Eq)]
pub enum Refusal {
    Access = 1,
    Width = 2,
    Vcpu = 3,
    Limits = 4,
    ShortState = 5,
    NoState = 6,
    FullStack = 7,
    Input = 8,
    Image = 9,
    Room = 10,
    Window = 11,
}

/// What an accepted call gives back.
#[derive(Clone, Copy, Debug, Default, PartialEq, Eq)]
pub struct Reply {
    pub value: u32,
    pub wake: u8,
    pub retired: Option<u16>,
}

pub type Answer = Result<Reply, Refusal>;

pub fn value(value: u32) -> Reply {
    Reply {
        value,
        ..Reply::default()
    }
}

/// An interrupt that may be offered, or that is under service.
#[derive(Clone, Copy, Debug, PartialEq, Eq)]
pub struct Entry {
    pub id: u16,
    pub priority: u8,
}

#[derive(Clone, Debug)]
pub struct Vcpu {
    pub enabled: bool,
    pub eoi_mode: bool,
    pub mask: u8,
    pub binary_point: u8,
    /// What it has under service, the newest last, each with its group priority as it was when it was taken.
    pub stack: Vec<Entry>,
    /// For each SGI the vCPUs that have sent it.
    pub sources: [u8; 16],
    pub records: Vec<Record>,
}

#[derive(Clone, Debug)]
pub struct Gic {
    pub(crate) limit: u16,
    pub(crate) enabled: bool,
    pub(crate) vcpus: Vec<Vcpu>,
    pub(crate) spis: Vec<Record>,
}

/// What a read of IAR would come to.
enum Offer {
    Nothing,
    Number(Entry),
    FullStack,
}

impl Vcpu {
    fn new() -> Self {
        Self {
            enabled: false,
            eoi_mode: false,
            mask: 0,
            binary_point: 0,
            stack: Vec::new(),
            sources: [0; 16],
            records: (0..32).map(Record::new).collect(),
        }
    }

    /// A priority with its low bits cleared, one more than the binary point says.
    fn group(&self, priority: u8) -> u8 {
        let cleared = (2_u16 << self.binary_point) - 1;
        priority & !cleared as u8
    }

    pub fn running(&self) -> u8 {
        self.stack.last().map_or(IDLE, |entry| entry.priority)
    }
}

impl Gic {
    pub fn new(count: u64, limit: u64) -> Result<Self, Refusal> {
        if !(1..=8).contains(&count) || !(32..=1020).contains(&limit) {
            return Err(Refusal::Limits);
        }
        Ok(Self {
            limit: limit as u16,
            enabled: false,
            vcpus: (0..count).map(|_| Vcpu::new()).collect(),
            spis: (32..limit as u16).map(Record::new).collect(),
        })
    }

    /// The look-up of a vCPU.
    pub(crate) fn vcpu(&self, vcpu: u64) -> Result<usize, Refusal> {
        if vcpu < self.vcpus.len() as u64 {
            Ok(vcpu as usize)
        } else {
            Err(Refusal::Vcpu)
        }
    }

    /// The record of an interrupt as this vCPU sees it; none from the limit up.
    pub(crate) fn record(&self, vcpu: usize, id: u16) -> Option<&Record> {
        if id < 32 {
            Some(&self.vcpus[vcpu].records[usize::from(id)])
        } else {
            self.spis.get(usize::from(id) - 32)
        }
    }

    pub(crate) fn record_mut(&mut self, vcpu: usize, id: u16) -> Option<&mut Record> {
        if id < 32 {
            Some(&mut self.vcpus[vcpu].records[usize::from(id)])
        } else {
            self.spis.get_mut(usize::from(id) - 32)
        }
    }

    /// The candidate of the smallest priority, and of these the first.
    fn best(&self, vcpu: usize) -> Option<Entry> {
        let own = &self.vcpus[vcpu];
        let mut best = None;
        let mut bound = own.mask;
        for (id, record) in own.records.iter().enumerate() {
            if record.offered() && record.priority < bound {
                bound = record.priority;
                best = Some(id);
            }
        }
        for (index, record) in self.spis.iter().enumerate() {
            if record.offered() && record.priority < bound && record.targets(vcpu) {
                bound = record.priority;
                best = Some(32 + index);
            }
        }
        best.map(|id| Entry {
            id: id as u16,
            priority: bound,
        })
    }

    pub(crate) fn highest_pending(&self, vcpu: usize) -> Option<Entry> {
        if !self.enabled || !self.vcpus[vcpu].enabled {
            return None;
        }
        self.best(vcpu)
    }

    /// The candidates are held against the mask and each other by their priorities, the best against what is served by its group's.
    fn offer(&self, vcpu: usize) -> Offer {
        let Some(Entry { id, priority }) = self.highest_pending(vcpu) else {
            return Offer::Nothing;
        };
        let own = &self.vcpus[vcpu];
        let priority = own.group(priority);
        if priority >= own.running() {
            Offer::Nothing
        } else if own.stack.len() < STACK {
            Offer::Number(Entry { id, priority })
        } else {
            Offer::FullStack
        }
    }

    /// What a read of IAR takes, if it takes anything, with its group priority.
    pub(crate) fn take(&self, vcpu: usize) -> Result<Option<Entry>, Refusal> {
        match self.offer(vcpu) {
            Offer::Nothing => Ok(None),
            Offer::Number(best) => Ok(Some(best)),
            Offer::FullStack => Err(Refusal::FullStack),
        }
    }

    /// The vCPUs that a read of IAR would give 1023.
    pub(crate) fn quiet(&self) -> u8 {
        (0..self.vcpus.len())
            .filter(|&vcpu| matches!(self.offer(vcpu), Offer::Nothing))
            .fold(0, |set, vcpu| set | 1 << vcpu)
    }

    /// Those of them that it would give a number now.
    pub(crate) fn woken(&self, quiet: u8) -> u8 {
        (0..self.vcpus.len())
            .filter(|&vcpu| quiet >> vcpu & 1 == 1)
            .filter(|&vcpu| matches!(self.offer(vcpu), Offer::Number(_)))
            .fold(0, |set, vcpu| set | 1 << vcpu)
    }

    /// Whether a read of IAR by this vCPU would now give a number.
    pub fn irq_level(&self, vcpu: u64) -> Answer {
        let vcpu = self.vcpu(vcpu)?;
        Ok(value(matches!(self.offer(vcpu), Offer::Number(_)).into()))
    }

    /// A device raises or lowers its line.
    pub fn set_level(&mut self, vcpu: u64, number: u64, asserted: bool) -> Answer {
        self.input(vcpu, number, |record| record.set_level(asserted))
    }

    /// A device pulses its line.
    pub fn pulse(&mut self, vcpu: u64, number: u64) -> Answer {
        self.input(vcpu, number, Record::pulse)
    }

    fn input(&mut self, vcpu: u64, number: u64, change: impl FnOnce(&mut Record)) -> Answer {
        if !(16..u64::from(self.limit)).contains(&number) {
            return Err(Refusal::Input);
        }
        // Only a private number's vCPU is looked up.
        let vcpu = if number < 32 { self.vcpu(vcpu)? } else { 0 };
        let quiet = self.quiet();
        if let Some(record) = self.record_mut(vcpu, number as u16) {
            change(record);
        }
        Ok(Reply {
            wake: self.woken(quiet),
            ..Reply::default()
        })
    }
}
