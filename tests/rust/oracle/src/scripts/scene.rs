//! Where a history plays: so many vCPUs, a few interrupts, and what is under way.
use super::random::Random;
use crate::{
    AccessWidth::{self, Byte, Dword},
    RegisterRegion::{self, CpuInterface, Distributor},
    machine::{Access, Answer, Call, SPURIOUS},
    message_frame::Window,
    register::*,
};

/// From the most urgent to one that is never offered.
const PRIORITIES: [u64; 10] = [0, 1, 0x10, 0x20, 0x40, 0x7f, 0x80, 0xa0, 0xfe, 0xff];

pub struct Scene {
    pub count: u64,
    pub limit: u64,
    /// The interrupts that play: SGIs, PPIs, SPIs.
    pub sgis: Vec<u64>,
    pub inputs: Vec<u64>,
    /// The vCPUs that most happens at.
    pub stage: Vec<u64>,
    /// About half of the priorities are this one but for a bit, so that it is the binary point that tells them apart.
    near: u64,
    /// For each vCPU what IAR gave and nothing has ended, the newest last.
    pub held: Vec<Vec<u64>>,
    /// What EOIR has ended without deactivating it: in EOI mode it waits for DIR.
    pub dropped: Vec<Vec<u64>>,
    /// The card's, if there are messages; where there are no SPIs, it is refused.
    pub window: Option<Window>,
    steps_left: u64,
}

impl Scene {
    /// A few steps before the first setup.
    pub fn before_setup(random: &mut Random) -> Self {
        Self {
            steps_left: 8,
            ..Self::new(random)
        }
    }

    pub fn new(random: &mut Random) -> Self {
        let count = random.pick(&[1, 2, 2, 3, 4, 4, 5, 7, 8]);
        let limit = random.pick(&[32, 33, 34, 40, 40, 63, 64, 65, 96, 100, 288, 1019, 1020]);
        let mut sgis: Vec<u64> = (0..2).map(|_| random.below(16)).collect();
        sgis.dedup();
        let mut inputs: Vec<u64> = (0..2).map(|_| 16 + random.below(16)).collect();
        if limit > 32 {
            // One word's worth, so that they share registers, and the last number there is.
            let word = 32 + 32 * random.below((limit - 1) / 32);
            inputs.extend((0..3).map(|_| word + random.below(limit.min(word + 32) - word)));
            inputs.push(limit - 1);
        }
        let any = (0..count).collect::<Vec<_>>();
        let stage = (0..2).map(|_| random.pick(&any)).collect();
        Self {
            count,
            limit,
            sgis,
            inputs,
            stage,
            near: random.below(256),
            held: vec![vec![]; count as usize],
            dropped: vec![vec![]; count as usize],
            window: None,
            steps_left: 150 + random.below(350),
        }
    }

    /// From now on there are messages: for all SPIs, for those that play and what lies between, or for one of them.
    pub fn open_window(&mut self, random: &mut Random) {
        let spis = self.inputs.iter().copied().filter(|number| *number >= 32);
        let spis: Vec<u64> = spis.collect();
        let ends = spis.iter().min().zip(spis.iter().max());
        let window = |first: u64, last: u64| Window {
            first,
            count: last - first + 1,
        };
        self.window = Some(match (ends, random.below(5)) {
            (None, _) => window(32, 32),
            (Some(_), 0) => window(32, self.limit - 1),
            (Some(_), 1) => {
                let one = random.pick(&spis);
                window(one, one)
            }
            (Some((&first, &last)), _) => window(first, last),
        });
    }

    pub fn is_over(&self) -> bool {
        self.steps_left == 0
    }

    pub fn take_step(&mut self) {
        self.steps_left -= 1;
    }

    /// Mostly one of the stage.
    pub fn vcpu(&self, random: &mut Random) -> u64 {
        if random.percent(85) {
            random.pick(&self.stage)
        } else {
            random.below(self.count)
        }
    }

    /// One that has something on its list, if there is one; at times any.
    pub fn one_with(&self, lists: &[Vec<u64>], random: &mut Random) -> u64 {
        let has = |vcpu: &u64| !lists[*vcpu as usize].is_empty();
        let having: Vec<u64> = (0..self.count).filter(has).collect();
        if having.is_empty() || random.percent(10) {
            self.vcpu(random)
        } else {
            random.pick(&having)
        }
    }

    pub fn interrupt(&self, random: &mut Random) -> u64 {
        if random.percent(40) {
            random.pick(&self.sgis)
        } else {
            random.pick(&self.inputs)
        }
    }

    pub fn priority(&self, random: &mut Random) -> u64 {
        if random.percent(50) {
            self.near ^ 1 << random.below(8)
        } else {
            random.pick(&PRIORITIES)
        }
    }

    /// A write of the binary point, by both names; at times with bits above it, which are nothing.
    pub fn binary_point(&self, vcpu: u64, point: u64, random: &mut Random) -> Call {
        let register = random.pick(&[GICC_BPR, GICC_BPR, GICC_ABPR]);
        let above = random.pick(&[0, 0, 0, 8, 0xf8, 0xffff_fff8]);
        write(CpuInterface, vcpu, register, Dword, above | point)
    }

    /// A guest's first accesses: everything on, each interrupt with a priority, an enable, a trigger and targets.
    pub fn boot(&self, random: &mut Random) -> Vec<Call> {
        let (count, limit) = (self.count, self.limit);
        let mut calls = vec![Call::Setup { count, limit }];
        calls.push(write(Distributor, 0, GICD_CTLR, Dword, 1));
        for vcpu in 0..count {
            let control = random.pick(&[1, 1, 1, 0x201, 0]);
            calls.push(write(CpuInterface, vcpu, GICC_CTLR, Dword, control));
            let mask = random.pick(&[255, 255, 255, 0xf0, 0x80]);
            calls.push(write(CpuInterface, vcpu, GICC_PMR, Dword, mask));
            if random.percent(75) {
                let point = random.below(8);
                calls.push(self.binary_point(vcpu, point, random));
            }
            for &number in self.sgis.iter().chain(&self.inputs) {
                if number < 32 || vcpu == 0 {
                    self.boot_interrupt(random, vcpu, number, &mut calls);
                }
            }
        }
        calls
    }

    fn boot_interrupt(&self, random: &mut Random, vcpu: u64, number: u64, calls: &mut Vec<Call>) {
        let priority = self.priority(random);
        calls.push(write(
            Distributor,
            vcpu,
            GICD_IPRIORITYR + number,
            Byte,
            priority,
        ));
        let enable = GICD_ISENABLER + number / 32 * 4;
        calls.push(write(Distributor, vcpu, enable, Dword, 1 << (number % 32)));
        if number >= 16 && random.percent(50) {
            let config = GICD_ICFGR + number / 16 * 4;
            calls.push(write(
                Distributor,
                vcpu,
                config,
                Dword,
                2 << (number % 16 * 2),
            ));
        }
        if number >= 32 {
            let targets = self.targets(random);
            calls.push(write(
                Distributor,
                vcpu,
                GICD_ITARGETSR + number,
                Byte,
                targets,
            ));
        }
    }

    /// A mask of vCPUs, mostly of the stage.
    pub fn targets(&self, random: &mut Random) -> u64 {
        match random.below(4) {
            0 => random.below(256),
            1 => self.stage.iter().fold(0, |mask, vcpu| mask | 1 << vcpu),
            _ => 1 << self.vcpu(random),
        }
    }

    /// Keeps up with what an accepted call has done. (An accepted one may still name a vCPU that does not exist.)
    pub fn see(&mut self, call: &Call, answer: &Answer) {
        if answer.refusal != 0 {
            return;
        }
        match *call {
            Call::Setup { .. } => {
                self.held.iter_mut().for_each(Vec::clear);
                self.dropped.iter_mut().for_each(Vec::clear);
            }
            Call::Read(at) if at.vcpu < self.count => {
                self.held[at.vcpu as usize].extend(call.acknowledged(answer));
            }
            Call::Write(at, value) if at.region == CpuInterface && at.vcpu < self.count => {
                self.see_write(&at, value, answer);
            }
            _ => {}
        }
    }

    fn see_write(&mut self, at: &Access, value: u64, answer: &Answer) {
        let vcpu = at.vcpu as usize;
        let same = |it: u64| it % 1024 == value % 1024;
        match at.offset {
            GICC_EOIR | GICC_AEOIR => {
                let ended = self.held[vcpu].pop_if(|newest| same(*newest));
                if answer.retired == SPURIOUS {
                    self.dropped[vcpu].extend(ended);
                }
            }
            GICC_DIR => self.dropped[vcpu].retain(|it| !same(*it)),
            _ => {}
        }
    }
}

pub fn write(
    region: RegisterRegion,
    vcpu: u64,
    offset: u64,
    width: AccessWidth,
    value: u64,
) -> Call {
    let at = Access {
        region,
        vcpu,
        offset,
        width,
    };
    Call::Write(at, value)
}

pub fn read(region: RegisterRegion, vcpu: u64, offset: u64, width: AccessWidth) -> Call {
    Call::Read(Access {
        region,
        vcpu,
        offset,
        width,
    })
}
