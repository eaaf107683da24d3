//! Who plays: so many vCPUs, and a few interrupts that most happens to; and writes at them.
use crate::{
    random::Random,
    registers::{self, REGISTERS, Register, Rule},
};
use types::register::*;

/// From the most urgent to one that is never offered.
const PRIORITIES: [u64; 11] = [0, 1, 2, 0x10, 0x40, 0x41, 0x7f, 0x80, 0xf0, 0xfe, 0xff];

#[derive(Clone, Copy, Debug)]
pub struct Place {
    pub vcpu: u64,
    pub offset: u64,
    pub width: u64,
}

pub struct Cast {
    pub count: u64,
    pub limit: u64,
    numbers: Vec<u64>,
}

impl Cast {
    /// Every count, and limits on both sides of a word; large ones are slow, and fewer.
    pub fn new(random: &mut Random) -> Cast {
        let limit = match random.below(20) {
            0 => 32 + random.below(989),
            1 => random.pick(&[288, 992, 1000, 1019, 1020]),
            _ => random.pick(&[32, 33, 34, 36, 40, 40, 47, 63, 64, 65, 70, 96, 100]),
        };
        Cast::of(random, limit)
    }

    /// Every number there can be, or all but a few.
    pub fn large(random: &mut Random) -> Cast {
        let limit = random.pick(&[1001, 1019, 1020, 1020]);
        Cast::of(random, limit)
    }

    fn of(random: &mut Random, limit: u64) -> Cast {
        let mut numbers = vec![random.below(16), random.below(16), 16 + random.below(16)];
        if limit > 32 {
            // Neighbours, so that they share a word and often four bytes; and the last number there is.
            let near = 32 + random.below(limit - 32);
            numbers.extend(near..limit.min(near + 1 + random.below(4)));
            numbers.push(limit - 1);
        }
        Cast {
            count: 1 + random.below(8),
            limit,
            numbers,
        }
    }

    /// Mostly one of the cast; at times from the limit up.
    pub fn number(&self, random: &mut Random) -> u64 {
        match random.below(20) {
            0 => random.below(1024),
            1 => self.limit,
            2 => random.below(self.limit),
            _ => random.pick(&self.numbers),
        }
    }

    pub fn sgi(&self, random: &mut Random) -> u64 {
        random.pick(&self.numbers[..2])
    }

    pub fn numbers(&self) -> &[u64] {
        &self.numbers
    }

    pub fn vcpu(&self, random: &mut Random) -> u64 {
        random.below(self.count)
    }

    /// At times one that there is not.
    fn any_vcpu(&self, random: &mut Random) -> u64 {
        match random.below(25) {
            0 => random.pick(&[self.count, 8, 9, 1 << 32, u64::MAX]),
            _ => self.vcpu(random),
        }
    }

    /// At times of a width that may be refused.
    pub fn place(&self, random: &mut Random, register: &Register) -> Place {
        let number = match register.first {
            GICD_CPENDSGIR | GICD_SPENDSGIR => self.sgi(random),
            _ => self.number(random),
        };
        let (offset, width) = register.place(number, random.pick(&[1, 2, 4, 4]));
        let other = random.percent(3);
        Place {
            vcpu: self.any_vcpu(random),
            offset,
            width: if other {
                random.pick(&[1, 2, 8])
            } else {
                width
            },
        }
    }

    /// A write anywhere in the Distributor's registers.
    pub fn write(&self, random: &mut Random) -> (Place, u64) {
        let register = &REGISTERS[random.below(REGISTERS.len() as u64) as usize];
        let place = self.place(random, register);
        (place, self.value(random, place))
    }

    /// Of the kind that its register takes; often with bits above the width.
    pub fn value(&self, random: &mut Random, at: Place) -> u64 {
        let register = registers::at(at.offset);
        let low = match register.first {
            GICD_CTLR => random.pick(&[0, 1, 1, 2, 3]),
            GICD_IPRIORITYR => bytes(|| random.pick(&PRIORITIES)),
            GICD_ITARGETSR | GICD_CPENDSGIR | GICD_SPENDSGIR => bytes(|| self.mask(random)),
            GICD_SGIR => self.ring(random),
            GICD_ICFGR => random.number(),
            _ => self.bits(random, register.numbers(at.offset, at.width).start),
        };
        let above = random.number() << 32;
        low & 0xffff_ffff | random.pick(&[0, 0, 1 << 32, above])
    }

    fn mask(&self, random: &mut Random) -> u64 {
        match random.below(6) {
            0 => 0xff,
            1 => random.below(256),
            2 | 3 => 0,
            _ => 1 << self.vcpu(random),
        }
    }

    /// An SGI of the cast, mostly by filter 0; bits that count for nothing at times.
    fn ring(&self, random: &mut Random) -> u64 {
        let filter = random.pick(&[0, 0, 0, 0, 0, 0, 1, 2, 3]);
        let nothing = random.number() & random.pick(&[0, 0xfc00_fff0]);
        self.sgi(random) | self.mask(random) << 16 | filter << 24 | nothing
    }

    /// None, all, few, many; or some of the cast's, where these start at `first`.
    fn bits(&self, random: &mut Random, first: u64) -> u64 {
        match random.below(10) {
            0 => random.pick(&[0, u64::MAX]),
            1 => random.number(),
            2 => random.number() & random.number() & random.number(),
            3 => random.number() | random.number(),
            _ => {
                let here = self.numbers.iter().filter(|it| **it / 32 == first / 32);
                here.filter(|_| random.percent(50))
                    .fold(0, |all, it| all | 1 << (it % 32))
            }
        }
    }

    /// Two values for one place; two rings are mostly of one SGI and by one filter, else nothing is said of them.
    pub fn two_values(&self, random: &mut Random, at: Place) -> (u64, u64) {
        let (a, mut b) = (self.value(random, at), self.value(random, at));
        if registers::at(at.offset).rule == Rule::Rings && random.percent(90) {
            let same = 3 << 24 | 15;
            b = b & !same | a & same;
        }
        match random.below(12) {
            0 => (a, a),
            1 => (a, a ^ b),
            _ => (a, b),
        }
    }
}

fn bytes(mut byte: impl FnMut() -> u64) -> u64 {
    (0..4).fold(0, |all, place| all | byte() << (8 * place))
}
