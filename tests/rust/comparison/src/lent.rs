//! Words that no history makes: any bits, any header, any length; and a few calls of them.
use crate::{
    Difference, Library, Mix, images, messages,
    pair::Pair,
    request::{FramePlace, Place, Request},
    slots,
};
use oracle::{
    RegisterRegion::{self, CpuInterface, Distributor},
    machine::Input,
    message_frame::{SETSPI, Window},
    register::*,
    scripts::random::Random,
    words::{HEADER, STACK, VCPU, size},
};

/// So many calls of such words.
pub fn play<L: Library>(
    pair: &mut Pair<L>,
    mix: Mix,
    seed: u64,
    calls: u64,
) -> Result<(), Difference> {
    let mut random = Random::new(seed);
    let end = pair.tally.calls + calls;
    while pair.tally.calls < end {
        let shape = Shape::any(&mut random);
        pair.lend(shape.words(&mut random));
        for _ in 0..1 + random.below(8) {
            let request = match mix {
                Mix::Plain => shape.request(&mut random, pair.words()),
                Mix::Messages => shape.request_or_message(&mut random, pair.words()),
            };
            pair.call(&request)?;
        }
    }
    Ok(())
}

/// The count and limit that the words were made for; the header may say otherwise.
#[derive(Clone, Copy)]
struct Shape {
    count: usize,
    limit: usize,
}

impl Shape {
    fn any(random: &mut Random) -> Self {
        let limit = match random.below(20) {
            0 => 32 + random.below(989) as usize,
            _ => random.pick(&[32, 33, 34, 40, 40, 40, 48, 63, 64, 65, 96, 300, 1019, 1020]),
        };
        Self {
            count: random.pick(&[1, 1, 1, 1, 2, 2, 2, 3, 3, 4, 5, 6, 7, 8]),
            limit,
        }
    }

    fn size(self) -> usize {
        size(self.count, self.limit)
    }

    /// Where a vCPU has its stack.
    fn stack(self, vcpu: usize) -> usize {
        self.size() - STACK * (self.count - vcpu)
    }

    fn words(self, random: &mut Random) -> Vec<u32> {
        let mut words: Vec<u32> = (0..self.size()).map(|_| random.number() as u32).collect();
        if random.percent(85) {
            self.tame_records(random, &mut words);
        }
        self.tame_summary(random, &mut words);
        for vcpu in 0..self.count {
            self.tame_vcpu(random, &mut words, vcpu);
        }
        self.header(random, &mut words);
        let length = match random.below(100) {
            0..2 => self.size() - 1,
            2..4 => random.below(self.size() as u64) as usize,
            4..6 => random.below(4) as usize,
            10..30 => self.size() + 1 + random.below(8) as usize,
            _ => self.size(),
        };
        words.resize(length, 0xdead_beef);
        words
    }

    /// Mostly the count and limit that the words are for.
    fn header(self, random: &mut Random, words: &mut [u32]) {
        (words[0], words[1]) = (self.count as u32, self.limit as u32);
        if random.percent(3) {
            words[0] = random.pick(&[0, 9, 8, 256 + 1, (1 << 31) + 1, u32::MAX]);
        }
        if random.percent(3) {
            words[1] = random.pick(&[0, 31, 32, 1021, 1020, (1 << 16) + 40, u32::MAX]);
        }
        if random.percent(85) {
            words[2] |= 1;
        }
    }

    /// More of them enabled and fewer active, priorities and owners that meet; and in some words few that are pending.
    fn tame_records(self, random: &mut Random, words: &mut [u32]) {
        let rarely = random.pick(&[0, 0, 0b10]);
        for (at, vcpu) in self.records() {
            let (mut word, other) = (words[at], random.number());
            word |= other as u32 & 0b1000_0011;
            word &= !(other >> 32) as u32 | !0b0001_1100;
            if other >> 60 != 0 {
                word &= !rarely;
            }
            if other >> 58 & 1 == 1 {
                word = word & !0xff00 | random.pick(&[0, 1, 0x10, 0x7f, 0x80, 0xfe, 0xff]) << 8;
            }
            if other >> 59 & 1 == 1 {
                word = word & 0x00ff_ffff | (vcpu as u32 + 1) << 24;
            }
            words[at] = word;
        }
    }

    /// Where the records stand, and at which vCPU each may well be served.
    fn records(self) -> impl Iterator<Item = (usize, usize)> {
        let private = (0..self.count)
            .flat_map(|v| (HEADER + VCPU * v + 20..HEADER + VCPU * (v + 1)).map(move |at| (at, v)));
        let start = HEADER + VCPU * self.count;
        let shared = start..start + self.limit - 32;
        private.chain(shared.map(move |at| (at, at % (self.count + 1))))
    }

    /// Bits as the records have them, with a few turned, or any at all; and from the limit up none or any.
    fn tame_summary(self, random: &mut Random, words: &mut [u32]) {
        (words[0], words[1]) = (self.count as u32, self.limit as u32);
        let kind = random.below(10);
        if kind < 8 {
            words.copy_from_slice(&slots::exact(words));
        }
        if (4..8).contains(&kind) && self.limit > 32 {
            for _ in 0..1 + random.below(4) {
                let number = 32 + random.below(self.limit as u64 - 32) as usize;
                let turned = !slots::has_bit(words, number);
                slots::put_bit(words, number, turned);
            }
        }
        if let (Some((at, bits)), true) = (slots::past(words), random.percent(40)) {
            words[at] &= !bits;
        }
    }

    /// Mostly on, with a high mask and a stack that a state may have; entries often of interrupts that there are, odd ones as often as even.
    fn tame_vcpu(self, random: &mut Random, words: &mut [u32], vcpu: usize) {
        let values = HEADER + VCPU * vcpu;
        if random.percent(85) {
            words[values] |= 1;
            words[values + 1] = words[values + 1] & !0xff | random.pick(&[255, 255, 0x80, 0xf0]);
        }
        words[values + 3] = match random.below(100) {
            0 => random.pick(&[129, 129, 129, 130, 255, 256, 1 << 16, 1 << 31, u32::MAX]),
            1..12 => STACK as u32,
            12..20 => STACK as u32 - 1,
            20..70 => random.below(4) as u32,
            _ => 0,
        };
        let stack = self.stack(vcpu);
        for word in &mut words[stack..stack + STACK] {
            if *word >> 31 == 0 {
                *word = *word & !0x3ff | random.below(self.limit as u64) as u32;
            }
        }
    }

    fn vcpu(self, random: &mut Random) -> u64 {
        let count = self.count as u64;
        match random.below(30) {
            0 => random.pick(&[count, count + 1, 8, 255, 256, 1 << 32, 1 << 63, u64::MAX]),
            _ => random.below(count),
        }
    }

    /// One that there is, or just about.
    fn number(self, random: &mut Random) -> u64 {
        match random.below(20) {
            0 => random.below(1024),
            1 => random.pick(&[
                self.limit as u64,
                1019,
                1020,
                1023,
                (1 << 32) + 33,
                u64::MAX,
            ]),
            _ => random.below(self.limit as u64),
        }
    }

    fn request(self, random: &mut Random, words: &[u32]) -> Request {
        match random.below(100) {
            at @ 0..54 => self.interface(random, words, at),
            54..84 => self.distributor(random),
            84..92 => self.input(random),
            92..97 => self.anywhere(random),
            at => self.whole(random, at),
        }
    }

    /// The same with seven messages in a hundred, in the place of some others.
    fn request_or_message(self, random: &mut Random, words: &[u32]) -> Request {
        match random.below(100) {
            at @ 0..54 => self.interface(random, words, at),
            54..80 => self.distributor(random),
            80..86 => self.input(random),
            86..93 => self.message(random, words),
            93..97 => self.anywhere(random),
            at => self.whole(random, at),
        }
    }

    /// A CPU interface's, 54 of a hundred.
    fn interface(self, random: &mut Random, words: &[u32], at: u64) -> Request {
        match at {
            0..22 => self.interface_read(random, &[GICC_IAR, GICC_IAR, GICC_AIAR]),
            22..28 => self.interface_read(
                random,
                &[GICC_HPPIR, GICC_RPR, GICC_CTLR, GICC_PMR, GICC_BPR],
            ),
            28..46 => self.end(random, words),
            _ => self.interface_write(random),
        }
    }

    /// The last three of a hundred, which are about all of the words.
    fn whole(self, random: &mut Random, at: u64) -> Request {
        match at {
            97 => self.save(random),
            98 => Request::Load(images::bytes(random).into()),
            _ => self.setup(random),
        }
    }

    fn interface_read(self, random: &mut Random, registers: &[u64]) -> Request {
        let register = random.pick(registers);
        Request::Read(self.place(random, CpuInterface, register, 4))
    }

    fn interface_write(self, random: &mut Random) -> Request {
        let register = random.pick(&[GICC_CTLR, GICC_PMR, GICC_PMR, GICC_BPR, GICC_ABPR]);
        let value = match register {
            GICC_BPR | GICC_ABPR => random.number(),
            _ => {
                let value = random.pick(&[0, 1, 0x201, 0x80, 255, 255, u64::MAX]);
                value | (random.number() & random.number() & random.number())
            }
        };
        Request::Write(self.place(random, CpuInterface, register, 4), value)
    }

    /// EOIR mostly of the newest entry, DIR of anything.
    fn end(self, random: &mut Random, words: &[u32]) -> Request {
        let vcpu = random.below(self.count as u64) as usize;
        let depth = words.get(HEADER + VCPU * vcpu + 3).copied().unwrap_or(0) as usize;
        let newest = (self.stack(vcpu) + depth).wrapping_sub(1);
        let newest = words.get(newest).map_or(5, |word| u64::from(word & 0x3ff));
        let register = random.pick(&[GICC_EOIR, GICC_EOIR, GICC_AEOIR, GICC_DIR]);
        let number = match random.below(10) {
            0..7 if register != GICC_DIR => newest,
            _ => self.number(random),
        };
        let mut at = self.place(random, CpuInterface, register, 4);
        if random.percent(90) {
            at.vcpu = vcpu as u64;
        }
        Request::Write(at, number | random.pick(&[0, 0, 1 << 10, 1 << 32]))
    }

    fn distributor(self, random: &mut Random) -> Request {
        let register = random.pick(&[
            GICD_CTLR,
            GICD_IGROUPR,
            GICD_ISENABLER,
            GICD_ICENABLER,
            GICD_ISPENDR,
            GICD_ICPENDR,
            GICD_ISACTIVER,
            GICD_ICACTIVER,
            GICD_ICACTIVER,
            GICD_IPRIORITYR,
            GICD_ITARGETSR,
            GICD_ICFGR,
            GICD_SGIR,
            GICD_SGIR,
            GICD_CPENDSGIR,
            GICD_SPENDSGIR,
        ]);
        let number = random.below(self.limit as u64 + 8);
        let width = random.pick(&[1, 2, 4]);
        let (offset, width) = match register {
            GICD_CTLR | GICD_SGIR => (register, 4),
            GICD_IPRIORITYR | GICD_ITARGETSR => (register + number - number % width, width),
            GICD_CPENDSGIR | GICD_SPENDSGIR => (register + number % 16 - number % width, width),
            GICD_ICFGR => (register + number / 16 * 4, 4),
            _ => (register + number / 32 * 4, 4),
        };
        let at = self.place(random, Distributor, offset, width);
        match random.below(10) {
            0 | 1 => Request::Read(at),
            2 => Request::Write(at, u64::MAX),
            3..6 => Request::Write(at, random.number()),
            _ => Request::Write(at, random.number() & random.number() & random.number()),
        }
    }

    fn input(self, random: &mut Random) -> Request {
        let (vcpu, number) = (self.vcpu(random), self.number(random));
        let input = Input { vcpu, number };
        match random.below(5) {
            0 | 1 => Request::Pulse(input),
            2 | 3 => Request::SetLevel(input, true),
            _ => Request::SetLevel(input, false),
        }
    }

    /// Half of the time for an SPI that does not wait, and may be given once it does.
    fn message(self, random: &mut Random, words: &[u32]) -> Request {
        let limit = self.limit as u64;
        let spis = HEADER + VCPU * self.count..HEADER + VCPU * self.count + self.limit - 32;
        let records = words.get(spis).unwrap_or_default().iter();
        let may_be_given = |record: u32| record & 0x87 == 0x81 && record & 0xff_0000 != 0;
        let quiet = (32..)
            .zip(records)
            .filter(|(_, record)| may_be_given(**record));
        let quiet: Vec<u64> = quiet.map(|(number, _)| number).collect();
        if quiet.is_empty() || random.percent(50) {
            return messages::any_request(random, limit);
        }
        let (first, count) = (32, limit - 32);
        let at = FramePlace {
            window: Window { first, count },
            offset: SETSPI,
            width: 4,
        };
        Request::WriteMessageFrame(at, random.pick(&quiet))
    }

    /// Any place of any frame and beyond, at any width.
    fn anywhere(self, random: &mut Random) -> Request {
        let region = random.pick(&[Distributor, CpuInterface]);
        let width = random.pick(&[1, 2, 4, 4, 4, 8, 0, 3, 16, u64::MAX]);
        let offset = match random.below(8) {
            0 => random.number(),
            1 => u64::MAX - random.below(16),
            2 => (1 << 32) + random.below(0x1000),
            3 => random.pick(&[0x1000, 0x2000]) - 8 + random.below(16),
            _ => random.below(0x2000),
        };
        let offset = if random.percent(70) {
            offset & !3
        } else {
            offset
        };
        let at = self.place(random, region, offset, width);
        if random.percent(50) {
            Request::Read(at)
        } else {
            Request::Write(at, random.number())
        }
    }

    /// Into too little, or enough.
    fn save(self, random: &mut Random) -> Request {
        let room = random.pick(&[0, 1, 90, 1000, 16 << 10, 16 << 10]);
        Request::Save { room }
    }

    /// As it is, one that needs more or fewer words, or none.
    fn setup(self, random: &mut Random) -> Request {
        let (count, limit) = (self.count as u64, self.limit as u64);
        Request::Setup {
            count: random.pick(&[count, count, 1, count + 1, 0, 9, (1 << 32) + 1, u64::MAX]),
            limit: random.pick(&[limit, limit, 32, limit + 1, 31, 1021, (1 << 32) + 40]),
        }
    }

    fn place(self, random: &mut Random, region: RegisterRegion, offset: u64, width: u64) -> Place {
        Place {
            region,
            vcpu: self.vcpu(random),
            offset,
            width,
        }
    }
}
