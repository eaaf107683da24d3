//! Histories from setup on: lines, pulses, rings, acknowledges, ends, and writes to every register.
use crate::{cast::Cast, random::Random};
use model::gic::Gic;
use types::register::*;

/// A history under way.
pub struct Scene {
    pub cast: Cast,
    pub gic: Gic,
}

type Step = fn(&mut Scene, &mut Random);

const STEPS: &[(u64, Step)] = &[
    (30, Scene::distributor),
    (16, Scene::input),
    (6, Scene::ring),
    (16, Scene::acknowledge),
    (12, Scene::end),
    (5, Scene::interface),
    (2, Scene::calm),
    (2, Scene::stir),
    (1, Scene::nest),
];

impl Scene {
    /// Everything is on, and the cast's SPIs go to somebody.
    pub fn new(random: &mut Random, cast: fn(&mut Random) -> Cast) -> Scene {
        let cast = cast(random);
        let gic = Gic::new(cast.count, cast.limit);
        let mut scene = Scene { cast, gic };
        scene.switch_on(random);
        for _ in 0..12 {
            let (number, vcpu) = (scene.cast.number(random), scene.cast.vcpu(random));
            let word = number / 32 * 4;
            let bit = 1 << (number % 32);
            scene.gic.dist_write(vcpu, GICD_ISENABLER + word, 4, bit);
            let targets = 1 << scene.cast.vcpu(random);
            scene
                .gic
                .dist_write(vcpu, GICD_ITARGETSR + number, 1, targets);
        }
        scene
    }

    /// Some steps, after which nothing waits, or much; and what was switched off is mostly on again.
    pub fn play(&mut self, random: &mut Random) {
        for _ in 0..8 + random.below(40) {
            random.weighed(STEPS)(self, random);
        }
        random.pick(&[Scene::calm, Scene::stir, Scene::input])(self, random);
        if random.percent(80) {
            self.switch_on(random);
        }
        for _ in 0..random.below(3) {
            self.input(random);
        }
    }

    fn switch_on(&mut self, random: &mut Random) {
        self.gic.dist_write(0, GICD_CTLR, 4, 1);
        for vcpu in 0..self.cast.count {
            let control = random.pick(&[1, 1, 1, 0x201]);
            self.gic.cpu_write(vcpu, GICC_CTLR, 4, control);
            let mask = random.pick(&[255, 255, 255, 0xf0, 0x80]);
            self.gic.cpu_write(vcpu, GICC_PMR, 4, mask);
        }
    }

    fn distributor(&mut self, random: &mut Random) {
        let (at, value) = self.cast.write(random);
        self.gic.dist_write(at.vcpu, at.offset, at.width, value);
    }

    fn input(&mut self, random: &mut Random) {
        let level = random.pick(&[None, Some(true), Some(true), Some(false)]);
        let number = self.cast.number(random);
        self.gic.input(self.cast.vcpu(random), number, level);
    }

    fn acknowledge(&mut self, random: &mut Random) {
        let register = random.pick(&[GICC_IAR, GICC_IAR, GICC_AIAR]);
        self.gic.cpu_read(self.cast.vcpu(random), register, 4);
    }

    /// Mostly the newest.
    fn end(&mut self, random: &mut Random) {
        let vcpu = self.cast.vcpu(random);
        let any = self.cast.number(random);
        let newest = self.gic.stack[vcpu as usize].last().map_or(any, |it| it.0);
        let register = random.pick(&[GICC_EOIR, GICC_EOIR, GICC_AEOIR, GICC_DIR]);
        let number = random.pick(&[newest, newest, newest, any]);
        self.gic.cpu_write(vcpu, register, 4, number);
    }

    fn interface(&mut self, random: &mut Random) {
        let vcpu = self.cast.vcpu(random);
        let register = random.pick(&[GICC_CTLR, GICC_PMR, GICC_BPR, GICC_ABPR]);
        let value = random.number() & random.pick(&[0x201, 0xff, 0x207, u64::MAX]);
        self.gic.cpu_write(vcpu, register, 4, value);
    }

    /// Most that waits is taken back, so that the next to come wakes.
    fn calm(&mut self, random: &mut Random) {
        for vcpu in 0..self.cast.count {
            for bytes in 0..4 {
                let offset = GICD_CPENDSGIR + 4 * bytes;
                self.gic.dist_write(vcpu, offset, 4, u64::MAX);
            }
            self.gic.dist_write(vcpu, GICD_ICPENDR, 4, u64::MAX);
        }
        for word in 1..self.cast.limit.div_ceil(32) {
            let register = random.pick(&[GICD_ICENABLER, GICD_ICPENDR, GICD_ICPENDR]);
            self.gic.dist_write(0, register + 4 * word, 4, u64::MAX);
        }
    }

    /// The cast's interrupts come, and at times its SGIs from everybody.
    fn stir(&mut self, random: &mut Random) {
        for number in self.cast.numbers() {
            let vcpu = self.cast.vcpu(random);
            let (word, bit) = (number / 32 * 4, 1 << (number % 32));
            if random.percent(50) {
                self.gic.dist_write(vcpu, GICD_ISENABLER + word, 4, bit);
            }
            self.gic
                .input(vcpu, *number, random.pick(&[None, Some(true)]));
        }
        for _ in 0..random.pick(&[0, 2 * self.cast.count]) {
            self.ring(random);
        }
    }

    fn ring(&mut self, random: &mut Random) {
        let (sender, target) = (self.cast.vcpu(random), self.cast.vcpu(random));
        let value = self.cast.sgi(random) | 1 << (16 + target);
        self.gic.dist_write(sender, GICD_SGIR, 4, value);
    }

    /// One SGI is taken again and again, always more urgent, until the stack is full or nearly.
    fn nest(&mut self, random: &mut Random) {
        let vcpu = self.cast.vcpu(random);
        let sgi = random.below(16);
        let until = random.pick(&[0, 0, 1, 2, 0x40]);
        self.switch_on(random);
        self.gic.cpu_write(vcpu, GICC_BPR, 4, 0);
        for priority in (until..128).rev().map(|half| 2 * half) {
            self.gic
                .dist_write(vcpu, GICD_IPRIORITYR + sgi, 1, priority);
            self.gic.dist_write(vcpu, GICD_ISENABLER, 4, 1 << sgi);
            self.gic.dist_write(vcpu, GICD_SGIR, 4, 2 << 24 | sgi);
            self.gic.cpu_read(vcpu, GICC_IAR, 4);
            self.gic.dist_write(vcpu, GICD_ICACTIVER, 4, 1 << sgi);
        }
    }
}
