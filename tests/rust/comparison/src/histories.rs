//! Histories from setup on: the scripts' scenes, every place at every width in the midst of them, every count and limit, a full stack.
use crate::{
    Difference, Library, Mix, messages,
    pair::Pair,
    request::{Place, Request},
};
use oracle::{
    RegisterRegion::{self, CpuInterface, Distributor},
    lines,
    machine::{Answer, Call, SPURIOUS},
    scripts::{Histories, random::Random},
    words::{STACK, size, within_limits},
};
use std::rc::Rc;

/// Widths that are none; some would be, if they were cut to fewer bits.
pub const NO_WIDTHS: [u64; 9] = [0, 3, 5, 6, 7, 16, (1 << 32) + 4, 1 << 63, u64::MAX];

/// Scenes, and what plays in them.
pub struct Scenes {
    mix: Mix,
    random: Random,
    histories: Histories,
    /// Large scenes are slow, and most of them are not played.
    passed_over: bool,
}

/// The limit from which a scene is large.
const LARGE: u64 = 200;

impl Scenes {
    pub fn new(mix: Mix, seed: u64) -> Self {
        Self {
            mix,
            random: Random::new(!seed),
            histories: match mix {
                Mix::Plain => Histories::new(seed),
                Mix::Messages => Histories::with_messages(seed),
            },
            passed_over: false,
        }
    }

    /// So many calls of the histories.
    pub fn play<L: Library>(&mut self, pair: &mut Pair<L>, calls: u64) -> Result<(), Difference> {
        let end = pair.tally.calls + calls;
        while pair.tally.calls < end {
            self.step(pair)?;
        }
        Ok(())
    }

    /// The next call; at times before it the same at no width.
    fn step<L: Library>(&mut self, pair: &mut Pair<L>) -> Result<(), Difference> {
        let line = self.histories.line();
        let call = match self.mix {
            Mix::Plain => lines::parse(&line),
            Mix::Messages => lines::parse_with_messages(&line),
        };
        let Some(call) = call else {
            return Ok(());
        };
        if let Call::Setup { count, limit } = call
            && within_limits(count, limit)
        {
            self.passed_over = limit >= LARGE && self.random.percent(75);
            if !self.passed_over {
                self.lend(pair, size(count as usize, limit as usize), &call.into())?;
            }
        }
        if self.passed_over {
            return Ok(());
        }
        if self.random.below(200) == 0 {
            self.go_on_elsewhere(pair)?;
        }
        if self.random.percent(2) {
            let width = self.random.pick(&NO_WIDTHS);
            pair.call(&Request::from(call).at_width(width))?;
        }
        let answer = pair.call(&call.into())?;
        self.histories.see(&call, &answer);
        Ok(())
    }

    /// Saves the controller and loads it into other words, from where the history goes on; a save is refused where there is none yet.
    fn go_on_elsewhere<L: Library>(&mut self, pair: &mut Pair<L>) -> Result<(), Difference> {
        let room = pair.room();
        if pair.call(&Request::Save { room })?.refusal == 0 {
            self.load(pair, pair.image.as_slice().into())?;
        }
        Ok(())
    }

    /// Loads what was saved into other words.
    pub fn load<L: Library>(
        &mut self,
        pair: &mut Pair<L>,
        image: Rc<[u8]>,
    ) -> Result<(), Difference> {
        let &[count, limit, ..] = pair.words() else {
            unreachable!("it was saved");
        };
        let load = Request::Load(image);
        self.lend(pair, size(count as usize, limit as usize), &load)?;
        pair.call(&load)?;
        Ok(())
    }

    /// Words with anything in them, as many as are needed for the first call or some more; at times too few first, which take no message
    /// either, where there are messages.
    fn lend<L: Library>(
        &mut self,
        pair: &mut Pair<L>,
        enough: usize,
        first: &Request,
    ) -> Result<(), Difference> {
        if self.random.percent(30) {
            let few = self
                .random
                .pick(&[0, 1, 2, 3, 99, enough - STACK, enough - 1]);
            pair.lend(self.words(few));
            pair.call(first)?;
            if self.mix == Mix::Messages {
                pair.call(&messages::any_request(&mut self.random, 40))?;
            }
        }
        let more = self.random.pick(&[0, 0, 0, 1, 8]);
        pair.lend(self.words(enough + more));
        Ok(())
    }

    pub fn words(&mut self, length: usize) -> Vec<u32> {
        (0..length).map(|_| self.random.number() as u32).collect()
    }

    /// Every offset of both frames, and some past them, at each width and at one that is none, while a history goes on.
    pub fn sweep<L: Library>(&mut self, pair: &mut Pair<L>, calls: u64) -> Result<(), Difference> {
        let end = pair.tally.calls + calls;
        let all = (0..0x1010).map(|offset| (Distributor, offset));
        let mut all = all
            .chain((0..0x2010).map(|offset| (CpuInterface, offset)))
            .cycle();
        while pair.tally.calls < end {
            let (region, offset) = all.next().expect("a cycle");
            self.place(pair, region, offset)?;
            for _ in 0..7 {
                self.step(pair)?;
            }
        }
        Ok(())
    }

    fn place<L: Library>(
        &mut self,
        pair: &mut Pair<L>,
        region: RegisterRegion,
        offset: u64,
    ) -> Result<(), Difference> {
        for width in [1, 2, 4, 8, self.random.pick(&NO_WIDTHS)] {
            let count = u64::from(pair.words().first().copied().unwrap_or(0));
            let vcpu = self
                .random
                .pick(&[0, 1, 2, count.wrapping_sub(1), count, 8, u64::MAX]);
            let at = Place {
                region,
                vcpu,
                offset,
                width,
            };
            let value = self.random.number() & self.random.number();
            pair.call(&Request::Write(at, value))?;
            pair.call(&Request::Read(at))?;
        }
        Ok(())
    }
}

/// A call by its line, which is one.
pub fn line<L: Library>(pair: &mut Pair<L>, line: &str) -> Result<Answer, Difference> {
    let call = lines::parse_with_messages(line.as_bytes()).expect("a line");
    pair.call(&call.into())
}

/// The stack as full as it gets from setup on, at each binary point.
pub fn deepest<L: Library>(pair: &mut Pair<L>) -> Result<(), Difference> {
    (0..8).try_for_each(|point| deepest_at(pair, point))
}

/// One SGI tried at every priority, each more urgent than the last: it is taken where a group begins, 128 times at binary point 0, and
/// cancelled under service; and then ended as often, and once more.
fn deepest_at<L: Library>(pair: &mut Pair<L>, point: u64) -> Result<(), Difference> {
    pair.lend(vec![u32::MAX; size(2, 40)]);
    for start in ["n 2 40", "D 0 0 4 1", "C 1 0 4 1", "C 1 4 4 255"] {
        line(pair, start)?;
    }
    line(pair, &format!("C 1 8 4 {point}"))?;
    let mut taken = 0;
    for priority in (0..255).rev() {
        line(pair, &format!("D 1 1027 1 {priority}"))?; // IPRIORITYR of SGI 3
        line(pair, "D 1 3840 4 33554435")?; // SGIR, to oneself
        taken += u64::from(line(pair, "c 1 12 4")?.value != SPURIOUS.into());
        line(pair, "D 1 896 4 8")?; // ICACTIVER
    }
    assert_eq!(taken, STACK as u64 >> point, "at binary point {point}");
    for _ in 0..=taken {
        line(pair, "c 1 20 4")?; // RPR
        line(pair, "C 1 16 4 3")?;
    }
    Ok(())
}

/// Counts and limits, in an order that comes to each of them after so many: setup, and the last interrupt taken by the last vCPU.
pub fn shapes<L: Library>(pair: &mut Pair<L>, seed: u64, calls: u64) -> Result<(), Difference> {
    const LIMITS: u64 = 1020 - 32 + 1;
    const STEP: u64 = 2777; // without a common divisor
    let end = pair.tally.calls + calls;
    let mut at = seed % (8 * LIMITS);
    while pair.tally.calls < end {
        shape(pair, 1 + at % 8, 32 + at / 8)?;
        at = (at + STEP) % (8 * LIMITS);
    }
    Ok(())
}

fn shape<L: Library>(pair: &mut Pair<L>, count: u64, limit: u64) -> Result<(), Difference> {
    let (vcpu, last) = (count - 1, limit - 1);
    let (bits, bytes, all) = (last / 32 * 4, last / 4 * 4, u32::MAX);
    pair.lend(vec![0x5a5a_5a5a; size(count as usize, limit as usize) + 1]);
    line(pair, "D 0 0 4 1")?; // no state yet
    for start in [
        format!("n {count} {limit}"),
        "d 0 4 4".into(), // TYPER
        "D 0 0 4 1".into(),
        format!("C {vcpu} 0 4 1"),
        format!("C {vcpu} 4 4 255"),
        format!("D {vcpu} {} 1 64", 0x400 + last), // its priority
        format!("D {vcpu} {} 4 {all}", 0x800 + bytes), // targets, also past the limit
        format!("d {vcpu} {} 4", 0x800 + bytes),
        format!("D {vcpu} {} 4 {all}", 0x100 + bits), // enables
        format!("l {vcpu} {last} 1"),
        format!("p {vcpu} {limit}"),
    ] {
        line(pair, &start)?;
    }
    let taken = line(pair, &format!("c {vcpu} 12 4"))?;
    line(pair, &format!("D {vcpu} {} 4 {all}", 0x200 + bits))?; // pending
    line(pair, &format!("C {vcpu} 16 4 {}", taken.value))?;
    line(pair, &format!("D {vcpu} 3840 4 16777221"))?; // SGIR, to all others
    Ok(())
}
