//! Accesses to the frame, and what the request says of them.
use crate::{cast::Cast, random::Random, told};
use model::gic::Gic;

const TYPER: u64 = 0x008;
const SETSPI: u64 = 0x040;

#[derive(Clone, Copy, Debug)]
pub struct Window {
    pub first: u64,
    pub count: u64,
}

impl Window {
    /// Both numbers are in it, and at times its ends; or it has all there are, or some.
    pub fn around(random: &mut Random, limit: u64, lowest: u64, highest: u64) -> Window {
        let below = 32 + random.below(lowest - 31);
        let above = highest + 1 + random.below(limit - highest);
        let first = random.pick(&[lowest, 32, below]);
        let end = random.pick(&[highest + 1, limit, above]);
        let count = end - first;
        Window { first, count }
    }

    pub fn ring(self, gic: &mut Gic, value: u64) -> [u64; 4] {
        told(gic.v2m_write(self.first, self.count, SETSPI, 4, value))
    }
}

/// Where the limit allows one: mostly of the cast.
pub fn any_spi(random: &mut Random, cast: &Cast) -> u64 {
    let numbers = cast.numbers().iter().copied();
    let known: Vec<u64> = numbers.filter(|it| *it >= 32).collect();
    let any = 32 + random.below(cast.limit - 32);
    let known = random.pick(&known);
    random.pick(&[known, known, known, known, any])
}

/// Any access to the frame; it may be refused.
#[derive(Clone, Copy, Debug)]
pub struct Access {
    pub window: Window,
    pub offset: u64,
    pub width: u64,
    /// None for a read.
    pub value: Option<u64>,
}

impl Access {
    /// Mostly a message, if the limit allows one.
    pub fn any(random: &mut Random, cast: &Cast) -> Access {
        if cast.limit == 32 || random.percent(50) {
            return Access::other(random, cast);
        }
        let spi = any_spi(random, cast);
        Access {
            window: Window::around(random, cast.limit, spi, spi),
            offset: SETSPI,
            width: 4,
            value: Some(spi),
        }
    }

    fn other(random: &mut Random, cast: &Cast) -> Access {
        let limit = cast.limit;
        let spi = if limit == 32 {
            32
        } else {
            any_spi(random, cast)
        };
        let window = if limit == 32 || random.percent(25) {
            any_window(random, limit)
        } else {
            Window::around(random, limit, spi, spi)
        };
        let beside = window.first.wrapping_add(window.count);
        let anything = random.number();
        let value = random.pick(&[spi, spi, beside, 0, anything]);
        let near = random.below(0x48);
        let far = random.pick(&[0xfff, 0x1000, u64::MAX, anything]);
        let writes = random.percent(75);
        Access {
            window,
            offset: random.pick(&[SETSPI, SETSPI, TYPER, near, far]),
            width: random.pick(&[4, 4, 4, 1, 2, 8]),
            value: writes.then_some(value),
        }
    }

    pub fn run(self, gic: &mut Gic) -> [u64; 4] {
        let Window { first, count } = self.window;
        told(match self.value {
            None => gic.v2m_read(first, count, self.offset, self.width),
            Some(value) => gic.v2m_write(first, count, self.offset, self.width, value),
        })
    }

    /// The request's refusals, in numbers wide enough for every sum.
    pub fn refusal(self, limit: u64) -> u64 {
        let Window { first, count } = self.window;
        let end = u128::from(first) + u128::from(count);
        let last = u128::from(self.offset) + u128::from(self.width);
        let register = [TYPER, SETSPI].contains(&self.offset);
        if first < 32 || count < 1 || end > limit.into() {
            11
        } else if !self.offset.is_multiple_of(self.width) || last > 0x1000 {
            1
        } else if register && self.width != 4 {
            2
        } else {
            0
        }
    }

    /// The SPI that an accepted access pulses, if it does.
    pub fn rings(self) -> Option<u64> {
        let number = self.value.filter(|_| self.offset == SETSPI)? & 0xffff_ffff;
        let inside = (self.window.first..self.window.first + self.window.count).contains(&number);
        inside.then_some(number)
    }

    pub fn value_read(self) -> u64 {
        let is_typer = self.value.is_none() && self.offset == TYPER;
        let Window { first, count } = self.window;
        u64::from(is_typer) * (first * 0x1_0000 + count)
    }
}

/// One of whose numbers is at an end of what is allowed, or anything at all.
fn any_window(random: &mut Random, limit: u64) -> Window {
    let anything = random.number();
    let first = random.pick(&[0, 31, 32, 33, limit - 1, limit, u64::MAX, anything]);
    let rest = limit.wrapping_sub(first);
    let count = random.pick(&[0, 1, 2, rest, rest.wrapping_add(1), u64::MAX, anything]);
    Window { first, count }
}
