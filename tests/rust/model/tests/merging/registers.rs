//! The Distributor's registers by document 01, and what two writes at one place of each come to.
use std::ops::Range;
use types::register::*;

/// What two writes at one place, `a` and then `b`, leave.
#[derive(Clone, Copy, PartialEq, Eq)]
pub enum Rule {
    /// The state of one write of `a | b`, and its wake set.
    Adds,
    /// The same, if both have the same filter and the same SGI.
    Rings,
    /// The state of `b` alone; the wake sets may be others.
    Later,
    /// The state of `b` alone, and nobody wakes.
    LaterAndSilent,
    Nothing,
}

impl Rule {
    /// The one write that the two are held against; none where nothing is said of them.
    pub fn merged(self, a: u64, b: u64) -> Option<u64> {
        let same_ring = (a ^ b) >> 24 & 3 == 0 && (a ^ b) & 15 == 0;
        match self {
            Rule::Adds => Some(a | b),
            Rule::Rings => same_ring.then_some(a | b),
            Rule::Later | Rule::LaterAndSilent | Rule::Nothing => Some(b),
        }
    }
}

/// How interrupts stand in a register.
#[derive(Clone, Copy, PartialEq, Eq)]
enum Layout {
    Single,
    /// So many in each of its words.
    Words(u64),
    Bytes,
}

pub struct Register {
    pub name: &'static str,
    pub first: u64,
    end: u64,
    layout: Layout,
    pub rule: Rule,
}

const fn row(name: &'static str, first: u64, end: u64, layout: Layout, rule: Rule) -> Register {
    Register {
        name,
        first,
        end,
        layout,
        rule,
    }
}

const fn bits(name: &'static str, first: u64, rule: Rule) -> Register {
    row(name, first, first + 0x80, Layout::Words(32), rule)
}

const RESERVED: u64 = 0xd00;

/// The last is every place that is in no other.
pub static REGISTERS: [Register; 17] = [
    row("CTLR", GICD_CTLR, 4, Layout::Single, Rule::Later),
    row("TYPER", GICD_TYPER, 8, Layout::Single, Rule::Nothing),
    row("IIDR", GICD_IIDR, 12, Layout::Single, Rule::Nothing),
    bits("IGROUPR", GICD_IGROUPR, Rule::Nothing),
    bits("ISENABLER", GICD_ISENABLER, Rule::Adds),
    bits("ICENABLER", GICD_ICENABLER, Rule::Adds),
    bits("ISPENDR", GICD_ISPENDR, Rule::Adds),
    bits("ICPENDR", GICD_ICPENDR, Rule::Adds),
    bits("ISACTIVER", GICD_ISACTIVER, Rule::Adds),
    bits("ICACTIVER", GICD_ICACTIVER, Rule::Adds),
    row(
        "IPRIORITYR",
        GICD_IPRIORITYR,
        0x7fc,
        Layout::Bytes,
        Rule::Later,
    ),
    row(
        "ITARGETSR",
        GICD_ITARGETSR,
        0xbfc,
        Layout::Bytes,
        Rule::Later,
    ),
    row(
        "ICFGR",
        GICD_ICFGR,
        0xd00,
        Layout::Words(16),
        Rule::LaterAndSilent,
    ),
    row("SGIR", GICD_SGIR, 0xf04, Layout::Single, Rule::Rings),
    row(
        "CPENDSGIR",
        GICD_CPENDSGIR,
        0xf20,
        Layout::Bytes,
        Rule::Adds,
    ),
    row(
        "SPENDSGIR",
        GICD_SPENDSGIR,
        0xf30,
        Layout::Bytes,
        Rule::Adds,
    ),
    row("reserved", RESERVED, 0xf00, Layout::Single, Rule::Nothing),
];

/// What an access that starts here is to; a start inside CTLR, TYPER, IIDR or SGIR is to a reserved place.
pub fn at(offset: u64) -> &'static Register {
    let holds = |it: &&Register| match it.layout {
        Layout::Single => it.first == offset,
        _ => (it.first..it.end).contains(&offset),
    };
    let reserved = &REGISTERS[REGISTERS.len() - 1];
    REGISTERS.iter().find(holds).unwrap_or(reserved)
}

impl Register {
    /// Whether each interrupt has bits or a byte in it.
    pub fn is_of_interrupts(&self) -> bool {
        self.layout != Layout::Single
    }

    pub fn is_of_spis(&self) -> bool {
        self.is_of_interrupts() && self.end - self.first > 16
    }

    /// Where a number stands, by the accepted width nearest to this one.
    pub fn place(&self, number: u64, width: u64) -> (u64, u64) {
        match self.layout {
            Layout::Single => (self.first, 4),
            Layout::Words(each) => (self.first + number % 1024 / each * 4, 4),
            Layout::Bytes => {
                let (width, at) = (width.min(4), number % (self.end - self.first));
                (self.first + at - at % width, width)
            }
        }
    }

    /// The interrupts that an access is to.
    pub fn numbers(&self, offset: u64, width: u64) -> Range<u64> {
        let into = offset.saturating_sub(self.first);
        match self.layout {
            Layout::Single => 0..0,
            Layout::Words(each) => into / 4 * each..(into / 4 + 1) * each,
            Layout::Bytes => into..into + width,
        }
    }

    /// Those of them that a write of this value can change: a 0 bit of a set or clear register and a zero byte of sources do nothing.
    pub fn named(&self, offset: u64, width: u64, value: u64) -> Vec<u64> {
        let numbers = self.numbers(offset, width);
        let first = numbers.start;
        let part = |number: u64| match self.layout {
            Layout::Words(_) => value >> (number - first) & 1,
            _ => value >> (8 * (number - first)) & 0xff,
        };
        let counts = |number: &u64| self.rule != Rule::Adds || part(*number) != 0;
        numbers.filter(counts).collect()
    }
}
