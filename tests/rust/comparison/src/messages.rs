//! The message frame: every place at every width, windows in and out of the limits, and numbers in, beside and far from them, in the midst of
//! histories that have messages too.
use crate::{
    Difference, Library, Mix,
    histories::{NO_WIDTHS, Scenes, line},
    pair::Pair,
    request::{FramePlace, Request},
};
use oracle::{
    message_frame::{SETSPI, SIZE, TYPER, Window},
    scripts::random::Random,
};

/// So many calls.
pub fn play<L: Library>(pair: &mut Pair<L>, seed: u64, calls: u64) -> Result<(), Difference> {
    let mut scenes = Scenes::new(Mix::Messages, seed.rotate_left(8));
    let mut random = Random::new(seed.rotate_left(24));
    let end = pair.tally.calls + calls;
    let mut turns = offsets().cycle().zip((0..FIRSTS * COUNTS * VALUES).cycle());
    while pair.tally.calls < end {
        let (offset, kinds) = turns.next().expect("a cycle");
        place(pair, &mut random, offset)?;
        window(pair, kinds)?;
        if random.percent(25) {
            story(pair, &mut random)?;
        }
        scenes.play(pair, 7)?;
    }
    Ok(())
}

/// Every offset of the frame, some past it and the last there are; first those about the registers and the end.
fn offsets() -> impl Iterator<Item = u64> + Clone {
    let about = (0..0x10).chain(0x38..0x50).chain(SIZE - 8..SIZE + 0x10);
    about.chain(u64::MAX - 16..=u64::MAX).chain(0x10..SIZE)
}

/// A write and a read there at each width, and at one that is none.
fn place<L: Library>(
    pair: &mut Pair<L>,
    random: &mut Random,
    offset: u64,
) -> Result<(), Difference> {
    for width in [1, 2, 4, 8, random.pick(&NO_WIDTHS)] {
        let window = any_window(random, limit(pair));
        let at = FramePlace {
            window,
            offset,
            width,
        };
        pair.call(&Request::WriteMessageFrame(at, any_value(random, window)))?;
        pair.call(&Request::ReadMessageFrame(at))?;
    }
    Ok(())
}

/// A message is given, and one that comes while it is served is given after it, by any vCPU and for any SPI.
fn story<L: Library>(pair: &mut Pair<L>, random: &mut Random) -> Result<(), Difference> {
    let &[count @ 1..=8, limit @ 33..=1020, ..] = pair.words() else {
        return Ok(());
    };
    let vcpu = random.below(count.into());
    let number = 32 + random.below(u64::from(limit) - 32);
    for step in steps(vcpu, number) {
        line(pair, &step)?;
    }
    Ok(())
}

/// Its lines. The SPI does not wait before, and for a while nothing less urgent is a candidate, so that the first message wakes.
fn steps(vcpu: u64, number: u64) -> Vec<String> {
    let (word, bit) = (number / 32 * 4, 1_u64 << (number % 32));
    let message = || format!("M {number} 1 64 4 {number}");
    let taken = || format!("c {vcpu} 12 4");
    let ended = || format!("C {vcpu} 16 4 {number}");
    vec![
        "D 0 0 4 1".into(),
        format!("C {vcpu} 0 4 1"),
        format!("C {vcpu} 4 4 1"),
        format!("D 0 {} 1 0", 0x400 + number),
        format!("D 0 {} 1 {}", 0x800 + number, 1 << vcpu),
        format!("D 0 {} 4 {bit}", 0x280 + word), // ICPENDR
        format!("D 0 {} 4 {bit}", 0x100 + word), // ISENABLER
        message(),
        taken(),
        message(),
        ended(),
        taken(),
        ended(),
        format!("C {vcpu} 4 4 255"),
    ]
}

/// The limit of the words that are lent, whatever they are.
fn limit<L: Library>(pair: &mut Pair<L>) -> u64 {
    pair.words().get(1).copied().unwrap_or(40).into()
}

/// How many first numbers, counts and values there are below.
const FIRSTS: u64 = 7;
const COUNTS: u64 = 9;
const VALUES: u64 = 12;

/// A message, and a read of the window, for each of these first numbers, counts and values, one each time.
fn window<L: Library>(pair: &mut Pair<L>, kinds: u64) -> Result<(), Difference> {
    let limit = limit(pair);
    let first = first(limit, kinds % FIRSTS);
    let count = count(limit, first, kinds / FIRSTS % COUNTS);
    let window = Window { first, count };
    let at = |offset| FramePlace {
        window,
        offset,
        width: 4,
    };
    let value = value(window, kinds / FIRSTS / COUNTS);
    pair.call(&Request::WriteMessageFrame(at(SETSPI), value))?;
    pair.call(&Request::ReadMessageFrame(at(TYPER)))?;
    Ok(())
}

fn first(limit: u64, kind: u64) -> u64 {
    match kind {
        0 => 31,
        1 => 32,
        2 => 33,
        3 => limit.wrapping_sub(1),
        4 => limit,
        5 => (1 << 32) + 32,
        _ => u64::MAX,
    }
}

fn count(limit: u64, first: u64, kind: u64) -> u64 {
    let up_to_limit = limit.wrapping_sub(first);
    match kind {
        0 => 0,
        1 => 1,
        2 => 2,
        3 => up_to_limit,
        4 => up_to_limit.wrapping_add(1),
        5 => (1 << 32) + 1,
        6 => first.wrapping_neg(), // the sum is 2^64
        7 => first.wrapping_neg().wrapping_add(33),
        _ => u64::MAX,
    }
}

/// A number inside, beside or far from the window; some are inside if they are cut to fewer bits.
fn value(window: Window, kind: u64) -> u64 {
    let Window { first, count } = window;
    let past = first.wrapping_add(count);
    match kind {
        0 => first,
        1 => past.wrapping_sub(1),
        2 => first.wrapping_sub(1),
        3 => past,
        4 => first | 1 << 10,
        5 => first | 1 << 16,
        6 => first | 1 << 31,
        7 => first | 1 << 32,
        8 => past | 0xffff_ffff << 32,
        9 => 0,
        10 => u32::MAX.into(),
        _ => u64::MAX,
    }
}

/// Mostly one that may be given, where there are SPIs.
pub fn any_window(random: &mut Random, limit: u64) -> Window {
    if (33..=1020).contains(&limit) && random.percent(80) {
        let first = 32 + random.below(limit - 32);
        let room = limit - first;
        let count = 1 + random.below(room);
        return Window {
            first,
            count: random.pick(&[1, count, room]),
        };
    }
    let first = first(limit, random.below(FIRSTS));
    let count = count(limit, first, random.below(COUNTS));
    Window { first, count }
}

/// Mostly one of the window, if it has any.
pub fn any_value(random: &mut Random, window: Window) -> u64 {
    if window.count > 0 && random.percent(70) {
        return window.first.wrapping_add(random.below(window.count));
    }
    value(window, random.below(VALUES))
}

/// Mostly a message; or the window is read; or any place of the frame and beyond, at any width.
pub fn any_request(random: &mut Random, limit: u64) -> Request {
    let window = any_window(random, limit);
    let value = any_value(random, window);
    let at = |offset, width| FramePlace {
        window,
        offset,
        width,
    };
    let offset = random.pick(&[TYPER, SETSPI, 0, SETSPI + 2, SIZE - 4, SIZE, u64::MAX - 7]);
    let anywhere = at(offset, random.pick(&[4, 4, 1, 2, 8, 3]));
    match random.below(10) {
        0..7 => Request::WriteMessageFrame(at(SETSPI, 4), value),
        7 => Request::ReadMessageFrame(at(TYPER, 4)),
        8 => Request::WriteMessageFrame(anywhere, value),
        _ => Request::ReadMessageFrame(anywhere),
    }
}
