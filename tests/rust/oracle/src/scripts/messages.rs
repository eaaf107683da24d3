//! Steps of a card that rings by memory writes, and of guests that look at its frame.
use super::{
    random::Random,
    scene::{Scene, read, write},
    steps::{Step, offer},
};
use crate::{
    AccessWidth::{self, Dword},
    RegisterRegion::CpuInterface,
    machine::{Call, Input},
    message_frame::{FrameAccess, SETSPI, SIZE, TYPER, Window},
    register::{GICC_EOIR, GICC_IAR},
};

/// So many steps of a hundred are these.
pub const PERCENT: u64 = 25;

pub const STEPS: &[(u64, Step)] = &[
    (8, ring),
    (4, ring_served),
    (3, ring_two),
    (4, miss),
    (2, look),
    (3, anywhere),
];

/// Mostly the card's, at times another that may be given.
fn window(scene: &Scene, random: &mut Random) -> Window {
    let card = scene.window.expect("there are messages");
    if scene.limit == 32 || random.percent(80) {
        return card;
    }
    let first = 32 + random.below(scene.limit - 32);
    let count = 1 + random.below(scene.limit - first);
    Window { first, count }
}

/// A number of the window, mostly one that plays.
fn number(scene: &Scene, window: Window, random: &mut Random) -> u64 {
    let inputs = scene.inputs.iter().copied();
    let playing: Vec<u64> = inputs.filter(|it| window.contains(*it)).collect();
    if playing.is_empty() || random.percent(10) {
        window.first + random.below(window.count)
    } else {
        random.pick(&playing)
    }
}

fn message(window: Window, number: u64) -> Call {
    let at = FrameAccess {
        window,
        offset: SETSPI,
        width: Dword,
    };
    Call::WriteMessageFrame(at, number)
}

/// At times with bits above the 4 bytes, which are nothing.
fn ring(scene: &Scene, random: &mut Random) -> Vec<Call> {
    let window = window(scene, random);
    let above = random.pick(&[0, 0, 0, 0, 1 << 32, 0xffff_ffff << 32]);
    vec![message(window, number(scene, window, random) | above)]
}

/// A message for what was just taken: it is given again once it has ended.
fn ring_served(scene: &Scene, random: &mut Random) -> Vec<Call> {
    let (vcpu, window) = (scene.vcpu(random), window(scene, random));
    let number = number(scene, window, random);
    let taken = read(CpuInterface, vcpu, GICC_IAR, Dword);
    let mut calls = offer(scene, Input { vcpu, number }).to_vec();
    calls.extend([
        message(window, number),
        taken,
        message(window, number),
        write(CpuInterface, vcpu, GICC_EOIR, Dword, number),
        taken,
    ]);
    calls
}

/// Two numbers of one window, perhaps the same, are rung before either is taken.
fn ring_two(scene: &Scene, random: &mut Random) -> Vec<Call> {
    let (vcpu, window) = (scene.vcpu(random), window(scene, random));
    let two = [(); 2].map(|()| number(scene, window, random));
    let taken = read(CpuInterface, vcpu, GICC_IAR, Dword);
    let mut calls = vec![];
    for number in two {
        calls.extend(offer(scene, Input { vcpu, number }));
    }
    calls.extend(two.map(|number| message(window, number)));
    calls.extend([
        taken,
        write(CpuInterface, vcpu, GICC_EOIR, Dword, random.pick(&two)),
        taken,
    ]);
    calls
}

/// A number that the window does not have; some would be one, if they were cut to fewer bits.
fn miss(scene: &Scene, random: &mut Random) -> Vec<Call> {
    let window = window(scene, random);
    let (inside, private) = (number(scene, window, random), random.below(32));
    let number = random.pick(&[
        window.first - 1,
        window.first + window.count,
        inside | 1 << 10,
        inside | 1 << 16,
        inside | 1 << 31,
        private,
        1023,
        u32::MAX.into(),
    ]);
    vec![message(window, number)]
}

/// The guest reads what it may ring, or what it has rung; or writes where that is ignored.
fn look(scene: &Scene, random: &mut Random) -> Vec<Call> {
    let window = window(scene, random);
    let at = |offset| FrameAccess {
        window,
        offset,
        width: Dword,
    };
    let ignored = Call::WriteMessageFrame(at(TYPER), number(scene, window, random));
    let reads = [TYPER, TYPER, SETSPI].map(|offset| Call::ReadMessageFrame(at(offset)));
    vec![random.pick(&[reads[0], reads[1], reads[2], ignored])]
}

/// Both registers and the places inside, between and behind them, at every width.
fn anywhere(scene: &Scene, random: &mut Random) -> Vec<Call> {
    let window = window(scene, random);
    let width = random.pick(&AccessWidth::ALL);
    let register = random.pick(&[TYPER, SETSPI]);
    let offset = match random.below(4) {
        0 => register,
        1 => register + random.below(8),
        2 => random.below(0x80),
        _ => random.below(SIZE),
    };
    let at = FrameAccess {
        window,
        offset: offset - offset % width.size() as u64,
        width,
    };
    let write = Call::WriteMessageFrame(at, number(scene, window, random));
    vec![write, Call::ReadMessageFrame(at)]
}
