//! The steps of a history: what guests and devices do, and what they should not.
use super::{
    messages,
    random::Random,
    scene::{Scene, read, write},
};
use crate::{
    AccessWidth::{self, Byte, Dword, Word},
    RegisterRegion::{CpuInterface, Distributor},
    machine::{Call, Input},
    register::*,
};

pub type Step = fn(&Scene, &mut Random) -> Vec<Call>;

const STEPS: &[(u64, Step)] = &[
    (20, acknowledge),
    (5, nest),
    (14, end),
    (8, deactivate),
    (16, ring),
    (16, input),
    (4, clear),
    (4, clear_served),
    (5, look),
    (4, mask),
    (4, regroup),
    (4, neighbours),
    (3, overtake),
    (5, priority),
    (4, target),
    (8, bits),
    (4, cancel),
    (4, sources),
    (4, switch),
    (5, inspect),
    (4, sweep),
    (4, revive),
];

/// Every register of the Distributor, each bit and byte range by its first one.
pub const DISTRIBUTOR: [u64; 16] = [
    GICD_CTLR,
    GICD_TYPER,
    GICD_IIDR,
    GICD_IGROUPR,
    GICD_ISENABLER,
    GICD_ICENABLER,
    GICD_ISPENDR,
    GICD_ICPENDR,
    GICD_ISACTIVER,
    GICD_ICACTIVER,
    GICD_IPRIORITYR,
    GICD_ITARGETSR,
    GICD_ICFGR,
    GICD_SGIR,
    GICD_CPENDSGIR,
    GICD_SPENDSGIR,
];

pub const CPU_INTERFACE: [u64; 14] = [
    GICC_CTLR,
    GICC_PMR,
    GICC_BPR,
    GICC_IAR,
    GICC_EOIR,
    GICC_RPR,
    GICC_HPPIR,
    GICC_ABPR,
    GICC_AIAR,
    GICC_AEOIR,
    GICC_AHPPIR,
    GICC_APR,
    GICC_IIDR,
    GICC_DIR,
];

pub fn next(scene: &mut Scene, random: &mut Random) -> Vec<Call> {
    scene.take_step();
    if scene.window.is_some() && random.percent(messages::PERCENT) {
        return random.weighed(messages::STEPS)(scene, random);
    }
    random.weighed(STEPS)(scene, random)
}

fn acknowledge(scene: &Scene, random: &mut Random) -> Vec<Call> {
    let register = random.pick(&[GICC_IAR, GICC_IAR, GICC_IAR, GICC_AIAR]);
    vec![read(CpuInterface, scene.vcpu(random), register, Dword)]
}

/// Something more urgent comes to a vCPU that is serving, and is taken.
fn nest(scene: &Scene, random: &mut Random) -> Vec<Call> {
    let (vcpu, number) = (scene.one_with(&scene.held, random), scene.interrupt(random));
    vec![
        urge(scene, vcpu, number),
        pend(vcpu, number),
        read(CpuInterface, vcpu, GICC_IAR, Dword),
    ]
}

/// Makes an interrupt more urgent than what this vCPU serves.
fn urge(scene: &Scene, vcpu: u64, number: u64) -> Call {
    let depth = scene.held[vcpu as usize].len() as u64;
    let priority = 0x80 >> depth.min(8);
    write(Distributor, vcpu, GICD_IPRIORITYR + number, Byte, priority)
}

/// EOIR: mostly of the newest, at times of an older one, or of what nobody serves.
fn end(scene: &Scene, random: &mut Random) -> Vec<Call> {
    let vcpu = scene.one_with(&scene.held, random);
    let held = &scene.held[vcpu as usize];
    if held.is_empty() && random.percent(80) {
        return acknowledge(scene, random);
    }
    let number = match (random.below(20), held.last()) {
        (0..14, Some(&newest)) => newest,
        (14..18, Some(_)) => random.pick(held),
        _ => wild_number(scene, random),
    };
    let register = random.pick(&[GICC_EOIR, GICC_EOIR, GICC_EOIR, GICC_AEOIR]);
    vec![write(CpuInterface, vcpu, register, Dword, number)]
}

fn deactivate(scene: &Scene, random: &mut Random) -> Vec<Call> {
    let vcpu = scene.one_with(&scene.dropped, random);
    let (held, dropped) = (&scene.held[vcpu as usize], &scene.dropped[vcpu as usize]);
    let number = match (random.below(10), dropped.last(), held.last()) {
        (0..6, Some(&number), _) | (6..8, _, Some(&number)) => number,
        (8, _, Some(_)) => random.pick(held),
        _ => wild_number(scene, random),
    };
    vec![write(CpuInterface, vcpu, GICC_DIR, Dword, number)]
}

/// Any number that EOIR and DIR may be given: another vCPU's, of the scene, from the limit up, undecodable, with a source or with
/// higher bits.
fn wild_number(scene: &Scene, random: &mut Random) -> u64 {
    let elsewhere = random.below(scene.count) as usize;
    let number = match random.below(9) {
        0..3 if !scene.held[elsewhere].is_empty() => random.pick(&scene.held[elsewhere]) % 1024,
        0..6 => scene.interrupt(random),
        6 => scene.limit.min(1019),
        7 => 1018 + random.below(6),
        _ => random.below(1024),
    };
    number + 1024 * random.pick(&[0, 0, 1, 7, 0xf_ffff])
}

/// SGIR: often several vCPUs ring the same SGI at the same target.
fn ring(scene: &Scene, random: &mut Random) -> Vec<Call> {
    let sgi = random.pick(&scene.sgis);
    let targets = scene.targets(random);
    let filter = random.weighed(&[(14, 0), (3, 1), (3, 2), (1, 3)]);
    let value = filter << 24 | targets << 16 | sgi;
    let ringers = random.pick(&[1, 1, 2, 3]);
    (0..ringers)
        .map(|_| {
            let sender = random.below(scene.count);
            write(Distributor, sender, GICD_SGIR, Dword, value)
        })
        .collect()
}

/// An interrupt that a device has, half of the time one that is being served.
fn device(scene: &Scene, vcpu: u64, random: &mut Random) -> Input {
    let served = scene.held[vcpu as usize]
        .iter()
        .filter(|it| **it >= 16)
        .copied();
    let served: Vec<u64> = served.filter(|it| *it < 1024).collect();
    let number = if served.is_empty() || random.percent(50) {
        random.pick(&scene.inputs)
    } else {
        random.pick(&served)
    };
    Input { vcpu, number }
}

/// Device inputs.
fn input(scene: &Scene, random: &mut Random) -> Vec<Call> {
    let vcpu = scene.vcpu(random);
    let input = device(scene, vcpu, random);
    let line = |asserted| Call::SetLevel(input, asserted);
    match random.below(10) {
        0..4 => vec![Call::Pulse(input)],
        4..7 => vec![line(true)],
        7..9 => vec![line(false)],
        _ => vec![line(true), line(false)],
    }
}

/// A driver clears pending, mostly while its device holds the line: of level ones and edge ones, waiting, served, or rung again while served.
fn clear(scene: &Scene, random: &mut Random) -> Vec<Call> {
    let vcpu = scene.vcpu(random);
    let input = device(scene, vcpu, random);
    let line = |asserted| Call::SetLevel(input, asserted);
    let mut calls = match random.below(8) {
        0..3 => vec![line(true)],
        3 => vec![line(false), line(true)],
        4 => vec![line(false), bit(GICD_ISPENDR, input)],
        5 => vec![line(false), Call::Pulse(input)],
        _ => vec![],
    };
    calls.extend(clear_and_look(input, random));
    calls
}

/// A driver clears pending of what it has just been given, the line being high.
fn clear_served(scene: &Scene, random: &mut Random) -> Vec<Call> {
    let (vcpu, number) = (scene.vcpu(random), random.pick(&scene.inputs));
    let input = Input { vcpu, number };
    let mut calls = offer(scene, input).to_vec();
    calls.extend([
        Call::SetLevel(input, true),
        read(CpuInterface, vcpu, GICC_IAR, Dword),
    ]);
    calls.extend(clear_and_look(input, random));
    calls
}

/// Once it is pending, this vCPU is given it next: it is enabled, sent there, and more urgent than what is served.
pub fn offer(scene: &Scene, input: Input) -> [Call; 3] {
    let Input { vcpu, number } = input;
    [
        bit(GICD_ISENABLER, input),
        write(Distributor, vcpu, GICD_ITARGETSR + number, Byte, 1 << vcpu),
        urge(scene, vcpu, number),
    ]
}

/// Clears pending, at times of the whole word, and looks at what is left.
fn clear_and_look(input: Input, random: &mut Random) -> Vec<Call> {
    let (vcpu, word) = (input.vcpu, input.number / 32 * 4);
    let one = bit(GICD_ICPENDR, input);
    let all = write(Distributor, vcpu, GICD_ICPENDR + word, Dword, u64::MAX);
    let pending = read(Distributor, vcpu, GICD_ISPENDR + word, Dword);
    let given = read(CpuInterface, vcpu, GICC_IAR, Dword);
    vec![
        random.pick(&[one, one, one, all]),
        random.pick(&[pending, given]),
    ]
}

/// A write of an interrupt's bit in a register of this bank.
fn bit(bank: u64, Input { vcpu, number }: Input) -> Call {
    let offset = bank + number / 32 * 4;
    write(Distributor, vcpu, offset, Dword, 1 << (number % 32))
}

fn look(scene: &Scene, random: &mut Random) -> Vec<Call> {
    let register = random.pick(&[
        GICC_HPPIR,
        GICC_AHPPIR,
        GICC_RPR,
        GICC_RPR,
        GICC_CTLR,
        GICC_PMR,
        GICC_BPR,
    ]);
    vec![read(CpuInterface, scene.vcpu(random), register, Dword)]
}

/// PMR, while things are pending and served; at times at one of the scene's priorities, which is then just not offered.
fn mask(scene: &Scene, random: &mut Random) -> Vec<Call> {
    let near = scene.priority(random);
    let value = random.pick(&[
        255, 255, 255, 0xf0, 0x80, 0x7f, 0x21, 1, 0, near, near, near,
    ]);
    let vcpu = scene.vcpu(random);
    vec![write(CpuInterface, vcpu, GICC_PMR, Dword, value)]
}

/// Another binary point, mostly at a vCPU that is serving, and a look at what it makes of that.
fn regroup(scene: &Scene, random: &mut Random) -> Vec<Call> {
    let vcpu = scene.one_with(&scene.held, random);
    let point = random.below(8);
    let look = random.pick(&[GICC_IAR, GICC_IAR, GICC_RPR, GICC_HPPIR, GICC_BPR]);
    vec![
        scene.binary_point(vcpu, point, random),
        read(CpuInterface, vcpu, look, Dword),
    ]
}

/// Makes an interrupt pending at this vCPU.
fn pend(vcpu: u64, number: u64) -> Call {
    if number < 16 {
        write(Distributor, vcpu, GICD_SGIR, Dword, 2 << 24 | number)
    } else {
        Call::Pulse(Input { vcpu, number })
    }
}

/// An interrupt of the scene comes to this vCPU with this priority.
fn come(scene: &Scene, vcpu: u64, priority: u64, random: &mut Random) -> [Call; 2] {
    let number = scene.interrupt(random);
    [
        write(Distributor, vcpu, GICD_IPRIORITYR + number, Byte, priority),
        pend(vcpu, number),
    ]
}

/// While one is served, another comes whose priority is the same but for a bit.
fn neighbours(scene: &Scene, random: &mut Random) -> Vec<Call> {
    let (vcpu, point) = (scene.vcpu(random), random.below(8));
    let first = scene.priority(random);
    let second = first ^ 1 << random.below(8);
    let mut calls = vec![scene.binary_point(vcpu, point, random)];
    for priority in [first, second] {
        calls.extend(come(scene, vcpu, priority, random));
        calls.push(read(CpuInterface, vcpu, GICC_IAR, Dword));
        calls.push(read(CpuInterface, vcpu, GICC_RPR, Dword));
    }
    calls
}

/// Another waits behind the one that is served, with the same priority, until a greater binary point lets it through.
fn overtake(scene: &Scene, random: &mut Random) -> Vec<Call> {
    let (vcpu, greater) = (scene.vcpu(random), 1 + random.below(7));
    let smaller = random.below(greater);
    let priority = scene.priority(random) | 1 << greater;
    let mut calls = vec![];
    for point in [smaller, greater] {
        calls.extend(come(scene, vcpu, priority, random));
        calls.push(scene.binary_point(vcpu, point, random));
        calls.push(read(CpuInterface, vcpu, GICC_IAR, Dword));
    }
    calls
}

/// An aligned access of 1, 2 or 4 bytes that takes in this byte.
fn around(byte: u64, random: &mut Random) -> (u64, AccessWidth) {
    let width = random.pick(&[Byte, Byte, Word, Dword]);
    (byte - byte % width.size() as u64, width)
}

fn priority(scene: &Scene, random: &mut Random) -> Vec<Call> {
    let (offset, width) = around(GICD_IPRIORITYR + scene.interrupt(random), random);
    let value = (0..4).fold(0, |value, _| value << 8 | scene.priority(random));
    vec![write(Distributor, scene.vcpu(random), offset, width, value)]
}

/// Targets move while their interrupts are pending and active.
fn target(scene: &Scene, random: &mut Random) -> Vec<Call> {
    let (offset, width) = around(GICD_ITARGETSR + random.pick(&scene.inputs), random);
    let value = (0..4).fold(0, |value, _| value << 8 | scene.targets(random));
    vec![write(Distributor, scene.vcpu(random), offset, width, value)]
}

fn bits(scene: &Scene, random: &mut Random) -> Vec<Call> {
    let number = scene.interrupt(random);
    let register = random.weighed(&[
        (6, GICD_ISENABLER),
        (1, GICD_ICENABLER),
        (4, GICD_ISPENDR),
        (2, GICD_ICPENDR),
        (1, GICD_ISACTIVER),
        (2, GICD_ICACTIVER),
        (1, GICD_IGROUPR),
        (3, GICD_ICFGR),
    ]);
    let others = match random.below(6) {
        0 => random.number() & random.number(),
        1 => u64::MAX,
        _ => 0,
    };
    let (word, bit) = if register == GICD_ICFGR {
        (number / 16, random.pick(&[0, 2]) << (number % 16 * 2))
    } else {
        (number / 32, 1 << (number % 32))
    };
    vec![write(
        Distributor,
        scene.vcpu(random),
        register + 4 * word,
        Dword,
        bit | others,
    )]
}

/// ICACTIVER on what is in flight, here or at another vCPU.
fn cancel(scene: &Scene, random: &mut Random) -> Vec<Call> {
    let vcpu = scene.vcpu(random);
    let server = scene.vcpu(random) as usize;
    let Some(number) = scene.held[server].last().map(|it| it % 1024) else {
        return vec![];
    };
    vec![bit(GICD_ICACTIVER, Input { vcpu, number })]
}

/// CPENDSGIR and SPENDSGIR, also with zero bytes and with sources that do not exist.
fn sources(scene: &Scene, random: &mut Random) -> Vec<Call> {
    let bank = random.pick(&[GICD_CPENDSGIR, GICD_SPENDSGIR]);
    let (offset, width) = around(bank + random.pick(&scene.sgis), random);
    let byte = |random: &mut Random| match random.below(4) {
        0 => 0,
        1 => random.below(256),
        _ => 1 << random.below(scene.count),
    };
    let value = (0..4).fold(0, |value, _| value << 8 | byte(random));
    let vcpu = scene.vcpu(random);
    vec![
        write(Distributor, vcpu, offset, width, value),
        read(Distributor, vcpu, offset, width),
    ]
}

/// Distributor or interface off, a look at it, and mostly on again; or another EOI mode.
fn switch(scene: &Scene, random: &mut Random) -> Vec<Call> {
    let vcpu = scene.vcpu(random);
    let look = random.pick(&[GICC_IAR, GICC_HPPIR, GICC_RPR]);
    let look = read(CpuInterface, vcpu, look, Dword);
    let on = random.pick(&[1, 0x201]);
    let (off, on) = match random.below(5) {
        0 => (
            write(Distributor, vcpu, GICD_CTLR, Dword, 0),
            write(Distributor, vcpu, GICD_CTLR, Dword, 1),
        ),
        1 => (
            write(CpuInterface, vcpu, GICC_CTLR, Dword, 0),
            write(CpuInterface, vcpu, GICC_CTLR, Dword, on),
        ),
        _ => return vec![write(CpuInterface, vcpu, GICC_CTLR, Dword, on)],
    };
    if random.percent(85) {
        vec![off, look, on]
    } else {
        vec![off, look]
    }
}

/// Reads of the registers that the scene's interrupts stand in.
fn inspect(scene: &Scene, random: &mut Random) -> Vec<Call> {
    let (vcpu, number) = (scene.vcpu(random), scene.interrupt(random));
    let register = random.pick(&DISTRIBUTOR);
    let (offset, width) = match register {
        GICD_IPRIORITYR | GICD_ITARGETSR => around(register + number, random),
        GICD_CPENDSGIR | GICD_SPENDSGIR => around(register + number % 16, random),
        GICD_ICFGR => (register + number / 16 * 4, Dword),
        GICD_CTLR | GICD_TYPER | GICD_IIDR | GICD_SGIR => (register, Dword),
        _ => (register + number / 32 * 4, Dword),
    };
    vec![read(Distributor, vcpu, offset, width)]
}

/// Every register at every width, and the places between and behind them.
fn sweep(scene: &Scene, random: &mut Random) -> Vec<Call> {
    let (region, register, size) = if random.percent(60) {
        (Distributor, random.pick(&DISTRIBUTOR), 0x1000)
    } else {
        (CpuInterface, random.pick(&CPU_INTERFACE), 0x2000)
    };
    let width = random.pick(&AccessWidth::ALL);
    let aligned = |offset: u64| offset - offset % width.size() as u64;
    let offset = match random.below(4) {
        0 | 1 => register,
        2 => aligned(register + random.below(0x100)),
        _ => aligned(random.below(size)),
    };
    let vcpu = scene.vcpu(random);
    let value = random.number() & random.number();
    let write = write(region, vcpu, offset, width, value);
    let read = read(region, vcpu, offset, width);
    random
        .pick(&[&[write, read][..], &[write], &[read]])
        .to_vec()
}

/// Whatever was switched off is on again: Distributor, interface, mask, and an interrupt's enable.
fn revive(scene: &Scene, random: &mut Random) -> Vec<Call> {
    let (vcpu, number) = (scene.vcpu(random), scene.interrupt(random));
    let control = random.pick(&[1, 1, 0x201]);
    vec![
        write(Distributor, vcpu, GICD_CTLR, Dword, 1),
        write(CpuInterface, vcpu, GICC_CTLR, Dword, control),
        write(CpuInterface, vcpu, GICC_PMR, Dword, 255),
        bit(GICD_ISENABLER, Input { vcpu, number }),
    ]
}
