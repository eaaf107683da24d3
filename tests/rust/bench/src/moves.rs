//! Moving a guest: the library's save and load beside the plain writer and reader, over the same words and the same bytes. What both are held
//! to: a refused call changes nothing, nothing is allocated, and no second copy of the state is made.
use crate::{
    Controller, Given, Library, Plain, Sum,
    measure::Used,
    workloads::{self, Shape},
};
use std::hint::black_box;
use vgic::{Gic, offset::*};

/// Who saves and loads.
pub trait Mover {
    fn save(words: &mut [u32], buffer: &mut [u8]) -> usize;
    fn load(words: &mut [u32], image: &[u8]);
}

impl Mover for Library {
    fn save(words: &mut [u32], buffer: &mut [u8]) -> usize {
        Gic::lend(words).save(buffer).expect("an accepted call")
    }

    fn load(words: &mut [u32], image: &[u8]) {
        Gic::lend(words).load(image).expect("an accepted call");
    }
}

impl Mover for Plain {
    fn save(words: &mut [u32], buffer: &mut [u8]) -> usize {
        simple::image::save(words, buffer).expect("an accepted call")
    }

    fn load(words: &mut [u32], image: &[u8]) {
        simple::image::load(words, image).expect("an accepted call");
    }
}

/// What is timed; in `turns` they follow the workloads.
pub const NAMES: [&str; 2] = ["save", "load"];

/// So many saves or loads of a busy controller: nanoseconds for each, and what came of them.
pub fn time<M: Mover>(index: usize, shape: Shape, turns: u64) -> Option<(f64, Sum)> {
    let mut words = busy(shape);
    let mut buffer = vec![0; vgic::image_bytes(shape.count, shape.limit)?];
    let length = M::save(&mut words, &mut buffer);
    let mut elsewhere = vec![0; words.len()];
    let began = Used::by_thread();
    match index {
        0 => (0..turns).for_each(|_| {
            black_box(M::save(black_box(&mut words), black_box(&mut buffer)));
        }),
        1 => (0..turns).for_each(|_| M::load(&mut elsewhere, black_box(&buffer[..length]))),
        _ => return None,
    }
    let took = Used::by_thread() - began;
    let mut sum = Sum::default();
    let bytes = buffer[..length].iter().copied().map(u32::from);
    for value in bytes.chain(words).chain(elsewhere) {
        sum.note(told(value));
    }
    Some((took / turns as f64, sum))
}

fn told(value: u32) -> Given {
    Given {
        value,
        wake: 0,
        retired: 1023,
    }
}

/// How many of the plain ones take about so many nanoseconds.
pub fn turns_for(index: usize, shape: Shape, nanoseconds: f64) -> u64 {
    const TRIED: u64 = 200;
    let tried = time::<Plain>(index, shape, TRIED);
    tried
        .map_or(1, |(each, _)| (nanoseconds / each) as u64)
        .max(1)
}

/// A guest under load: all of its SPIs enabled and spread over the vCPUs, a third with their lines up; four interrupts under service at each
/// vCPU, nested; SGIs that wait from several vCPUs; PPIs that are held.
pub fn busy(shape: Shape) -> Vec<u32> {
    let mut gic = Library::setup(shape.count, shape.limit);
    workloads::boot(&mut gic, shape);
    for id in 32..shape.limit {
        let target = 1 << (id % shape.count);
        gic.write_distributor(0, GICD_ITARGETSR + id, 1, target);
    }
    for vcpu in 0..shape.count {
        own(&mut gic, vcpu);
        serve(&mut gic, shape, vcpu);
    }
    for id in (32..shape.limit).step_by(3) {
        gic.set_level(0, id, true);
    }
    for sender in 0..shape.count {
        gic.write_distributor(sender, GICD_SGIR, 4, 1 << 24 | sender % 3);
    }
    gic.into_words()
}

/// Priorities of the SGIs and PPIs, two PPIs enabled and one of them held; every second vCPU in EOI mode.
fn own(gic: &mut Library, vcpu: u64) {
    for first in (0..32).step_by(4) {
        gic.write_distributor(vcpu, GICD_IPRIORITYR + first, 4, 0xa090_a090);
    }
    gic.write_distributor(vcpu, GICD_ISENABLER, 4, 1 << 27 | 1 << 30);
    gic.write_interface(vcpu, GICC_CTLR, 1 + vcpu % 2 * 512);
    gic.set_level(vcpu, 27, true);
}

/// Takes four SPIs, each more urgent than the one before.
fn serve(gic: &mut Library, shape: Shape, vcpu: u64) {
    for depth in 0..4 {
        let id = 32 + vcpu + shape.count * depth;
        gic.write_distributor(0, GICD_IPRIORITYR + id, 1, 0x70 - 16 * depth);
        gic.write_distributor(0, GICD_ITARGETSR + id, 1, 1 << vcpu);
        gic.set_level(0, id, true);
        let taken = gic.read_interface(vcpu, GICC_IAR);
        assert_eq!(u64::from(taken.value), id, "it is the most urgent");
    }
}
