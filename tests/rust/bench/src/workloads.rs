//! What is measured: a start, and a turn that is taken again and again and leaves the controller as it was, or nearly.
use crate::{Controller, Sum};
use vgic::offset::*;

/// How many vCPUs, and the first number that is no interrupt.
#[derive(Clone, Copy, Debug, PartialEq, Eq)]
pub struct Shape {
    pub count: u64,
    pub limit: u64,
}

impl Shape {
    fn spis(self) -> u64 {
        self.limit - 32
    }

    /// An SPI, another one at each turn.
    fn spi(self, turn: u64) -> u64 {
        32 + turn * 7 % self.spis()
    }
}

pub struct Workload<C> {
    pub name: &'static str,
    /// How many calls a turn makes.
    pub calls: u64,
    pub start: fn(&mut C, Shape),
    pub turn: fn(&mut C, Shape, u64, &mut Sum),
}

pub fn all<C: Controller>() -> [Workload<C>; 10] {
    let workload = |name, calls, start, turn| Workload {
        name,
        calls,
        start,
        turn,
    };
    [
        workload(
            "IAR and EOIR, 2 SPIs ready",
            2,
            few_ready::<C>,
            take_and_end,
        ),
        workload("IAR and EOIR, many SPIs ready", 2, many_ready, take_and_end),
        workload("SGI: SGIR, IAR, EOIR", 3, boot, ring),
        workload("writes that wake nobody", 2, boot, write),
        workload("line up, IAR, line down, EOIR", 4, boot, packet),
        workload("reads: ISENABLER, IPRIORITYR, TYPER", 3, boot, read),
        workload("levels of both lines, 2 SPIs ready", 2, few_ready, levels),
        workload("edge SPI: pulse, IAR, EOIR", 3, boot_edge, pulse),
        workload("edge SPI: message, IAR, EOIR", 3, boot_edge, message),
        workload("messages that ring nobody", 1, boot_edge, miss),
    ]
}

/// As a guest boots: every interface on, every interrupt enabled, level, sent to vCPU 0, at one of a few priorities. None is pending.
pub fn boot<C: Controller>(gic: &mut C, shape: Shape) {
    gic.write_distributor(0, GICD_CTLR, 4, 1);
    for vcpu in 0..shape.count {
        gic.write_interface(vcpu, GICC_CTLR, 1);
        gic.write_interface(vcpu, GICC_PMR, 0xf0);
    }
    for id in 32..shape.limit {
        let priority = 0x80 + id * 13 % 8 * 8;
        gic.write_distributor(0, GICD_IPRIORITYR + id, 1, priority);
        gic.write_distributor(0, GICD_ITARGETSR + id, 1, 1);
    }
    for first in (32..shape.limit).step_by(32) {
        gic.write_distributor(0, GICD_ISENABLER + first / 8, 4, 0xffff_ffff);
    }
}

/// The same with every SPI edge.
fn boot_edge<C: Controller>(gic: &mut C, shape: Shape) {
    boot(gic, shape);
    for first in (32..shape.limit).step_by(16) {
        gic.write_distributor(0, GICD_ICFGR + first / 4, 4, 0xaaaa_aaaa);
    }
}

/// One SPI early and one late: their lines stay up, so that each is ready again once it is ended.
fn few_ready<C: Controller>(gic: &mut C, shape: Shape) {
    boot(gic, shape);
    for id in [32 + shape.spis() / 10, 32 + shape.spis() * 9 / 10] {
        gic.set_level(0, id, true);
    }
}

/// The same with 400 of 988 SPIs, and with 12 of 32.
fn many_ready<C: Controller>(gic: &mut C, shape: Shape) {
    boot(gic, shape);
    let many = shape.spis() * 400 / 988;
    for index in 0..many {
        gic.set_level(0, 32 + index * shape.spis() / many, true);
    }
}

fn take_and_end<C: Controller>(gic: &mut C, _: Shape, _: u64, sum: &mut Sum) {
    let taken = gic.read_interface(0, GICC_IAR);
    sum.note(taken);
    sum.note(gic.write_interface(0, GICC_EOIR, taken.value.into()));
}

/// vCPU 0 sends an SGI to vCPU 1, which takes and ends it.
fn ring<C: Controller>(gic: &mut C, _: Shape, turn: u64, sum: &mut Sum) {
    sum.note(gic.write_distributor(0, GICD_SGIR, 4, (1 << 17) | (turn % 16)));
    let taken = gic.read_interface(1, GICC_IAR);
    sum.note(taken);
    sum.note(gic.write_interface(1, GICC_EOIR, taken.value.into()));
}

/// A priority byte, and an enable of what is enabled.
fn write<C: Controller>(gic: &mut C, shape: Shape, turn: u64, sum: &mut Sum) {
    let id = shape.spi(turn);
    sum.note(gic.write_distributor(0, GICD_IPRIORITYR + id, 1, 0x80 + turn % 8 * 8));
    sum.note(gic.write_distributor(0, GICD_ISENABLER + id / 32 * 4, 4, 1 << (id % 32)));
}

/// A device's line goes up, the guest takes the interrupt, the line goes down, the guest ends it.
fn packet<C: Controller>(gic: &mut C, shape: Shape, turn: u64, sum: &mut Sum) {
    let id = shape.spi(turn);
    sum.note(gic.set_level(0, id, true));
    let taken = gic.read_interface(0, GICC_IAR);
    sum.note(taken);
    sum.note(gic.set_level(0, id, false));
    sum.note(gic.write_interface(0, GICC_EOIR, taken.value.into()));
}

fn read<C: Controller>(gic: &mut C, shape: Shape, turn: u64, sum: &mut Sum) {
    let id = shape.spi(turn);
    sum.note(gic.read_distributor(0, GICD_ISENABLER + id / 32 * 4, 4));
    sum.note(gic.read_distributor(0, GICD_IPRIORITYR + id / 4 * 4, 4));
    sum.note(gic.read_distributor(0, GICD_TYPER, 4));
}

/// vCPU 0's line is up, vCPU 1's down.
fn levels<C: Controller>(gic: &mut C, _: Shape, _: u64, sum: &mut Sum) {
    sum.note(gic.irq_level(0));
    sum.note(gic.irq_level(1));
}

/// A device pulses, the guest takes the interrupt and ends it.
fn pulse<C: Controller>(gic: &mut C, shape: Shape, turn: u64, sum: &mut Sum) {
    sum.note(gic.pulse(0, shape.spi(turn)));
    let taken = gic.read_interface(0, GICC_IAR);
    sum.note(taken);
    sum.note(gic.write_interface(0, GICC_EOIR, taken.value.into()));
}

/// A card rings by a memory write, the guest takes the interrupt and ends it.
fn message<C: Controller>(gic: &mut C, shape: Shape, turn: u64, sum: &mut Sum) {
    sum.note(gic.message(32, shape.spis(), shape.spi(turn)));
    let taken = gic.read_interface(0, GICC_IAR);
    sum.note(taken);
    sum.note(gic.write_interface(0, GICC_EOIR, taken.value.into()));
}

/// The window is the first half of the SPIs, and the number one of the others.
fn miss<C: Controller>(gic: &mut C, shape: Shape, turn: u64, sum: &mut Sum) {
    let half = shape.spis() / 2;
    sum.note(gic.message(32, half, 32 + half + turn % half));
}
