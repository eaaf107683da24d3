//! A guest's first steps in a program that has neither `std` nor a heap nor a C library: its words are a static, sized when it is compiled.
//! It tells nothing but how it ended: status 0, or the number of the step that did not go as it should.
#![no_std]
#![no_main]

use core::{arch, panic::PanicInfo};
use vgic::{
    AccessWidth::{self, Dword},
    Gic, GicVcpuId, IntId, Refusal, Reply, offset,
};

const COUNT: u64 = 2;
const LIMIT: u64 = 40;
const WORDS: usize = vgic::state_words(COUNT, LIMIT).expect("in range");

static mut STATE: [u32; WORDS] = [0; WORDS];
/// Where the guest moves to, and what is sent there.
static mut ELSEWHERE: [u32; WORDS] = [0; WORDS];
static mut IMAGE: [u8; vgic::MAX_IMAGE_BYTES] = [0; vgic::MAX_IMAGE_BYTES];

const FIRST: GicVcpuId = GicVcpuId(0);
const SECOND: GicVcpuId = GicVcpuId(1);
const SGI: IntId = IntId(5);
const DEVICE: IntId = IntId(33);

// The stack is aligned where a program starts, and a call is what a function expects.
#[cfg(target_arch = "x86_64")]
arch::global_asm!(".globl _start", "_start:", "call {main}", main = sym main);
#[cfg(target_arch = "aarch64")]
arch::global_asm!(".globl _start", "_start:", "bl {main}", main = sym main);

extern "C" fn main() -> ! {
    let (words, others, buffer) = (&raw mut STATE, &raw mut ELSEWHERE, &raw mut IMAGE);
    // SAFETY: this is called once, and nobody else names the words and the buffer.
    let (words, others, buffer) = unsafe { (&mut *words, &mut *others, &mut *buffer) };
    let (mut gic, mut moved) = (Gic::lend(words), Gic::lend(others));
    let went = boot(&mut gic)
        .and_then(|()| send(&mut gic))
        .and_then(|()| device(&mut gic))
        .and_then(|()| mistakes(&mut gic))
        .and_then(|()| leave(&gic, buffer, &mut moved));
    exit(went.err().unwrap_or(0))
}

/// The guest turns everything on.
fn boot(gic: &mut Gic) -> Result<(), u8> {
    check(1, gic.setup(COUNT, LIMIT).is_ok())?;
    let on = gic.write_v2_distributor(FIRST, offset::GICD_CTLR, Dword, 1);
    check(2, quiet(on))?;
    for vcpu in [FIRST, SECOND] {
        check(3, quiet(write(gic, vcpu, offset::GICC_CTLR, 1)))?;
        check(4, quiet(write(gic, vcpu, offset::GICC_PMR, 255)))?;
    }
    check(5, gic.irq_level(SECOND) == Ok(false))
}

/// vCPU 0 sends an SGI to vCPU 1, which is woken, takes it and ends it.
fn send(gic: &mut Gic) -> Result<(), u8> {
    let sent = gic.write_v2_distributor(FIRST, offset::GICD_SGIR, Dword, 2 << 16 | SGI.0);
    check(6, sent.is_ok_and(|it| it.wake.vcpus().eq([SECOND])))?;
    check(7, gic.irq_level(SECOND) == Ok(true))?;
    check(8, gic.irq_level(FIRST) == Ok(false))?;
    check(9, taken(gic, SECOND) == Some(SGI))?;
    check(10, gic.irq_level(SECOND) == Ok(false))?;
    let served = gic.interrupt(SECOND, SGI);
    check(11, served.is_ok_and(|it| it.owner == Some(SECOND)))?;
    let ended = write(gic, SECOND, offset::GICC_EOIR, SGI.0);
    check(12, ended.is_ok_and(|it| it.retired == Some(SGI)))
}

/// A device's line to vCPU 0 goes up, its interrupt is taken, the line goes down, the interrupt is ended.
fn device(gic: &mut Gic) -> Result<(), u8> {
    let targets = offset::GICD_ITARGETSR + DEVICE.0;
    let width = AccessWidth::try_from(1_u64).map_err(|_| 13)?;
    check(
        14,
        quiet(gic.write_v2_distributor(FIRST, targets, width, 1)),
    )?;
    let enabled = gic.write_v2_distributor(FIRST, offset::GICD_ISENABLER + 4, Dword, 2);
    check(15, quiet(enabled))?;
    let up = gic.set_level(FIRST, DEVICE, true);
    check(16, up.is_ok_and(|it| it.wake.bits() == 1))?;
    check(17, taken(gic, FIRST) == Some(DEVICE))?;
    check(18, quiet(gic.set_level(FIRST, DEVICE, false)))?;
    let served = gic.interrupt(SECOND, DEVICE);
    check(19, served.is_ok_and(|it| it.cpu_target_mask == Some(1)))?;
    let ended = write(gic, FIRST, offset::GICC_EOIR, DEVICE.0);
    check(20, ended.is_ok_and(|it| it.retired == Some(DEVICE)))?;
    let again = gic.pulse(FIRST, DEVICE);
    check(21, again.is_ok_and(|it| it.wake.contains(FIRST)))
}

/// What is refused.
fn mistakes(gic: &mut Gic) -> Result<(), u8> {
    let none = gic.pulse(FIRST, IntId(LIMIT));
    check(22, none.is_err_and(|why| why.number() == 8))?;
    check(23, gic.irq_level(GicVcpuId(COUNT)) == Err(Refusal::Vcpu))?;
    let wide = gic.read_v2_distributor(FIRST, offset::GICD_ITARGETSR, AccessWidth::Qword);
    check(24, wide == Err(Refusal::Width))?;
    check(25, AccessWidth::try_from(3_usize) == Err(Refusal::Width))
}

/// The guest moves: vCPU 0, pulsed above, is to be woken elsewhere.
fn leave(gic: &Gic, buffer: &mut [u8], moved: &mut Gic) -> Result<(), u8> {
    let length = gic.save(buffer).map_err(|_| 26)?;
    let room = vgic::image_bytes(COUNT, LIMIT);
    check(27, room.is_some_and(|room| length <= room))?;
    let image = buffer.get(..length).ok_or(28)?;
    let shape = vgic::image_shape(image).map_err(|_| 29)?;
    check(30, (shape.count, shape.limit) == (COUNT, LIMIT))?;
    check(31, moved.load(&[]) == Err(Refusal::Image))?;
    check(32, moved.load(image) == Ok(()))?;
    let device = |gic: &Gic| gic.interrupt(FIRST, DEVICE);
    check(33, device(moved) == device(gic))?;
    check(34, moved.irq_level(FIRST) == Ok(true))?;
    check(35, moved.irq_level(SECOND) == Ok(false))?;
    check(36, taken(moved, FIRST) == Some(DEVICE))
}

/// The number of a step that did not go as it should.
fn check(step: u8, as_it_should: bool) -> Result<(), u8> {
    if as_it_should { Ok(()) } else { Err(step) }
}

/// Accepted, and nobody is to be woken.
fn quiet(answer: Result<Reply, Refusal>) -> bool {
    answer.is_ok_and(|it| it.wake.is_empty())
}

fn write(gic: &mut Gic, vcpu: GicVcpuId, offset: u64, value: u64) -> Result<Reply, Refusal> {
    gic.write_v2_cpu_interface(vcpu, offset, Dword, value)
}

fn taken(gic: &mut Gic, vcpu: GicVcpuId) -> Option<IntId> {
    let answer = gic.read_v2_cpu_interface(vcpu, offset::GICC_IAR, Dword);
    answer.ok().map(|it| IntId(it.value.into()))
}

/// Linux's exit.
fn exit(status: u8) -> ! {
    let status = u64::from(status);
    // SAFETY: the program ends here.
    unsafe {
        #[cfg(target_arch = "x86_64")]
        arch::asm!("syscall", in("rax") 60_u64, in("rdi") status, options(noreturn));
        #[cfg(target_arch = "aarch64")]
        arch::asm!("svc 0", in("x8") 93_u64, in("x0") status, options(noreturn));
    }
}

#[panic_handler]
fn panicked(_: &PanicInfo) -> ! {
    loop {}
}

/// What `core` as it comes for Linux names for unwinding. Nothing unwinds here, and nobody calls it.
#[unsafe(no_mangle)]
extern "C" fn rust_eh_personality() {}
