//! The three that are measured, each by the calls that a Rust caller would make.
use crate::{Controller, Given};
use oracle::{
    RegisterRegion::{self, CpuInterface, Distributor},
    machine::{Access, Call, Input, Machine},
    message_frame::{self, FrameAccess},
};
use vgic::{AccessWidth, Gic, GicVcpuId, IntId, Reply, Window, offset::V2M_SETSPI};

/// `libvgic.a` through its safe face, over words that it is lent.
pub struct Library {
    words: Vec<u32>,
}

/// The plain Rust.
pub struct Plain {
    gic: simple::Gic,
}

/// The two Rust files over the stand-in, as the comparisons call them: every call copies the state, to watch itself and to try IAR.
pub struct Oracle {
    machine: Machine,
}

fn width(bytes: u64) -> AccessWidth {
    AccessWidth::try_from(bytes).expect("a width")
}

fn given(answer: Result<Reply, vgic::Refusal>) -> Given {
    let reply = answer.expect("an accepted call");
    Given {
        value: reply.value,
        wake: reply.wake.bits(),
        retired: reply.retired.map_or(1023, |IntId(number)| number as u32),
    }
}

/// What only looks gives.
fn told(value: u32) -> Given {
    Given {
        value,
        wake: 0,
        retired: 1023,
    }
}

impl Library {
    pub fn into_words(self) -> Vec<u32> {
        self.words
    }

    fn gic(&mut self) -> Gic<'_> {
        Gic::lend(&mut self.words)
    }
}

impl Controller for Library {
    const NAME: &'static str = "ours";

    fn setup(count: u64, limit: u64) -> Self {
        let mut words = vec![0; vgic::state_words(count, limit).expect("in range")];
        Gic::lend(&mut words).setup(count, limit).expect("in range");
        Self { words }
    }

    fn read_distributor(&mut self, vcpu: u64, offset: u64, bytes: u64) -> Given {
        let width = width(bytes);
        given(
            self.gic()
                .read_v2_distributor(GicVcpuId(vcpu), offset, width),
        )
    }

    fn write_distributor(&mut self, vcpu: u64, offset: u64, bytes: u64, value: u64) -> Given {
        let width = width(bytes);
        given(
            self.gic()
                .write_v2_distributor(GicVcpuId(vcpu), offset, width, value),
        )
    }

    fn read_interface(&mut self, vcpu: u64, offset: u64) -> Given {
        given(
            self.gic()
                .read_v2_cpu_interface(GicVcpuId(vcpu), offset, AccessWidth::Dword),
        )
    }

    fn write_interface(&mut self, vcpu: u64, offset: u64, value: u64) -> Given {
        given(
            self.gic()
                .write_v2_cpu_interface(GicVcpuId(vcpu), offset, AccessWidth::Dword, value),
        )
    }

    fn set_level(&mut self, vcpu: u64, number: u64, asserted: bool) -> Given {
        given(
            self.gic()
                .set_level(GicVcpuId(vcpu), IntId(number), asserted),
        )
    }

    fn pulse(&mut self, vcpu: u64, number: u64) -> Given {
        given(self.gic().pulse(GicVcpuId(vcpu), IntId(number)))
    }

    fn message(&mut self, first: u64, count: u64, number: u64) -> Given {
        let window = Window {
            first: IntId(first),
            count,
        };
        given(
            self.gic()
                .write_v2m(window, V2M_SETSPI, AccessWidth::Dword, number),
        )
    }

    fn irq_level(&mut self, vcpu: u64) -> Given {
        let level = self.gic().irq_level(GicVcpuId(vcpu));
        told(level.expect("an accepted call").into())
    }
}

fn plain(answer: simple::Answer) -> Given {
    let reply = answer.expect("an accepted call");
    Given {
        value: reply.value,
        wake: reply.wake,
        retired: reply.retired.map_or(1023, u32::from),
    }
}

impl Controller for Plain {
    const NAME: &'static str = "simple";

    fn setup(count: u64, limit: u64) -> Self {
        let gic = simple::Gic::new(count, limit).expect("in range");
        Self { gic }
    }

    fn read_distributor(&mut self, vcpu: u64, offset: u64, bytes: u64) -> Given {
        let width = simple::Width::new(bytes).expect("a width");
        plain(self.gic.read_distributor(vcpu, offset, width))
    }

    fn write_distributor(&mut self, vcpu: u64, offset: u64, bytes: u64, value: u64) -> Given {
        let width = simple::Width::new(bytes).expect("a width");
        plain(self.gic.write_distributor(vcpu, offset, width, value))
    }

    fn read_interface(&mut self, vcpu: u64, offset: u64) -> Given {
        plain(
            self.gic
                .read_cpu_interface(vcpu, offset, simple::Width::Dword),
        )
    }

    fn write_interface(&mut self, vcpu: u64, offset: u64, value: u64) -> Given {
        plain(
            self.gic
                .write_cpu_interface(vcpu, offset, simple::Width::Dword, value),
        )
    }

    fn set_level(&mut self, vcpu: u64, number: u64, asserted: bool) -> Given {
        plain(self.gic.set_level(vcpu, number, asserted))
    }

    fn pulse(&mut self, vcpu: u64, number: u64) -> Given {
        plain(self.gic.pulse(vcpu, number))
    }

    fn message(&mut self, first: u64, count: u64, number: u64) -> Given {
        let window = simple::Window { first, count };
        plain(
            self.gic
                .write_message_frame(window, V2M_SETSPI, simple::Width::Dword, number),
        )
    }

    fn irq_level(&mut self, vcpu: u64) -> Given {
        plain(self.gic.irq_level(vcpu))
    }
}

impl Oracle {
    fn call(&mut self, call: Call) -> Given {
        let answer = self.machine.call(&call).expect("a sound oracle");
        assert_eq!(answer.refusal, 0, "an accepted call");
        Given {
            value: answer.value as u32,
            wake: answer.wake,
            retired: answer.retired,
        }
    }
}

fn access(region: RegisterRegion, vcpu: u64, offset: u64, bytes: u64) -> Access {
    let mut widths = oracle::AccessWidth::ALL.into_iter();
    let width = widths.find(|width| width.size() as u64 == bytes);
    Access {
        region,
        vcpu,
        offset,
        width: width.expect("a width"),
    }
}

impl Controller for Oracle {
    const NAME: &'static str = "oracle";

    fn setup(count: u64, limit: u64) -> Self {
        let mut oracle = Self {
            machine: Machine::default(),
        };
        oracle.call(Call::Setup { count, limit });
        oracle
    }

    fn read_distributor(&mut self, vcpu: u64, offset: u64, bytes: u64) -> Given {
        self.call(Call::Read(access(Distributor, vcpu, offset, bytes)))
    }

    fn write_distributor(&mut self, vcpu: u64, offset: u64, bytes: u64, value: u64) -> Given {
        self.call(Call::Write(access(Distributor, vcpu, offset, bytes), value))
    }

    fn read_interface(&mut self, vcpu: u64, offset: u64) -> Given {
        self.call(Call::Read(access(CpuInterface, vcpu, offset, 4)))
    }

    fn write_interface(&mut self, vcpu: u64, offset: u64, value: u64) -> Given {
        self.call(Call::Write(access(CpuInterface, vcpu, offset, 4), value))
    }

    fn set_level(&mut self, vcpu: u64, number: u64, asserted: bool) -> Given {
        self.call(Call::SetLevel(Input { vcpu, number }, asserted))
    }

    fn pulse(&mut self, vcpu: u64, number: u64) -> Given {
        self.call(Call::Pulse(Input { vcpu, number }))
    }

    fn message(&mut self, first: u64, count: u64, number: u64) -> Given {
        let at = FrameAccess {
            window: message_frame::Window { first, count },
            offset: V2M_SETSPI,
            width: oracle::AccessWidth::Dword,
        };
        self.call(Call::WriteMessageFrame(at, number))
    }

    fn irq_level(&mut self, vcpu: u64) -> Given {
        told(self.machine.irq_level(vcpu).value as u32)
    }
}
