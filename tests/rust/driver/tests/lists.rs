//! The fixed lists through the safe face: each row of tests/lists that is a call is answered as it stands.
use oracle::{
    RegisterRegion::{CpuInterface, Distributor},
    lines::{self, Parse},
    machine::Call,
    message_frame,
};
use std::{fs, path::Path};
use vgic::{AccessWidth, Gic, GicVcpuId, IntId, MAX_STATE_WORDS, Refusal, Reply, Window};

fn width(width: oracle::AccessWidth) -> AccessWidth {
    AccessWidth::try_from(width.size()).unwrap()
}

fn window(window: message_frame::Window) -> Window {
    let message_frame::Window { first, count } = window;
    Window {
        first: IntId(first),
        count,
    }
}

fn call(gic: &mut Gic, call: &Call) -> Result<Reply, Refusal> {
    match call {
        Call::Setup { count, limit } => gic.setup(*count, *limit).map(|()| Reply::default()),
        Call::Read(at) => {
            let (vcpu, width) = (GicVcpuId(at.vcpu), width(at.width));
            match at.region {
                Distributor => gic.read_v2_distributor(vcpu, at.offset, width),
                CpuInterface => gic.read_v2_cpu_interface(vcpu, at.offset, width),
            }
        }
        Call::Write(at, value) => {
            let (vcpu, width) = (GicVcpuId(at.vcpu), width(at.width));
            match at.region {
                Distributor => gic.write_v2_distributor(vcpu, at.offset, width, *value),
                CpuInterface => gic.write_v2_cpu_interface(vcpu, at.offset, width, *value),
            }
        }
        Call::SetLevel(input, asserted) => {
            gic.set_level(GicVcpuId(input.vcpu), IntId(input.number), *asserted)
        }
        Call::Pulse(input) => gic.pulse(GicVcpuId(input.vcpu), IntId(input.number)),
        Call::ReadMessageFrame(at) => gic.read_v2m(window(at.window), at.offset, width(at.width)),
        Call::WriteMessageFrame(at, value) => {
            gic.write_v2m(window(at.window), at.offset, width(at.width), *value)
        }
    }
}

/// In the runner's form.
fn shown(answer: Result<Reply, Refusal>) -> String {
    match answer {
        Ok(Reply {
            value,
            wake,
            retired,
            ..
        }) => {
            let IntId(retired) = retired.unwrap_or(IntId::SPURIOUS);
            format!("0 {value} {} {retired}", wake.bits())
        }
        Err(refusal) => format!("{} 0 0 1023", refusal.number()),
    }
}

#[test]
fn every_row_of_the_lists() {
    let lists = Path::new(env!("CARGO_MANIFEST_DIR")).join("../../lists");
    let (mut count, mut messages) = (0, 0);
    for list in fs::read_dir(lists).unwrap() {
        let path = list.unwrap().path();
        if path.extension().is_none_or(|it| it != "list") {
            continue;
        }
        let (rows, parse): (_, Parse) = if path.ends_with("messages.list") {
            (&mut messages, lines::parse_with_messages)
        } else {
            (&mut count, lines::parse)
        };
        let mut words = [0; MAX_STATE_WORDS];
        let mut gic = Gic::lend(&mut words);
        for row in fs::read(&path).unwrap().split(|&byte| byte == b'\n') {
            let Some(at) = row.windows(2).rposition(|two| two == b": ") else {
                continue;
            };
            let Some(line) = parse(&row[..at]) else {
                continue;
            };
            let answer = shown(call(&mut gic, &line));
            let expected = String::from_utf8_lossy(&row[at + 2..]);
            assert_eq!(answer, expected, "{}: {line}", path.display());
            *rows += 1;
        }
    }
    assert!(count > 9000, "{count}");
    assert!(count + messages > 10_000, "{messages}");
}
