//! What should be refused: before some good lines a call with a bad part, or a line of another form.
use super::{random::Random, scene::Scene};
use crate::{
    AccessWidth, RegisterRegion,
    machine::{Access, Call, Input},
    message_frame::{FrameAccess, SIZE, Window},
};

/// The lines for one call: the call itself, and now and then something refused before it.
pub fn lines(random: &mut Random, scene: &Scene, call: Call) -> Vec<Vec<u8>> {
    let mut lines = vec![];
    match random.below(200) {
        0..8 => lines.push(spoiled(random, scene, call).to_string().into_bytes()),
        8..12 => lines.push(malformed(random, call)),
        12 => lines.push(refused_setup(random).to_string().into_bytes()),
        _ => {}
    }
    lines.push(match random.below(100) {
        0 => padded(call, 80),
        1 => padded(call, 30),
        _ => call.to_string().into_bytes(),
    });
    lines
}

fn refused_setup(random: &mut Random) -> Call {
    let (count, limit) = random.pick(&[
        (0, 40),
        (9, 40),
        (2, 31),
        (2, 1021),
        (0, 0),
        (1 << 32 | 2, 40),
        (2, 1 << 32 | 40),
        (u64::MAX, u64::MAX),
    ]);
    Call::Setup { count, limit }
}

/// The call with a vCPU, offset, width, number or value that it should not have.
fn spoiled(random: &mut Random, scene: &Scene, call: Call) -> Call {
    match call {
        Call::Setup { .. } => refused_setup(random),
        Call::Read(at) => Call::Read(bad_access(random, scene, at)),
        Call::Write(at, value) if random.percent(25) => {
            Call::Write(at, value | random.number() << (8 * at.width.size() % 64))
        }
        Call::Write(at, value) => Call::Write(bad_access(random, scene, at), value),
        Call::SetLevel(input, asserted) => {
            Call::SetLevel(bad_input(random, scene, input), asserted)
        }
        Call::Pulse(input) => Call::Pulse(bad_input(random, scene, input)),
        Call::ReadMessageFrame(at) => Call::ReadMessageFrame(bad_frame_access(random, scene, at)),
        Call::WriteMessageFrame(at, value) => {
            Call::WriteMessageFrame(bad_frame_access(random, scene, at), value)
        }
    }
}

/// A vCPU that does not exist; some would, if their numbers were cut to fewer bits.
fn stranger(random: &mut Random, scene: &Scene) -> u64 {
    let count = scene.count;
    random.pick(&[count, count + 1, 8, 9, 255, 256, 1 << 32, 1 << 63, u64::MAX])
}

fn bad_access(random: &mut Random, scene: &Scene, at: Access) -> Access {
    match random.below(3) {
        0 => Access {
            vcpu: stranger(random, scene),
            ..at
        },
        1 => Access {
            offset: bad_offset(random, at),
            ..at
        },
        _ => Access {
            width: random.pick(&AccessWidth::ALL),
            ..at
        },
    }
}

fn bad_offset(random: &mut Random, at: Access) -> u64 {
    let size: u64 = match at.region {
        RegisterRegion::Distributor => 0x1000,
        RegisterRegion::CpuInterface => 0x2000,
    };
    offset_beside(random, at.offset, size)
}

/// Unaligned, or past a frame of this size.
fn offset_beside(random: &mut Random, offset: u64, size: u64) -> u64 {
    let beside = random.below(16);
    match random.below(5) {
        0 | 1 => offset ^ (1 + random.below(3)),
        2 => size - 8 + beside,
        3 => (1 << 32) + offset,
        _ => u64::MAX - beside,
    }
}

/// Half of the time the window; and with a bad one, at times a bad place or width as well.
fn bad_frame_access(random: &mut Random, scene: &Scene, mut at: FrameAccess) -> FrameAccess {
    let part = random.below(8);
    if part < 5 {
        at.window = bad_window(random, scene, at.window);
    }
    if (4..7).contains(&part) {
        at.offset = offset_beside(random, at.offset, SIZE);
    }
    if matches!(part, 3 | 7) {
        at.width = random.pick(&AccessWidth::ALL);
    }
    at
}

/// A window that no caller may give; some would be one, if their numbers were cut to fewer bits or their sum overflowed.
fn bad_window(random: &mut Random, scene: &Scene, Window { first, count }: Window) -> Window {
    let limit = scene.limit;
    let (first, count) = random.pick(&[
        (first, 0),
        (31, 2),
        (0, limit),
        (first, limit - first + 1),
        (limit, 1),
        (limit - 1, 2),
        (32, limit - 31),
        (first | 1 << 32, count),
        (first, count | 1 << 32),
        (first, first.wrapping_neg()),
        (u64::MAX, 1),
        (u64::MAX, 40),
        (first, u64::MAX),
    ]);
    Window { first, count }
}

fn bad_input(random: &mut Random, scene: &Scene, input: Input) -> Input {
    let limit = scene.limit;
    let cut = (1 << 32) + input.number;
    if random.percent(50) {
        Input {
            vcpu: stranger(random, scene),
            ..input
        }
    } else {
        Input {
            number: random.pick(&[0, 15, limit, limit + 1, 1020, 1023, cut, u64::MAX]),
            ..input
        }
    }
}

/// The same call in a line of `length` bytes: leading zeros in its last number.
fn padded(call: Call, length: usize) -> Vec<u8> {
    let line = call.to_string();
    let (front, last) = line.rsplit_once(' ').expect("every form has numbers");
    let digits = length.saturating_sub(front.len() + 1);
    format!("{front} {last:0>digits$}").into_bytes()
}

/// A line that is no call, most often by one byte.
fn malformed(random: &mut Random, call: Call) -> Vec<u8> {
    let line = call.to_string();
    let (front, last) = line.rsplit_once(' ').expect("every form has numbers");
    let text = match random.below(18) {
        0 => String::new(),
        1 => line[..1].into(),
        2 => front.into(),
        3 => format!("{line} 0"),
        4 => format!("{line} "),
        5 => format!(" {line}"),
        6 => line.replacen(' ', "  ", 1),
        7 => line.replacen(' ', "\t", 1),
        8 => format!("{line}\r"),
        9 => format!("{front} +{last}"),
        10 => format!("{front} -{last}"),
        11 => format!("{front} 0x{last}"),
        12 => format!("{front} 18446744073709551616"),
        13 => format!("x{}", &line[1..]),
        14 => return padded(call, 81),
        15 => return [line.as_bytes(), &[0xc3, 0xbf]].concat(),
        _ => with_size(
            &line,
            random.pick(&["3", "5", "16", "4294967297", "4294967300"]),
        ),
    };
    text.into_bytes()
}

/// The line with this for a width or a level; both are fourth in their lines, and a message's width fifth.
fn with_size(line: &str, size: &str) -> String {
    let before = if line.starts_with(['m', 'M']) { 4 } else { 3 };
    let mut fields: Vec<&str> = line.split(' ').collect();
    fields.truncate(before);
    fields.push(size);
    fields.extend(line.split(' ').skip(before + 1));
    fields.join(" ")
}
