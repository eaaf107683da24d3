//! The runner's lines: document 01's section of that name, and two more for the message frame, which the runner does not have.
use crate::{
    Width, Window,
    gic::{Answer, Gic, Refusal, Reply, SPURIOUS},
};
use std::io::{self, BufRead, Write};

const LONGEST: usize = 80;

#[derive(Clone, Copy, Debug, PartialEq, Eq)]
pub enum Call {
    Setup { count: u64, limit: u64 },
    ReadDistributor(Access),
    WriteDistributor(Access, u64),
    ReadCpuInterface(Access),
    WriteCpuInterface(Access, u64),
    SetLevel { vcpu: u64, id: u64, level: bool },
    Pulse { vcpu: u64, id: u64 },
    ReadMessageFrame(FrameAccess),
    WriteMessageFrame(FrameAccess, u64),
}

#[derive(Clone, Copy, Debug, PartialEq, Eq)]
pub struct Access {
    pub vcpu: u64,
    pub offset: u64,
    pub width: Width,
}

#[derive(Clone, Copy, Debug, PartialEq, Eq)]
pub struct FrameAccess {
    pub window: Window,
    pub offset: u64,
    pub width: Width,
}

/// A controller, or none before the first accepted setup.
#[derive(Default)]
pub struct Machine {
    gic: Option<Gic>,
}

impl Machine {
    /// A refused setup keeps the earlier controller.
    fn setup(&mut self, count: u64, limit: u64) -> Answer {
        self.gic = Some(Gic::new(count, limit)?);
        Ok(Reply::default())
    }

    pub fn call(&mut self, call: Call) -> Answer {
        if let Call::Setup { count, limit } = call {
            return self.setup(count, limit);
        }
        let gic = self.gic.as_mut().ok_or(Refusal::NoState)?;
        match call {
            Call::Setup { .. } => unreachable!("done above"),
            Call::ReadDistributor(at) => gic.read_distributor(at.vcpu, at.offset, at.width),
            Call::WriteDistributor(at, value) => {
                gic.write_distributor(at.vcpu, at.offset, at.width, value)
            }
            Call::ReadCpuInterface(at) => gic.read_cpu_interface(at.vcpu, at.offset, at.width),
            Call::WriteCpuInterface(at, value) => {
                gic.write_cpu_interface(at.vcpu, at.offset, at.width, value)
            }
            Call::SetLevel { vcpu, id, level } => gic.set_level(vcpu, id, level),
            Call::Pulse { vcpu, id } => gic.pulse(vcpu, id),
            Call::ReadMessageFrame(at) => gic.read_message_frame(at.window, at.offset, at.width),
            Call::WriteMessageFrame(at, value) => {
                gic.write_message_frame(at.window, at.offset, at.width, value)
            }
        }
    }
}

/// Which lines are calls: `parse` or `parse_with_messages`.
pub type Parse = fn(&[u8]) -> Option<Call>;

/// Answers every line of the input. An empty rest after the last newline is no line.
pub fn run(mut input: impl BufRead, mut output: impl Write, parse: Parse) -> io::Result<()> {
    let mut machine = Machine::default();
    let mut line = Vec::new();
    while input.read_until(b'\n', &mut line)? != 0 {
        let text = line.strip_suffix(b"\n").unwrap_or(&line);
        match parse(text) {
            Some(call) => print(&mut output, machine.call(call))?,
            None => writeln!(output, "?")?,
        }
        line.clear();
    }
    output.flush()
}

fn print(output: &mut impl Write, answer: Answer) -> io::Result<()> {
    match answer {
        Ok(reply) => {
            let retired = reply.retired.map_or(SPURIOUS, u32::from);
            writeln!(output, "0 {} {} {retired}", reply.value, reply.wake)
        }
        Err(refusal) => writeln!(output, "{} 0 0 {SPURIOUS}", refusal as u8),
    }
}

/// Document 01's lines; none for a line of any other form.
pub fn parse(line: &[u8]) -> Option<Call> {
    let (letter, numbers, count) = fields::<4>(line)?;
    match (letter, &numbers[..count]) {
        (b"n", &[count, limit]) => Some(Call::Setup { count, limit }),
        (b"d", at) => access(at).map(Call::ReadDistributor),
        (b"c", at) => access(at).map(Call::ReadCpuInterface),
        (b"D", [at @ .., value]) => Some(Call::WriteDistributor(access(at)?, *value)),
        (b"C", [at @ .., value]) => Some(Call::WriteCpuInterface(access(at)?, *value)),
        (b"l", &[vcpu, id, level @ (0 | 1)]) => Some(Call::SetLevel {
            vcpu,
            id,
            level: level == 1,
        }),
        (b"p", &[vcpu, id]) => Some(Call::Pulse { vcpu, id }),
        _ => None,
    }
}

/// The same, and the message frame's: `m` reads it, `M` writes it.
pub fn parse_with_messages(line: &[u8]) -> Option<Call> {
    let (letter, numbers, count) = fields::<5>(line)?;
    match (letter, &numbers[..count]) {
        (b"m", at) => frame_access(at).map(Call::ReadMessageFrame),
        (b"M", [at @ .., value]) => Some(Call::WriteMessageFrame(frame_access(at)?, *value)),
        _ => parse(line),
    }
}

/// A letter, and at most so many numbers.
fn fields<const MOST: usize>(line: &[u8]) -> Option<(&[u8], [u64; MOST], usize)> {
    if line.len() > LONGEST {
        return None;
    }
    let mut fields = line.split(|&byte| byte == b' ');
    let letter = fields.next()?;
    let mut numbers = [0; MOST];
    let mut count = 0;
    for field in fields {
        *numbers.get_mut(count)? = number(field)?;
        count += 1;
    }
    Some((letter, numbers, count))
}

fn access(numbers: &[u64]) -> Option<Access> {
    let &[vcpu, offset, width] = numbers else {
        return None;
    };
    Some(Access {
        vcpu,
        offset,
        width: Width::new(width)?,
    })
}

fn frame_access(numbers: &[u64]) -> Option<FrameAccess> {
    let &[first, count, offset, width] = numbers else {
        return None;
    };
    Some(FrameAccess {
        window: Window { first, count },
        offset,
        width: Width::new(width)?,
    })
}

/// Decimal digits alone, up to 2^64-1.
fn number(field: &[u8]) -> Option<u64> {
    if field.is_empty() {
        return None;
    }
    field.iter().try_fold(0u64, |number, byte| {
        let digit = byte.is_ascii_digit().then(|| u64::from(byte - b'0'))?;
        number.checked_mul(10)?.checked_add(digit)
    })
}
