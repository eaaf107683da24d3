//! The runner's lines: document 01's section of that name, and two more, which the runner does not have.
use crate::{
    AccessWidth,
    RegisterRegion::{self, CpuInterface, Distributor},
    machine::{Access, Answer, Call, Input, Machine},
    message_frame::{FrameAccess, Window},
};
use std::{
    error::Error,
    fmt,
    io::{BufRead, Write},
    str,
};

const LONGEST: usize = 80;

/// Which lines are calls: `parse` or `parse_with_messages`.
pub type Parse = fn(&[u8]) -> Option<Call>;

/// Answers every line of the input. An empty rest after the last newline is no line.
pub fn run(
    input: impl BufRead,
    mut output: impl Write,
    parse: Parse,
) -> Result<(), Box<dyn Error>> {
    let mut machine = Machine::default();
    for (index, line) in input.split(b'\n').enumerate() {
        match answer(&mut machine, parse(&line?)) {
            Ok(answer) => writeln!(output, "{answer}")?,
            Err(fault) => {
                output.flush()?;
                return Err(format!("line {}: {fault}", index + 1).into());
            }
        }
    }
    Ok(output.flush()?)
}

/// A line of any other form is answered by `?`.
pub fn answer(machine: &mut Machine, call: Option<Call>) -> Result<String, Box<dyn Error>> {
    match call {
        Some(call) => Ok(machine.call(&call)?.to_string()),
        None => Ok("?".into()),
    }
}

/// Document 01's lines.
pub fn parse(line: &[u8]) -> Option<Call> {
    let (letter, numbers) = fields(line)?;
    match (letter, &numbers[..]) {
        (b"n", &[count, limit]) => Some(Call::Setup { count, limit }),
        (b"d", at) => access(Distributor, at).map(Call::Read),
        (b"c", at) => access(CpuInterface, at).map(Call::Read),
        (b"D", [at @ .., value]) => Some(Call::Write(access(Distributor, at)?, *value)),
        (b"C", [at @ .., value]) => Some(Call::Write(access(CpuInterface, at)?, *value)),
        (b"l", &[vcpu, number, level @ (0 | 1)]) => {
            Some(Call::SetLevel(Input { vcpu, number }, level == 1))
        }
        (b"p", &[vcpu, number]) => Some(Call::Pulse(Input { vcpu, number })),
        _ => None,
    }
}

/// The same, and `m first count offset width`, which reads the message frame of that window; `M` writes it, with a value after.
pub fn parse_with_messages(line: &[u8]) -> Option<Call> {
    let (letter, numbers) = fields(line)?;
    match (letter, &numbers[..]) {
        (b"m", at) => frame_access(at).map(Call::ReadMessageFrame),
        (b"M", [at @ .., value]) => Some(Call::WriteMessageFrame(frame_access(at)?, *value)),
        _ => parse(line),
    }
}

/// A letter and numbers, with one space between, in a line that is not too long.
fn fields(line: &[u8]) -> Option<(&[u8], Vec<u64>)> {
    if line.len() > LONGEST {
        return None;
    }
    let mut fields = line.split(|&byte| byte == b' ');
    let letter = fields.next()?;
    let numbers = fields.map(number).collect::<Option<Vec<u64>>>()?;
    Some((letter, numbers))
}

fn access(region: RegisterRegion, numbers: &[u64]) -> Option<Access> {
    let &[vcpu, offset, size] = numbers else {
        return None;
    };
    Some(Access {
        region,
        vcpu,
        offset,
        width: width(size)?,
    })
}

fn frame_access(numbers: &[u64]) -> Option<FrameAccess> {
    let &[first, count, offset, size] = numbers else {
        return None;
    };
    Some(FrameAccess {
        window: Window { first, count },
        offset,
        width: width(size)?,
    })
}

pub fn width(size: u64) -> Option<AccessWidth> {
    let mut widths = AccessWidth::ALL.into_iter();
    widths.find(|width| width.size() as u64 == size)
}

/// Decimal digits alone, up to 2^64-1.
fn number(field: &[u8]) -> Option<u64> {
    let digits = field.iter().all(u8::is_ascii_digit);
    digits.then(|| str::from_utf8(field).ok()?.parse().ok())?
}

impl fmt::Display for Call {
    fn fmt(&self, f: &mut fmt::Formatter) -> fmt::Result {
        match self {
            Self::Setup { count, limit } => write!(f, "n {count} {limit}"),
            Self::Read(at) => match at.region {
                Distributor => write!(f, "d {at}"),
                CpuInterface => write!(f, "c {at}"),
            },
            Self::Write(at, value) => match at.region {
                Distributor => write!(f, "D {at} {value}"),
                CpuInterface => write!(f, "C {at} {value}"),
            },
            Self::SetLevel(input, asserted) => write!(f, "l {input} {}", u8::from(*asserted)),
            Self::Pulse(input) => write!(f, "p {input}"),
            Self::ReadMessageFrame(at) => write!(f, "m {at}"),
            Self::WriteMessageFrame(at, value) => write!(f, "M {at} {value}"),
        }
    }
}

impl fmt::Display for Access {
    fn fmt(&self, f: &mut fmt::Formatter) -> fmt::Result {
        write!(f, "{} {} {}", self.vcpu, self.offset, self.width.size())
    }
}

impl fmt::Display for FrameAccess {
    fn fmt(&self, f: &mut fmt::Formatter) -> fmt::Result {
        let Window { first, count } = self.window;
        write!(f, "{first} {count} {} {}", self.offset, self.width.size())
    }
}

impl fmt::Display for Input {
    fn fmt(&self, f: &mut fmt::Formatter) -> fmt::Result {
        write!(f, "{} {}", self.vcpu, self.number)
    }
}

impl fmt::Display for Answer {
    fn fmt(&self, f: &mut fmt::Formatter) -> fmt::Result {
        let Self {
            refusal,
            value,
            wake,
            retired,
        } = self;
        write!(f, "{refusal} {value} {wake} {retired}")
    }
}
