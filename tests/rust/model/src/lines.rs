//! The runner's lines; and beside them, for request Seven's calls, two that are none of these.
use crate::gic::{Answer, Gic, gives, refused};
use std::io::Write;

#[cfg(test)]
mod tests;

pub enum Call {
    Setup(u64, u64),
    DistRead(u64, u64, u64),
    DistWrite(u64, u64, u64, u64),
    CpuRead(u64, u64, u64),
    CpuWrite(u64, u64, u64, u64),
    Level(u64, u64, bool),
    Pulse(u64, u64),
    /// Request Seven's: the window's first number and count, offset, width.
    V2mRead(u64, u64, u64, u64),
    /// The same, and the value.
    V2mWrite(u64, u64, u64, u64, u64),
}

pub fn number(field: &[u8]) -> Option<u64> {
    if field.is_empty() {
        return None;
    }
    let mut n: u64 = 0;
    for &b in field {
        if !b.is_ascii_digit() {
            return None;
        }
        n = n.checked_mul(10)?.checked_add((b - b'0') as u64)?;
    }
    Some(n)
}

/// The first field, the numbers after it, and how many these are; None if they are more than `N`, or the line has no line's form.
fn fields<const N: usize>(line: &[u8]) -> Option<(&[u8], [u64; N], usize)> {
    if line.len() > 80 {
        return None;
    }
    let mut fields = line.split(|&b| b == b' ');
    let head = fields.next()?;
    let mut n = [0u64; N];
    let mut got = 0;
    for field in fields {
        if got == N {
            return None;
        }
        n[got] = number(field)?;
        got += 1;
    }
    Some((head, n, got))
}

fn is_width(n: u64) -> bool {
    matches!(n, 1 | 2 | 4 | 8)
}

/// None for a line of any other form.
pub fn parse(line: &[u8]) -> Option<Call> {
    let (head, n, got) = fields::<4>(line)?;
    let width_ok = is_width(n[2]);
    match (head, got) {
        (b"n", 2) => Some(Call::Setup(n[0], n[1])),
        (b"d", 3) if width_ok => Some(Call::DistRead(n[0], n[1], n[2])),
        (b"c", 3) if width_ok => Some(Call::CpuRead(n[0], n[1], n[2])),
        (b"D", 4) if width_ok => Some(Call::DistWrite(n[0], n[1], n[2], n[3])),
        (b"C", 4) if width_ok => Some(Call::CpuWrite(n[0], n[1], n[2], n[3])),
        (b"l", 3) if n[2] < 2 => Some(Call::Level(n[0], n[1], n[2] == 1)),
        (b"p", 2) => Some(Call::Pulse(n[0], n[1])),
        _ => None,
    }
}

/// `m first count offset width` reads request Seven's frame, `M first count offset width value` writes it; None for any other line, and so
/// for each of the runner's.
pub fn parse_message(line: &[u8]) -> Option<Call> {
    let (head, n, got) = fields::<5>(line)?;
    let width_ok = is_width(n[3]);
    match (head, got) {
        (b"m", 4) if width_ok => Some(Call::V2mRead(n[0], n[1], n[2], n[3])),
        (b"M", 5) if width_ok => Some(Call::V2mWrite(n[0], n[1], n[2], n[3], n[4])),
        _ => None,
    }
}

pub fn run(state: &mut Option<Gic>, call: Call) -> Answer {
    if let Call::Setup(count, limit) = call {
        if !(1..=8).contains(&count) || !(32..=1020).contains(&limit) {
            return refused(4);
        }
        *state = Some(Gic::new(count, limit));
        return gives(0);
    }
    let gic = match state {
        None => return refused(6),
        Some(gic) => gic,
    };
    match call {
        Call::DistRead(v, off, width) => gic.dist_read(v, off, width),
        Call::DistWrite(v, off, width, value) => gic.dist_write(v, off, width, value),
        Call::CpuRead(v, off, width) => gic.cpu_read(v, off, width),
        Call::CpuWrite(v, off, width, value) => gic.cpu_write(v, off, width, value),
        Call::Level(v, id, high) => gic.input(v, id, Some(high)),
        Call::Pulse(v, id) => gic.input(v, id, None),
        Call::V2mRead(first, count, off, width) => gic.v2m_read(first, count, off, width),
        Call::V2mWrite(first, count, off, width, value) => {
            gic.v2m_write(first, count, off, width, value)
        }
        Call::Setup(..) => unreachable!(),
    }
}

pub fn answer_line(state: &mut Option<Gic>, line: &[u8], out: &mut Vec<u8>) {
    answer(state, parse(line), out);
}

/// Takes the lines of `parse_message` too.
pub fn answer_line_or_message(state: &mut Option<Gic>, line: &[u8], out: &mut Vec<u8>) {
    answer(state, parse(line).or_else(|| parse_message(line)), out);
}

fn answer(state: &mut Option<Gic>, call: Option<Call>, out: &mut Vec<u8>) {
    match call {
        None => out.extend_from_slice(b"?\n"),
        Some(call) => {
            let a = run(state, call);
            writeln!(out, "{} {} {} {}", a.refusal, a.value, a.wake, a.retired).unwrap();
        }
    }
}
