//! Answers the runner's lines on standard input by the second writing of the rules; with the argument `--messages` request Seven's too.
use model::{
    gic::Gic,
    lines::{answer_line, answer_line_or_message},
};
use std::{
    env,
    io::{self, Read, Write},
};

fn main() -> io::Result<()> {
    let messages = env::args_os().skip(1).any(|it| it == "--messages");
    let answer = if messages {
        answer_line_or_message
    } else {
        answer_line
    };
    let mut input = io::stdin().lock();
    let mut output = io::stdout().lock();
    let mut state: Option<Gic> = None;
    let mut block = vec![0u8; 1 << 18];
    let mut out: Vec<u8> = Vec::with_capacity(1 << 19);
    // At most 81 bytes of a line are kept: enough to know it is too long.
    let mut line: Vec<u8> = Vec::with_capacity(96);
    loop {
        let got = match input.read(&mut block) {
            Ok(got) => got,
            Err(e) if e.kind() == io::ErrorKind::Interrupted => continue,
            Err(e) => return Err(e),
        };
        for &b in &block[..got] {
            if b == b'\n' {
                answer(&mut state, &line, &mut out);
                line.clear();
            } else if line.len() <= 80 {
                line.push(b);
            }
        }
        if got == 0 && !line.is_empty() {
            answer(&mut state, &line, &mut out);
        }
        output.write_all(&out)?;
        out.clear();
        if got == 0 {
            return output.flush();
        }
    }
}
