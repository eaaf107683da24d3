//! `scripts [--messages] SEED LINES` prints so many lines of random histories for the runner; with `--messages` there are lines of the message
//! frame among them, which `vgicrun` does not have.
use oracle::scripts::Scripts;
use std::{
    env,
    io::{self, BufWriter, Write},
    process::ExitCode,
};

fn main() -> ExitCode {
    let mut arguments: Vec<String> = env::args().skip(1).collect();
    let messages = arguments.first().is_some_and(|it| it == "--messages");
    arguments.drain(..usize::from(messages));
    let numbers = arguments.iter().map(|argument| argument.parse::<u64>());
    let numbers: Result<Vec<u64>, _> = numbers.collect();
    let Ok(&[seed, lines]) = numbers.as_deref() else {
        eprintln!("usage: scripts [--messages] SEED LINES");
        return ExitCode::FAILURE;
    };
    let scripts = if messages {
        Scripts::with_messages(seed)
    } else {
        Scripts::new(seed)
    };
    match print(scripts, lines) {
        Ok(()) => ExitCode::SUCCESS,
        Err(error) => {
            eprintln!("scripts: {error}");
            ExitCode::FAILURE
        }
    }
}

fn print(scripts: Scripts, lines: u64) -> io::Result<()> {
    let mut out = BufWriter::new(io::stdout().lock());
    for line in scripts.take(lines as usize) {
        out.write_all(&line)?;
        out.write_all(b"\n")?;
    }
    out.flush()
}
