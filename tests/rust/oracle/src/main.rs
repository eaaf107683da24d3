//! `oracle [--messages]` answers the runner's lines on standard input as the two Rust files do: see document 01, "The runner's lines". With
//! `--messages` the lines of the message frame are calls too.
use oracle::lines::{self, Parse};
use std::{
    env,
    io::{self, BufWriter},
    process::ExitCode,
};

fn main() -> ExitCode {
    let arguments: Vec<String> = env::args().skip(1).collect();
    let arguments: Vec<&str> = arguments.iter().map(String::as_str).collect();
    let parse: Parse = match arguments[..] {
        [] => lines::parse,
        ["--messages"] => lines::parse_with_messages,
        _ => {
            eprintln!("usage: oracle [--messages]");
            return ExitCode::from(2);
        }
    };
    let output = BufWriter::new(io::stdout().lock());
    match lines::run(io::stdin().lock(), output, parse) {
        Ok(()) => ExitCode::SUCCESS,
        Err(error) => {
            eprintln!("oracle: {error}");
            ExitCode::FAILURE
        }
    }
}
