//! Answers the runner's lines on standard input, as `vgicrun` does; with `--messages` those of the message frame too.
use simple::lines::{self, Parse};
use std::{
    env,
    io::{self, BufWriter},
};

fn main() -> io::Result<()> {
    let parse: Parse = match env::args().nth(1).as_deref() {
        Some("--messages") => lines::parse_with_messages,
        _ => lines::parse,
    };
    let output = BufWriter::new(io::stdout().lock());
    lines::run(io::stdin().lock(), output, parse)
}
