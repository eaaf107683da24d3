//! `driver [SEED [CALLS]]` compares libvgic.a with the oracle, its images with the second writing, and its message frame with both: after every
//! call the answer and every word of the state, every byte of an image, and what the library tells of IRQ lines and interrupts. It ends with
//! status 1 and the calls that lead there where they differ, and with status 1 where the histories or the lent words acknowledge nothing at one
//! of the eight binary points, or where no write of ICPENDR meets one of the kinds of records that it clears or leaves, or where no call of lent
//! words meets one of the kinds of bits of the summary that are false or from the limit up. All this it does twice: with calls of both frames
//! alone, and with messages among them, where it also ends with status 1 if messages of some kind do not come.
use comparison::{report::Case, run, run_with_messages, tally::Tally};
use driver::Vgic;
use std::{env, process::ExitCode};

const SEED: u64 = 1;
/// Enough to come to every place of both frames, and to every count and limit; half as many again are for images, and where there are messages a
/// tenth for the message frame, which is enough to come to every place of it too.
const CALLS: u64 = 1_500_000;

fn main() -> ExitCode {
    let arguments = env::args().skip(1).map(|argument| argument.parse::<u64>());
    let numbers: Result<Vec<u64>, _> = arguments.collect();
    let (seed, calls) = match numbers.as_deref() {
        Ok([]) => (SEED, CALLS),
        Ok(&[seed]) => (seed, CALLS),
        Ok(&[seed, calls]) => (seed, calls),
        _ => {
            eprintln!("usage: driver [SEED [CALLS]]");
            return ExitCode::from(2);
        }
    };
    println!("driver: seed {seed}");
    let plain = match run(&Vgic, seed, calls) {
        Ok(tallies) => tallies,
        Err(case) => return tell(case),
    };
    print(&plain);
    println!("driver: with messages among the calls:");
    let messages = match run_with_messages(&Vgic, seed, calls) {
        Ok(tallies) => tallies,
        Err(case) => return tell(case),
    };
    print(&messages);
    let met = [
        everything_is_met(&plain),
        everything_is_met(&messages),
        every_message_is_met(&messages),
    ];
    ExitCode::from(u8::from(met != [true; 3]))
}

fn print(tallies: &[(&str, Tally)]) {
    let mut all = Tally::default();
    for (name, tally) in tallies {
        println!("driver: {name}: {tally}");
        all += *tally;
    }
    println!("driver: {all}");
    println!(
        "driver: {} images saved, {} offered, {} of them loaded, as the second writing has it",
        all.saved, all.offered, all.loaded
    );
    println!(
        "driver: {} calls and {} questions compared, every answer, every byte and every word equal",
        all.calls, all.questions
    );
}

/// A full stack comes to each binary point by design; histories and lent words have to come by themselves to each of them, and to each kind of
/// record that may have pending cleared; lent words to each kind of bits that no history has. That takes some ten thousand calls.
fn everything_is_met(tallies: &[(&str, Tally)]) -> bool {
    let mut met = true;
    for part in ["histories", "lent words"] {
        let tally = tally_of(part, tallies);
        if let Some(point) = tally.missing_point() {
            println!("driver: the {part} acknowledge nothing at binary point {point}");
            met = false;
        }
        if let Some(kind) = tally.missing_kind() {
            println!("driver: in the {part} ICPENDR meets nothing that is {kind}");
            met = false;
        }
        if let (Some(kind), "lent words") = (tally.missing_bit(), part) {
            println!("driver: in the {part} no bit of the summary is {kind}");
            met = false;
        }
    }
    met
}

/// The parts that have to come to each kind of message, which takes no more calls.
fn every_message_is_met(tallies: &[(&str, Tally)]) -> bool {
    let mut met = true;
    for part in ["histories", "messages", "lent words"] {
        if let Some(kind) = tally_of(part, tallies).missing_message() {
            println!("driver: in the {part} there is no message {kind}");
            met = false;
        }
    }
    met
}

fn tally_of<'a>(part: &str, tallies: &'a [(&str, Tally)]) -> &'a Tally {
    let mut parts = tallies.iter();
    let found = parts.find(|(name, _)| *name == part);
    &found.expect("a part of every run").1
}

fn tell(case: Case) -> ExitCode {
    println!("driver: a difference, after these lines:\n{}", case.text());
    println!(
        "driver: and after these fewer:\n{}",
        case.shrunk(&Vgic).text()
    );
    ExitCode::FAILURE
}
