//! `bench ROUNDS TURNS GENERAL` times the calls of two builds of the library, of the plain Rust and of the oracle: nanoseconds of processor
//! time for each call, the median of the rounds. TURNS is the program `turns` with the one build, GENERAL with the one for general registers.
//! All make the same calls, and where their answers differ it fails. Save and load, which the oracle does not have, stand by themselves.
use bench::{
    Controller, Library, Oracle, Plain,
    measure::{Figure, turns_for},
    moves,
    programs::{Measured, Outcome},
    workloads::{self, Shape},
};
use std::{env, num::NonZero, process::ExitCode};

const SHAPES: [Shape; 4] = [shape(2, 1020), shape(2, 64), shape(8, 1020), shape(8, 64)];
/// Of what is saved and loaded.
const MOVED: Shape = shape(8, 1020);
/// About how long a round of the plain Rust is. The others take as many turns.
const NANOSECONDS: f64 = 30e6;

const fn shape(count: u64, limit: u64) -> Shape {
    Shape { count, limit }
}

fn main() -> ExitCode {
    let arguments: Vec<String> = env::args().skip(1).collect();
    match run(&arguments) {
        Ok(()) => ExitCode::SUCCESS,
        Err(why) => {
            eprintln!("bench: {why}");
            ExitCode::FAILURE
        }
    }
}

fn run(arguments: &[String]) -> Outcome<()> {
    let [rounds, turns, general] = arguments else {
        return Err("usage: bench ROUNDS TURNS GENERAL".into());
    };
    let rounds: NonZero<usize> = rounds.parse()?;
    let measured = |name, program, controller| Measured {
        name,
        program,
        controller,
    };
    let all = [
        measured("ours", turns, Library::NAME),
        measured("ours (general)", general, Library::NAME),
        measured("simple", turns, Plain::NAME),
        measured("oracle", turns, Oracle::NAME),
    ];
    for shape in SHAPES {
        let Shape { count, limit } = shape;
        println!(
            "{count} vCPUs, interrupts below {limit}; ns of processor time for each call, median of {rounds} rounds (widest distance from it)"
        );
        let names = all.iter().map(|it| format!(" {:>16}", it.name));
        println!(
            "{:36}{} {:>11} {:>14} {:>13}",
            "",
            names.collect::<String>(),
            "ours/simple",
            "general/simple",
            "oracle/simple"
        );
        for (index, workload) in workloads::all::<Plain>().iter().enumerate() {
            let turns = turns_for(workload, shape, NANOSECONDS);
            let figures = figures(&all, rounds.get(), |it| it.time(index, shape, turns))
                .map_err(|why| format!("{}: {why}", workload.name))?;
            show(workload.name, figures);
        }
    }
    let [ours, general, simple, _] = all;
    time_moves(&[ours, general, simple], rounds.get())
}

/// Save and load of a busy controller.
fn time_moves(all: &[Measured; 3], rounds: usize) -> Outcome<()> {
    let Shape { count, limit } = MOVED;
    println!("{count} vCPUs, interrupts below {limit}, busy; as above");
    for (index, name) in moves::NAMES.iter().enumerate() {
        let turns = moves::turns_for(index, MOVED, NANOSECONDS);
        let workload = workloads::all::<Plain>().len() + index;
        let figures = figures(all, rounds, |it| it.time(workload, MOVED, turns))
            .map_err(|why| format!("{name}: {why}"))?;
        let [ours, general, simple] = figures.map(|it| it.median);
        println!(
            "{name:36}{} {:>28.2} {:>14.2}",
            each(&figures),
            ours / simple,
            general / simple
        );
    }
    Ok(())
}

/// What comes of the rounds of one workload, in which all have to give the same answers.
fn figures<const N: usize>(
    all: &[Measured; N],
    rounds: usize,
    time: impl Fn(&Measured) -> Outcome<(f64, String)>,
) -> Outcome<[Figure; N]> {
    let mut times = [const { vec![] }; N];
    let mut answers = None;
    for _ in 0..rounds {
        for (it, times) in all.iter().zip(&mut times) {
            let (each, gave) = time(it)?;
            times.push(each);
            if *answers.get_or_insert_with(|| gave.clone()) != gave {
                return Err(format!("{} answers differently", it.name).into());
            }
        }
    }
    Ok(times.map(Figure::of))
}

/// Every median with its spread.
fn each(figures: &[Figure]) -> String {
    let shown = |it: &Figure| format!("{:.1} ({:.0}%)", it.median, it.spread());
    figures
        .iter()
        .map(|it| format!(" {:>16}", shown(it)))
        .collect()
}

fn show(name: &str, figures: [Figure; 4]) {
    let each = each(&figures);
    let [ours, general, simple, oracle] = figures.map(|it| it.median);
    println!(
        "{name:36}{each} {:>11.2} {:>14.2} {:>13.1}",
        ours / simple,
        general / simple,
        oracle / simple
    );
}
