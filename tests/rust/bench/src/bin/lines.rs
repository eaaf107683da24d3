//! `lines ROUNDS HISTORY PROGRAM...` times programs that answer the runner's lines, each on all of the history: nanoseconds of processor time
//! for each line, the median of the rounds, and the ratio to the last program. Their answers have to be equal.
use bench::measure::{Figure, Used};
use std::{
    env,
    error::Error,
    fs::{self, File},
    path::Path,
    process::{Command, ExitCode, Stdio},
};

type Outcome<T> = Result<T, Box<dyn Error>>;

fn main() -> ExitCode {
    let arguments: Vec<String> = env::args().skip(1).collect();
    match run(&arguments) {
        Ok(()) => ExitCode::SUCCESS,
        Err(why) => {
            eprintln!("lines: {why}");
            ExitCode::FAILURE
        }
    }
}

fn run(arguments: &[String]) -> Outcome<()> {
    let [rounds, history, programs @ ..] = arguments else {
        return Err("usage: lines ROUNDS HISTORY PROGRAM...".into());
    };
    let lines = fs::read(history)?.split(|&byte| byte == b'\n').count() - 1;
    let answers: Vec<Vec<u8>> = programs
        .iter()
        .map(|program| answers(program, history))
        .collect::<Outcome<_>>()?;
    if answers.windows(2).any(|two| two[0] != two[1]) {
        return Err("the programs answer differently".into());
    }
    let mut times = vec![vec![]; programs.len()];
    for _ in 0..rounds.parse()? {
        for (program, times) in programs.iter().zip(&mut times) {
            times.push(time(program, history)? / lines as f64);
        }
    }
    let figures: Vec<Figure> = times.into_iter().map(Figure::of).collect();
    let base = figures.last().ok_or("no program")?.median;
    println!(
        "{lines} lines of random histories; ns of processor time for each line, median of {rounds} rounds (widest distance from it), and the ratio to the last"
    );
    for (program, figure) in programs.iter().zip(&figures) {
        let name = Path::new(program).file_name().unwrap_or_default();
        let shown = format!("{:.1} ({:.0}%)", figure.median, figure.spread());
        let ratio = figure.median / base;
        println!("{:36} {shown:>16} {ratio:>11.2}", name.to_string_lossy());
    }
    Ok(())
}

fn answers(program: &str, history: &str) -> Outcome<Vec<u8>> {
    let ran = Command::new(program)
        .stdin(File::open(history)?)
        .stderr(Stdio::inherit())
        .output()?;
    if ran.status.success() {
        Ok(ran.stdout)
    } else {
        Err(format!("{program} failed").into())
    }
}

fn time(program: &str, history: &str) -> Outcome<f64> {
    let mut command = Command::new(program);
    command.stdin(File::open(history)?).stdout(Stdio::null());
    let began = Used::by_programs();
    let ended = command.status()?;
    let took = Used::by_programs() - began;
    if ended.success() {
        Ok(took)
    } else {
        Err(format!("{program} failed").into())
    }
}
