//! `turns ours|simple|oracle WORKLOAD COUNT LIMIT TURNS` takes turns of one workload (1 to 10), for `bench` and for a profiler; 11 is save and
//! 12 load, which the oracle does not have.
use bench::{
    Controller, Library, Oracle, Plain, Sum,
    measure::time,
    moves::{self, Mover},
    programs,
    workloads::{self, Shape},
};
use std::{env, process::ExitCode};

fn take<C: Controller>(numbers: &[u64]) -> Option<(f64, Sum)> {
    let &[workload, count, limit, turns] = numbers else {
        return None;
    };
    let index = workload.checked_sub(1)? as usize;
    let workload = workloads::all::<C>().into_iter().nth(index)?;
    Some(time(&workload, Shape { count, limit }, turns))
}

fn save_or_load<M: Mover>(numbers: &[u64]) -> Option<(f64, Sum)> {
    let &[workload, count, limit, turns] = numbers else {
        return None;
    };
    let index = workload.checked_sub(1 + workloads::all::<Plain>().len() as u64)?;
    moves::time::<M>(index as usize, Shape { count, limit }, turns)
}

fn main() -> ExitCode {
    let arguments: Vec<String> = env::args().skip(1).collect();
    let numbers: Vec<u64> = arguments.iter().flat_map(|it| it.parse()).collect();
    let outcome = match arguments.first().map(String::as_str) {
        Some("ours") => take::<Library>(&numbers).or_else(|| save_or_load::<Library>(&numbers)),
        Some("simple") => take::<Plain>(&numbers).or_else(|| save_or_load::<Plain>(&numbers)),
        Some("oracle") => take::<Oracle>(&numbers),
        _ => None,
    };
    let Some((each, answers)) = outcome else {
        eprintln!("usage: turns ours|simple|oracle WORKLOAD COUNT LIMIT TURNS");
        return ExitCode::from(2);
    };
    println!("{each:.1}{}{answers}", programs::BETWEEN);
    ExitCode::SUCCESS
}
