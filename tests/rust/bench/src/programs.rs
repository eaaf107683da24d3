//! A controller in a program of its own, `turns`: two builds of the library have the same names, so one program cannot hold both.
use crate::workloads::Shape;
use std::{
    error::Error,
    process::{Command, Stdio},
};

pub type Outcome<T> = Result<T, Box<dyn Error>>;

/// What `turns` writes between the figure and the answers.
pub const BETWEEN: &str = " ns for each call, answers ";

/// One of those that are measured: which controller of which program.
pub struct Measured<'a> {
    pub name: &'static str,
    pub program: &'a str,
    pub controller: &'static str,
}

impl Measured<'_> {
    /// So many turns of the workload with this index: nanoseconds for each call, and all answers.
    pub fn time(&self, index: usize, shape: Shape, turns: u64) -> Outcome<(f64, String)> {
        let numbers = [index as u64 + 1, shape.count, shape.limit, turns];
        let ran = Command::new(self.program)
            .arg(self.controller)
            .args(numbers.map(|number| number.to_string()))
            .stderr(Stdio::inherit())
            .output()?;
        let said = String::from_utf8(ran.stdout)?;
        match said.trim_end().split_once(BETWEEN) {
            Some((each, answers)) if ran.status.success() => Ok((each.parse()?, answers.into())),
            _ => Err(format!("{} failed", self.program).into()),
        }
    }
}
