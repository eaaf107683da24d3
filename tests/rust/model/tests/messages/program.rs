//! The program `model` and its argument.
use std::{
    io::Write,
    process::{Command, Stdio},
};

/// What it prints for these lines.
fn printed(arguments: &[&str], lines: &str) -> String {
    let mut program = Command::new(env!("CARGO_BIN_EXE_model"))
        .args(arguments)
        .stdin(Stdio::piped())
        .stdout(Stdio::piped())
        .spawn()
        .expect("the program");
    let mut input = program.stdin.take().expect("its input");
    input.write_all(lines.as_bytes()).expect("lines are read");
    drop(input);
    let output = program.wait_with_output().expect("its output");
    assert!(output.status.success());
    String::from_utf8(output.stdout).expect("numbers")
}

#[test]
fn the_program_takes_messages_if_it_is_told_to() {
    let lines = "m 32 1 8 4\nn 1 40\nm 33 4 8 4\nM 33 4 64 4 33\nd 0 516 4\nM 33 8 64 4 33";
    let without = "?\n0 0 0 1023\n?\n?\n0 0 0 1023\n?\n";
    assert_eq!(printed(&[], lines), without);
    assert_eq!(
        printed(&["--messages"], lines),
        "6 0 0 1023\n0 0 0 1023\n0 2162692 0 1023\n0 0 0 1023\n0 2 0 1023\n11 0 0 1023\n"
    );
}
