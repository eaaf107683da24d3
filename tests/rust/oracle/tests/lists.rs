//! The fixed lists come out as they stand.
mod rows;

use model::lines::answer_line_or_message;
use oracle::lines;
use rows::rows;

fn replay(name: &str) {
    replay_by(name, |input| by_oracle(input, lines::parse));
}

/// Each row of the list comes out as it stands, by whoever answers all of its lines.
fn replay_by(name: &str, answers: impl FnOnce(&[&[u8]]) -> Vec<u8>) {
    let rows = rows(name);
    let input: Vec<&[u8]> = rows.iter().map(|row| &row.0[..]).collect();
    let output = String::from_utf8(answers(&input)).unwrap();
    assert_eq!(output.lines().count(), rows.len());
    for (index, ((line, expected), answer)) in rows.iter().zip(output.lines()).enumerate() {
        let line = String::from_utf8_lossy(line);
        assert_eq!(answer, expected, "{name}, row {}: {line}", index + 1);
    }
}

fn by_oracle(input: &[&[u8]], parse: lines::Parse) -> Vec<u8> {
    let mut output = vec![];
    lines::run(&input.join(&b'\n')[..], &mut output, parse).unwrap();
    output
}

/// By the second writing.
fn by_model(input: &[&[u8]]) -> Vec<u8> {
    let (mut state, mut output) = (None, vec![]);
    for line in input {
        answer_line_or_message(&mut state, line, &mut output);
    }
    output
}

#[test]
fn document_01s_example() {
    assert_eq!(rows("example.list").len(), 11);
    replay("example.list");
}

#[test]
fn document_01s_corners() {
    replay("corners.list");
}

#[test]
fn registers() {
    replay("registers.list");
}

#[test]
fn readings() {
    replay("readings.list");
}

#[test]
fn lines_of_every_form_and_of_none() {
    replay("lines.list");
}

#[test]
fn differences() {
    replay("differences.list");
}

#[test]
fn merging() {
    replay("merging.list");
}

#[test]
fn sample() {
    replay("sample.list");
}

#[test]
fn messages() {
    replay_by("messages.list", |input| {
        by_oracle(input, lines::parse_with_messages)
    });
    replay_by("messages.list", by_model);
}

/// The runner has no such lines: there they are of another form.
#[test]
fn messages_are_no_lines_of_the_runner() {
    let (mut messages, mut others) = (0, 0);
    for (line, expected) in rows("messages.list") {
        let is_message = line.starts_with(b"m ") || line.starts_with(b"M ");
        let is_call = expected != "?";
        assert_eq!(lines::parse(&line).is_some(), is_call && !is_message);
        messages += usize::from(is_call && is_message);
        others += usize::from(is_call && !is_message);
    }
    assert!(messages > 300 && others > 500, "{messages} {others}");
}

#[test]
fn the_last_line_may_lack_its_newline() {
    for (input, expected) in [
        (&b""[..], ""),
        (b"n 2 40", "0 0 0 1023\n"),
        (b"n 2 40\n", "0 0 0 1023\n"),
        (b"n 2 40\n\n", "0 0 0 1023\n?\n"),
        (b"\nn 2 40\nx", "?\n0 0 0 1023\n?\n"),
    ] {
        let mut output = vec![];
        lines::run(input, &mut output, lines::parse).unwrap();
        assert_eq!(String::from_utf8(output).unwrap(), expected, "{input:?}");
    }
}
