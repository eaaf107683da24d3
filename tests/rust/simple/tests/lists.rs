//! The fixed lists come out as they stand.
use simple::lines::{self, Parse};
use std::{fs, path::Path};

#[test]
fn every_row_of_the_lists() {
    let lists = Path::new(env!("CARGO_MANIFEST_DIR")).join("../../lists");
    let (mut count, mut messages) = (0, 0);
    for list in fs::read_dir(lists).unwrap() {
        let path = list.unwrap().path();
        if path.extension().is_none_or(|it| it != "list") {
            continue;
        }
        let text = fs::read(&path).unwrap();
        let text = text.strip_suffix(b"\n").expect("a last newline");
        let (mut input, mut expected) = (vec![], vec![]);
        for row in text.split(|&byte| byte == b'\n') {
            let at = row.windows(2).rposition(|two| two == b": ");
            let at = at.expect("an answer");
            input.push(&row[..at]);
            expected.push(String::from_utf8_lossy(&row[at + 2..]));
        }
        let (rows, parse): (_, Parse) = if path.ends_with("messages.list") {
            (&mut messages, lines::parse_with_messages)
        } else {
            (&mut count, lines::parse)
        };
        let mut output = vec![];
        lines::run(&input.join(&b'\n')[..], &mut output, parse).unwrap();
        let output = String::from_utf8(output).unwrap();
        assert_eq!(output.lines().count(), input.len());
        for ((line, expected), answer) in input.iter().zip(&expected).zip(output.lines()) {
            let line = String::from_utf8_lossy(line);
            assert_eq!(answer, expected, "{}: {line}", path.display());
        }
        *rows += input.len();
    }
    assert!(count > 9000, "{count}");
    assert!(count + messages > 10_000, "{messages}");
}

#[test]
fn the_last_line_may_lack_its_newline() {
    for (input, expected) in [
        (&b""[..], ""),
        (b"n 2 40", "0 0 0 1023\n"),
        (b"n 2 40\n\n", "0 0 0 1023\n?\n"),
    ] {
        let mut output = vec![];
        lines::run(input, &mut output, lines::parse).unwrap();
        assert_eq!(String::from_utf8(output).unwrap(), expected, "{input:?}");
    }
}
