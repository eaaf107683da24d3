//! Lines of request Seven's calls, beside the runner's.
use super::*;

type Answers = fn(&mut Option<Gic>, &[u8], &mut Vec<u8>);

fn answers(by: Answers, lines: &[&str]) -> Vec<String> {
    let (mut state, mut out) = (None, vec![]);
    for line in lines {
        by(&mut state, line.as_bytes(), &mut out);
    }
    let out = String::from_utf8(out).unwrap();
    out.lines().map(String::from).collect()
}

/// What is before ": ", and what is answered.
fn answers_as_shown(rows: &[&str]) {
    let rows: Vec<_> = rows
        .iter()
        .map(|row| row.split_once(": ").unwrap())
        .collect();
    let (lines, shown): (Vec<_>, Vec<_>) = rows.into_iter().unzip();
    assert_eq!(answers(answer_line_or_message, &lines), shown);
}

/// As document 01 shows its own.
#[test]
fn a_card_rings() {
    answers_as_shown(&[
        "m 33 4 8 4: 6 0 0 1023",
        "M 0 0 1 8 33: 6 0 0 1023",
        "m 33 4 8 3: ?",
        "n 2 40: 0 0 0 1023",
        "D 0 0 4 1: 0 0 0 1023",
        "C 1 0 4 1: 0 0 0 1023",
        "C 1 4 4 255: 0 0 0 1023",
        "D 0 260 4 2: 0 0 0 1023",
        "D 0 2081 1 2: 0 0 0 1023",
        "m 33 4 8 4: 0 2162692 0 1023",
        "m 32 8 8 4: 0 2097160 0 1023",
        "M 33 4 64 4 32: 0 0 0 1023",
        "M 33 4 64 4 37: 0 0 0 1023",
        "M 33 4 64 4 65569: 0 0 0 1023",
        "c 1 12 4: 0 1023 0 1023",
        "M 33 4 64 4 4294967329: 0 0 2 1023",
        "m 33 4 64 4: 0 0 0 1023",
        "c 1 12 4: 0 33 0 1023",
        "M 33 4 64 4 33: 0 0 0 1023",
        "C 1 16 4 33: 0 0 2 33",
        "c 1 12 4: 0 33 0 1023",
        "C 1 16 4 33: 0 0 0 33",
        "m 33 8 8 4: 11 0 0 1023",
        "m 33 8 9 8: 11 0 0 1023",
        "m 33 7 9 8: 1 0 0 1023",
        "M 33 7 64 8 33: 2 0 0 1023",
        "M 33 7 4096 1 33: 1 0 0 1023",
        "m 33 18446744073709551615 8 4: 11 0 0 1023",
    ]);
}

/// Of the same form as the runner's: leading zeros, numbers up to 2^64-1, one space between.
#[test]
fn their_form() {
    let most = "18446744073709551615";
    for line in [
        "m 33 4 8 4",
        "m 0033 04 008 0004",
        "m 0 0 0 1",
        &format!("m {most} {most} {most} 2"),
        "M 33 4 64 8 0",
        &format!("M 1 1 1 4 {most}"),
    ] {
        assert!(parse_message(line.as_bytes()).is_some(), "{line}");
    }
    for line in [
        "m",
        "M",
        "m 33 4 8",
        "m 33 4 8 4 0",
        "M 33 4 64 4",
        "M 33 4 64 4 0 0",
        "m 33 4 8 0",
        "m 33 4 8 3",
        "m 33 4 8 16",
        "m 4 4 4 5",
        "M 4 4 4 5 4",
        "m 33 4 8 18446744073709551620", // 2^64 + 4
        "m 18446744073709551616 4 8 4",
        "m 33 4  8 4",
        " m 33 4 8 4",
        "m 33 4 8 4 ",
        "m 33 4 8 4\r",
        "m\t33 4 8 4",
        "m 33 4 +8 4",
        "m 33 4 -8 4",
        "m 33 4 8 4.",
        "mm 33 4 8 4",
        "",
    ] {
        assert!(parse_message(line.as_bytes()).is_none(), "{line}");
        assert_eq!(answers(answer_line_or_message, &[line]), ["?"], "{line}");
    }
    assert!(parse_message(b"m 33 4 8 4\xC3").is_none());
}

#[test]
fn at_most_80_bytes() {
    for (head, rest) in [("m", "33 4 8 4"), ("M", "33 4 64 4 33")] {
        let padded = |bytes: usize| {
            let zeros = "0".repeat(bytes - head.len() - 1 - rest.len());
            format!("{head} {zeros}{rest}")
        };
        assert_eq!((padded(80).len(), padded(81).len()), (80, 81));
        assert!(parse_message(padded(80).as_bytes()).is_some());
        assert!(parse_message(padded(81).as_bytes()).is_none());
    }
}

/// The numbers are taken in their order.
#[test]
fn their_fields() {
    let read = parse_message(b"m 1 2 3 4");
    assert!(matches!(read, Some(Call::V2mRead(1, 2, 3, 4))));
    let write = parse_message(b"M 1 2 3 8 5");
    assert!(matches!(write, Some(Call::V2mWrite(1, 2, 3, 8, 5))));
}

/// The runner knows none of them, and each of its own lines stays what it was.
#[test]
fn the_runner_has_its_own() {
    let messages = ["n 2 40", "m 33 4 8 4", "M 33 4 64 4 33", "m 0 0 0 1"];
    assert_eq!(
        answers(answer_line, &messages),
        ["0 0 0 1023", "?", "?", "?"]
    );
    let own = [
        "n 2 40",
        "d 0 4 4",
        "c 0 4 4",
        "D 0 0 4 1",
        "C 0 4 4 255",
        "l 0 33 1",
        "p 0 33",
        "d 0 516 4",
        "d 0 0 3",
        "D 0 0 4 1 0",
        "D 0 0 4 1 0 0",
        "l 0 33 2",
        "p 0",
        "x",
        "",
    ];
    let shown = answers(answer_line, &own);
    assert_eq!(answers(answer_line_or_message, &own), shown);
    assert_eq!(shown.iter().filter(|answer| *answer == "?").count(), 7);
    for line in own {
        assert!(parse_message(line.as_bytes()).is_none(), "{line}");
    }
}
