//! The rows of a fixed list: each is a line, ": " and its whole answer, as in document 01.
use std::{fs, path::Path};

/// The lines and the answers of a list.
pub fn rows(name: &str) -> Vec<(Vec<u8>, String)> {
    let lists = Path::new(env!("CARGO_MANIFEST_DIR")).join("../../lists");
    let text = fs::read(lists.join(name)).unwrap();
    let text = text.strip_suffix(b"\n").expect("a last newline");
    let row = |row: &[u8]| {
        let at = row
            .windows(2)
            .rposition(|two| two == b": ")
            .expect("an answer");
        (
            row[..at].to_vec(),
            String::from_utf8(row[at + 2..].to_vec()).unwrap(),
        )
    };
    text.split(|&byte| byte == b'\n').map(row).collect()
}
