//! The program `rename`: the tables that it writes, its messages and its exit
//! status.

mod common;

use std::process::{Command, Output};

use common::*;

/// Runs the program on a table in a file of this name.
fn run(file: &str, table: &[u8], family: &str) -> Output {
    let path = std::path::Path::new(env!("CARGO_TARGET_TMPDIR")).join(file);
    std::fs::write(&path, table).unwrap();
    Command::new(env!("CARGO_BIN_EXE_rename"))
        .arg(path)
        .arg(family)
        .output()
        .unwrap()
}

/// The table that it writes; the status is 0 and standard error empty.
fn renamed(file: &str, table: &[u8], family: &str) -> Vec<u8> {
    let output = run(file, table, family);
    assert_eq!(output.status.code(), Some(0));
    assert!(output.stderr.is_empty());
    output.stdout
}

/// The message; the status is 1 and nothing is written.
fn message(file: &str, table: &[u8], family: &str) -> String {
    let output = run(file, table, family);
    assert_eq!(output.status.code(), Some(1));
    assert!(output.stdout.is_empty());
    String::from_utf8(output.stderr).unwrap()
}

#[test]
fn family_records_alone_are_replaced() {
    let old: &[Named] = &[
        ((0, 3, 0, 1), b"\0O"),
        ((1, 0, 0, 1), b"Old"),
        ((1, 0, 0, 4), b"Old"),
        ((1, 0, 7, 1), b"Alt"),
        ((1, 1, 0, 1), b"?"),
        ((3, 0, 0x409, 1), b"\0O"),
        ((3, 1, 0x407, 1), b"\0A"),
        ((3, 1, 0x409, 1), b"\0O"),
        ((3, 1, 0x409, 2), b""),
    ];
    let wide = wide("New");
    let new: Vec<Named> = old
        .iter()
        .map(|&(key, text)| match key {
            (1, 0, _, 1) => (key, &b"New"[..]),
            (3, 1, _, 1) => (key, &wide[..]),
            _ => (key, text),
        })
        .collect();
    assert_eq!(renamed("replaced", &named(old), "New"), named(&new));
}

#[test]
fn a_table_whose_strings_are_shared() {
    // Both records have the same string, of which one byte is left out.
    let old = name0(&[[1, 0, 0, 1, 2, 1], [1, 0, 0, 4, 2, 1]], b".ab.");
    let new = name0(&[[1, 0, 0, 1, 3, 0], [1, 0, 0, 4, 2, 3]], b"Newab");
    assert_eq!(renamed("shared", &old, "New"), new);
}

#[test]
fn what_is_not_renamed() {
    let family = named(&[((1, 0, 0, 1), b"Old")]);
    assert!(message("empty", &family, "").ends_with("the family is empty\n"));
    let long = "a".repeat(32_767);
    assert_eq!(renamed("longest", &family, &long).len(), 18 + 32_767);
    let said = message("long", &family, &(long.clone() + "a"));
    assert!(said.ends_with("more than 32767 characters\n"));
    for odd in ["a\tb", "\u{7F}", "ä"] {
        assert!(message("odd", &family, odd).ends_with("not printable ASCII\n"));
    }
    let said = message("none", &named(&[((3, 1, 0x409, 4), b"")]), "New");
    assert!(said.ends_with("it has no family record to replace\n"));
    let said = message("format", &name1(&[[1, 0, 0, 1, 0, 0]], &[], b""), "New");
    assert!(said.contains("it has format 1"));
    let said = message("short", b"", "New");
    assert!(said.ends_with("the table is refused 10\n"));
    let twice = named(&[((1, 0, 0, 1), b"Old"), ((1, 0, 0, 1), b"Old")]);
    assert!(message("twice", &twice, "New").ends_with("the table is refused 19 at 1\n"));
    // Two texts of 65,534 bytes, and a third entry behind them.
    let keys = [(3, 1, 0x407, 1), (3, 1, 0x409, 1), (3, 1, 0x409, 2)];
    let three = named(&keys.map(|key| (key, &b""[..])));
    let said = message("far", &three, &long);
    assert!(said.ends_with("the new table is refused 32 at 2\n"));
}

#[test]
fn called_wrongly() {
    for words in [&[][..], &["a"], &["a", "b", "c"]] {
        let output = Command::new(env!("CARGO_BIN_EXE_rename"))
            .args(words)
            .output()
            .unwrap();
        assert_eq!(output.status.code(), Some(2));
        assert!(output.stdout.is_empty());
        assert!(output.stderr.starts_with(b"usage: rename"));
    }
}
