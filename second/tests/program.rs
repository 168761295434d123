//! The program itself: its lines, its messages and its exit status.

mod common;

use std::io::Write;
use std::process::{Command, Output, Stdio};

use common::*;
use second::listing;

/// Runs the program with arguments and standard input.
fn run(arguments: &[&str], input: &[u8]) -> Output {
    let mut child = Command::new(env!("CARGO_BIN_EXE_second"))
        .args(arguments)
        .stdin(Stdio::piped())
        .stdout(Stdio::piped())
        .stderr(Stdio::piped())
        .spawn()
        .unwrap();
    // A wrongly called program may end without reading.
    let _ = child.stdin.take().unwrap().write_all(input);
    child.wait_with_output().unwrap()
}

/// The lines on standard output; the status is 0 and standard error empty.
fn lines(arguments: &[&str], input: &[u8]) -> String {
    let output = run(arguments, input);
    assert_eq!(output.status.code(), Some(0));
    assert!(output.stderr.is_empty());
    String::from_utf8(output.stdout).unwrap()
}

#[test]
fn from_standard_input() {
    let name = [0, 0, 0, 0, 0, 6];
    let expected = listing::name(&name);
    assert_eq!(lines(&["name"], &name), expected);
    assert_eq!(lines(&["name", "-"], &name), expected);
    let table = os2(&[]);
    for level in ["0", "5"] {
        let expected = listing::os2(level.parse().unwrap(), &table);
        assert_eq!(lines(&["os2", level], &table), expected);
        assert_eq!(lines(&["os2", level, "-"], &table), expected);
    }
    assert_eq!(lines(&["os2", "6"], &table), "refused 1\n");
    assert_eq!(lines(&["os2", "4294967295"], &table), "refused 1\n");
    assert_eq!(lines(&["os2", "5"], &[]), "refused 2\n");
    assert_eq!(lines(&["os2", "5"], &[0; 78]), "refused 3 at 1\n");
    assert_eq!(lines(&["name"], &[0; 5]), "refused 10\n");
    assert_eq!(lines(&["name"], &[0; 65_537]), "too long\n");
    assert_eq!(
        lines(&["font", "5"], b"no font"),
        "no name table\nno OS/2 table\n"
    );
}

#[test]
fn from_a_file() {
    let path = std::path::Path::new(env!("CARGO_TARGET_TMPDIR")).join("from_a_file");
    let name = named(&[((1, 0, 0, 5), b"Version 2.5")]);
    std::fs::write(&path, &name).unwrap();
    let path = path.to_str().unwrap();
    assert_eq!(lines(&["name", path], &[]), listing::name(&name));
    assert_eq!(lines(&["os2", "5", path], &[]), listing::os2(5, &name));
    assert_eq!(lines(&["font", "5", path], &[]), listing::font(5, &name));
}

#[test]
fn unreadable_file() {
    let nothing = std::path::Path::new(env!("CARGO_TARGET_TMPDIR")).join("no such file");
    let directory = env!("CARGO_TARGET_TMPDIR");
    for path in [nothing.to_str().unwrap(), directory] {
        for arguments in [
            &["name", path][..],
            &["os2", "5", path],
            &["os2", "6", path],
            &["font", "5", path],
        ] {
            let output = run(arguments, &[]);
            assert_eq!(output.status.code(), Some(1));
            assert!(output.stdout.is_empty());
            assert!(!output.stderr.is_empty());
        }
    }
}

#[test]
fn wrong_calls() {
    for arguments in [
        &[][..],
        &["other"],
        &["name", "a", "b"],
        &["os2"],
        &["os2", "-1"],
        &["os2", "five"],
        &["os2", "4294967296"],
        &["os2", "5", "a", "b"],
        &["font"],
    ] {
        let output = run(arguments, &[]);
        assert_eq!(output.status.code(), Some(2), "{arguments:?}");
        assert!(output.stdout.is_empty());
        assert!(!output.stderr.is_empty());
    }
}

/// Writes a file for a test and gives its path.
fn file(name: &str, bytes: &[u8]) -> String {
    let path = std::path::Path::new(env!("CARGO_TARGET_TMPDIR")).join(name);
    std::fs::write(&path, bytes).unwrap();
    path.to_str().unwrap().to_string()
}

#[test]
fn comparisons_follow_one_another() {
    let old = file("compare_old", &os2(&[(0, 4)]));
    let new = file("compare_new", &os2_version_5(160, 320));
    let left = file("compare_left", &named(&[((1, 0, 0, 6), b"Ab")]));
    let right = file("compare_right", &named(&[((3, 1, 1033, 6), b"Ab")]));
    let (old, new, left, right) = (&old[..], &new[..], &left[..], &right[..]);
    let os2_lines = "0 4 5\n46 absent 160\n47 absent 320\n";
    let name_lines = "left 1 0 0 6\nright 3 1 1033 6\n";
    assert_eq!(lines(&["compare", "os2", "5", old, new], &[]), os2_lines);
    assert_eq!(lines(&["compare", "name", left, right], &[]), name_lines);
    assert_eq!(lines(&["compare", "name", left, left], &[]), "");
    assert_eq!(
        lines(
            &[
                "compare", "os2", "0", old, new, "name", left, right, "os2", "6", old, new, "name",
                old, right, "os2", "5", left, right, "os2", "5", old, new, "name", left, left
            ],
            &[]
        ),
        format!("0 4 5\n{name_lines}refused 1\nleft refused 11\nleft refused 2\n{os2_lines}")
    );
    // Levels of any length, with zeros in front too.
    for level in ["6", "10", "50", "99999999999999999999999999", "4294967296"] {
        let printed = lines(&["compare", "os2", level, old, new], &[]);
        assert_eq!(printed, "refused 1\n");
    }
    for level in ["5", "05", "0000000000000000000000000005"] {
        let printed = lines(&["compare", "os2", level, old, new], &[]);
        assert_eq!(printed, os2_lines);
    }
}

#[test]
fn a_comparison_with_an_unreadable_file() {
    let old = file("unreadable_old", &os2(&[]));
    let new = file("unreadable_new", &os2(&[(4, 700)]));
    let (old, new) = (&old[..], &new[..]);
    let nothing = std::path::Path::new(env!("CARGO_TARGET_TMPDIR")).join("no such file");
    let directory = env!("CARGO_TARGET_TMPDIR");
    for path in [nothing.to_str().unwrap(), directory] {
        for comparison in [
            &["os2", "5", path, new][..],
            &["os2", "5", old, path],
            &["os2", "6", path, path],
            &["name", path, new],
            &["name", old, path],
        ] {
            // The comparisons before and after it are printed.
            let fine = ["os2", "5", old, new];
            let arguments = [&["compare"], &fine[..], comparison, &fine].concat();
            let output = run(&arguments, &[]);
            assert_eq!(output.status.code(), Some(1));
            assert_eq!(output.stdout, b"2 400 700\n2 400 700\n");
            assert!(!output.stderr.is_empty());
        }
    }
}

#[test]
fn wrong_comparisons() {
    let table = file("wrong_comparisons", &os2(&[]));
    let table = &table[..];
    for wrong in [
        &[][..],
        &["os2"],
        &["os2", "5"],
        &["os2", "5", table],
        &["name"],
        &["name", table],
        &["font", "5", table, table],
        &["os2", "five", table, table],
        &["os2", "", table, table],
        &["os2", "-1", table, table],
        &["os2", "+5", table, table],
        &["os2", "5.0", table, table],
        &["os2", "0x5", table, table],
        &["os2", "5", table, table, table],
        &["name", table, table, "and", "name", table, table],
    ] {
        let arguments = [&["compare"], wrong].concat();
        let output = run(&arguments, &[]);
        assert_eq!(output.status.code(), Some(2), "{arguments:?}");
        assert!(output.stdout.is_empty());
        assert!(!output.stderr.is_empty());
    }
}

/// The lines of `rows` for strings and version numbers that are found, with the
/// record's number, and for bare version texts, which have none. A lookup's line
/// ends with how many records it looked at.
#[test]
fn rows_tell_the_record() {
    let rows = |arguments: &[&str], input: &str| {
        let mut child = Command::new(env!("CARGO_BIN_EXE_rows"))
            .args(arguments)
            .stdin(Stdio::piped())
            .stdout(Stdio::piped())
            .spawn()
            .unwrap();
        let mut stdin = child.stdin.take().unwrap();
        stdin.write_all(input.as_bytes()).unwrap();
        drop(stdin);
        let output = child.wait_with_output().unwrap();
        assert_eq!(output.status.code(), Some(0));
        String::from_utf8(output.stdout).unwrap()
    };
    // (0, 3, 0, 6), (1, 0, 0, 5), (1, 0, 0, 6) and (3, 1, 1033, 6).
    let table = "= name 0000 0004 0036 0000 0003 0000 0006 0002 0000 \
                 0001 0000 0000 0005 0003 0002 0001 0000 0000 0006 0001 0005 \
                 0003 0001 0409 0006 0002 0006 4363 312e 3241 0041";
    let asked = "postscript\nversion\nlookup 0 3 0 6\nlookup 3 1 1033 6\nlookup 0 3 0 5\n\
                 lookup 1 0 65536 5\n";
    assert_eq!(
        rows(&[], &format!("# words\n{table}\n{asked}")),
        "# words\n\
         postscript: start 59 length 1 record 2\n\
         version: 1 2 record 1\n\
         lookup 0 3 0 6: start 54 length 2 record 0 looked 3\n\
         lookup 3 1 1033 6: start 60 length 2 record 3 looked 2\n\
         lookup 0 3 0 5: refused 20 looked 3\n\
         lookup 1 0 65536 5: refused 20 looked 2\n"
    );
    assert_eq!(
        rows(&[], "= name largest\nlookup 3 1 1033 5459\nversion\n"),
        "lookup 3 1 1033 5459: start 65535 length 1 record 5459 looked 12\nversion: refused 25\n"
    );
    // A table that is refused with a place and one without.
    let asked = "= name 0000 0001 0012 0001 0000 0000 0006 0000 0003 4162\nlookup 1 0 0 6\n\
                 = name 0000 0000 0007\nlookup 1 0 0 6\n= name 0000 0000 0006\nlookup 1 0 0 6\n";
    assert_eq!(
        rows(&[], asked),
        "lookup 1 0 0 6: refused 15 at 0 looked 0\n\
         lookup 1 0 0 6: refused 14 looked 0\n\
         lookup 1 0 0 6: refused 20 looked 0\n"
    );
    assert_eq!(
        rows(&["versions"], "v 2.5\n"),
        "`v 2.5` version 2 5\n65,535 sevens version refused 25\n"
    );
}

/// The last lines of `writer_rows`: versions 2 and 3 with each setting of
/// fsType bits 1 to 3, then version 2 with all three, there and back.
#[test]
fn writer_rows_on_rights_bits() {
    let output = Command::new(env!("CARGO_BIN_EXE_writer_rows"))
        .output()
        .unwrap();
    assert_eq!(output.status.code(), Some(0));
    let text = String::from_utf8(output.stdout).unwrap();
    let lines: Vec<&str> = text.lines().collect();
    let (written, refused) = ("written 96, room 0 170", "refused 3 at 4, room 170 170");
    let signs = "==============================================--";
    let version_2 = [written; 8];
    let version_3 = [
        written, written, written, refused, written, refused, refused, refused,
    ];
    let back = [written, signs, "rewritten 96, room 0 170", signs];
    let expected = [&version_2[..], &version_3, &back].concat();
    assert_eq!(lines.len(), 60);
    assert_eq!(lines[40..], expected);
}
