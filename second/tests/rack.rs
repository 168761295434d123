//! The program `rack`: the lines that it prints, its messages and its exit
//! status.

mod common;

use std::fs;
use std::path::{Path, PathBuf};
use std::process::{Command, Output};

use common::*;

/// Writes a file for a test and gives its path.
fn file(name: &str, bytes: &[u8]) -> PathBuf {
    let path = Path::new(env!("CARGO_TARGET_TMPDIR")).join(format!("rack_{name}"));
    fs::write(&path, bytes).unwrap();
    path
}

/// A file with an 'OS/2' table of this weight, width and fsSelection.
fn style(name: &str, weight: u16, width: u16, selection: u16) -> PathBuf {
    file(name, &os2(&[(4, weight), (6, width), (62, selection)]))
}

/// A file with a 'name' table that has this family in record 1 alone.
fn family(name: &str, text: &[u8]) -> PathBuf {
    file(name, &named(&[((3, 1, 0x409, 1), text)]))
}

/// Runs the program with a request and files.
fn run(request: [&str; 4], files: &[&PathBuf]) -> Output {
    Command::new(env!("CARGO_BIN_EXE_rack"))
        .args(request)
        .args(files)
        .output()
        .unwrap()
}

/// The lines that it prints; the status is 0 and standard error empty.
fn lines(request: [&str; 4], files: [&PathBuf; 6]) -> String {
    let output = run(request, &files);
    assert_eq!(output.status.code(), Some(0));
    assert!(output.stderr.is_empty());
    String::from_utf8(output.stdout).unwrap()
}

/// The calls of `examples/Makefile`, with the 'name' table that the program
/// `rename` makes, print what is stored in `examples/rack.expected`.
#[test]
fn the_stored_lines() {
    let root = Path::new(env!("CARGO_MANIFEST_DIR")).join("..");
    let renamed = Command::new(env!("CARGO_BIN_EXE_rename"))
        .arg(root.join("samples/name_table_fixed"))
        .arg("Hall Sans")
        .output()
        .unwrap();
    assert_eq!(renamed.status.code(), Some(0));
    let hall = &file("hall", &renamed.stdout);
    let sample = &root.join("samples/name_table");
    let regular = &style("regular", 400, 5, 0x40);
    let bold = &style("bold", 700, 5, 0x20);
    let italic = &style("italic", 400, 5, 1);
    let width_10 = &style("width_10", 400, 10, 0);
    let printed = [
        (["Hall Sans", "600", "5", "upright"], [italic, hall]),
        (["Hall Sans", "600", "5", "sloped"], [italic, hall]),
        (["Hall Sans", "550", "5", "sloped"], [italic, sample]),
        (["Hall Serif", "400", "5", "upright"], [width_10, hall]),
    ]
    .map(|(request, [os2, name])| lines(request, [regular, hall, bold, hall, os2, name]));
    let stored = fs::read_to_string(root.join("examples/rack.expected")).unwrap();
    assert_eq!(printed.concat(), stored);
}

#[test]
fn what_a_family_is() {
    let plain = &style("plain", 400, 5, 0);
    // One byte a character is shown alike and is another family.
    let one_byte = &family("one_byte", b"Ab");
    let two_bytes = &family("two_bytes", &wide("Ab"));
    let odd = &family("odd", b"\0\x1F\0~\0\x7F\xE4");
    assert_eq!(
        lines(
            ["Ab", "0", "4294967295", "sloped"],
            [plain, one_byte, plain, two_bytes, plain, odd]
        ),
        "slot 0: Ab, weight 400, width 5, upright\n\
         slot 1: Ab, weight 400, width 5, upright\n\
         slot 2: ?~??, weight 400, width 5, upright\n\
         answer: slot 1\n\
         without slot 1: refused 50\n"
    );
    // 32 characters can be loaded. A longer one that begins so is another.
    let most = "a".repeat(32);
    let longest = &family("longest", &wide(&most));
    let files = [plain, longest, plain, longest, plain, longest];
    let loaded: String = (0..3)
        .map(|slot| format!("slot {slot}: {most}, weight 400, width 5, upright\n"))
        .collect();
    assert_eq!(
        lines([&most, "400", "5", "upright"], files),
        format!("{loaded}answer: slot 0\nwithout slot 0: slot 1\n")
    );
    for other in ["", &most[1..], &(most.clone() + "a")] {
        assert_eq!(
            lines([other, "400", "5", "upright"], files),
            format!("{loaded}answer: refused 50\n")
        );
    }
}

#[test]
fn a_file_that_is_not_read() {
    let plain = &style("read_os2", 400, 5, 0);
    let name = &family("read_name", b"\0A");
    let mut table = fs::read(name).unwrap();
    table.resize(65_536, 0);
    let largest = &file("largest", &table);
    let request = ["A", "400", "5", "upright"];
    let printed = lines(request, [plain, name, plain, largest, largest, name]);
    assert!(printed.contains("slot 1: A, weight 400, width 5, upright\nslot 2: refused"));
    table.push(0);
    let long = &file("long", &table);
    let nothing = &Path::new(env!("CARGO_TARGET_TMPDIR")).join("no such file");
    let directory = &PathBuf::from(env!("CARGO_TARGET_TMPDIR"));
    for unreadable in [long, nothing, directory] {
        for place in 0..6 {
            let mut files = [plain, name, plain, name, plain, name];
            files[place] = unreadable;
            let output = run(request, &files);
            assert_eq!(output.status.code(), Some(1));
            assert!(output.stdout.is_empty());
            let said = String::from_utf8(output.stderr).unwrap();
            assert!(said.starts_with(&format!("rack: {}: ", unreadable.display())));
        }
    }
}

#[test]
fn called_wrongly() {
    let table = &style("wrongly", 400, 5, 0);
    let files = [table; 7];
    let right = ["A", "400", "5", "upright"];
    let mut calls = vec![(right, 0), (right, 5), (right, 7)];
    for number in [
        "",
        "-1",
        "+1",
        " 1",
        "1 ",
        "1x",
        "4294967296",
        "18446744073709551616",
    ] {
        calls.push((["A", number, "5", "upright"], 6));
        calls.push((["A", "400", number, "upright"], 6));
    }
    for slope in ["", "0", "Upright", "sloped "] {
        calls.push((["A", "400", "5", slope], 6));
    }
    for (request, count) in calls {
        let output = run(request, &files[..count]);
        assert_eq!(output.status.code(), Some(2), "{request:?}");
        assert!(output.stdout.is_empty());
        assert!(output.stderr.starts_with(b"usage: rack"));
    }
    assert_eq!(run(right, &files[..6]).status.code(), Some(0));
    let zeros = ["A", "0000000000000000000000400", "05", "sloped"];
    assert_eq!(run(zeros, &files[..6]).status.code(), Some(0));
}
