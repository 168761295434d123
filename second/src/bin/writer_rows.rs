//! Prints the rows of the program `os2_writer_rows`, of which this is the stored output: each version
//! written, read back and rewritten; each refusal of the writer and of rewriting; each setting of fsType
//! bits 1 to 3 written in versions 2 and 3, and the setting of all three read back and rewritten.
//!
//! A room is lent filled with 170. A row ends with the room's first byte and, of a room of 101 bytes,
//! its last. A line of signs has one for each field, read at level 5: `=` for the number that was
//! written, `-` for absent, `!` for anything else.

#![forbid(unsafe_code)]

use second::os2::{self, Answer};
use second::Refusal;

type Numbers = [i64; 48];

fn main() {
    for version in 0..=5 {
        there_and_back(&sample(version, &[]));
    }
    written(&sample(6, &[]), 101);
    written(&sample(-1, &[]), 101);
    written(&sample(6, &[]), 1);
    written(&sample(0, &[]), 77);
    written(&sample(5, &[(2, 70000)]), 99);
    written(&sample(5, &[(47, 65536)]), 101);
    written(&sample(5, &[(47, 65536), (2, 70000)]), 101);
    written(&sample(5, &[(47, 65536), (2, 70000), (1, 32768)]), 101);
    written(&sample(0, &[(47, 65536)]), 101);
    written(&sample(5, &[(46, 65535)]), 101);
    written(&sample(5, &[(46, 65535), (31, 65)]), 101);
    written(&sample(5, &[(46, 65535), (31, 65), (2, 0)]), 101);
    rewritten(&[0], 101);
    rewritten(&[0; 78], 101);
    rewritten(&with(100, &[(1, 6)]), 101);
    rewritten(&with(78, &[(5, 1), (7, 1)]), 77);
    for version in [2, 3] {
        for fs_type in [0, 2, 4, 6, 8, 10, 12, 14] {
            written(&sample(version, &[(4, fs_type)]), 101);
        }
    }
    there_and_back(&sample(2, &[(4, 14)]));
}

/// Written, with its line of signs, and rewritten, with its line of signs.
fn there_and_back(numbers: &Numbers) {
    let room = written(numbers, 101);
    println!("{}", signs(numbers, &room));
    let other = rewritten(&room, 101);
    println!("{}", signs(numbers, &other));
}

/// Numbers of a version, some of them negative or the largest of their fields, and others in some fields.
fn sample(version: i64, others: &[(usize, i64)]) -> Numbers {
    let mut numbers = [0; 48];
    let own = [
        (0, version),
        (1, -1),
        (2, 400),
        (3, 5),
        (4, 8),
        (15, -32768),
        (16, 255),
        (26, 4294967295),
        (30, 1094861636),
        (31, 64),
        (34, 32767),
        (38, 65535),
        (39, 1),
        (40, 2147483648),
        (41, -500),
        (45, 3),
        (47, 65535),
    ];
    for &(field, number) in own.iter().chain(others) {
        numbers[field] = number;
    }
    numbers
}

/// Zero bytes but some.
fn with(size: usize, bytes: &[(usize, u8)]) -> Vec<u8> {
    let mut table = vec![0; size];
    for &(at, byte) in bytes {
        table[at] = byte;
    }
    table
}

fn written(numbers: &Numbers, size: usize) -> Vec<u8> {
    let mut room = vec![170; size];
    let outcome = os2::write(numbers, &mut room);
    println!("{}{}", said("written", outcome), ends(&room));
    room
}

fn rewritten(table: &[u8], size: usize) -> Vec<u8> {
    let mut room = vec![170; size];
    let outcome = os2::rewrite(table, &mut room);
    println!("{}{}", said("rewritten", outcome), ends(&room));
    room
}

fn said(word: &str, outcome: Result<usize, Refusal>) -> String {
    match outcome {
        Ok(size) => format!("{word} {size}"),
        Err(Refusal {
            number,
            carries: None,
        }) => format!("refused {number}"),
        Err(Refusal {
            number,
            carries: Some(place),
        }) => format!("refused {number} at {place}"),
    }
}

fn ends(room: &[u8]) -> String {
    match room.get(100) {
        Some(last) => format!(", room {} {last}", room[0]),
        None => format!(", room {}", room[0]),
    }
}

fn signs(numbers: &Numbers, table: &[u8]) -> String {
    (0..48)
        .map(|field| match os2::field(5, table, field) {
            Ok(Answer::Value(value)) if value == numbers[field as usize] => '=',
            Ok(Answer::Absent) => '-',
            _ => '!',
        })
        .collect()
}
