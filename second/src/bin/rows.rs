//! Answers the rows of a text, line by line, and prints them with their answers: the stored output
//! of the program `table_rows` is what this prints for the same lines.
//!
//! A line that begins with `#` is printed as it stands. One that begins with `=` is a table, and any
//! other is a question on the latest table, printed with its answer.
//!
//! - `= name` with a table in hexadecimal digits, or `= name largest`: 5,460 records, of which number
//!   i has the key (3, 1, 1033, i), length 1 and offset i modulo 10, storage start 65,526 and ten zero
//!   bytes of storage. Its questions are `check`, `postscript`, `version`, and `lookup` with platform,
//!   encoding, language and name. A string that is found is `start 30 length 2 record 0`, with the
//!   number of its record; a version number is its two figures and the number of the record that was
//!   used, `2 5 record 1`. Behind what a lookup answers, found or refused, stands how many records it
//!   looked at: `start 30 length 4 record 1 looked 2`, `refused 20 looked 2`, `refused 17 at 2 looked 0`.
//! - `= os2` with a length: zero bytes but weight 400, width 5, and then pairs of an offset and the
//!   16-bit number that stands there. Its questions are document 01's, as `field 39 at level 5`, and
//!   `check at level 5`. A field's or a bit's value is decimal, or `negative`; a float is its bits.
//!
//! With the argument `versions` each line is a version text, and is printed with what it reads; behind
//! them stands the text of 65,535 sevens. Such a text has no record, and its number is the two figures
//! alone. So are the version rows of the program `leaf_rows` made.

#![forbid(unsafe_code)]

use std::io::{self, Read};

use second::os2::{self, Answer, OpticalSizes, Rights, StylePosition};
use second::{name, Refusal};

/// A table that questions are asked on.
enum Table {
    Name(Vec<u8>),
    Os2(Vec<u8>),
}

fn main() -> io::Result<()> {
    let mut text = String::new();
    io::stdin().read_to_string(&mut text)?;
    if std::env::args().nth(1).as_deref() == Some("versions") {
        for line in text.lines() {
            println!("`{line}` version {}", version_text(line));
        }
        println!("65,535 sevens version {}", version_text(&"7".repeat(65535)));
        return Ok(());
    }
    let mut table = Table::Name(Vec::new());
    for line in text.lines() {
        if let Some(words) = line.strip_prefix("= ") {
            table = read(words);
        } else if line.starts_with('#') {
            println!("{line}");
        } else {
            println!("{line}: {}", answer(&table, line));
        }
    }
    Ok(())
}

fn version_text(text: &str) -> String {
    let characters: Vec<u16> = text.bytes().map(u16::from).collect();
    match name::version_in(&characters) {
        None => "refused 25".to_string(),
        Some(figures) => format!("{} {}", figures.major, figures.minor),
    }
}

/// The table of a line.
fn read(words: &str) -> Table {
    if words == "name largest" {
        return Table::Name(largest());
    }
    if let Some(digits) = words.strip_prefix("name ") {
        return Table::Name(hexadecimal(digits));
    }
    let numbers = words
        .strip_prefix("os2 ")
        .expect("a table is `name` or `os2`");
    Table::Os2(table_of(&decimals(numbers)))
}

fn hexadecimal(text: &str) -> Vec<u8> {
    let digits: Vec<u32> = text
        .chars()
        .filter(|c| *c != ' ')
        .map(|c| c.to_digit(16).expect("a hexadecimal digit"))
        .collect();
    digits
        .chunks(2)
        .map(|pair| (pair[0] * 16 + pair[1]) as u8)
        .collect()
}

fn decimals(text: &str) -> Vec<u32> {
    text.split(' ')
        .map(|word| word.parse().expect("a number"))
        .collect()
}

fn largest() -> Vec<u8> {
    let mut numbers: Vec<u16> = vec![0, 5460, 65526];
    for i in 0..5460 {
        numbers.extend([3, 1, 1033, i, 1, i % 10]);
    }
    numbers.extend([0; 5]);
    numbers.iter().flat_map(|n| n.to_be_bytes()).collect()
}

fn table_of(numbers: &[u32]) -> Vec<u8> {
    let mut room = vec![0; 100];
    let mut put = |at: usize, number: u16| room[at..at + 2].copy_from_slice(&number.to_be_bytes());
    put(4, 400);
    put(6, 5);
    for pair in numbers[1..].chunks(2) {
        put(pair[0] as usize, pair[1] as u16);
    }
    room.truncate(numbers[0] as usize);
    room
}

fn answer(table: &Table, line: &str) -> String {
    match table {
        Table::Name(bytes) => on_name(bytes, line),
        Table::Os2(bytes) => on_os2(bytes, line),
    }
    .unwrap_or_else(refused)
}

fn refused(refusal: Refusal) -> String {
    match refusal.carries {
        None => format!("refused {}", refusal.number),
        Some(place) => format!("refused {} at {place}", refusal.number),
    }
}

fn on_name(bytes: &[u8], line: &str) -> Result<String, Refusal> {
    let place = |found: name::Text| {
        let name::Text {
            start,
            length,
            record,
        } = found;
        format!("start {start} length {length} record {record}")
    };
    match line {
        "check" => name::check(bytes).map(|()| "accepted".to_string()),
        "postscript" => name::postscript(bytes).map(place),
        "version" => {
            let name::Version {
                major,
                minor,
                record,
            } = name::version(bytes)?;
            Ok(format!("{major} {minor} record {record}"))
        }
        _ => {
            let key = decimals(line.strip_prefix("lookup ").expect("a question on 'name'"));
            let name::LookedUp { answer, looked } =
                name::lookup(bytes, key[0], key[1], key[2], key[3]);
            // The count stands behind a refusal too.
            let said = answer.map(place).unwrap_or_else(refused);
            Ok(format!("{said} looked {looked}"))
        }
    }
}

fn on_os2(bytes: &[u8], line: &str) -> Result<String, Refusal> {
    let (asked, level) = line.split_once(" at level ").expect("a level");
    let level = level.parse().expect("a level's number");
    let number = || {
        let last = asked.rsplit(' ').next().expect("a word");
        last.parse().expect("a question's number")
    };
    if asked == "check" {
        os2::accept(level, bytes).map(|()| "accepted".to_string())
    } else if asked == "rights" {
        os2::rights(level, bytes).map(|a| said(a, rights))
    } else if asked == "style position" {
        os2::style_position(level, bytes).map(|a| said(a, style))
    } else if asked == "optical sizes" {
        os2::optical_sizes(level, bytes).map(|a| said(a, optical))
    } else if asked.starts_with("field ") {
        os2::field(level, bytes, number()).map(|a| said(a, whole))
    } else if asked.starts_with("fsSelection bit ") {
        os2::selection_bit(level, bytes, number()).map(|a| said(a, whole))
    } else if asked.starts_with("Unicode bit ") {
        os2::unicode_bit(level, bytes, number()).map(|a| said(a, whole))
    } else if asked.starts_with("code page bit ") {
        os2::code_page_bit(level, bytes, number()).map(|a| said(a, whole))
    } else {
        panic!("no question on 'OS/2': {line}")
    }
}

fn said<T>(answer: Answer<T>, value: fn(T) -> String) -> String {
    match answer {
        Answer::Value(found) => value(found),
        Answer::Absent => "absent".to_string(),
        Answer::NotKnown => "not known".to_string(),
    }
}

fn whole(value: i64) -> String {
    if value < 0 {
        "negative".to_string()
    } else {
        value.to_string()
    }
}

fn rights(value: Rights) -> String {
    match value {
        Rights::Installable => "installable",
        Rights::Restricted => "restricted",
        Rights::Preview => "preview",
        Rights::Editable => "editable",
    }
    .to_string()
}

fn style(value: StylePosition) -> String {
    format!(
        "weight {} width {}",
        bits(value.weight),
        bits(value.width_percent)
    )
}

fn optical(value: OpticalSizes) -> String {
    match value {
        OpticalSizes::Every => "every size".to_string(),
        OpticalSizes::From(low) => format!("upwards from {}", bits(low)),
        OpticalSizes::Between(low, high) => format!("between {} and {}", bits(low), bits(high)),
    }
}

fn bits(float: f32) -> String {
    format!("{:08x}", float.to_bits())
}
