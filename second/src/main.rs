//! Prints the answers for a 'name' table, an 'OS/2' table or a font, and what
//! changed between two tables, as plain text lines.

#![forbid(unsafe_code)]

use std::ffi::{OsStr, OsString};
use std::fs;
use std::io::{self, Read, Write};
use std::process::ExitCode;

use second::listing;

const USAGE: &str = "usage: second name [FILE]
       second os2 LEVEL [FILE]
       second font LEVEL [FILE]
       second compare COMPARISON...
FILE absent or - means standard input
COMPARISON is os2 LEVEL LEFT RIGHT or name LEFT RIGHT, with two files";

/// What was asked for.
enum Task {
    Name,
    Os2(u32),
    Font(u32),
}

/// Two files that are to be compared: 'OS/2' tables at a level, or 'name'
/// tables.
enum Comparison<'a> {
    Os2(u32, &'a OsStr, &'a OsStr),
    Name(&'a OsStr, &'a OsStr),
}

fn main() -> ExitCode {
    let arguments: Vec<OsString> = std::env::args_os().skip(1).collect();
    if arguments.first().is_some_and(|word| word == "compare") {
        return match comparisons(&arguments[1..]) {
            Some(comparisons) => compare(&comparisons),
            None => wrong_call(),
        };
    }
    let Some((task, file)) = parse(&arguments) else {
        return wrong_call();
    };
    match run(task, file) {
        Ok(()) => ExitCode::SUCCESS,
        Err(message) => {
            eprintln!("second: {message}");
            ExitCode::from(1)
        }
    }
}

/// The program was called wrongly.
fn wrong_call() -> ExitCode {
    eprintln!("{USAGE}");
    ExitCode::from(2)
}

/// The task and the file, or nothing when the program was called wrongly.
fn parse(arguments: &[OsString]) -> Option<(Task, Option<&OsString>)> {
    let (task, rest) = match arguments.first()?.to_str()? {
        "name" => (Task::Name, &arguments[1..]),
        "os2" => (Task::Os2(level(arguments)?), &arguments[2..]),
        "font" => (Task::Font(level(arguments)?), &arguments[2..]),
        _ => return None,
    };
    match rest {
        [] => Some((task, None)),
        [file] if file == "-" => Some((task, None)),
        [file] => Some((task, Some(file))),
        _ => None,
    }
}

/// The level, any number of 32 bits; those above 5 are refused later.
fn level(arguments: &[OsString]) -> Option<u32> {
    arguments.get(1)?.to_str()?.parse().ok()
}

/// Reads the file or standard input to its end, then prints all lines at once.
fn run(task: Task, file: Option<&OsString>) -> Result<(), String> {
    let mut bytes = Vec::new();
    match file {
        Some(path) => bytes = contents(path)?,
        None => {
            io::stdin()
                .read_to_end(&mut bytes)
                .map_err(|e| format!("standard input: {e}"))?;
        }
    }
    print(&match task {
        Task::Name => listing::name(&bytes),
        Task::Os2(level) => listing::os2(level, &bytes),
        Task::Font(level) => listing::font(level, &bytes),
    })
}

/// The file's bytes.
fn contents(path: &OsStr) -> Result<Vec<u8>, String> {
    fs::read(path).map_err(|e| format!("{}: {e}", path.to_string_lossy()))
}

/// Prints lines.
fn print(lines: &str) -> Result<(), String> {
    let mut output = io::stdout().lock();
    output
        .write_all(lines.as_bytes())
        .and_then(|()| output.flush())
        .map_err(|e| format!("standard output: {e}"))
}

/// The comparisons, one or more with nothing between them, or nothing when the
/// program was called wrongly.
fn comparisons(arguments: &[OsString]) -> Option<Vec<Comparison<'_>>> {
    let mut comparisons = Vec::new();
    let mut rest = arguments;
    while let [word, after @ ..] = rest {
        let comparison;
        (comparison, rest) = match (word.to_str()?, after) {
            ("os2", [level, left, right, rest @ ..]) => {
                (Comparison::Os2(any_level(level)?, left, right), rest)
            }
            ("name", [left, right, rest @ ..]) => (Comparison::Name(left, right), rest),
            _ => return None,
        };
        comparisons.push(comparison);
    }
    if comparisons.is_empty() {
        None
    } else {
        Some(comparisons)
    }
}

/// The level of a comparison: decimal digits, as many as there may be. All
/// numbers above 5 are refused alike, so they are given as 6.
fn any_level(word: &OsStr) -> Option<u32> {
    let word = word.to_str()?;
    if word.is_empty() {
        return None;
    }
    let mut level = 0;
    for character in word.chars() {
        level = (level * 10 + character.to_digit(10)?).min(6);
    }
    Some(level)
}

/// Prints the lines of each comparison. One with a file that can't be read
/// prints nothing, and the others go on.
fn compare(comparisons: &[Comparison]) -> ExitCode {
    let mut status = ExitCode::SUCCESS;
    for comparison in comparisons {
        if let Err(message) = compare_one(comparison) {
            eprintln!("second: {message}");
            status = ExitCode::from(1);
        }
    }
    status
}

/// Reads both files to their ends, then prints the lines of the comparison.
fn compare_one(comparison: &Comparison) -> Result<(), String> {
    let lines = match comparison {
        Comparison::Os2(level, left, right) => {
            listing::compare_os2(*level, &contents(left)?, &contents(right)?)
        }
        Comparison::Name(left, right) => listing::compare_name(&contents(left)?, &contents(right)?),
    };
    print(&lines)
}
