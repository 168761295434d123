//! Loads three fonts into a rack and asks which of them to show, as `examples/rack.c` does:
//! `rack FAMILY WEIGHT WIDTH SLOPE OS2 NAME OS2 NAME OS2 NAME`. The lines in `examples/rack.expected`
//! are those that this one prints for the calls in `examples/Makefile`.
//!
//! FAMILY has one byte a character here and two in the tables, the first of them 0. SLOPE is `upright`
//! or `sloped`. OS2 and NAME are files with a font's two tables. The fonts are read at level 5 and go
//! into slots 0, 1 and 2, with a line for each: `slot 0: Hall Sans, weight 400, width 5, upright` or
//! `slot 2: refused 20`. Then comes `answer: slot 1` or `answer: refused 50`. Behind a slot stands
//! what is answered once that slot is empty, `without slot 1: slot 0`.

#![forbid(unsafe_code)]

use std::ffi::{OsStr, OsString};
use std::io::{self, Write};
use std::process::ExitCode;
use std::{env, fs};

use second::chooser::{Face, Rack};
use second::{os2, Refusal};

/// How many fonts are loaded.
const FONTS: usize = 3;
/// The most bytes of a file.
const LONGEST_TABLE: usize = 65_536;

/// What is asked for.
struct Request {
    family: Vec<u8>,
    weight: u32,
    width: u32,
    sloped: bool,
}

fn main() -> ExitCode {
    let words: Vec<_> = env::args_os().skip(1).collect();
    let Some((wanted, files)) = parse(&words) else {
        eprintln!("usage: rack FAMILY WEIGHT WIDTH upright|sloped OS2 NAME OS2 NAME OS2 NAME");
        return ExitCode::from(2);
    };
    let tables: Result<Vec<_>, _> = files.iter().map(|path| table(path)).collect();
    let printed = tables.and_then(|tables| {
        let mut output = io::stdout().lock();
        output
            .write_all(lines(&wanted, &tables).as_bytes())
            .and_then(|()| output.flush())
            .map_err(|e| format!("standard output: {e}"))
    });
    match printed {
        Ok(()) => ExitCode::SUCCESS,
        Err(message) => {
            eprintln!("rack: {message}");
            ExitCode::from(1)
        }
    }
}

/// The request and the files, or nothing when the program was called wrongly.
fn parse(words: &[OsString]) -> Option<(Request, &[OsString])> {
    let [family, weight, width, slope, files @ ..] = words else {
        return None;
    };
    if files.len() != 2 * FONTS {
        return None;
    }
    let family = family.as_encoded_bytes().iter();
    let wanted = Request {
        family: family.flat_map(|&byte| [0, byte]).collect(),
        weight: number(weight)?,
        width: number(width)?,
        sloped: match slope.to_str()? {
            "upright" => false,
            "sloped" => true,
            _ => return None,
        },
    };
    Some((wanted, files))
}

/// The number in a word of digits, of 32 bits.
fn number(word: &OsStr) -> Option<u32> {
    let word = word.to_str()?;
    if !word.bytes().all(|byte| byte.is_ascii_digit()) {
        return None;
    }
    word.parse().ok()
}

/// The bytes of a file.
fn table(path: &OsStr) -> Result<Vec<u8>, String> {
    let bytes = fs::read(path).map_err(|e| format!("{}: {e}", path.display()))?;
    if bytes.len() > LONGEST_TABLE {
        return Err(format!("{}: too long", path.display()));
    }
    Ok(bytes)
}

/// A line for each font, the answer, and the answer with the chosen slot empty.
fn lines(wanted: &Request, tables: &[Vec<u8>]) -> String {
    let mut rack = Rack::new();
    let mut lines = String::new();
    for (slot, font) in (0..).zip(tables.chunks(2)) {
        let held = match rack.load(slot, os2::NEWEST, &font[0], &font[1]) {
            Ok(()) => shown(&rack.faces[&slot]),
            Err(refusal) => refusal.to_string(),
        };
        lines += &format!("slot {slot}: {held}\n");
    }
    let first = ask(&rack, wanted);
    lines += &format!("answer: {}\n", answer(first));
    if let Ok(slot) = first {
        rack.unload(slot).expect("the chosen slot holds a face");
        let next = answer(ask(&rack, wanted));
        lines += &format!("without slot {slot}: {next}\n");
    }
    lines
}

/// The slot of the face that is chosen.
fn ask(rack: &Rack, wanted: &Request) -> Result<u32, Refusal> {
    rack.request(&wanted.family, wanted.weight, wanted.width, wanted.sloped)
}

/// The words of an answer: `slot 1` or `refused 50`.
fn answer(chosen: Result<u32, Refusal>) -> String {
    match chosen {
        Ok(slot) => format!("slot {slot}"),
        Err(refusal) => refusal.to_string(),
    }
}

/// The words of a face. Of the family's bytes, zeros are left out, and what is
/// not printable ASCII is shown as `?`.
fn shown(face: &Face) -> String {
    let bytes = face.family.iter().filter(|&&byte| byte != 0);
    let family: String = bytes
        .map(|&byte| match byte {
            32..=126 => char::from(byte),
            _ => '?',
        })
        .collect();
    let slope = if face.sloped { "sloped" } else { "upright" };
    let (weight, width) = (face.weight, face.width);
    format!("{family}, weight {weight}, width {width}, {slope}")
}
