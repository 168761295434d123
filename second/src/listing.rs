//! The listing program's lines for one 'name' table, the compare tool's lines
//! for two tables, and this program's own lines for one 'OS/2' table and for a
//! font.

use std::fmt::Write;

use crate::compare::{self, Which};
use crate::name;
use crate::os2::{self, Answer, OpticalSizes, Rights, StylePosition};
use crate::sfnt;
use crate::Refusal;

/// The longest 'name' table that is listed, and the longest table of either kind
/// that is compared, in bytes.
pub const LONGEST: usize = 65_536;

/// The lines for one 'name' table, each ended by a line feed, exactly as
/// document 01 shows them. Behind a name and a version that is found stands the
/// record's number (document 02, Ask 4).
pub fn name(bytes: &[u8]) -> String {
    if bytes.len() > LONGEST {
        return "too long\n".to_string();
    }
    let table = match name::read(bytes) {
        Ok(table) => table,
        Err(refusal) => return format!("{refusal}\n"),
    };

    let mut lines = format!(
        "name format {} records {} storage {}\n",
        table.format,
        table.records.len(),
        table.storage_length
    );
    for (number, record) in table.records.iter().enumerate() {
        line(
            &mut lines,
            format_args!(
                "{} {} {} {} {} {} {}",
                number,
                record.platform,
                record.encoding,
                record.language,
                record.name,
                record.offset,
                record.length
            ),
        );
    }
    match name::postscript(bytes) {
        Ok(found) => {
            // A well-formed PostScript name holds only codes 33 to 126.
            let text: String = bytes[found.start..found.start + found.length]
                .iter()
                .map(|&byte| char::from(byte))
                .collect();
            line(
                &mut lines,
                format_args!("postscript {text} record {}", found.record),
            );
        }
        Err(refusal) => line(&mut lines, format_args!("postscript {refusal}")),
    }
    match name::version(bytes) {
        Ok(version) => line(
            &mut lines,
            format_args!(
                "version {} {} record {}",
                version.major, version.minor, version.record
            ),
        ),
        Err(refusal) => line(&mut lines, format_args!("version {refusal}")),
    }
    lines
}

/// The lines for one 'OS/2' table at a level, each ended by a line feed: the
/// 48 fields, the rights, the style position, the optical sizes, or the one
/// line of the refusal.
pub fn os2(level: u32, bytes: &[u8]) -> String {
    match accepted_os2(level, bytes) {
        Ok(lines) => lines,
        Err(refusal) => format!("{refusal}\n"),
    }
}

/// The lines for an 'OS/2' table that the level accepts.
fn accepted_os2(level: u32, bytes: &[u8]) -> Result<String, Refusal> {
    let mut lines = String::new();
    for number in 0..os2::FIELD_COUNT as u32 {
        let answer = os2::field(level, bytes, number)?;
        let words = three_cases(answer, |value| value.to_string());
        line(&mut lines, format_args!("{number} {words}"));
    }
    let words = three_cases(os2::rights(level, bytes)?, rights_words);
    line(&mut lines, format_args!("rights {words}"));
    let words = three_cases(os2::style_position(level, bytes)?, style_words);
    line(&mut lines, format_args!("style position {words}"));
    let words = three_cases(os2::optical_sizes(level, bytes)?, optical_words);
    line(&mut lines, format_args!("optical sizes {words}"));
    Ok(lines)
}

/// The lines for both tables of a font file, 'name' first. A table that is not
/// there gives the line `no name table` or `no OS/2 table`.
pub fn font(level: u32, file: &[u8]) -> String {
    let mut lines = match sfnt::name(file) {
        Some(table) => name(table),
        None => "no name table\n".to_string(),
    };
    match sfnt::os2(file) {
        Some(table) => lines.push_str(&os2(level, table)),
        None => lines.push_str("no OS/2 table\n"),
    }
    lines
}

/// The compare tool's lines for two 'OS/2' tables at a level, each ended by a
/// line feed: for each difference the field and both answers. Where something is
/// refused or too long it is one line: 1 for the level, then what is said of the
/// left table, then what is said of the right one.
pub fn compare_os2(level: u32, left: &[u8], right: &[u8]) -> String {
    if level <= os2::NEWEST {
        let left_refusal = os2::accept(level, left).err();
        if let Some(words) = too_long(left, left_refusal, right) {
            return words;
        }
    }
    let differences = match compare::os2_differences(level, left, right) {
        Ok(differences) => differences,
        Err(refused) => return format!("{refused}\n"),
    };
    let mut lines = String::new();
    for difference in differences {
        let left = three_cases(difference.left, |value| value.to_string());
        let right = three_cases(difference.right, |value| value.to_string());
        line(
            &mut lines,
            format_args!("{} {left} {right}", difference.field),
        );
    }
    lines
}

/// The compare tool's lines for two 'name' tables, each ended by a line feed:
/// for each difference `left`, `right` or `both` and the key's four numbers.
/// Where something is refused or too long it is one line: what is said of the
/// left table, then what is said of the right one.
pub fn compare_name(left: &[u8], right: &[u8]) -> String {
    if let Some(words) = too_long(left, name::check(left).err(), right) {
        return words;
    }
    let differences = match compare::name_differences(left, right) {
        Ok(differences) => differences,
        Err(refused) => return format!("{refused}\n"),
    };
    let mut lines = String::new();
    for difference in differences {
        let (platform, encoding, language, name) = difference.key;
        let which = match difference.which {
            Which::OnlyLeft => "left",
            Which::OnlyRight => "right",
            Which::OtherBytes => "both",
        };
        line(
            &mut lines,
            format_args!("{which} {platform} {encoding} {language} {name}"),
        );
    }
    lines
}

/// The line for a table that is too long to be compared, if it is the first
/// thing to say: the left one's own refusal comes before the right one's length.
fn too_long(left: &[u8], left_refusal: Option<Refusal>, right: &[u8]) -> Option<String> {
    if left.len() > LONGEST {
        Some("left too long\n".to_string())
    } else if left_refusal.is_none() && right.len() > LONGEST {
        Some("right too long\n".to_string())
    } else {
        None
    }
}

/// Adds one line and its line feed.
fn line(lines: &mut String, words: std::fmt::Arguments<'_>) {
    writeln!(lines, "{words}").expect("writing to a string does not fail");
}

/// The words for an answer: the value's own, `absent` or `not known`.
fn three_cases<T>(answer: Answer<T>, words: impl Fn(T) -> String) -> String {
    match answer {
        Answer::Value(value) => words(value),
        Answer::Absent => "absent".to_string(),
        Answer::NotKnown => "not known".to_string(),
    }
}

/// The word for the rights.
fn rights_words(rights: Rights) -> String {
    match rights {
        Rights::Installable => "installable",
        Rights::Restricted => "restricted",
        Rights::Preview => "preview",
        Rights::Editable => "editable",
    }
    .to_string()
}

/// The weight and the width in percent.
fn style_words(style: StylePosition) -> String {
    format!("{} {}", style.weight, style.width_percent)
}

/// The words for the optical sizes, in points.
fn optical_words(sizes: OpticalSizes) -> String {
    match sizes {
        OpticalSizes::Every => "every size".to_string(),
        OpticalSizes::From(lower) => format!("from {lower} upwards"),
        OpticalSizes::Between(lower, upper) => format!("between {lower} and {upper}"),
    }
}
