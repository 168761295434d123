//! What changed between two deliveries (document 02, Ask 2): the fields in
//! which two 'OS/2' tables differ at a level, and the keys in which two 'name'
//! tables differ. Refusals: 1, the left table's, the right table's, 29.

use std::collections::{BTreeMap, BTreeSet};
use std::fmt;

use crate::name::{self, Key};
use crate::os2::{self, Answer};
use crate::Refusal;

/// How many numbers a row has in a lent room.
pub const ROW_NUMBERS: usize = 5;

/// One of the two tables.
#[derive(Clone, Copy, Debug, PartialEq, Eq)]
pub enum Side {
    /// The first one.
    Left,
    /// The second one.
    Right,
}

/// Why nothing is listed: a refusal, and the table that it is about. 1 and 29
/// have no side.
#[derive(Clone, Copy, Debug, PartialEq, Eq)]
pub struct Refused {
    /// The table that is refused.
    pub side: Option<Side>,
    /// Its own refusal, or 1 or 29.
    pub refusal: Refusal,
}

impl Refused {
    /// A refusal without a side.
    fn plain(number: u32) -> Refused {
        Refused {
            side: None,
            refusal: Refusal::plain(number),
        }
    }

    /// The left table's own refusal.
    fn left(refusal: Refusal) -> Refused {
        Refused {
            side: Some(Side::Left),
            refusal,
        }
    }

    /// The right table's own refusal.
    fn right(refusal: Refusal) -> Refused {
        Refused {
            side: Some(Side::Right),
            refusal,
        }
    }
}

/// The words of the compare tool: `refused 1`, `left refused 19 at 1`,
/// `right refused 11`.
impl fmt::Display for Refused {
    fn fmt(&self, f: &mut fmt::Formatter<'_>) -> fmt::Result {
        match self.side {
            None => write!(f, "{}", self.refusal),
            Some(Side::Left) => write!(f, "left {}", self.refusal),
            Some(Side::Right) => write!(f, "right {}", self.refusal),
        }
    }
}

impl std::error::Error for Refused {}

// ---- 'OS/2' ----

/// A field for which two tables give different answers.
#[derive(Clone, Copy, Debug, PartialEq, Eq)]
pub struct FieldDifference {
    /// The field's number, 0 to 47.
    pub field: u32,
    /// The left table's answer.
    pub left: Answer,
    /// The right table's answer.
    pub right: Answer,
}

impl FieldDifference {
    /// The row's five numbers: the field, then kind and value of the left
    /// answer, then those of the right one.
    pub fn numbers(&self) -> [i64; ROW_NUMBERS] {
        let [left_kind, left_value] = kind_and_value(self.left);
        let [right_kind, right_value] = kind_and_value(self.right);
        [
            i64::from(self.field),
            left_kind,
            left_value,
            right_kind,
            right_value,
        ]
    }
}

/// An answer as two numbers: 1 and the value, 2 and 0 for absent, 3 and 0 for
/// not known.
fn kind_and_value(answer: Answer) -> [i64; 2] {
    match answer {
        Answer::Value(value) => [1, value],
        Answer::Absent => [2, 0],
        Answer::NotKnown => [3, 0],
    }
}

/// The fields for which two tables give different answers at a level, in the
/// order of their numbers. Refusals: 1 for the level, without a side; then the
/// left table's own, then the right one's, each with its side.
pub fn os2_differences(
    level: u32,
    left: &[u8],
    right: &[u8],
) -> Result<Vec<FieldDifference>, Refused> {
    if level > os2::NEWEST {
        return Err(Refused::plain(1));
    }
    let left_answers = os2::fields(level, left).map_err(Refused::left)?;
    let right_answers = os2::fields(level, right).map_err(Refused::right)?;

    let mut differences = Vec::new();
    for number in 0..os2::FIELD_COUNT {
        // Absent and a value are different answers, whatever the value is. A
        // field that the level does not know is not known on both sides.
        if left_answers[number] != right_answers[number] {
            differences.push(FieldDifference {
                field: number as u32,
                left: left_answers[number],
                right: right_answers[number],
            });
        }
    }
    Ok(differences)
}

/// Writes [`os2_differences`] into the rows of `room`, from its first row on,
/// and gives their number. Refusals: those of [`os2_differences`], then 29
/// exactly if there are more differences than whole rows of five numbers;
/// `room` then holds what it held. So do the numbers behind the rows written.
pub fn os2(level: u32, left: &[u8], right: &[u8], room: &mut [i64]) -> Result<usize, Refused> {
    let differences = os2_differences(level, left, right)?;
    let rows: Vec<_> = differences.iter().map(|row| row.numbers()).collect();
    put(&rows, room)
}

// ---- 'name' ----

/// What a key is that is listed.
#[derive(Clone, Copy, Debug, PartialEq, Eq)]
pub enum Which {
    /// Only the left table has it.
    OnlyLeft,
    /// Only the right table has it.
    OnlyRight,
    /// Both tables have it, with other string bytes.
    OtherBytes,
}

/// A key in which two tables differ.
#[derive(Clone, Copy, Debug, PartialEq, Eq)]
pub struct KeyDifference {
    /// Platform, encoding, language, name.
    pub key: Key,
    /// Which of the three it is.
    pub which: Which,
}

impl KeyDifference {
    /// The row's five numbers: the key's four, then 1 for only left, 2 for only
    /// right, 3 for other bytes.
    pub fn numbers(&self) -> [u16; ROW_NUMBERS] {
        let (platform, encoding, language, name) = self.key;
        let which = match self.which {
            Which::OnlyLeft => 1,
            Which::OnlyRight => 2,
            Which::OtherBytes => 3,
        };
        [platform, encoding, language, name, which]
    }
}

/// The keys in which two tables differ, in the order of keys, each once: those
/// that only one table has, and those that both have with other string bytes.
/// Where a string lies, its record's number and the language tags do not count.
/// Refusals: the left table's own, then the right one's, each with its side.
pub fn name_differences(left: &[u8], right: &[u8]) -> Result<Vec<KeyDifference>, Refused> {
    let left_strings = strings(left).map_err(Refused::left)?;
    let right_strings = strings(right).map_err(Refused::right)?;

    let keys: BTreeSet<Key> = left_strings
        .keys()
        .chain(right_strings.keys())
        .copied()
        .collect();
    let mut differences = Vec::new();
    for key in keys {
        let which = match (left_strings.get(&key), right_strings.get(&key)) {
            (Some(_), None) => Which::OnlyLeft,
            (None, Some(_)) => Which::OnlyRight,
            (Some(left), Some(right)) if left != right => Which::OtherBytes,
            _ => continue,
        };
        differences.push(KeyDifference { key, which });
    }
    Ok(differences)
}

/// The string bytes by key. Refusals: those of the check.
fn strings(bytes: &[u8]) -> Result<BTreeMap<Key, &[u8]>, Refusal> {
    let table = name::read(bytes)?;
    let mut strings = BTreeMap::new();
    for record in &table.records {
        strings.insert(record.key(), table.string_of(record, bytes));
    }
    Ok(strings)
}

/// Writes [`name_differences`] into the rows of `room`, from its first row on,
/// and gives their number. Refusals: those of [`name_differences`], then 29
/// exactly if there are more differences than whole rows of five numbers;
/// `room` then holds what it held. So do the numbers behind the rows written.
pub fn name(left: &[u8], right: &[u8], room: &mut [u16]) -> Result<usize, Refused> {
    let differences = name_differences(left, right)?;
    let rows: Vec<_> = differences.iter().map(|row| row.numbers()).collect();
    put(&rows, room)
}

// ---- the room ----

/// Puts the rows into the room one after another. 29 when it has fewer whole
/// rows than that; nothing is written then.
fn put<T: Copy>(rows: &[[T; ROW_NUMBERS]], room: &mut [T]) -> Result<usize, Refused> {
    if rows.len() > room.len() / ROW_NUMBERS {
        return Err(Refused::plain(29));
    }
    for (place, row) in rows.iter().enumerate() {
        room[ROW_NUMBERS * place..ROW_NUMBERS * (place + 1)].copy_from_slice(row);
    }
    Ok(rows.len())
}
