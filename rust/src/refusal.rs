//! Refusals and the rules for values.

use core::fmt;

use crate::raw;

/// Why a call is refused.
///
/// Each case has a fixed [number](Refusal::number), and some carry a place: the record, tag, entry, field or rule that is at
/// fault. Where more than one thing is wrong, the refusal is the first in the order that the called function states. A
/// refused call gives no partial result, and memory lent for writing holds what it held.
///
/// ```
/// use gyalvindor::{name, Refusal};
///
/// // A 'name' table must have at least 6 bytes.
/// let refusal = name::check(&[0, 0, 0]).unwrap_err();
/// assert_eq!(refusal, Refusal::NameTooShort);
/// assert_eq!(refusal.number(), 10);
/// assert_eq!(refusal.carried(), None);
///
/// // One record, whose string would need 9 bytes of a storage that has 2: it starts where it may, and runs over.
/// let mut table = [
///     0, 0, 0, 1, 0, 18, // format 0, one record, storage starts at byte 18
///     0, 3, 0, 1, 4, 9, 0, 4, 0, 9, 0, 0, // the record: its key, length 9, offset 0
///     0, b'A', // the storage
/// ];
/// let refusal = name::check(&table).unwrap_err();
/// assert_eq!(refusal, Refusal::StringRunsOver { record: 0 });
/// assert_eq!((refusal.number(), refusal.carried()), (27, Some(0)));
/// assert_eq!(refusal.to_string(), "the string of record 0 runs over the end of the 'name' table's storage");
///
/// // With offset 3 it starts beyond the storage's end, however short it is.
/// table[15] = 0; // the length
/// table[17] = 3; // the offset
/// let refusal = name::check(&table).unwrap_err();
/// assert_eq!(refusal, Refusal::StringBeyond { record: 0 });
/// assert_eq!((refusal.number(), refusal.carried()), (15, Some(0)));
///
/// // An empty string may start at the end.
/// table[17] = 2;
/// assert_eq!(name::check(&table), Ok(()));
/// ```
#[derive(Clone, Copy, Debug, PartialEq, Eq, Hash)]
pub enum Refusal {
    /// 1: the level is above 5.
    UnknownLevel,
    /// 2: the 'OS/2' table is under 2 bytes, or shorter than the size for the smaller of its version and the level.
    Os2TooShort,
    /// 3: the 'OS/2' table, or the table to be written, breaks a rule for its values. Carries the first rule broken.
    ValueRule(Rule),
    /// 4: the version to be written is outside 0 to 5.
    UnknownVersion,
    /// 5: the room to write in is shorter than the version's size.
    RoomTooShort,
    /// 6: the field number is above 47.
    NoSuchField,
    /// 7: the bit number is out of its range.
    NoSuchBit,
    /// 8: a value to be written does not fit its field. Carries the lowest such field.
    ValueMisfit {
        /// The field's number, 1 to 47.
        field: usize,
    },
    /// 10: the 'name' table is under 6 bytes.
    NameTooShort,
    /// 11: the 'name' table's format is neither 0 nor 1.
    UnknownFormat,
    /// 12: the name records pass the table's end.
    RecordsPassEnd,
    /// 13: the tag count or the tag records of a format 1 table pass its end.
    TagsPassEnd,
    /// 14: the storage starts before the end of the records and tags, or past the table's end.
    StorageStart,
    /// 15: a record's string starts beyond the end of storage, be it empty or not. Carries the record.
    StringBeyond {
        /// The record's number, counted from 0.
        record: usize,
    },
    /// 16: a language tag's string passes the end of storage. Carries the tag.
    TagString {
        /// The tag's number, counted from 0.
        tag: usize,
    },
    /// 17: a record's key is below the key of the record before it. Carries the later record. (Here, at 18 and at 19: of a
    /// table to be written, the record of an entry, which has the entry's number.)
    KeyBelow {
        /// The later record's number, counted from 0.
        record: usize,
    },
    /// 18: a record's language number is not allowed. Carries the record.
    Language {
        /// The record's number, counted from 0.
        record: usize,
    },
    /// 19: a record's key is equal to the key of the record before it. Carries the later record.
    KeyEqual {
        /// The later record's number, counted from 0.
        record: usize,
    },
    /// 20: no record has the key; for the version number and for a face's family, neither of its two keys.
    NoRecord,
    /// 21: neither PostScript record is there.
    NoPostScriptRecord,
    /// 22: exactly one of the two PostScript records is there.
    OnePostScriptRecord,
    /// 23: a PostScript string is ill-formed.
    PostScriptIllFormed,
    /// 24: the two PostScript strings differ.
    PostScriptDiffer,
    /// 25: there is no version number in the version string.
    NoVersionNumber,
    /// 27: a record's string starts within storage or at its end, and runs over the end. Carries the record.
    StringRunsOver {
        /// The record's number, counted from 0.
        record: usize,
    },
    /// 29: two tables have more differences than there are rows for.
    TooManyDifferences,
    /// 30: there are more than 5,460 entries to be written.
    TooManyEntries,
    /// 31: an entry's text passes the end of the pool. Carries the entry.
    TextPassesPool {
        /// The entry's number, counted from 0.
        entry: usize,
    },
    /// 32: an entry's string would start beyond offset 65,535. Carries the entry.
    OffsetTooFar {
        /// The entry's number, counted from 0.
        entry: usize,
    },
    /// 33: the room to write in is shorter than the 'name' table.
    NameRoomTooShort,
    /// 50: no loaded face has the family.
    NoSuchFamily,
    /// 51: the family of the font to be loaded is empty or has over 64 bytes.
    FamilyLength,
    /// 52: the version of the 'OS/2' table is above the level.
    NewerThanLevel,
    /// 53: the slot is taken.
    SlotTaken,
    /// 54: the slot is above 31.
    NoSuchSlot,
    /// 55: the slot is empty.
    SlotEmpty,
}

/// The rules that the values of an 'OS/2' table have to keep. They are checked in this order.
///
/// ```
/// use gyalvindor::{os2, Refusal, Rule};
///
/// let mut table = [0; 78];
/// table[5] = 10; // weight 10
/// table[7] = 10; // width 10
/// assert_eq!(os2::check(&table, 0), Err(Refusal::ValueRule(Rule::Width)));
/// assert_eq!(Rule::Width.number(), 2);
/// ```
#[derive(Clone, Copy, Debug, PartialEq, Eq, Hash)]
pub enum Rule {
    /// 1: the weight is 1 to 1000.
    Weight,
    /// 2: the width is 1 to 9.
    Width,
    /// 3: fsType bits 0, 4 to 7 and 10 to 15 are clear.
    TypeBits,
    /// 4: in versions from 3 on, at most one of fsType bits 1, 2 and 3 is set.
    OneRight,
    /// 5: fsSelection bits 10 to 15 are clear, and bits 7 to 9 are clear in versions below 4.
    SelectionBits,
    /// 6: where fsSelection bit 6 (regular) is set, bits 0 (italic) and 5 (bold) are clear.
    Regular,
    /// 7: in version 5, the lower optical size is below the upper one.
    OpticalSizes,
}

impl Rule {
    /// The rule's number, 1 to 7.
    pub const fn number(self) -> usize {
        match self {
            Rule::Weight => 1,
            Rule::Width => 2,
            Rule::TypeBits => 3,
            Rule::OneRight => 4,
            Rule::SelectionBits => 5,
            Rule::Regular => 6,
            Rule::OpticalSizes => 7,
        }
    }

    fn of_number(number: usize) -> Rule {
        match number {
            1 => Rule::Weight,
            2 => Rule::Width,
            3 => Rule::TypeBits,
            4 => Rule::OneRight,
            5 => Rule::SelectionBits,
            6 => Rule::Regular,
            7 => Rule::OpticalSizes,
            _ => unreachable!("the library knows no rule {number}"),
        }
    }
}

/// The rule in plain words.
impl fmt::Display for Rule {
    fn fmt(&self, f: &mut fmt::Formatter<'_>) -> fmt::Result {
        f.write_str(match self {
            Rule::Weight => "the weight is 1 to 1000",
            Rule::Width => "the width is 1 to 9",
            Rule::TypeBits => "fsType bits 0, 4 to 7 and 10 to 15 are clear",
            Rule::OneRight => "in versions from 3 on, at most one of fsType bits 1, 2 and 3 is set",
            Rule::SelectionBits => {
                "fsSelection bits 10 to 15 are clear, and bits 7 to 9 are clear in versions below 4"
            }
            Rule::Regular => "where fsSelection bit 6 is set, bits 0 and 5 are clear",
            Rule::OpticalSizes => "in version 5 the lower optical size is below the upper one",
        })
    }
}

impl Refusal {
    /// The refusal's number: 1 to 8, 10 to 25, 27, 29 to 33, or 50 to 55.
    pub const fn number(self) -> u32 {
        match self {
            Refusal::UnknownLevel => 1,
            Refusal::Os2TooShort => 2,
            Refusal::ValueRule(_) => 3,
            Refusal::UnknownVersion => 4,
            Refusal::RoomTooShort => 5,
            Refusal::NoSuchField => 6,
            Refusal::NoSuchBit => 7,
            Refusal::ValueMisfit { .. } => 8,
            Refusal::NameTooShort => 10,
            Refusal::UnknownFormat => 11,
            Refusal::RecordsPassEnd => 12,
            Refusal::TagsPassEnd => 13,
            Refusal::StorageStart => 14,
            Refusal::StringBeyond { .. } => 15,
            Refusal::TagString { .. } => 16,
            Refusal::KeyBelow { .. } => 17,
            Refusal::Language { .. } => 18,
            Refusal::KeyEqual { .. } => 19,
            Refusal::NoRecord => 20,
            Refusal::NoPostScriptRecord => 21,
            Refusal::OnePostScriptRecord => 22,
            Refusal::PostScriptIllFormed => 23,
            Refusal::PostScriptDiffer => 24,
            Refusal::NoVersionNumber => 25,
            Refusal::StringRunsOver { .. } => 27,
            Refusal::TooManyDifferences => 29,
            Refusal::TooManyEntries => 30,
            Refusal::TextPassesPool { .. } => 31,
            Refusal::OffsetTooFar { .. } => 32,
            Refusal::NameRoomTooShort => 33,
            Refusal::NoSuchFamily => 50,
            Refusal::FamilyLength => 51,
            Refusal::NewerThanLevel => 52,
            Refusal::SlotTaken => 53,
            Refusal::NoSuchSlot => 54,
            Refusal::SlotEmpty => 55,
        }
    }

    /// The record, tag, entry, field or rule that the refusal carries, if it carries one.
    pub const fn carried(self) -> Option<usize> {
        match self {
            Refusal::ValueRule(rule) => Some(rule.number()),
            Refusal::ValueMisfit { field } => Some(field),
            Refusal::StringBeyond { record }
            | Refusal::StringRunsOver { record }
            | Refusal::Language { record }
            | Refusal::KeyBelow { record }
            | Refusal::KeyEqual { record } => Some(record),
            Refusal::TagString { tag } => Some(tag),
            Refusal::TextPassesPool { entry } | Refusal::OffsetTooFar { entry } => Some(entry),
            _ => None,
        }
    }

    /// How many bytes the library wrote, or its refusal.
    pub(crate) fn written(raw: raw::Written) -> Result<usize, Refusal> {
        Refusal::checked(raw.refusal)?;
        Ok(raw.size)
    }

    /// What the library's refusal says: nothing for the number 0.
    pub(crate) fn checked(raw: raw::Refusal) -> Result<(), Refusal> {
        let carried = raw.carried;
        Err(match raw.number {
            0 => return Ok(()),
            1 => Refusal::UnknownLevel,
            2 => Refusal::Os2TooShort,
            3 => Refusal::ValueRule(Rule::of_number(carried)),
            4 => Refusal::UnknownVersion,
            5 => Refusal::RoomTooShort,
            6 => Refusal::NoSuchField,
            7 => Refusal::NoSuchBit,
            8 => Refusal::ValueMisfit { field: carried },
            10 => Refusal::NameTooShort,
            11 => Refusal::UnknownFormat,
            12 => Refusal::RecordsPassEnd,
            13 => Refusal::TagsPassEnd,
            14 => Refusal::StorageStart,
            15 => Refusal::StringBeyond { record: carried },
            16 => Refusal::TagString { tag: carried },
            17 => Refusal::KeyBelow { record: carried },
            18 => Refusal::Language { record: carried },
            19 => Refusal::KeyEqual { record: carried },
            20 => Refusal::NoRecord,
            21 => Refusal::NoPostScriptRecord,
            22 => Refusal::OnePostScriptRecord,
            23 => Refusal::PostScriptIllFormed,
            24 => Refusal::PostScriptDiffer,
            25 => Refusal::NoVersionNumber,
            27 => Refusal::StringRunsOver { record: carried },
            29 => Refusal::TooManyDifferences,
            30 => Refusal::TooManyEntries,
            31 => Refusal::TextPassesPool { entry: carried },
            32 => Refusal::OffsetTooFar { entry: carried },
            33 => Refusal::NameRoomTooShort,
            50 => Refusal::NoSuchFamily,
            51 => Refusal::FamilyLength,
            52 => Refusal::NewerThanLevel,
            53 => Refusal::SlotTaken,
            54 => Refusal::NoSuchSlot,
            55 => Refusal::SlotEmpty,
            number => unreachable!("the library knows no refusal {number}"),
        })
    }
}

/// The refusal in plain words, with what it carries.
impl fmt::Display for Refusal {
    fn fmt(&self, f: &mut fmt::Formatter<'_>) -> fmt::Result {
        match self {
            Refusal::UnknownLevel => f.write_str("the level is above 5"),
            Refusal::Os2TooShort => f.write_str("the 'OS/2' table is too short"),
            Refusal::ValueRule(rule) => {
                write!(f, "the 'OS/2' table breaks rule {}: {rule}", rule.number())
            }
            Refusal::UnknownVersion => f.write_str("the version to write is outside 0 to 5"),
            Refusal::RoomTooShort => {
                f.write_str("the room to write in is shorter than the table")
            }
            Refusal::NoSuchField => f.write_str("the field number is above 47"),
            Refusal::NoSuchBit => f.write_str("the bit number is out of its range"),
            Refusal::ValueMisfit { field } => {
                write!(f, "the value to write does not fit field {field}")
            }
            Refusal::NameTooShort => f.write_str("the 'name' table is under 6 bytes"),
            Refusal::UnknownFormat => f.write_str("the 'name' table's format is neither 0 nor 1"),
            Refusal::RecordsPassEnd => {
                f.write_str("the name records pass the end of the 'name' table")
            }
            Refusal::TagsPassEnd => {
                f.write_str("the language tags pass the end of the 'name' table")
            }
            Refusal::StorageStart => f.write_str(
                "the 'name' table's storage starts before the end of the records and tags, or past the table's end",
            ),
            Refusal::StringBeyond { record } => write!(
                f,
                "the string of record {record} starts beyond the end of the 'name' table's storage"
            ),
            Refusal::TagString { tag } => write!(
                f,
                "the string of language tag {tag} passes the end of the 'name' table's storage"
            ),
            Refusal::KeyBelow { record } => write!(
                f,
                "the key of record {record} is below the key of the record before it"
            ),
            Refusal::Language { record } => {
                write!(f, "the language number of record {record} is not allowed")
            }
            Refusal::KeyEqual { record } => write!(
                f,
                "the key of record {record} is equal to the key of the record before it"
            ),
            Refusal::NoRecord => f.write_str("no record has the key"),
            Refusal::NoPostScriptRecord => f.write_str("there is no PostScript record"),
            Refusal::OnePostScriptRecord => {
                f.write_str("only one of the two PostScript records is there")
            }
            Refusal::PostScriptIllFormed => f.write_str("a PostScript string is ill-formed"),
            Refusal::PostScriptDiffer => f.write_str("the two PostScript strings differ"),
            Refusal::NoVersionNumber => {
                f.write_str("there is no version number in the version string")
            }
            Refusal::StringRunsOver { record } => write!(
                f,
                "the string of record {record} runs over the end of the 'name' table's storage"
            ),
            Refusal::TooManyDifferences => {
                f.write_str("the two tables have more differences than there are rows for")
            }
            Refusal::TooManyEntries => f.write_str("there are more than 5,460 entries to write"),
            Refusal::TextPassesPool { entry } => {
                write!(f, "the text of entry {entry} passes the end of the pool")
            }
            Refusal::OffsetTooFar { entry } => write!(
                f,
                "the string of entry {entry} would start beyond offset 65,535"
            ),
            Refusal::NameRoomTooShort => {
                f.write_str("the room to write in is shorter than the 'name' table")
            }
            Refusal::NoSuchFamily => f.write_str("no loaded face has the family"),
            Refusal::FamilyLength => f.write_str("the family is empty or has over 64 bytes"),
            Refusal::NewerThanLevel => {
                f.write_str("the version of the 'OS/2' table is above the level")
            }
            Refusal::SlotTaken => f.write_str("the slot is taken"),
            Refusal::NoSuchSlot => f.write_str("the slot is above 31"),
            Refusal::SlotEmpty => f.write_str("the slot is empty"),
        }
    }
}

impl core::error::Error for Refusal {}

/// One of two tables that are compared.
#[derive(Clone, Copy, Debug, PartialEq, Eq, Hash)]
pub enum Side {
    /// The first one.
    Left,
    /// The second one.
    Right,
}

/// Why a comparison of two tables lists nothing: a refusal, and which table it is about.
///
/// ```
/// use gyalvindor::{name, Refusal, Side};
///
/// let empty = [0, 0, 0, 0, 0, 6];
/// let refused = name::compare(&empty, &[0, 2, 0, 0, 0, 6], &mut []).unwrap_err();
/// assert_eq!((refused.side, refused.refusal), (Some(Side::Right), Refusal::UnknownFormat));
/// assert_eq!(refused.to_string(), "right: the 'name' table's format is neither 0 nor 1");
/// ```
#[derive(Clone, Copy, Debug, PartialEq, Eq, Hash)]
pub struct CompareRefusal {
    /// The table that is refused. None for [`Refusal::UnknownLevel`] and [`Refusal::TooManyDifferences`].
    pub side: Option<Side>,
    /// Its own refusal, or why there is no list.
    pub refusal: Refusal,
}

impl CompareRefusal {
    /// How many rows the library wrote, or its refusal with the side.
    pub(crate) fn checked(raw: raw::Compared) -> Result<usize, CompareRefusal> {
        let side = match raw.side {
            0 => None,
            1 => Some(Side::Left),
            2 => Some(Side::Right),
            side => unreachable!("the library knows no side {side}"),
        };
        match Refusal::checked(raw.refusal) {
            Ok(()) => Ok(raw.rows),
            Err(refusal) => Err(CompareRefusal { side, refusal }),
        }
    }
}

/// The side, where there is one, and the refusal in plain words.
impl fmt::Display for CompareRefusal {
    fn fmt(&self, f: &mut fmt::Formatter<'_>) -> fmt::Result {
        match self.side {
            Some(Side::Left) => write!(f, "left: {}", self.refusal),
            Some(Side::Right) => write!(f, "right: {}", self.refusal),
            None => self.refusal.fmt(f),
        }
    }
}

impl core::error::Error for CompareRefusal {}
