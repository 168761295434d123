//! What comparisons of two tables, questions on 'name' tables, the writer of 'name' tables and the chooser have met. A long run
//! at random has to meet every one of these things. Those of the records that lookups look at, those of the writer and those of
//! the chooser are in files of their own.

use std::collections::BTreeMap;
use std::fmt;

use second::os2::Answer;
use second::{compare, name, os2};

use crate::ask::word;
use crate::choose_met;
use crate::faults::{self, Front, Place, Record, Refused};
use crate::looked_met;
use crate::pair::{Of, Pair, LEVELS_ABOVE};
use crate::question::{Function, Question, Words};
use crate::records::{POSTSCRIPT, VERSION};
use crate::write_met;

/// The fields that are not in every version.
const LATER_FIELDS: std::ops::Range<u32> = 39..48;
/// The most records that an accepted table has.
const MOST_RECORDS: usize = 5_460;

/// One of the two tables.
#[derive(Clone, Copy, PartialEq, Eq, PartialOrd, Ord)]
pub enum Side {
    Left,
    Right,
}

/// A room beside the number of differences.
#[derive(Clone, Copy, PartialEq, Eq, PartialOrd, Ord)]
pub enum Room {
    /// More rows than differences, which there are.
    More,
    /// As many rows as differences, which there are.
    Exact,
    /// One row too few, and at least one row.
    OneTooFew,
    /// Several rows too few.
    TooFew,
    /// No row, and no difference.
    NoRowForNone,
    /// No row, and one difference.
    NoRowForOne,
    /// Rows, and no difference.
    RowsForNone,
    /// Any room, where the tables or the level are refused.
    Refused,
}

const ROOMS: [Room; 8] = [
    Room::More,
    Room::Exact,
    Room::OneTooFew,
    Room::TooFew,
    Room::NoRowForNone,
    Room::NoRowForOne,
    Room::RowsForNone,
    Room::Refused,
];

/// A record's string beside the storage's end.
#[derive(Clone, Copy, PartialEq, Eq, PartialOrd, Ord)]
pub enum Edge {
    /// It is empty.
    Empty,
    /// It is not empty.
    NotEmpty,
    /// It starts one byte beyond the end.
    OneBeyond,
    /// It starts at the end of a storage that has bytes.
    FromEnd,
    /// It starts before the end.
    FromBefore,
    /// It is one byte too long.
    OneTooLong,
    /// It is not empty and ends at the end.
    ToEnd,
    /// Its offset is 65,535.
    LastOffset,
    /// Its offset and length pass 65,535 in sum.
    LongSum,
    /// There is no storage.
    NoStorage,
}

impl Edge {
    /// Whether a record's string is so, in a storage of this length.
    fn holds(self, record: &Record, storage: usize) -> bool {
        let Record { length, offset, .. } = *record;
        match self {
            Edge::Empty => length == 0,
            Edge::NotEmpty => length > 0,
            Edge::OneBeyond => offset == storage + 1,
            Edge::FromEnd => offset == storage && storage > 0,
            Edge::FromBefore => offset < storage,
            Edge::OneTooLong => offset + length == storage + 1,
            Edge::ToEnd => offset + length == storage && length > 0,
            Edge::LastOffset => offset == 65_535,
            Edge::LongSum => offset + length > 65_535,
            Edge::NoStorage => storage == 0,
        }
    }

    fn words(self) -> &'static str {
        match self {
            Edge::Empty => "an empty string",
            Edge::NotEmpty => "a string that is not empty",
            Edge::OneBeyond => "a string that starts one byte beyond the end",
            Edge::FromEnd => "a string that starts at the end",
            Edge::FromBefore => "a string that starts before the end",
            Edge::OneTooLong => "a string one byte too long",
            Edge::ToEnd => "a string that ends at the end",
            Edge::LastOffset => "a string with offset 65,535",
            Edge::LongSum => "a string whose offset and length pass 65,535",
            Edge::NoStorage => "a string where there is no storage",
        }
    }
}

/// What is met of strings that are refused by 15 and by 27.
const REFUSED_EDGES: [(u32, &[Edge]); 2] = [
    (
        15,
        &[
            Edge::Empty,
            Edge::NotEmpty,
            Edge::OneBeyond,
            Edge::LastOffset,
            Edge::LongSum,
            Edge::NoStorage,
        ],
    ),
    (
        27,
        &[
            Edge::FromEnd,
            Edge::FromBefore,
            Edge::OneTooLong,
            Edge::LastOffset,
            Edge::LongSum,
            Edge::NoStorage,
        ],
    ),
];
/// What is met of strings in accepted tables. One that starts at the end is empty there.
const ACCEPTED_EDGES: [Edge; 4] = [
    Edge::FromEnd,
    Edge::ToEnd,
    Edge::LastOffset,
    Edge::NoStorage,
];
/// The numbers that tell what is wrong with a record.
const OF_RECORDS: [u32; 5] = [15, 27, 18, 17, 19];
/// The numbers that document 02's Ask 3 splits.
const SPLIT: [u32; 4] = [15, 27, 17, 19];
/// Numbers whose conditions can hold for one record, the one that is told first. A key that is equal to the one before it has
/// the same language, so 18 and 19 do not meet.
const TOGETHER: [(u32, u32); 7] = [
    (15, 18),
    (15, 17),
    (15, 19),
    (27, 18),
    (27, 17),
    (27, 19),
    (18, 17),
];

/// Where a record that is found stands among the table's records.
#[derive(Clone, Copy, PartialEq, Eq, PartialOrd, Ord)]
pub enum Spot {
    /// It is the only one.
    Only,
    /// It is the first of several.
    First,
    /// There are records before and behind it.
    Between,
    /// It is the last of several.
    Last,
}

pub const SPOTS: [Spot; 4] = [Spot::Only, Spot::First, Spot::Between, Spot::Last];

/// The version record that counts, and whether the other one is there.
#[derive(Clone, Copy, PartialEq, Eq, PartialOrd, Ord)]
pub enum Used {
    /// Platform 3's, and platform 1's is there too.
    ThreeOfBoth,
    /// Platform 3's alone.
    Three,
    /// Platform 1's alone.
    One,
}

pub const USED: [Used; 3] = [Used::ThreeOfBoth, Used::Three, Used::One];

impl Used {
    fn words(self) -> &'static str {
        match self {
            Used::ThreeOfBoth => "platform 3's record beside platform 1's",
            Used::Three => "platform 3's record alone",
            Used::One => "platform 1's record alone",
        }
    }
}

/// The numbers of records that a lookup has to tell: about the most that one byte holds, and the last that there is.
pub const FOUND_NUMBERS: [usize; 3] = [255, 256, MOST_RECORDS - 1];
/// The questions that tell a record.
const TELLING: [Function; 3] = [Function::Lookup, Function::PostScript, Function::Version];
/// The refusals of a table, each with the formats of the tables that it is met with; it has none where the table is too short or
/// its format is another.
pub const OF_TABLES: [(u32, &[Option<u16>]); 11] = [
    (10, &[None]),
    (11, &[None]),
    (12, &[Some(0), Some(1)]),
    (13, &[Some(1)]),
    (14, &[Some(0), Some(1)]),
    (15, &[Some(0), Some(1)]),
    (16, &[Some(1)]),
    (17, &[Some(0), Some(1)]),
    (18, &[Some(0), Some(1)]),
    (19, &[Some(0), Some(1)]),
    (27, &[Some(0), Some(1)]),
];
/// Refusals of what is asked, by which no record is told either; 22 and 25 are things of their own.
const OF_QUESTIONS: [(Function, u32); 5] = [
    (Function::Lookup, 20),
    (Function::PostScript, 21),
    (Function::PostScript, 23),
    (Function::PostScript, 24),
    (Function::Version, 20),
];

/// A thing that was met.
#[derive(Clone, Copy, PartialEq, Eq, PartialOrd, Ord)]
pub enum Thing {
    /// The same bytes lent for both sides.
    OneTable(Function),
    /// Equal bytes in two places.
    EqualTables(Function),
    /// Other bytes, and no difference.
    NoDifference(Function),
    /// Rows, and the same with the sides exchanged.
    Exchanged(Function),
    /// One side is refused by this number, the other is accepted.
    Refused(Function, Side, u32),
    /// This side is refused by this number, the other by another refusal.
    BothRefused(Function, Side, u32),
    /// One side breaks this rule first.
    Rule(Side, u32),
    /// A room, and the numbers behind its last whole row.
    Room(Function, Room, usize),
    /// A level from 0 to 5, and rows.
    Level(u32),
    /// A level above 5, and whether each table is refused at every level.
    Above(u32, [bool; 2]),
    /// The left and the right table are newer than the level, and rows.
    Newer([bool; 2]),
    /// A row of this field.
    Field(u32),
    /// A row of this field, absent on this side and a value on the other.
    Absent(u32, Side),
    /// A row of this field, absent on this side and 0 on the other.
    AbsentAgainstZero(u32, Side),
    /// A row with a negative value on this side.
    Negative(Side),
    /// All 48 fields.
    EveryField,
    /// Both tables have records, and no key is in both.
    NoCommonKey,
    /// One side has no records, and the other has some.
    NoRecords(Side),
    /// A row of this kind: 1 only left, 2 only right, 3 other bytes.
    Which(u16),
    /// A key in both with the same bytes, at another offset and in a record of another number.
    Elsewhere,
    /// A key in both whose string on this side, not empty, is the beginning of the other.
    Beginning(Side),
    /// A key in both, empty on both sides.
    BothEmpty,
    /// A key in both, empty on this side only.
    Empty(Side),
    /// A key in both with equally long strings that differ in the first byte alone.
    FirstByte,
    /// A key in both with equally long strings that differ in the last byte alone.
    LastByte,
    /// Formats on the left and on the right.
    Formats(u16, u16),
    /// 5,460 records on both sides, one byte of the table changed, and rows.
    Largest,
    /// More than 255 rows.
    ManyRows,
    /// A 'name' table that is refused by this number, and this question on it.
    Passed(Function, u32),
    /// The refusal is 15 or 27, at record 0 or (true) at a later one.
    StringAt(u32, bool),
    /// The refusal is 15 or 27, for a string that is so.
    RefusedString(u32, Edge),
    /// A table is accepted that has such a string.
    Accepted(Edge),
    /// The refusal is 17 or 19, at record 1 or (true) at a later one.
    KeyAt(u32, bool),
    /// The refusal is 17, and this part of the key is the first to differ.
    FallsBy(usize),
    /// The refusal is 17 for a key that is equal to the one two before it.
    TwoBefore,
    /// The refusal is 19, and the two records also have (true) or don't have the same length and offset.
    EqualStrings(bool),
    /// The refusal is the first number, and the condition of the second holds for the same record.
    Together(u32, u32),
    /// The refusal is the first number, and the condition of the second holds for a later record; 16 for a tag.
    Behind(u32, u32),
    /// The refusal is 16, for a tag's string that lies so, at tag 0 or (true) at a later one.
    TagAt(Place, bool),
    /// In a table of this format a lookup is found in a record that stands so.
    FoundAt(u16, Spot),
    /// In a table of this format a lookup is found in the record of this number.
    FoundNumber(u16, usize),
    /// In a table of this format a lookup is found in a record above number 256.
    FoundAbove(u16),
    /// In a table of this format a lookup is found in a record whose string, not empty, starts at the same byte and is as long as
    /// that of a record before it or (true) behind it.
    SameString(u16, bool),
    /// In a table of this format a lookup is found in a record whose key differs in this part alone from that of the record
    /// before it or (true) behind it.
    OnePart(u16, usize, bool),
    /// In a table of this format a PostScript name is answered, with or without other records before its two, between them and
    /// behind them.
    NameAmong(u16, [bool; 3]),
    /// In a table of this format a PostScript name is answered from a record above number 255.
    NameAbove(u16),
    /// In a table of this format a version number is answered from this record, without or (true) with other records before the
    /// version records.
    VersionFrom(u16, Used, bool),
    /// In a table of this format a version number is answered from this record, above number 255.
    VersionAbove(u16, Used),
    /// In a table of this format, if it has one, this question is refused by this number. If a record is at fault or ill-formed,
    /// it is not record 0.
    NoRecord(Function, u32, Option<u16>),
    /// In a table of this format a PostScript name is refused by 22, where the first or (1) the second of its records is there,
    /// and is not record 0.
    OnePresent(u16, usize),
    /// In a table of this format a version number is refused by 25 because of this record, which is not record 0.
    NoNumber(u16, Used),
    /// A lookup met this of the records that it looked at.
    Looked(looked_met::Thing),
    /// The writer of 'name' tables met this.
    Write(write_met::Thing),
    /// The chooser met this.
    Choose(choose_met::Thing),
}

/// The word for a side.
fn side(side: Side) -> &'static str {
    match side {
        Side::Left => "left",
        Side::Right => "right",
    }
}

impl fmt::Display for Thing {
    fn fmt(&self, f: &mut fmt::Formatter<'_>) -> fmt::Result {
        let os2 = Function::Os2Compare.title();
        let name = Function::NameCompare.title();
        match *self {
            Thing::OneTable(of) => write!(f, "{}: one table for both sides", of.title()),
            Thing::EqualTables(of) => write!(f, "{}: equal tables", of.title()),
            Thing::NoDifference(of) => {
                write!(f, "{}: other bytes and no difference", of.title())
            }
            Thing::Exchanged(of) => write!(f, "{}: sides exchanged", of.title()),
            Thing::Refused(of, on, number) => {
                write!(f, "{}: {} refused {number} alone", of.title(), side(on))
            }
            Thing::BothRefused(of, on, number) => {
                write!(f, "{}: both refused, {} {number}", of.title(), side(on))
            }
            Thing::Rule(on, rule) => write!(f, "{os2}: rule {rule} broken on the {}", side(on)),
            Thing::Room(of, room, rest) => {
                let words = match room {
                    Room::More => "more rows than differences",
                    Room::Exact => "as many rows as differences",
                    Room::OneTooFew => "one row too few",
                    Room::TooFew => "several rows too few",
                    Room::NoRowForNone => "no row and no difference",
                    Room::NoRowForOne => "no row and one difference",
                    Room::RowsForNone => "rows and no difference",
                    Room::Refused => "a room where it is refused",
                };
                write!(f, "{}: {words}, {rest} numbers more", of.title())
            }
            Thing::Level(level) => write!(f, "{os2}: rows at level {level}"),
            Thing::Above(level, refused) => {
                write!(f, "{os2}: level {level}, tables refused {refused:?}")
            }
            Thing::Newer(newer) => write!(f, "{os2}: tables newer than the level {newer:?}"),
            Thing::Field(field) => write!(f, "{os2}: field {field}"),
            Thing::Absent(field, on) => {
                write!(f, "{os2}: field {field} absent on the {} alone", side(on))
            }
            Thing::AbsentAgainstZero(field, on) => {
                write!(
                    f,
                    "{os2}: field {field} absent on the {} against 0",
                    side(on)
                )
            }
            Thing::Negative(on) => write!(f, "{os2}: a negative value on the {}", side(on)),
            Thing::EveryField => write!(f, "{os2}: all 48 fields"),
            Thing::NoCommonKey => write!(f, "{name}: no key in both"),
            Thing::NoRecords(on) => write!(f, "{name}: no records on the {} alone", side(on)),
            Thing::Which(which) => write!(f, "{name}: a row of kind {which}"),
            Thing::Elsewhere => write!(f, "{name}: the same bytes in another place and record"),
            Thing::Beginning(on) => {
                write!(f, "{name}: the {} string begins the other", side(on))
            }
            Thing::BothEmpty => write!(f, "{name}: empty strings on both sides"),
            Thing::Empty(on) => write!(f, "{name}: an empty string on the {} alone", side(on)),
            Thing::FirstByte => write!(f, "{name}: strings with another first byte"),
            Thing::LastByte => write!(f, "{name}: strings with another last byte"),
            Thing::Formats(left, right) => write!(f, "{name}: format {left} against {right}"),
            Thing::Largest => write!(f, "{name}: 5,460 records with one byte changed"),
            Thing::ManyRows => write!(f, "{name}: more than 255 rows"),
            Thing::Passed(of, number) => {
                write!(f, "{}: asked of a table refused {number}", of.title())
            }
            Thing::StringAt(number, false) => write!(f, "name tables: {number} at record 0"),
            Thing::StringAt(number, true) => write!(f, "name tables: {number} at a later record"),
            Thing::RefusedString(number, edge) => {
                write!(f, "name tables: {number} for {}", edge.words())
            }
            Thing::Accepted(edge) => write!(f, "name tables: accepted with {}", edge.words()),
            Thing::KeyAt(number, false) => write!(f, "name tables: {number} at record 1"),
            Thing::KeyAt(number, true) => {
                write!(f, "name tables: {number} at a record behind record 1")
            }
            Thing::FallsBy(part) => {
                write!(f, "name tables: 17 for a lower {}", PARTS[part])
            }
            Thing::TwoBefore => write!(f, "name tables: 17 for the key two before"),
            Thing::EqualStrings(true) => write!(f, "name tables: 19 with the same string's place"),
            Thing::EqualStrings(false) => write!(f, "name tables: 19 with another string's place"),
            Thing::Together(number, other) => {
                write!(f, "name tables: {number} where {other} holds too")
            }
            Thing::Behind(number, other) => {
                write!(f, "name tables: {number} where {other} holds behind it")
            }
            Thing::TagAt(place, later) => {
                let words = match place {
                    Place::Beyond => "starts beyond the end",
                    Place::Over | Place::Inside => "runs over the end",
                };
                let at = if later { "a later tag" } else { "tag 0" };
                write!(f, "name tables: 16 at {at}, whose string {words}")
            }
            Thing::FoundAt(format, spot) => {
                let words = match spot {
                    Spot::Only => "the only record",
                    Spot::First => "the first record",
                    Spot::Between => "a record between others",
                    Spot::Last => "the last record",
                };
                write!(f, "lookup: format {format}, found in {words}")
            }
            Thing::FoundNumber(format, number) => {
                write!(f, "lookup: format {format}, found in record {number}")
            }
            Thing::FoundAbove(format) => {
                write!(f, "lookup: format {format}, found above record 256")
            }
            Thing::SameString(format, behind) => {
                let side = beside(behind);
                write!(f, "lookup: format {format}, the same string {side} it")
            }
            Thing::OnePart(format, part, behind) => {
                let (word, side) = (PARTS[part], beside(behind));
                write!(
                    f,
                    "lookup: format {format}, a key {side} it with another {word} alone"
                )
            }
            Thing::NameAmong(format, others) => {
                let title = Function::PostScript.title();
                write!(
                    f,
                    "{title}: format {format}, others before, between, behind {others:?}"
                )
            }
            Thing::NameAbove(format) => {
                let title = Function::PostScript.title();
                write!(f, "{title}: format {format}, above record 255")
            }
            Thing::VersionFrom(format, used, others) => {
                let title = Function::Version.title();
                let words = used.words();
                write!(
                    f,
                    "{title}: format {format}, {words}, others before it {others}"
                )
            }
            Thing::VersionAbove(format, used) => {
                let title = Function::Version.title();
                let words = used.words();
                write!(f, "{title}: format {format}, {words}, above record 255")
            }
            Thing::NoRecord(of, number, None) => {
                write!(f, "{}: no record beside {number}", of.title())
            }
            Thing::NoRecord(of, number, Some(format)) => {
                let title = of.title();
                write!(f, "{title}: format {format}, no record beside {number}")
            }
            Thing::OnePresent(format, which) => {
                let title = Function::PostScript.title();
                let platform = POSTSCRIPT[which][0];
                write!(
                    f,
                    "{title}: format {format}, no record beside 22 with platform {platform}'s alone"
                )
            }
            Thing::NoNumber(format, used) => {
                let title = Function::Version.title();
                let words = used.words();
                write!(
                    f,
                    "{title}: format {format}, no record beside 25 of {words}"
                )
            }
            Thing::Looked(thing) => thing.fmt(f),
            Thing::Write(thing) => thing.fmt(f),
            Thing::Choose(thing) => thing.fmt(f),
        }
    }
}

/// The words for a record before or (true) behind another.
fn beside(behind: bool) -> &'static str {
    match behind {
        false => "before",
        true => "behind",
    }
}

/// The words for the parts of a key.
pub const PARTS: [&str; 4] = ["platform", "encoding", "language", "name"];

/// All things that a long run has to meet.
pub fn all() -> Vec<Thing> {
    let sides = [Side::Left, Side::Right];
    let mut things = Vec::new();
    for (of, refusals) in [
        (Function::Os2Compare, &[2, 3][..]),
        (
            Function::NameCompare,
            &[10, 11, 12, 13, 14, 15, 16, 17, 18, 19, 27][..],
        ),
    ] {
        things.extend([
            Thing::OneTable(of),
            Thing::EqualTables(of),
            Thing::NoDifference(of),
            Thing::Exchanged(of),
        ]);
        for &number in refusals {
            for on in sides {
                things.push(Thing::Refused(of, on, number));
                things.push(Thing::BothRefused(of, on, number));
            }
        }
        for room in ROOMS {
            things.extend((0..5).map(|rest| Thing::Room(of, room, rest)));
        }
    }
    for on in sides {
        things.extend((1..8).map(|rule| Thing::Rule(on, rule)));
        for field in LATER_FIELDS {
            things.push(Thing::Absent(field, on));
            things.push(Thing::AbsentAgainstZero(field, on));
        }
        things.extend([
            Thing::Negative(on),
            Thing::NoRecords(on),
            Thing::Beginning(on),
            Thing::Empty(on),
        ]);
    }
    things.extend((0..6).map(Thing::Level));
    for left in [false, true] {
        for right in [false, true] {
            let above = LEVELS_ABOVE.map(|level| Thing::Above(level, [left, right]));
            things.extend(above);
            things.push(Thing::Newer([left, right]));
            things.push(Thing::Formats(u16::from(left), u16::from(right)));
        }
    }
    things.extend((0..48).map(Thing::Field));
    things.extend((1..4).map(Thing::Which));
    things.extend([
        Thing::EveryField,
        Thing::NoCommonKey,
        Thing::Elsewhere,
        Thing::BothEmpty,
        Thing::FirstByte,
        Thing::LastByte,
        Thing::Largest,
        Thing::ManyRows,
    ]);
    of_records(&mut things);
    of_answers(&mut things);
    things.extend(looked_met::all().into_iter().map(Thing::Looked));
    things.extend(write_met::all().into_iter().map(Thing::Write));
    things.extend(choose_met::all().into_iter().map(Thing::Choose));
    things
}

/// The things of 'name' tables that document 02's Ask 3 asks for.
fn of_records(things: &mut Vec<Thing>) {
    for function in [
        Function::NameCheck,
        Function::Lookup,
        Function::PostScript,
        Function::Version,
    ] {
        things.extend(SPLIT.map(|number| Thing::Passed(function, number)));
    }
    for (number, edges) in REFUSED_EDGES {
        things.extend(edges.iter().map(|&edge| Thing::RefusedString(number, edge)));
    }
    things.extend(ACCEPTED_EDGES.map(Thing::Accepted));
    for later in [false, true] {
        things.extend([15, 27].map(|number| Thing::StringAt(number, later)));
        things.extend([17, 19].map(|number| Thing::KeyAt(number, later)));
        things.extend([Place::Over, Place::Beyond].map(|place| Thing::TagAt(place, later)));
        things.push(Thing::EqualStrings(later));
    }
    things.extend((0..4).map(Thing::FallsBy));
    things.push(Thing::TwoBefore);
    things.extend(TOGETHER.map(|(number, other)| Thing::Together(number, other)));
    for number in OF_RECORDS {
        things.extend(OF_RECORDS.map(|other| Thing::Behind(number, other)));
        things.push(Thing::Behind(number, 16));
    }
}

/// The things of 'name' tables that document 02's Ask 4 asks for.
fn of_answers(things: &mut Vec<Thing>) {
    for function in TELLING {
        for (number, formats) in OF_TABLES {
            let things_of = |&format| Thing::NoRecord(function, number, format);
            things.extend(formats.iter().map(things_of));
        }
    }
    let both = [false, true];
    for format in [0, 1] {
        things.extend(SPOTS.map(|spot| Thing::FoundAt(format, spot)));
        things.extend(FOUND_NUMBERS.map(|number| Thing::FoundNumber(format, number)));
        things.push(Thing::FoundAbove(format));
        for behind in both {
            things.push(Thing::SameString(format, behind));
            things.extend((0..4).map(|part| Thing::OnePart(format, part, behind)));
        }
        for before in both {
            for between in both {
                things
                    .extend(both.map(|behind| Thing::NameAmong(format, [before, between, behind])));
            }
        }
        things.push(Thing::NameAbove(format));
        for used in USED {
            things.extend(both.map(|others| Thing::VersionFrom(format, used, others)));
            things.push(Thing::VersionAbove(format, used));
            things.push(Thing::NoNumber(format, used));
        }
        things.extend(
            OF_QUESTIONS.map(|(function, number)| Thing::NoRecord(function, number, Some(format))),
        );
        things.extend([0, 1].map(|which| Thing::OnePresent(format, which)));
    }
}

/// How often each thing was met.
#[derive(Clone, Default)]
pub struct Met(BTreeMap<Thing, u64>);

impl Met {
    /// Counts a thing.
    pub fn add(&mut self, thing: Thing) {
        *self.0.entry(thing).or_insert(0) += 1;
    }

    /// How often it was met.
    pub fn times(&self, thing: Thing) -> u64 {
        self.0.get(&thing).copied().unwrap_or(0)
    }

    /// Adds the counts of another.
    pub fn add_all(&mut self, other: &Met) {
        for (&thing, count) in &other.0 {
            *self.0.entry(thing).or_insert(0) += count;
        }
    }
}

/// What a room is beside the number of differences; nothing stands for a refusal by the level or a side.
pub fn of_room(of: Function, differences: Option<usize>, numbers: usize) -> Thing {
    let room = match (differences, numbers / 5) {
        (None, _) => Room::Refused,
        (Some(0), 0) => Room::NoRowForNone,
        (Some(0), _) => Room::RowsForNone,
        (Some(1), 0) => Room::NoRowForOne,
        (Some(count), rows) if rows > count => Room::More,
        (Some(count), rows) if rows == count => Room::Exact,
        (Some(count), rows) if rows + 1 == count => Room::OneTooFew,
        (Some(_), _) => Room::TooFew,
    };
    Thing::Room(of, room, numbers % 5)
}

/// Tells all things that two tables are met by. Whether 'name' tables are refused is read here; else it is as the second program
/// reads the tables.
pub fn of_pair(pair: Pair, met: &mut dyn FnMut(Thing)) {
    let of = pair.function();
    let sides = [(Side::Left, pair.left), (Side::Right, pair.right)];
    if let Of::Os2(level @ 6..) = pair.of {
        let refused =
            sides.map(|(_, table)| (0..6).all(|level| os2::accept(level, table).is_err()));
        met(Thing::Above(level, refused));
        return;
    }
    let refusals = sides.map(|(_, table)| refusal(pair.of, table));
    for (this, that) in [(0, 1), (1, 0)] {
        let on = sides[this].0;
        match (refusals[this], refusals[that]) {
            (Some((number, carries)), None) => {
                met(Thing::Refused(of, on, number));
                if let (3, Some(rule)) = (number, carries) {
                    met(Thing::Rule(on, rule as u32));
                }
            }
            (Some(refusal), Some(other)) if other != refusal => {
                met(Thing::BothRefused(of, on, refusal.0));
            }
            _ => {}
        }
    }
    if refusals != [None, None] {
        return;
    }
    if std::ptr::eq(pair.left, pair.right) {
        met(Thing::OneTable(of));
    } else if pair.left == pair.right {
        met(Thing::EqualTables(of));
    }
    match pair.of {
        Of::Os2(level) => of_os2(level, pair.left, pair.right, met),
        Of::Name => of_names(pair.left, pair.right, met),
    }
}

/// A table's own refusal.
fn refusal(of: Of, table: &[u8]) -> Option<Refused> {
    match of {
        Of::Os2(level) => {
            let refusal = os2::accept(level, table).err()?;
            Some((refusal.number, refusal.carries.map(|place| place as usize)))
        }
        Of::Name => faults::refused(table),
    }
}

/// Tells all things that one 'name' table is met by.
pub fn of_name(table: &[u8], met: &mut dyn FnMut(Thing)) {
    let Ok(front) = Front::of(table) else {
        return;
    };
    let storage = front.storage();
    let (number, at) = match faults::refused(table) {
        Some((16, Some(tag))) => return met(Thing::TagAt(front.tag(tag), tag > 0)),
        Some((number, Some(record))) => (number, record),
        _ => {
            for record in (0..front.records).map(|record| front.record(record)) {
                let edges = ACCEPTED_EDGES.into_iter();
                edges
                    .filter(|edge| edge.holds(&record, storage))
                    .for_each(|edge| met(Thing::Accepted(edge)));
            }
            return;
        }
    };
    let record = front.record(at);
    for (string, edges) in REFUSED_EDGES {
        if string == number {
            met(Thing::StringAt(number, at > 0));
            edges
                .iter()
                .filter(|edge| edge.holds(&record, storage))
                .for_each(|&edge| met(Thing::RefusedString(number, edge)));
        }
    }
    if number == 17 || number == 19 {
        met(Thing::KeyAt(number, at > 1));
        let before = front.record(at - 1);
        match (0..4).find(|&part| record.key[part] != before.key[part]) {
            Some(part) => met(Thing::FallsBy(part)),
            None => {
                let place = |record: Record| [record.length, record.offset];
                met(Thing::EqualStrings(place(record) == place(before)));
            }
        }
        if at > 1 && record.key == front.key(at - 2) && number == 17 {
            met(Thing::TwoBefore);
        }
    }
    for other in OF_RECORDS {
        if other != number && record.has(other) {
            met(Thing::Together(number, other));
        }
        if (at + 1..front.records).any(|later| front.record(later).has(other)) {
            met(Thing::Behind(number, other));
        }
    }
    if (0..front.tags).any(|tag| front.tag(tag) != Place::Inside) {
        met(Thing::Behind(number, 16));
    }
}

/// The format of a table that is refused by this number, if it has one.
pub fn format_of(table: &[u8], number: u32) -> Option<u16> {
    match number {
        10 | 11 => None,
        _ => Some(word(table, 0) as u16),
    }
}

/// Tells what a question on a refused 'name' table is met by: no record is told, and none is looked at.
pub fn of_refused(
    table: &[u8],
    question: Question,
    (number, place): Refused,
    met: &mut dyn FnMut(Thing),
) {
    let function = question.function();
    // The record at fault is not record 0, so that its number would show.
    let record_0 = OF_RECORDS.contains(&number) && place == Some(0);
    if TELLING.contains(&function) && !record_0 {
        met(Thing::NoRecord(function, number, format_of(table, number)));
    }
    if let Question::Lookup(key) = question {
        looked_met::of_refused(table, key, (number, place), &mut |thing| {
            met(Thing::Looked(thing));
        });
    }
}

/// Tells what an answer, or a refusal of what is asked, on an accepted 'name' table is met by. The table is read here; of the
/// words, the number, the record and how many records were looked at count.
pub fn of_answer(front: &Front, question: Question, words: Words, met: &mut dyn FnMut(Thing)) {
    let format = u16::from(front.tagged);
    let number = words[0] as u32;
    if let Question::Lookup(key) = question {
        looked_met::of_lookup(front, key, words, &mut |thing| met(Thing::Looked(thing)));
    }
    match question {
        Question::Lookup(_) if number == 0 => of_found(front, words[5] as usize, met),
        Question::Lookup(key) => {
            // There are keys below and above it.
            let last = front.records.saturating_sub(1);
            if front.records > 0 && front.key(0) < key && key < front.key(last) {
                met(Thing::NoRecord(Function::Lookup, number, Some(format)));
            }
        }
        Question::PostScript => {
            let refused = Thing::NoRecord(Function::PostScript, number, Some(format));
            match (number, POSTSCRIPT.map(|key| front.number_of(key))) {
                (0, [Some(first), Some(second)]) => {
                    let others = [first > 0, second > first + 1, front.records > second + 1];
                    met(Thing::NameAmong(format, others));
                    if first > 255 {
                        met(Thing::NameAbove(format));
                    }
                }
                (21, _) if front.records > 0 => met(refused),
                (22, numbers) => (0..2)
                    .filter(|&which| numbers[which] > Some(0))
                    .for_each(|which| met(Thing::OnePresent(format, which))),
                (23 | 24, [Some(1..), _]) => met(refused),
                _ => {}
            }
        }
        Question::Version => {
            let (used, record, lowest) = match VERSION.map(|key| front.number_of(key)) {
                [Some(three), Some(one)] => (Used::ThreeOfBoth, three, one),
                [Some(three), None] => (Used::Three, three, three),
                [None, Some(one)] => (Used::One, one, one),
                [None, None] if front.records > 0 => {
                    return met(Thing::NoRecord(Function::Version, number, Some(format)));
                }
                [None, None] => return,
            };
            match number {
                0 => {
                    met(Thing::VersionFrom(format, used, lowest > 0));
                    if record > 255 {
                        met(Thing::VersionAbove(format, used));
                    }
                }
                _ if record > 0 => met(Thing::NoNumber(format, used)),
                _ => {}
            }
        }
        _ => {}
    }
}

/// Tells what a lookup that is found in record `at` is met by.
fn of_found(front: &Front, at: usize, met: &mut dyn FnMut(Thing)) {
    let format = u16::from(front.tagged);
    let last = front.records - 1;
    let spot = match at {
        _ if last == 0 => Spot::Only,
        0 => Spot::First,
        _ if at == last => Spot::Last,
        _ => Spot::Between,
    };
    met(Thing::FoundAt(format, spot));
    if FOUND_NUMBERS.contains(&at) {
        met(Thing::FoundNumber(format, at));
    }
    if at > 256 {
        met(Thing::FoundAbove(format));
    }
    let key = front.key(at);
    let before = at.checked_sub(1);
    let behind = (at < last).then_some(at + 1);
    for (neighbour, behind) in [(before, false), (behind, true)] {
        if let Some(other) = neighbour.map(|number| front.key(number)) {
            let mut parts = (0..4).filter(|&part| key[part] != other[part]);
            if let (Some(part), None) = (parts.next(), parts.next()) {
                met(Thing::OnePart(format, part, behind));
            }
        }
    }
    let string = front.string(at);
    if string[0] > 0 {
        for (mut numbers, behind) in [(0..at, false), (at + 1..front.records, true)] {
            if numbers.any(|number| front.string(number) == string) {
                met(Thing::SameString(format, behind));
            }
        }
    }
}

fn of_os2(level: u32, left: &[u8], right: &[u8], met: &mut dyn FnMut(Thing)) {
    let rows = compare::os2_differences(level, left, right).expect("both are accepted");
    if rows.is_empty() {
        if left != right {
            met(Thing::NoDifference(Function::Os2Compare));
        }
        return;
    }
    met(Thing::Level(level));
    met(Thing::Newer(
        [left, right].map(|table| word(table, 0) > level),
    ));
    for row in &rows {
        met(Thing::Field(row.field));
        for (on, this, that) in [
            (Side::Left, row.left, row.right),
            (Side::Right, row.right, row.left),
        ] {
            if let Answer::Value(..0) = this {
                met(Thing::Negative(on));
            }
            if let (Answer::Absent, Answer::Value(value)) = (this, that) {
                met(Thing::Absent(row.field, on));
                if value == 0 {
                    met(Thing::AbsentAgainstZero(row.field, on));
                }
            }
        }
    }
    if rows.len() == 48 {
        met(Thing::EveryField);
    }
}

fn of_names(left: &[u8], right: &[u8], met: &mut dyn FnMut(Thing)) {
    let rows = compare::name_differences(left, right).expect("both are accepted");
    if rows.is_empty() && left != right {
        met(Thing::NoDifference(Function::NameCompare));
    }
    if rows.len() > 255 {
        met(Thing::ManyRows);
    }
    for row in &rows {
        met(Thing::Which(row.numbers()[4]));
    }
    let tables = [left, right].map(|bytes| name::read(bytes).expect("it is accepted"));
    met(Thing::Formats(tables[0].format, tables[1].format));
    let counts = [0, 1].map(|this| tables[this].records.len());
    for (on, this, that) in [(Side::Left, 0, 1), (Side::Right, 1, 0)] {
        if counts[this] == 0 && counts[that] > 0 {
            met(Thing::NoRecords(on));
        }
    }
    if counts == [MOST_RECORDS; 2] && !rows.is_empty() && changed_bytes(left, right) == Some(1) {
        met(Thing::Largest);
    }

    let places: BTreeMap<_, _> = tables[1].records.iter().enumerate().map(by_key).collect();
    let mut common = 0;
    for (number, record) in tables[0].records.iter().enumerate() {
        let Some(&other) = places.get(&record.key()) else {
            continue;
        };
        common += 1;
        let other_record = &tables[1].records[other];
        let string = tables[0].string_of(record, left);
        let other_string = tables[1].string_of(other_record, right);
        let elsewhere = record.offset != other_record.offset && number != other;
        if elsewhere && string == other_string && !string.is_empty() {
            met(Thing::Elsewhere);
        }
        of_strings(string, other_string, met);
    }
    if common == 0 && !counts.contains(&0) {
        met(Thing::NoCommonKey);
    }
}

/// A record's key and number.
fn by_key((number, record): (usize, &name::Record)) -> (name::Key, usize) {
    (record.key(), number)
}

/// What the strings of a key in both are.
fn of_strings(left: &[u8], right: &[u8], met: &mut dyn FnMut(Thing)) {
    match (left.is_empty(), right.is_empty()) {
        (true, true) => return met(Thing::BothEmpty),
        (true, false) => return met(Thing::Empty(Side::Left)),
        (false, true) => return met(Thing::Empty(Side::Right)),
        (false, false) => {}
    }
    if left.len() < right.len() && right.starts_with(left) {
        met(Thing::Beginning(Side::Left));
    }
    if right.len() < left.len() && left.starts_with(right) {
        met(Thing::Beginning(Side::Right));
    }
    let length = left.len();
    if length > 1 && length == right.len() && left != right {
        if left[1..] == right[1..] {
            met(Thing::FirstByte);
        }
        if left[..length - 1] == right[..length - 1] {
            met(Thing::LastByte);
        }
    }
}

/// In how many bytes two tables differ, if they are equally long.
fn changed_bytes(left: &[u8], right: &[u8]) -> Option<usize> {
    if left.len() != right.len() {
        return None;
    }
    Some(left.iter().zip(right).filter(|(a, b)| a != b).count())
}
