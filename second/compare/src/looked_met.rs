//! What lookups met of the records that they looked at. What a lookup is met by comes from the comparison's own reading of the
//! table; that reading has borne out the count that all sides report.

use std::fmt;

use crate::ask::stored_keys;
use crate::faults::{Front, Refused};
use crate::looked::{self, MOST};
use crate::met::{format_of, OF_TABLES, PARTS};
use crate::question::{Words, LOOKED};

/// The numbers of records that are asked about: the smallest, those about a power of two, and the largest.
pub const SIZES: [usize; 9] = [0, 1, 2, 3, 4, 7, 8, 5_459, 5_460];

/// A thing that was met.
#[derive(Clone, Copy, PartialEq, Eq, PartialOrd, Ord)]
pub enum Thing {
    /// In a table of this format a lookup that is refused by 20 or (true) found looked at so many records.
    Count(u16, bool, u64),
    /// A table of this format and with so many records, and a lookup that is refused by 20 or (true) found.
    Size(u16, bool, usize),
    /// A table that is refused by this number, of this format if it has one, has records, one of which has the key that is looked
    /// up.
    Refused(u32, Option<u16>),
    /// In a table of this format a key is looked up whose only part above 65,535 is this one. There is a record with the parts
    /// before it and, unless it is the first part, one with a larger key.
    Above(u16, usize),
    /// As that, and the key with the low 16 bits in its place would have another count.
    AboveCut(u16, usize),
}

impl fmt::Display for Thing {
    fn fmt(&self, f: &mut fmt::Formatter<'_>) -> fmt::Result {
        let word = |found| match found {
            true => "found",
            false => "not found",
        };
        match *self {
            Thing::Count(format, found, count) => {
                let word = word(found);
                write!(f, "lookup: format {format}, {word} with count {count}")
            }
            Thing::Size(format, found, records) => {
                let word = word(found);
                write!(f, "lookup: format {format}, {word} in {records} records")
            }
            Thing::Refused(number, None) => {
                write!(f, "lookup: a record's key in a table refused {number}")
            }
            Thing::Refused(number, Some(format)) => {
                write!(
                    f,
                    "lookup: format {format}, a record's key in a table refused {number}"
                )
            }
            Thing::Above(format, part) => {
                let word = PARTS[part];
                write!(f, "lookup: format {format}, a {word} above 65,535")
            }
            Thing::AboveCut(format, part) => {
                let word = PARTS[part];
                write!(
                    f,
                    "lookup: format {format}, a {word} above 65,535 with another count than its low 16 bits"
                )
            }
        }
    }
}

/// All things that a long run has to meet.
pub fn all() -> Vec<Thing> {
    let mut things = Vec::new();
    for format in [0, 1] {
        things.extend((0..=MOST).map(|count| Thing::Count(format, false, count)));
        things.extend((1..=MOST).map(|count| Thing::Count(format, true, count)));
        for records in SIZES {
            things.push(Thing::Size(format, false, records));
            if records > 0 {
                things.push(Thing::Size(format, true, records));
            }
        }
        for part in 0..4 {
            things.push(Thing::Above(format, part));
            things.push(Thing::AboveCut(format, part));
        }
    }
    // A table of under 6 bytes has no records.
    for (number, formats) in OF_TABLES.into_iter().filter(|&(number, _)| number != 10) {
        things.extend(formats.iter().map(|&format| Thing::Refused(number, format)));
    }
    things
}

/// Tells what a lookup on a refused table is met by.
pub fn of_refused(table: &[u8], key: [u32; 4], refused: Refused, met: &mut dyn FnMut(Thing)) {
    if stored_keys(table).contains(&key) {
        met(Thing::Refused(refused.0, format_of(table, refused.0)));
    }
}

/// Tells what a lookup on an accepted table is met by.
pub fn of_lookup(front: &Front, key: [u32; 4], words: Words, met: &mut dyn FnMut(Thing)) {
    let format = u16::from(front.tagged);
    let found = words[0] == 0;
    let count = words[LOOKED];
    met(Thing::Count(format, found, count));
    if SIZES.contains(&front.records) {
        met(Thing::Size(format, found, front.records));
    }
    let mut above = (0..4).filter(|&part| key[part] > 65_535);
    if let (Some(part), None) = (above.next(), above.next()) {
        let beside = |number| front.key(number)[..part] == key[..part];
        let larger = part == 0 || front.records > 0 && front.key(front.records - 1) > key;
        if larger && (0..front.records).any(beside) {
            met(Thing::Above(format, part));
            let mut cut = key;
            cut[part] &= 0xFFFF;
            if looked::count(front, cut) != count {
                met(Thing::AboveCut(format, part));
            }
        }
    }
}
