//! A second, independent reader and writer of 'name' and of 'OS/2' tables,
//! comparison of two of either and chooser among loaded faces, written from
//! document 01, "The font desk's rules for 'name' and 'OS/2'", and Asks 1 to 8 of
//! document 02, "The next customer requests", alone.
//!
//! It exists to be compared with another program. So it is written for plain
//! reading in the order of document 01, and not for speed.
//!
//! * [`name`]: the 'name' check, lookup, PostScript question, version question,
//!   the writer (document 02, Ask 5).
//! * [`os2`]: the 'OS/2' acceptance, the seven questions, the writer, rewriting.
//! * [`compare`]: what changed between two tables (document 02, Ask 2).
//! * [`chooser`]: the chooser for the rack (document 02, Ask 7).
//! * [`listing`]: the lines of the listing program and of the compare tool.
//! * [`sfnt`]: cuts the two tables out of a font file (not part of document 01).

#![forbid(unsafe_code)]
#![warn(missing_docs)]

pub mod chooser;
pub mod compare;
pub mod listing;
pub mod name;
pub mod os2;
pub mod sfnt;

use std::fmt;

/// A refusal: its number in document 01's table, 29 of document 02's Ask 2, 19
/// or 27 of its Ask 3, 30 to 33 of its Ask 5, or 50 to 55 of its Ask 7, and what
/// it carries.
///
/// 3 carries the first rule broken (1 to 7), 8 the lowest field that does not
/// fit, 15, 17, 18, 19 and 27 a record, 16 a tag; of a table to write, 17, 18,
/// 19, 31 and 32 an entry. All others carry nothing.
#[derive(Clone, Copy, Debug, PartialEq, Eq, Hash)]
pub struct Refusal {
    /// The refusal's number.
    pub number: u32,
    /// What the refusal carries, if its number carries something.
    pub carries: Option<u32>,
}

impl Refusal {
    /// A refusal that carries nothing.
    pub const fn plain(number: u32) -> Refusal {
        Refusal {
            number,
            carries: None,
        }
    }

    /// A refusal that carries a rule, a field, a record, a tag or an entry.
    pub const fn at(number: u32, place: u32) -> Refusal {
        Refusal {
            number,
            carries: Some(place),
        }
    }
}

/// The words of the listing program: `refused 11` or `refused 19 at 1`.
impl fmt::Display for Refusal {
    fn fmt(&self, f: &mut fmt::Formatter<'_>) -> fmt::Result {
        match self.carries {
            None => write!(f, "refused {}", self.number),
            Some(place) => write!(f, "refused {} at {}", self.number, place),
        }
    }
}

impl std::error::Error for Refusal {}

/// The big-endian 16-bit number at `at`. The caller has checked the length.
fn u16_at(bytes: &[u8], at: usize) -> u16 {
    u16::from_be_bytes([bytes[at], bytes[at + 1]])
}
