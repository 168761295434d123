//! Reads the 'name' and 'OS/2' tables of a font, lists what differs between two of them, writes both, and chooses among loaded
//! faces.
//!
//! A font file is a set of tables. Two of them say what the font is called and how it fits in with others: 'name' holds
//! strings in several languages, and 'OS/2' holds some fifty numbers. This crate takes the bytes of such a table, wherever
//! they come from, and answers questions on them. It does not open font files or find tables in them.
//!
//! The work is done by Gyalvindor, a library written in a language with proofs: what the reader and the writer answer, for
//! every input, is stated and proved. The crate calls it through its C interface. It has no dependencies, needs no
//! allocation and no standard library, and holds no state. Every call answers, whatever the bytes and numbers are.
//!
//! # Accepted and refused
//!
//! Fonts come from anywhere, so every function checks the whole table first. It gives the answer, or a [`Refusal`] that says
//! why there is none. A 'name' table that is accepted keeps all the rules: strings lie inside the table and records are
//! sorted. So does an 'OS/2' table whose version is at most the level; of a newer one only the length is checked.
//!
//! ```
//! use gyalvindor::{name, Refusal};
//!
//! let table = [
//!     0, 0, 0, 3, 0, 42, // format 0, three records, storage starts at byte 42
//!     // platform, encoding, language, name, length, offset
//!     0, 1, 0, 0, 0, 0, 0, 6, 0, 2, 0, 0, // the PostScript name, for Macintosh
//!     0, 3, 0, 1, 4, 9, 0, 5, 0, 6, 0, 6, // the version, for Windows
//!     0, 3, 0, 1, 4, 9, 0, 6, 0, 4, 0, 2, // the PostScript name, for Windows
//!     b'A', b'b', 0, b'A', 0, b'b', 0, b'2', 0, b'.', 0, b'5', // the storage
//! ];
//!
//! let text = name::postscript(&table)?;
//! assert_eq!(&table[text.range()], b"Ab");
//! assert_eq!(text.record, 0);
//!
//! let version = name::version(&table)?;
//! assert_eq!((version.major, version.minor), (2, 5));
//! assert_eq!(version.record, 1);
//!
//! // Name 1 is the family name; this table has none.
//! assert_eq!(name::lookup(&table, 3, 1, 0x409, 1).answer, Err(Refusal::NoRecord));
//!
//! // A table that lost its last byte: the string of record 1 runs over its end.
//! let cut = &table[..table.len() - 1];
//! assert_eq!(name::postscript(cut), Err(Refusal::StringRunsOver { record: 1 }));
//! # Ok::<(), Refusal>(())
//! ```
//!
//! # Levels
//!
//! The 'OS/2' table grew over time: there are versions 0 to 5, and each one adds to the one before. A program that knows
//! only some of them should not guess at the others. So each question on an 'OS/2' table is asked at a *level*, the highest
//! version that the asker knows, and the answer is one of three things: an [`Answer::Value`], [`Answer::Absent`] where the
//! table's version lacks the thing asked for, or [`Answer::NotKnown`] where the level lacks it. Ask at level
//! [`os2::NEWEST`] to see all there is.
//!
//! ```
//! use gyalvindor::os2::{self, fields};
//! use gyalvindor::{Answer, Refusal};
//!
//! // A table of version 4, 96 bytes.
//! let table = [
//!     0, 4, // version
//!     2, 88, 1, 144, 0, 5, // average width 600, weight 400, width 5
//!     0, 8, // fsType: editable
//!     2, 88, 2, 188, 0, 0, 0, 140, 2, 88, 2, 188, 0, 0, 1, 224, // subscript and superscript
//!     0, 50, 1, 2, 0, 0, // strikeout and family class
//!     2, 0, 5, 3, 0, 0, 0, 0, 0, 0, // PANOSE
//!     0, 0, 0, 3, 0, 0, 0, 0, 0, 0, 0, 0, 0, 0, 0, 0, // Unicode ranges: bits 0 and 1
//!     b'N', b'O', b'N', b'E', // vendor
//!     0, 0xC0, // fsSelection: bits 6 and 7
//!     0, 32, 0, 255, // first and last character
//!     2, 238, 255, 6, 0, 90, 3, 132, 1, 44, // typo ascender, descender, gap; win ascent, descent
//!     0, 0, 0, 1, 0, 0, 0, 0, // code pages: bit 0
//!     1, 244, 2, 188, 0, 0, 0, 32, 0, 2, // x height, cap height, default, break, max context
//! ];
//!
//! assert_eq!(os2::field(&table, os2::NEWEST, fields::WEIGHT)?, Answer::Value(400));
//! assert_eq!(os2::field(&table, os2::NEWEST, fields::TYPO_DESCENDER)?, Answer::Value(-250));
//!
//! // Version 4 has no optical sizes.
//! assert_eq!(os2::field(&table, os2::NEWEST, fields::LOWER_SIZE)?, Answer::Absent);
//!
//! // fsSelection bit 7 came in with version 4. A level 3 reader does not know it.
//! assert_eq!(os2::selection_bit(&table, 4, 7)?, Answer::Value(true));
//! assert_eq!(os2::selection_bit(&table, 3, 7)?, Answer::NotKnown);
//! # Ok::<(), Refusal>(())
//! ```
//!
//! # Two tables compared
//!
//! [`os2::compare`] and [`name::compare`] list what differs between two tables, in rows that the caller lends: the fields with
//! different answers at a level, or the keys that only one table has and those with other string bytes.
//!
//! # A chooser
//!
//! A [`rack::Rack`] has 32 slots for faces. A [load](rack::Rack::load) takes a font's two tables, and a
//! [request](rack::Rack::request) for a family, weight, width and slope is answered with the slot of the loaded face of that
//! family that is nearest.
//!
//! # Numbers
//!
//! Levels, fields, bits, slots and the parts of a key are plain `u32` numbers, and any number gets an answer: one that is out
//! of range gets its own refusal, and a key part above 65,535 is in no record.

#![no_std]
#![deny(missing_docs)]
#![deny(unsafe_code)]

pub mod name;
pub mod os2;
pub mod rack;
#[allow(unsafe_code)]
mod raw;
mod refusal;

pub use refusal::{CompareRefusal, Refusal, Rule, Side};

/// An answer on an 'OS/2' table that the level accepts.
///
/// ```
/// use gyalvindor::os2::{self, fields};
/// use gyalvindor::{Answer, Refusal};
///
/// // Version 0: 78 zero bytes but weight 400 and width 5.
/// let mut table = [0; 78];
/// table[4..8].copy_from_slice(&[1, 144, 0, 5]);
///
/// let said = match os2::field(&table, os2::NEWEST, fields::X_HEIGHT)? {
///     Answer::Value(height) => format!("{height} units high"),
///     Answer::Absent => "the table is too old to say".to_string(),
///     Answer::NotKnown => "too new for this reader".to_string(),
/// };
/// assert_eq!(said, "the table is too old to say");
/// # Ok::<(), Refusal>(())
/// ```
#[derive(Clone, Copy, Debug, PartialEq, Eq, Hash)]
pub enum Answer<T> {
    /// The table holds it.
    Value(T),
    /// It came in with a version above the table's.
    Absent,
    /// It came in with a version above the level. For the [rights](os2::rights), the
    /// [style position](os2::style_position) and the [optical sizes](os2::optical_sizes): also where the table's version is
    /// above the level.
    NotKnown,
}

impl<T> Answer<T> {
    /// The value, or nothing where it is absent or not known.
    ///
    /// ```
    /// use gyalvindor::Answer;
    ///
    /// assert_eq!(Answer::Value(400).value(), Some(400));
    /// assert_eq!(Answer::<i64>::Absent.value(), None);
    /// ```
    pub fn value(self) -> Option<T> {
        match self {
            Answer::Value(value) => Some(value),
            Answer::Absent | Answer::NotKnown => None,
        }
    }

    /// The answer with its value, if it has one, turned into another.
    ///
    /// ```
    /// use gyalvindor::Answer;
    ///
    /// assert_eq!(Answer::Value(400).map(|weight| weight > 600), Answer::Value(false));
    /// ```
    pub fn map<U>(self, turn: impl FnOnce(T) -> U) -> Answer<U> {
        match self {
            Answer::Value(value) => Answer::Value(turn(value)),
            Answer::Absent => Answer::Absent,
            Answer::NotKnown => Answer::NotKnown,
        }
    }
}
