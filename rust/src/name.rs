//! Questions on a 'name' table, formats 0 and 1, and its writer.
//!
//! The table holds records. Each has a key of four numbers (platform, encoding, language, name) and the place of a string.
//! In format 1 it also holds language tags, to which language numbers from 0x8000 upwards refer.
//!
//! Every question checks the whole table first and is refused where [`check`] is. [`compare`] does so with both tables.

use core::ops::Range;

use crate::raw;
use crate::{CompareRefusal, Refusal};

/// A record's string: where it lies in the table, and which record it is of.
#[derive(Clone, Copy, Debug, PartialEq, Eq, Hash)]
pub struct Text {
    /// The string's first byte, counted from the table's first byte.
    pub start: usize,
    /// How many bytes it has.
    pub length: usize,
    /// The record's number. Records are counted from 0.
    pub record: usize,
}

impl Text {
    /// The string's bytes, as a range in the table that the answer is on. It lies inside that table.
    ///
    /// ```
    /// use gyalvindor::name::Text;
    ///
    /// assert_eq!(Text { start: 42, length: 2, record: 0 }.range(), 42..44);
    /// ```
    pub const fn range(self) -> Range<usize> {
        self.start..self.start + self.length
    }
}

/// What a lookup gives: its answer, and how many records it looked at.
#[derive(Clone, Copy, Debug, PartialEq, Eq, Hash)]
pub struct LookedUp {
    /// The record's string, or why there is none.
    pub answer: Result<Text, Refusal>,
    /// How many records were looked at after the check of the table, found or not. It is 0 where the table is refused and
    /// where it has no records; else two to the power of it is at most twice the number of records. So it is never above 13.
    pub looked: usize,
}

/// A version number, such as 2.5.
#[derive(Clone, Copy, Debug, PartialEq, Eq, Hash)]
pub struct Version {
    /// The figure before the period, below 65,535.
    pub major: u32,
    /// The figure after the period, below 65,535.
    pub minor: u32,
    /// The number of the record whose string it stands in. Records are counted from 0.
    pub record: usize,
}

/// Is the table accepted?
///
/// # Errors
///
/// In this order: [`Refusal::NameTooShort`], [`Refusal::UnknownFormat`], [`Refusal::RecordsPassEnd`],
/// [`Refusal::TagsPassEnd`], [`Refusal::StorageStart`]; then for each record [`Refusal::StringBeyond`] or
/// [`Refusal::StringRunsOver`], [`Refusal::Language`], [`Refusal::KeyBelow`] or [`Refusal::KeyEqual`]; then for each
/// language tag [`Refusal::TagString`].
///
/// # Examples
///
/// ```
/// use gyalvindor::{name, Refusal};
///
/// // Format 0, no records, storage at byte 6.
/// assert_eq!(name::check(&[0, 0, 0, 0, 0, 6]), Ok(()));
///
/// // There is no format 2.
/// assert_eq!(name::check(&[0, 2, 0, 0, 0, 6]), Err(Refusal::UnknownFormat));
///
/// // Two records with the same key, (1, 0, 0, 6), and empty strings.
/// let mut table = [
///     0, 0, 0, 2, 0, 30, //
///     0, 1, 0, 0, 0, 0, 0, 6, 0, 0, 0, 0, //
///     0, 1, 0, 0, 0, 0, 0, 6, 0, 0, 0, 0,
/// ];
/// assert_eq!(name::check(&table), Err(Refusal::KeyEqual { record: 1 }));
///
/// // The second one's is (1, 0, 0, 5): it stands behind the first, and should stand before it.
/// table[25] = 5;
/// assert_eq!(name::check(&table), Err(Refusal::KeyBelow { record: 1 }));
/// ```
pub fn check(table: &[u8]) -> Result<(), Refusal> {
    Refusal::checked(raw::name_check(table))
}

/// The string of the record with this key, and the record's number. How its bytes are to be read depends on platform and
/// encoding.
///
/// Any numbers may be asked for; a part above 65,535 is in no record. No two records of an accepted table have the same key.
///
/// Beside the answer stands how many records the search looked at, found or not. Its steps are fixed, so the count is the same
/// everywhere. Between a low number, included, at first 0, and a high one, excluded, at first the count of records, it looks
/// at the record whose number is half their sum, rounded down. A record that has the key ends the search. Where the record's
/// key is smaller, low becomes the record's number plus one; where it is larger, high becomes the record's number. The search
/// ends where low meets high. Keys are compared part by part, as numbers, also above 65,535.
///
/// # Errors
///
/// The answer is refused by those of [`check`], then by [`Refusal::NoRecord`].
///
/// # Examples
///
/// ```
/// use gyalvindor::{name, Refusal};
///
/// let mut table = [
///     0, 0, 0, 2, 0, 30, // format 0, two records, storage starts at byte 30
///     0, 1, 0, 0, 0, 0, 0, 1, 0, 2, 0, 4, // record 0: (1, 0, 0, 1), length 2, offset 4
///     0, 3, 0, 1, 4, 9, 0, 1, 0, 4, 0, 0, // record 1: (3, 1, 0x409, 1), length 4, offset 0
///     0, b'A', 0, b'b', b'A', b'b',
/// ];
///
/// let family = name::lookup(&table, 3, 1, 0x409, 1).answer?;
/// assert_eq!((family.start, family.length, family.record), (30, 4, 1));
/// assert_eq!(table[family.range()], [0, b'A', 0, b'b']);
///
/// // Of two records, record 1 is looked at first. A key below it needs a look at record 0 too.
/// assert_eq!(name::lookup(&table, 3, 1, 0x409, 1).looked, 1);
/// assert_eq!(name::lookup(&table, 1, 0, 0, 1).looked, 2);
///
/// // No record has these keys: one is above record 1, and one between the two.
/// let missing = name::lookup(&table, 3, 1, 0x409, 16);
/// assert_eq!((missing.answer, missing.looked), (Err(Refusal::NoRecord), 1));
/// let missing = name::lookup(&table, 1, 0, 0, 1 + 65_536);
/// assert_eq!((missing.answer, missing.looked), (Err(Refusal::NoRecord), 2));
///
/// // The record can be edited where it stands: its name number becomes 16.
/// let at = 6 + 12 * family.record;
/// assert_eq!(table[at..at + 8], [0, 3, 0, 1, 4, 9, 0, 1]);
/// table[at + 7] = 16;
/// assert_eq!(name::lookup(&table, 3, 1, 0x409, 16).answer, Ok(family));
/// assert_eq!(name::lookup(&table, 3, 1, 0x409, 1).answer, Err(Refusal::NoRecord));
///
/// // In a table that is refused, no record is looked at.
/// let refused = name::lookup(&table[..table.len() - 1], 3, 1, 0x409, 16);
/// assert_eq!(refused.answer, Err(Refusal::StringRunsOver { record: 0 }));
/// assert_eq!(refused.looked, 0);
///
/// // In a table without records there is none to look at.
/// let missing = name::lookup(&[0, 0, 0, 0, 0, 6], 3, 1, 0x409, 1);
/// assert_eq!((missing.answer, missing.looked), (Err(Refusal::NoRecord), 0));
/// # Ok::<(), Refusal>(())
/// ```
pub fn lookup(table: &[u8], platform: u32, encoding: u32, language: u32, name: u32) -> LookedUp {
    let raw = raw::name_lookup(table, [platform, encoding, language, name]);
    LookedUp {
        answer: Refusal::checked(raw.refusal).map(|()| Text {
            start: raw.start,
            length: raw.length,
            record: raw.record,
        }),
        looked: raw.looked,
    }
}

/// The PostScript name: the string of the record (1, 0, 0, 6), one byte a character, and that record's number.
///
/// A font states it twice, there and in the record (3, 1, 0x409, 6) with two bytes a character, and both have to be there,
/// well formed and equal. Well formed means 1 to 63 characters with codes 33 to 126, without `[ ] ( ) { } < > / %`.
///
/// # Errors
///
/// Those of [`check`], then [`Refusal::NoPostScriptRecord`], [`Refusal::OnePostScriptRecord`],
/// [`Refusal::PostScriptIllFormed`], [`Refusal::PostScriptDiffer`].
///
/// # Examples
///
/// ```
/// use gyalvindor::{name, Refusal};
///
/// let mut table = [
///     0, 0, 0, 2, 0, 30, // format 0, two records, storage starts at byte 30
///     0, 1, 0, 0, 0, 0, 0, 6, 0, 2, 0, 0, // (1, 0, 0, 6), length 2, offset 0
///     0, 3, 0, 1, 4, 9, 0, 6, 0, 4, 0, 2, // (3, 1, 0x409, 6), length 4, offset 2
///     b'A', b'b', 0, b'A', 0, b'b',
/// ];
/// let text = name::postscript(&table)?;
/// assert_eq!(&table[text.range()], b"Ab");
/// assert_eq!(text.record, 0);
///
/// table[31] = b'c';
/// assert_eq!(name::postscript(&table), Err(Refusal::PostScriptDiffer));
/// table[31] = b' ';
/// assert_eq!(name::postscript(&table), Err(Refusal::PostScriptIllFormed));
/// # Ok::<(), Refusal>(())
/// ```
pub fn postscript(table: &[u8]) -> Result<Text, Refusal> {
    text(raw::name_postscript(table))
}

/// The version number in the version string, and the number of the record that was used.
///
/// The version string is that of (3, 1, 0x409, 5), or of (1, 0, 0, 5) where that record is not there. A version number is
/// digits, a period, digits, each group as long as it goes and below 65,535. The first place from the left that yields one
/// wins.
///
/// # Errors
///
/// Those of [`check`], then [`Refusal::NoRecord`] where neither record is there, then [`Refusal::NoVersionNumber`].
///
/// # Examples
///
/// ```
/// use gyalvindor::name::{self, Version};
/// use gyalvindor::Refusal;
///
/// let mut table = vec![
///     0, 0, 0, 1, 0, 18, // format 0, one record, storage starts at byte 18
///     0, 1, 0, 0, 0, 0, 0, 5, 0, 19, 0, 0, // (1, 0, 0, 5), length 19, offset 0
/// ];
/// table.extend(b"Version 1.70000 2.5");
/// assert_eq!(name::version(&table), Ok(Version { major: 2, minor: 5, record: 0 }));
///
/// table[15] = 15; // the string is `Version 1.70000`
/// assert_eq!(name::version(&table), Err(Refusal::NoVersionNumber));
/// ```
pub fn version(table: &[u8]) -> Result<Version, Refusal> {
    let raw = raw::name_version(table);
    Refusal::checked(raw.refusal)?;
    Ok(Version {
        major: raw.major,
        minor: raw.minor,
        record: raw.record,
    })
}

fn text(raw: raw::Text) -> Result<Text, Refusal> {
    Refusal::checked(raw.refusal)?;
    Ok(Text {
        start: raw.start,
        length: raw.length,
        record: raw.record,
    })
}

/// What a key of two tables is, where they differ in it.
#[derive(Clone, Copy, Debug, PartialEq, Eq, Hash)]
pub enum Which {
    /// Only the left table has it.
    OnlyLeft,
    /// Only the right table has it.
    OnlyRight,
    /// Both have it, with other string bytes.
    OtherBytes,
}

/// A key in which two tables differ: a row of [`compare`].
#[repr(C)]
#[derive(Clone, Copy, Debug, PartialEq, Eq, Hash)]
pub struct Difference {
    /// The key's first number.
    pub platform: u16,
    /// Its second number.
    pub encoding: u16,
    /// Its third number.
    pub language: u16,
    /// Its fourth number.
    pub name: u16,
    which: u16,
}

impl Difference {
    /// A row to make room with. It is no difference until [`compare`] has written it.
    pub const ROOM: Difference = Difference {
        platform: 0,
        encoding: 0,
        language: 0,
        name: 0,
        which: 0,
    };

    /// The key's four numbers, in their order.
    pub const fn key(self) -> [u16; 4] {
        [self.platform, self.encoding, self.language, self.name]
    }

    /// What the key is; nothing for a row that was not written.
    pub const fn which(self) -> Option<Which> {
        match self.which {
            1 => Some(Which::OnlyLeft),
            2 => Some(Which::OnlyRight),
            3 => Some(Which::OtherBytes),
            _ => None,
        }
    }
}

/// The keys in which two tables differ, in the order of keys, each once: those that only one has, and those that both have
/// with other string bytes, wherever the strings lie. They are written into the first rows, and these rows are the answer;
/// the other rows hold what they held. As many rows as both tables have records together are always enough.
///
/// # Errors
///
/// The refusal of the left table, as [`check`] gives it, then that of the right one, each with its side; then
/// [`Refusal::TooManyDifferences`], where there are fewer rows than differences. The rows then hold what they held.
///
/// # Examples
///
/// ```
/// use gyalvindor::name::{self, Difference, Which};
/// use gyalvindor::{CompareRefusal, Refusal};
///
/// // Each has two records with strings of one byte.
/// let left = [
///     0, 0, 0, 2, 0, 30, //
///     0, 1, 0, 0, 0, 0, 0, 1, 0, 1, 0, 0, // (1, 0, 0, 1): "A"
///     0, 1, 0, 0, 0, 0, 0, 2, 0, 1, 0, 1, // (1, 0, 0, 2): "B"
///     b'A', b'B',
/// ];
/// let right = [
///     0, 0, 0, 2, 0, 30, //
///     0, 1, 0, 0, 0, 0, 0, 2, 0, 1, 0, 0, // (1, 0, 0, 2): "C"
///     0, 1, 0, 0, 0, 0, 0, 4, 0, 1, 0, 0, // (1, 0, 0, 4): "C"
///     b'C',
/// ];
///
/// let mut room = [Difference::ROOM; 4];
/// let rows = name::compare(&left, &right, &mut room)?;
/// let said: Vec<_> = rows.iter().map(|row| (row.key(), row.which())).collect();
/// assert_eq!(
///     said,
///     [
///         ([1, 0, 0, 1], Some(Which::OnlyLeft)),
///         ([1, 0, 0, 2], Some(Which::OtherBytes)),
///         ([1, 0, 0, 4], Some(Which::OnlyRight)),
///     ]
/// );
///
/// // A table does not differ from itself, and three differences need three rows.
/// assert_eq!(name::compare(&left, &left, &mut [])?, []);
/// let refused = name::compare(&left, &right, &mut room[..2]).unwrap_err();
/// assert_eq!(refused, CompareRefusal { side: None, refusal: Refusal::TooManyDifferences });
/// # Ok::<(), CompareRefusal>(())
/// ```
pub fn compare<'a>(
    left: &[u8],
    right: &[u8],
    rows: &'a mut [Difference],
) -> Result<&'a [Difference], CompareRefusal> {
    let count = CompareRefusal::checked(raw::name_compare(left, right, rows))?;
    Ok(&rows[..count])
}

/// One entry of a table to be written: the four numbers of its record, and where its text lies in the pool.
///
/// Any numbers may stand here: [`write`](fn@write) says what is wrong with them.
#[repr(C)]
#[derive(Clone, Copy, Debug, PartialEq, Eq, Hash)]
pub struct Entry {
    /// The record's platform.
    pub platform: u16,
    /// Its encoding.
    pub encoding: u16,
    /// Its language.
    pub language: u16,
    /// Its name.
    pub name: u16,
    /// The text's first byte, counted from the pool's first byte.
    pub start: usize,
    /// How many bytes the text has.
    pub length: u16,
}

/// Writes the table of the entries at the start of the room, and answers its length.
///
/// The table has format 0 and a record for each entry, in the given order. The entries' texts are copied one after another,
/// directly behind the records, and nothing is shared: two entries with the same text get two copies. Looking up an entry's
/// four numbers in the table finds its text, in the record of the entry's number. No byte after the table is touched. A table
/// needs 6 bytes, 12 for each entry and the bytes of the texts.
///
/// # Errors
///
/// In this order: [`Refusal::TooManyEntries`]; then for each entry [`Refusal::TextPassesPool`], [`Refusal::Language`],
/// [`Refusal::KeyBelow`] or [`Refusal::KeyEqual`], [`Refusal::OffsetTooFar`]; then [`Refusal::NameRoomTooShort`]. The room then
/// holds what it held.
///
/// # Examples
///
/// ```
/// use gyalvindor::name::{self, Entry};
/// use gyalvindor::Refusal;
///
/// let pool = b"Serif\0S\0e\0r\0i\0f";
/// let mut entries = [
///     Entry { platform: 1, encoding: 0, language: 0, name: 1, start: 0, length: 5 },
///     Entry { platform: 3, encoding: 1, language: 0x409, name: 1, start: 5, length: 10 },
/// ];
///
/// let mut room = [0xEE; 50];
/// let size = name::write(&entries, pool, &mut room)?;
/// assert_eq!(size, 6 + 2 * 12 + 15);
/// assert_eq!(room[size..], [0xEE; 5]);
///
/// let table = &room[..size];
/// let family = name::lookup(table, 3, 1, 0x409, 1).answer?;
/// assert_eq!(&table[family.range()], b"\0S\0e\0r\0i\0f");
/// assert_eq!(family.record, 1);
///
/// // Records are sorted by their four numbers, and the writer does not sort them.
/// entries.swap(0, 1);
/// assert_eq!(name::write(&entries, pool, &mut room), Err(Refusal::KeyBelow { record: 1 }));
///
/// // A start may be any number; the sum with the length does not wrap.
/// entries[0].start = usize::MAX;
/// assert_eq!(name::write(&entries, pool, &mut room), Err(Refusal::TextPassesPool { entry: 0 }));
///
/// // A table without records.
/// assert_eq!(name::write(&[], &[], &mut room), Ok(6));
/// assert_eq!(room[..6], [0, 0, 0, 0, 0, 6]);
/// # Ok::<(), Refusal>(())
/// ```
pub fn write(entries: &[Entry], pool: &[u8], room: &mut [u8]) -> Result<usize, Refusal> {
    Refusal::written(raw::name_write(entries, pool, room))
}
