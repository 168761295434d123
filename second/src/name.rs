//! The 'name' table: the check (10 to 19, 27), the lookup (20), the PostScript
//! question (21 to 24), the version question (20, 25) and the writer (30, 31,
//! 18, 17, 19, 32, 33).

use crate::{u16_at, Refusal};

/// Bytes before the first record: format, count, storage start.
const HEADER_BYTES: usize = 6;
/// Bytes of one name record.
const RECORD_BYTES: usize = 12;
/// Bytes of the tag count in format 1.
const TAG_COUNT_BYTES: usize = 2;
/// Bytes of one language tag record in format 1.
const TAG_BYTES: usize = 4;
/// The first language number that stands for a language tag.
const FIRST_TAG_LANGUAGE: u16 = 0x8000;
/// The most records that an accepted table has, and the most entries that are
/// written.
pub const MOST_RECORDS: usize = 5_460;
/// The highest offset that a record can hold.
const HIGHEST_OFFSET: usize = 65_535;

/// The PostScript name record with one byte a character.
const POSTSCRIPT_ONE_BYTE: Key = (1, 0, 0, 6);
/// The PostScript name record with two bytes a character.
const POSTSCRIPT_TWO_BYTE: Key = (3, 1, 0x409, 6);
/// The version string that counts first, two bytes a character.
const VERSION_TWO_BYTE: Key = (3, 1, 0x409, 5);
/// The version string that counts if the other is not there, one byte a
/// character.
const VERSION_ONE_BYTE: Key = (1, 0, 0, 5);

/// A record's key: platform, encoding, language, name. Tuples compare in that
/// order.
pub type Key = (u16, u16, u16, u16);

/// One name record, as stored.
#[derive(Clone, Copy, Debug, PartialEq, Eq)]
pub struct Record {
    /// Platform number.
    pub platform: u16,
    /// Encoding number.
    pub encoding: u16,
    /// Language number.
    pub language: u16,
    /// Name number.
    pub name: u16,
    /// The string's length in bytes.
    pub length: u16,
    /// The string's offset from the storage start.
    pub offset: u16,
}

impl Record {
    /// Platform, encoding, language, name.
    pub fn key(&self) -> Key {
        (self.platform, self.encoding, self.language, self.name)
    }
}

/// One language tag record of format 1, as stored.
#[derive(Clone, Copy, Debug, PartialEq, Eq)]
pub struct Tag {
    /// The string's length in bytes.
    pub length: u16,
    /// The string's offset from the storage start.
    pub offset: u16,
}

/// The contents of an accepted 'name' table.
#[derive(Clone, Debug, PartialEq, Eq)]
pub struct Table {
    /// 0 or 1.
    pub format: u16,
    /// The storage's first byte, from the table's first byte.
    pub storage_start: usize,
    /// Bytes from the storage start to the table's end.
    pub storage_length: usize,
    /// The name records in their order.
    pub records: Vec<Record>,
    /// The language tags in their order; empty in format 0.
    pub tags: Vec<Tag>,
}

impl Table {
    /// The first byte of a record's string, from the table's first byte.
    fn start_of(&self, record: &Record) -> usize {
        self.storage_start + usize::from(record.offset)
    }

    /// A record's string bytes, out of the table's bytes.
    pub fn string_of<'a>(&self, record: &Record, bytes: &'a [u8]) -> &'a [u8] {
        let start = self.start_of(record);
        &bytes[start..start + usize::from(record.length)]
    }

    /// The string bytes of the record with this number, which is there.
    fn string<'a>(&self, number: usize, bytes: &'a [u8]) -> &'a [u8] {
        self.string_of(&self.records[number], bytes)
    }

    /// The answer for the record with this number, which is there.
    fn text(&self, number: usize) -> Text {
        let record = &self.records[number];
        Text {
            start: self.start_of(record),
            length: usize::from(record.length),
            record: number,
        }
    }

    /// The number of the record with this key, if one has it. The records are
    /// looked at one after another.
    fn number_of(&self, key: Key) -> Option<usize> {
        (0..self.records.len()).find(|&number| self.records[number].key() == key)
    }
}

/// A record's string: its place in the table, and the record's number (document
/// 02, Ask 4).
#[derive(Clone, Copy, Debug, PartialEq, Eq)]
pub struct Text {
    /// The string's first byte, from the table's first byte.
    pub start: usize,
    /// The string's length in bytes.
    pub length: usize,
    /// The record's number, counted from 0.
    pub record: usize,
}

/// What a lookup gives: its answer, and how many records it looked at (document
/// 02, Ask 8).
#[derive(Clone, Copy, Debug, PartialEq, Eq)]
pub struct LookedUp {
    /// The string's place and its record, or the refusal.
    pub answer: Result<Text, Refusal>,
    /// The records that were looked at after the check of the table, found or
    /// not: 0 where the table is refused or has no records.
    pub looked: usize,
}

/// The figures before and after the period of a version text.
#[derive(Clone, Copy, Debug, PartialEq, Eq)]
pub struct Figures {
    /// The figure before the period, below 65,535.
    pub major: u32,
    /// The figure after the period, below 65,535.
    pub minor: u32,
}

/// A version number: its figures, and the number of the record in whose string
/// it stands (document 02, Ask 4).
#[derive(Clone, Copy, Debug, PartialEq, Eq)]
pub struct Version {
    /// The figure before the period, below 65,535.
    pub major: u32,
    /// The figure after the period, below 65,535.
    pub minor: u32,
    /// The number of the record that was used, counted from 0.
    pub record: usize,
}

/// Checks the whole table. Refusals: 10, 11, 12, 13, 14; then record by record
/// 15 or 27, 18, 17 or 19; then tag by tag 16.
pub fn check(bytes: &[u8]) -> Result<(), Refusal> {
    read(bytes).map(|_| ())
}

/// Checks the whole table as [`check`] does and gives its contents.
pub fn read(bytes: &[u8]) -> Result<Table, Refusal> {
    // 10: under 6 bytes.
    if bytes.len() < HEADER_BYTES {
        return Err(Refusal::plain(10));
    }
    let format = u16_at(bytes, 0);
    let count = usize::from(u16_at(bytes, 2));
    let storage_start = usize::from(u16_at(bytes, 4));

    // 11: format neither 0 nor 1.
    if format != 0 && format != 1 {
        return Err(Refusal::plain(11));
    }

    // 12: name records pass the table's end.
    let records_end = HEADER_BYTES + RECORD_BYTES * count;
    if records_end > bytes.len() {
        return Err(Refusal::plain(12));
    }

    // 13: tag count or tag records pass the end (format 1).
    let tags_start = records_end + TAG_COUNT_BYTES;
    let mut tag_count = 0;
    let mut front_end = records_end;
    if format == 1 {
        if tags_start > bytes.len() {
            return Err(Refusal::plain(13));
        }
        tag_count = usize::from(u16_at(bytes, records_end));
        front_end = tags_start + TAG_BYTES * tag_count;
        if front_end > bytes.len() {
            return Err(Refusal::plain(13));
        }
    }

    // 14: storage start before the end of the records and tags, or past the
    // table's end.
    if storage_start < front_end || storage_start > bytes.len() {
        return Err(Refusal::plain(14));
    }
    let storage_length = bytes.len() - storage_start;

    // Records from 0 upward, at each 15 or 27, 18, 17 or 19 (document 02, Ask
    // 3).
    let mut records: Vec<Record> = Vec::new();
    for number in 0..count {
        let record = record_at(bytes, HEADER_BYTES + RECORD_BYTES * number);
        // The count is a 16-bit number, so the record's number is one too.
        let place = number as u32;
        // 15: the string starts beyond the storage's end, be it empty or not.
        if starts_beyond(record.offset, storage_length) {
            return Err(Refusal::at(15, place));
        }
        // 27: it starts within the storage or at its end, and runs over.
        if passes_storage(record.offset, record.length, storage_length) {
            return Err(Refusal::at(27, place));
        }
        // 18: language number not allowed.
        if !language_allowed(format, record.platform, record.language, tag_count) {
            return Err(Refusal::at(18, place));
        }
        if let Some(before) = records.last() {
            // 17: the key is below the one before it.
            if record.key() < before.key() {
                return Err(Refusal::at(17, place));
            }
            // 19: the key is equal to it.
            if record.key() == before.key() {
                return Err(Refusal::at(19, place));
            }
        }
        records.push(record);
    }

    // Tags from 0 upward, 16, wherever the string starts.
    let mut tags: Vec<Tag> = Vec::new();
    for number in 0..tag_count {
        let at = tags_start + TAG_BYTES * number;
        let tag = Tag {
            length: u16_at(bytes, at),
            offset: u16_at(bytes, at + 2),
        };
        if passes_storage(tag.offset, tag.length, storage_length) {
            return Err(Refusal::at(16, number as u32));
        }
        tags.push(tag);
    }

    Ok(Table {
        format,
        storage_start,
        storage_length,
        records,
        tags,
    })
}

/// The record whose first byte is at `at`.
fn record_at(bytes: &[u8], at: usize) -> Record {
    Record {
        platform: u16_at(bytes, at),
        encoding: u16_at(bytes, at + 2),
        language: u16_at(bytes, at + 4),
        name: u16_at(bytes, at + 6),
        length: u16_at(bytes, at + 8),
        offset: u16_at(bytes, at + 10),
    }
}

/// Whether a string with this offset starts beyond the storage's end. One that
/// starts at the end does not.
fn starts_beyond(offset: u16, storage_length: usize) -> bool {
    usize::from(offset) > storage_length
}

/// Whether offset plus length is above the storage's length, empty strings
/// included. The sum does not wrap.
fn passes_storage(offset: u16, length: u16, storage_length: usize) -> bool {
    usize::from(offset) + usize::from(length) > storage_length
}

/// Whether a record may carry this language number.
fn language_allowed(format: u16, platform: u16, language: u16, tag_count: usize) -> bool {
    if language < FIRST_TAG_LANGUAGE {
        return true;
    }
    if format == 0 {
        (240..=255).contains(&platform)
    } else {
        usize::from(language) < usize::from(FIRST_TAG_LANGUAGE) + tag_count
    }
}

/// Looks a key up: the string's place and the number of the record that has the
/// key. Refusals: those of [`check`], then 20 when no record has it. A part above
/// 65,535 is found in no record.
///
/// Beside the answer stands how many records the lookup looked at after the
/// check (document 02, Ask 8), found or not; a refused table gives 0.
pub fn lookup(bytes: &[u8], platform: u32, encoding: u32, language: u32, name: u32) -> LookedUp {
    let table = match read(bytes) {
        Ok(table) => table,
        Err(refusal) => {
            return LookedUp {
                answer: Err(refusal),
                looked: 0,
            }
        }
    };
    let key = [platform, encoding, language, name];
    let keys: Vec<[u32; 4]> = table.records.iter().map(whole_key).collect();
    LookedUp {
        answer: match keys.iter().position(|&other| other == key) {
            Some(number) => Ok(table.text(number)),
            None => Err(Refusal::plain(20)),
        },
        looked: looked_at(&keys, key),
    }
}

/// A record's key as numbers that may be compared with any four. Arrays compare
/// part by part.
fn whole_key(record: &Record) -> [u32; 4] {
    [
        record.platform,
        record.encoding,
        record.language,
        record.name,
    ]
    .map(u32::from)
}

/// How many of these rising keys document 02's Ask 8 looks at for a key. This
/// counts its steps and finds nothing: the answer is not taken from here.
fn looked_at(keys: &[[u32; 4]], key: [u32; 4]) -> usize {
    // Low is included, high is not.
    let (mut low, mut high) = (0, keys.len());
    let mut looked = 0;
    while low != high {
        let half = (low + high) / 2;
        looked += 1;
        if keys[half] == key {
            break;
        }
        if keys[half] < key {
            low = half + 1;
        } else {
            high = half;
        }
    }
    looked
}

/// The PostScript name's place and record, which are those of (1, 0, 0, 6).
/// Refusals: those of [`check`], then 21, 22, 23, 24.
pub fn postscript(bytes: &[u8]) -> Result<Text, Refusal> {
    let table = read(bytes)?;
    let one_byte = table.number_of(POSTSCRIPT_ONE_BYTE);
    let two_byte = table.number_of(POSTSCRIPT_TWO_BYTE);
    let (first, second) = match (one_byte, two_byte) {
        (None, None) => return Err(Refusal::plain(21)),
        (Some(_), None) | (None, Some(_)) => return Err(Refusal::plain(22)),
        (Some(first), Some(second)) => (first, second),
    };

    // 23: both must be well formed before they are compared. The second has an
    // even length.
    let first_characters = one_byte_characters(table.string(first, bytes));
    let second_characters = match two_byte_characters(table.string(second, bytes)) {
        Some(characters) => characters,
        None => return Err(Refusal::plain(23)),
    };
    if !is_postscript_name(&first_characters) || !is_postscript_name(&second_characters) {
        return Err(Refusal::plain(23));
    }

    // 24: the two differ, character by character.
    if first_characters != second_characters {
        return Err(Refusal::plain(24));
    }
    Ok(table.text(first))
}

/// The characters of a string with one byte a character.
fn one_byte_characters(string: &[u8]) -> Vec<u16> {
    string.iter().map(|&byte| u16::from(byte)).collect()
}

/// The characters of a string with two bytes a character, or nothing when its
/// length is odd.
fn two_byte_characters(string: &[u8]) -> Option<Vec<u16>> {
    if !string.len().is_multiple_of(2) {
        return None;
    }
    Some(string.chunks(2).map(|pair| u16_at(pair, 0)).collect())
}

/// Whether these are 1 to 63 characters that a PostScript name may hold. A
/// two-byte character with a high byte other than 0 is above 126.
fn is_postscript_name(characters: &[u16]) -> bool {
    (1..=63).contains(&characters.len()) && characters.iter().all(|&c| is_postscript_character(c))
}

/// Codes 33 to 126 without `[ ] ( ) { } < > / %`, which leaves 84.
fn is_postscript_character(character: u16) -> bool {
    match u8::try_from(character) {
        Ok(code) => (33..=126).contains(&code) && !b"[](){}<>/%".contains(&code),
        Err(_) => false,
    }
}

/// The version number and the record that it was taken from. Refusals: those of
/// [`check`], then 20 when there is neither version string, then 25 when the one
/// that counts holds no number.
pub fn version(bytes: &[u8]) -> Result<Version, Refusal> {
    let table = read(bytes)?;
    let (record, characters) = if let Some(number) = table.number_of(VERSION_TWO_BYTE) {
        match two_byte_characters(table.string(number, bytes)) {
            Some(characters) => (number, characters),
            None => return Err(Refusal::plain(25)),
        }
    } else if let Some(number) = table.number_of(VERSION_ONE_BYTE) {
        (number, one_byte_characters(table.string(number, bytes)))
    } else {
        return Err(Refusal::plain(20));
    };
    match version_in(&characters) {
        Some(Figures { major, minor }) => Ok(Version {
            major,
            minor,
            record,
        }),
        None => Err(Refusal::plain(25)),
    }
}

/// The number at the first start, from the left, that yields one. A start that
/// fails is given up and every later start is tried. A bare text has no record.
pub fn version_in(characters: &[u16]) -> Option<Figures> {
    (0..characters.len()).find_map(|start| version_at(characters, start))
}

/// The number that starts exactly at `start`, if one does.
fn version_at(characters: &[u16], start: usize) -> Option<Figures> {
    // The first group doesn't follow a digit.
    if start > 0 && digit(characters[start - 1]).is_some() {
        return None;
    }
    // Digits, a period, digits, each group taken as long as it goes.
    let (major, after_major) = digits(characters, start)?;
    if after_major >= characters.len() || characters[after_major] != u16::from(b'.') {
        return None;
    }
    let (minor, _) = digits(characters, after_major + 1)?;
    // Each group's figure is below 65,535.
    if major < 65_535 && minor < 65_535 {
        Some(Figures { major, minor })
    } else {
        None
    }
}

/// The longest group of digits at `start`: its figure and the place after it.
/// Nothing when no digit stands there. A figure of 65,535 or more is given as
/// 65,535, since a group may be too long for any number type.
fn digits(characters: &[u16], start: usize) -> Option<(u32, usize)> {
    let mut figure = 0;
    let mut at = start;
    while at < characters.len() {
        match digit(characters[at]) {
            Some(value) => figure = (figure * 10 + value).min(65_535),
            None => break,
        }
        at += 1;
    }
    if at == start {
        None
    } else {
        Some((figure, at))
    }
}

/// The value of a digit `0` to `9`. A two-byte character is a digit only if
/// its high byte is 0.
fn digit(character: u16) -> Option<u32> {
    if (u16::from(b'0')..=u16::from(b'9')).contains(&character) {
        Some(u32::from(character - u16::from(b'0')))
    } else {
        None
    }
}

/// One entry of a table to write (document 02, Ask 5): its four numbers, and
/// where its text lies in the pool.
#[derive(Clone, Copy, Debug, PartialEq, Eq)]
pub struct Entry {
    /// Platform number.
    pub platform: u16,
    /// Encoding number.
    pub encoding: u16,
    /// Language number.
    pub language: u16,
    /// Name number.
    pub name: u16,
    /// The text's first byte, from the pool's first byte. Any number.
    pub start: u64,
    /// The text's length in bytes.
    pub length: u16,
}

impl Entry {
    /// Platform, encoding, language, name.
    pub fn key(&self) -> Key {
        (self.platform, self.encoding, self.language, self.name)
    }

    /// The text's bytes, out of a pool that holds it.
    fn text<'a>(&self, pool: &'a [u8]) -> &'a [u8] {
        let start = self.start as usize;
        &pool[start..start + usize::from(self.length)]
    }
}

/// Writes a format 0 table of the entries at the start of `room` and gives its
/// length (document 02, Ask 5): the records in the order of the entries, their
/// texts one after another, nothing shared, the storage directly after the
/// records. Refusals: 30; then entry by entry 31, 18, 17 or 19, 32; then 33;
/// `room` then holds what it held.
pub fn write(entries: &[Entry], pool: &[u8], room: &mut [u8]) -> Result<usize, Refusal> {
    // 30: more than 5,460 entries.
    if entries.len() > MOST_RECORDS {
        return Err(Refusal::plain(30));
    }

    // Entries from 0 upward, at each 31, 18, 17 or 19, 32. An entry's offset is
    // the sum of the lengths of the entries before it.
    let mut offset = 0;
    for (number, entry) in entries.iter().enumerate() {
        // There are at most 5,460 entries.
        let place = number as u32;
        // 31: start plus length past the pool's end. An empty text may start at
        // the end.
        if passes_pool(entry, pool) {
            return Err(Refusal::at(31, place));
        }
        // 18: language number not allowed in format 0, which has no tags.
        if !language_allowed(0, entry.platform, entry.language, 0) {
            return Err(Refusal::at(18, place));
        }
        if number > 0 {
            let before = &entries[number - 1];
            // 17: the key is below the one before it.
            if entry.key() < before.key() {
                return Err(Refusal::at(17, place));
            }
            // 19: the key is equal to it.
            if entry.key() == before.key() {
                return Err(Refusal::at(19, place));
            }
        }
        // 32: the offset is above 65,535, be the text empty or not.
        if offset > HIGHEST_OFFSET {
            return Err(Refusal::at(32, place));
        }
        offset += usize::from(entry.length);
    }

    // 33: not enough room for the header, the records and the texts.
    let storage_start = HEADER_BYTES + RECORD_BYTES * entries.len();
    let size = storage_start + offset;
    if room.len() < size {
        return Err(Refusal::plain(33));
    }

    let mut front = vec![0, entries.len(), storage_start];
    let mut storage = Vec::new();
    for entry in entries {
        let (platform, encoding, language, name) = entry.key();
        front.extend([platform, encoding, language, name, entry.length].map(usize::from));
        front.push(storage.len());
        storage.extend_from_slice(entry.text(pool));
    }
    // The storage starts at 65,526 at most, and 32 looked at the offsets.
    let sixteen_bits = |number| u16::try_from(number).expect("the number has 16 bits");
    let mut table: Vec<u8> = front
        .into_iter()
        .flat_map(|number| sixteen_bits(number).to_be_bytes())
        .collect();
    table.extend(storage);
    room[..size].copy_from_slice(&table);
    Ok(size)
}

/// Whether start plus length is above the pool's length, empty texts included.
/// The sum does not wrap.
fn passes_pool(entry: &Entry, pool: &[u8]) -> bool {
    u128::from(entry.start) + u128::from(entry.length) > pool.len() as u128
}
