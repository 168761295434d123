//! Cuts the 'name' and 'OS/2' tables out of a font file by its table
//! directory. Document 01 leaves font files aside; this module only makes it
//! possible to run published fonts.

use crate::u16_at;

/// The first four bytes of a collection.
const COLLECTION: [u8; 4] = *b"ttcf";
/// The first four bytes of a single font: TrueType outlines, CFF outlines, and
/// the two older Apple forms.
const SINGLE: [[u8; 4]; 4] = [[0, 1, 0, 0], *b"OTTO", *b"true", *b"typ1"];
/// Bytes of a collection's header, before the first font's offset.
const COLLECTION_HEADER_BYTES: usize = 12;
/// Bytes of a font's header, before its first table record.
const HEADER_BYTES: usize = 12;
/// Bytes of one table record: tag, checksum, offset, length.
const RECORD_BYTES: usize = 16;

/// The font's 'name' table, if it is there.
pub fn name(file: &[u8]) -> Option<&[u8]> {
    table(file, *b"name")
}

/// The font's 'OS/2' table, if it is there.
pub fn os2(file: &[u8]) -> Option<&[u8]> {
    table(file, *b"OS/2")
}

/// The bytes of the first table with this tag. Of a collection, the first
/// font's. Nothing when the file is no font, when no record has the tag, or
/// when the directory or the table passes the file's end.
pub fn table(file: &[u8], tag: [u8; 4]) -> Option<&[u8]> {
    table_of(file, 0, tag)
}

/// How many fonts the file says that it holds: 1, or a collection's number of
/// fonts, as far as their offsets are in the file. 0 when it is no font.
pub fn fonts(file: &[u8]) -> usize {
    if !is_collection(file) {
        return usize::from(font_start(file, 0).is_some());
    }
    let most = file.len().saturating_sub(COLLECTION_HEADER_BYTES) / 4;
    u32_at(file, 8).unwrap_or(0).min(most)
}

/// As [`table`], of the font with this number, counted from 0. Nothing when
/// there is no such font.
pub fn table_of(file: &[u8], font: usize, tag: [u8; 4]) -> Option<&[u8]> {
    let font = font_start(file, font)?;
    let header = part(file, font, HEADER_BYTES)?;
    let count = usize::from(u16_at(header, 4));
    for number in 0..count {
        let at = font.checked_add(HEADER_BYTES + RECORD_BYTES * number)?;
        let record = part(file, at, RECORD_BYTES)?;
        if record[0..4] == tag {
            // Offsets count from the file's first byte, in collections too.
            return part(file, u32_at(record, 8)?, u32_at(record, 12)?);
        }
    }
    None
}

/// Whether the file is a collection.
fn is_collection(file: &[u8]) -> bool {
    part(file, 0, 4) == Some(&COLLECTION)
}

/// Where the header of the font with this number starts: 0, or in a collection
/// the font's offset.
fn font_start(file: &[u8], font: usize) -> Option<usize> {
    let mut start = 0;
    if is_collection(file) {
        // Tag, version, number of fonts, then the fonts' offsets.
        if font >= u32_at(file, 8)? {
            return None;
        }
        start = u32_at(
            file,
            font.checked_mul(4)?.checked_add(COLLECTION_HEADER_BYTES)?,
        )?;
    } else if font > 0 {
        return None;
    }
    if SINGLE.iter().any(|form| part(file, start, 4) == Some(form)) {
        Some(start)
    } else {
        None
    }
}

/// `length` bytes from `start`, unless they pass the end.
fn part(bytes: &[u8], start: usize, length: usize) -> Option<&[u8]> {
    bytes.get(start..start.checked_add(length)?)
}

/// The big-endian 32-bit number at `at`, unless it passes the end.
fn u32_at(bytes: &[u8], at: usize) -> Option<usize> {
    let four = part(bytes, at, 4)?;
    usize::try_from(u32::from_be_bytes([four[0], four[1], four[2], four[3]])).ok()
}
