//! The 'OS/2' table: acceptance at a level (1, 2, 3), the seven questions
//! (6, 7), the writer (4, 5, 8, 3) and rewriting.

use crate::{u16_at, Refusal};

/// The lowest level.
pub const OLDEST: u32 = 0;
/// The highest level, and the highest version that is written.
pub const NEWEST: u32 = 5;
/// How many fields the catalogue holds.
pub const FIELD_COUNT: usize = 48;

/// One field of the catalogue.
#[derive(Clone, Copy, Debug, PartialEq, Eq)]
pub struct Field {
    /// The field's first byte, from the table's first byte.
    pub offset: usize,
    /// Its width in bytes: 1, 2 or 4.
    pub bytes: usize,
    /// Whether it is signed.
    pub signed: bool,
    /// The version it came in with.
    pub since: u32,
}

/// An unsigned field.
const fn u(offset: usize, bytes: usize, since: u32) -> Field {
    Field {
        offset,
        bytes,
        signed: false,
        since,
    }
}

/// A signed field; all of them have 2 bytes.
const fn s(offset: usize, since: u32) -> Field {
    Field {
        offset,
        bytes: 2,
        signed: true,
        since,
    }
}

/// The catalogue of the 48 fields, by their numbers.
pub const FIELDS: [Field; FIELD_COUNT] = [
    u(0, 2, 0),  // 0 version
    s(2, 0),     // 1 average width
    u(4, 2, 0),  // 2 weight
    u(6, 2, 0),  // 3 width
    u(8, 2, 0),  // 4 fsType
    s(10, 0),    // 5 subscript x size
    s(12, 0),    // 6 subscript y size
    s(14, 0),    // 7 subscript x offset
    s(16, 0),    // 8 subscript y offset
    s(18, 0),    // 9 superscript x size
    s(20, 0),    // 10 superscript y size
    s(22, 0),    // 11 superscript x offset
    s(24, 0),    // 12 superscript y offset
    s(26, 0),    // 13 strikeout size
    s(28, 0),    // 14 strikeout position
    s(30, 0),    // 15 family class
    u(32, 1, 0), // 16 PANOSE
    u(33, 1, 0), // 17
    u(34, 1, 0), // 18
    u(35, 1, 0), // 19
    u(36, 1, 0), // 20
    u(37, 1, 0), // 21
    u(38, 1, 0), // 22
    u(39, 1, 0), // 23
    u(40, 1, 0), // 24
    u(41, 1, 0), // 25
    u(42, 4, 0), // 26 Unicode ranges
    u(46, 4, 0), // 27
    u(50, 4, 0), // 28
    u(54, 4, 0), // 29
    u(58, 4, 0), // 30 vendor
    u(62, 2, 0), // 31 fsSelection
    u(64, 2, 0), // 32 first char
    u(66, 2, 0), // 33 last char
    s(68, 0),    // 34 typo ascender
    s(70, 0),    // 35 typo descender
    s(72, 0),    // 36 typo gap
    u(74, 2, 0), // 37 win ascent
    u(76, 2, 0), // 38 win descent
    u(78, 4, 1), // 39 code pages
    u(82, 4, 1), // 40
    s(86, 2),    // 41 x height
    s(88, 2),    // 42 cap height
    u(90, 2, 2), // 43 default
    u(92, 2, 2), // 44 break
    u(94, 2, 2), // 45 max context
    u(96, 2, 5), // 46 lower optical size
    u(98, 2, 5), // 47 upper optical size
];

/// Field number of the version.
const VERSION: usize = 0;
/// Field number of the weight.
const WEIGHT: usize = 2;
/// Field number of the width.
const WIDTH: usize = 3;
/// Field number of fsType.
const FS_TYPE: usize = 4;
/// Field number of the first of the four Unicode ranges.
const UNICODE_RANGES: usize = 26;
/// Field number of fsSelection.
const FS_SELECTION: usize = 31;
/// Field number of the first of the two code page fields.
const CODE_PAGES: usize = 39;
/// Field number of the lower optical size.
const LOWER_OPTICAL: usize = 46;
/// Field number of the upper optical size.
const UPPER_OPTICAL: usize = 47;

/// An answer on an accepted table. Fields give their number and bits give 0
/// or 1 as the value.
#[derive(Clone, Copy, Debug, PartialEq, Eq)]
pub enum Answer<T = i64> {
    /// The table holds it.
    Value(T),
    /// The level knows it, but the table's version lacks it.
    Absent,
    /// The level does not know it.
    NotKnown,
}

/// Embedding rights, from fsType. Of several set bits the least restrictive
/// holds.
#[derive(Clone, Copy, Debug, PartialEq, Eq)]
pub enum Rights {
    /// None of bits 1 to 3 is set.
    Installable,
    /// Bit 1 alone.
    Restricted,
    /// Bit 2, without bit 3.
    Preview,
    /// Bit 3.
    Editable,
}

/// The style position.
#[derive(Clone, Copy, Debug, PartialEq)]
pub struct StylePosition {
    /// The weight, 1 to 1000.
    pub weight: f32,
    /// The width in percent, 50 to 200.
    pub width_percent: f32,
}

/// The optical sizes, in points.
#[derive(Clone, Copy, Debug, PartialEq)]
pub enum OpticalSizes {
    /// Every size: lower 0 and upper 65535.
    Every,
    /// From a size upwards: upper 65535, lower not 0.
    From(f32),
    /// Between two sizes.
    Between(f32, f32),
}

/// The size of a version's table in bytes; 5 and any later have 100.
pub fn size(version: u32) -> usize {
    match version {
        0 => 78,
        1 => 86,
        2..=4 => 96,
        _ => 100,
    }
}

/// 1: level above 5.
fn check_level(level: u32) -> Result<(), Refusal> {
    if level > NEWEST {
        return Err(Refusal::plain(1));
    }
    Ok(())
}

/// The stored version. The table has 2 bytes or more.
fn stored_version(table: &[u8]) -> u32 {
    u32::from(u16_at(table, 0))
}

/// The number at a field's place. The table is long enough for the field.
fn stored(table: &[u8], field: Field) -> i64 {
    let mut number: i64 = 0;
    for &byte in &table[field.offset..field.offset + field.bytes] {
        number = number * 256 + i64::from(byte);
    }
    if field.signed && number > highest(field) {
        number -= 256_i64.pow(field.bytes as u32);
    }
    number
}

/// The lowest number that fits a field.
fn lowest(field: Field) -> i64 {
    if field.signed {
        -(256_i64.pow(field.bytes as u32) / 2)
    } else {
        0
    }
}

/// The highest number that fits a field.
fn highest(field: Field) -> i64 {
    let numbers = 256_i64.pow(field.bytes as u32);
    if field.signed {
        numbers / 2 - 1
    } else {
        numbers - 1
    }
}

/// Bit `bit` of `number`, counted from the low end: 0 or 1. The number is not
/// negative.
fn bit_of(number: i64, bit: u32) -> i64 {
    (number >> bit) & 1
}

/// The first value rule that these fields break, if they break one. Fields
/// that the version lacks are not looked at.
fn first_rule_broken(values: &[i64; FIELD_COUNT]) -> Option<u32> {
    let version = values[VERSION];
    let fs_type = values[FS_TYPE];
    let selection = values[FS_SELECTION];

    // 1. weight 1 to 1000
    if values[WEIGHT] < 1 || values[WEIGHT] > 1000 {
        return Some(1);
    }
    // 2. width 1 to 9
    if values[WIDTH] < 1 || values[WIDTH] > 9 {
        return Some(2);
    }
    // 3. fsType bits 0, 4 to 7, 10 to 15 clear
    for bit in [0, 4, 5, 6, 7, 10, 11, 12, 13, 14, 15] {
        if bit_of(fs_type, bit) == 1 {
            return Some(3);
        }
    }
    // 4. at most one of fsType bits 1, 2, 3 set. Document 02, Ask 1: "Value
    // rule 4 shall apply only from version 3."
    if version >= 3 && bit_of(fs_type, 1) + bit_of(fs_type, 2) + bit_of(fs_type, 3) > 1 {
        return Some(4);
    }
    // 5. fsSelection bits 10 to 15 clear, and bits 7 to 9 clear when the
    // version is below 4
    for bit in [10, 11, 12, 13, 14, 15] {
        if bit_of(selection, bit) == 1 {
            return Some(5);
        }
    }
    for bit in [7, 8, 9] {
        if version < 4 && bit_of(selection, bit) == 1 {
            return Some(5);
        }
    }
    // 6. fsSelection bit 6 set means bits 0 and 5 clear
    if bit_of(selection, 6) == 1 && (bit_of(selection, 0) == 1 || bit_of(selection, 5) == 1) {
        return Some(6);
    }
    // 7. in version 5, lower optical size below upper
    if version == 5 && values[LOWER_OPTICAL] >= values[UPPER_OPTICAL] {
        return Some(7);
    }
    None
}

/// The fields that version `version` has, read from their places; 0 for those
/// that it lacks. The table is long enough for them.
fn stored_fields(table: &[u8], version: u32) -> [i64; FIELD_COUNT] {
    let mut values = [0; FIELD_COUNT];
    for (number, field) in FIELDS.iter().enumerate() {
        if field.since <= version {
            values[number] = stored(table, *field);
        }
    }
    values
}

/// Whether the level accepts the table. Refusals: 1, 2, 3.
pub fn accept(level: u32, table: &[u8]) -> Result<(), Refusal> {
    check_level(level)?;
    accept_at_checked_level(level, table)
}

/// Refusals 2 and 3.
fn accept_at_checked_level(level: u32, table: &[u8]) -> Result<(), Refusal> {
    // 2: under 2 bytes, or shorter than the size for the smaller of the
    // table's version and the level.
    if table.len() < 2 {
        return Err(Refusal::plain(2));
    }
    let version = stored_version(table);
    if table.len() < size(version.min(level)) {
        return Err(Refusal::plain(2));
    }
    // 3: the value rules, only when the version is at most the level.
    if version <= level {
        if let Some(rule) = first_rule_broken(&stored_fields(table, version)) {
            return Err(Refusal::at(3, rule));
        }
    }
    Ok(())
}

/// The answer for a field, or for a bit of it, that came in with version
/// `since`. The level has accepted the table.
fn three_cases(level: u32, table: &[u8], since: u32, field: Field, bit: Option<u32>) -> Answer {
    if since > level {
        Answer::NotKnown
    } else if since > stored_version(table) {
        Answer::Absent
    } else {
        let number = stored(table, field);
        match bit {
            None => Answer::Value(number),
            Some(bit) => Answer::Value(bit_of(number, bit)),
        }
    }
}

/// Question 1, a field by its number 0 to 47. Refusals: 1, 6, 2, 3.
pub fn field(level: u32, table: &[u8], number: u32) -> Result<Answer, Refusal> {
    check_level(level)?;
    if number > 47 {
        return Err(Refusal::plain(6));
    }
    accept_at_checked_level(level, table)?;
    let field = FIELDS[number as usize];
    Ok(three_cases(level, table, field.since, field, None))
}

/// Question 1 for each of the 48 fields, in their order. Refusals: 1, 2, 3.
pub fn fields(level: u32, table: &[u8]) -> Result<[Answer; FIELD_COUNT], Refusal> {
    accept(level, table)?;
    Ok(FIELDS.map(|field| three_cases(level, table, field.since, field, None)))
}

/// Question 2, an fsSelection bit 0 to 9. Refusals: 1, 7, 2, 3.
pub fn selection_bit(level: u32, table: &[u8], bit: u32) -> Result<Answer, Refusal> {
    check_level(level)?;
    let since = match bit {
        0..=6 => 0,
        7..=9 => 4,
        _ => return Err(Refusal::plain(7)),
    };
    accept_at_checked_level(level, table)?;
    let field = FIELDS[FS_SELECTION];
    Ok(three_cases(level, table, since, field, Some(bit)))
}

/// Question 3, a Unicode bit 0 to 127. Refusals: 1, 7, 2, 3.
pub fn unicode_bit(level: u32, table: &[u8], bit: u32) -> Result<Answer, Refusal> {
    check_level(level)?;
    if bit > 127 {
        return Err(Refusal::plain(7));
    }
    accept_at_checked_level(level, table)?;
    let field = FIELDS[UNICODE_RANGES + (bit / 32) as usize];
    Ok(three_cases(level, table, 0, field, Some(bit % 32)))
}

/// Question 4, a code page bit 0 to 63. Refusals: 1, 7, 2, 3.
pub fn code_page_bit(level: u32, table: &[u8], bit: u32) -> Result<Answer, Refusal> {
    check_level(level)?;
    if bit > 63 {
        return Err(Refusal::plain(7));
    }
    accept_at_checked_level(level, table)?;
    let field = FIELDS[CODE_PAGES + (bit / 32) as usize];
    Ok(three_cases(level, table, 1, field, Some(bit % 32)))
}

/// Question 5, the embedding rights. Refusals: 1, 2, 3.
pub fn rights(level: u32, table: &[u8]) -> Result<Answer<Rights>, Refusal> {
    accept(level, table)?;
    if stored_version(table) > level {
        return Ok(Answer::NotKnown);
    }
    // Document 02, Ask 1: "For versions 0 to 2 rights are editable if bit 3 is
    // set, else preview if bit 2, else restricted if bit 1, else installable."
    // From version 3 on rule 4 leaves at most one of the three bits, so the
    // same sentence gives what document 01 says: installable (none of bits 1
    // to 3), restricted (1), preview (2), editable (3).
    let fs_type = stored(table, FIELDS[FS_TYPE]);
    let rights = if bit_of(fs_type, 3) == 1 {
        Rights::Editable
    } else if bit_of(fs_type, 2) == 1 {
        Rights::Preview
    } else if bit_of(fs_type, 1) == 1 {
        Rights::Restricted
    } else {
        Rights::Installable
    };
    Ok(Answer::Value(rights))
}

/// Question 6, the style position. Refusals: 1, 2, 3.
pub fn style_position(level: u32, table: &[u8]) -> Result<Answer<StylePosition>, Refusal> {
    accept(level, table)?;
    if stored_version(table) > level {
        return Ok(Answer::NotKnown);
    }
    // Rules 1 and 2 hold here: weight is 1 to 1000 and width 1 to 9.
    let weight = stored(table, FIELDS[WEIGHT]) as f32;
    let width_percent = match stored(table, FIELDS[WIDTH]) {
        1 => 50.0,
        2 => 62.5,
        3 => 75.0,
        4 => 87.5,
        5 => 100.0,
        6 => 112.5,
        7 => 125.0,
        8 => 150.0,
        9 => 200.0,
        width => unreachable!("rule 2 lets no width {width} through"),
    };
    Ok(Answer::Value(StylePosition {
        weight,
        width_percent,
    }))
}

/// Question 7, the optical sizes. Refusals: 1, 2, 3.
pub fn optical_sizes(level: u32, table: &[u8]) -> Result<Answer<OpticalSizes>, Refusal> {
    accept(level, table)?;
    let version = stored_version(table);
    if version > level || level < 5 {
        return Ok(Answer::NotKnown);
    }
    if version < 5 {
        return Ok(Answer::Absent);
    }
    let lower = stored(table, FIELDS[LOWER_OPTICAL]);
    let upper = stored(table, FIELDS[UPPER_OPTICAL]);
    let sizes = if lower == 0 && upper == 65_535 {
        OpticalSizes::Every
    } else if upper == 65_535 {
        OpticalSizes::From(points(lower))
    } else {
        OpticalSizes::Between(points(lower), points(upper))
    };
    Ok(Answer::Value(sizes))
}

/// A stored optical size in points: the converted number divided once by 20.
fn points(stored: i64) -> f32 {
    stored as f32 / 20.0
}

/// Writes a table of version `values[0]` into `room` and gives its size.
/// Refusals: 4, 5, 8, 3; `room` then holds what it held.
pub fn write(values: &[i64; FIELD_COUNT], room: &mut [u8]) -> Result<usize, Refusal> {
    // 4: a version outside 0 to 5.
    let version = match values[VERSION] {
        version @ 0..=5 => version as u32,
        _ => return Err(Refusal::plain(4)),
    };
    // 5: room shorter than the version's size.
    let size = size(version);
    if room.len() < size {
        return Err(Refusal::plain(5));
    }
    // 8: the lowest field whose value doesn't fit, of those the version has.
    for (number, field) in FIELDS.iter().enumerate() {
        let value = values[number];
        if field.since <= version && (value < lowest(*field) || value > highest(*field)) {
            return Err(Refusal::at(8, number as u32));
        }
    }
    // 3: the value rules as at level 5.
    if let Some(rule) = first_rule_broken(values) {
        return Err(Refusal::at(3, rule));
    }
    // The fields that the version has fill its size without gaps.
    for (number, field) in FIELDS.iter().enumerate() {
        if field.since <= version {
            let eight = values[number].to_be_bytes();
            let place = &mut room[field.offset..field.offset + field.bytes];
            place.copy_from_slice(&eight[8 - field.bytes..]);
        }
    }
    Ok(size)
}

/// Reads a table at level 5 and writes it into `room`. Refusals: 2 and 3 as at
/// level 5, then 4 for a version above 5, then 5; `room` then holds what it
/// held.
pub fn rewrite(table: &[u8], room: &mut [u8]) -> Result<usize, Refusal> {
    accept(NEWEST, table)?;
    let values = stored_fields(table, stored_version(table).min(NEWEST));
    write(&values, room)
}
