//! Questions on an 'OS/2' table, versions 0 to 5 and later, and the writer of versions 0 to 5.
//!
//! Every question takes the table and a level, the highest version that the asker knows, 0 to 5. A table of a higher version
//! is read as far as the level knows it, and its values are not judged by rules that may have changed since.

use crate::raw;
use crate::{Answer, CompareRefusal, Refusal};

/// The lowest level.
pub const OLDEST: u32 = 0;
/// The highest level, and the highest version that is written.
pub const NEWEST: u32 = 5;
/// How many fields there are. They are numbered from 0; [`fields`] names the numbers.
pub const FIELD_COUNT: usize = 48;

/// The numbers of the fields, for [`field`](fn@field) and [`write`](fn@write).
///
/// Fields have two bytes and are there since version 0 where nothing else is said.
pub mod fields {
    /// The table's version.
    pub const VERSION: u32 = 0;
    /// Average character width, signed.
    pub const AVERAGE_WIDTH: u32 = 1;
    /// Weight, 1 to 1000.
    pub const WEIGHT: u32 = 2;
    /// Width, 1 to 9.
    pub const WIDTH: u32 = 3;
    /// fsType: what the font's licence allows, see [`rights`](super::rights).
    pub const FSTYPE: u32 = 4;
    /// Subscript x size, signed.
    pub const SUBSCRIPT_X_SIZE: u32 = 5;
    /// Subscript y size, signed.
    pub const SUBSCRIPT_Y_SIZE: u32 = 6;
    /// Subscript x offset, signed.
    pub const SUBSCRIPT_X_OFFSET: u32 = 7;
    /// Subscript y offset, signed.
    pub const SUBSCRIPT_Y_OFFSET: u32 = 8;
    /// Superscript x size, signed.
    pub const SUPERSCRIPT_X_SIZE: u32 = 9;
    /// Superscript y size, signed.
    pub const SUPERSCRIPT_Y_SIZE: u32 = 10;
    /// Superscript x offset, signed.
    pub const SUPERSCRIPT_X_OFFSET: u32 = 11;
    /// Superscript y offset, signed.
    pub const SUPERSCRIPT_Y_OFFSET: u32 = 12;
    /// Strikeout size, signed.
    pub const STRIKEOUT_SIZE: u32 = 13;
    /// Strikeout position, signed.
    pub const STRIKEOUT_POSITION: u32 = 14;
    /// Family class, signed.
    pub const FAMILY_CLASS: u32 = 15;
    /// The first of the ten PANOSE fields, 16 to 25, one byte each.
    pub const PANOSE: u32 = 16;
    /// The first of the four Unicode range fields, 26 to 29, four bytes each; see [`unicode_bit`](super::unicode_bit).
    pub const UNICODE_RANGES: u32 = 26;
    /// Vendor, four bytes.
    pub const VENDOR: u32 = 30;
    /// fsSelection; see [`selection_bit`](super::selection_bit).
    pub const FSSELECTION: u32 = 31;
    /// First character.
    pub const FIRST_CHAR: u32 = 32;
    /// Last character.
    pub const LAST_CHAR: u32 = 33;
    /// Typographic ascender, signed.
    pub const TYPO_ASCENDER: u32 = 34;
    /// Typographic descender, signed.
    pub const TYPO_DESCENDER: u32 = 35;
    /// Typographic line gap, signed.
    pub const TYPO_GAP: u32 = 36;
    /// Windows ascent.
    pub const WIN_ASCENT: u32 = 37;
    /// Windows descent.
    pub const WIN_DESCENT: u32 = 38;
    /// The first of the two code page fields, 39 and 40, four bytes each, since version 1; see
    /// [`code_page_bit`](super::code_page_bit).
    pub const CODE_PAGES: u32 = 39;
    /// x height, signed, since version 2.
    pub const X_HEIGHT: u32 = 41;
    /// Capital height, signed, since version 2.
    pub const CAP_HEIGHT: u32 = 42;
    /// Default character, since version 2.
    pub const DEFAULT_CHAR: u32 = 43;
    /// Break character, since version 2.
    pub const BREAK_CHAR: u32 = 44;
    /// Longest context, since version 2.
    pub const MAX_CONTEXT: u32 = 45;
    /// Lower optical size in twentieths of a point, since version 5; see [`optical_sizes`](super::optical_sizes).
    pub const LOWER_SIZE: u32 = 46;
    /// Upper optical size in twentieths of a point, since version 5.
    pub const UPPER_SIZE: u32 = 47;
}

/// What a font's licence allows, by fsType: by the highest of its bits 1 to 3 that is set, which is the least restrictive one. In
/// versions from 3 on at most one is set, by [`Rule::OneRight`](crate::Rule::OneRight).
#[derive(Clone, Copy, Debug, PartialEq, Eq, Hash)]
pub enum Rights {
    /// The font may be installed: none of bits 1 to 3 is set.
    Installable,
    /// Restricted: bit 1, and neither bit 2 nor bit 3.
    Restricted,
    /// Preview and print: bit 2, and not bit 3.
    Preview,
    /// Editable: bit 3.
    Editable,
}

/// Where a face stands in its family.
#[derive(Clone, Copy, Debug, PartialEq)]
pub struct StylePosition {
    /// The weight, 1 to 1000.
    pub weight: f32,
    /// The width in percent: 50, 62.5, 75, 87.5, 100, 112.5, 125, 150 or 200.
    pub width: f32,
}

/// The sizes that a face is meant for, in points.
#[derive(Clone, Copy, Debug, PartialEq)]
pub enum OpticalSizes {
    /// Every size.
    Every,
    /// From a size upwards.
    Upwards(f32),
    /// Between a lower and an upper size.
    Between(f32, f32),
}

/// Does the level accept the table?
///
/// # Errors
///
/// In this order: [`Refusal::UnknownLevel`], [`Refusal::Os2TooShort`], [`Refusal::ValueRule`]. A table has to have the size
/// for the smaller of its version and the level: 78 bytes (0), 86 (1), 96 (2, 3, 4) or 100 (5). More bytes are allowed.
/// The rules for values hold only where the table's version is at most the level.
///
/// # Examples
///
/// ```
/// use gyalvindor::{os2, Refusal};
///
/// // Version 0: 78 zero bytes but weight 400 and width 5.
/// let mut table = [0; 78];
/// table[4..8].copy_from_slice(&[1, 144, 0, 5]);
/// for level in os2::OLDEST..=os2::NEWEST {
///     assert_eq!(os2::check(&table, level), Ok(()));
///     assert_eq!(os2::check(&table[..77], level), Err(Refusal::Os2TooShort));
/// }
/// assert_eq!(os2::check(&table, 6), Err(Refusal::UnknownLevel));
///
/// // Version 5 with 96 bytes: long enough for level 4.
/// let mut table = [0; 96];
/// table[1] = 5;
/// table[4..8].copy_from_slice(&[1, 144, 0, 5]);
/// assert_eq!(os2::check(&table, 4), Ok(()));
/// assert_eq!(os2::check(&table, 5), Err(Refusal::Os2TooShort));
/// ```
pub fn check(table: &[u8], level: u32) -> Result<(), Refusal> {
    Refusal::checked(raw::os2_check(table, level))
}

/// The number in a field, 0 to 47. [`fields`] names them.
///
/// # Errors
///
/// In this order: [`Refusal::UnknownLevel`], [`Refusal::NoSuchField`], [`Refusal::Os2TooShort`], [`Refusal::ValueRule`].
///
/// # Examples
///
/// ```
/// use gyalvindor::os2::{self, fields};
/// use gyalvindor::{Answer, Refusal};
///
/// // Version 0: 78 zero bytes but weight 400 and width 5.
/// let mut table = [0; 78];
/// table[4..8].copy_from_slice(&[1, 144, 0, 5]);
/// assert_eq!(os2::field(&table, 5, fields::WEIGHT), Ok(Answer::Value(400)));
/// assert_eq!(os2::field(&table, 5, fields::X_HEIGHT), Ok(Answer::Absent));
/// assert_eq!(os2::field(&table, 1, fields::X_HEIGHT), Ok(Answer::NotKnown));
/// assert_eq!(os2::field(&table, 5, 48), Err(Refusal::NoSuchField));
/// ```
pub fn field(table: &[u8], level: u32, number: u32) -> Result<Answer<i64>, Refusal> {
    whole(raw::os2_field(table, level, number))
}

/// A bit of fsSelection, 0 to 9. Bits 7 to 9 came in with version 4.
///
/// # Errors
///
/// In this order: [`Refusal::UnknownLevel`], [`Refusal::NoSuchBit`], [`Refusal::Os2TooShort`], [`Refusal::ValueRule`].
///
/// # Examples
///
/// ```
/// use gyalvindor::{os2, Answer, Refusal};
///
/// // Version 0, weight 700, width 5, fsSelection 0x0020 (bold).
/// let mut table = [0; 78];
/// table[4..8].copy_from_slice(&[2, 188, 0, 5]);
/// table[63] = 0x20;
/// assert_eq!(os2::selection_bit(&table, 5, 5), Ok(Answer::Value(true)));
/// assert_eq!(os2::selection_bit(&table, 5, 6), Ok(Answer::Value(false)));
/// assert_eq!(os2::selection_bit(&table, 5, 7), Ok(Answer::Absent));
/// assert_eq!(os2::selection_bit(&table, 5, 10), Err(Refusal::NoSuchBit));
/// ```
pub fn selection_bit(table: &[u8], level: u32, number: u32) -> Result<Answer<bool>, Refusal> {
    bit(raw::os2_selection_bit(table, level, number))
}

/// A bit of the four Unicode range fields, 0 to 127: bit `n % 32`, counted from the low end, of range `n / 32`.
///
/// # Errors
///
/// In this order: [`Refusal::UnknownLevel`], [`Refusal::NoSuchBit`], [`Refusal::Os2TooShort`], [`Refusal::ValueRule`].
///
/// # Examples
///
/// ```
/// use gyalvindor::{os2, Answer, Refusal};
///
/// let mut table = [0; 78];
/// table[4..8].copy_from_slice(&[1, 144, 0, 5]);
/// table[49] = 0x02; // the last byte of the second range
/// assert_eq!(os2::unicode_bit(&table, 0, 33), Ok(Answer::Value(true)));
/// assert_eq!(os2::unicode_bit(&table, 0, 34), Ok(Answer::Value(false)));
/// assert_eq!(os2::unicode_bit(&table, 0, 128), Err(Refusal::NoSuchBit));
/// ```
pub fn unicode_bit(table: &[u8], level: u32, number: u32) -> Result<Answer<bool>, Refusal> {
    bit(raw::os2_unicode_bit(table, level, number))
}

/// A bit of the two code page fields, 0 to 63, numbered as the Unicode bits are. They came in with version 1.
///
/// # Errors
///
/// In this order: [`Refusal::UnknownLevel`], [`Refusal::NoSuchBit`], [`Refusal::Os2TooShort`], [`Refusal::ValueRule`].
///
/// # Examples
///
/// ```
/// use gyalvindor::{os2, Answer};
///
/// // Version 1, 86 bytes.
/// let mut table = [0; 86];
/// table[1] = 1;
/// table[4..8].copy_from_slice(&[1, 144, 0, 5]);
/// table[78] = 0x80; // the first byte of the first field
/// assert_eq!(os2::code_page_bit(&table, 5, 31), Ok(Answer::Value(true)));
/// assert_eq!(os2::code_page_bit(&table, 0, 31), Ok(Answer::NotKnown));
///
/// // Version 0 has no code pages, however long the table is.
/// table[1] = 0;
/// assert_eq!(os2::code_page_bit(&table, 5, 31), Ok(Answer::Absent));
/// ```
pub fn code_page_bit(table: &[u8], level: u32, number: u32) -> Result<Answer<bool>, Refusal> {
    bit(raw::os2_code_page_bit(table, level, number))
}

/// What the font's licence allows. Not known where the table's version is above the level.
///
/// # Errors
///
/// In this order: [`Refusal::UnknownLevel`], [`Refusal::Os2TooShort`], [`Refusal::ValueRule`].
///
/// # Examples
///
/// ```
/// use gyalvindor::os2::{self, Rights};
/// use gyalvindor::{Answer, Refusal, Rule};
///
/// // Version 2, 96 bytes.
/// let mut table = [0; 96];
/// table[1] = 2;
/// table[4..8].copy_from_slice(&[1, 144, 0, 5]);
/// assert_eq!(os2::rights(&table, 5), Ok(Answer::Value(Rights::Installable)));
/// table[9] = 0x06;
/// assert_eq!(os2::rights(&table, 5), Ok(Answer::Value(Rights::Preview)));
/// table[9] = 0x0C;
/// assert_eq!(os2::rights(&table, 5), Ok(Answer::Value(Rights::Editable)));
/// assert_eq!(os2::rights(&table, 1), Ok(Answer::NotKnown));
///
/// // From version 3 on the bits exclude each other.
/// table[1] = 3;
/// assert_eq!(os2::rights(&table, 5), Err(Refusal::ValueRule(Rule::OneRight)));
/// ```
pub fn rights(table: &[u8], level: u32) -> Result<Answer<Rights>, Refusal> {
    let raw = raw::os2_rights(table, level);
    answer(raw.refusal, raw.kind, || match raw.rights {
        0 => Rights::Installable,
        1 => Rights::Restricted,
        2 => Rights::Preview,
        3 => Rights::Editable,
        rights => unreachable!("the library knows no rights {rights}"),
    })
}

/// The weight, and the width in percent. Not known where the table's version is above the level.
///
/// # Errors
///
/// In this order: [`Refusal::UnknownLevel`], [`Refusal::Os2TooShort`], [`Refusal::ValueRule`].
///
/// # Examples
///
/// ```
/// use gyalvindor::os2::{self, StylePosition};
/// use gyalvindor::Answer;
///
/// let mut table = [0; 78];
/// table[4..8].copy_from_slice(&[1, 144, 0, 4]); // weight 400, width 4
/// assert_eq!(
///     os2::style_position(&table, 5),
///     Ok(Answer::Value(StylePosition { weight: 400.0, width: 87.5 }))
/// );
/// ```
pub fn style_position(table: &[u8], level: u32) -> Result<Answer<StylePosition>, Refusal> {
    let raw = raw::os2_style_position(table, level);
    answer(raw.refusal, raw.kind, || StylePosition {
        weight: raw.weight,
        width: raw.width,
    })
}

/// The sizes that the face is meant for. They came in with version 5; not known at lower levels, and where the table's
/// version is above the level.
///
/// # Errors
///
/// In this order: [`Refusal::UnknownLevel`], [`Refusal::Os2TooShort`], [`Refusal::ValueRule`].
///
/// # Examples
///
/// ```
/// use gyalvindor::os2::{self, OpticalSizes};
/// use gyalvindor::{Answer, Refusal, Rule};
///
/// // Version 5, 100 bytes; sizes are stored in twentieths of a point.
/// let mut table = [0; 100];
/// table[1] = 5;
/// table[4..8].copy_from_slice(&[1, 144, 0, 5]);
/// table[96..100].copy_from_slice(&[0, 130, 0, 240]);
/// assert_eq!(os2::optical_sizes(&table, 5), Ok(Answer::Value(OpticalSizes::Between(6.5, 12.0))));
/// table[98..100].copy_from_slice(&[255, 255]);
/// assert_eq!(os2::optical_sizes(&table, 5), Ok(Answer::Value(OpticalSizes::Upwards(6.5))));
/// table[96..98].copy_from_slice(&[0, 0]);
/// assert_eq!(os2::optical_sizes(&table, 5), Ok(Answer::Value(OpticalSizes::Every)));
/// assert_eq!(os2::optical_sizes(&table, 4), Ok(Answer::NotKnown));
/// table[98..100].copy_from_slice(&[0, 0]);
/// assert_eq!(os2::optical_sizes(&table, 5), Err(Refusal::ValueRule(Rule::OpticalSizes)));
/// ```
pub fn optical_sizes(table: &[u8], level: u32) -> Result<Answer<OpticalSizes>, Refusal> {
    let raw = raw::os2_optical_sizes(table, level);
    answer(raw.refusal, raw.kind, || match raw.sizes {
        1 => OpticalSizes::Every,
        2 => OpticalSizes::Upwards(raw.lower),
        3 => OpticalSizes::Between(raw.lower, raw.upper),
        sizes => unreachable!("the library knows no optical sizes {sizes}"),
    })
}

/// Writes the table of 48 numbers at the start of the room and answers its size. Number 0 is the version, 0 to 5.
///
/// The size is 78 bytes (version 0), 86 (1), 96 (2, 3, 4) or 100 (5). No byte after it is touched. Numbers for fields that
/// the version lacks are not looked at.
///
/// # Errors
///
/// In this order: [`Refusal::UnknownVersion`], [`Refusal::RoomTooShort`], [`Refusal::ValueMisfit`],
/// [`Refusal::ValueRule`]. The room then holds what it held.
///
/// # Examples
///
/// ```
/// use gyalvindor::os2::{self, fields};
/// use gyalvindor::{Answer, Refusal};
///
/// let mut numbers = [0; os2::FIELD_COUNT];
/// numbers[fields::VERSION as usize] = 4;
/// numbers[fields::WEIGHT as usize] = 400;
/// numbers[fields::WIDTH as usize] = 5;
/// numbers[fields::TYPO_DESCENDER as usize] = -250;
///
/// let mut room = [0xEE; 100];
/// let size = os2::write(&numbers, &mut room)?;
/// assert_eq!(size, 96);
/// assert_eq!(room[96..], [0xEE; 4]);
/// assert_eq!(
///     os2::field(&room[..size], os2::NEWEST, fields::TYPO_DESCENDER)?,
///     Answer::Value(-250)
/// );
///
/// numbers[fields::TYPO_DESCENDER as usize] = -32_769;
/// assert_eq!(os2::write(&numbers, &mut room), Err(Refusal::ValueMisfit { field: 35 }));
/// # Ok::<(), Refusal>(())
/// ```
pub fn write(numbers: &[i64; FIELD_COUNT], room: &mut [u8]) -> Result<usize, Refusal> {
    Refusal::written(raw::os2_write(numbers, room))
}

/// Reads the table at level 5 and writes its fields at the start of the room: the same bytes, up to its version's size, which
/// is the answer. No byte after it is touched.
///
/// # Errors
///
/// In this order: [`Refusal::Os2TooShort`], [`Refusal::ValueRule`], [`Refusal::UnknownVersion`],
/// [`Refusal::RoomTooShort`]. The room then holds what it held.
///
/// # Examples
///
/// ```
/// use gyalvindor::{os2, Refusal};
///
/// // Version 0 with two bytes more than it needs.
/// let mut table = [0; 80];
/// table[4..8].copy_from_slice(&[1, 144, 0, 5]);
/// table[78..].copy_from_slice(&[9, 9]);
///
/// let mut room = [0xEE; 80];
/// assert_eq!(os2::rewrite(&table, &mut room), Ok(78));
/// assert_eq!(room[..78], table[..78]);
/// assert_eq!(room[78..], [0xEE; 2]);
///
/// assert_eq!(os2::rewrite(&table, &mut room[..77]), Err(Refusal::RoomTooShort));
/// ```
pub fn rewrite(table: &[u8], room: &mut [u8]) -> Result<usize, Refusal> {
    Refusal::written(raw::os2_rewrite(table, room))
}

/// A field in which two tables differ: a row of [`compare`].
#[repr(C)]
#[derive(Clone, Copy, Debug, PartialEq, Eq, Hash)]
pub struct Difference {
    field: i64,
    left_kind: i64,
    left_value: i64,
    right_kind: i64,
    right_value: i64,
}

impl Difference {
    /// A row to make room with. It is no difference until [`compare`] has written it.
    pub const ROOM: Difference = Difference {
        field: 0,
        left_kind: 3,
        left_value: 0,
        right_kind: 3,
        right_value: 0,
    };

    /// The field's number, 0 to 47.
    pub const fn field(self) -> u32 {
        self.field as u32
    }

    /// What [`field`] answers for it on the left table.
    pub const fn left(self) -> Answer<i64> {
        told(self.left_kind, self.left_value)
    }

    /// What [`field`] answers for it on the right table.
    pub const fn right(self) -> Answer<i64> {
        told(self.right_kind, self.right_value)
    }
}

/// The answer of a row: 1 a value, 2 absent. No row that the library writes has a field that is not known.
const fn told(kind: i64, value: i64) -> Answer<i64> {
    match kind {
        1 => Answer::Value(value),
        2 => Answer::Absent,
        _ => Answer::NotKnown,
    }
}

/// The fields in which two tables differ at a level, in the order of their numbers: those for which [`field`] gives different
/// answers. Absent is another answer than a value. A field that came in after the level is not known on both sides, so it is
/// not listed. They are written into the first rows, and these rows are the answer; the other rows hold what they held.
/// [`FIELD_COUNT`] rows are always enough.
///
/// # Errors
///
/// [`Refusal::UnknownLevel`] first; then the refusal of the left table, as [`check`] gives it, then that of the right one, each
/// with its side; then [`Refusal::TooManyDifferences`], where there are fewer rows than differences. The rows then hold what
/// they held.
///
/// # Examples
///
/// ```
/// use gyalvindor::os2::{self, fields, Difference};
/// use gyalvindor::{Answer, CompareRefusal, Refusal, Side};
///
/// // Version 0, and version 1 with another weight and code pages that are 0.
/// let mut left = [0; 78];
/// left[4..8].copy_from_slice(&[1, 144, 0, 5]);
/// let mut right = [0; 86];
/// right[1] = 1;
/// right[4..8].copy_from_slice(&[2, 188, 0, 5]);
///
/// let mut room = [Difference::ROOM; os2::FIELD_COUNT];
/// let rows = os2::compare(&left, &right, os2::NEWEST, &mut room)?;
/// let said: Vec<_> = rows.iter().map(|row| (row.field(), row.left(), row.right())).collect();
/// assert_eq!(
///     said,
///     [
///         (fields::VERSION, Answer::Value(0), Answer::Value(1)),
///         (fields::WEIGHT, Answer::Value(400), Answer::Value(700)),
///         (39, Answer::Absent, Answer::Value(0)),
///         (40, Answer::Absent, Answer::Value(0)),
///     ]
/// );
///
/// // A level 0 reader does not know code pages.
/// assert_eq!(os2::compare(&left, &right, 0, &mut room)?.len(), 2);
///
/// let refused = os2::compare(&left, &right[..85], 5, &mut room).unwrap_err();
/// assert_eq!((refused.side, refused.refusal), (Some(Side::Right), Refusal::Os2TooShort));
/// # Ok::<(), CompareRefusal>(())
/// ```
pub fn compare<'a>(
    left: &[u8],
    right: &[u8],
    level: u32,
    rows: &'a mut [Difference],
) -> Result<&'a [Difference], CompareRefusal> {
    let count = CompareRefusal::checked(raw::os2_compare(left, right, level, rows))?;
    Ok(&rows[..count])
}

/// The answer of a kind: 1 a value, 2 absent, 3 not known.
fn answer<T>(
    refusal: raw::Refusal,
    kind: u32,
    value: impl FnOnce() -> T,
) -> Result<Answer<T>, Refusal> {
    Refusal::checked(refusal)?;
    Ok(match kind {
        1 => Answer::Value(value()),
        2 => Answer::Absent,
        3 => Answer::NotKnown,
        _ => unreachable!("the library knows no answer of kind {kind}"),
    })
}

fn whole(raw: raw::Number) -> Result<Answer<i64>, Refusal> {
    answer(raw.refusal, raw.kind, || raw.value)
}

fn bit(raw: raw::Number) -> Result<Answer<bool>, Refusal> {
    answer(raw.refusal, raw.kind, || raw.value != 0)
}
