//! The archive's answers, word by word, through an extern block of its own that follows `include/gyalvindor.h`. So members
//! that a caller is not meant to look at are seen too.

use std::mem::size_of;

use crate::question::{Question, Words};

#[repr(C)]
struct Refusal {
    number: u32,
    carries: u32,
    carried: usize,
}

#[repr(C)]
struct Text {
    refusal: Refusal,
    start: usize,
    length: usize,
    record: usize,
}

/// What a lookup answers.
#[repr(C)]
struct Found {
    refusal: Refusal,
    start: usize,
    length: usize,
    record: usize,
    looked: usize,
}

#[repr(C)]
struct Version {
    refusal: Refusal,
    major: u32,
    minor: u32,
    record: usize,
}

#[repr(C)]
struct Number {
    refusal: Refusal,
    kind: u32,
    value: i64,
}

#[repr(C)]
struct Rights {
    refusal: Refusal,
    kind: u32,
    rights: u32,
}

#[repr(C)]
struct Style {
    refusal: Refusal,
    kind: u32,
    weight: f32,
    width: f32,
}

#[repr(C)]
struct Optical {
    refusal: Refusal,
    kind: u32,
    sizes: u32,
    lower: f32,
    upper: f32,
}

#[repr(C)]
struct Written {
    refusal: Refusal,
    size: usize,
}

#[repr(C)]
struct Compared {
    refusal: Refusal,
    side: u32,
    rows: usize,
}

/// A slot of a rack.
#[repr(C)]
#[derive(Clone, Copy, Debug, PartialEq, Eq)]
pub struct Slot {
    pub weight: u16,
    pub width: u16,
    pub sloped: u16,
    pub length: u16,
    pub family: [u8; FAMILY_BYTES],
}

/// A rack, which is passed and returned by value.
#[repr(C)]
#[derive(Clone, Copy, Debug, PartialEq, Eq)]
pub struct Rack {
    pub slots: [Slot; SLOTS],
}

/// How many slots a rack has, and how many bytes of a family a slot has room for.
pub const SLOTS: usize = 32;
pub const FAMILY_BYTES: usize = 64;
// A slot's bytes are those of its members.
const _: () = assert!(size_of::<Slot>() == 72 && size_of::<Rack>() == SLOTS * 72);

#[repr(C)]
struct Loaded {
    refusal: Refusal,
    rack: Rack,
}

#[repr(C)]
struct Chosen {
    refusal: Refusal,
    slot: u32,
}

/// An entry to write. The bytes that stand behind its last member, and that mean nothing, can be filled here.
#[repr(C)]
#[derive(Clone, Copy, PartialEq)]
pub struct Entry {
    pub platform: u16,
    pub encoding: u16,
    pub language: u16,
    pub name: u16,
    pub start: usize,
    pub length: u16,
    pub rest: [u8; REST],
}

/// How many bytes stand there: an entry's length is a multiple of its start's.
pub const REST: usize = size_of::<usize>() - size_of::<u16>();
const _: () = assert!(size_of::<Entry>() == 8 + 2 * size_of::<usize>());

extern "C" {
    fn gv_name_check(table: *const u8, length: usize) -> Refusal;
    fn gv_name_lookup(table: *const u8, length: usize, p: u32, e: u32, l: u32, n: u32) -> Found;
    fn gv_name_postscript(table: *const u8, length: usize) -> Text;
    fn gv_name_version(table: *const u8, length: usize) -> Version;
    fn gv_os2_check(table: *const u8, length: usize, level: u32) -> Refusal;
    fn gv_os2_field(table: *const u8, length: usize, level: u32, number: u32) -> Number;
    fn gv_os2_selection_bit(table: *const u8, length: usize, level: u32, number: u32) -> Number;
    fn gv_os2_unicode_bit(table: *const u8, length: usize, level: u32, number: u32) -> Number;
    fn gv_os2_code_page_bit(table: *const u8, length: usize, level: u32, number: u32) -> Number;
    fn gv_os2_rights(table: *const u8, length: usize, level: u32) -> Rights;
    fn gv_os2_style_position(table: *const u8, length: usize, level: u32) -> Style;
    fn gv_os2_optical_sizes(table: *const u8, length: usize, level: u32) -> Optical;
    fn gv_os2_write(numbers: *const i64, room: *mut u8, length: usize) -> Written;
    fn gv_os2_rewrite(table: *const u8, size: usize, room: *mut u8, length: usize) -> Written;
    fn gv_name_write(
        entries: *const Entry,
        count: usize,
        pool: *const u8,
        pool_length: usize,
        room: *mut u8,
        length: usize,
    ) -> Written;
    fn gv_os2_compare(
        left: *const u8,
        left_length: usize,
        right: *const u8,
        right_length: usize,
        level: u32,
        room: *mut i64,
        numbers: usize,
    ) -> Compared;
    fn gv_name_compare(
        left: *const u8,
        left_length: usize,
        right: *const u8,
        right_length: usize,
        room: *mut u16,
        numbers: usize,
    ) -> Compared;
    fn gv_rack_empty() -> Rack;
    fn gv_rack_load(
        rack: Rack,
        slot: u32,
        level: u32,
        os2: *const u8,
        os2_length: usize,
        name: *const u8,
        name_length: usize,
    ) -> Loaded;
    fn gv_rack_unload(rack: Rack, slot: u32) -> Loaded;
    fn gv_rack_request(
        rack: Rack,
        family: *const u8,
        length: usize,
        weight: u32,
        width: u32,
        slope: u32,
    ) -> Chosen;
}

/// The words of an answer that has only a refusal.
fn bare(refusal: Refusal) -> Words {
    with(refusal, [0; 4])
}

/// The words of an answer: the refusal's three, then the members after it.
fn with(refusal: Refusal, members: [u64; 4]) -> Words {
    let [a, b, c, d] = members;
    [
        u64::from(refusal.number),
        u64::from(refusal.carries),
        refusal.carried as u64,
        a,
        b,
        c,
        d,
    ]
}

fn text(t: Text) -> Words {
    let Text {
        refusal,
        start,
        length,
        record,
    } = t;
    with(refusal, [start as u64, length as u64, record as u64, 0])
}

fn found(f: Found) -> Words {
    let members = [f.start, f.length, f.record, f.looked];
    with(f.refusal, members.map(|member| member as u64))
}

fn number(n: Number) -> Words {
    with(n.refusal, [u64::from(n.kind), n.value as u64, 0, 0])
}

/// The words that the archive answers to a question on a table.
pub fn words(table: &[u8], question: Question) -> Words {
    let (bytes, length) = (table.as_ptr(), table.len());
    // SAFETY: `bytes` points at `length` readable bytes and is not null, also where the slice is empty. The functions read
    // those bytes only, keep no pointer, and take any levels and numbers.
    unsafe {
        match question {
            Question::NameCheck => bare(gv_name_check(bytes, length)),
            Question::Lookup([p, e, l, n]) => found(gv_name_lookup(bytes, length, p, e, l, n)),
            Question::PostScript => text(gv_name_postscript(bytes, length)),
            Question::Version => {
                let v = gv_name_version(bytes, length);
                let (major, minor) = (u64::from(v.major), u64::from(v.minor));
                with(v.refusal, [major, minor, v.record as u64, 0])
            }
            Question::Os2Check(level) => bare(gv_os2_check(bytes, length, level)),
            Question::Field(level, n) => number(gv_os2_field(bytes, length, level, n)),
            Question::SelectionBit(level, n) => {
                number(gv_os2_selection_bit(bytes, length, level, n))
            }
            Question::UnicodeBit(level, n) => number(gv_os2_unicode_bit(bytes, length, level, n)),
            Question::CodePageBit(level, n) => {
                number(gv_os2_code_page_bit(bytes, length, level, n))
            }
            Question::Rights(level) => {
                let r = gv_os2_rights(bytes, length, level);
                with(r.refusal, [u64::from(r.kind), u64::from(r.rights), 0, 0])
            }
            Question::StylePosition(level) => {
                let s = gv_os2_style_position(bytes, length, level);
                let (weight, width) = (s.weight.to_bits(), s.width.to_bits());
                with(
                    s.refusal,
                    [u64::from(s.kind), u64::from(weight), u64::from(width), 0],
                )
            }
            Question::OpticalSizes(level) => {
                let o = gv_os2_optical_sizes(bytes, length, level);
                let (lower, upper) = (o.lower.to_bits(), o.upper.to_bits());
                with(
                    o.refusal,
                    [
                        u64::from(o.kind),
                        u64::from(o.sizes),
                        u64::from(lower),
                        u64::from(upper),
                    ],
                )
            }
        }
    }
}

/// The words that the archive's writer answers.
pub fn write(numbers: &[i64; 48], room: &mut [u8]) -> Words {
    // SAFETY: the array lends 48 numbers, the room `len()` writable bytes that nothing else refers to; no pointer is null.
    let w = unsafe { gv_os2_write(numbers.as_ptr(), room.as_mut_ptr(), room.len()) };
    with(w.refusal, [w.size as u64, 0, 0, 0])
}

/// The words that the archive's rewriting answers.
pub fn rewrite(table: &[u8], room: &mut [u8]) -> Words {
    // SAFETY: the table lends `len()` readable bytes, the room `len()` writable bytes that nothing else refers to, so they
    // do not overlap; no pointer is null.
    let w = unsafe { gv_os2_rewrite(table.as_ptr(), table.len(), room.as_mut_ptr(), room.len()) };
    with(w.refusal, [w.size as u64, 0, 0, 0])
}

/// The words that the archive's writer of 'name' tables answers.
pub fn name_write(entries: &[Entry], pool: &[u8], room: &mut [u8]) -> Words {
    // SAFETY: the entries lend `len()` readable structs, the pool `len()` readable bytes, the room `len()` writable bytes that
    // nothing else refers to, so it overlaps neither; no pointer is null, and any numbers may stand in an entry.
    let w = unsafe {
        gv_name_write(
            entries.as_ptr(),
            entries.len(),
            pool.as_ptr(),
            pool.len(),
            room.as_mut_ptr(),
            room.len(),
        )
    };
    with(w.refusal, [w.size as u64, 0, 0, 0])
}

fn compared(c: Compared) -> Words {
    with(c.refusal, [u64::from(c.side), c.rows as u64, 0, 0])
}

/// The words that the archive answers to a comparison of two OS/2 tables.
pub fn os2_compare(level: u32, left: &[u8], right: &[u8], room: &mut [i64]) -> Words {
    // SAFETY: each table lends `len()` readable bytes, the room `len()` writable numbers that nothing else refers to, so it
    // does not overlap the tables; no pointer is null, and any level may be given.
    compared(unsafe {
        gv_os2_compare(
            left.as_ptr(),
            left.len(),
            right.as_ptr(),
            right.len(),
            level,
            room.as_mut_ptr(),
            room.len(),
        )
    })
}

/// The words that the archive answers to a comparison of two 'name' tables.
pub fn name_compare(left: &[u8], right: &[u8], room: &mut [u16]) -> Words {
    // SAFETY: as above.
    compared(unsafe {
        gv_name_compare(
            left.as_ptr(),
            left.len(),
            right.as_ptr(),
            right.len(),
            room.as_mut_ptr(),
            room.len(),
        )
    })
}

/// The archive's empty rack.
pub fn rack_empty() -> Rack {
    // SAFETY: the function takes nothing.
    unsafe { gv_rack_empty() }
}

/// The words that the archive answers to a load, and the rack after it.
pub fn rack_load(rack: &Rack, slot: u32, level: u32, os2: &[u8], name: &[u8]) -> (Words, Rack) {
    // SAFETY: each table lends `len()` readable bytes; no pointer is null. A rack may hold any numbers and bytes, and any slot
    // and level may be given.
    let loaded = unsafe {
        gv_rack_load(
            *rack,
            slot,
            level,
            os2.as_ptr(),
            os2.len(),
            name.as_ptr(),
            name.len(),
        )
    };
    (bare(loaded.refusal), loaded.rack)
}

/// The words that the archive answers to an unload, and the rack after it.
pub fn rack_unload(rack: &Rack, slot: u32) -> (Words, Rack) {
    // SAFETY: a rack may hold any numbers and bytes, and any slot may be given.
    let unloaded = unsafe { gv_rack_unload(*rack, slot) };
    (bare(unloaded.refusal), unloaded.rack)
}

/// The words that the archive answers to a request.
pub fn rack_request(rack: &Rack, family: &[u8], weight: u32, width: u32, slope: u32) -> Words {
    // SAFETY: the family lends `len()` readable bytes, and its pointer is not null. A rack may hold any numbers and bytes, and
    // any numbers may be asked for.
    let chosen =
        unsafe { gv_rack_request(*rack, family.as_ptr(), family.len(), weight, width, slope) };
    with(chosen.refusal, [u64::from(chosen.slot), 0, 0, 0])
}
