//! The archive's functions as C sees them, and one safe function for each.
//!
//! The layouts and the order of the members are those of `include/gyalvindor.h`. This is the only module with unsafe code.
//!
//! What makes every call below sound is the same. A slice lends `len()` bytes or entries that nobody changes (or, for the
//! room, that nobody else touches) until the call is over, and its pointer is never null, also where the slice is empty. The
//! library reads only the tables, the 48 numbers, the entries, the pool and the family, writes only the room, keeps no
//! pointer, and answers whatever the bytes and numbers are. A rack is passed by value, and any numbers make one.

use core::mem::{align_of, size_of};

use crate::{name, os2, rack};

/// `gv_refusal`.
#[repr(C)]
#[derive(Clone, Copy)]
pub(crate) struct Refusal {
    pub(crate) number: u32,
    pub(crate) carries: u32,
    pub(crate) carried: usize,
}

/// `gv_text`.
#[repr(C)]
#[derive(Clone, Copy)]
pub(crate) struct Text {
    pub(crate) refusal: Refusal,
    pub(crate) start: usize,
    pub(crate) length: usize,
    pub(crate) record: usize,
}

/// `gv_found`.
#[repr(C)]
#[derive(Clone, Copy)]
pub(crate) struct Found {
    pub(crate) refusal: Refusal,
    pub(crate) start: usize,
    pub(crate) length: usize,
    pub(crate) record: usize,
    pub(crate) looked: usize,
}

/// `gv_version`.
#[repr(C)]
#[derive(Clone, Copy)]
pub(crate) struct Version {
    pub(crate) refusal: Refusal,
    pub(crate) major: u32,
    pub(crate) minor: u32,
    pub(crate) record: usize,
}

/// `gv_number`.
#[repr(C)]
#[derive(Clone, Copy)]
pub(crate) struct Number {
    pub(crate) refusal: Refusal,
    pub(crate) kind: u32,
    pub(crate) value: i64,
}

/// `gv_rights`.
#[repr(C)]
#[derive(Clone, Copy)]
pub(crate) struct Rights {
    pub(crate) refusal: Refusal,
    pub(crate) kind: u32,
    pub(crate) rights: u32,
}

/// `gv_style`.
#[repr(C)]
#[derive(Clone, Copy)]
pub(crate) struct Style {
    pub(crate) refusal: Refusal,
    pub(crate) kind: u32,
    pub(crate) weight: f32,
    pub(crate) width: f32,
}

/// `gv_optical`.
#[repr(C)]
#[derive(Clone, Copy)]
pub(crate) struct Optical {
    pub(crate) refusal: Refusal,
    pub(crate) kind: u32,
    pub(crate) sizes: u32,
    pub(crate) lower: f32,
    pub(crate) upper: f32,
}

/// `gv_written`.
#[repr(C)]
#[derive(Clone, Copy)]
pub(crate) struct Written {
    pub(crate) refusal: Refusal,
    pub(crate) size: usize,
}

/// `gv_compared`.
#[repr(C)]
#[derive(Clone, Copy)]
pub(crate) struct Compared {
    pub(crate) refusal: Refusal,
    pub(crate) side: u32,
    pub(crate) rows: usize,
}

/// `gv_slot`.
#[repr(C)]
#[derive(Clone, Copy)]
pub(crate) struct Slot {
    pub(crate) weight: u16,
    pub(crate) width: u16,
    pub(crate) sloped: u16,
    pub(crate) length: u16,
    pub(crate) family: [u8; rack::FAMILY_BYTES],
}

/// `gv_rack`. Not `Copy`: it has 2,304 bytes.
#[repr(C)]
#[derive(Clone)]
pub(crate) struct Rack {
    pub(crate) slots: [Slot; rack::SLOTS as usize],
}

/// `gv_loaded`.
#[repr(C)]
pub(crate) struct Loaded {
    pub(crate) refusal: Refusal,
    pub(crate) rack: Rack,
}

/// `gv_chosen`.
#[repr(C)]
#[derive(Clone, Copy)]
pub(crate) struct Chosen {
    pub(crate) refusal: Refusal,
    pub(crate) slot: u32,
}

// A row is five numbers and nothing else, so rows lent are numbers lent.
const _: () = assert!(size_of::<os2::Difference>() == 5 * size_of::<i64>());
const _: () = assert!(align_of::<os2::Difference>() == align_of::<i64>());
const _: () = assert!(size_of::<name::Difference>() == 5 * size_of::<u16>());
const _: () = assert!(align_of::<name::Difference>() == align_of::<u16>());

// An entry is `gv_entry`: four 16-bit numbers, a word, and a 16-bit number.
const _: () = assert!(size_of::<name::Entry>() == 24);
const _: () = assert!(align_of::<name::Entry>() == align_of::<usize>());

// A rack is `gv_rack`: 32 slots of four 16-bit numbers and 64 bytes.
const _: () = assert!(size_of::<Rack>() == 32 * 72);
const _: () = assert!(align_of::<Rack>() == align_of::<u16>());

// SAFETY: these are the twenty-one functions of `include/gyalvindor.h`, with the types given there.
unsafe extern "C" {
    fn gv_name_check(table: *const u8, length: usize) -> Refusal;
    fn gv_name_lookup(
        table: *const u8,
        length: usize,
        platform: u32,
        encoding: u32,
        language: u32,
        name: u32,
    ) -> Found;
    fn gv_name_postscript(table: *const u8, length: usize) -> Text;
    fn gv_name_version(table: *const u8, length: usize) -> Version;
    fn gv_os2_check(table: *const u8, length: usize, level: u32) -> Refusal;
    fn gv_os2_field(table: *const u8, length: usize, level: u32, number: u32) -> Number;
    fn gv_os2_selection_bit(table: *const u8, length: usize, level: u32, number: u32) -> Number;
    fn gv_os2_unicode_bit(table: *const u8, length: usize, level: u32, number: u32) -> Number;
    fn gv_os2_code_page_bit(table: *const u8, length: usize, level: u32, number: u32) -> Number;
    fn gv_os2_rights(table: *const u8, length: usize, level: u32) -> Rights;
    fn gv_os2_style_position(table: *const u8, length: usize, level: u32) -> Style;
    fn gv_os2_optical_sizes(table: *const u8, length: usize, level: u32) -> Optical;
    fn gv_os2_write(numbers: *const i64, room: *mut u8, length: usize) -> Written;
    fn gv_os2_rewrite(
        table: *const u8,
        table_length: usize,
        room: *mut u8,
        length: usize,
    ) -> Written;
    fn gv_name_write(
        entries: *const name::Entry,
        count: usize,
        pool: *const u8,
        pool_length: usize,
        room: *mut u8,
        length: usize,
    ) -> Written;
    fn gv_os2_compare(
        left: *const u8,
        left_length: usize,
        right: *const u8,
        right_length: usize,
        level: u32,
        room: *mut i64,
        numbers: usize,
    ) -> Compared;
    fn gv_name_compare(
        left: *const u8,
        left_length: usize,
        right: *const u8,
        right_length: usize,
        room: *mut u16,
        numbers: usize,
    ) -> Compared;
    fn gv_rack_empty() -> Rack;
    fn gv_rack_load(
        rack: Rack,
        slot: u32,
        level: u32,
        os2: *const u8,
        os2_length: usize,
        name: *const u8,
        name_length: usize,
    ) -> Loaded;
    fn gv_rack_unload(rack: Rack, slot: u32) -> Loaded;
    fn gv_rack_request(
        rack: Rack,
        family: *const u8,
        length: usize,
        weight: u32,
        width: u32,
        slope: u32,
    ) -> Chosen;
}

pub(crate) fn name_check(table: &[u8]) -> Refusal {
    // SAFETY: the slice lends `len()` readable bytes from a pointer that is not null.
    unsafe { gv_name_check(table.as_ptr(), table.len()) }
}

pub(crate) fn name_lookup(table: &[u8], key: [u32; 4]) -> Found {
    let [platform, encoding, language, name] = key;
    // SAFETY: the slice lends `len()` readable bytes from a pointer that is not null; any four numbers may be asked for.
    unsafe {
        gv_name_lookup(
            table.as_ptr(),
            table.len(),
            platform,
            encoding,
            language,
            name,
        )
    }
}

pub(crate) fn name_postscript(table: &[u8]) -> Text {
    // SAFETY: the slice lends `len()` readable bytes from a pointer that is not null.
    unsafe { gv_name_postscript(table.as_ptr(), table.len()) }
}

pub(crate) fn name_version(table: &[u8]) -> Version {
    // SAFETY: the slice lends `len()` readable bytes from a pointer that is not null.
    unsafe { gv_name_version(table.as_ptr(), table.len()) }
}

pub(crate) fn os2_check(table: &[u8], level: u32) -> Refusal {
    // SAFETY: the slice lends `len()` readable bytes from a pointer that is not null; any level may be given.
    unsafe { gv_os2_check(table.as_ptr(), table.len(), level) }
}

pub(crate) fn os2_field(table: &[u8], level: u32, number: u32) -> Number {
    // SAFETY: the slice lends `len()` readable bytes from a pointer that is not null; any level and number may be given.
    unsafe { gv_os2_field(table.as_ptr(), table.len(), level, number) }
}

pub(crate) fn os2_selection_bit(table: &[u8], level: u32, number: u32) -> Number {
    // SAFETY: the slice lends `len()` readable bytes from a pointer that is not null; any level and number may be given.
    unsafe { gv_os2_selection_bit(table.as_ptr(), table.len(), level, number) }
}

pub(crate) fn os2_unicode_bit(table: &[u8], level: u32, number: u32) -> Number {
    // SAFETY: the slice lends `len()` readable bytes from a pointer that is not null; any level and number may be given.
    unsafe { gv_os2_unicode_bit(table.as_ptr(), table.len(), level, number) }
}

pub(crate) fn os2_code_page_bit(table: &[u8], level: u32, number: u32) -> Number {
    // SAFETY: the slice lends `len()` readable bytes from a pointer that is not null; any level and number may be given.
    unsafe { gv_os2_code_page_bit(table.as_ptr(), table.len(), level, number) }
}

pub(crate) fn os2_rights(table: &[u8], level: u32) -> Rights {
    // SAFETY: the slice lends `len()` readable bytes from a pointer that is not null; any level may be given.
    unsafe { gv_os2_rights(table.as_ptr(), table.len(), level) }
}

pub(crate) fn os2_style_position(table: &[u8], level: u32) -> Style {
    // SAFETY: the slice lends `len()` readable bytes from a pointer that is not null; any level may be given.
    unsafe { gv_os2_style_position(table.as_ptr(), table.len(), level) }
}

pub(crate) fn os2_optical_sizes(table: &[u8], level: u32) -> Optical {
    // SAFETY: the slice lends `len()` readable bytes from a pointer that is not null; any level may be given.
    unsafe { gv_os2_optical_sizes(table.as_ptr(), table.len(), level) }
}

pub(crate) fn os2_write(numbers: &[i64; 48], room: &mut [u8]) -> Written {
    // SAFETY: the array lends exactly the 48 numbers that are read. The room lends `len()` writable bytes that nothing else
    // refers to, from a pointer that is not null, so it cannot overlap the numbers.
    unsafe { gv_os2_write(numbers.as_ptr(), room.as_mut_ptr(), room.len()) }
}

pub(crate) fn os2_rewrite(table: &[u8], room: &mut [u8]) -> Written {
    // SAFETY: the table lends `len()` readable bytes. The room lends `len()` writable bytes that nothing else refers to, so
    // it does not overlap the table. Neither pointer is null.
    unsafe { gv_os2_rewrite(table.as_ptr(), table.len(), room.as_mut_ptr(), room.len()) }
}

pub(crate) fn name_write(entries: &[name::Entry], pool: &[u8], room: &mut [u8]) -> Written {
    // SAFETY: the entries lend `len()` readable structs of `gv_entry`'s layout, the pool `len()` readable bytes. The room lends
    // `len()` writable bytes that nothing else refers to, so it overlaps neither. No pointer is null, and any numbers make an
    // entry.
    unsafe {
        gv_name_write(
            entries.as_ptr(),
            entries.len(),
            pool.as_ptr(),
            pool.len(),
            room.as_mut_ptr(),
            room.len(),
        )
    }
}

pub(crate) fn os2_compare(
    left: &[u8],
    right: &[u8],
    level: u32,
    rows: &mut [os2::Difference],
) -> Compared {
    // SAFETY: each table lends `len()` readable bytes. A row is `repr(C)` with five `i64` and nothing else, so the rows lend
    // five times `len()` writable numbers, which nothing else refers to; any numbers make a row. No pointer is null, and any
    // level may be given.
    unsafe {
        gv_os2_compare(
            left.as_ptr(),
            left.len(),
            right.as_ptr(),
            right.len(),
            level,
            rows.as_mut_ptr().cast(),
            5 * rows.len(),
        )
    }
}

pub(crate) fn name_compare(left: &[u8], right: &[u8], rows: &mut [name::Difference]) -> Compared {
    // SAFETY: as above; a row is `repr(C)` with five `u16` and nothing else.
    unsafe {
        gv_name_compare(
            left.as_ptr(),
            left.len(),
            right.as_ptr(),
            right.len(),
            rows.as_mut_ptr().cast(),
            5 * rows.len(),
        )
    }
}

pub(crate) fn rack_empty() -> Rack {
    // SAFETY: nothing is lent.
    unsafe { gv_rack_empty() }
}

pub(crate) fn rack_load(rack: &Rack, slot: u32, level: u32, os2: &[u8], name: &[u8]) -> Loaded {
    // SAFETY: each table lends `len()` readable bytes from a pointer that is not null. The rack is passed by value; any slot
    // and level may be given.
    unsafe {
        gv_rack_load(
            rack.clone(),
            slot,
            level,
            os2.as_ptr(),
            os2.len(),
            name.as_ptr(),
            name.len(),
        )
    }
}

pub(crate) fn rack_unload(rack: &Rack, slot: u32) -> Loaded {
    // SAFETY: nothing is lent, and the rack is passed by value; any slot may be given.
    unsafe { gv_rack_unload(rack.clone(), slot) }
}

pub(crate) fn rack_request(
    rack: &Rack,
    family: &[u8],
    weight: u32,
    width: u32,
    slope: u32,
) -> Chosen {
    // SAFETY: the family lends `len()` readable bytes from a pointer that is not null. The rack is passed by value; any three
    // numbers may be given.
    unsafe {
        gv_rack_request(
            rack.clone(),
            family.as_ptr(),
            family.len(),
            weight,
            width,
            slope,
        )
    }
}
