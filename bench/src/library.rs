//! The proved library, as `include/gyalvindor.h` declares it.

use crate::answers::{
    Answer, Compared, Entry, Face, LookedUp, Optical, Refusal, Request, Result, Text, Version,
    Written,
};

#[repr(C)]
#[derive(Clone, Copy)]
pub struct GvRefusal {
    number: u32,
    carries: u32,
    carried: usize,
}

#[repr(C)]
pub struct GvFound {
    refusal: GvRefusal,
    start: usize,
    length: usize,
    record: usize,
    looked: usize,
}

#[repr(C)]
pub struct GvText {
    refusal: GvRefusal,
    start: usize,
    length: usize,
    record: usize,
}

#[repr(C)]
pub struct GvVersion {
    refusal: GvRefusal,
    major: u32,
    minor: u32,
    record: usize,
}

#[repr(C)]
pub struct GvNumber {
    refusal: GvRefusal,
    kind: u32,
    value: i64,
}

#[repr(C)]
pub struct GvRights {
    refusal: GvRefusal,
    kind: u32,
    rights: u32,
}

#[repr(C)]
pub struct GvStyle {
    refusal: GvRefusal,
    kind: u32,
    weight: f32,
    width: f32,
}

#[repr(C)]
pub struct GvOptical {
    refusal: GvRefusal,
    kind: u32,
    sizes: u32,
    lower: f32,
    upper: f32,
}

#[repr(C)]
pub struct GvWritten {
    refusal: GvRefusal,
    size: usize,
}

#[repr(C)]
pub struct GvCompared {
    refusal: GvRefusal,
    side: u32,
    rows: usize,
}

#[repr(C)]
#[derive(Clone, Copy)]
pub struct GvSlot {
    weight: u16,
    width: u16,
    sloped: u16,
    length: u16,
    family: [u8; 64],
}

/// Aligned as C compilers align what they hand over by value, so that it is copied there in words of 8 bytes, as they copy it.
#[repr(C, align(8))]
#[derive(Clone, Copy)]
pub struct GvRack {
    slots: [GvSlot; 32],
}

#[repr(C)]
pub struct GvLoaded {
    pub refusal: GvRefusal,
    rack: GvRack,
}

impl GvLoaded {
    /// As a C program goes on: where the call is done, its rack is the one after it.
    #[inline]
    pub fn keep(&self, rack: &mut GvRack) {
        if self.refusal.number == 0 {
            *rack = self.rack;
        }
    }
}

#[repr(C)]
pub struct GvChosen {
    refusal: GvRefusal,
    slot: u32,
}

unsafe extern "C" {
    fn gv_name_check(table: *const u8, length: usize) -> GvRefusal;
    fn gv_name_lookup(
        table: *const u8,
        length: usize,
        platform: u32,
        encoding: u32,
        language: u32,
        name: u32,
    ) -> GvFound;
    fn gv_name_postscript(table: *const u8, length: usize) -> GvText;
    fn gv_name_version(table: *const u8, length: usize) -> GvVersion;
    fn gv_os2_check(table: *const u8, length: usize, level: u32) -> GvRefusal;
    fn gv_os2_field(table: *const u8, length: usize, level: u32, number: u32) -> GvNumber;
    fn gv_os2_selection_bit(table: *const u8, length: usize, level: u32, number: u32) -> GvNumber;
    fn gv_os2_unicode_bit(table: *const u8, length: usize, level: u32, number: u32) -> GvNumber;
    fn gv_os2_code_page_bit(table: *const u8, length: usize, level: u32, number: u32) -> GvNumber;
    fn gv_os2_rights(table: *const u8, length: usize, level: u32) -> GvRights;
    fn gv_os2_style_position(table: *const u8, length: usize, level: u32) -> GvStyle;
    fn gv_os2_optical_sizes(table: *const u8, length: usize, level: u32) -> GvOptical;
    fn gv_os2_write(numbers: *const i64, room: *mut u8, length: usize) -> GvWritten;
    fn gv_name_write(
        entries: *const Entry,
        count: usize,
        pool: *const u8,
        pool_length: usize,
        room: *mut u8,
        length: usize,
    ) -> GvWritten;
    fn gv_os2_compare(
        left: *const u8,
        left_length: usize,
        right: *const u8,
        right_length: usize,
        level: u32,
        room: *mut i64,
        numbers: usize,
    ) -> GvCompared;
    fn gv_name_compare(
        left: *const u8,
        left_length: usize,
        right: *const u8,
        right_length: usize,
        room: *mut u16,
        numbers: usize,
    ) -> GvCompared;
    fn gv_rack_empty() -> GvRack;
    fn gv_rack_load(
        rack: GvRack,
        slot: u32,
        level: u32,
        os2: *const u8,
        os2_length: usize,
        name: *const u8,
        name_length: usize,
    ) -> GvLoaded;
    fn gv_rack_unload(rack: GvRack, slot: u32) -> GvLoaded;
    fn gv_rack_request(
        rack: GvRack,
        family: *const u8,
        length: usize,
        weight: u32,
        width: u32,
        slope: u32,
    ) -> GvChosen;
}

/// The library's functions on slices, answering in its own words.
pub mod raw {
    use super::*;

    // In each: a slice's pointer and length are valid for reads, a mutable one's for writes, until the call ends, and the library keeps neither.

    #[inline]
    pub fn check(t: &[u8]) -> GvRefusal {
        unsafe { gv_name_check(t.as_ptr(), t.len()) }
    }

    #[inline]
    pub fn lookup(t: &[u8], key: [u16; 4]) -> GvFound {
        let [p, e, l, n] = key.map(u32::from);
        unsafe { gv_name_lookup(t.as_ptr(), t.len(), p, e, l, n) }
    }

    #[inline]
    pub fn postscript(t: &[u8]) -> GvText {
        unsafe { gv_name_postscript(t.as_ptr(), t.len()) }
    }

    #[inline]
    pub fn version(t: &[u8]) -> GvVersion {
        unsafe { gv_name_version(t.as_ptr(), t.len()) }
    }

    #[inline]
    pub fn check_os2(t: &[u8], level: u32) -> GvRefusal {
        unsafe { gv_os2_check(t.as_ptr(), t.len(), level) }
    }

    #[inline]
    pub fn field(t: &[u8], level: u32, number: u32) -> GvNumber {
        unsafe { gv_os2_field(t.as_ptr(), t.len(), level, number) }
    }

    #[inline]
    pub fn selection_bit(t: &[u8], level: u32, number: u32) -> GvNumber {
        unsafe { gv_os2_selection_bit(t.as_ptr(), t.len(), level, number) }
    }

    #[inline]
    pub fn unicode_bit(t: &[u8], level: u32, number: u32) -> GvNumber {
        unsafe { gv_os2_unicode_bit(t.as_ptr(), t.len(), level, number) }
    }

    #[inline]
    pub fn code_page_bit(t: &[u8], level: u32, number: u32) -> GvNumber {
        unsafe { gv_os2_code_page_bit(t.as_ptr(), t.len(), level, number) }
    }

    #[inline]
    pub fn rights(t: &[u8], level: u32) -> GvRights {
        unsafe { gv_os2_rights(t.as_ptr(), t.len(), level) }
    }

    #[inline]
    pub fn style_position(t: &[u8], level: u32) -> GvStyle {
        unsafe { gv_os2_style_position(t.as_ptr(), t.len(), level) }
    }

    #[inline]
    pub fn optical_sizes(t: &[u8], level: u32) -> GvOptical {
        unsafe { gv_os2_optical_sizes(t.as_ptr(), t.len(), level) }
    }

    #[inline]
    pub fn write(numbers: &[i64; 48], room: &mut [u8]) -> GvWritten {
        unsafe { gv_os2_write(numbers.as_ptr(), room.as_mut_ptr(), room.len()) }
    }

    #[inline]
    pub fn write_names(entries: &[Entry], pool: &[u8], room: &mut [u8]) -> GvWritten {
        unsafe {
            gv_name_write(
                entries.as_ptr(),
                entries.len(),
                pool.as_ptr(),
                pool.len(),
                room.as_mut_ptr(),
                room.len(),
            )
        }
    }

    #[inline]
    pub fn compare_os2(left: &[u8], right: &[u8], level: u32, room: &mut [i64]) -> GvCompared {
        unsafe {
            gv_os2_compare(
                left.as_ptr(),
                left.len(),
                right.as_ptr(),
                right.len(),
                level,
                room.as_mut_ptr(),
                room.len(),
            )
        }
    }

    #[inline]
    pub fn compare_names(left: &[u8], right: &[u8], room: &mut [u16]) -> GvCompared {
        unsafe {
            gv_name_compare(
                left.as_ptr(),
                left.len(),
                right.as_ptr(),
                right.len(),
                room.as_mut_ptr(),
                room.len(),
            )
        }
    }

    // The library is handed the rack by value, as C hands it.

    #[inline]
    pub fn empty() -> GvRack {
        unsafe { gv_rack_empty() }
    }

    #[inline]
    pub fn load(rack: &GvRack, slot: u32, level: u32, os2: &[u8], name: &[u8]) -> GvLoaded {
        unsafe {
            gv_rack_load(
                *rack,
                slot,
                level,
                os2.as_ptr(),
                os2.len(),
                name.as_ptr(),
                name.len(),
            )
        }
    }

    #[inline]
    pub fn unload(rack: &GvRack, slot: u32) -> GvLoaded {
        unsafe { gv_rack_unload(*rack, slot) }
    }

    #[inline]
    pub fn request(rack: &GvRack, r: &Request) -> GvChosen {
        unsafe {
            gv_rack_request(
                *rack,
                r.family.as_ptr(),
                r.family.len(),
                r.weight,
                r.width,
                u32::from(r.sloped),
            )
        }
    }
}

fn none_or<T>(refusal: GvRefusal, value: T) -> Result<T> {
    if refusal.number == 0 {
        Ok(value)
    } else {
        Err(Refusal {
            number: refusal.number,
            carried: refusal.carried as u32,
        })
    }
}

fn answer<T>(refusal: GvRefusal, kind: u32, value: T) -> Result<Answer<T>> {
    none_or(
        refusal,
        match kind {
            1 => Answer::Value(value),
            2 => Answer::Absent,
            _ => Answer::NotKnown,
        },
    )
}

// ---- the same answers in the words of `answers`, for the comparison before the timing

pub fn check(t: &[u8]) -> Result<()> {
    none_or(raw::check(t), ())
}

pub fn lookup(t: &[u8], key: [u16; 4]) -> LookedUp {
    let r = raw::lookup(t, key);
    LookedUp {
        answer: none_or(
            r.refusal,
            Text {
                start: r.start,
                length: r.length,
                record: r.record,
            },
        ),
        looked: r.looked,
    }
}

pub fn postscript(t: &[u8]) -> Result<Text> {
    let r = raw::postscript(t);
    none_or(
        r.refusal,
        Text {
            start: r.start,
            length: r.length,
            record: r.record,
        },
    )
}

pub fn version(t: &[u8]) -> Result<Version> {
    let r = raw::version(t);
    none_or(
        r.refusal,
        Version {
            major: r.major as u16,
            minor: r.minor as u16,
            record: r.record,
        },
    )
}

pub fn check_os2(t: &[u8], level: u32) -> Result<()> {
    none_or(raw::check_os2(t, level), ())
}

pub fn field(t: &[u8], level: u32, number: u32) -> Result<Answer<i64>> {
    let r = raw::field(t, level, number);
    answer(r.refusal, r.kind, r.value)
}

pub fn selection_bit(t: &[u8], level: u32, number: u32) -> Result<Answer<i64>> {
    let r = raw::selection_bit(t, level, number);
    answer(r.refusal, r.kind, r.value)
}

pub fn unicode_bit(t: &[u8], level: u32, number: u32) -> Result<Answer<i64>> {
    let r = raw::unicode_bit(t, level, number);
    answer(r.refusal, r.kind, r.value)
}

pub fn code_page_bit(t: &[u8], level: u32, number: u32) -> Result<Answer<i64>> {
    let r = raw::code_page_bit(t, level, number);
    answer(r.refusal, r.kind, r.value)
}

pub fn rights(t: &[u8], level: u32) -> Result<Answer<u32>> {
    let r = raw::rights(t, level);
    answer(r.refusal, r.kind, r.rights)
}

pub fn style_position(t: &[u8], level: u32) -> Result<Answer<(f32, f32)>> {
    let r = raw::style_position(t, level);
    answer(r.refusal, r.kind, (r.weight, r.width))
}

pub fn optical_sizes(t: &[u8], level: u32) -> Result<Answer<Optical>> {
    let r = raw::optical_sizes(t, level);
    let sizes = match r.sizes {
        2 => Optical::Upwards(r.lower),
        3 => Optical::Between(r.lower, r.upper),
        _ => Optical::Every,
    };
    answer(r.refusal, r.kind, sizes)
}

pub fn write(numbers: &[i64; 48], room: &mut [u8]) -> Written {
    let r = raw::write(numbers, room);
    none_or(r.refusal, r.size)
}

pub fn write_names(entries: &[Entry], pool: &[u8], room: &mut [u8]) -> Written {
    let r = raw::write_names(entries, pool, room);
    none_or(r.refusal, r.size)
}

fn compared(r: GvCompared) -> Compared {
    none_or(r.refusal, r.rows).map_err(|refusal| (r.side, refusal))
}

pub fn compare_os2(left: &[u8], right: &[u8], level: u32, room: &mut [i64]) -> Compared {
    compared(raw::compare_os2(left, right, level, room))
}

pub fn compare_names(left: &[u8], right: &[u8], room: &mut [u16]) -> Compared {
    compared(raw::compare_names(left, right, room))
}

/// The rack is the one that the library gives also where it refuses.
pub fn load(rack: &mut GvRack, slot: u32, level: u32, os2: &[u8], name: &[u8]) -> Result<()> {
    let loaded = raw::load(rack, slot, level, os2, name);
    *rack = loaded.rack;
    none_or(loaded.refusal, ())
}

/// The rack is the one that the library gives also where it refuses.
pub fn unload(rack: &mut GvRack, slot: u32) -> Result<()> {
    let loaded = raw::unload(rack, slot);
    *rack = loaded.rack;
    none_or(loaded.refusal, ())
}

pub fn request(rack: &GvRack, r: &Request) -> Result<u32> {
    let chosen = raw::request(rack, r);
    none_or(chosen.refusal, chosen.slot)
}

/// What each slot holds.
pub fn faces(rack: &GvRack) -> [Option<Face>; 32] {
    rack.slots.map(|slot| {
        (1..=64).contains(&slot.length).then(|| Face {
            weight: slot.weight,
            width: slot.width,
            sloped: slot.sloped != 0,
            family: slot.family[..usize::from(slot.length)].to_vec(),
        })
    })
}
