//! Tuned safe Rust: it loads whole words, the key as one number of 64 bits, a character is tested by one read in a table of 256, and
//! the writer fills bytes of its own.

use crate::answers::{Answer, LookedUp, Result, Text, Version, Written, refuse, refuse_at};
use crate::plain::{self, FIELDS};

fn u16_at(t: &[u8], at: usize) -> usize {
    u16::from_be_bytes([t[at], t[at + 1]]) as usize
}

fn key(record: &[u8]) -> u64 {
    u64::from_be_bytes(record[..8].try_into().expect("a record has twelve bytes"))
}

/// Where a record's or a tag's string ends, from its length and offset.
fn string_end(storage: usize, pair: &[u8]) -> usize {
    let pair = u32::from_be_bytes(pair.try_into().expect("length and offset have four bytes"));
    storage + (pair >> 16) as usize + (pair & 0xffff) as usize
}

#[inline(never)]
pub fn check(t: &[u8]) -> Result<()> {
    if t.len() < 6 {
        return refuse(10);
    }
    let format = u16_at(t, 0);
    if format > 1 {
        return refuse(11);
    }
    let storage = u16_at(t, 4);
    let Some((records, mut rest)) = t[6..].split_at_checked(12 * u16_at(t, 2)) else {
        return refuse(12);
    };
    let mut tags = &rest[..0];
    if format == 1 {
        if rest.len() < 2 {
            return refuse(13);
        }
        let Some((own, after)) = rest[2..].split_at_checked(4 * u16_at(rest, 0)) else {
            return refuse(13);
        };
        (tags, rest) = (own, after);
    }
    if storage < t.len() - rest.len() || t.len() < storage {
        return refuse(14);
    }
    // Below it, a language is allowed whatever the format and the platform.
    let limit = 0x8000 + tags.len() as u64 / 4;
    let mut before = 0;
    for (i, record) in records.chunks_exact(12).enumerate() {
        if t.len() < string_end(storage, &record[8..]) {
            let start = storage + u16_at(record, 10);
            return refuse_at(if t.len() < start { 15 } else { 27 }, i);
        }
        let here = key(record);
        let language = here >> 16 & 0xffff;
        if language >= limit && (format == 1 || !(240..=255).contains(&(here >> 48))) {
            return refuse_at(18, i);
        }
        if here <= before && i > 0 {
            return refuse_at(if here < before { 17 } else { 19 }, i);
        }
        before = here;
    }
    for (i, tag) in tags.chunks_exact(4).enumerate() {
        if t.len() < string_end(storage, tag) {
            return refuse_at(16, i);
        }
    }
    Ok(())
}

/// The record that has the key, and how many records were looked at. In place in `find`, where nobody asks for the count.
#[inline(always)]
fn search(t: &[u8], wanted: u64) -> (Option<Text>, usize) {
    let records = &t[6..6 + 12 * u16_at(t, 2)];
    let mut low = 0;
    let mut high = records.len() / 12;
    let mut looked = 0;
    while low < high {
        let middle = (low + high) / 2;
        let record = &records[12 * middle..12 * middle + 12];
        let here = key(record);
        looked += 1;
        if here == wanted {
            let text = Text {
                start: u16_at(t, 4) + u16_at(record, 10),
                length: u16_at(record, 8),
                record: middle,
            };
            return (Some(text), looked);
        }
        if here < wanted {
            low = middle + 1;
        } else {
            high = middle;
        }
    }
    (None, looked)
}

fn find(t: &[u8], wanted: u64) -> Option<Text> {
    search(t, wanted).0
}

fn number(key: [u16; 4]) -> u64 {
    key.iter().fold(0, |all, &part| all << 16 | part as u64)
}

#[inline(never)]
pub fn lookup(t: &[u8], key: [u16; 4]) -> LookedUp {
    match check(t) {
        Ok(()) => plain::told(search(t, number(key))),
        Err(refusal) => plain::refused_table(refusal),
    }
}

#[inline(never)]
pub fn postscript(t: &[u8]) -> Result<Text> {
    check(t)?;
    plain::postscript_of(
        t,
        find(t, number([1, 0, 0, 6])),
        find(t, number([3, 1, 0x409, 6])),
        |byte| ALLOWED[byte as usize],
    )
}

/// Whether a PostScript name may hold the character, for each of the 256 codes.
static ALLOWED: [bool; 256] = {
    let mut all = [false; 256];
    let mut code = 33;
    while code <= 126 {
        all[code] = true;
        code += 1;
    }
    let reserved = b"[](){}<>/%";
    let mut i = 0;
    while i < reserved.len() {
        all[reserved[i] as usize] = false;
        i += 1;
    }
    all
};

#[inline(never)]
pub fn version(t: &[u8]) -> Result<Version> {
    check(t)?;
    plain::version_of(t, find(t, number([3, 1, 0x409, 5])), || {
        find(t, number([1, 0, 0, 5]))
    })
}

// ---- 'OS/2'

/// The version, the weight and the width in one word; the rules that nearly every table keeps tested together.
fn accepted(t: &[u8], level: u32) -> Result<u32> {
    let Some(&[high, low]) = t.first_chunk() else {
        return refuse(2);
    };
    let version = u16::from_be_bytes([high, low]) as u32;
    if t.len() < plain::size(version.min(level)) {
        return refuse(2);
    }
    if version > level {
        return Ok(version);
    }
    let Some(head) = t.first_chunk::<78>() else {
        return refuse(2);
    };
    let pair = u32::from_be_bytes([head[4], head[5], head[6], head[7]]);
    let fstype = u16::from_be_bytes([head[8], head[9]]);
    let fsselection = u16::from_be_bytes([head[62], head[63]]);
    let (lower, upper) = match t.get(96..100) {
        Some(sizes) if version == 5 => (
            u16::from_be_bytes([sizes[0], sizes[1]]),
            u16::from_be_bytes([sizes[2], sizes[3]]),
        ),
        _ => (0, 0),
    };
    plain::rules(&plain::Values {
        version,
        weight: (pair >> 16) as u16,
        width: pair as u16,
        fstype,
        fsselection,
        lower,
        upper,
    })?;
    Ok(version)
}

#[inline(never)]
pub fn field(t: &[u8], level: u32, number: u32) -> Result<Answer<i64>> {
    if level > 5 {
        return refuse(1);
    }
    let Some(f) = FIELDS.get(number as usize) else {
        return refuse(6);
    };
    let version = accepted(t, level)?;
    if f.since > level {
        return Ok(Answer::NotKnown);
    }
    if f.since > version {
        return Ok(Answer::Absent);
    }
    Ok(Answer::Value(plain::value(t, f)))
}

/// Tests and stores field after field in bytes of its own, and copies them out when all hold.
#[inline(never)]
pub fn write(numbers: &[i64; 48], room: &mut [u8]) -> Written {
    let Ok(version @ 0..=5) = u32::try_from(numbers[0]) else {
        return refuse(4);
    };
    let size = plain::size(version);
    let Some(room) = room.get_mut(..size) else {
        return refuse(5);
    };
    let mut table = [0; 100];
    for (k, f) in FIELDS.iter().enumerate() {
        if f.since > version {
            break;
        }
        let x = numbers[k];
        if !plain::fits(f, x) {
            return refuse_at(8, k);
        }
        match f.width {
            1 => table[f.offset] = x as u8,
            2 => table[f.offset..f.offset + 2].copy_from_slice(&(x as u16).to_be_bytes()),
            _ => table[f.offset..f.offset + 4].copy_from_slice(&(x as u32).to_be_bytes()),
        }
    }
    plain::rules(&plain::Values {
        version,
        weight: numbers[2] as u16,
        width: numbers[3] as u16,
        fstype: numbers[4] as u16,
        fsselection: numbers[31] as u16,
        lower: numbers[46] as u16,
        upper: numbers[47] as u16,
    })?;
    room.copy_from_slice(&table[..size]);
    Ok(size)
}
