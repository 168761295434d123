//! Makes, for a table, another one to compare it with: the same, the same laid out in another way, one that differs in little,
//! one with a fault.

use second::name::{self, Key};
use second::os2::{size, FIELDS};

use crate::make::{byte_fault, encoded, valid_values};
use crate::numbers::Numbers;

// ---- 'OS/2'

/// A partner for an OS/2 table, accepted or not.
pub fn os2(n: &mut Numbers, bytes: &[u8]) -> Vec<u8> {
    let mut other = bytes.to_vec();
    match n.below(16) {
        0 => {}
        // Behind the fields.
        1 => {
            let more = 1 + n.below(8);
            other.extend(n.bytes(more));
        }
        2..=5 => change_field(n, &mut other),
        6 => {
            for _ in 0..2 + n.below(40) {
                change_field(n, &mut other);
            }
        }
        // Every field, or nearly so.
        7 => {
            let version = n.pick(&[0, 1, 2, 3, 4, 5, 6, 65_535]);
            other = encoded(&valid_values(n, version));
        }
        8..=11 => change_version(n, &mut other),
        12 => {
            change_version(n, &mut other);
            change_field(n, &mut other);
        }
        13 => break_rule(n, &mut other),
        _ => byte_fault(n, &mut other, &[78, 86, 96, 100]),
    }
    other
}

/// Puts another value into a field, or changes one of its bits, as far as the table goes.
fn change_field(n: &mut Numbers, bytes: &mut [u8]) {
    let field = FIELDS[n.below(48)];
    let Some(place) = bytes.get_mut(field.offset..field.offset + field.bytes) else {
        return;
    };
    if n.chance(1, 2) {
        let values = encoded(&valid_values(n, 5));
        place.copy_from_slice(&values[field.offset..field.offset + field.bytes]);
    } else {
        place[n.below(field.bytes)] ^= 1 << n.below(8);
    }
}

/// Gives the table another version. The fields that come in are zero, or any.
fn change_version(n: &mut Numbers, bytes: &mut Vec<u8>) {
    let version: u16 = n.pick(&[0, 1, 2, 3, 4, 5, 5, 6, 6, 65_535]);
    let zeros = n.chance(1, 2);
    while bytes.len() < size(u32::from(version)) {
        bytes.push(if zeros { 0 } else { n.next() as u8 });
    }
    if zeros {
        let from = match bytes[..2] {
            [0, low @ 0..=4] => size(u32::from(low)),
            _ => 96,
        };
        let from = from.min(bytes.len());
        bytes[from..].fill(0);
        // Version 5 has a lower size below the upper.
        if version == 5 && n.chance(3, 4) {
            bytes[99] = 1 + n.below(255) as u8;
        }
    }
    bytes[..2].copy_from_slice(&version.to_be_bytes());
    if n.chance(1, 2) {
        bytes.truncate(size(u32::from(version)));
    }
}

/// Breaks one of the rules, as far as the table goes.
fn break_rule(n: &mut Numbers, bytes: &mut [u8]) {
    let (place, number) = n.pick(&[
        (4, 0_u16),
        (4, 1001),
        (6, 0),
        (6, 10),
        (8, 1),
        (8, 6),
        (62, 0x0400),
        (62, 0x0041),
        (98, 0),
    ]);
    if let Some(two) = bytes.get_mut(place..place + 2) {
        two.copy_from_slice(&number.to_be_bytes());
    }
}

// ---- 'name'

/// What a 'name' table says: its keys with their strings, and how many tags it has (none in format 0).
struct Said {
    strings: Vec<(Key, Vec<u8>)>,
    tags: Option<usize>,
}

/// A partner for a 'name' table, accepted or not.
pub fn name(n: &mut Numbers, bytes: &[u8]) -> Vec<u8> {
    let mut other = bytes.to_vec();
    let Ok(table) = name::read(bytes) else {
        if n.chance(1, 2) {
            byte_fault(n, &mut other, &[6, 18, 30]);
        }
        return other;
    };
    match n.below(16) {
        0 => other,
        // One byte, anywhere or in the storage.
        1 | 2 => {
            change_byte(n, &mut other, table.storage_start);
            other
        }
        3 => {
            byte_fault(n, &mut other, &[6, 18, table.storage_start]);
            other
        }
        kind => {
            let mut said = Said {
                strings: table
                    .records
                    .iter()
                    .map(|record| (record.key(), table.string_of(record, bytes).to_vec()))
                    .collect(),
                tags: (table.format == 1).then_some(table.tags.len()),
            };
            let changes = match kind {
                4..=6 => 0,
                7..=12 => 1,
                13 | 14 => 2 + n.below(3),
                // Other keys.
                _ => {
                    for (key, _) in &mut said.strings {
                        key.1 ^= 0x4000;
                    }
                    0
                }
            };
            for _ in 0..changes {
                change_said(n, &mut said);
            }
            said.strings.sort();
            said.strings.dedup_by_key(|(key, _)| *key);
            laid_out(n, &said).unwrap_or(other)
        }
    }
}

/// Changes one byte, in half of the cases one of the storage.
fn change_byte(n: &mut Numbers, bytes: &mut [u8], storage: usize) {
    let from = match n.chance(1, 2) && storage < bytes.len() {
        true => storage,
        false => 0,
    };
    let place = from + n.below(bytes.len() - from);
    bytes[place] ^= 1 << n.below(8);
}

/// Changes what the table says in one key.
fn change_said(n: &mut Numbers, said: &mut Said) {
    let count = said.strings.len();
    if count == 0 || n.chance(1, 8) {
        let key = (n.word(), n.word(), n.word() & 0x7FFF, n.word());
        let length = n.below(4);
        said.strings.push((key, n.bytes(length)));
        return;
    }
    let place = n.below(count);
    let (key, string) = &mut said.strings[place];
    let length = string.len();
    match n.below(10) {
        0 if length > 0 => string[0] ^= 1 << n.below(8),
        1 if length > 0 => string[length - 1] ^= 1 << n.below(8),
        2 if length > 0 => {
            let place = n.below(length);
            string[place] = n.next() as u8;
        }
        3 if length > 0 => string.truncate(n.below(length)),
        4 => string.push(n.next() as u8),
        5 => string.clear(),
        6 => {
            let length = n.below(6);
            *string = n.bytes(length);
        }
        7 => key.3 = key.3.wrapping_add(n.pick(&[1, 0xFFFF, 256])),
        8 => {
            let near = (key.0, key.1, key.2, key.3 ^ n.pick(&[1, 2, 0x100]));
            let string = string.clone();
            said.strings.push((near, string));
        }
        _ => {
            said.strings.remove(place);
        }
    }
}

/// The bytes of a table that says this: its strings in any order, equal ones shared or not, with bytes between, in either
/// format as far as the languages allow it. Nothing where it does not fit.
fn laid_out(n: &mut Numbers, said: &Said) -> Option<Vec<u8>> {
    // Format 1 where a language needs a tag.
    let tagged = |&((platform, _, language, _), _): &(Key, Vec<u8>)| {
        language >= 0x8000 && !(240..=255).contains(&platform)
    };
    let tags = match said.tags {
        Some(tags) if n.chance(2, 3) || said.strings.iter().any(tagged) => Some(tags),
        None if n.chance(1, 3) => Some(n.below(3)),
        _ => None,
    };
    let share = n.chance(1, 2);
    let between = n.chance(1, 3);
    let mut order: Vec<usize> = (0..said.strings.len()).collect();
    for place in (1..order.len()).rev() {
        order.swap(place, n.below(place + 1));
    }
    let mut storage: Vec<u8> = Vec::new();
    let mut places = vec![0_usize; said.strings.len()];
    let mut before: Option<(usize, &[u8])> = None;
    for number in order {
        let string = &said.strings[number].1[..];
        match before {
            // In the string before it.
            Some((place, longer)) if share && longer.starts_with(string) => places[number] = place,
            _ => {
                if between {
                    storage.push(n.next() as u8);
                }
                places[number] = storage.len();
                before = Some((storage.len(), string));
                storage.extend(string);
            }
        }
    }
    let count = said.strings.len();
    let front = 6 + 12 * count + tags.map_or(0, |tags| 2 + 4 * tags);
    let start = front + n.below(3);
    let mut words = vec![
        u16::from(tags.is_some()),
        u16::try_from(count).ok()?,
        u16::try_from(start).ok()?,
    ];
    for (number, ((platform, encoding, language, name), string)) in said.strings.iter().enumerate()
    {
        words.extend([*platform, *encoding, *language, *name]);
        words.push(u16::try_from(string.len()).ok()?);
        words.push(u16::try_from(places[number]).ok()?);
    }
    if let Some(tags) = tags {
        words.push(u16::try_from(tags).ok()?);
        for _ in 0..tags {
            let offset = n.below(storage.len().min(65_535) + 1);
            let length = n.below((storage.len() - offset).min(65_535) + 1);
            words.extend([length as u16, offset as u16]);
        }
    }
    let mut bytes: Vec<u8> = words.iter().flat_map(|word| word.to_be_bytes()).collect();
    bytes.resize(start, 0xEE);
    bytes.extend(storage);
    Some(bytes)
}

/// A table with 5,460 records, of either format, and the same with one byte changed: in the storage, in a record, or in the
/// header.
pub fn largest(n: &mut Numbers) -> (Vec<u8>, Vec<u8>) {
    let tagged = n.chance(1, 2);
    let start = 6 + 12 * 5_460 + if tagged { 2 } else { 0 };
    let storage = 1 + n.below(300);
    let mut bytes = Vec::new();
    for word in [usize::from(tagged), 5_460, start] {
        bytes.extend((word as u16).to_be_bytes());
    }
    for record in 0..5_460 {
        let length = n.below(storage.min(3) + 1);
        let offset = n.below(storage - length + 1);
        for word in [3, 1, record / 64, 2 * (record % 64), length, offset] {
            bytes.extend((word as u16).to_be_bytes());
        }
    }
    // No tags.
    bytes.resize(start, 0);
    bytes.extend(n.bytes(storage));
    let mut other = bytes.clone();
    let place = match n.below(4) {
        0 | 1 => start + n.below(storage),
        // The low byte of a name, of a length or of an offset.
        2 => 6 + 12 * n.below(5_460) + n.pick(&[7, 9, 11]),
        _ => n.below(bytes.len()),
    };
    other[place] ^= 1 << n.below(8);
    (bytes, other)
}
