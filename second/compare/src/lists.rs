//! Makes lists of entries at random: ones that are written, ones with a fault at an edge, ones with several.
//!
//! The makers know the rules of document 01 and of document 02's Ask 5 only to come near their edges. Whether a list is right
//! is for the compared programs.

use crate::entries::{Entry, List};
use crate::make::{language, lower_key, platform};
use crate::numbers::Numbers;

/// A pool of so many bytes holds long texts.
const LONG: usize = 65_535;

/// A list, mostly of a few entries.
pub fn list(n: &mut Numbers) -> List {
    let count = match n.below(1000) {
        0 => n.pick(&[65_535, 65_536, 65_537, 65_536 + 3_000, 65_536 + 5_460]),
        1..=12 => n.pick(&[5_459, 5_460, 5_460, 5_461, 5_461, 5_462, 5_600]),
        13..=32 => 250 + n.below(350),
        33..=82 => 0,
        83..=182 => 1,
        183..=282 => n.below(45),
        _ => 2 + n.below(7),
    };
    let keys = keys(n, count);
    let pool = match n.below(100) {
        // So long that the texts together come near 65,535 bytes, or pass that.
        _ if count > 200 => 1 + n.below(6 * LONG / count),
        0..=4 => 0,
        5..=11 => n.pick(&[
            LONG,
            LONG + 1,
            LONG + 2,
            LONG + 5_000,
            2 * LONG,
            2 * LONG + 2,
        ]),
        _ => 1 + n.below(60),
    };
    let mut list = List {
        entries: Vec::new(),
        pool: bytes(n, pool),
    };
    for key in keys {
        let (start, mut length) = place_in(n, pool);
        // In a long pool most texts are short, so that their sum is not above 65,535 yet.
        if pool >= LONG && n.chance(7, 8) {
            length = length.min(n.below(40) as u16);
        }
        list.entries.push(Entry { key, start, length });
    }
    if !list.entries.is_empty() {
        shape(n, &mut list);
    }
    list
}

/// Bytes for a pool: any, or so few different ones that equal texts stand in several places.
fn bytes(n: &mut Numbers, count: usize) -> Vec<u8> {
    let mask = n.pick(&[255, 255, 1, 0]);
    let mut bytes = Vec::with_capacity(count + 8);
    while bytes.len() < count {
        bytes.extend(n.next().to_ne_bytes().map(|byte| byte & mask));
    }
    bytes.truncate(count);
    bytes
}

/// Any place of a text in a pool of this length; often it ends at the end, or is empty there.
fn place_in(n: &mut Numbers, pool: usize) -> (u64, u16) {
    let start = match n.below(4) {
        0 => pool - n.below(pool.min(3) + 1),
        _ => n.below(pool + 1),
    };
    let most = (pool - start).min(LONG);
    let length = match n.below(4) {
        0 => most,
        1 => 0,
        _ => n.below(most + 1),
    };
    (start as u64, length as u16)
}

/// Keys that rise, at most so many, with languages that are allowed.
fn keys(n: &mut Numbers, count: usize) -> Vec<[u16; 4]> {
    if count > 200 {
        return (0..count)
            .map(|place| [3, 1, (place / 64) as u16, 2 * (place % 64) as u16 + 1])
            .collect();
    }
    let mut keys: Vec<[u16; 4]> = Vec::new();
    while keys.len() < count {
        let mut key = match keys.last() {
            // A key that differs in one part from another, or in several.
            Some(&before) if n.chance(1, 2) => {
                let mut key = before;
                let part = n.below(4);
                key[part] = key[part].wrapping_add(n.pick(&[1, 1, 2, 256]));
                if n.chance(1, 3) {
                    key[part + 1..].fill(n.pick(&[0, 1, 300]));
                }
                key
            }
            _ => [
                platform(n),
                n.pick(&[0, 1, 2, 3, 10, 255, 256, 0xFFFF]),
                language(n, 0),
                n.pick(&[0, 1, 4, 5, 6, 7, 25, 255, 256, 0x8000, 0xFFFF]),
            ],
        };
        if key[2] >= 0x8000 && !(240..=255).contains(&key[0]) {
            match n.below(3) {
                0 => key[0] = n.pick(&[240, 241, 254, 255]),
                1 => (key[0], key[2]) = (n.pick(&[239, 256]), 0x7FFF),
                _ => key[2] = n.pick(&[0, 0x409, 0x7FFF]),
            }
        }
        keys.push(key);
    }
    keys.sort_unstable();
    keys.dedup();
    keys
}

/// Gives entries the same text, takes offsets and the table's length to their edges, and puts faults in.
fn shape(n: &mut Numbers, list: &mut List) {
    let count = list.entries.len();
    if count > 1 && n.chance(1, 4) {
        let Entry { start, length, .. } = list.entries[n.below(count)];
        for _ in 0..1 + n.below(3) {
            let entry = &mut list.entries[n.below(count)];
            (entry.start, entry.length) = (start, length);
        }
    }
    // Where a fault is put, if one is: often at an entry whose offset is about the highest or behind it, or whose number needs
    // two bytes.
    let mut at = n.below(count);
    let mut faults = match n.below(20) {
        0..=9 => 0,
        10..=14 => 1,
        15..=17 => 2,
        _ => 3,
    };
    if list.pool.len() >= LONG {
        match n.below(8) {
            0..=4 if count > 1 => {
                at = stretch(n, list);
                if n.chance(1, 2) {
                    at += n.below(count - at);
                }
                faults += n.below(2);
            }
            5 | 6 => about_65_536(n, list),
            _ => {}
        }
    }
    if count > 256 && n.chance(3, 4) {
        at = 256 + n.below(count - 256);
    }
    for _ in 0..faults {
        fault(n, list, at);
        // At the same entry, at one behind it, or anywhere.
        at = match n.below(3) {
            0 => at,
            1 => at + n.below(count - at),
            _ => n.below(count),
        };
    }
}

/// Takes the table's length to 65,536 or near it by the length of the first text, which then stands at the pool's start.
fn about_65_536(n: &mut Numbers, list: &mut List) {
    let texts = list.entries.iter().map(|entry| usize::from(entry.length));
    let size = 6 + 12 * list.entries.len() + texts.sum::<usize>();
    let first = &mut list.entries[0];
    let others = size - usize::from(first.length);
    let length = (65_534 + n.below(5)).checked_sub(others);
    if let Some(length) = length.and_then(|length| u16::try_from(length).ok()) {
        (first.start, first.length) = (0, length);
    }
}

/// Takes an entry's offset to 65,535 or near it by the lengths of those before it, whose texts then stand at the pool's start.
/// Gives the entry.
fn stretch(n: &mut Numbers, list: &mut List) -> usize {
    let at = 1 + n.below(list.entries.len() - 1);
    let mut wanted = n.pick(&[
        65_534, 65_535, 65_535, 65_535, 65_536, 65_536, 65_536, 65_537, 70_000, 131_070,
    ]);
    for entry in &list.entries[..at] {
        wanted -= usize::from(entry.length).min(wanted);
    }
    for number in (0..at).rev() {
        let entry = &mut list.entries[number];
        let more = wanted.min(LONG - usize::from(entry.length));
        if more > 0 {
            entry.length += more as u16;
            entry.start = 0;
            wanted -= more;
        }
    }
    // Often it is empty.
    if n.chance(1, 2) {
        list.entries[at].length = 0;
    }
    at
}

/// Puts a fault at an entry, or takes it to an edge where it is right yet.
fn fault(n: &mut Numbers, list: &mut List, at: usize) {
    let pool = list.pool.len();
    match n.below(8) {
        0..=2 => {
            let (start, length) = text_at_edge(n, pool);
            (list.entries[at].start, list.entries[at].length) = (start, length);
        }
        3 | 4 => {
            let key = &mut list.entries[at].key;
            key[2] = n.pick(&[0x8000, 0x8001, 0xFFFF]);
            match n.below(4) {
                0 => key[0] = n.pick(&[239, 256]),
                1 => key[0] = n.pick(&[240, 255]),
                2 => key[0] = platform(n),
                _ => {}
            }
        }
        5 if at > 0 => {
            list.entries[at].key = list.entries[at - 1].key;
            if n.chance(1, 4) {
                list.entries[at] = list.entries[at - 1];
            }
        }
        6 if at > 0 => {
            list.entries[at].key = match n.below(4) {
                0 if at > 1 => list.entries[at - 2].key,
                _ => lower_key(n, list.entries[at - 1].key),
            };
        }
        // Offsets behind it are too far, and its text is not in the pool, if that is short.
        _ => {
            list.entries[at].length = n.pick(&[65_535, 65_535, 40_000]);
            list.entries[at].start = 0;
        }
    }
}

/// Start and length about the end of the pool, and where their sum passes 16, 32 or 64 bits.
fn text_at_edge(n: &mut Numbers, pool: usize) -> (u64, u16) {
    let end = pool as u64;
    let short = n.pick(&[0, 1, 2, 3]);
    let length = n.pick(&[0, 1, 2, 3, 255, 65_534, 65_535]);
    match n.below(14) {
        0 => (end, 0),
        1 => (end, n.pick(&[1, 1, 2, 65_535])),
        2 => (end + 1, short),
        3 => (end + 2 + n.below(300) as u64, short),
        4 => {
            let (start, length) = place_in(n, pool);
            (start, length.saturating_add(1))
        }
        5 => {
            let start = n.below(pool + 1);
            (start as u64, (pool - start + 1).min(65_535) as u16)
        }
        6 => (u64::MAX, n.pick(&[0, 1, 65_535, length])),
        // The sum is 2 to the 64th, or little more.
        7 | 8 => {
            let more = n.below(pool + 2) as u64;
            let start = (u64::MAX - u64::from(length)).wrapping_add(1);
            (start.wrapping_add(more), length)
        }
        // The sum is 65,536, or little more.
        9 => (65_536 - u64::from(length) + n.below(3) as u64, length),
        // In the pool by its low bits.
        10 | 11 => {
            let high = n.pick(&[1 << 16, 1 << 32, 1 << 48, 1 << 63, 3 << 32]);
            (high + n.below(pool + 1) as u64, short)
        }
        12 => (n.next(), length),
        _ => (u64::from(n.word()), n.word()),
    }
}
