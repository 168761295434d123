//! Makes tables at random: valid ones, ones with a fault at an edge, ones cut short.
//!
//! The makers know the rules of document 01 and of document 02's Asks 1 to 4 and 8 only to come near their edges. Whether a table is
//! right is for the compared programs. Lists of entries to write and calls of the chooser are made in files of their own.

use second::os2::{size, FIELDS};

use crate::calls::Calls;
use crate::entries::List;
use crate::numbers::Numbers;

/// What is made: a table, 48 numbers or a list of entries to write, two tables to compare, or calls of the chooser.
#[derive(Clone)]
pub enum Made {
    Name(Vec<u8>),
    Os2(Vec<u8>),
    Numbers(Box<[i64; 48]>),
    Entries(List),
    NamePair(Vec<u8>, Vec<u8>),
    Os2Pair(Vec<u8>, Vec<u8>),
    Calls(Calls),
}

/// Table `number` of a run: of ten, five are 'name' tables, three 'OS/2' tables, two are 48 numbers.
pub fn made(number: u64, numbers: &mut Numbers) -> Made {
    match number % 10 {
        0 | 2 | 4 | 6 | 8 => Made::Name(name(numbers)),
        1 | 5 | 9 => Made::Os2(os2(numbers)),
        _ => Made::Numbers(Box::new(values_to_write(numbers))),
    }
}

/// The number of the 'name' or 'OS/2' table before this one that is of the same kind.
pub fn same_kind_before(number: u64) -> Option<u64> {
    match number % 10 {
        5 | 9 => number.checked_sub(4),
        _ => number.checked_sub(2),
    }
}

// ---- 'name'

pub type Key = [u16; 4];

const POSTSCRIPT_ONE: Key = [1, 0, 0, 6];
const POSTSCRIPT_TWO: Key = [3, 1, 0x409, 6];
const VERSION_ONE: Key = [1, 0, 0, 5];
const VERSION_TWO: Key = [3, 1, 0x409, 5];

#[derive(Clone, Copy)]
struct Record {
    key: Key,
    length: u16,
    offset: u16,
}

/// A 'name' table before it is put into bytes. The counts and the start may be false.
struct Plan {
    format: u16,
    count: u16,
    start: u16,
    records: Vec<Record>,
    /// Whether a tag count and tags stand after the records.
    tagged: bool,
    tag_count: u16,
    tags: Vec<[u16; 2]>,
    gap: Vec<u8>,
    storage: Vec<u8>,
}

impl Plan {
    /// Where the records and tags end.
    fn front(&self) -> usize {
        let tags = if self.tagged {
            2 + 4 * self.tags.len()
        } else {
            0
        };
        6 + 12 * self.records.len() + tags
    }

    fn bytes(&self) -> Vec<u8> {
        let mut bytes = Vec::with_capacity(self.front() + self.gap.len() + self.storage.len());
        let mut put = |word: u16| bytes.extend(word.to_be_bytes());
        put(self.format);
        put(self.count);
        put(self.start);
        for record in &self.records {
            record.key.into_iter().for_each(&mut put);
            put(record.length);
            put(record.offset);
        }
        if self.tagged {
            put(self.tag_count);
            for [length, offset] in &self.tags {
                put(*length);
                put(*offset);
            }
        }
        bytes.extend(&self.gap);
        bytes.extend(&self.storage);
        bytes
    }
}

pub fn name(n: &mut Numbers) -> Vec<u8> {
    let plan = valid_name(n);
    let faults = match n.below(20) {
        0..=9 => 0,
        10..=16 => 1,
        _ => 2,
    };
    with_faults(n, plan, faults)
}

/// A table with these strings under these keys, of either format, with so many faults.
pub fn name_with(n: &mut Numbers, mut strings: Vec<(Key, Vec<u8>)>, faults: usize) -> Vec<u8> {
    strings.sort_by_key(|(key, _)| *key);
    strings.dedup_by_key(|(key, _)| *key);
    let before = n.below(3);
    let mut storage = n.bytes(before);
    let mut records = Vec::new();
    for (key, text) in strings {
        records.push(Record {
            key,
            length: text.len() as u16,
            offset: storage.len().min(65_535) as u16,
        });
        storage.extend(text);
    }
    let tagged = n.chance(1, 2);
    let count = if tagged { n.below(3) } else { 0 };
    let tags = (0..count)
        .map(|_| {
            let (offset, length) = place_in(n, storage.len());
            [length as u16, offset as u16]
        })
        .collect();
    let gap = n.below(3);
    let mut plan = Plan {
        format: u16::from(tagged),
        count: records.len() as u16,
        start: 0,
        records,
        tagged,
        tag_count: count as u16,
        tags,
        gap: n.bytes(gap),
        storage,
    };
    plan.start = (plan.front() + plan.gap.len()) as u16;
    with_faults(n, plan, faults)
}

/// An accepted table with so many records, of either format. Some parts of the keys rise from record to record, and the others
/// are the same in all of them; between two keys there is often room for another.
pub fn name_of(n: &mut Numbers, count: usize) -> Vec<u8> {
    let parts = n.pick(&[&[3][..], &[0], &[2, 3], &[0, 1, 2, 3], &[1, 3], &[0, 2]]);
    let steps = (1..)
        .find(|steps: &usize| steps.pow(parts.len() as u32) >= count)
        .unwrap_or(count);
    let apart = 1 + n.below(3);
    let records = (0..count).map(|number| {
        let mut key = [3, 1, 0x409, 1];
        let mut place = number;
        for &part in parts.iter().rev() {
            key[part] = (apart * (place % steps)) as u16;
            place /= steps;
        }
        Record {
            key,
            length: 0,
            offset: 0,
        }
    });
    let records = records.collect();
    let tagged = n.chance(1, 2);
    let mut plan = Plan {
        format: u16::from(tagged),
        count: count as u16,
        start: 0,
        records,
        tagged,
        tag_count: 0,
        tags: Vec::new(),
        gap: Vec::new(),
        storage: Vec::new(),
    };
    plan.start = plan.front() as u16;
    plan.bytes()
}

/// The bytes of a plan after so many faults.
fn with_faults(n: &mut Numbers, mut plan: Plan, faults: usize) -> Vec<u8> {
    for _ in 0..faults {
        if n.chance(3, 4) {
            name_fault(n, &mut plan);
        } else {
            let mut bytes = plan.bytes();
            byte_fault(
                n,
                &mut bytes,
                &[6, 6 + 12 * plan.records.len(), plan.front()],
            );
            return bytes;
        }
    }
    plan.bytes()
}

/// A table that document 01 accepts, or nearly always does.
fn valid_name(n: &mut Numbers) -> Plan {
    let tagged = n.chance(1, 2);
    let tag_count = match n.below(1500) {
        _ if !tagged => 0,
        0 => 16_376 + n.below(8),
        1..=300 => 0,
        _ => n.below(5),
    };
    let mut keys = keys(n, tagged, tag_count);
    keys.sort_unstable();
    keys.dedup();

    let mut storage = Vec::new();
    if n.chance(1, 5) {
        let before = n.below(4);
        storage.extend(n.bytes(before));
    }
    let (one, two) = postscript_texts(n);
    let mut places: Vec<Option<(usize, usize)>> = Vec::new();
    for key in &keys {
        let text = match *key {
            POSTSCRIPT_ONE => one.clone(),
            POSTSCRIPT_TWO => two.clone(),
            VERSION_ONE => version_text(n, false),
            VERSION_TWO => version_text(n, true),
            _ if n.chance(1, 2) => {
                let length = n.below(9);
                n.bytes(length)
            }
            // A place is found when the storage is whole.
            _ => {
                places.push(None);
                continue;
            }
        };
        places.push(Some((storage.len(), text.len())));
        storage.extend(text);
    }
    if n.chance(1, 3) {
        let after = n.below(6);
        storage.extend(n.bytes(after));
    }
    if n.chance(1, 40) {
        // No storage: the strings are empty.
        storage.clear();
        places.fill(None);
    }
    let large = n.chance(1, 400);
    if large {
        let whole = n.pick(&[
            65_534, 65_535, 65_536, 65_537, 70_000, 131_069, 131_070, 131_071,
        ]);
        let more = whole - storage.len().min(whole);
        storage.extend(n.bytes(more));
    }

    let mut records: Vec<Record> = keys
        .into_iter()
        .zip(places)
        .map(|(key, place)| {
            let (offset, length) = place.unwrap_or_else(|| place_in(n, storage.len()));
            Record {
                key,
                length: length.min(65_535) as u16,
                offset: offset.min(65_535) as u16,
            }
        })
        .collect();
    if large && !records.is_empty() && n.chance(1, 2) {
        // At the last offset that there is, where such a storage ends or has some bytes more.
        let number = n.below(records.len());
        records[number].offset = 65_535;
        records[number].length = n.pick(&[0, 1, 2, 65_535]);
    }
    if records.len() > 1 && n.chance(1, 4) {
        share_string(n, &mut records);
    }
    let tags = (0..tag_count)
        .map(|_| {
            let (offset, length) = place_in(n, storage.len());
            [length as u16, offset as u16]
        })
        .collect();
    let gap = match n.below(4) {
        0 => {
            let length = 1 + n.below(5);
            n.bytes(length)
        }
        _ => Vec::new(),
    };
    let mut plan = Plan {
        format: u16::from(tagged),
        count: records.len() as u16,
        start: 0,
        records,
        tagged,
        tag_count: tag_count as u16,
        tags,
        gap,
        storage,
    };
    plan.start = (plan.front() + plan.gap.len()).min(65_535) as u16;
    plan
}

/// Gives records the very string of another one. Those that hold a PostScript name or a version keep theirs.
fn share_string(n: &mut Numbers, records: &mut [Record]) {
    let Record { length, offset, .. } = records[n.below(records.len())];
    for _ in 0..1 + n.below(3) {
        let number = n.below(records.len());
        let record = &mut records[number];
        if ![POSTSCRIPT_ONE, POSTSCRIPT_TWO, VERSION_ONE, VERSION_TWO].contains(&record.key) {
            (record.length, record.offset) = (length, offset);
        }
    }
}

/// Any place of a string inside a storage of this length; often it ends on the last byte, or is empty there.
fn place_in(n: &mut Numbers, storage: usize) -> (usize, usize) {
    let offset = match n.below(4) {
        0 => storage,
        1 => 65_535,
        _ => n.below(storage + 1),
    }
    .min(storage)
    .min(65_535);
    let most = (storage - offset).min(65_535);
    let length = match n.below(4) {
        0 => most,
        1 => 0,
        _ => n.below(most + 1),
    };
    (offset, length)
}

fn keys(n: &mut Numbers, tagged: bool, tags: usize) -> Vec<Key> {
    let mut keys = Vec::new();
    // Both PostScript records, one, or neither; likewise the version records.
    match n.below(10) {
        0..=5 => keys.extend([POSTSCRIPT_ONE, POSTSCRIPT_TWO]),
        6 => keys.push(POSTSCRIPT_ONE),
        7 => keys.push(POSTSCRIPT_TWO),
        _ => {}
    }
    match n.below(10) {
        0..=2 => keys.push(VERSION_ONE),
        3..=5 => keys.push(VERSION_TWO),
        6..=7 => keys.extend([VERSION_ONE, VERSION_TWO]),
        _ => {}
    }
    // Records that only look like those.
    while n.chance(1, 4) {
        let mut key = n.pick(&[POSTSCRIPT_ONE, POSTSCRIPT_TWO, VERSION_ONE, VERSION_TWO]);
        let part = n.below(4);
        key[part] = match n.chance(1, 2) {
            true => key[part].wrapping_add(1),
            false => key[part].saturating_sub(1),
        };
        keys.push(key);
    }
    // So many before them that their numbers need two bytes, or few.
    let low = match n.below(100) {
        0..=2 => 246 + n.below(60),
        3..=6 => n.below(20),
        _ => 0,
    };
    keys.extend((0..low).map(|place| [0, 3, (place / 16) as u16, (place % 16) as u16]));
    let more = match n.below(2000) {
        0 => 5_456 + n.below(8),
        1..=40 => n.below(300),
        41..=500 => 0,
        // As many as a lookup needs some more steps for.
        501..=504 => n.pick(&[600, 1_200, 2_400]) + n.below(800),
        _ => n.below(5),
    };
    if more > 5_000 {
        // So many that the storage just can, or can't, start after them.
        keys.clear();
        keys.extend((0..more).map(|place| [3, 1, (place / 64) as u16, (place % 64) as u16]));
        return keys;
    }
    for _ in 0..more {
        keys.push([
            platform(n),
            n.pick(&[0, 1, 2, 3, 10, 255, 256, 0xFFFF]),
            language(n, tags),
            n.pick(&[0, 1, 4, 5, 6, 7, 25, 255, 256, 0x8000, 0xFFFF]),
        ]);
    }
    for key in &mut keys {
        // Into the languages that are allowed, at their edge.
        if key[2] >= 0x8000 {
            if !tagged {
                if !(240..=255).contains(&key[0]) {
                    if n.chance(1, 2) {
                        key[0] = n.pick(&[240, 241, 254, 255]);
                    } else {
                        key[2] = 0x7FFF;
                    }
                }
            } else if usize::from(key[2]) >= 0x8000 + tags {
                key[2] = (0x7FFF + tags) as u16;
            }
        }
    }
    keys
}

pub fn platform(n: &mut Numbers) -> u16 {
    match n.below(4) {
        0 => n.pick(&[0, 1, 2, 3, 4]),
        1 => n.pick(&[239, 240, 241, 254, 255, 256]),
        2 => n.pick(&[238, 248, 257, 0x7FFF, 0x8000, 0xFFFF]),
        _ => n.word(),
    }
}

/// A language number, often about 0x8000 or 0x8000 and the tag count.
pub fn language(n: &mut Numbers, tags: usize) -> u16 {
    let about = match n.below(4) {
        0 => return n.pick(&[0, 1, 0x408, 0x409, 0x40A]),
        1 => 0x8000,
        2 => 0x8000 + tags,
        _ => return n.word(),
    };
    (about + n.below(5) - 2).min(0xFFFF) as u16
}

/// A character that a PostScript name may hold.
fn postscript_character(n: &mut Numbers) -> u8 {
    loop {
        let code = match n.below(6) {
            0 => n.pick(&[
                33, 36, 38, 39, 42, 46, 48, 59, 61, 63, 90, 92, 94, 122, 124, 126,
            ]),
            _ => (33 + n.below(94)) as u8,
        };
        if !b"[](){}<>/%".contains(&code) {
            return code;
        }
    }
}

/// The strings of the two PostScript records: mostly equal and well formed, else with a fault at an edge.
fn postscript_texts(n: &mut Numbers) -> (Vec<u8>, Vec<u8>) {
    let length = match n.below(8) {
        0 => n.pick(&[0, 1, 2, 62, 63, 64, 65]),
        1 => 63,
        2 => 1,
        _ => 1 + n.below(12),
    };
    let mut one: Vec<u8> = (0..length).map(|_| postscript_character(n)).collect();
    let mut two: Vec<u8> = one.iter().flat_map(|&code| [0, code]).collect();
    let bad = [
        0, 9, 31, 32, 127, 128, 255, b'[', b']', b'(', b')', b'{', b'}', b'<', b'>', b'/', b'%',
    ];
    if length > 0 {
        let any = n.below(length);
        let place = n.pick(&[0, length - 1, any]);
        match n.below(24) {
            // In both strings, so that they are equal.
            0 | 1 => {
                let code = n.pick(&bad);
                one[place] = code;
                two[2 * place + 1] = code;
            }
            2 => one[place] = n.pick(&bad),
            3 => two[2 * place + 1] = n.pick(&bad),
            // A high byte.
            4 => two[2 * place] = n.pick(&[1, 2, 4, 0x80, 0xFF]),
            // They differ in one character.
            5 => one[place] = postscript_character(n),
            6 => two[2 * place + 1] = postscript_character(n),
            // One is the beginning of the other.
            7 => two.truncate(2 * place),
            8 => one.truncate(place),
            9 => two.extend([0, postscript_character(n)]),
            10 => one.push(postscript_character(n)),
            // An odd length.
            11 => {
                two.pop();
            }
            12 => two.push(postscript_character(n)),
            13 => two.push(0),
            // Low bytes first.
            14 => two.chunks_mut(2).for_each(|pair| pair.swap(0, 1)),
            _ => {}
        }
    }
    (one, two)
}

/// A version string of some pieces, most of them about the edges of a number.
fn version_text(n: &mut Numbers, two_bytes: bool) -> Vec<u8> {
    let figures = [
        "0",
        "1",
        "2",
        "5",
        "9",
        "00",
        "007",
        "10",
        "123",
        "6553",
        "65533",
        "65534",
        "65535",
        "65536",
        "65544",
        "70000",
        "99999",
        "065534",
        "0065535",
        "655340",
        "131070",
        "4294967295",
        "4294967296",
        "4294967297",
        "18446744073709551615",
        "18446744073709551616",
        "18446744073709551617",
        "99999999999999999999999999",
        "00000000000000000000000001",
    ];
    let others = [
        "/", ":", " ", ";", ",", "-", "v", "Version ", "\0", "\u{7F}", "..", ".",
    ];
    let mut text = String::new();
    if n.chance(1, 3) {
        text.push_str("Version ");
    }
    for _ in 0..1 + n.below(3) {
        match n.below(8) {
            0 => text.push_str(n.pick(&others)),
            1 => text.push_str(n.pick(&figures)),
            2 => text.push('.'),
            _ => {
                text.push_str(n.pick(&figures));
                if n.chance(7, 8) {
                    text.push('.');
                    if n.chance(7, 8) {
                        text.push_str(n.pick(&figures));
                    }
                }
            }
        }
        if n.chance(2, 3) {
            text.push_str(n.pick(&others));
        }
    }
    if n.chance(1, 20) {
        // Digits and periods at random.
        text = (0..n.below(20))
            .map(|_| char::from(n.pick(b"0123456789....")))
            .collect();
    }
    let mut bytes = text.into_bytes();
    if two_bytes {
        bytes = bytes.into_iter().flat_map(|code| [0, code]).collect();
        if n.chance(1, 6) && !bytes.is_empty() {
            let place = 2 * n.below(bytes.len() / 2);
            bytes[place] = n.pick(&[1, 0x80, 0xFF, b'1', b'.']);
        }
        match n.below(24) {
            0 => {
                bytes.pop();
            }
            1 => bytes.push(n.pick(b"\x0012")),
            _ => {}
        }
    } else if n.chance(1, 12) && !bytes.is_empty() {
        let place = n.below(bytes.len());
        bytes[place] |= 0x80;
    }
    bytes
}

/// Puts a fault into the plan, or takes it to an edge where it is right yet.
fn name_fault(n: &mut Numbers, plan: &mut Plan) {
    let records = plan.records.len();
    let storage = plan.storage.len();
    let whole = plan.front() + plan.gap.len() + storage;
    match n.below(28) {
        0 => plan.format = n.pick(&[2, 3, 0x0100, 0x8000, 0xFFFF]),
        1 => plan.format ^= 1,
        2 => {
            plan.count = n.pick(&[
                plan.count.wrapping_add(1),
                plan.count.wrapping_sub(1),
                5_460,
                5_461,
                65_535,
            ]);
        }
        3 | 4 => {
            plan.tag_count = n.pick(&[
                plan.tag_count.wrapping_add(1),
                plan.tag_count.wrapping_sub(1),
                0x3FFF,
                0x4000,
                0x8000,
                0xFFFF,
            ]);
        }
        5 | 6 => {
            let front = plan.front();
            let start = n.pick(&[front, front - 1, front - 2, whole, whole + 1, 0, 65_535]);
            plan.start = start.min(65_535) as u16;
        }
        7..=10 if records > 0 => {
            let record = n.below(records);
            let [length, offset] = string_at_edge(n, storage);
            plan.records[record].length = length;
            plan.records[record].offset = offset;
        }
        11 | 12 if !plan.tags.is_empty() => {
            let tag = n.below(plan.tags.len());
            plan.tags[tag] = string_at_edge(n, storage);
        }
        13..=15 if records > 1 => {
            let later = 1 + n.below(records - 1);
            match n.below(6) {
                0 => plan.records.swap(later - 1, later),
                1 => plan.records[later].key = plan.records[later - 1].key,
                // The whole record twice.
                2 => plan.records[later] = plan.records[later - 1],
                // The key two before it.
                3 if later > 1 => plan.records[later].key = plan.records[later - 2].key,
                4 => plan.records[later].key = lower_key(n, plan.records[later - 1].key),
                _ => {
                    let part = n.below(4);
                    let mut key = plan.records[later - 1].key;
                    key[part] = key[part].wrapping_add(1);
                    plan.records[later].key = key;
                }
            }
        }
        16..=18 if records > 0 => {
            let record = n.below(records);
            plan.records[record].key[2] = language(n, plan.tags.len());
            match n.below(3) {
                0 => return,
                1 => plan.records[record].key[0] = platform(n),
                _ => {
                    plan.records[record].key[0] = n.pick(&[239, 240, 255, 256]);
                    plan.records[record].key[2] |= 0x8000;
                }
            }
            plan.records.sort_by_key(|record| record.key);
        }
        19..=22 if records > 1 => {
            // Several faults at one record: which is told depends on their order.
            let later = 1 + n.below(records - 1);
            if n.chance(2, 3) {
                let [length, offset] = string_at_edge(n, storage);
                (plan.records[later].length, plan.records[later].offset) = (length, offset);
            }
            let before = plan.records[later - 1].key;
            match n.below(4) {
                0 => plan.records[later].key = before,
                1 | 2 => plan.records[later].key = lower_key(n, before),
                _ => {}
            }
            if n.chance(1, 2) {
                plan.records[later].key[2] = (0x8000 + plan.tags.len() + n.below(3)) as u16;
            }
        }
        23..=26 if records > 1 => {
            // Faults at several records, and at a tag: which is told depends on their order.
            for _ in 0..2 + n.below(2) {
                record_fault(n, plan);
            }
            if !plan.tags.is_empty() && n.chance(1, 2) {
                let tag = n.below(plan.tags.len());
                plan.tags[tag] = string_at_edge(n, storage);
            }
        }
        _ => {
            // The storage loses or gains a byte, so that the last string passes its end or doesn't reach it.
            if n.chance(3, 4) {
                plan.storage.pop();
            } else {
                plan.storage.push(0);
            }
        }
    }
}

/// A key below this one, as far as its part that is lowered is not 0. A later part doesn't outweigh it.
pub fn lower_key(n: &mut Numbers, mut key: Key) -> Key {
    let part = n.below(4);
    key[part] = key[part].saturating_sub(n.pick(&[1, 1, 2, 256]));
    if part < 3 && n.chance(1, 2) {
        key[3] = n.word();
    }
    key
}

/// Puts one fault into one record: a string about the storage's end, a language, the key before it or one below that.
fn record_fault(n: &mut Numbers, plan: &mut Plan) {
    let number = n.below(plan.records.len());
    let storage = plan.storage.len();
    match n.below(6) {
        0..=2 => {
            let [length, offset] = string_at_edge(n, storage);
            (plan.records[number].length, plan.records[number].offset) = (length, offset);
        }
        3 => plan.records[number].key[2] = (0x8000 + plan.tags.len() + n.below(3)) as u16,
        4 if number > 0 => plan.records[number].key = plan.records[number - 1].key,
        _ if number > 0 => {
            plan.records[number].key = lower_key(n, plan.records[number - 1].key);
        }
        _ => {}
    }
}

/// Length and offset about the end of the storage, and where their sum passes 65,535.
fn string_at_edge(n: &mut Numbers, storage: usize) -> [u16; 2] {
    let (length, offset) = match n.below(16) {
        0 | 1 => {
            let (offset, length) = place_in(n, storage);
            (length + 1, offset)
        }
        2 => {
            let offset = n.below(storage + 1);
            (storage - offset + 1, offset)
        }
        3 => {
            let offset = n.below(storage + 1);
            (storage - offset, offset)
        }
        // At the end, and one byte beyond it.
        4 => (0, storage),
        5 => (n.pick(&[1, 1, 2, 65_535]), storage),
        6 => (0, storage + 1),
        7 => (n.pick(&[1, 2, 65_535]), storage + 1),
        // Farther beyond it.
        8 => {
            let more = 2 + n.below(300);
            (n.pick(&[0, 1, more]), storage + more)
        }
        9 => (0, 65_535),
        10 => (n.pick(&[1, 2, 3]), 65_535),
        11 => (65_535, n.pick(&[0, 1, 2, 3])),
        12 => (65_535, 65_535),
        13 => (65_536 - storage.min(65_536), storage),
        // From before the end, so that the sum is 0 or little in 16 bits.
        14 => {
            let offset = n.below(storage + 1).min(65_535);
            (65_536 - offset + n.below(3), offset)
        }
        _ => (usize::from(n.word()), usize::from(n.word())),
    };
    [length.min(65_535) as u16, offset.min(65_535) as u16]
}

/// Cuts the bytes, lengthens them, or changes one of them.
pub fn byte_fault(n: &mut Numbers, bytes: &mut Vec<u8>, edges: &[usize]) {
    let length = bytes.len();
    match n.below(6) {
        0 => {
            let edge = n.pick(edges) + n.below(3);
            bytes.truncate(edge.saturating_sub(1));
        }
        1 => bytes.truncate(n.below(length + 1)),
        2 => bytes.truncate(length.saturating_sub(1)),
        3 => {
            let more = 1 + n.below(4);
            bytes.extend(n.bytes(more));
        }
        4 if length > 0 => {
            let place = n.below(length);
            bytes[place] = n.next() as u8;
        }
        _ if length > 1 => {
            let place = 2 * n.below((length / 2).min(64));
            bytes[place..place + 2].copy_from_slice(&n.word().to_be_bytes());
        }
        _ => bytes.clear(),
    }
}

// ---- 'OS/2'

pub const WEIGHT: usize = 2;
pub const WIDTH: usize = 3;
const FS_TYPE: usize = 4;
pub const FS_SELECTION: usize = 31;
const LOWER: usize = 46;
const UPPER: usize = 47;

/// The lowest and the highest number of a field.
pub fn range(field: usize) -> (i64, i64) {
    let numbers = 1_i64 << (8 * FIELDS[field].bytes);
    if FIELDS[field].signed {
        (-numbers / 2, numbers / 2 - 1)
    } else {
        (0, numbers - 1)
    }
}

/// Values that keep all rules in this version.
pub fn valid_values(n: &mut Numbers, version: i64) -> [i64; 48] {
    let mut values = [0; 48];
    for (field, value) in values.iter_mut().enumerate() {
        let (lowest, highest) = range(field);
        *value = match n.below(4) {
            0 => n.pick(&[lowest, highest, 0, 1, highest - 1, lowest + 1]),
            _ => lowest + n.below((highest - lowest + 1) as usize) as i64,
        };
    }
    values[0] = version;
    values[WEIGHT] = match n.below(4) {
        0 => n.pick(&[1, 2, 400, 700, 999, 1000]),
        _ => 1 + n.below(1000) as i64,
    };
    values[WIDTH] = 1 + n.below(9) as i64;
    // Before version 3 the bits 1 to 3 may stand together.
    let rights = if version < 3 {
        n.pick(&[0, 2, 4, 6, 8, 10, 12, 14])
    } else {
        n.pick(&[0, 2, 4, 8])
    };
    values[FS_TYPE] = rights | n.pick(&[0, 0x100, 0x200, 0x300]);
    let bits = if version < 4 { 7 } else { 10 };
    let mut selection = n.below(1 << bits) as i64;
    if selection & 0x40 != 0 {
        selection &= !0x21;
    }
    values[FS_SELECTION] = selection;
    (values[LOWER], values[UPPER]) = match n.below(6) {
        0 => (0, 65_535),
        1 => (n.pick(&[1, 19, 20, 65_534]), 65_535),
        2 => (n.below(65_535) as i64, 65_535),
        3 => n.pick(&[(0, 1), (0, 65_534), (65_533, 65_534), (1, 2)]),
        _ => {
            let lower = n.below(65_534) as i64;
            (lower, lower + 1 + n.below((65_535 - lower) as usize) as i64)
        }
    };
    values
}

/// Breaks a rule at its edge, or comes to an edge where it is kept yet.
pub fn break_rule(n: &mut Numbers, values: &mut [i64; 48]) {
    match n.below(7) {
        0 => values[WEIGHT] = n.pick(&[0, 1001, 1, 1000, 65_535, 256 * 400]).min(65_535),
        1 => values[WIDTH] = n.pick(&[0, 10, 1, 9, 256, 257, 65_535]),
        2 => values[FS_TYPE] |= 1 << n.below(16),
        // From version 3 on this breaks rule 4; before it, it breaks no rule.
        3 => values[FS_TYPE] = n.pick(&[6, 10, 12, 14]) | n.pick(&[0, 0x100, 0x200, 0x300]),
        4 => values[FS_SELECTION] |= 1 << n.below(16),
        5 => {
            values[FS_SELECTION] =
                (values[FS_SELECTION] | 0x40) & !0x21 | n.pick(&[0, 1, 0x20, 0x21])
        }
        _ => {
            (values[LOWER], values[UPPER]) = match n.below(4) {
                0 => (values[LOWER], values[LOWER]),
                1 => ((values[LOWER] + 1).min(65_535), values[LOWER]),
                2 => n.pick(&[
                    (0, 0),
                    (65_535, 65_535),
                    (65_535, 0),
                    (65_535, 65_534),
                    (1, 0),
                ]),
                _ => (values[UPPER], values[LOWER]),
            };
        }
    }
}

/// The bytes of all 48 fields.
pub fn encoded(values: &[i64; 48]) -> Vec<u8> {
    let mut bytes = vec![0; 100];
    for (field, value) in FIELDS.iter().zip(values) {
        let eight = value.to_be_bytes();
        bytes[field.offset..field.offset + field.bytes].copy_from_slice(&eight[8 - field.bytes..]);
    }
    bytes
}

pub fn os2(n: &mut Numbers) -> Vec<u8> {
    let version = match n.below(20) {
        0..=14 => n.below(6) as u16,
        15..=17 => n.pick(&[6, 7, 65_535]),
        18 => n.pick(&[255, 256, 0x0400, 0x0500, 0x7FFF, 0x8000]),
        _ => n.word(),
    };
    let mut values = valid_values(n, i64::from(version));
    match n.below(10) {
        0..=2 => break_rule(n, &mut values),
        3 => {
            break_rule(n, &mut values);
            break_rule(n, &mut values);
        }
        _ => {}
    }
    // Behind the version's size stand bytes that are not to be read.
    let mut bytes = encoded(&values);
    let after = n.below(30);
    bytes.extend(n.bytes(after));
    let size = size(u32::from(version));
    match n.below(20) {
        0..=9 => bytes.truncate(size),
        10 | 11 => bytes.truncate(size - 1),
        12 => bytes.truncate(size + 1),
        13 | 14 => bytes.truncate(n.pick(&[77, 78, 85, 86, 95, 96, 99, 100])),
        15 => bytes.truncate(n.pick(&[0, 1, 2, 3, 68, 76])),
        16 => {
            bytes.truncate(size);
            byte_fault(n, &mut bytes, &[78, 86, 96, 100]);
        }
        _ => {}
    }
    bytes
}

fn values_to_write(n: &mut Numbers) -> [i64; 48] {
    let version = n.below(6) as i64;
    let mut values = valid_values(n, version);
    match n.below(10) {
        0..=2 => break_rule(n, &mut values),
        3 => {
            break_rule(n, &mut values);
            break_rule(n, &mut values);
        }
        _ => {}
    }
    // Fields that the version lacks hold anything.
    if n.chance(1, 2) {
        for field in 0..48 {
            if i64::from(FIELDS[field].since) > version {
                values[field] = misfit(n, field);
            }
        }
    }
    let faults = match n.below(10) {
        0..=5 => 0,
        6..=8 => 1,
        _ => 2,
    };
    for _ in 0..faults {
        let field = n.below(48);
        values[field] = misfit(n, field);
    }
    if n.chance(1, 12) {
        values[0] = n.pick(&[
            -1,
            6,
            7,
            255,
            256,
            65_535,
            65_536,
            65_536 + version,
            (1 << 32) + version,
            version - 65_536,
            i64::MIN,
            i64::MIN + version,
            i64::MAX,
        ]);
    }
    values
}

/// A number that is one past a field's range, or farther; sometimes one at its edge that fits.
fn misfit(n: &mut Numbers, field: usize) -> i64 {
    let (lowest, highest) = range(field);
    match n.below(8) {
        0 | 1 => lowest - 1,
        2 | 3 => highest + 1,
        4 => n.pick(&[
            i64::MIN,
            i64::MAX,
            i64::MIN + 1,
            -1,
            1 << 32,
            1 << 16,
            -(1 << 32),
        ]),
        5 => n.pick(&[lowest, highest]),
        // The same low bytes as a number that fits.
        6 => (highest + 1 + n.below(1000) as i64).wrapping_add((n.next() as i64) & !0xFFFF_FFFF),
        _ => n.next() as i64,
    }
}
