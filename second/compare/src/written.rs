//! What the writer of 'name' tables has to answer and what then has to stand in the room, by a reading of the comparison's
//! own. It follows document 01 and document 02's Ask 5, and asks none of the sides.

use std::cmp::Ordering;

use crate::ask::word;
use crate::entries::{Entry, List};
use crate::faults::Refused;

/// The most entries that are written.
pub const MOST: usize = 5_460;

/// What an entry is beside the pool, the rule for languages, the entry before it, and the offsets.
#[derive(Clone, Copy)]
pub struct Read {
    /// Whether the text lies in the pool; an empty one may stand at its end.
    pub inside: bool,
    /// Whether the language number is allowed.
    pub allowed: bool,
    /// The key beside that of the entry before it; nothing for entry 0.
    pub order: Option<Ordering>,
    /// The lengths of the entries before it, in sum.
    pub offset: u64,
}

impl Read {
    /// The conditions that hold for the entry, in the order of their numbers' places: 31, then 18, then 17 or 19, then 32.
    pub fn conditions(&self) -> [Option<u32>; 4] {
        let key = match self.order {
            Some(Ordering::Less) => Some(17),
            Some(Ordering::Equal) => Some(19),
            _ => None,
        };
        [
            (!self.inside).then_some(31),
            (!self.allowed).then_some(18),
            key,
            (self.offset > 65_535).then_some(32),
        ]
    }

    /// Whether the condition of this number holds for the entry.
    pub fn has(&self, number: u32) -> bool {
        self.conditions().contains(&Some(number))
    }

    /// Whether none does.
    fn fine(&self) -> bool {
        self.conditions() == [None; 4]
    }
}

/// What the entries of a list are, and how long its table is or would be.
pub struct Reading {
    pub entries: Vec<Read>,
    pub size: usize,
}

impl Reading {
    pub fn of(list: &List) -> Reading {
        let mut entries = Vec::with_capacity(list.entries.len());
        let mut offset = 0;
        for (number, entry) in list.entries.iter().enumerate() {
            let before = number.checked_sub(1).map(|before| &list.entries[before]);
            entries.push(Read {
                inside: place(entry, &list.pool).is_some(),
                allowed: entry.key[2] < 0x8000 || (240..=255).contains(&entry.key[0]),
                order: before.map(|before| entry.key.cmp(&before.key)),
                offset,
            });
            offset += u64::from(entry.length);
        }
        let size = 6 + 12 * entries.len() + offset as usize;
        Reading { entries, size }
    }

    /// Whether there are more entries than are written.
    pub fn too_many(&self) -> bool {
        self.entries.len() > MOST
    }

    /// The refusal with a room of this length; nothing where the table is written.
    pub fn refused(&self, room: usize) -> Option<Refused> {
        if self.too_many() {
            return Some((30, None));
        }
        for (number, entry) in self.entries.iter().enumerate() {
            if let Some(fault) = entry.conditions().into_iter().flatten().next() {
                return Some((fault, Some(number)));
            }
        }
        (room < self.size).then_some((33, None))
    }

    /// Whether the list's table can be laid out: there are not too many entries, their texts lie in the pool, and no offset is
    /// too far. Its keys and languages may be false.
    pub fn can_be_laid_out(&self) -> bool {
        let fits = |entry: &Read| !entry.has(31) && !entry.has(32);
        !self.too_many() && self.entries.iter().all(fits)
    }

    /// Whether the condition of this number, which is one of an entry, holds for an entry from this one on.
    pub fn has_from(&self, from: usize, number: u32) -> bool {
        self.entries[from..].iter().any(|entry| entry.has(number))
    }

    /// How many entries have a fault.
    pub fn faulty(&self) -> usize {
        self.entries.iter().filter(|entry| !entry.fine()).count()
    }
}

/// The bytes of the pool that are an entry's text; nothing where it passes the pool's end.
pub fn place<'a>(entry: &Entry, pool: &'a [u8]) -> Option<&'a [u8]> {
    let start = usize::try_from(entry.start).ok()?;
    pool.get(start..)?.get(..usize::from(entry.length))
}

/// What the bytes of a table that was written for a list have against it; nothing where they are what they have to be. Every
/// byte is looked at.
pub fn against(list: &List, table: &[u8]) -> Option<String> {
    let count = list.entries.len();
    let storage = 6 + 12 * count;
    for (at, number, what) in [(0, 0, "format"), (2, count, "count"), (4, storage, "start")] {
        let held = word(table, at) as usize;
        if held != number {
            return Some(format!("the {what} is {number}, not {held}"));
        }
    }
    let mut offset = 0;
    for (number, entry) in list.entries.iter().enumerate() {
        let at = 6 + 12 * number;
        let [platform, encoding, language, name] = entry.key.map(usize::from);
        let length = usize::from(entry.length);
        let six = [platform, encoding, language, name, length, offset];
        let held = [0, 2, 4, 6, 8, 10].map(|part| word(table, at + part) as usize);
        if held != six {
            return Some(format!("record {number} has {six:?}, not {held:?}"));
        }
        let text = place(entry, &list.pool);
        let string = table.get(storage + offset..storage + offset + length);
        if text.is_none() || string != text {
            return Some(format!("the string of record {number} is its text"));
        }
        offset += length;
    }
    (table.len() != storage + offset).then(|| format!("the table has {} bytes", storage + offset))
}

/// The table that would be written for a list, if its keys and languages were not looked at. It can be laid out.
pub fn laid_out(list: &List) -> Vec<u8> {
    let count = list.entries.len() as u16;
    let mut words = vec![0, count, 6 + 12 * count];
    let mut storage = Vec::new();
    for entry in &list.entries {
        words.extend(entry.key);
        words.extend([entry.length, storage.len() as u16]);
        storage.extend_from_slice(place(entry, &list.pool).unwrap_or_default());
    }
    let mut table: Vec<u8> = words.iter().flat_map(|word| word.to_be_bytes()).collect();
    table.extend(storage);
    table
}
