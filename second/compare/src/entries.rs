//! A list of entries to write and the pool with their texts, and how both are lent to the sides.

use std::ops::Range;

use crate::numbers::Numbers;
use crate::raw;

/// One entry: its four numbers, and the start and the length of its text in the pool.
#[derive(Clone, Copy, Debug, PartialEq, Eq)]
pub struct Entry {
    pub key: [u16; 4],
    pub start: u64,
    pub length: u16,
}

/// A list of entries, and the pool.
#[derive(Clone, Debug, Default, PartialEq, Eq)]
pub struct List {
    pub entries: Vec<Entry>,
    pub pool: Vec<u8>,
}

impl List {
    /// The entries as lines: platform, encoding, language, name, start, length.
    pub fn lines(&self) -> String {
        let line = |entry: &Entry| {
            let [platform, encoding, language, name] = entry.key;
            let Entry { start, length, .. } = entry;
            format!("{platform} {encoding} {language} {name} {start} {length}\n")
        };
        self.entries.iter().map(line).collect()
    }

    /// The list of such lines and this pool, or the line that is none.
    pub fn of_lines(lines: &str, pool: Vec<u8>) -> Result<List, String> {
        let entry = |line: &str| {
            let mut words = line.split_whitespace();
            let mut next = || words.next()?.parse::<u64>().ok();
            let mut short = || u16::try_from(next()?).ok();
            let key = [short()?, short()?, short()?, short()?];
            let (start, length) = (next()?, next()?);
            let length = u16::try_from(length).ok()?;
            let entry = Entry { key, start, length };
            words.next().is_none().then_some(entry)
        };
        let entries = lines
            .lines()
            .map(|line| entry(line).ok_or(format!("\"{line}\" is no entry")))
            .collect::<Result<_, _>>()?;
        Ok(List { entries, pool })
    }
}

/// How many entries stand before and behind those that are lent.
const STRANGERS: usize = 2;

/// The entries and the pool as each side wants them, with others before and behind them.
#[derive(Clone, PartialEq)]
struct Around {
    second: Vec<second::name::Entry>,
    archive: Vec<raw::Entry>,
    krate: Vec<gyalvindor::name::Entry>,
    bytes: Vec<u8>,
}

/// Entries and pool in the middle of other entries and of other bytes, which change with the list, so that a side that reads
/// past an end shows it.
pub struct Lent {
    around: Around,
    before: Around,
    /// Where the lent entries and the lent bytes stand.
    entries: Range<usize>,
    pool: Range<usize>,
}

impl Lent {
    pub fn new(list: &List, n: &mut Numbers) -> Lent {
        let mut all = Vec::with_capacity(list.entries.len() + 2 * STRANGERS);
        all.extend((0..STRANGERS).map(|_| stranger(list, list.entries.first(), n)));
        all.extend(&list.entries);
        all.extend((0..STRANGERS).map(|_| stranger(list, list.entries.last(), n)));

        let front = n.below(8);
        let mut bytes = n.bytes(front);
        bytes.extend(&list.pool);
        let after = 16 + n.below(8);
        bytes.extend(n.bytes(after));

        let rest = n.next().to_ne_bytes();
        let around = Around {
            second: all.iter().map(by_second).collect(),
            archive: all.iter().map(|entry| by_archive(entry, rest)).collect(),
            krate: all.iter().map(by_crate).collect(),
            bytes,
        };
        Lent {
            before: around.clone(),
            around,
            entries: STRANGERS..STRANGERS + list.entries.len(),
            pool: front..front + list.pool.len(),
        }
    }

    pub fn to_second(&self) -> &[second::name::Entry] {
        &self.around.second[self.entries.clone()]
    }

    pub fn to_archive(&self) -> &[raw::Entry] {
        &self.around.archive[self.entries.clone()]
    }

    pub fn to_crate(&self) -> &[gyalvindor::name::Entry] {
        &self.around.krate[self.entries.clone()]
    }

    pub fn pool(&self) -> &[u8] {
        &self.around.bytes[self.pool.clone()]
    }

    /// Whether entries, pool and all that is around them hold what they held.
    pub fn unchanged(&self) -> bool {
        self.around == self.before
    }
}

/// An entry that is not of the list: with the key of the one beside it, a lowest or a highest key, or any; and with a text
/// that is empty, is of the pool, or is not.
fn stranger(list: &List, beside: Option<&Entry>, n: &mut Numbers) -> Entry {
    let any = [n.word(), n.word(), n.word(), n.word()];
    let key = match beside {
        Some(entry) if n.chance(1, 2) => entry.key,
        _ => n.pick(&[[0; 4], [65_535; 4], any]),
    };
    let pool = list.pool.len();
    Entry {
        key,
        start: n.pick(&[0, pool as u64, u64::MAX]),
        length: n.pick(&[0, 1, pool.min(65_535) as u16, 65_535]),
    }
}

fn by_second(entry: &Entry) -> second::name::Entry {
    let [platform, encoding, language, name] = entry.key;
    second::name::Entry {
        platform,
        encoding,
        language,
        name,
        start: entry.start,
        length: entry.length,
    }
}

fn by_archive(entry: &Entry, rest: [u8; 8]) -> raw::Entry {
    let [platform, encoding, language, name] = entry.key;
    raw::Entry {
        platform,
        encoding,
        language,
        name,
        start: entry.start as usize,
        length: entry.length,
        rest: std::array::from_fn(|place| rest[place]),
    }
}

fn by_crate(entry: &Entry) -> gyalvindor::name::Entry {
    let [platform, encoding, language, name] = entry.key;
    gyalvindor::name::Entry {
        platform,
        encoding,
        language,
        name,
        start: entry.start as usize,
        length: entry.length,
    }
}
