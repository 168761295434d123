//! Plain safe Rust: the rules written down one after the other, each number read where it is wanted.

use crate::answers::{
    self, Answer, Compared, Entry, LookedUp, Optical, Refusal, Request, Result, Text, Version,
    Written, refuse, refuse_at,
};
use std::cmp::Ordering;

fn u16_at(t: &[u8], at: usize) -> u16 {
    u16::from_be_bytes([t[at], t[at + 1]])
}

fn u32_at(t: &[u8], at: usize) -> u32 {
    u32::from_be_bytes([t[at], t[at + 1], t[at + 2], t[at + 3]])
}

// ---- 'name'

type Key = (u16, u16, u16, u16);

struct Record {
    platform: u16,
    encoding: u16,
    language: u16,
    name: u16,
    length: u16,
    offset: u16,
}

impl Record {
    fn read(t: &[u8], i: usize) -> Record {
        let at = 6 + 12 * i;
        Record {
            platform: u16_at(t, at),
            encoding: u16_at(t, at + 2),
            language: u16_at(t, at + 4),
            name: u16_at(t, at + 6),
            length: u16_at(t, at + 8),
            offset: u16_at(t, at + 10),
        }
    }

    fn key(&self) -> Key {
        (self.platform, self.encoding, self.language, self.name)
    }
}

#[inline(never)]
pub fn check(t: &[u8]) -> Result<()> {
    if t.len() < 6 {
        return refuse(10);
    }
    let format = u16_at(t, 0);
    if format > 1 {
        return refuse(11);
    }
    let count = u16_at(t, 2) as usize;
    let storage = u16_at(t, 4) as usize;
    let mut end = 6 + 12 * count;
    if t.len() < end {
        return refuse(12);
    }
    let mut tags = 0;
    let mut tags_at = end;
    if format == 1 {
        if t.len() < end + 2 {
            return refuse(13);
        }
        tags = u16_at(t, end) as usize;
        tags_at = end + 2;
        end = tags_at + 4 * tags;
        if t.len() < end {
            return refuse(13);
        }
    }
    if storage < end || t.len() < storage {
        return refuse(14);
    }
    let mut before: Option<Key> = None;
    for i in 0..count {
        let record = Record::read(t, i);
        let start = storage + record.offset as usize;
        if t.len() < start + record.length as usize {
            return refuse_at(if t.len() < start { 15 } else { 27 }, i);
        }
        if record.language >= 0x8000 {
            let allowed = if format == 0 {
                (240..=255).contains(&record.platform)
            } else {
                (record.language as usize) < 0x8000 + tags
            };
            if !allowed {
                return refuse_at(18, i);
            }
        }
        if let Some(before) = before
            && record.key() <= before
        {
            return refuse_at(if record.key() < before { 17 } else { 19 }, i);
        }
        before = Some(record.key());
    }
    for i in 0..tags {
        let at = tags_at + 4 * i;
        if t.len() < storage + u16_at(t, at + 2) as usize + u16_at(t, at) as usize {
            return refuse_at(16, i);
        }
    }
    Ok(())
}

/// The record that has the key, and how many records were looked at. In place in `find`, where nobody asks for the count.
#[inline(always)]
fn search(t: &[u8], key: Key) -> (Option<Text>, usize) {
    let mut low = 0;
    let mut high = u16_at(t, 2) as usize;
    let mut looked = 0;
    while low < high {
        let middle = (low + high) / 2;
        let record = Record::read(t, middle);
        looked += 1;
        match record.key().cmp(&key) {
            Ordering::Less => low = middle + 1,
            Ordering::Greater => high = middle,
            Ordering::Equal => {
                let text = Text {
                    start: u16_at(t, 4) as usize + record.offset as usize,
                    length: record.length as usize,
                    record: middle,
                };
                return (Some(text), looked);
            }
        }
    }
    (None, looked)
}

fn find(t: &[u8], key: Key) -> Option<Text> {
    search(t, key).0
}

/// What a lookup tells of a search, where the check has passed.
pub fn told((found, looked): (Option<Text>, usize)) -> LookedUp {
    LookedUp {
        answer: found.map_or(refuse(20), Ok),
        looked,
    }
}

/// What it tells of a table that is refused.
pub fn refused_table(refusal: Refusal) -> LookedUp {
    LookedUp {
        answer: Err(refusal),
        looked: 0,
    }
}

#[inline(never)]
pub fn lookup(t: &[u8], key: [u16; 4]) -> LookedUp {
    match check(t) {
        Ok(()) => told(search(t, (key[0], key[1], key[2], key[3]))),
        Err(refusal) => refused_table(refusal),
    }
}

fn bytes(t: &[u8], text: Text) -> &[u8] {
    &t[text.start..text.start + text.length]
}

/// The bytes of a record's string.
fn string<'a>(t: &'a [u8], record: &Record) -> &'a [u8] {
    let start = u16_at(t, 4) as usize + record.offset as usize;
    &t[start..start + record.length as usize]
}

/// The keys in which two accepted tables differ, in their order, each with 1 for only left, 2 for only right, 3 for other bytes.
struct KeyDifferences<'a> {
    left: &'a [u8],
    right: &'a [u8],
    i: usize,
    j: usize,
}

impl Iterator for KeyDifferences<'_> {
    type Item = (Key, u16);

    fn next(&mut self) -> Option<(Key, u16)> {
        loop {
            let here = self.i < u16_at(self.left, 2) as usize;
            let there = self.j < u16_at(self.right, 2) as usize;
            let order = match (here, there) {
                (false, false) => return None,
                (true, false) => Ordering::Less,
                (false, true) => Ordering::Greater,
                (true, true) => Record::read(self.left, self.i)
                    .key()
                    .cmp(&Record::read(self.right, self.j).key()),
            };
            match order {
                Ordering::Less => {
                    self.i += 1;
                    return Some((Record::read(self.left, self.i - 1).key(), 1));
                }
                Ordering::Greater => {
                    self.j += 1;
                    return Some((Record::read(self.right, self.j - 1).key(), 2));
                }
                Ordering::Equal => {
                    let [a, b] = [
                        Record::read(self.left, self.i),
                        Record::read(self.right, self.j),
                    ];
                    self.i += 1;
                    self.j += 1;
                    if string(self.left, &a) != string(self.right, &b) {
                        return Some((a.key(), 3));
                    }
                }
            }
        }
    }
}

const TOO_MANY: (u32, Refusal) = (
    0,
    Refusal {
        number: 29,
        carried: 0,
    },
);

#[inline(never)]
pub fn compare_names(left: &[u8], right: &[u8], room: &mut [u16]) -> Compared {
    check(left).map_err(|r| (1, r))?;
    check(right).map_err(|r| (2, r))?;
    let differences = || KeyDifferences {
        left,
        right,
        i: 0,
        j: 0,
    };
    let count = differences().count();
    if room.len() / 5 < count {
        return Err(TOO_MANY);
    }
    for (row, (key, which)) in room.chunks_exact_mut(5).take(count).zip(differences()) {
        row.copy_from_slice(&[key.0, key.1, key.2, key.3, which]);
    }
    Ok(count)
}

fn allowed(byte: u8) -> bool {
    (33..=126).contains(&byte) && !b"[](){}<>/%".contains(&byte)
}

#[inline(never)]
pub fn postscript(t: &[u8]) -> Result<Text> {
    check(t)?;
    postscript_of(t, find(t, (1, 0, 0, 6)), find(t, (3, 1, 0x409, 6)), allowed)
}

pub fn postscript_of(
    t: &[u8],
    one: Option<Text>,
    two: Option<Text>,
    allowed: impl Fn(u8) -> bool,
) -> Result<Text> {
    let (one, two) = match (one, two) {
        (None, None) => return refuse(21),
        (Some(one), Some(two)) => (one, two),
        _ => return refuse(22),
    };
    let first = bytes(t, one);
    let second = bytes(t, two);
    let first_formed = (1..=63).contains(&first.len()) && first.iter().all(|&b| allowed(b));
    let second_formed = second.len().is_multiple_of(2)
        && (1..=63).contains(&(second.len() / 2))
        && second.chunks_exact(2).all(|c| c[0] == 0 && allowed(c[1]));
    if !first_formed || !second_formed {
        return refuse(23);
    }
    if first.len() != second.len() / 2
        || first
            .iter()
            .zip(second.chunks_exact(2))
            .any(|(&a, c)| a != c[1])
    {
        return refuse(24);
    }
    Ok(one)
}

fn character(text: &[u8], wide: bool, i: usize) -> Option<u8> {
    if !wide {
        return text.get(i).copied();
    }
    if text.len() <= 2 * i + 1 {
        return None;
    }
    if text[2 * i] == 0 {
        Some(text[2 * i + 1])
    } else {
        Some(0)
    }
}

fn digit(text: &[u8], wide: bool, i: usize) -> Option<u32> {
    match character(text, wide, i) {
        Some(c) if c.is_ascii_digit() => Some((c - b'0') as u32),
        _ => None,
    }
}

/// The figure of the digits from `at` on, which stands still above 65,535, and where they end.
fn group(text: &[u8], wide: bool, mut at: usize) -> (u32, usize) {
    let mut figure = 0;
    while let Some(d) = digit(text, wide, at) {
        figure = (figure * 10 + d).min(65535);
        at += 1;
    }
    (figure, at)
}

fn version_in(text: &[u8], wide: bool) -> Option<(u16, u16)> {
    if wide && text.len() % 2 == 1 {
        return None;
    }
    let count = if wide { text.len() / 2 } else { text.len() };
    for start in 0..count {
        if digit(text, wide, start).is_none()
            || (start > 0 && digit(text, wide, start - 1).is_some())
        {
            continue;
        }
        let (major, period) = group(text, wide, start);
        if character(text, wide, period) != Some(b'.') || digit(text, wide, period + 1).is_none() {
            continue;
        }
        let (minor, _) = group(text, wide, period + 1);
        if major < 65535 && minor < 65535 {
            return Some((major as u16, minor as u16));
        }
    }
    None
}

#[inline(never)]
pub fn version(t: &[u8]) -> Result<Version> {
    check(t)?;
    version_of(t, find(t, (3, 1, 0x409, 5)), || find(t, (1, 0, 0, 5)))
}

pub fn version_of(
    t: &[u8],
    wide: Option<Text>,
    narrow: impl FnOnce() -> Option<Text>,
) -> Result<Version> {
    let (text, two_bytes) = if let Some(text) = wide {
        (text, true)
    } else if let Some(text) = narrow() {
        (text, false)
    } else {
        return refuse(20);
    };
    match version_in(bytes(t, text), two_bytes) {
        Some((major, minor)) => Ok(Version {
            major,
            minor,
            record: text.record,
        }),
        None => refuse(25),
    }
}

// ---- 'OS/2'

pub struct Field {
    pub offset: usize,
    pub width: usize,
    pub signed: bool,
    pub since: u32,
}

const fn field_at(offset: usize, width: usize, signed: bool, since: u32) -> Field {
    Field {
        offset,
        width,
        signed,
        since,
    }
}

pub static FIELDS: [Field; 48] = {
    let mut fields = [const { field_at(0, 2, false, 0) }; 48];
    let mut k = 0;
    let mut offset = 0;
    while k < 48 {
        let width = match k {
            16..=25 => 1,
            26..=30 | 39..=40 => 4,
            _ => 2,
        };
        let signed = matches!(k, 1 | 5..=15 | 34..=36 | 41..=42);
        let since = match k {
            0..=38 => 0,
            39..=40 => 1,
            41..=45 => 2,
            _ => 5,
        };
        fields[k] = field_at(offset, width, signed, since);
        offset += width;
        k += 1;
    }
    fields
};

pub fn size(version: u32) -> usize {
    match version {
        0 => 78,
        1 => 86,
        2..=4 => 96,
        _ => 100,
    }
}

pub struct Values {
    pub version: u32,
    pub weight: u16,
    pub width: u16,
    pub fstype: u16,
    pub fsselection: u16,
    pub lower: u16,
    pub upper: u16,
}

pub fn rules(v: &Values) -> Result<()> {
    if !(1..=1000).contains(&v.weight) {
        return refuse_at(3, 1);
    }
    if !(1..=9).contains(&v.width) {
        return refuse_at(3, 2);
    }
    if v.fstype & 0xfcf1 != 0 {
        return refuse_at(3, 3);
    }
    if v.version >= 3 && (v.fstype & 0xe).count_ones() > 1 {
        return refuse_at(3, 4);
    }
    if v.fsselection & 0xfc00 != 0 || (v.version < 4 && v.fsselection & 0x0380 != 0) {
        return refuse_at(3, 5);
    }
    if v.fsselection & 0x40 != 0 && v.fsselection & 0x21 != 0 {
        return refuse_at(3, 6);
    }
    if v.version == 5 && v.lower >= v.upper {
        return refuse_at(3, 7);
    }
    Ok(())
}

fn accepted(t: &[u8], level: u32) -> Result<u32> {
    if t.len() < 2 {
        return refuse(2);
    }
    let version = u16_at(t, 0) as u32;
    if t.len() < size(version.min(level)) {
        return refuse(2);
    }
    if version <= level {
        rules(&Values {
            version,
            weight: u16_at(t, 4),
            width: u16_at(t, 6),
            fstype: u16_at(t, 8),
            fsselection: u16_at(t, 62),
            lower: if version == 5 { u16_at(t, 96) } else { 0 },
            upper: if version == 5 { u16_at(t, 98) } else { 0 },
        })?;
    }
    Ok(version)
}

/// The refusals before a question's answer; the table's version.
fn opened(t: &[u8], level: u32, number: u32, most: u32, own: u32) -> Result<u32> {
    if level > 5 {
        return refuse(1);
    }
    if number > most {
        return refuse(own);
    }
    accepted(t, level)
}

#[inline(never)]
pub fn check_os2(t: &[u8], level: u32) -> Result<()> {
    opened(t, level, 0, 0, 0).map(|_| ())
}

pub fn value(t: &[u8], f: &Field) -> i64 {
    match f.width {
        1 => t[f.offset] as i64,
        2 if f.signed => u16_at(t, f.offset) as i16 as i64,
        2 => u16_at(t, f.offset) as i64,
        _ => u32_at(t, f.offset) as i64,
    }
}

fn by_since<T>(since: u32, level: u32, version: u32, value: impl FnOnce() -> T) -> Answer<T> {
    if since > level {
        Answer::NotKnown
    } else if since > version {
        Answer::Absent
    } else {
        Answer::Value(value())
    }
}

#[inline(never)]
pub fn field(t: &[u8], level: u32, number: u32) -> Result<Answer<i64>> {
    let version = opened(t, level, number, 47, 6)?;
    let f = &FIELDS[number as usize];
    Ok(by_since(f.since, level, version, || value(t, f)))
}

#[inline(never)]
pub fn compare_os2(left: &[u8], right: &[u8], level: u32, room: &mut [i64]) -> Compared {
    if level > 5 {
        return refuse(1).map_err(|r| (0, r));
    }
    let versions = [
        accepted(left, level).map_err(|r| (1, r))?,
        accepted(right, level).map_err(|r| (2, r))?,
    ];
    let differences = || {
        FIELDS.iter().enumerate().filter_map(|(k, f)| {
            let a = by_since(f.since, level, versions[0], || value(left, f));
            let b = by_since(f.since, level, versions[1], || value(right, f));
            (a != b).then_some((k, a, b))
        })
    };
    let count = differences().count();
    if room.len() / 5 < count {
        return Err(TOO_MANY);
    }
    let said = |answer: Answer<i64>| match answer {
        Answer::Value(x) => (1, x),
        Answer::Absent => (2, 0),
        Answer::NotKnown => (3, 0),
    };
    for (row, (k, a, b)) in room.chunks_exact_mut(5).take(count).zip(differences()) {
        let (a, b) = (said(a), said(b));
        row.copy_from_slice(&[k as i64, a.0, a.1, b.0, b.1]);
    }
    Ok(count)
}

#[inline(never)]
pub fn selection_bit(t: &[u8], level: u32, number: u32) -> Result<Answer<i64>> {
    let version = opened(t, level, number, 9, 7)?;
    let since = if number < 7 { 0 } else { 4 };
    Ok(by_since(since, level, version, || {
        (u16_at(t, 62) >> number & 1) as i64
    }))
}

#[inline(never)]
pub fn unicode_bit(t: &[u8], level: u32, number: u32) -> Result<Answer<i64>> {
    let version = opened(t, level, number, 127, 7)?;
    let range = 42 + 4 * (number / 32) as usize;
    Ok(by_since(0, level, version, || {
        (u32_at(t, range) >> (number % 32) & 1) as i64
    }))
}

#[inline(never)]
pub fn code_page_bit(t: &[u8], level: u32, number: u32) -> Result<Answer<i64>> {
    let version = opened(t, level, number, 63, 7)?;
    let pages = 78 + 4 * (number / 32) as usize;
    Ok(by_since(1, level, version, || {
        (u32_at(t, pages) >> (number % 32) & 1) as i64
    }))
}

#[inline(never)]
pub fn rights(t: &[u8], level: u32) -> Result<Answer<u32>> {
    let version = opened(t, level, 0, 0, 0)?;
    if version > level {
        return Ok(Answer::NotKnown);
    }
    let fstype = u16_at(t, 8);
    Ok(Answer::Value(if fstype & 8 != 0 {
        3
    } else if fstype & 4 != 0 {
        2
    } else if fstype & 2 != 0 {
        1
    } else {
        0
    }))
}

#[inline(never)]
pub fn style_position(t: &[u8], level: u32) -> Result<Answer<(f32, f32)>> {
    let version = opened(t, level, 0, 0, 0)?;
    if version > level {
        return Ok(Answer::NotKnown);
    }
    let percents = [50.0, 62.5, 75.0, 87.5, 100.0, 112.5, 125.0, 150.0, 200.0];
    let width = u16_at(t, 6) as usize;
    Ok(Answer::Value((u16_at(t, 4) as f32, percents[width - 1])))
}

#[inline(never)]
pub fn optical_sizes(t: &[u8], level: u32) -> Result<Answer<Optical>> {
    let version = opened(t, level, 0, 0, 0)?;
    if version > level || level < 5 {
        return Ok(Answer::NotKnown);
    }
    if version < 5 {
        return Ok(Answer::Absent);
    }
    let points = |at| u16_at(t, at) as f32 / 20.0;
    Ok(Answer::Value(match (u16_at(t, 96), u16_at(t, 98)) {
        (0, 65535) => Optical::Every,
        (_, 65535) => Optical::Upwards(points(96)),
        _ => Optical::Between(points(96), points(98)),
    }))
}

pub fn fits(f: &Field, x: i64) -> bool {
    match (f.width, f.signed) {
        (1, _) => (0..=0xff).contains(&x),
        (2, true) => (-0x8000..=0x7fff).contains(&x),
        (2, false) => (0..=0xffff).contains(&x),
        _ => (0..=0xffff_ffff).contains(&x),
    }
}

#[inline(never)]
pub fn write(numbers: &[i64; 48], room: &mut [u8]) -> Written {
    let Ok(version @ 0..=5) = u32::try_from(numbers[0]) else {
        return refuse(4);
    };
    let size = size(version);
    if room.len() < size {
        return refuse(5);
    }
    for (k, f) in FIELDS.iter().enumerate() {
        if f.since <= version && !fits(f, numbers[k]) {
            return refuse_at(8, k);
        }
    }
    rules(&Values {
        version,
        weight: numbers[2] as u16,
        width: numbers[3] as u16,
        fstype: numbers[4] as u16,
        fsselection: numbers[31] as u16,
        lower: numbers[46] as u16,
        upper: numbers[47] as u16,
    })?;
    for (f, &x) in FIELDS.iter().zip(numbers) {
        if f.since <= version {
            let bytes = x.to_be_bytes();
            room[f.offset..f.offset + f.width].copy_from_slice(&bytes[8 - f.width..]);
        }
    }
    Ok(size)
}

fn entry_key(e: &Entry) -> [u16; 4] {
    [e.platform, e.encoding, e.language, e.name]
}

#[inline(never)]
pub fn write_names(entries: &[Entry], pool: &[u8], room: &mut [u8]) -> Written {
    if entries.len() > 5460 {
        return refuse(30);
    }
    let mut offset = 0;
    for (i, e) in entries.iter().enumerate() {
        let length = usize::from(e.length);
        if e.start
            .checked_add(length)
            .is_none_or(|end| end > pool.len())
        {
            return refuse_at(31, i);
        }
        if e.language >= 0x8000 && !(240..=255).contains(&e.platform) {
            return refuse_at(18, i);
        }
        if i > 0 {
            let before = entry_key(&entries[i - 1]);
            if entry_key(e) < before {
                return refuse_at(17, i);
            }
            if entry_key(e) == before {
                return refuse_at(19, i);
            }
        }
        if offset > 65535 {
            return refuse_at(32, i);
        }
        offset += length;
    }
    let storage = 6 + 12 * entries.len();
    if room.len() < storage + offset {
        return refuse(33);
    }
    let mut put = |at: usize, x: u16| room[at..at + 2].copy_from_slice(&x.to_be_bytes());
    put(0, 0);
    put(2, entries.len() as u16);
    put(4, storage as u16);
    let mut offset = 0;
    for (i, e) in entries.iter().enumerate() {
        let at = 6 + 12 * i;
        let mut put = |at: usize, x: u16| room[at..at + 2].copy_from_slice(&x.to_be_bytes());
        put(at, e.platform);
        put(at + 2, e.encoding);
        put(at + 4, e.language);
        put(at + 6, e.name);
        put(at + 8, e.length);
        put(at + 10, offset as u16);
        let start = storage + offset;
        let length = usize::from(e.length);
        room[start..start + length].copy_from_slice(&pool[e.start..e.start + length]);
        offset += length;
    }
    Ok(storage + offset)
}

// ---- a chooser for the rack

#[derive(Clone, Copy)]
struct Face {
    weight: u16,
    width: u16,
    sloped: bool,
    length: u8,
    family: [u8; 64],
}

impl Face {
    fn family(&self) -> &[u8] {
        &self.family[..usize::from(self.length)]
    }
}

#[derive(Clone, Copy)]
pub struct Rack {
    slots: [Option<Face>; 32],
}

impl Rack {
    #[inline(never)]
    pub fn empty() -> Rack {
        Rack {
            slots: [const { None }; 32],
        }
    }

    /// What each slot holds.
    pub fn faces(&self) -> [Option<answers::Face>; 32] {
        self.slots.each_ref().map(|slot| {
            slot.as_ref().map(|face| answers::Face {
                weight: face.weight,
                width: face.width,
                sloped: face.sloped,
                family: face.family().to_vec(),
            })
        })
    }
}

#[inline(never)]
pub fn load(rack: &mut Rack, slot: u32, level: u32, os2: &[u8], name: &[u8]) -> Result<()> {
    if level > 5 {
        return refuse(1);
    }
    let Some(slot) = rack.slots.get_mut(slot as usize) else {
        return refuse(54);
    };
    if slot.is_some() {
        return refuse(53);
    }
    if accepted(os2, level)? > level {
        return refuse(52);
    }
    check(name)?;
    let found = find(name, (3, 1, 0x409, 16)).or_else(|| find(name, (3, 1, 0x409, 1)));
    let Some(text) = found else {
        return refuse(20);
    };
    let text = bytes(name, text);
    if text.is_empty() || text.len() > 64 {
        return refuse(51);
    }
    let mut family = [0; 64];
    family[..text.len()].copy_from_slice(text);
    *slot = Some(Face {
        weight: u16_at(os2, 4),
        width: u16_at(os2, 6),
        sloped: u16_at(os2, 62) & 1 != 0,
        length: text.len() as u8,
        family,
    });
    Ok(())
}

#[inline(never)]
pub fn unload(rack: &mut Rack, slot: u32) -> Result<()> {
    let Some(slot) = rack.slots.get_mut(slot as usize) else {
        return refuse(54);
    };
    if slot.is_none() {
        return refuse(55);
    }
    *slot = None;
    Ok(())
}

#[inline(never)]
pub fn request(rack: &Rack, wanted: &Request) -> Result<u32> {
    let faces = rack.slots.iter().enumerate();
    let chosen = faces
        .filter_map(|(i, slot)| Some((i, slot.as_ref()?)))
        .filter(|(_, face)| face.family() == wanted.family)
        .min_by_key(|(i, face)| {
            (
                face.sloped != wanted.sloped,
                wanted.width.abs_diff(face.width.into()),
                wanted.weight.abs_diff(face.weight.into()),
                face.weight,
                *i,
            )
        });
    match chosen {
        Some((i, _)) => Ok(i as u32),
        None => refuse(50),
    }
}
