//! What the writer of 'name' tables has met. It comes from the comparison's own reading of the entries, the pool and the room,
//! and from none of the sides.

use std::cmp::Ordering;
use std::collections::BTreeSet;
use std::fmt;

use crate::entries::{Entry, List};
use crate::faults::Front;
use crate::written::{self, Reading, MOST};

/// The numbers that tell what is wrong with an entry, in their order.
const OF_ENTRIES: [u32; 5] = [31, 18, 17, 19, 32];
/// Numbers whose conditions can hold for one entry, the one that is told first. A key that is equal to the one before it has
/// the same language, so 18 and 19 do not meet.
const TOGETHER: [(u32, u32); 8] = [
    (31, 18),
    (31, 17),
    (31, 19),
    (31, 32),
    (18, 17),
    (18, 32),
    (17, 32),
    (19, 32),
];
/// Platforms and language numbers at the edges of what is allowed.
const LANGUAGES: [(u16, u16); 10] = [
    (239, 0x7FFF),
    (239, 0x8000),
    (239, 0xFFFF),
    (240, 0x8000),
    (240, 0xFFFF),
    (255, 0x8000),
    (255, 0xFFFF),
    (256, 0x7FFF),
    (256, 0x8000),
    (256, 0xFFFF),
];
/// Lengths of tables about the most that 16 bits count.
const LENGTHS: [usize; 3] = [65_535, 65_536, 65_537];
/// Up to so many entries every two texts are held against each other, else every two that follow one another.
const FEW: usize = 64;

/// A room beside the length of the table, which is written or would be.
#[derive(Clone, Copy, Debug, PartialEq, Eq, PartialOrd, Ord)]
pub enum Room {
    Empty,
    /// It has bytes, and lacks more than one.
    Short,
    OneShort,
    Exact,
    Longer,
}

const ROOMS: [Room; 5] = [
    Room::Empty,
    Room::Short,
    Room::OneShort,
    Room::Exact,
    Room::Longer,
];

impl Room {
    fn of(size: usize, room: usize) -> Room {
        match room.cmp(&size) {
            Ordering::Less if room == 0 => Room::Empty,
            Ordering::Less if room + 1 == size => Room::OneShort,
            Ordering::Less => Room::Short,
            Ordering::Equal => Room::Exact,
            Ordering::Greater => Room::Longer,
        }
    }

    fn words(self) -> &'static str {
        match self {
            Room::Empty => "an empty room",
            Room::Short => "a room that is too short",
            Room::OneShort => "a room one byte too short",
            Room::Exact => "a room exactly as long",
            Room::Longer => "a longer room",
        }
    }
}

/// What a room that is too short has no place for.
#[derive(Clone, Copy, Debug, PartialEq, Eq, PartialOrd, Ord)]
pub enum Lack {
    Header,
    Records,
    Texts,
    /// The table has more than 65,536 bytes.
    Long,
}

const LACKS: [Lack; 4] = [Lack::Header, Lack::Records, Lack::Texts, Lack::Long];

/// An entry's text beside the pool.
#[derive(Clone, Copy, Debug, PartialEq, Eq, PartialOrd, Ord)]
pub enum Text {
    /// Empty, one byte past the pool's end.
    EmptyOnePast,
    /// Empty, farther past it.
    EmptyFar,
    /// Not empty, from the end of a pool that has bytes.
    FromEnd,
    /// Not empty, from past the end.
    FromPast,
    /// From before the end, and over it.
    FromBefore,
    /// Not empty, and one byte too long.
    OneTooLong,
    /// Empty where there is no pool, and past its end.
    EmptyPastNone,
    /// Not empty where there is no pool.
    NoPool,
    /// The start is the highest number of 64 bits, and this is the length.
    LastStart(u16),
    /// Start and length are 2 to the 64th in sum.
    WrapsToNothing,
    /// Start and length pass 2 to the 64th in sum, and in 64 bits the sum would not pass the pool's end.
    Wraps,
    /// The start has the highest of its 64 bits set.
    Negative,
    /// By the start's low 32 bits it would lie in the pool.
    Low32,
    /// By the start's low 16 bits it would lie in the pool.
    Low16,
    /// The start has 16 bits, and if the sum had it would not pass the pool's end.
    ShortSum,
    /// Empty, before the end.
    Empty,
    /// Empty, at the end of a pool that has bytes.
    EmptyAtEnd,
    /// Empty where there is no pool.
    EmptyOfNone,
    /// Not empty, and ends at the end.
    ToEnd,
    /// The whole pool, which has bytes.
    Whole,
    /// 65,535 bytes.
    Longest,
    /// The start has more than 16 bits.
    HighStart,
    /// The start has 16 bits, and start and length in sum have more.
    HighSum,
}

/// Texts that pass the pool's end.
const PASSING: [Text; 17] = [
    Text::EmptyOnePast,
    Text::EmptyFar,
    Text::FromEnd,
    Text::FromPast,
    Text::FromBefore,
    Text::OneTooLong,
    Text::EmptyPastNone,
    Text::NoPool,
    Text::LastStart(0),
    Text::LastStart(1),
    Text::LastStart(65_535),
    Text::WrapsToNothing,
    Text::Wraps,
    Text::Negative,
    Text::Low32,
    Text::Low16,
    Text::ShortSum,
];
/// Texts that lie in the pool.
const INSIDE: [Text; 8] = [
    Text::Empty,
    Text::EmptyAtEnd,
    Text::EmptyOfNone,
    Text::ToEnd,
    Text::Whole,
    Text::Longest,
    Text::HighStart,
    Text::HighSum,
];

impl Text {
    /// Whether an entry's text is so, with a pool of this length.
    fn holds(self, entry: &Entry, pool: usize) -> bool {
        let (start, length, pool) = (entry.start, u64::from(entry.length), pool as u64);
        let empty = length == 0;
        let sum = u128::from(start) + u128::from(length);
        let passes = sum > u128::from(pool);
        let within = |start: u64| start + length <= pool;
        match self {
            Text::EmptyOnePast => empty && start == pool + 1,
            Text::EmptyFar => empty && start > pool + 1,
            Text::FromEnd => !empty && start == pool && pool > 0,
            Text::FromPast => !empty && start > pool,
            Text::FromBefore => start < pool && start + length > pool,
            Text::OneTooLong => !empty && sum == u128::from(pool) + 1,
            Text::EmptyPastNone => empty && pool == 0 && start > 0,
            Text::NoPool => !empty && pool == 0,
            Text::LastStart(wanted) => start == u64::MAX && entry.length == wanted,
            Text::WrapsToNothing => sum == 1 << 64,
            Text::Wraps => sum > 1 << 64 && start.wrapping_add(length) <= pool,
            Text::Negative => start >= 1 << 63,
            Text::Low32 => start >= 1 << 32 && within(start & 0xFFFF_FFFF),
            Text::Low16 => start >= 1 << 16 && passes && within(start & 0xFFFF),
            Text::ShortSum => {
                start < 1 << 16 && sum > 0xFFFF && passes && sum & 0xFFFF <= u128::from(pool)
            }
            Text::Empty => empty && start < pool,
            Text::EmptyAtEnd => empty && start == pool && pool > 0,
            Text::EmptyOfNone => empty && start == 0 && pool == 0,
            Text::ToEnd => !empty && sum == u128::from(pool),
            Text::Whole => !empty && start == 0 && length == pool,
            Text::Longest => length == 65_535,
            Text::HighStart => start >= 1 << 16,
            Text::HighSum => start < 1 << 16 && sum >= 1 << 16,
        }
    }

    fn words(self) -> String {
        match self {
            Text::EmptyOnePast => "an empty text one byte past the pool's end",
            Text::EmptyFar => "an empty text far past the pool's end",
            Text::FromEnd => "a text from the pool's end",
            Text::FromPast => "a text from past the pool's end",
            Text::FromBefore => "a text from before the pool's end and over it",
            Text::OneTooLong => "a text one byte too long",
            Text::EmptyPastNone => "an empty text past the end of no pool",
            Text::NoPool => "a text without a pool",
            Text::LastStart(length) => return format!("the highest start and length {length}"),
            Text::WrapsToNothing => "a sum of 2 to the 64th",
            Text::Wraps => "a sum that is in the pool by its low 64 bits",
            Text::Negative => "a start with its highest bit set",
            Text::Low32 => "a start that is in the pool by its low 32 bits",
            Text::Low16 => "a start that is in the pool by its low 16 bits",
            Text::ShortSum => "a sum that is in the pool by its low 16 bits",
            Text::Empty => "an empty text",
            Text::EmptyAtEnd => "an empty text at the pool's end",
            Text::EmptyOfNone => "an empty text without a pool",
            Text::ToEnd => "a text to the pool's end",
            Text::Whole => "the whole pool as a text",
            Text::Longest => "a text of 65,535 bytes",
            Text::HighStart => "a start above 65,535",
            Text::HighSum => "a start of 16 bits and a sum of more",
        }
        .to_string()
    }
}

/// A kind of list that is written.
#[derive(Clone, Copy, Debug, PartialEq, Eq, PartialOrd, Ord)]
pub enum Kind {
    NoEntries,
    OneEntry,
    /// More than 255.
    ManyEntries,
    /// 5,460.
    MostEntries,
    /// Two texts have bytes of the pool in common, and are not the same part of it.
    Overlapping,
    /// Two texts, not empty, are the same part of the pool.
    SamePlace,
    /// Two texts, not empty, have the same bytes in parts of the pool that have none in common.
    SameBytes,
    /// A text stands in the pool before that of the entry before it.
    Backwards,
    /// The table has more than 65,536 bytes.
    Long,
}

const KINDS: [Kind; 9] = [
    Kind::NoEntries,
    Kind::OneEntry,
    Kind::ManyEntries,
    Kind::MostEntries,
    Kind::Overlapping,
    Kind::SamePlace,
    Kind::SameBytes,
    Kind::Backwards,
    Kind::Long,
];

impl Kind {
    fn words(self) -> &'static str {
        match self {
            Kind::NoEntries => "no entries",
            Kind::OneEntry => "one entry",
            Kind::ManyEntries => "more than 255 entries",
            Kind::MostEntries => "5,460 entries",
            Kind::Overlapping => "texts that overlap",
            Kind::SamePlace => "the same text twice",
            Kind::SameBytes => "equal texts in different places",
            Kind::Backwards => "texts in another order than in the pool",
            Kind::Long => "more than 65,536 bytes",
        }
    }
}

/// What happens where the records of an accepted table are given as entries.
#[derive(Clone, Copy, Debug, PartialEq, Eq, PartialOrd, Ord)]
pub enum Rewriting {
    /// Written, with a longer room, and with one that is exactly as long.
    Longer,
    Exact,
    /// Refused by 32, and by 33.
    TooFar,
    NoRoom,
    /// The table that is written is shorter than the one that it comes from, as long, or longer.
    Shrinks,
    Keeps,
    Grows,
    /// The very same bytes.
    Same,
    /// There is no record.
    NoRecords,
    /// Two records have the same string, which is not empty.
    Shared,
}

const REWRITINGS: [Rewriting; 10] = [
    Rewriting::Longer,
    Rewriting::Exact,
    Rewriting::TooFar,
    Rewriting::NoRoom,
    Rewriting::Shrinks,
    Rewriting::Keeps,
    Rewriting::Grows,
    Rewriting::Same,
    Rewriting::NoRecords,
    Rewriting::Shared,
];

impl Rewriting {
    fn words(self) -> &'static str {
        match self {
            Rewriting::Longer => "with a longer room",
            Rewriting::Exact => "with a room exactly as long",
            Rewriting::TooFar => "refused by 32",
            Rewriting::NoRoom => "refused by 33",
            Rewriting::Shrinks => "to a shorter table",
            Rewriting::Keeps => "to a table as long",
            Rewriting::Grows => "to a longer table",
            Rewriting::Same => "to the same bytes",
            Rewriting::NoRecords => "without records",
            Rewriting::Shared => "with a string of two records",
        }
    }
}

/// A thing that was met.
#[derive(Clone, Copy, Debug, PartialEq, Eq, PartialOrd, Ord)]
pub enum Thing {
    /// The refusal is this number, and no other condition holds.
    Alone(u32),
    /// The refusal is the first number, and the condition of the second holds for the same entry.
    Together(u32, u32),
    /// The refusal is the first number, and the condition of the second holds for a later entry; for 30, of any entry.
    Behind(u32, u32),
    /// The refusal is this number, or there is none (0), and the room is so.
    Room(u32, Room),
    /// The refusal is 33, and this is what the room lacks.
    Lack(Lack),
    /// The refusal is this number, at the first entry that can have it, or (true) at a later one.
    At(u32, bool),
    /// The refusal is this number, at an entry above number 255.
    Above(u32),
    /// The refusal is 30 for one entry too many; or (true) the count has more than 16 bits, and by its low 16 would be fine.
    Count(bool),
    /// The refusal is 31 for a text that is so.
    Passes(Text),
    /// A list is written that has such a text.
    Inside(Text),
    /// An entry with this platform and this language number: refused by 18, or in a list that is written.
    Language(u16, u16),
    /// The refusal is 17, this part of the key is the first to differ, and a later part is higher (true) or not.
    Falls(usize, bool),
    /// The refusal is 17 for a key that is equal to the one two before it.
    TwoBefore,
    /// The refusal is 19, and the two entries have (true) or don't have the same start and length.
    Equal(bool),
    /// A list is written where this part of a key is the first to differ from the one before, and a later part is lower (true)
    /// or not.
    Rises(usize, bool),
    /// The refusal is 32 for offset 65,536 (true) or a higher one, and for an empty text (true) or not.
    TooFar(bool, bool),
    /// A list is written that has offset 65,535 for an empty text (true) or not.
    LastOffset(bool),
    /// A list is written with a string that ends beyond offset 65,536.
    RunsOn,
    /// A list of this kind is written.
    Kind(Kind),
    /// A table of this length is written.
    Length(usize),
    /// The refusal is this number, and the reader refuses the table that is not written by the same, at the same place.
    ReaderRefuses(u32),
    /// The records of an accepted table are given as entries.
    Rewriting(Rewriting),
}

impl fmt::Display for Thing {
    fn fmt(&self, f: &mut fmt::Formatter<'_>) -> fmt::Result {
        f.write_str("name write: ")?;
        let parts = ["platform", "encoding", "language", "name"];
        match *self {
            Thing::Alone(number) => write!(f, "{number} alone"),
            Thing::Together(number, other) => write!(f, "{number} where {other} holds too"),
            Thing::Behind(30, other) => write!(f, "30 where {other} holds for an entry"),
            Thing::Behind(number, other) => {
                write!(f, "{number} where {other} holds behind it")
            }
            Thing::Room(0, room) => write!(f, "written with {}", room.words()),
            Thing::Room(number, room) => write!(f, "{number} with {}", room.words()),
            Thing::Lack(lack) => {
                let words = match lack {
                    Lack::Header => "the header",
                    Lack::Records => "the records",
                    Lack::Texts => "the texts",
                    Lack::Long => "more than 65,536 bytes",
                };
                write!(f, "33 with no room for {words}")
            }
            Thing::At(number, false) => {
                write!(f, "{number} at entry {}", first_place(number))
            }
            Thing::At(number, true) => {
                write!(
                    f,
                    "{number} at an entry behind entry {}",
                    first_place(number)
                )
            }
            Thing::Above(number) => write!(f, "{number} at an entry above 255"),
            Thing::Count(false) => write!(f, "30 for 5,461 entries"),
            Thing::Count(true) => write!(f, "30 for a count that is fine by its low 16 bits"),
            Thing::Passes(text) => write!(f, "31 for {}", text.words()),
            Thing::Inside(text) => write!(f, "written with {}", text.words()),
            Thing::Language(platform, language) => {
                let words = match allowed(platform, language) {
                    true => "written with",
                    false => "18 for",
                };
                write!(f, "{words} language {language} on platform {platform}")
            }
            Thing::Falls(part, false) => write!(f, "17 for a lower {}", parts[part]),
            Thing::Falls(part, true) => {
                write!(f, "17 for a lower {} and a higher part behind", parts[part])
            }
            Thing::TwoBefore => write!(f, "17 for the key two before"),
            Thing::Equal(true) => write!(f, "19 with the same text"),
            Thing::Equal(false) => write!(f, "19 with another text"),
            Thing::Rises(part, false) => write!(f, "written with a higher {}", parts[part]),
            Thing::Rises(part, true) => {
                write!(
                    f,
                    "written with a higher {} and a lower part behind",
                    parts[part]
                )
            }
            Thing::TooFar(exact, empty) => {
                let offset = if exact { "65,536" } else { "above 65,536" };
                write!(f, "32 for offset {offset} and {}", string(empty))
            }
            Thing::LastOffset(empty) => {
                write!(f, "written with offset 65,535 and {}", string(empty))
            }
            Thing::RunsOn => write!(f, "written with a string that ends beyond 65,536"),
            Thing::Kind(kind) => write!(f, "written with {}", kind.words()),
            Thing::Length(length) => write!(f, "written with {length} bytes"),
            Thing::ReaderRefuses(number) => write!(f, "{number}, and the reader says the same"),
            Thing::Rewriting(rewriting) => {
                write!(f, "the records of a table, {}", rewriting.words())
            }
        }
    }
}

/// The words for a string of an entry.
fn string(empty: bool) -> &'static str {
    match empty {
        true => "an empty text",
        false => "a text with bytes",
    }
}

/// The first entry that can be refused by a number.
fn first_place(number: u32) -> usize {
    match number {
        17 | 19 => 1,
        // The entry before it has at most 65,535 bytes.
        32 => 2,
        _ => 0,
    }
}

/// Whether an entry may have this platform and this language number.
fn allowed(platform: u16, language: u16) -> bool {
    language < 0x8000 || (240..=255).contains(&platform)
}

/// All things that a long run has to meet.
pub fn all() -> Vec<Thing> {
    let both = [false, true];
    let mut things = Vec::new();
    for number in OF_ENTRIES.into_iter().chain([30]) {
        things.push(Thing::Alone(number));
        things.extend(OF_ENTRIES.map(|other| Thing::Behind(number, other)));
        things.extend(ROOMS.map(|room| Thing::Room(number, room)));
    }
    things.push(Thing::Alone(33));
    things.extend(ROOMS[..3].iter().map(|&room| Thing::Room(33, room)));
    things.extend(ROOMS[3..].iter().map(|&room| Thing::Room(0, room)));
    things.extend(LACKS.map(Thing::Lack));
    things.extend(TOGETHER.map(|(number, other)| Thing::Together(number, other)));
    for number in OF_ENTRIES {
        things.extend(both.map(|later| Thing::At(number, later)));
        things.push(Thing::Above(number));
    }
    things.extend(both.map(Thing::Count));
    things.extend(PASSING.map(Thing::Passes));
    things.extend(INSIDE.map(Thing::Inside));
    things.extend(LANGUAGES.map(|(platform, language)| Thing::Language(platform, language)));
    for part in 0..4 {
        // Behind the last part there is none.
        for other in both.into_iter().take(if part < 3 { 2 } else { 1 }) {
            things.push(Thing::Falls(part, other));
            things.push(Thing::Rises(part, other));
        }
    }
    things.push(Thing::TwoBefore);
    things.extend(both.map(Thing::Equal));
    for empty in both {
        things.extend(both.map(|exact| Thing::TooFar(exact, empty)));
        things.push(Thing::LastOffset(empty));
    }
    things.push(Thing::RunsOn);
    things.extend(KINDS.map(Thing::Kind));
    things.extend(LENGTHS.map(Thing::Length));
    things.extend([17, 18, 19].map(Thing::ReaderRefuses));
    things.extend(REWRITINGS.map(Thing::Rewriting));
    things
}

/// Tells what a list is met by with a room of this length.
pub fn of_room(reading: &Reading, room: usize, met: &mut dyn FnMut(Thing)) {
    let number = reading.refused(room).map_or(0, |(number, _)| number);
    let short = room < reading.size;
    met(Thing::Room(number, Room::of(reading.size, room)));
    let conditions = match number {
        0 => return,
        30 => reading.faulty() + usize::from(short),
        33 => 0,
        // The entry's other conditions, and those of the others.
        _ => {
            let of_all = reading.entries.iter().map(|entry| entry.conditions());
            of_all.flatten().flatten().count() - 1 + usize::from(short)
        }
    };
    if conditions == 0 {
        met(Thing::Alone(number));
    }
    if number == 33 {
        let records = 6 + 12 * reading.entries.len();
        met(Thing::Lack(match room {
            ..6 => Lack::Header,
            _ if room < records => Lack::Records,
            _ => Lack::Texts,
        }));
        if reading.size > 65_536 {
            met(Thing::Lack(Lack::Long));
        }
    }
}

/// Tells what a list is met by, whatever the room is.
pub fn of_list(list: &List, reading: &Reading, met: &mut dyn FnMut(Thing)) {
    match reading.refused(usize::MAX) {
        None => of_written(list, reading, met),
        Some((number, None)) => {
            let count = list.entries.len();
            if count == MOST + 1 {
                met(Thing::Count(false));
            }
            if count > 65_535 && count % 65_536 <= MOST {
                met(Thing::Count(true));
            }
            of_later(reading, number, 0, met);
        }
        Some((number, Some(at))) => of_refused(list, reading, number, at, met),
    }
}

/// Which conditions hold from an entry on, beside the refusal.
fn of_later(reading: &Reading, number: u32, from: usize, met: &mut dyn FnMut(Thing)) {
    for other in OF_ENTRIES {
        if reading.has_from(from, other) {
            met(Thing::Behind(number, other));
        }
    }
}

/// What an entry that is refused is met by.
fn of_refused(list: &List, reading: &Reading, number: u32, at: usize, met: &mut dyn FnMut(Thing)) {
    let entry = &list.entries[at];
    let read = &reading.entries[at];
    met(Thing::At(number, at > first_place(number)));
    if at > 255 {
        met(Thing::Above(number));
    }
    for other in OF_ENTRIES {
        if other != number && read.has(other) {
            met(Thing::Together(number, other));
        }
    }
    of_later(reading, number, at + 1, met);
    match number {
        31 => PASSING
            .into_iter()
            .filter(|text| text.holds(entry, list.pool.len()))
            .for_each(|text| met(Thing::Passes(text))),
        18 => of_language(entry, met),
        17 => {
            let before = list.entries[at - 1].key;
            let (part, other) = first_to_differ(entry.key, before);
            met(Thing::Falls(part, other));
            if at > 1 && entry.key == list.entries[at - 2].key {
                met(Thing::TwoBefore);
            }
        }
        19 => {
            let before = &list.entries[at - 1];
            let same = entry.start == before.start && entry.length == before.length;
            met(Thing::Equal(same));
        }
        _ => met(Thing::TooFar(read.offset == 65_536, entry.length == 0)),
    }
}

/// What an entry's platform and language number are, if they are at an edge.
fn of_language(entry: &Entry, met: &mut dyn FnMut(Thing)) {
    let [platform, _, language, _] = entry.key;
    if LANGUAGES.contains(&(platform, language)) {
        met(Thing::Language(platform, language));
    }
}

/// The first part in which two keys, which are not equal, differ, and whether a later part differs the other way.
fn first_to_differ(key: [u16; 4], other: [u16; 4]) -> (usize, bool) {
    let orders: Vec<Ordering> = (0..4).map(|part| key[part].cmp(&other[part])).collect();
    let first = orders.iter().position(|order| order.is_ne()).unwrap_or(0);
    let against = orders[first..].contains(&orders[first].reverse());
    (first, against)
}

/// What a list that is written is met by, each thing once.
fn of_written(list: &List, reading: &Reading, met: &mut dyn FnMut(Thing)) {
    let List { entries, pool } = list;
    let mut things = BTreeSet::new();
    let mut add = |thing| {
        things.insert(thing);
    };
    for (number, entry) in entries.iter().enumerate() {
        INSIDE
            .into_iter()
            .filter(|text| text.holds(entry, pool.len()))
            .for_each(|text| add(Thing::Inside(text)));
        of_language(entry, &mut add);
        let offset = reading.entries[number].offset;
        if offset == 65_535 {
            add(Thing::LastOffset(entry.length == 0));
        }
        if offset + u64::from(entry.length) > 65_536 {
            add(Thing::RunsOn);
        }
    }
    for two in entries.windows(2) {
        let (part, other) = first_to_differ(two[1].key, two[0].key);
        add(Thing::Rises(part, other));
        if two[1].start < two[0].start {
            add(Thing::Kind(Kind::Backwards));
        }
        if entries.len() > FEW {
            of_texts(&two[0], &two[1], pool, &mut add);
        }
    }
    if entries.len() <= FEW {
        for (number, first) in entries.iter().enumerate() {
            for second in &entries[..number] {
                of_texts(first, second, pool, &mut add);
            }
        }
    }
    let kinds = [
        (entries.is_empty(), Kind::NoEntries),
        (entries.len() == 1, Kind::OneEntry),
        (entries.len() > 255, Kind::ManyEntries),
        (entries.len() == MOST, Kind::MostEntries),
        (reading.size > 65_536, Kind::Long),
    ];
    for (_, kind) in kinds.into_iter().filter(|(so, _)| *so) {
        add(Thing::Kind(kind));
    }
    if LENGTHS.contains(&reading.size) {
        add(Thing::Length(reading.size));
    }
    things.into_iter().for_each(met);
}

/// What two texts of a list that is written are.
fn of_texts(first: &Entry, second: &Entry, pool: &[u8], met: &mut dyn FnMut(Thing)) {
    let [one, other] = [first, second].map(|entry| (entry.start, u64::from(entry.length)));
    if one.1 == 0 || other.1 == 0 {
        return;
    }
    let common = one.0 < other.0 + other.1 && other.0 < one.0 + one.1;
    if one == other {
        met(Thing::Kind(Kind::SamePlace));
    } else if common {
        met(Thing::Kind(Kind::Overlapping));
    } else if written::place(first, pool) == written::place(second, pool) {
        met(Thing::Kind(Kind::SameBytes));
    }
}

/// Tells what a table is met by whose records were written.
pub fn of_rewritten(front: &Front, table: &[u8], written: &[u8], met: &mut dyn FnMut(Thing)) {
    met(Thing::Rewriting(match written.len().cmp(&table.len()) {
        Ordering::Less => Rewriting::Shrinks,
        Ordering::Equal => Rewriting::Keeps,
        Ordering::Greater => Rewriting::Grows,
    }));
    if written == table {
        met(Thing::Rewriting(Rewriting::Same));
    }
    if front.records == 0 {
        met(Thing::Rewriting(Rewriting::NoRecords));
    }
    let mut strings: Vec<[usize; 2]> = (0..front.records)
        .map(|number| front.string(number))
        .filter(|string| string[0] > 0)
        .collect();
    strings.sort_unstable();
    if strings.windows(2).any(|two| two[0] == two[1]) {
        met(Thing::Rewriting(Rewriting::Shared));
    }
}
