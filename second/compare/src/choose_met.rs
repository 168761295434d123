//! What the calls of the chooser have met. It comes from the comparison's own reading of the rack, the tables and the request, and
//! from none of the sides.

use std::collections::BTreeSet;
use std::fmt;

use crate::ask::word;
use crate::chosen::{
    self, size, Choice, Face, From, Load, Step, Wanted, FAMILIES, FROMS, LONGEST, STEPS,
};
use crate::raw::{Rack, Slot, SLOTS};

/// The refusals of a 'name' table that are told before its records are looked at, and those of records and tags.
const OF_FRONTS: [u32; 5] = [10, 11, 12, 13, 14];
const OF_RECORDS: [u32; 6] = [15, 27, 18, 17, 19, 16];
/// The refusals of a load that are told before the 'name' table's.
const BEFORE_NAME: [u32; 6] = [1, 54, 53, 2, 3, 52];
/// Those of them that can meet, the one that is told first. A slot above 31 is not taken, and no value rule is applied to a table
/// that is newer than the level.
const TOGETHER: [(u32, u32); 13] = [
    (1, 54),
    (1, 53),
    (1, 2),
    (1, 3),
    (1, 52),
    (54, 2),
    (54, 3),
    (54, 52),
    (53, 2),
    (53, 3),
    (53, 52),
    (2, 3),
    (2, 52),
];
/// Levels: those that there are, and two above them.
const LEVELS: [u32; 8] = [0, 1, 2, 3, 4, 5, 6, u32::MAX];
/// Slots at the edges: the first, the last, the first above them, the highest number.
const EDGES: [u32; 4] = [0, 31, 32, u32::MAX];
/// Lengths of families at the edges, and an odd one.
const LENGTHS: [usize; 5] = [1, 2, 3, 63, 64];
/// Numbers of a request at the edges of 16 and of 32 bits.
const NUMBERS: [u32; 4] = [0, 65_535, 65_536, u32::MAX];
/// Widths that have one below and one above.
const WIDTHS: [u32; 7] = [2, 3, 4, 5, 6, 7, 8];
/// Numbers that a request's slope is.
const SLOPES: [u32; 6] = [0, 1, 2, 256, 65_536, u32::MAX];

/// A family that is refused by 51.
#[derive(Clone, Copy, Debug, PartialEq, Eq, PartialOrd, Ord)]
pub enum Wrong {
    Empty,
    /// 65 bytes.
    OneTooLong,
    /// Too long, and 1 to 64 bytes by the low 8 bits of its length.
    LowByte,
}

const WRONGS: [Wrong; 3] = [Wrong::Empty, Wrong::OneTooLong, Wrong::LowByte];

impl Wrong {
    fn holds(self, length: usize) -> bool {
        match self {
            Wrong::Empty => length == 0,
            Wrong::OneTooLong => length == LONGEST + 1,
            Wrong::LowByte => length > 255 && (1..=LONGEST).contains(&(length % 256)),
        }
    }

    fn words(self) -> &'static str {
        match self {
            Wrong::Empty => "an empty family",
            Wrong::OneTooLong => "a family of 65 bytes",
            Wrong::LowByte => "a family that is fine by the low 8 bits of its length",
        }
    }
}

/// A slot's length that makes it empty.
#[derive(Clone, Copy, Debug, PartialEq, Eq, PartialOrd, Ord)]
pub enum Blank {
    Zero,
    /// 65.
    OneTooLong,
    /// Above 255, and 1 to 64 by its low 8 bits.
    LowByte,
    /// 65,535.
    Highest,
}

const BLANKS: [Blank; 4] = [
    Blank::Zero,
    Blank::OneTooLong,
    Blank::LowByte,
    Blank::Highest,
];

impl Blank {
    fn holds(self, length: u16) -> bool {
        match self {
            Blank::Zero => length == 0,
            Blank::OneTooLong => length == 65,
            Blank::LowByte => length > 255 && (1..=64).contains(&(length % 256)),
            Blank::Highest => length == 65_535,
        }
    }

    fn words(self) -> &'static str {
        match self {
            Blank::Zero => "length 0",
            Blank::OneTooLong => "length 65",
            Blank::LowByte => "a length that is fine by its low 8 bits",
            Blank::Highest => "length 65,535",
        }
    }
}

/// How a family that is asked for misses one that is loaded.
#[derive(Clone, Copy, Debug, PartialEq, Eq, PartialOrd, Ord)]
pub enum Miss {
    /// It is the beginning of the loaded one.
    Shorter,
    /// The loaded one is its beginning.
    Longer,
    /// It differs in the first byte alone.
    First,
    /// It differs in the last byte alone.
    Last,
}

const MISSES: [Miss; 4] = [Miss::Shorter, Miss::Longer, Miss::First, Miss::Last];

impl Miss {
    fn holds(self, asked: &[u8], loaded: &[u8]) -> bool {
        let differ: Vec<usize> = match asked.len() == loaded.len() {
            true => (0..asked.len())
                .filter(|&place| asked[place] != loaded[place])
                .collect(),
            false => Vec::new(),
        };
        match self {
            Miss::Shorter => {
                asked.len() < loaded.len() && !asked.is_empty() && loaded.starts_with(asked)
            }
            Miss::Longer => asked.len() > loaded.len() && asked.starts_with(loaded),
            Miss::First => differ == [0] && asked.len() > 1,
            Miss::Last => differ == [asked.len().wrapping_sub(1)] && asked.len() > 1,
        }
    }

    fn words(self) -> &'static str {
        match self {
            Miss::Shorter => "that is longer",
            Miss::Longer => "that is shorter",
            Miss::First => "with another first byte",
            Miss::Last => "with another last byte",
        }
    }
}

/// A family that no face has.
#[derive(Clone, Copy, Debug, PartialEq, Eq, PartialOrd, Ord)]
pub enum Nobody {
    /// The rack has no face.
    NoFaces,
    /// The family has no byte, and the rack has faces.
    Empty,
    /// The family has over 64 bytes, and a face's family of 64 begins it.
    TooLong,
    /// The family's length is a face's by its low 16 bits, and that face's family begins it.
    LowLength,
    /// A face's family misses it.
    Missed(Miss),
}

const NOBODIES: [Nobody; 8] = [
    Nobody::NoFaces,
    Nobody::Empty,
    Nobody::TooLong,
    Nobody::LowLength,
    Nobody::Missed(Miss::Shorter),
    Nobody::Missed(Miss::Longer),
    Nobody::Missed(Miss::First),
    Nobody::Missed(Miss::Last),
];

impl Nobody {
    fn holds(self, rack: &Rack, family: &[u8]) -> bool {
        let mut faces = chosen::faces(rack).map(|(_, face)| face.family);
        match self {
            Nobody::NoFaces => faces.next().is_none(),
            Nobody::Empty => family.is_empty() && faces.next().is_some(),
            Nobody::TooLong => {
                family.len() > LONGEST && faces.any(|face| face == &family[..LONGEST])
            }
            Nobody::LowLength => {
                let low = family.len() % 65_536;
                low < family.len() && faces.any(|face| face == &family[..low])
            }
            Nobody::Missed(miss) => faces.any(|face| miss.holds(family, face)),
        }
    }

    fn words(self) -> String {
        match self {
            Nobody::NoFaces => "without faces".to_string(),
            Nobody::Empty => "for a family of no byte".to_string(),
            Nobody::TooLong => "for a family that a loaded one of 64 bytes begins".to_string(),
            Nobody::LowLength => "for a family that is loaded by its low 16 bits".to_string(),
            Nobody::Missed(miss) => format!("beside a face with a family {}", miss.words()),
        }
    }
}

/// A face that no load makes, or a slope that is not 0 or 1.
#[derive(Clone, Copy, Debug, PartialEq, Eq, PartialOrd, Ord)]
pub enum Strange {
    NoWeight,
    HighWeight,
    NoWidth,
    HighWidth,
    /// The slope's bit 0 is clear.
    EvenSlope,
    /// The slope's low byte is 0.
    HighSlope,
}

const STRANGES: [Strange; 6] = [
    Strange::NoWeight,
    Strange::HighWeight,
    Strange::NoWidth,
    Strange::HighWidth,
    Strange::EvenSlope,
    Strange::HighSlope,
];

impl Strange {
    fn holds(self, slot: &Slot) -> bool {
        match self {
            Strange::NoWeight => slot.weight == 0,
            Strange::HighWeight => slot.weight > 1000,
            Strange::NoWidth => slot.width == 0,
            Strange::HighWidth => slot.width > 9,
            Strange::EvenSlope => slot.sloped != 0 && slot.sloped & 1 == 0,
            Strange::HighSlope => slot.sloped != 0 && slot.sloped & 0xFF == 0,
        }
    }

    fn words(self) -> &'static str {
        match self {
            Strange::NoWeight => "weight 0",
            Strange::HighWeight => "a weight above 1000",
            Strange::NoWidth => "width 0",
            Strange::HighWidth => "a width above 9",
            Strange::EvenSlope => "an even number as its slope",
            Strange::HighSlope => "a slope whose low byte is 0",
        }
    }
}

/// A request's number of which the low 16 bits alone would choose another face.
#[derive(Clone, Copy, Debug, PartialEq, Eq, PartialOrd, Ord)]
pub enum Narrow {
    Weight,
    Width,
    Slope,
}

const NARROWS: [Narrow; 3] = [Narrow::Weight, Narrow::Width, Narrow::Slope];

/// A thing that was met.
#[derive(Clone, Copy, Debug, PartialEq, Eq, PartialOrd, Ord)]
pub enum Thing {
    /// A load: the refusal is this number, and no other condition holds.
    Alone(u32),
    /// A load: the refusal is the first number, and the condition of the second holds too.
    Both(u32, u32),
    /// A load at this level: done, or refused by 1.
    Level(u32),
    /// A load into this slot: done, or refused by 54.
    LoadSlot(u32),
    /// A load is refused by 54 for a slot that is there by its low bits, 8 or 16 of them.
    LoadLow(u32),
    /// A load of this version at this level.
    Version(u32, u32),
    /// The refusal is 52 at this level for the next version; or (true) for a table that is too short for its own version.
    Newer(u32, bool),
    /// The refusal is 2 for a table of so many bytes.
    NoVersion(usize),
    /// The refusal is 2 for a table one byte too short: of this version; or (true) newer than this level.
    Short(u32, bool),
    /// The refusal is 3 for this rule.
    Rule(usize),
    /// A load of a family from here, in a table of this format.
    Loaded(From, u16),
    /// The refusal is 51 for such a family from here.
    Wrong(From, Wrong),
    /// The refusal is 51 for such a family in record 16, and record 1 holds a family that is fine.
    OneFine(Wrong),
    /// A load of a family from record 16, where record 1 holds such a family.
    OneWrong(Wrong),
    /// The refusal is 20, and a record has the key of a family record but for one part.
    NearKey(usize, usize),
    /// A load of a family of so many bytes.
    Length(usize),
    /// A load of a face that is sloped (true) or upright.
    Slope(bool),
    /// A load of an upright face whose fsSelection bit 9 is set.
    Oblique,
    /// A load into a slot that holds bytes, and is empty by its length.
    Over(Blank),
    /// A load after which the rack is full.
    Fills,
    /// An unload of this slot: done, or refused by 54.
    UnloadSlot(u32),
    /// An unload is refused by 54 for a slot that holds a face by its low bits, 8 or 16 of them.
    UnloadLow(u32),
    /// An unload is refused by 55 for a slot with such a length.
    Blank(Blank),
    /// An unload after which the rack has no face, and one from a full rack.
    Empties,
    FromFull,
    /// A request decided by this step.
    Decided(Step),
    /// A request decided by the first step, where a face that it leaves aside is nearer by the second.
    Against(Step, Step),
    /// A request decided by the smallest difference that can decide there.
    Near(Step),
    /// A request for a sloped (true) or an upright face, where all are of the other slope.
    OtherSlope(bool),
    /// The width below this one and the width above it are equally near it, and a later step decides.
    Around(u32),
    /// A request for this weight that the difference of weights decides.
    Weight(u32),
    /// A request for this width that the difference of widths decides.
    Width(u32),
    /// A request with this number as its slope that the slope decides.
    AskedSlope(u32),
    /// A request whose low 16 bits of this number would choose another face.
    Narrow(Narrow),
    /// The refusal is 50 for such a family.
    Nobody(Nobody),
    /// A face is chosen, and a better one has a family that the asked one misses.
    Beside(Miss),
    /// A family is asked for that stands in a slot with such a length, which would be chosen if it held a face.
    Hidden(Blank),
    /// A face is chosen whose family has so many bytes.
    ChosenLength(usize),
    /// A face is chosen among several that have other bytes behind the family.
    BytesBehind,
    /// A face is chosen that has this.
    Strange(Strange),
    /// The face in this slot is chosen.
    ChosenSlot(u32),
    /// A request to a full rack; and (true) where all 32 faces have the family.
    Full(bool),
}

/// The words of a step.
fn step_words(step: Step) -> &'static str {
    match step {
        Step::Family => "the family alone",
        Step::Slope => "the slope",
        Step::Width => "the width difference",
        Step::Difference => "the weight difference",
        Step::Weight => "the lower weight",
        Step::Slot => "the lower slot",
    }
}

/// The words of where a family stands.
fn from_words(from: From) -> &'static str {
    match from {
        From::SixteenBesideOne => "record 16 beside record 1",
        From::Sixteen => "record 16 alone",
        From::One => "record 1 alone",
    }
}

impl fmt::Display for Thing {
    fn fmt(&self, f: &mut fmt::Formatter<'_>) -> fmt::Result {
        let slope = |sloped| if sloped { "sloped" } else { "upright" };
        let parts = ["platform", "encoding", "language", "name"];
        match *self {
            Thing::Alone(number) => write!(f, "load: {number} alone"),
            Thing::Both(number, other) => write!(f, "load: {number} where {other} holds too"),
            Thing::Level(level) => write!(f, "load: level {level}"),
            Thing::LoadSlot(slot) => write!(f, "load: slot {slot}"),
            Thing::LoadLow(bits) => {
                write!(f, "load: 54 for a slot that is fine by its low {bits} bits")
            }
            Thing::Version(version, level) => {
                write!(f, "load: done with version {version} at level {level}")
            }
            Thing::Newer(level, false) => write!(f, "load: 52 for the version above level {level}"),
            Thing::Newer(level, true) => write!(
                f,
                "load: 52 at level {level} for a table too short for its own version"
            ),
            Thing::NoVersion(length) => write!(f, "load: 2 for a table of {length} bytes"),
            Thing::Short(version, false) => {
                write!(f, "load: 2 for version {version} one byte too short")
            }
            Thing::Short(level, true) => write!(
                f,
                "load: 2 for a newer table one byte too short for level {level}"
            ),
            Thing::Rule(rule) => write!(f, "load: 3 for rule {rule}"),
            Thing::Loaded(from, format) => {
                let from = from_words(from);
                write!(f, "load: done with {from} in format {format}")
            }
            Thing::Wrong(from, wrong) => {
                write!(f, "load: 51 for {} in {}", wrong.words(), from_words(from))
            }
            Thing::OneFine(wrong) => write!(
                f,
                "load: 51 for {} in record 16 where record 1 is fine",
                wrong.words()
            ),
            Thing::OneWrong(wrong) => {
                write!(f, "load: done beside {} in record 1", wrong.words())
            }
            Thing::NearKey(family, part) => write!(
                f,
                "load: 20 with a record {} of another {}",
                FAMILIES[family][3], parts[part]
            ),
            Thing::Length(length) => write!(f, "load: done with a family of {length} bytes"),
            Thing::Slope(sloped) => write!(f, "load: done with a face that is {}", slope(sloped)),
            Thing::Oblique => write!(f, "load: done with an upright face and bit 9"),
            Thing::Over(blank) => {
                write!(f, "load: done over a slot with bytes and {}", blank.words())
            }
            Thing::Fills => write!(f, "load: the rack is full"),
            Thing::UnloadSlot(slot) => write!(f, "unload: slot {slot}"),
            Thing::UnloadLow(bits) => write!(
                f,
                "unload: 54 for a slot that holds a face by its low {bits} bits"
            ),
            Thing::Blank(blank) => write!(f, "unload: 55 for {}", blank.words()),
            Thing::Empties => write!(f, "unload: no face is left"),
            Thing::FromFull => write!(f, "unload: from a full rack"),
            Thing::Decided(step) => write!(f, "request: decided by {}", step_words(step)),
            Thing::Against(step, other) => write!(
                f,
                "request: decided by {} against {}",
                step_words(step),
                step_words(other)
            ),
            Thing::Near(step) => {
                write!(f, "request: just decided by {}", step_words(step))
            }
            Thing::OtherSlope(sloped) => {
                let (wanted, other) = (slope(sloped), slope(!sloped));
                write!(f, "request: {wanted}, where all faces are {other}")
            }
            Thing::Around(width) => {
                let (below, above) = (width - 1, width + 1);
                write!(f, "request: widths {below} and {above} about {width}")
            }
            Thing::Weight(number) => write!(f, "request: weight {number}"),
            Thing::Width(number) => write!(f, "request: width {number}"),
            Thing::AskedSlope(number) => write!(f, "request: slope {number}"),
            Thing::Narrow(narrow) => {
                let number = match narrow {
                    Narrow::Weight => "weight",
                    Narrow::Width => "width",
                    Narrow::Slope => "slope",
                };
                write!(
                    f,
                    "request: a {number} that chooses otherwise by its low 16 bits"
                )
            }
            Thing::Nobody(nobody) => write!(f, "request: 50 {}", nobody.words()),
            Thing::Beside(miss) => write!(
                f,
                "request: chosen beside a better face with a family {}",
                miss.words()
            ),
            Thing::Hidden(blank) => write!(
                f,
                "request: the family stands in a slot with {}",
                blank.words()
            ),
            Thing::ChosenLength(length) => {
                write!(f, "request: chosen by a family of {length} bytes")
            }
            Thing::BytesBehind => write!(f, "request: other bytes behind equal families"),
            Thing::Strange(strange) => write!(f, "request: chosen with {}", strange.words()),
            Thing::ChosenSlot(slot) => write!(f, "request: slot {slot} chosen"),
            Thing::Full(false) => write!(f, "request: to a full rack"),
            Thing::Full(true) => write!(f, "request: for the family of 32 faces"),
        }
    }
}

/// All things that a long run has to meet.
pub fn all() -> Vec<Thing> {
    let both = [false, true];
    let mut things = Vec::new();
    let of_name = OF_FRONTS.into_iter().chain(OF_RECORDS).chain([20, 51]);
    for number in of_name {
        things.push(Thing::Alone(number));
        things.extend(BEFORE_NAME.map(|before| Thing::Both(before, number)));
    }
    things.extend(BEFORE_NAME.map(Thing::Alone));
    things.extend(TOGETHER.map(|(number, other)| Thing::Both(number, other)));
    for number in OF_RECORDS {
        things.extend([20, 51].map(|other| Thing::Both(number, other)));
    }
    things.extend(LEVELS.map(Thing::Level));
    things.extend(EDGES.map(Thing::LoadSlot));
    things.extend([8, 16].map(Thing::LoadLow));
    for level in 0..6 {
        things.extend((0..=level).map(|version| Thing::Version(version, level)));
        things.push(Thing::Newer(level, false));
        things.extend(both.map(|newer| Thing::Short(level, newer)));
        // At level 5 a table that is long enough for the level is so for every version.
        if level < 5 {
            things.push(Thing::Newer(level, true));
        }
    }
    things.extend([0, 1].map(Thing::NoVersion));
    things.extend((1..8).map(Thing::Rule));
    for from in FROMS {
        things.extend([0, 1].map(|format| Thing::Loaded(from, format)));
        things.extend(WRONGS.map(|wrong| Thing::Wrong(from, wrong)));
    }
    things.extend(WRONGS.map(Thing::OneFine));
    things.extend(WRONGS.map(Thing::OneWrong));
    for part in 0..4 {
        things.extend([0, 1].map(|family| Thing::NearKey(family, part)));
    }
    things.extend(LENGTHS.map(Thing::Length));
    things.extend(both.map(Thing::Slope));
    things.push(Thing::Oblique);
    things.extend(BLANKS.map(Thing::Over));
    things.push(Thing::Fills);
    things.extend(EDGES.map(Thing::UnloadSlot));
    things.extend([8, 16].map(Thing::UnloadLow));
    things.extend(BLANKS.map(Thing::Blank));
    things.extend([Thing::Empties, Thing::FromFull]);
    things.push(Thing::Decided(Step::Family));
    for (place, step) in STEPS.into_iter().enumerate() {
        things.push(Thing::Decided(step));
        let later = STEPS[place + 1..].iter();
        things.extend(later.map(|&later| Thing::Against(step, later)));
        if step != Step::Slope {
            things.push(Thing::Near(step));
        }
    }
    things.extend(both.map(Thing::OtherSlope));
    things.extend(WIDTHS.map(Thing::Around));
    things.extend(NUMBERS.map(Thing::Weight));
    things.extend(NUMBERS.map(Thing::Width));
    things.extend(SLOPES.map(Thing::AskedSlope));
    things.extend(NARROWS.map(Thing::Narrow));
    things.extend(NOBODIES.map(Thing::Nobody));
    things.extend(MISSES.map(Thing::Beside));
    things.extend(BLANKS.map(Thing::Hidden));
    things.extend(LENGTHS.map(Thing::ChosenLength));
    things.push(Thing::BytesBehind);
    things.extend(STRANGES.map(Thing::Strange));
    things.extend([0, 31].map(Thing::ChosenSlot));
    things.extend(both.map(Thing::Full));
    things
}

/// How many faces a rack has.
fn count(rack: &Rack) -> usize {
    chosen::faces(rack).count()
}

/// Whether a slot above 31 is one below by its low bits, and so many they are.
fn by_low_bits(slot: u32) -> impl Iterator<Item = (u32, usize)> {
    [8, 16]
        .into_iter()
        .map(move |bits| (bits, (slot & ((1 << bits) - 1)) as usize))
        .filter(|&(_, low)| low < SLOTS)
}

/// Tells what a load is met by.
pub fn of_load(load: &Load, before: &Rack, met: &mut dyn FnMut(Thing)) {
    let conditions = load.conditions();
    let Some(&(number, carried)) = conditions.first() else {
        return of_loaded(load, before, met);
    };
    if conditions.len() == 1 {
        met(Thing::Alone(number));
    }
    for (other, _) in &conditions[1..] {
        met(Thing::Both(number, *other));
    }
    match number {
        1 if LEVELS.contains(&load.level) => met(Thing::Level(load.level)),
        54 => {
            if EDGES.contains(&load.slot) {
                met(Thing::LoadSlot(load.slot));
            }
            by_low_bits(load.slot).for_each(|(bits, _)| met(Thing::LoadLow(bits)));
        }
        2 => of_short(load, met),
        3 => met(Thing::Rule(carried.unwrap_or(0))),
        52 => {
            let own = load.version.unwrap_or(0);
            if own == load.level + 1 {
                met(Thing::Newer(load.level, false));
            }
            if load.os2.len() < size(own) {
                met(Thing::Newer(load.level, true));
            }
        }
        20 => of_near_keys(load, met),
        51 => of_wrong(load, met),
        _ => {}
    }
}

/// What a load that is done is met by.
fn of_loaded(load: &Load, before: &Rack, met: &mut dyn FnMut(Thing)) {
    met(Thing::Level(load.level));
    if EDGES.contains(&load.slot) {
        met(Thing::LoadSlot(load.slot));
    }
    met(Thing::Version(load.version.unwrap_or(0), load.level));
    let (Some(face), Some(front), Some((from, _))) = (load.face(), &load.front, load.family) else {
        return;
    };
    met(Thing::Loaded(from, u16::from(front.tagged)));
    if let (From::SixteenBesideOne, Some(one)) = (from, front.number_of(FAMILIES[1])) {
        let length = front.string(one)[0];
        let wrongs = WRONGS.into_iter().filter(|wrong| wrong.holds(length));
        wrongs.for_each(|wrong| met(Thing::OneWrong(wrong)));
    }
    if LENGTHS.contains(&face.family.len()) {
        met(Thing::Length(face.family.len()));
    }
    met(Thing::Slope(face.sloped));
    if !face.sloped && word(load.os2, 62) & 0x0200 != 0 {
        met(Thing::Oblique);
    }
    let held = &before.slots[load.slot as usize];
    if held.family.iter().any(|&byte| byte != 0) {
        let blanks = BLANKS.into_iter().filter(|blank| blank.holds(held.length));
        blanks.for_each(|blank| met(Thing::Over(blank)));
    }
    if count(before) == SLOTS - 1 {
        met(Thing::Fills);
    }
}

/// What a load of a table that is too short is met by.
fn of_short(load: &Load, met: &mut dyn FnMut(Thing)) {
    let length = load.os2.len();
    let Some(version) = load.version else {
        return met(Thing::NoVersion(length));
    };
    if load.newer() && length + 1 == size(load.level) {
        met(Thing::Short(load.level, true));
    }
    if !load.newer() && length + 1 == size(version) {
        met(Thing::Short(version, false));
    }
}

/// Which records of a table without a family record have nearly its key.
fn of_near_keys(load: &Load, met: &mut dyn FnMut(Thing)) {
    let Some(front) = &load.front else {
        return;
    };
    let mut near = BTreeSet::new();
    for key in (0..front.records).map(|number| front.key(number)) {
        for (family, wanted) in FAMILIES.iter().enumerate() {
            let differ: Vec<usize> = (0..4).filter(|&part| key[part] != wanted[part]).collect();
            if let [part] = differ[..] {
                // Of the names only the next ones.
                if part < 3 || key[3].abs_diff(wanted[3]) == 1 {
                    near.insert(Thing::NearKey(family, part));
                }
            }
        }
    }
    near.into_iter().for_each(met);
}

/// What a load of a family that is empty or too long is met by.
fn of_wrong(load: &Load, met: &mut dyn FnMut(Thing)) {
    let (Some(front), Some((from, number))) = (&load.front, load.family) else {
        return;
    };
    let length = front.string(number)[0];
    let one = front.number_of(FAMILIES[1]);
    let one_fine = from == From::SixteenBesideOne
        && one.is_some_and(|one| (1..=LONGEST).contains(&front.string(one)[0]));
    for wrong in WRONGS.into_iter().filter(|wrong| wrong.holds(length)) {
        met(Thing::Wrong(from, wrong));
        if one_fine {
            met(Thing::OneFine(wrong));
        }
    }
}

/// Tells what an unload is met by.
pub fn of_unload(before: &Rack, slot: u32, met: &mut dyn FnMut(Thing)) {
    let Some(held) = before.slots.get(slot as usize) else {
        if EDGES.contains(&slot) {
            met(Thing::UnloadSlot(slot));
        }
        by_low_bits(slot)
            .filter(|&(_, low)| chosen::face(&before.slots[low]).is_some())
            .for_each(|(bits, _)| met(Thing::UnloadLow(bits)));
        return;
    };
    if chosen::face(held).is_none() {
        let blanks = BLANKS.into_iter().filter(|blank| blank.holds(held.length));
        blanks.for_each(|blank| met(Thing::Blank(blank)));
        return;
    }
    if EDGES.contains(&slot) {
        met(Thing::UnloadSlot(slot));
    }
    match count(before) {
        1 => met(Thing::Empties),
        SLOTS => met(Thing::FromFull),
        _ => {}
    }
}

/// Tells what a request is met by.
pub fn of_request(rack: &Rack, wanted: &Wanted, met: &mut dyn FnMut(Thing)) {
    let choice = chosen::choice(rack, wanted);
    let best = choice
        .as_ref()
        .map(|choice| order(wanted, choice.slot, &choice.face));
    of_hidden(rack, wanted, best, met);
    match (choice, best) {
        (Some(choice), Some(best)) => of_chosen(rack, wanted, &choice, best, met),
        _ => NOBODIES
            .into_iter()
            .filter(|nobody| nobody.holds(rack, wanted.family))
            .for_each(|nobody| met(Thing::Nobody(nobody))),
    }
}

/// How far a face is from what is asked for, step by step.
type Order = [u64; 5];

fn order(wanted: &Wanted, slot: usize, face: &Face) -> Order {
    STEPS.map(|step| wanted.far(slot, face, step))
}

/// Which slots hold the family's bytes without a face, and would be chosen before the best one that there is.
fn of_hidden(rack: &Rack, wanted: &Wanted, best: Option<Order>, met: &mut dyn FnMut(Thing)) {
    let length = wanted.family.len();
    if !(1..=LONGEST).contains(&length) {
        return;
    }
    for (number, slot) in rack.slots.iter().enumerate() {
        if chosen::face(slot).is_some() || !slot.family.starts_with(wanted.family) {
            continue;
        }
        let mut filled = *slot;
        filled.length = length as u16;
        let Some(face) = chosen::face(&filled) else {
            continue;
        };
        if best.is_none_or(|best| order(wanted, number, &face) < best) {
            let blanks = BLANKS.into_iter().filter(|blank| blank.holds(slot.length));
            blanks.for_each(|blank| met(Thing::Hidden(blank)));
        }
    }
}

/// What a choice is met by.
fn of_chosen(
    rack: &Rack,
    wanted: &Wanted,
    choice: &Choice,
    best: Order,
    met: &mut dyn FnMut(Thing),
) {
    let Choice {
        slot, face, step, ..
    } = choice;
    met(Thing::Decided(*step));
    if let Some(place) = STEPS.iter().position(|one| one == step) {
        of_decided(wanted, choice, best, place, met);
    }
    if face.sloped != (wanted.slope != 0) {
        met(Thing::OtherSlope(wanted.slope != 0));
    }
    let has = |width| {
        choice
            .left
            .iter()
            .any(|(_, face)| u32::from(face.width) == width)
    };
    let around = WIDTHS.contains(&wanted.width) && has(wanted.width - 1) && has(wanted.width + 1);
    if *step > Step::Width && around {
        met(Thing::Around(wanted.width));
    }
    match step {
        Step::Difference if NUMBERS.contains(&wanted.weight) => met(Thing::Weight(wanted.weight)),
        Step::Width if NUMBERS.contains(&wanted.width) => met(Thing::Width(wanted.width)),
        Step::Slope if SLOPES.contains(&wanted.slope) => met(Thing::AskedSlope(wanted.slope)),
        _ => {}
    }
    of_narrow(rack, wanted, *slot, met);
    for miss in MISSES {
        let better = |(number, face): (usize, Face)| {
            miss.holds(wanted.family, face.family) && order(wanted, number, &face) < best
        };
        if chosen::faces(rack).any(better) {
            met(Thing::Beside(miss));
        }
    }
    let length = face.family.len();
    if LENGTHS.contains(&length) {
        met(Thing::ChosenLength(length));
    }
    let behind = |number: usize| &rack.slots[number].family[length..];
    if choice
        .all
        .iter()
        .any(|&(other, _)| behind(other) != behind(*slot))
    {
        met(Thing::BytesBehind);
    }
    let held = &rack.slots[*slot];
    for strange in STRANGES.into_iter().filter(|strange| strange.holds(held)) {
        // A number as a slope counts where the slope decides for it.
        let of_slope = matches!(strange, Strange::EvenSlope | Strange::HighSlope);
        if !of_slope || *step == Step::Slope {
            met(Thing::Strange(strange));
        }
    }
    if EDGES.contains(&(*slot as u32)) {
        met(Thing::ChosenSlot(*slot as u32));
    }
    if count(rack) == SLOTS {
        met(Thing::Full(false));
    }
    if choice.all.len() == SLOTS {
        met(Thing::Full(true));
    }
}

/// What the step that decided is met by: later steps that would have decided otherwise, and a difference that is just enough.
fn of_decided(
    wanted: &Wanted,
    choice: &Choice,
    best: Order,
    place: usize,
    met: &mut dyn FnMut(Thing),
) {
    let step = choice.step;
    let left = choice.left.iter();
    let others: Vec<Order> = left
        .filter(|(slot, _)| *slot != choice.slot)
        .map(|(slot, face)| order(wanted, *slot, face))
        .collect();
    for (other, later) in STEPS.iter().enumerate().skip(place + 1) {
        if others.iter().any(|order| order[other] < best[other]) {
            met(Thing::Against(step, *later));
        }
    }
    // Two weights that are equally far from one differ by 2 at least.
    let least = match step {
        Step::Weight => 2,
        _ => 1,
    };
    if step != Step::Slope
        && others
            .iter()
            .any(|order| order[place] == best[place] + least)
    {
        met(Thing::Near(step));
    }
}

/// Which of the request's numbers would choose another face by their low 16 bits.
fn of_narrow(rack: &Rack, wanted: &Wanted, slot: usize, met: &mut dyn FnMut(Thing)) {
    for narrow in NARROWS {
        let mut low = *wanted;
        let number = match narrow {
            Narrow::Weight => &mut low.weight,
            Narrow::Width => &mut low.width,
            Narrow::Slope => &mut low.slope,
        };
        if *number <= 0xFFFF {
            continue;
        }
        *number &= 0xFFFF;
        if chosen::choice(rack, &low).is_some_and(|choice| choice.slot != slot) {
            met(Thing::Narrow(narrow));
        }
    }
}
