//! What the chooser has to answer, by a reading of the comparison's own. It follows document 01 and document 02's Ask 7, and what
//! the header says of a slot, and asks none of the sides.

use crate::ask::word;
use crate::faults::{self, Front, Refused};
use crate::raw::{Rack, Slot};

/// The family record that counts, and the one that counts where that is not there.
pub const FAMILIES: [[u32; 4]; 2] = [[3, 1, 0x409, 16], [3, 1, 0x409, 1]];
/// The most bytes of a family.
pub const LONGEST: usize = 64;
/// The sizes of 'OS/2' tables by version; later ones have the last.
const SIZES: [usize; 6] = [78, 86, 96, 96, 96, 100];

/// The size of a version's 'OS/2' table.
pub fn size(version: u32) -> usize {
    SIZES[version.min(5) as usize]
}

// ---- a slot

/// A face.
#[derive(Clone, Copy, Debug, PartialEq, Eq)]
pub struct Face<'a> {
    pub family: &'a [u8],
    pub weight: u16,
    pub width: u16,
    pub sloped: bool,
}

/// The face in a slot: there is one exactly where the length is 1 to 64.
pub fn face(slot: &Slot) -> Option<Face<'_>> {
    let length = usize::from(slot.length);
    (1..=LONGEST).contains(&length).then(|| Face {
        family: &slot.family[..length],
        weight: slot.weight,
        width: slot.width,
        sloped: slot.sloped != 0,
    })
}

// ---- a load

/// Where a font's family stands.
#[derive(Clone, Copy, Debug, PartialEq, Eq, PartialOrd, Ord)]
pub enum From {
    /// In record 16, with a record 1 beside it.
    SixteenBesideOne,
    /// In record 16, where no record 1 is.
    Sixteen,
    /// In record 1.
    One,
}

pub const FROMS: [From; 3] = [From::SixteenBesideOne, From::Sixteen, From::One];

/// What a load is beside the rack and its tables.
pub struct Load<'a> {
    pub slot: u32,
    pub level: u32,
    pub taken: bool,
    pub os2: &'a [u8],
    /// The stored version, where the table has 2 bytes.
    pub version: Option<u32>,
    /// Whether the 'OS/2' table is shorter than the size for the smaller of its version and the level.
    pub short: bool,
    /// The first rule broken, as far as the table has the fields that it looks at.
    pub rule: Option<usize>,
    /// The 'name' table's refusal.
    pub name: Option<Refused>,
    /// The 'name' table, where its records can be read.
    pub front: Option<Front<'a>>,
    /// Where the family stands and the record's number, if one is there.
    pub family: Option<(From, usize)>,
}

impl<'a> Load<'a> {
    pub fn of(rack: &Rack, slot: u32, level: u32, os2: &'a [u8], name: &'a [u8]) -> Load<'a> {
        let version = (os2.len() >= 2).then(|| word(os2, 0));
        let short = version.is_none_or(|version| os2.len() < size(version.min(level)));
        let known = version.filter(|&version| version <= level);
        let front = Front::of(name).ok();
        let numbers = FAMILIES.map(|key| front.as_ref().and_then(|front| front.number_of(key)));
        let family = match numbers {
            [Some(number), Some(_)] => Some((From::SixteenBesideOne, number)),
            [Some(number), None] => Some((From::Sixteen, number)),
            [None, Some(number)] => Some((From::One, number)),
            [None, None] => None,
        };
        Load {
            slot,
            level,
            taken: rack
                .slots
                .get(slot as usize)
                .is_some_and(|slot| face(slot).is_some()),
            os2,
            version,
            short,
            rule: known.and_then(|version| rule(os2, version)),
            name: faults::refused(name),
            front,
            family,
        }
    }

    /// How many bytes the family has, if a record holds one.
    pub fn family_length(&self) -> Option<usize> {
        let (_, number) = self.family?;
        Some(self.front.as_ref()?.string(number)[0])
    }

    /// Whether the table's version is above the level.
    pub fn newer(&self) -> bool {
        self.version.is_some_and(|version| version > self.level)
    }

    /// The conditions that hold, in the order of their numbers' places, with what they carry: 1, 54, 53, 2, 3, 52, the 'name'
    /// table's, 20, 51.
    pub fn conditions(&self) -> Vec<Refused> {
        let length = self.family_length();
        let plain = |holds: bool, number: u32| holds.then_some((number, None));
        [
            plain(self.level > 5, 1),
            plain(self.slot > 31, 54),
            plain(self.taken, 53),
            plain(self.short, 2),
            self.rule.map(|rule| (3, Some(rule))),
            plain(self.newer(), 52),
            self.name,
            plain(self.front.is_some() && self.family.is_none(), 20),
            plain(
                length.is_some_and(|length| length == 0 || length > LONGEST),
                51,
            ),
        ]
        .into_iter()
        .flatten()
        .collect()
    }

    /// The face that is loaded; the load is not refused.
    pub fn face(&self) -> Option<Face<'_>> {
        let (_, number) = self.family?;
        Some(Face {
            family: self.front.as_ref()?.text(number),
            weight: word(self.os2, 4) as u16,
            width: word(self.os2, 6) as u16,
            sloped: word(self.os2, 62) & 1 == 1,
        })
    }
}

/// The first rule that a table breaks, of those whose fields it has.
fn rule(table: &[u8], version: u32) -> Option<usize> {
    let field = |at: usize| (table.len() >= at + 2).then(|| word(table, at));
    let broken = |at: usize, breaks: &dyn Fn(u32) -> bool| field(at).is_some_and(breaks);
    let sizes = field(96).zip(field(98));
    let later_bits = if version < 4 { 0xFF80 } else { 0xFC00 };
    let rules = [
        broken(4, &|weight| !(1..=1000).contains(&weight)),
        broken(6, &|width| !(1..=9).contains(&width)),
        broken(8, &|fs_type| fs_type & 0xFCF1 != 0),
        version >= 3 && broken(8, &|fs_type| (fs_type & 0x000E).count_ones() > 1),
        broken(62, &|selection| selection & later_bits != 0),
        broken(62, &|selection| {
            selection & 0x40 != 0 && selection & 0x21 != 0
        }),
        version == 5 && sizes.is_some_and(|(lower, upper)| lower >= upper),
    ];
    Some(1 + rules.iter().position(|&broken| broken)?)
}

// ---- a request

/// What decides a request.
#[derive(Clone, Copy, Debug, PartialEq, Eq, PartialOrd, Ord)]
pub enum Step {
    /// One face alone has the family.
    Family,
    /// The slope.
    Slope,
    /// The difference of the widths.
    Width,
    /// The difference of the weights.
    Difference,
    /// The lower weight.
    Weight,
    /// The lower slot.
    Slot,
}

/// The steps after the family, in their order.
pub const STEPS: [Step; 5] = [
    Step::Slope,
    Step::Width,
    Step::Difference,
    Step::Weight,
    Step::Slot,
];

/// What is asked for.
#[derive(Clone, Copy)]
pub struct Wanted<'a> {
    pub family: &'a [u8],
    pub weight: u32,
    pub width: u32,
    pub slope: u32,
}

impl Wanted<'_> {
    /// How far a face is from what is asked for at a step. The nearest go on to the next step.
    pub fn far(&self, slot: usize, face: &Face, step: Step) -> u64 {
        let apart = |one: u16, other: u32| (i64::from(one) - i64::from(other)).unsigned_abs();
        match step {
            Step::Family => u64::from(face.family != self.family),
            Step::Slope => u64::from(face.sloped != (self.slope != 0)),
            Step::Width => apart(face.width, self.width),
            Step::Difference => apart(face.weight, self.weight),
            Step::Weight => u64::from(face.weight),
            Step::Slot => slot as u64,
        }
    }
}

/// A choice: the slot, and the step that decided it, with the faces that were left before that step.
pub struct Choice<'a> {
    pub slot: usize,
    pub face: Face<'a>,
    pub step: Step,
    pub left: Vec<(usize, Face<'a>)>,
    /// All faces that have the family.
    pub all: Vec<(usize, Face<'a>)>,
}

/// The faces of a rack with their slots.
pub fn faces(rack: &Rack) -> impl Iterator<Item = (usize, Face<'_>)> {
    let numbered = rack.slots.iter().enumerate();
    numbered.filter_map(|(number, slot)| Some((number, face(slot)?)))
}

/// The choice among the faces that have the family: step by step the nearest are left, until one is. Nothing where no face has
/// the family.
pub fn choice<'a>(rack: &'a Rack, wanted: &Wanted) -> Option<Choice<'a>> {
    let all: Vec<_> = faces(rack)
        .filter(|(_, face)| face.family == wanted.family)
        .collect();
    let mut left = all.clone();
    let mut before = all.clone();
    let mut decided = Step::Family;
    for step in STEPS {
        if left.len() < 2 {
            break;
        }
        decided = step;
        let far = |(slot, face): &(usize, Face)| wanted.far(*slot, face, step);
        let nearest = left.iter().map(far).min()?;
        before.clone_from(&left);
        left.retain(|one| far(one) == nearest);
    }
    let &(slot, face) = left.first()?;
    Some(Choice {
        slot,
        face,
        step: decided,
        left: before,
        all,
    })
}
