//! The chooser for the rack (document 02, Ask 7): a plain map from slot to face.
//! Loading (1, 54, 53, the 'OS/2' refusal, 52, the 'name' refusal, 20, 51),
//! unloading (54, 55) and requests (50).

use std::collections::BTreeMap;

use crate::os2::{self, Answer};
use crate::{name, Refusal};

/// How many slots a rack has. They are numbered from 0.
pub const SLOTS: u32 = 32;
/// The most bytes that a face's family has.
pub const LONGEST_FAMILY: usize = 64;

/// Platform, encoding and language of a family record.
const FAMILY: [u32; 3] = [3, 1, 0x409];
/// The name number of the family record that counts.
const FAMILY_FIRST: u32 = 16;
/// The name number of the family record that counts if the other is not there.
const FAMILY_ELSE: u32 = 1;

/// Field number of the version.
const VERSION: u32 = 0;
/// Field number of the weight.
const WEIGHT: u32 = 2;
/// Field number of the width class.
const WIDTH: u32 = 3;
/// The fsSelection bit that says that a face is sloped.
const SLOPED: u32 = 0;

/// What a slot holds.
#[derive(Clone, Debug, PartialEq, Eq)]
pub struct Face {
    /// The family's bytes as they stand in the 'name' table. A load gives 1 to
    /// 64 of them.
    pub family: Vec<u8>,
    /// The weight. A load gives 1 to 1000.
    pub weight: u16,
    /// The width class. A load gives 1 to 9.
    pub width: u16,
    /// Whether fsSelection bit 0 is set.
    pub sloped: bool,
}

/// A rack: the faces by their slots. An empty slot is not in the map.
#[derive(Clone, Debug, Default, PartialEq, Eq)]
pub struct Rack {
    /// The faces by their slots.
    pub faces: BTreeMap<u32, Face>,
}

impl Rack {
    /// A rack of 32 empty slots.
    pub fn new() -> Rack {
        Rack::default()
    }

    /// Loads a font, by its two tables read at a level, into an empty slot.
    /// Refusals: 1, 54, 53; then the 'OS/2' table's own (2, 3), 52; then the
    /// 'name' table's own, 20, 51. No slot changes then.
    pub fn load(
        &mut self,
        slot: u32,
        level: u32,
        os2_table: &[u8],
        name_table: &[u8],
    ) -> Result<(), Refusal> {
        // 1: level above 5.
        if level > os2::NEWEST {
            return Err(Refusal::plain(1));
        }
        // 54: slot above 31.
        check_slot(slot)?;
        // 53: slot taken.
        if self.faces.contains_key(&slot) {
            return Err(Refusal::plain(53));
        }

        // The 'OS/2' refusal. A newer table that is too short for the level is
        // refused by 2.
        os2::accept(level, os2_table)?;
        // 52: table newer than the level, be it long enough for its own version
        // or not.
        if value(os2::field(level, os2_table, VERSION))? > i64::from(level) {
            return Err(Refusal::plain(52));
        }
        let weight = value(os2::field(level, os2_table, WEIGHT))?;
        let width = value(os2::field(level, os2_table, WIDTH))?;
        let sloped = value(os2::selection_bit(level, os2_table, SLOPED))? == 1;

        // The 'name' refusal, 20, 51.
        let family = family(name_table)?;

        // Rules 1 and 2 hold here: weight is 1 to 1000 and width 1 to 9.
        let face = Face {
            family,
            weight: weight as u16,
            width: width as u16,
            sloped,
        };
        self.faces.insert(slot, face);
        Ok(())
    }

    /// Empties a slot. Refusals: 54, 55. No slot changes then.
    pub fn unload(&mut self, slot: u32) -> Result<(), Refusal> {
        // 54: slot above 31.
        check_slot(slot)?;
        // 55: slot empty.
        match self.faces.remove(&slot) {
            Some(_) => Ok(()),
            None => Err(Refusal::plain(55)),
        }
    }

    /// The slot of the face that is chosen, among those with exactly this
    /// family. Weight and width may be any numbers. Refusal 50 exactly if no
    /// loaded face has the family.
    pub fn request(
        &self,
        family: &[u8],
        weight: u32,
        width: u32,
        sloped: bool,
    ) -> Result<u32, Refusal> {
        let with_family = self.faces.iter().filter(|(_, face)| face.family == family);
        let chosen = with_family.min_by_key(|(slot, face)| {
            (
                // "the one with matching slope first": false is before true.
                face.sloped != sloped,
                // "then the smallest width difference"
                u32::from(face.width).abs_diff(width),
                // "then the smallest weight difference"
                u32::from(face.weight).abs_diff(weight),
                // "then the lower weight"
                face.weight,
                // "then the lower slot"
                **slot,
            )
        });
        match chosen {
            Some((slot, _)) => Ok(*slot),
            None => Err(Refusal::plain(50)),
        }
    }
}

/// 54: slot above 31.
fn check_slot(slot: u32) -> Result<(), Refusal> {
    if slot >= SLOTS {
        return Err(Refusal::plain(54));
    }
    Ok(())
}

/// The number of a field or bit that came in with version 0: every level and
/// every version have it.
fn value(answer: Result<Answer, Refusal>) -> Result<i64, Refusal> {
    match answer? {
        Answer::Value(value) => Ok(value),
        answer => unreachable!("what came in with version 0 is not {answer:?}"),
    }
}

/// The family's bytes: the string of (3, 1, 0x409, 16), or of (3, 1, 0x409, 1)
/// where no record 16 is there. Refusals: the table's own, 20, 51.
fn family(table: &[u8]) -> Result<Vec<u8>, Refusal> {
    let [platform, encoding, language] = FAMILY;
    let lookup = |name| name::lookup(table, platform, encoding, language, name).answer;
    // 20: no family record. A lookup of an accepted table is refused by nothing
    // else.
    let text = match lookup(FAMILY_FIRST) {
        Err(Refusal { number: 20, .. }) => lookup(FAMILY_ELSE)?,
        other => other?,
    };
    // 51: family empty or over 64 bytes. A record 16 that is so is not made up
    // for by a record 1.
    if text.length == 0 || text.length > LONGEST_FAMILY {
        return Err(Refusal::plain(51));
    }
    Ok(table[text.start..text.start + text.length].to_vec())
}
