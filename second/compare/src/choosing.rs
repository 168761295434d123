//! Makes calls of the chooser on all sides, and compares their answers and every slot after them.

use std::fmt::Debug;

use gyalvindor::rack;
use second::chooser;

use crate::ask::{differ, otherwise, own_words, version_and_fs_type, Asker, Difference};
use crate::calls::{Call, Calls};
use crate::choose_met::{self, Thing};
use crate::chosen::{self, Face, Load, Wanted};
use crate::met;
use crate::numbers::Numbers;
use crate::question::{shown, Function, Words};
use crate::raw::{self, Rack};
use crate::sides::{by_crate, by_second};
use crate::sweeps::table;
use crate::Lent;

/// A rack on all sides.
pub struct Racks {
    pub archive: Rack,
    second: chooser::Rack,
    /// Nothing where a face is none that a load gives: the crate's rack is filled by loads alone.
    krate: Option<rack::Rack>,
}

impl Racks {
    /// Any struct, the plain map that the header makes of it, where a slot holds a face exactly where its length is 1 to 64,
    /// and a rack of the crate with the same faces, if it can have them.
    pub fn of(rack: &Rack) -> Result<Racks, Difference> {
        let numbered = chosen::faces(rack).map(|(number, face)| (number as u32, owned(&face)));
        Ok(Racks {
            archive: *rack,
            second: chooser::Rack {
                faces: numbered.collect(),
            },
            krate: loaded(rack)?,
        })
    }

    /// A slot in which a side does not hold what the map does, with what both hold there.
    fn differs(&self) -> Option<String> {
        let faces = &self.second.faces;
        let second = |number: u32| faces.get(&number).map(lent);
        for (number, slot) in (0..).zip(&self.archive.slots) {
            if chosen::face(slot) != second(number) {
                return Some(slot_differs(number, second(number), "archive", slot));
            }
        }
        let krate = self.krate.as_ref()?;
        // Slots that are not there hold nothing.
        for number in (0..=rack::SLOTS).chain([u32::MAX]) {
            let held = krate.face(number).map(told);
            if held != second(number) {
                return Some(slot_differs(number, second(number), "crate", &held));
            }
        }
        let listed = krate.faces().map(|(number, face)| (number, told(face)));
        if !listed.eq(faces.iter().map(|(number, face)| (*number, lent(face)))) {
            return Some(format!(
                "the faces that are listed differ\n  second:  {faces:?}\n  crate:   {krate:?}\n"
            ));
        }
        None
    }
}

fn slot_differs(number: u32, second: Option<Face>, side: &str, held: &dyn Debug) -> String {
    let side = format!("{side}:");
    format!("slot {number} differs\n  second:  {second:?}\n  {side:8} {held:?}\n")
}

/// The crate's rack with the faces of a struct; nothing where one of them is none that a load gives.
fn loaded(rack: &Rack) -> Result<Option<rack::Rack>, Difference> {
    let gives = |face: Face| (1..=1000).contains(&face.weight) && (1..=9).contains(&face.width);
    if !chosen::faces(rack).all(|(_, face)| gives(face)) {
        return Ok(None);
    }
    let mut krate = rack::Rack::new();
    for (number, face) in chosen::faces(rack) {
        let [os2, name] = font(&face);
        let words = by_crate::rack_load(&mut krate, number as u32, 0, &os2, &name);
        if words != [0; 7] {
            return Err(Difference(format!(
                "load of slot {number} before the call, on the crate: {}\n",
                shown(Function::RackLoad, words)
            )));
        }
    }
    Ok(Some(krate))
}

/// The two tables of a font that a load makes this face of: an 'OS/2' table of version 0, and a 'name' table with one record.
fn font(face: &Face) -> [Vec<u8>; 2] {
    let mut os2 = vec![0; chosen::size(0)];
    let length = face.family.len() as u16;
    for (at, number) in [(4, face.weight), (6, face.width), (62, face.sloped.into())] {
        os2[at..at + 2].copy_from_slice(&number.to_be_bytes());
    }
    let [platform, encoding, language, id] = chosen::FAMILIES[1].map(|part| part as u16);
    let words = [0, 1, 18, platform, encoding, language, id, length, 0];
    [os2, table(&words, face.family)]
}

fn owned(face: &Face) -> chooser::Face {
    chooser::Face {
        family: face.family.to_vec(),
        weight: face.weight,
        width: face.width,
        sloped: face.sloped,
    }
}

fn lent(face: &chooser::Face) -> Face<'_> {
    Face {
        family: &face.family,
        weight: face.weight,
        width: face.width,
        sloped: face.sloped,
    }
}

/// A face as the crate tells it.
fn told(face: rack::Face<'_>) -> Face<'_> {
    Face {
        family: face.family,
        weight: face.weight,
        width: face.width,
        sloped: face.sloped,
    }
}

impl Asker {
    /// The empty rack of each side.
    pub fn empty_rack(&mut self) -> Result<Racks, Difference> {
        let racks = Racks {
            archive: raw::rack_empty(),
            second: chooser::Rack::new(),
            krate: Some(rack::Rack::new()),
        };
        if let Some(said) = racks.differs() {
            return Err(Difference(format!("empty rack: {said}")));
        }
        self.counted(&"empty rack", Function::RackEmpty, [0; 7], [0; 2])?;
        Ok(racks)
    }

    /// Makes calls one after another.
    pub fn calls(&mut self, calls: &Calls, n: &mut Numbers) -> Result<(), Difference> {
        self.tally.sequences[0] += 1;
        let mut racks = match &calls.rack {
            Some(rack) => Racks::of(rack)?,
            None => self.empty_rack()?,
        };
        for (number, call) in calls.calls.iter().enumerate() {
            self.call(&mut racks, call, n)
                .map_err(|difference| Difference(format!("call {number}, {}", difference.0)))?;
        }
        Ok(())
    }

    /// Makes one call, and gives the words that all sides answer. The racks are then those after it.
    pub fn call(
        &mut self,
        racks: &mut Racks,
        call: &Call,
        n: &mut Numbers,
    ) -> Result<Words, Difference> {
        let before = racks.archive;
        let crate_before = racks.krate.clone();
        let (words, changed) = match call {
            Call::Load {
                slot,
                level,
                os2,
                name,
            } => (
                self.load(racks, call, [*slot, *level], [os2, name], n)?,
                Some(*slot),
            ),
            Call::Unload { slot } => (self.unload(racks, call, *slot)?, Some(*slot)),
            Call::Request {
                family,
                weight,
                width,
                slope,
            } => {
                let around = Lent::new(family, n);
                let wanted = Wanted {
                    family: around.bytes(),
                    weight: *weight,
                    width: *width,
                    slope: *slope,
                };
                let words = self.request(racks, call, &wanted)?;
                unchanged(call, &around, family)?;
                (words, None)
            }
        };
        // A refused call changes no slot, and any other its own slot alone: byte for byte.
        let changed = changed.filter(|_| words[0] == 0);
        for (number, (held, holds)) in before.slots.iter().zip(&racks.archive.slots).enumerate() {
            if held != holds && changed != Some(number as u32) {
                return Err(Difference(format!(
                    "{call}: the archive changes slot {number}, and answers: {}\n  before: {held:?}\n  after:  {holds:?}\n",
                    shown(Function::RackLoad, words)
                )));
            }
        }
        if words[0] != 0 && racks.krate != crate_before {
            return Err(Difference(format!(
                "{call}: the crate's rack changes, and the answer is: {}\n",
                shown(Function::RackLoad, words)
            )));
        }
        if let Some(said) = racks.differs() {
            return Err(Difference(format!("{call}: {said}")));
        }
        Ok(words)
    }

    fn load(
        &mut self,
        racks: &mut Racks,
        call: &Call,
        [slot, level]: [u32; 2],
        tables: [&[u8]; 2],
        n: &mut Numbers,
    ) -> Result<Words, Difference> {
        let function = Function::RackLoad;
        let before = racks.archive;
        let around = tables.map(|table| Lent::new(table, n));
        let [os2, name] = [around[0].bytes(), around[1].bytes()];
        let second = by_second::rack_load(&mut racks.second, slot, level, os2, name);
        let (archive, after) = raw::rack_load(&before, slot, level, os2, name);
        if archive != second {
            return Err(differ(call, function, second, "archive", archive));
        }
        racks.archive = after;
        self.of_crate(racks, call, function, second, |krate| {
            by_crate::rack_load(krate, slot, level, os2, name)
        })?;
        for (lent, table) in around.iter().zip(tables) {
            unchanged(call, lent, table)?;
        }

        let load = Load::of(&before, slot, level, os2, name);
        let read = match load.conditions().first() {
            Some(&refused) => own_words(refused),
            None => [0; 7],
        };
        if second != read {
            return Err(otherwise(call, function, second, &shown(function, read)));
        }
        if second[0] == 0 {
            let held = chosen::face(&after.slots[slot as usize]);
            if held != load.face() {
                return Err(otherwise(
                    call,
                    function,
                    second,
                    &format!("the face is {:?}, not {held:?}", load.face()),
                ));
            }
            self.tally.sequences[1] += 1;
        }
        choose_met::of_load(&load, &before, &mut |thing| self.met_choosing(thing));
        self.counted(call, function, second, version_and_fs_type(os2))
    }

    fn unload(&mut self, racks: &mut Racks, call: &Call, slot: u32) -> Result<Words, Difference> {
        let function = Function::RackUnload;
        let before = racks.archive;
        let second = by_second::rack_unload(&mut racks.second, slot);
        let (archive, after) = raw::rack_unload(&before, slot);
        if archive != second {
            return Err(differ(call, function, second, "archive", archive));
        }
        racks.archive = after;
        self.of_crate(racks, call, function, second, |krate| {
            by_crate::rack_unload(krate, slot)
        })?;

        let read = match before.slots.get(slot as usize) {
            None => own_words((54, None)),
            Some(held) if chosen::face(held).is_none() => own_words((55, None)),
            Some(_) => [0; 7],
        };
        if second != read {
            return Err(otherwise(call, function, second, &shown(function, read)));
        }
        choose_met::of_unload(&before, slot, &mut |thing| self.met_choosing(thing));
        self.counted(call, function, second, [0; 2])
    }

    fn request(
        &mut self,
        racks: &mut Racks,
        call: &Call,
        wanted: &Wanted,
    ) -> Result<Words, Difference> {
        let function = Function::RackRequest;
        let Wanted {
            family,
            weight,
            width,
            slope,
        } = *wanted;
        let second = by_second::rack_request(&racks.second, family, weight, width, slope);
        let archive = raw::rack_request(&racks.archive, family, weight, width, slope);
        if archive != second {
            return Err(differ(call, function, second, "archive", archive));
        }
        self.of_crate(racks, call, function, second, |krate| {
            by_crate::rack_request(krate, family, weight, width, slope)
        })?;

        let read = match chosen::choice(&racks.archive, wanted) {
            Some(choice) => [0, 0, 0, choice.slot as u64, 0, 0, 0],
            None => own_words((50, None)),
        };
        if second != read {
            return Err(otherwise(call, function, second, &shown(function, read)));
        }
        self.tally.sequences[2] += u64::from(second[0] == 0);
        choose_met::of_request(&racks.archive, wanted, &mut |thing| {
            self.met_choosing(thing)
        });
        self.counted(call, function, second, [0; 2])
    }

    /// Makes the call on the crate's rack, if there is one. Its words have to be those of the second program.
    fn of_crate(
        &mut self,
        racks: &mut Racks,
        call: &Call,
        function: Function,
        second: Words,
        asked: impl FnOnce(&mut rack::Rack) -> Words,
    ) -> Result<(), Difference> {
        let Some(krate) = &mut racks.krate else {
            return Ok(());
        };
        let words = asked(krate);
        if words != second {
            return Err(differ(call, function, second, "crate", words));
        }
        self.tally.count_crate(function, words);
        Ok(())
    }

    fn met_choosing(&mut self, thing: Thing) {
        self.tally.met.add(met::Thing::Choose(thing));
    }
}

/// What was lent for reading holds what it held.
fn unchanged(call: &Call, lent: &Lent, bytes: &[u8]) -> Result<(), Difference> {
    if lent.bytes() == bytes {
        return Ok(());
    }
    Err(Difference(format!(
        "{call}: a side changed bytes that were lent for reading\n"
    )))
}
