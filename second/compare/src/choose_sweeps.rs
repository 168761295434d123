//! Sweeps over calls of the chooser: every choice of a level, a slot and two tables with and without faults, every length of a
//! family, family records there or not, numbers in the places of an 'OS/2' table that a load reads, every two and three faces of a
//! small set, numbers at the edges, every slot, families that differ little, and slots that no load makes.

use std::rc::Rc;

use crate::ask::{caught, Asker, LEVELS};
use crate::calls::{Call, Calls, EMPTY};
use crate::choosing::Racks;
use crate::chosen::size;
use crate::make::{Key, Made};
use crate::numbers::Numbers;
use crate::raw::{Rack, Slot, FAMILY_BYTES, SLOTS};
use crate::sweeps::{found, table, Found, Sweep};

/// The groups, each with its words.
pub const SWEEPS: [(&str, Sweep); 7] = [
    ("refusals of loads", refusals),
    ("families of fonts", families),
    ("OS/2 tables of loads", styles),
    ("the order of faces", order),
    ("families of requests", asked),
    ("slots", slots),
    ("slots that no load makes", strange),
];

const FAMILY_16: Key = [3, 1, 0x409, 16];
const FAMILY_1: Key = [3, 1, 0x409, 1];
const NO_FACES: Rack = Rack {
    slots: [EMPTY; SLOTS],
};

/// Makes one call on a rack. Gives the archive's rack after it.
fn on(asker: &mut Asker, sweep: &str, rack: &Rack, call: &Call) -> Result<Rack, Found> {
    let mut after = *rack;
    let mut numbers = Numbers::new(asker.tally.calls());
    caught(|| {
        let mut racks = Racks::of(rack)?;
        asker.call(&mut racks, call, &mut numbers)?;
        after = racks.archive;
        Ok(())
    })
    .map_err(|difference| {
        let calls = Calls {
            rack: Some(Box::new(*rack)),
            calls: vec![call.clone()],
        };
        found(difference, &Made::Calls(calls), sweep)
    })?;
    Ok(after)
}

fn load(slot: u32, level: u32, os2: &Rc<[u8]>, name: &Rc<[u8]>) -> Call {
    Call::Load {
        slot,
        level,
        os2: os2.clone(),
        name: name.clone(),
    }
}

fn request(family: &[u8], weight: u32, width: u32, slope: u32) -> Call {
    Call::Request {
        family: family.to_vec(),
        weight,
        width,
        slope,
    }
}

/// An 'OS/2' table of a version with these numbers; the optical sizes of version 5 are 0 and 1.
fn style(version: u16, weight: u16, width: u16, selection: u16) -> Vec<u8> {
    let mut bytes = vec![0; 100];
    for (at, number) in [
        (0, version),
        (4, weight),
        (6, width),
        (62, selection),
        (98, 1),
    ] {
        bytes[at..at + 2].copy_from_slice(&number.to_be_bytes());
    }
    bytes.truncate(size(version.into()));
    bytes
}

/// The table with another number at a place.
fn with(mut bytes: Vec<u8>, at: usize, number: u16) -> Vec<u8> {
    bytes[at..at + 2].copy_from_slice(&number.to_be_bytes());
    bytes
}

/// A 'name' table of a format with these strings one after another; in format 1 with one tag.
fn named(format: u16, strings: &[(Key, &[u8])]) -> Vec<u8> {
    let count = strings.len() as u16;
    let mut words = vec![format, count, 6 + 12 * count + 6 * format];
    let mut storage = Vec::new();
    for (key, text) in strings {
        words.extend(key);
        words.extend([text.len() as u16, storage.len() as u16]);
        storage.extend_from_slice(text);
    }
    if format == 1 {
        words.extend([1, 0, 0]);
    }
    table(&words, &storage)
}

/// A slot that holds a face of family `A`.
fn face(weight: u16, width: u16, sloped: u16) -> Slot {
    let mut slot = EMPTY;
    slot.family[0] = b'A';
    Slot {
        weight,
        width,
        sloped,
        length: 1,
        ..slot
    }
}

/// A slot with a family.
fn with_family(text: &[u8]) -> Slot {
    let mut slot = face(400, 5, 0);
    slot.family[..text.len()].copy_from_slice(text);
    slot.length = text.len() as u16;
    slot
}

// ---- loads

/// Every level, slots that are empty, taken and not there, 'OS/2' tables and 'name' tables that are right and with each fault.
fn refusals(asker: &mut Asker) -> Result<(), Found> {
    let sweep = "every level, slot and two tables";
    let plain = |version| style(version, 400, 5, 0);
    let mut os2s: Vec<Vec<u8>> = (0..=7).map(plain).collect();
    os2s.extend([
        vec![],
        vec![0],
        plain(0)[..77].to_vec(),
        plain(5)[..78].to_vec(),
        plain(5)[..99].to_vec(),
        plain(65_535),
        with(plain(0), 4, 0),
        with(plain(1), 6, 10),
        with(plain(2), 8, 1),
        with(plain(3), 8, 12),
        with(plain(3), 62, 128),
        with(plain(4), 62, 0x0041),
        with(plain(5), 98, 0),
        // Too short, and a rule is broken.
        with(plain(5), 4, 0)[..95].to_vec(),
        // Too short, and newer than every level.
        plain(7)[..77].to_vec(),
    ]);
    let one = |key: Key, length: u16, offset: u16| [&key[..], &[length, offset]].concat();
    let records = |format: u16, records: &[Vec<u16>], tags: &[u16], storage: &[u8]| {
        let count = records.len() as u16;
        let start = 6 + 12 * count + format * (2 + 2 * tags.len() as u16);
        let mut words = vec![format, count, start];
        words.extend(records.concat());
        if format == 1 {
            words.push(tags.len() as u16 / 2);
            words.extend(tags);
        }
        table(&words, storage)
    };
    let mut names = vec![
        named(0, &[(FAMILY_1, b"A")]),
        named(1, &[(FAMILY_16, b"A")]),
        named(0, &[]),
        named(1, &[([1, 0, 0, 1], b"A")]),
        named(0, &[(FAMILY_1, b"")]),
        named(1, &[(FAMILY_1, &[7; 65])]),
        named(0, &[(FAMILY_1, b"A"), (FAMILY_16, b"")]),
        named(1, &[(FAMILY_1, b"A"), (FAMILY_16, &[7; 65])]),
        vec![0; 5],
        vec![0, 2, 0, 0, 0, 6],
        vec![0, 0, 0, 1, 0, 6],
        vec![0, 1, 0, 0, 0, 6],
        vec![0, 0, 0, 0, 0, 5],
    ];
    // A fault of a record or a tag where the family is fine, is not there, is empty and is too long.
    let storage = [7; 65];
    for (key, length) in [
        (FAMILY_1, 1),
        ([3, 1, 0x408, 1], 1),
        (FAMILY_1, 0),
        (FAMILY_16, 65),
    ] {
        let first = one(key, length, 0);
        let behind = [3, 1, 0x40A, 0];
        names.extend([
            records(0, &[first.clone(), one(behind, 0, 66)], &[], &storage),
            records(0, &[first.clone(), one(behind, 1, 65)], &[], &storage),
            records(
                0,
                &[first.clone(), one([3, 1, 0x8000, 0], 0, 0)],
                &[],
                &storage,
            ),
            records(0, &[one(behind, 0, 0), first.clone()], &[], &storage),
            records(0, &[first.clone(), first.clone()], &[], &storage),
            records(1, &[first], &[1, 65], &storage),
        ]);
    }
    let share = |tables: Vec<Vec<u8>>| -> Vec<Rc<[u8]>> {
        tables.into_iter().map(|bytes| bytes.into()).collect()
    };
    let (os2s, names) = (share(os2s), share(names));
    let mut rack = NO_FACES;
    rack.slots[3] = face(1, 1, 0);
    rack.slots[5] = face(1000, 9, 1);
    rack.slots[31].length = 65;
    for os2 in &os2s {
        for name in &names {
            for level in LEVELS {
                for slot in [0, 5, 31, 32, u32::MAX] {
                    on(asker, sweep, &rack, &load(slot, level, os2, name))?;
                }
            }
        }
    }
    Ok(())
}

fn families(asker: &mut Asker) -> Result<(), Found> {
    let os2: Rc<[u8]> = style(0, 400, 5, 0).into();
    let long: Vec<u8> = (0..65_535_u32)
        .map(|place| (place * 89 + 150) as u8)
        .collect();
    let mut rack = NO_FACES;
    // The slot that is loaded holds bytes.
    rack.slots[9].family = [0xEE; FAMILY_BYTES];
    let loaded = |asker: &mut Asker, sweep, name: Vec<u8>, asked: &[u8]| {
        let after = on(asker, sweep, &rack, &load(9, 5, &os2, &name.into()))?;
        on(asker, sweep, &after, &request(asked, 400, 5, 0))?;
        Ok(())
    };

    let sweep = "family records 16 and 1, there or not, of lengths at the edges";
    let lengths = [0, 1, 2, 3, 63, 64, 65, 66, 255, 256, 257, 320, 30_000];
    let all = || lengths.into_iter().map(Some).chain([None]);
    for format in [0, 1] {
        for sixteen in all() {
            for one in all() {
                let [sixteen, one] = [sixteen, one].map(|length| length.map(|end| &long[..end]));
                let mut strings: Vec<(Key, &[u8])> = Vec::new();
                strings.extend(one.map(|text| (FAMILY_1, text)));
                strings.extend(sixteen.map(|text| (FAMILY_16, text)));
                let asked = sixteen.or(one).unwrap_or(b"A");
                loaded(asker, sweep, named(format, &strings), asked)?;
            }
        }
    }
    let sweep = "every length of a family up to 600, and the highest";
    for length in (0..=600).chain([65_534, 65_535]) {
        for key in [FAMILY_1, FAMILY_16] {
            let text = &long[..length];
            loaded(asker, sweep, named(0, &[(key, text)]), text)?;
        }
    }
    let sweep = "every number as a part of a family record's key";
    for key in [FAMILY_1, FAMILY_16] {
        for part in 0..4 {
            let mut name = named(1, &[(key, b"A")]);
            for number in 0..=u16::MAX {
                name = with(name, 6 + 2 * part, number);
                let call = load(0, 5, &os2, &name.clone().into());
                on(asker, sweep, &NO_FACES, &call)?;
            }
        }
    }
    let sweep = "records beside the family's";
    for key in [FAMILY_1, FAMILY_16] {
        for part in 0..4 {
            for other in [key[part] - 1, key[part] + 1] {
                let mut near = key;
                near[part] = other;
                let mut strings: Vec<(Key, &[u8])> = vec![(near, b"near"), (key, b"A")];
                strings.sort();
                loaded(asker, sweep, named(0, &strings), b"A")?;
                loaded(asker, sweep, named(0, &[(near, b"near")]), b"near")?;
            }
        }
    }
    Ok(())
}

fn styles(asker: &mut Asker) -> Result<(), Found> {
    let name: Rc<[u8]> = named(0, &[(FAMILY_1, b"A")]).into();
    let sweep = "every weight, width and fsSelection of a font that is loaded";
    for (version, at) in [(0, 4), (0, 6), (0, 62), (4, 62), (5, 62)] {
        let mut os2 = style(version, 400, 5, 0);
        for number in 0..=u16::MAX {
            os2 = with(os2, at, number);
            let call = load(31, 5, &os2.clone().into(), &name);
            on(asker, sweep, &NO_FACES, &call)?;
        }
    }
    let sweep = "every version of a font that is loaded";
    let mut os2 = style(5, 400, 5, 0);
    for version in 0..=u16::MAX {
        os2 = with(os2, 0, version);
        for level in [0, 5] {
            let call = load(0, level, &os2.clone().into(), &name);
            on(asker, sweep, &NO_FACES, &call)?;
        }
    }
    let sweep = "every length of an OS/2 table that is loaded";
    for version in (0..=7).chain([255, 256, 65_535]) {
        for weight in [400, 0] {
            let mut whole = style(version, weight, 5, 0);
            whole.resize(104, 0);
            for length in 0..=whole.len() {
                let os2: Rc<[u8]> = whole[..length].into();
                for level in 0..=6 {
                    on(asker, sweep, &NO_FACES, &load(0, level, &os2, &name))?;
                }
            }
        }
    }
    Ok(())
}

// ---- requests

fn order(asker: &mut Asker) -> Result<(), Found> {
    let sweep = "every three faces of a small set";
    let mut set = Vec::new();
    for weight in [399, 400, 401] {
        for width in [4, 5, 6] {
            set.extend([0, 1].map(|sloped| face(weight, width, sloped)));
        }
    }
    let mut rack = NO_FACES;
    // In the first slot nothing, so that there are two faces, or one of the set.
    for first in [EMPTY].iter().chain(&set) {
        for second in &set {
            for third in &set {
                (rack.slots[0], rack.slots[14], rack.slots[31]) = (*first, *second, *third);
                for weight in [399, 400] {
                    for width in [4, 5] {
                        for slope in [0, 1] {
                            on(asker, sweep, &rack, &request(b"A", weight, width, slope))?;
                        }
                    }
                }
            }
        }
    }

    let sweep = "every two widths";
    for one in 0..=10 {
        for other in 0..=10 {
            rack = NO_FACES;
            (rack.slots[1], rack.slots[2]) = (face(500, one, 0), face(300, other, 0));
            for width in 0..=12 {
                for weight in [300, 400, 500] {
                    on(asker, sweep, &rack, &request(b"A", weight, width, 0))?;
                }
            }
        }
    }

    let sweep = "weights and widths at the edges";
    let held = [0, 1, 4, 5, 6, 9, 10, 1000, 32_767, 32_768, 65_534, 65_535];
    let mut wanted: Vec<u32> = held.map(u32::from).to_vec();
    for power in [16, 31] {
        wanted.extend((0..8).map(|more| (1 << power) - 2 + more));
    }
    wanted.extend([65_536 + 1000, 65_536 + 1001, 131_072, 131_077]);
    wanted.extend((0..8).map(|less| u32::MAX - less));
    for one in held {
        for other in held {
            for &number in &wanted {
                for slope in [0, 1] {
                    rack = NO_FACES;
                    (rack.slots[1], rack.slots[2]) = (face(one, 5, 0), face(other, 5, slope));
                    on(asker, sweep, &rack, &request(b"A", number, 5, 0))?;
                    (rack.slots[1], rack.slots[2]) = (face(400, one, slope), face(400, other, 0));
                    on(asker, sweep, &rack, &request(b"A", 400, number, 1))?;
                }
            }
        }
    }
    let sweep = "slopes at the edges";
    (rack.slots[1], rack.slots[2]) = (face(400, 5, 0), face(400, 5, 1));
    for power in 0..32 {
        for slope in [(1_u32 << power) - 1, 1 << power, (1_u32 << power) + 1] {
            on(asker, sweep, &rack, &request(b"A", 400, 5, slope))?;
        }
    }
    on(asker, sweep, &rack, &request(b"A", 400, 5, u32::MAX))?;
    Ok(())
}

fn asked(asker: &mut Asker) -> Result<(), Found> {
    let sweep = "every two lengths of a family";
    let long: Vec<u8> = (0..140_000_u32).map(|place| (place % 251) as u8).collect();
    for length in 0..=66 {
        let mut rack = NO_FACES;
        rack.slots[3] = with_family(&long[..length.min(FAMILY_BYTES)]);
        rack.slots[3].length = length as u16;
        let lengths = (0..=70).chain([127, 128, 129, 255, 256, 256 + length]);
        for other in lengths.chain([65_535, 65_536, 65_536 + length, 131_072 + length]) {
            on(asker, sweep, &rack, &request(&long[..other], 400, 5, 0))?;
        }
    }
    let sweep = "a family with each bit changed";
    // Letters among other bytes, and two bytes a character of which each first is 0.
    let mut wide = long[60..60 + FAMILY_BYTES].to_vec();
    wide.iter_mut().step_by(2).for_each(|high| *high = 0);
    let lengths = [1, 2, 3, 31, 32, 33, 63, 64];
    for family in lengths
        .map(|length| [&long[60..60 + length], &wide[..length]])
        .as_flattened()
    {
        let mut near = family.to_vec();
        let mut rack = NO_FACES;
        for place in 0..family.len() {
            for bit in 0..8 {
                near[place] ^= 1 << bit;
                // Alone, and with the family asked for in a later slot or in an earlier one.
                rack.slots = NO_FACES.slots;
                rack.slots[8] = with_family(&near);
                on(asker, sweep, &rack, &request(family, 400, 5, 0))?;
                rack.slots[9] = with_family(family);
                on(asker, sweep, &rack, &request(family, 400, 5, 0))?;
                on(asker, sweep, &rack, &request(&near, 400, 5, 0))?;
                near[place] = family[place];
            }
        }
    }
    Ok(())
}

// ---- slots

fn slots(asker: &mut Asker) -> Result<(), Found> {
    let os2: Rc<[u8]> = style(4, 700, 3, 1).into();
    let name: Rc<[u8]> = named(0, &[(FAMILY_1, b"A")]).into();
    let mut full = NO_FACES;
    for (number, slot) in full.slots.iter_mut().enumerate() {
        *slot = with_family(&[b'A', number as u8]);
    }
    let mut numbers: Vec<u32> = (0..=70).collect();
    for power in 7..32 {
        numbers.extend((0..34).map(|low| (1 << power) + low));
    }
    numbers.extend((0..34).map(|less| u32::MAX - less));

    let sweep = "every slot of an empty and of a full rack";
    for &slot in &numbers {
        for rack in [&NO_FACES, &full] {
            let loaded = on(asker, sweep, rack, &load(slot, 5, &os2, &name))?;
            let unloaded = on(asker, sweep, &loaded, &Call::Unload { slot })?;
            on(asker, sweep, &unloaded, &Call::Unload { slot })?;
            on(asker, sweep, &unloaded, &load(slot, 5, &os2, &name))?;
            for family in [&b"A"[..], &[b'A', slot as u8]] {
                on(asker, sweep, &unloaded, &request(family, 400, 5, 0))?;
            }
        }
    }
    let sweep = "equal faces in every two slots";
    for one in 0..SLOTS {
        for other in 0..SLOTS {
            let mut rack = NO_FACES;
            rack.slots[one] = face(400, 5, 0);
            rack.slots[other] = face(400, 5, 0);
            on(asker, sweep, &rack, &request(b"A", 400, 5, 0))?;
            rack.slots[other].weight = 500;
            on(asker, sweep, &rack, &request(b"A", 450, 5, 1))?;
        }
    }

    // The archive's own empty rack is filled, emptied, and filled again.
    let sweep = "a rack that is filled and emptied";
    let shorter: Rc<[u8]> = named(1, &[(FAMILY_16, b"B")]).into();
    let longer: Rc<[u8]> = named(1, &[(FAMILY_16, &[b'B'; 64])]).into();
    let mut calls = Calls::default();
    for name in [&name, &longer, &shorter] {
        for slot in 0..=SLOTS as u32 {
            calls.calls.push(load(slot, 4, &os2, name));
            calls.calls.push(load(slot, 4, &os2, name));
        }
        for slot in 0..=SLOTS as u32 {
            for family in [&b"A"[..], b"B", &[b'B'; 64]] {
                calls.calls.push(request(family, 700, 3, 1));
            }
            calls.calls.push(Call::Unload { slot });
            calls.calls.push(Call::Unload { slot });
        }
    }
    caught(|| asker.calls(&calls, &mut Numbers::new(1)))
        .map_err(|difference| found(difference, &Made::Calls(calls.clone()), sweep))
}

fn strange(asker: &mut Asker) -> Result<(), Found> {
    let os2: Rc<[u8]> = style(4, 700, 3, 1).into();
    let name: Rc<[u8]> = named(0, &[(FAMILY_1, b"A")]).into();

    let sweep = "every length in a slot";
    let mut rack = NO_FACES;
    rack.slots[7] = with_family(&[b'A'; 64]);
    rack.slots[9] = with_family(&[b'B'; 64]);
    for length in 0..=u16::MAX {
        rack.slots[7].length = length;
        rack.slots[9].length = u16::MAX - length;
        on(asker, sweep, &rack, &Call::Unload { slot: 7 })?;
        on(asker, sweep, &rack, &load(7, 5, &os2, &name))?;
        let asked = [b'A'; 64];
        let asked = &asked[..usize::from(length % 256).min(64)];
        on(asker, sweep, &rack, &request(asked, 400, 5, 0))?;
    }
    let sweep = "every number as a slot's slope";
    let mut rack = NO_FACES;
    for number in 0..=u16::MAX {
        (rack.slots[7], rack.slots[8]) = (face(400, 5, 0), face(400, 5, number));
        on(asker, sweep, &rack, &request(b"A", 400, 5, 1))?;
        (rack.slots[7], rack.slots[8]) = (face(400, 5, number), face(400, 5, 0));
        on(asker, sweep, &rack, &request(b"A", 400, 5, 0))?;
    }
    let sweep = "every weight and width in a slot";
    for number in 0..=u16::MAX {
        let call = request(b"A", 32_768, 32_768, 0);
        (rack.slots[7], rack.slots[8]) = (face(30_000, 5, 0), face(number, 5, 0));
        on(asker, sweep, &rack, &call)?;
        (rack.slots[7], rack.slots[8]) = (face(1, 35_000, 0), face(0, number, 0));
        on(asker, sweep, &rack, &call)?;
    }
    let sweep = "other bytes behind the family";
    for length in 1..=FAMILY_BYTES {
        for place in length..FAMILY_BYTES {
            (rack.slots[7], rack.slots[8]) = (face(500, 5, 0), face(400, 5, 0));
            for slot in &mut rack.slots[7..9] {
                slot.family = [b'A'; FAMILY_BYTES];
                slot.length = length as u16;
            }
            rack.slots[8].family[place] = 0;
            let family = [b'A'; FAMILY_BYTES];
            on(asker, sweep, &rack, &request(&family[..length], 400, 5, 0))?;
            on(asker, sweep, &rack, &Call::Unload { slot: 7 })?;
        }
    }
    Ok(())
}
