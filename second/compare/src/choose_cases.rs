//! Calls of the chooser with the answers that follow from the words of document 02's Ask 7, written down by hand.

use std::rc::Rc;

use crate::ask::{Asker, Difference};
use crate::calls::{Call, Calls};
use crate::make::Made;
use crate::numbers::Numbers;
use crate::question::{shown, Function, Words};
use crate::rows::{refused, refused_at};

/// A case: its words, and calls on an empty rack, one after another, with what is answered.
pub struct Case {
    pub words: &'static str,
    calls: Vec<(Call, Words)>,
}

impl Case {
    /// The case's calls.
    pub fn made(&self) -> Made {
        Made::Calls(Calls {
            rack: None,
            calls: self.calls.iter().map(|(call, _)| call.clone()).collect(),
        })
    }
}

/// Makes the calls of one case.
pub fn ask(asker: &mut Asker, case: &Case) -> Result<(), Difference> {
    let mut racks = asker.empty_rack()?;
    let mut numbers = Numbers::new(1);
    for (call, answer) in &case.calls {
        let words = asker.call(&mut racks, call, &mut numbers)?;
        if words != *answer {
            let function = Function::RackRequest;
            return Err(Difference(format!(
                "{call}: the sides agree, but the papers say otherwise\n  papers:     {}\n  both sides: {}\n",
                shown(function, *answer),
                shown(function, words)
            )));
        }
    }
    Ok(())
}

/// It is done.
const DONE: Words = [0; 7];

/// This slot is chosen.
fn slot(number: u64) -> Words {
    [0, 0, 0, number, 0, 0, 0]
}

/// Document 01's first 'OS/2' table with these 16-bit numbers at their offsets, and zero bytes up to its version's size.
fn os2(numbers: &[(usize, u16)]) -> Rc<[u8]> {
    let mut bytes = [0; 100];
    for &(at, number) in [(4, 400), (6, 5)].iter().chain(numbers) {
        bytes[at..at + 2].copy_from_slice(&number.to_be_bytes());
    }
    let size = [78, 86, 96, 96, 96, 100][usize::from(bytes[1]).min(5)];
    bytes[..size].into()
}

/// A 'name' table of format 0 with texts for (3, 1, 0x409) and these name numbers, which rise.
fn name(texts: &[(u16, &[u8])]) -> Rc<[u8]> {
    let count = texts.len() as u16;
    let mut words = vec![0, count, 6 + 12 * count];
    let mut storage = Vec::new();
    for (number, text) in texts {
        let (length, offset) = (text.len() as u16, storage.len() as u16);
        words.extend([3, 1, 0x409, *number, length, offset]);
        storage.extend_from_slice(text);
    }
    let mut bytes: Vec<u8> = words.iter().flat_map(|word| word.to_be_bytes()).collect();
    bytes.extend(storage);
    bytes.into()
}

fn load(slot: u32, level: u32, os2: Rc<[u8]>, name: Rc<[u8]>) -> Call {
    Call::Load {
        slot,
        level,
        os2,
        name,
    }
}

fn unload(slot: u32) -> Call {
    Call::Unload { slot }
}

fn request(family: &[u8], weight: u32, width: u32, slope: u32) -> Call {
    Call::Request {
        family: family.to_vec(),
        weight,
        width,
        slope,
    }
}

/// A load at level 5 of a face of family `A`, which is done.
fn face(slot: u32, weight: u16, width: u16, sloped: u16) -> (Call, Words) {
    let table = os2(&[(4, weight), (6, width), (62, sloped)]);
    (load(slot, 5, table, name(&[(1, b"A")])), DONE)
}

/// The cases: loads, each refusal and several at once, unloads, requests.
pub fn cases() -> Vec<Case> {
    let mut cases = Vec::new();
    let mut case = |words, calls| cases.push(Case { words, calls });
    families(&mut case);
    refusals(&mut case);
    newer(&mut case);
    unloads(&mut case);
    order(&mut case);
    cases
}

type Add<'a> = &'a mut dyn FnMut(&'static str, Vec<(Call, Words)>);

/// "A slot holds a family text (the record (3,1,0x409,16), or ID 1 under the same other numbers if 16 isn't there)".
fn families(case: Add) {
    let long = [b'x'; 65];
    let loaded = |slot, texts: &[(u16, &[u8])], answer| {
        let call = load(slot, 5, os2(&[]), name(texts));
        (call, answer)
    };
    case(
        "record 16 is before record 1",
        vec![
            loaded(0, &[(1, b"one"), (16, b"sixteen")], DONE),
            loaded(1, &[(1, b"one")], DONE),
            (request(b"sixteen", 400, 5, 0), slot(0)),
            (request(b"one", 400, 5, 0), slot(1)),
        ],
    );
    case(
        "a record 16 that is empty or too long, and a record 1 that is fine",
        vec![
            loaded(0, &[(1, b"one"), (16, b"")], refused(51)),
            loaded(0, &[(1, b"one"), (16, &long)], refused(51)),
            loaded(0, &[(1, b""), (16, b"sixteen")], DONE),
            loaded(1, &[(1, &long), (16, b"sixteen")], DONE),
        ],
    );
    case(
        "families of 1, 63, 64 and 65 bytes",
        vec![
            loaded(0, &[(1, b"x")], DONE),
            loaded(1, &[(1, &long[..63])], DONE),
            loaded(2, &[(1, &long[..64])], DONE),
            loaded(3, &[(1, &long)], refused(51)),
            loaded(3, &[(1, b"")], refused(51)),
            loaded(3, &[(2, b"x"), (4, b"x"), (17, b"x")], refused(20)),
            (request(b"x", 1, 1, 1), slot(0)),
            (request(&long[..63], 1, 1, 1), slot(1)),
            (request(&long[..64], 1, 1, 1), slot(2)),
            (request(&long, 1, 1, 1), refused(50)),
            (request(b"", 1, 1, 1), refused(50)),
            (request(&long[..62], 1, 1, 1), refused(50)),
        ],
    );
    case(
        "families that differ in one byte",
        vec![
            loaded(31, &[(1, b"ab")], DONE),
            loaded(0, &[(1, b"ac")], DONE),
            loaded(1, &[(1, b"bb")], DONE),
            (request(b"ab", 400, 5, 0), slot(31)),
            (request(b"ac", 400, 5, 0), slot(0)),
            (request(b"bb", 400, 5, 0), slot(1)),
            (request(b"a", 400, 5, 0), refused(50)),
            (request(b"abc", 400, 5, 0), refused(50)),
        ],
    );
}

/// "Refusals on load, in order: 1 for the level, 54 slot above 31, 53 slot taken, the OS/2 refusal, 52 table newer than the level,
/// the 'name' refusal, 20 no family record, 51 family empty or over 64 bytes."
fn refusals(case: Add) {
    let fine = || (os2(&[]), name(&[(1, b"A")]));
    let bad_os2: fn() -> Rc<[u8]> = || os2(&[])[..77].into();
    let bad_name: fn() -> Rc<[u8]> = || vec![0; 5].into();
    case(
        "all refusals of a load, one after another",
        vec![
            face(7, 400, 5, 0),
            (load(32, 6, bad_os2(), bad_name()), refused(1)),
            (load(7, 6, bad_os2(), bad_name()), refused(1)),
            (load(0, u32::MAX, bad_os2(), bad_name()), refused(1)),
            (load(32, 5, bad_os2(), bad_name()), refused(54)),
            (load(u32::MAX, 5, bad_os2(), bad_name()), refused(54)),
            (load(7, 5, bad_os2(), bad_name()), refused(53)),
            (load(0, 5, bad_os2(), bad_name()), refused(2)),
            (load(0, 5, os2(&[(4, 0)]), bad_name()), refused_at(3, 1)),
            (load(0, 5, os2(&[(6, 10)]), bad_name()), refused_at(3, 2)),
            (load(0, 0, os2(&[(0, 1)]), bad_name()), refused(52)),
            (load(0, 5, fine().0, bad_name()), refused(10)),
            (load(0, 5, fine().0, name(&[])), refused(20)),
            (load(0, 5, fine().0, name(&[(1, b"")])), refused(51)),
            (load(0, 5, fine().0, fine().1), DONE),
            (load(0, 5, fine().0, fine().1), refused(53)),
            (load(31, 0, fine().0, fine().1), DONE),
        ],
    );
    // A refusal of the tables carries what document 01 says; equal keys are Ask 3's 19.
    let twice = name(&[(1, b"A"), (1, b"A")]);
    case(
        "what the tables' refusals carry",
        vec![
            (load(0, 5, fine().0, twice), refused_at(19, 1)),
            (
                load(0, 5, os2(&[(0, 5)]), fine().1.clone()),
                refused_at(3, 7),
            ),
            (
                load(0, 5, os2(&[(0, 3), (8, 12)]), fine().1.clone()),
                refused_at(3, 4),
            ),
            (load(0, 5, os2(&[(0, 2), (8, 12)]), fine().1), DONE),
        ],
    );
}

/// A newer table that is too short for the level is 2, one that is too short only for its own version 52.
fn newer(case: Add) {
    let family = || name(&[(1, b"A")]);
    let table = os2(&[(0, 5), (98, 1)]);
    let cut = |length: usize| -> Rc<[u8]> { table[..length].into() };
    case(
        "a version 5 table at every level",
        vec![
            (load(0, 0, cut(77), family()), refused(2)),
            (load(0, 0, cut(78), family()), refused(52)),
            (load(0, 1, cut(85), family()), refused(2)),
            (load(0, 1, cut(86), family()), refused(52)),
            (load(0, 2, cut(95), family()), refused(2)),
            (load(0, 3, cut(96), family()), refused(52)),
            (load(0, 4, cut(96), family()), refused(52)),
            (load(0, 5, cut(96), family()), refused(2)),
            (load(0, 4, cut(100), name(&[])), refused(52)),
            (load(0, 5, cut(100), family()), DONE),
        ],
    );
}

/// "On unload: 54, then 55 slot empty."
fn unloads(case: Add) {
    case(
        "unloads",
        vec![
            (unload(0), refused(55)),
            (unload(31), refused(55)),
            (unload(32), refused(54)),
            (unload(u32::MAX), refused(54)),
            face(31, 400, 5, 0),
            face(0, 400, 5, 0),
            (request(b"A", 400, 5, 0), slot(0)),
            (unload(0), DONE),
            (unload(0), refused(55)),
            (request(b"A", 400, 5, 0), slot(31)),
            (unload(31), DONE),
            (request(b"A", 400, 5, 0), refused(50)),
            face(0, 700, 5, 0),
            (request(b"A", 400, 5, 0), slot(0)),
        ],
    );
}

/// "the choice is the one with matching slope first, then the smallest width difference, then the smallest weight difference, then
/// the lower weight, then the lower slot."
fn order(case: Add) {
    case(
        "slope is first",
        vec![
            face(0, 400, 5, 0),
            face(1, 900, 9, 1),
            (request(b"A", 400, 5, 0), slot(0)),
            (request(b"A", 400, 5, 1), slot(1)),
            (request(b"A", 900, 9, 0), slot(0)),
            (request(b"A", 400, 5, u32::MAX), slot(1)),
            (unload(0), DONE),
            (request(b"A", 400, 5, 0), slot(1)),
        ],
    );
    case(
        "width is second, and 4 and 6 are equally near 5",
        vec![
            face(0, 400, 4, 0),
            face(1, 900, 6, 0),
            (request(b"A", 900, 4, 0), slot(0)),
            (request(b"A", 400, 6, 0), slot(1)),
            (request(b"A", 900, 5, 0), slot(1)),
            (request(b"A", 400, 5, 0), slot(0)),
            (request(b"A", 400, u32::MAX, 0), slot(1)),
            (request(b"A", 400, 65_536 + 4, 0), slot(1)),
            (request(b"A", 900, 0, 0), slot(0)),
        ],
    );
    case(
        "weight is third, and the lower one is next",
        vec![
            face(0, 500, 5, 0),
            face(1, 300, 5, 0),
            (request(b"A", 401, 5, 0), slot(0)),
            (request(b"A", 399, 5, 0), slot(1)),
            (request(b"A", 400, 5, 0), slot(1)),
            (request(b"A", 65_535, 5, 0), slot(0)),
            (request(b"A", 65_536 + 300, 5, 0), slot(0)),
            (request(b"A", u32::MAX, 5, 0), slot(0)),
            (request(b"A", 0, 5, 0), slot(1)),
        ],
    );
    case(
        "the lower slot is last",
        vec![
            face(31, 400, 5, 0),
            face(30, 400, 5, 0),
            face(8, 400, 6, 1),
            (request(b"A", 400, 5, 0), slot(30)),
            face(9, 400, 4, 1),
            (request(b"A", 400, 5, 1), slot(8)),
            (unload(8), DONE),
            (request(b"A", 400, 5, 1), slot(9)),
        ],
    );
    case(
        "slope is fsSelection bit 0 alone",
        vec![
            (
                load(0, 4, os2(&[(0, 4), (62, 0x0200)]), name(&[(1, b"A")])),
                DONE,
            ),
            (
                load(
                    1,
                    4,
                    os2(&[(0, 4), (4, 900), (62, 0x0001)]),
                    name(&[(1, b"A")]),
                ),
                DONE,
            ),
            (request(b"A", 400, 5, 1), slot(1)),
            (request(b"A", 900, 5, 0), slot(0)),
        ],
    );
}
