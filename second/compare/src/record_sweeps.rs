//! Sweeps over the records that answers tell: every record of small tables, of few keys in every choice, and of the largest
//! tables; and the records of PostScript names and version numbers in every choice, among others and at every number up to 300.

use crate::ask::Asker;
use crate::make::Made;
use crate::question::Question;
use crate::sweeps::{ask, name_questions, table, Found, Key, Sweep};

/// The groups, each with its words.
pub const SWEEPS: [(&str, Sweep); 3] = [
    ("records that lookups tell", lookups),
    ("records that names and versions tell", names_and_versions),
    ("records of the largest tables", largest),
];

const VERSION_ONE: Key = [1, 0, 0, 5];
const POSTSCRIPT_ONE: Key = [1, 0, 0, 6];
const VERSION_TWO: Key = [3, 1, 0x409, 5];
const POSTSCRIPT_TWO: Key = [3, 1, 0x409, 6];

/// A table of either format with these keys, lengths and offsets, and this storage; in format 1 with a tag where there is room
/// for one.
pub fn laid_out(tagged: bool, records: &[(Key, [u16; 2])], storage: &[u8]) -> Made {
    let mut words = vec![u16::from(tagged), records.len() as u16, 0];
    for (key, string) in records {
        words.extend(key);
        words.extend(string);
    }
    if tagged {
        match records.len() < 5_000 {
            true => words.extend([1, 0, 0]),
            false => words.push(0),
        }
    }
    words[2] = 2 * words.len() as u16;
    Made::Name(table(&words, storage))
}

/// The same with these texts one after another in the storage.
fn with_texts(tagged: bool, texts: &[(Key, &[u8])]) -> Made {
    let mut storage = Vec::new();
    let mut records = Vec::new();
    for (key, text) in texts {
        records.push((*key, [text.len() as u16, storage.len() as u16]));
        storage.extend_from_slice(text);
    }
    laid_out(tagged, &records, &storage)
}

fn lookup(key: Key) -> Question {
    Question::Lookup(key.map(u32::from))
}

fn lookups(asker: &mut Asker) -> Result<(), Found> {
    // Keys that differ in one part alone, that and every key between two of them looked up. Each record has a string of its own,
    // or all have the same.
    let sweep = "every record of a small table";
    for count in 0..=24 {
        for part in 0..4 {
            let key = |number| {
                let mut key = [3, 1, 9, 5];
                key[part] = number;
                key
            };
            let asked: Vec<_> = (0..=2 * count + 1).map(|n| lookup(key(n))).collect();
            for same in [false, true] {
                let string = |number| match same {
                    true => [2, 1],
                    false => [1, number],
                };
                let records: Vec<_> = (0..count).map(|n| (key(2 * n + 1), string(n))).collect();
                for tagged in [false, true] {
                    let made = laid_out(tagged, &records, &[7; 25]);
                    ask(asker, sweep, &made, &asked)?;
                }
            }
        }
    }
    // Up to four of the sixteen keys whose parts are 1 and 2, in their order, all with one string.
    let sweep = "every choice of few keys";
    let keys: Vec<Key> = (0..16_u16)
        .map(|bits| [3, 2, 1, 0].map(|place| 1 + (bits >> place & 1)))
        .collect();
    let asked: Vec<_> = keys.iter().map(|&key| lookup(key)).collect();
    for choice in (0..1_u32 << 16).filter(|choice| choice.count_ones() <= 4) {
        let records: Vec<_> = (0..16)
            .filter(|place| choice >> place & 1 == 1)
            .map(|place| (keys[place], [1, 0]))
            .collect();
        for tagged in [false, true] {
            ask(asker, sweep, &laid_out(tagged, &records, b"x"), &asked)?;
        }
    }
    Ok(())
}

/// The texts of the four records, in the order of their keys: a version, a name, a version, a name. First they are fine; then
/// there is no number in platform 3's version and the names differ; then that version has an odd length and a name is ill-formed;
/// then there is no number in platform 1's version and a name has an odd length; last both versions are the same.
const TEXTS: [[&[u8]; 4]; 5] = [
    [b"1.2", b"Ab", b"\x003\0.\x004", b"\0A\0b"],
    [b"1.2", b"Ab", b"\x003\0.", b"\0A\0c"],
    [b"1.2", b"A b", b"\x003\0.\x004\0", b"\0A\0 \0b"],
    [b"none", b"Ab", b"\x003\0.\x004", b"\0A\0b\0"],
    [b"3.4", b"Ab", b"\x003\0.\x004", b"\0A\0b"],
];
const FOUR: [Key; 4] = [VERSION_ONE, POSTSCRIPT_ONE, VERSION_TWO, POSTSCRIPT_TWO];

fn names_and_versions(asker: &mut Asker) -> Result<(), Found> {
    // Every choice of the four, with up to two others before, between and behind them.
    let sweep = "every choice of PostScript and version records among others";
    let others = [
        [[0, 3, 0, 5], [1, 0, 0, 4]],
        [[1, 0, 1, 5], [3, 1, 0x408, 6]],
        [[3, 1, 0x409, 7], [3, 1, 0x40A, 5]],
    ];
    for choice in 0..16 * 27 {
        let counts = [choice / 16 % 3, choice / 48 % 3, choice / 144];
        for texts in TEXTS {
            let mut records: Vec<(Key, &[u8])> = (0..4)
                .filter(|place| choice >> place & 1 == 1)
                .map(|place| (FOUR[place], texts[place]))
                .collect();
            for (keys, count) in others.iter().zip(counts) {
                records.extend(keys[..count].iter().map(|&key| (key, &b"5.6"[..])));
            }
            records.sort();
            let keys: Vec<Key> = FOUR
                .into_iter()
                .chain(records.iter().map(|(key, _)| *key))
                .collect();
            for tagged in [false, true] {
                let made = with_texts(tagged, &records);
                ask(asker, sweep, &made, &name_questions(&keys))?;
            }
        }
    }
    // At every number up to 300 and a little above: all four, and without one of the version records.
    let sweep = "PostScript and version records at every number";
    for before in 0..=300 {
        for without in [None, Some(0), Some(2)] {
            after_others(asker, sweep, before, |place| Some(place) != without)?;
        }
    }
    Ok(())
}

/// Asks about those of the four that are wanted, behind so many other records, in either format.
fn after_others(
    asker: &mut Asker,
    sweep: &str,
    before: u16,
    wanted: impl Fn(usize) -> bool,
) -> Result<(), Found> {
    let mut records: Vec<(Key, &[u8])> = (0..before)
        .map(|number| ([0, 3, 0, number], &b""[..]))
        .collect();
    let four = (0..4).filter(|&place| wanted(place));
    records.extend(four.map(|place| (FOUR[place], TEXTS[0][place])));
    for tagged in [false, true] {
        let made = with_texts(tagged, &records);
        ask(asker, sweep, &made, &name_questions(&FOUR))?;
    }
    Ok(())
}

fn largest(asker: &mut Asker) -> Result<(), Found> {
    let sweep = "every record of a largest table";
    let records: Vec<(Key, [u16; 2])> = (0..5_460)
        .map(|number| ([3, 1, 0x409, number], [2, number]))
        .collect();
    let storage = [7; 5_461];
    let every: Vec<_> = (0..=5_460).map(|n| lookup([3, 1, 0x409, n])).collect();
    for tagged in [false, true] {
        let made = laid_out(tagged, &records, &storage);
        ask(asker, sweep, &made, &every)?;
    }

    let sweep = "PostScript and version records at the end of a largest table";
    for choice in 1..16_usize {
        let before = 5_460 - choice.count_ones() as u16;
        after_others(asker, sweep, before, |place| choice >> place & 1 == 1)?;
    }
    Ok(())
}
