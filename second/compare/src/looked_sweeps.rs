//! Sweeps over how many records lookups look at: every key of small tables and of the largest and the keys between them, with keys
//! that differ in each part and in several; parts above 65,535 in each place; and refused tables, in which no record is looked at.

use crate::ask::Asker;
use crate::looked_met::SIZES;
use crate::make::Made;
use crate::question::Question;
use crate::record_sweeps::laid_out;
use crate::sweeps::{ask, Found, Key, Sweep};

/// The groups, each with its words.
pub const SWEEPS: [(&str, Sweep); 3] = [
    ("records looked at in small tables", small),
    ("records looked at in the largest tables", largest),
    ("records looked at in refused tables", refused),
];

/// The parts that rise from key to key; the last of them rises first, and falls where the one before it rises. The others are the
/// same in all keys.
const SHAPES: [&[usize]; 9] = [
    &[3],
    &[2],
    &[1],
    &[0],
    &[0, 1, 2, 3],
    &[2, 3],
    &[0, 1],
    &[0, 3],
    &[1, 2, 3],
];

/// The parts' numbers as they rise.
#[derive(Clone, Copy)]
enum Scale {
    /// From 1 upwards, one by one.
    Ones,
    /// Three, which are the lowest, one about the middle, and the highest that is allowed without a tag. The first key is so many
    /// steps up.
    Edges(usize),
    /// As these on platform 240, where format 0 allows every language.
    Private(usize),
}

impl Scale {
    fn number(self, part: usize, step: usize) -> u16 {
        match (self, part) {
            (Scale::Ones, _) => 1 + step as u16,
            (Scale::Edges(_), 2) => [0, 0x00FF, 0x7FFF][step],
            (Scale::Edges(_) | Scale::Private(_), _) => [0, 0x8000, 0xFFFF][step],
        }
    }
}

/// Keys for so many records and between them, which rise: below the first record, the first, between it and the second, and so
/// on up to above the last. So the records have the odd places.
fn keys(parts: &[usize], scale: Scale, records: usize) -> Vec<Key> {
    let places = 2 * records + 1;
    // So few steps in each part that they are enough together.
    let (first, steps) = match scale {
        Scale::Edges(first) | Scale::Private(first) => (first, 3),
        Scale::Ones => {
            let mut enough = (1..).filter(|steps: &usize| steps.pow(parts.len() as u32) >= places);
            (0, enough.next().unwrap_or(places))
        }
    };
    let platform = match scale {
        Scale::Private(_) => 240,
        _ => 3,
    };
    let key = |mut place: usize| {
        let mut key = [platform, 1, 0x409, 5];
        for &part in parts.iter().rev() {
            key[part] = scale.number(part, place % steps);
            place /= steps;
        }
        key
    };
    (first..first + places).map(key).collect()
}

/// A table of either format with the keys in the odd places, and empty strings.
fn table_of(tagged: bool, keys: &[Key]) -> Made {
    let odd = keys.iter().skip(1).step_by(2);
    let records: Vec<_> = odd.map(|&key| (key, [0, 0])).collect();
    laid_out(tagged, &records, b"")
}

fn lookup(key: Key) -> Question {
    Question::Lookup(key.map(u32::from))
}

/// Numbers above 65,535 in each place of a record's key: the lowest, one with the part in its low 16 bits, and the highest.
fn above(key: Key) -> Vec<[u32; 4]> {
    let mut asked = Vec::new();
    for part in 0..4 {
        let own = u32::from(key[part]);
        for number in [65_536, 65_536 + own, u32::MAX] {
            let mut other = key.map(u32::from);
            other[part] = number;
            asked.push(other);
        }
    }
    asked
}

/// What else is asked about a record of a small table: each part one less and one more, and above 65,535, with the parts behind
/// it as they are, 0, and 65,535; and all parts above 65,535.
fn beside(key: Key) -> Vec<[u32; 4]> {
    let mut asked = vec![[65_536; 4], [u32::MAX; 4]];
    asked.push(key.map(|part| 65_536 + u32::from(part)));
    for part in 0..4 {
        let own = u32::from(key[part]);
        let numbers = [
            own.saturating_sub(1),
            own + 1,
            65_536,
            65_536 + own,
            u32::MAX,
        ];
        for number in numbers {
            let mut other = key.map(u32::from);
            other[part] = number;
            asked.push(other);
            for behind in [0, 65_535] {
                other[part + 1..].fill(behind);
                asked.push(other);
            }
        }
    }
    asked
}

fn small(asker: &mut Asker) -> Result<(), Found> {
    let sweep = "every key of a small table, and the keys between and beside them";
    let all = [0, 1, 2, 3];
    let ones = SHAPES.map(|parts| (parts, Scale::Ones));
    for records in SIZES.into_iter().filter(|&records| records < 10) {
        // Three steps have 81 places in four parts, and 27 in three.
        let edges = (0..81 - 2 * records).map(|first| (&all[..], Scale::Edges(first)));
        let private = (0..27 - 2 * records).map(|first| (&all[1..], Scale::Private(first)));
        for (parts, scale) in ones.into_iter().chain(edges).chain(private) {
            let keys = keys(parts, scale, records);
            let mut asked: Vec<_> = keys.iter().map(|&key| lookup(key)).collect();
            let records = keys.iter().skip(1).step_by(2);
            asked.extend(records.flat_map(|&key| beside(key)).map(Question::Lookup));
            ask(asker, sweep, &table_of(false, &keys), &asked)?;
            if !matches!(scale, Scale::Private(_)) {
                ask(asker, sweep, &table_of(true, &keys), &asked)?;
            }
        }
    }
    // The same with every number of records up to some more than a power of two.
    let sweep = "every key of tables of up to 70 records, and the keys between";
    for records in 0..=70 {
        let keys = keys(&all, Scale::Ones, records);
        let asked: Vec<_> = keys.iter().map(|&key| lookup(key)).collect();
        for tagged in [false, true] {
            ask(asker, sweep, &table_of(tagged, &keys), &asked)?;
        }
    }
    Ok(())
}

fn largest(asker: &mut Asker) -> Result<(), Found> {
    let sizes = SIZES.into_iter().filter(|&records| records > 5_000);
    for (size, records) in sizes.enumerate() {
        for (shape, parts) in SHAPES.into_iter().enumerate() {
            let keys = keys(parts, Scale::Ones, records);
            for tagged in [false, true] {
                let made = table_of(tagged, &keys);
                let one = 2 * size + usize::from(tagged);
                // Every key where all parts rise, and in each of the four tables where another one does alone. Else some, which
                // begin at another place in each table.
                let (from, step) = match parts {
                    [_, _, _, _] => (0, 1),
                    [part] if *part == one => (0, 1),
                    _ => ((shape + one) % EVERY, EVERY),
                };
                let some = keys.iter().skip(from).step_by(step);
                let ends = keys[..40].iter().chain(&keys[keys.len() - 40..]);
                let asked: Vec<_> = some.chain(ends).map(|&key| lookup(key)).collect();
                let sweep = "the keys of a largest table, and the keys between them";
                ask(asker, sweep, &made, &asked)?;

                let sweep = "parts above 65,535 in a largest table";
                let some = keys.iter().skip(1).step_by(2 * FEW);
                let last = &keys[keys.len() - 2];
                let asked = some.chain([last]).flat_map(|&key| above(key));
                let asked: Vec<_> = asked.map(Question::Lookup).collect();
                ask(asker, sweep, &made, &asked)?;
            }
        }
    }
    Ok(())
}

/// Of the largest tables one in so many keys is looked up, where it is not every one. It is odd, so that records are asked about
/// and keys between them.
const EVERY: usize = 13;
/// Of one in so many of their records a part above 65,535 is looked up.
const FEW: usize = 181;

fn refused(asker: &mut Asker) -> Result<(), Found> {
    let sweep = "every key of a refused table";
    for records in SIZES.into_iter().filter(|&records| records > 0) {
        let keys = keys(&[2, 3], Scale::Ones, records);
        let last = 6 + 12 * (records - 1);
        // Of a large table the first keys, the last and one between, and what is above.
        let asked: Vec<_> = match records < 10 {
            true => keys.clone(),
            false => [
                &keys[..4],
                &keys[records..records + 2],
                &keys[keys.len() - 4..],
            ]
            .concat(),
        };
        let mut asked: Vec<_> = asked.into_iter().map(lookup).collect();
        asked.extend(above(keys[1]).into_iter().map(Question::Lookup));
        for tagged in [false, true] {
            let Made::Name(fine) = table_of(tagged, &keys) else {
                continue;
            };
            let changed = |at: usize, two: [u8; 2]| {
                let mut bytes = fine.clone();
                bytes[at..at + 2].copy_from_slice(&two);
                bytes
            };
            let mut tables = vec![
                // The format is another, the last record is cut off, and the storage starts before the records' end and behind
                // the table's.
                changed(0, [0, 2]),
                fine[..last + 11].to_vec(),
                changed(4, [0, 6]),
                changed(4, [0xFF, 0xFF]),
                // The last record's string runs over and starts beyond, and its language is not allowed.
                changed(last + 8, [0, 1]),
                changed(last + 10, [0, 1]),
                changed(last + 4, [0xFF, 0xFF]),
            ];
            if tagged {
                // The tag count is cut off.
                tables.push(fine[..last + 13].to_vec());
            }
            if tagged && records < 5_000 {
                // The tag's string runs over.
                tables.push(changed(last + 14, [0, 1]));
            }
            if records > 1 {
                // The last key is equal to the one before it, and below it.
                let mut bytes = fine.clone();
                bytes.copy_within(last - 12..last - 4, last);
                tables.push(bytes);
                tables.push(changed(last, [0, 0]));
            }
            for bytes in tables {
                ask(asker, sweep, &Made::Name(bytes), &asked)?;
            }
        }
    }
    Ok(())
}
