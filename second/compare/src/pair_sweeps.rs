//! Sweeps over two tables that are compared: every byte changed alone, every version against every version, every room, every
//! choice of few keys and strings, every order of two keys, every cut, every two refusals.

use crate::ask::{caught, Amount, Asker, Difference, LEVELS};
use crate::make::Made;
use crate::numbers::Numbers;
use crate::pair::{Of, Pair, LEVELS_ABOVE};
use crate::sweeps::{found, name_0, name_1, os2_of, table, Found, Sweep};

/// The groups, each with its words.
pub const SWEEPS: [(&str, Sweep); 5] = [
    ("two OS/2 tables", os2),
    ("two name tables with few keys", few_keys),
    ("two name tables with one string", one_string),
    ("two refused or cut tables", refused),
    ("two of the largest name tables", largest),
];

/// Asks something of two tables.
fn on(
    sweep: &str,
    of: Of,
    left: &[u8],
    right: &[u8],
    ask: impl FnOnce(Pair) -> Result<(), Difference>,
) -> Result<(), Found> {
    caught(|| ask(Pair { of, left, right })).map_err(|difference| {
        let (left, right) = (left.to_vec(), right.to_vec());
        let made = match of {
            Of::Os2(_) => Made::Os2Pair(left, right),
            Of::Name => Made::NamePair(left, right),
        };
        found(difference, &made, sweep)
    })
}

/// Compares two tables with some rooms.
fn some(asker: &mut Asker, sweep: &str, of: Of, left: &[u8], right: &[u8]) -> Result<(), Found> {
    let mut numbers = Numbers::new((left.len() + 257 * right.len()) as u64);
    on(sweep, of, left, right, |pair| {
        asker.pair(pair, Amount::Some, &mut numbers)
    })
}

/// Compares two tables with every room up to nine numbers more than are needed.
fn every_room(asker: &mut Asker, of: Of, left: &[u8], right: &[u8]) -> Result<(), Found> {
    on("every room", of, left, right, |pair| {
        asker.pair(pair, Amount::Everything, &mut Numbers::new(1))
    })
}

/// Compares two tables once, with a room of so many numbers.
fn once(
    asker: &mut Asker,
    sweep: &str,
    of: Of,
    [left, right]: [&[u8]; 2],
    numbers: usize,
) -> Result<(), Found> {
    on(sweep, of, left, right, |pair| {
        asker.compare(pair, numbers, 0x5A5A).map(|_| ())
    })
}

fn os2(asker: &mut Asker) -> Result<(), Found> {
    // Every byte changed alone, in its lowest or its highest bit.
    for version in 0..=7 {
        let mut left = os2_of(version);
        left.resize(102, 0);
        for byte in 0..left.len() {
            for bit in [0x01, 0x80] {
                let mut right = left.clone();
                right[byte] ^= bit;
                for level in LEVELS {
                    let sweep = "every byte of an OS/2 table changed alone";
                    some(asker, sweep, Of::Os2(level), &left, &right)?;
                }
            }
        }
    }
    // Every two versions, with all fields 0 or all different as far as rules are not asked.
    let versions = [0, 1, 2, 3, 4, 5, 6, 7, 65_535];
    for left_version in versions {
        for right_version in versions {
            for filled in [false, true] {
                let tables =
                    [(left_version, 0x81), (right_version, 0x7E)].map(|(version, byte)| {
                        let mut bytes = os2_of(version);
                        if filled && version > 5 {
                            bytes[2..].fill(byte);
                        }
                        bytes
                    });
                for level in LEVELS {
                    let sweep = "every version against every version";
                    some(asker, sweep, Of::Os2(level), &tables[0], &tables[1])?;
                }
            }
        }
    }
    // Every number in two fields of two bytes, the first of them signed.
    let left = os2_of(5);
    for place in [2, 74] {
        for number in 0..=u16::MAX {
            let mut right = left.clone();
            right[place..place + 2].copy_from_slice(&number.to_be_bytes());
            let sweep = "every number in a field of the right table";
            once(asker, sweep, Of::Os2(5), [&left, &right], 7)?;
            let sweep = "every number in a field of the left table";
            once(asker, sweep, Of::Os2(5), [&right, &left], 7)?;
        }
    }
    // Every room: for 48 differences, for 10, for one, for none.
    let (full, other) = ([0x81; 100], [0x7E; 100]);
    let old = os2_of(0);
    let mut heavier = old.clone();
    heavier[5] += 1;
    for level in LEVELS {
        let of = Of::Os2(level);
        every_room(asker, of, &full, &other)?;
        every_room(asker, of, &old, &os2_of(6))?;
        every_room(asker, of, &old, &heavier)?;
        every_room(asker, of, &old, &old)?;
    }
    Ok(())
}

type Key = [u16; 4];

/// A format 0 table with these keys and the places of their strings, offset and length.
fn keyed(records: &[(Key, [u16; 2])], storage: &[u8]) -> Vec<u8> {
    let count = records.len() as u16;
    let mut words = vec![0, count, 6 + 12 * count];
    for (key, [offset, length]) in records {
        words.extend(key);
        words.extend([length, offset]);
    }
    table(&words, storage)
}

fn few_keys(asker: &mut Asker) -> Result<(), Found> {
    // Of three keys each is not there, or has one of four strings, on either side. The sides hold the strings in different
    // places.
    let triples: [[Key; 3]; 2] = [
        [[0, 0, 0, 1], [0, 0, 1, 0], [0, 1, 0, 0]],
        [[1, 0, 0, 65_535], [255, 255, 0x8000, 0], [256, 0, 0, 0]],
    ];
    let left_places = [[0, 0], [0, 1], [1, 1], [0, 2]];
    let right_places = [[3, 0], [2, 1], [3, 1], [2, 2]];
    for keys in triples {
        let tables = |places: [[u16; 2]; 4], storage: &[u8]| -> Vec<Vec<u8>> {
            (0..125)
                .map(|choice| {
                    let chosen = [choice / 25, choice / 5 % 5, choice % 5];
                    let records: Vec<_> = keys
                        .into_iter()
                        .zip(chosen)
                        .filter(|&(_, string)| string < 4)
                        .map(|(key, string)| (key, places[string]))
                        .collect();
                    keyed(&records, storage)
                })
                .collect()
        };
        let lefts = tables(left_places, b"ab");
        let rights = tables(right_places, b"xyab");
        for left in &lefts {
            for right in &rights {
                some(asker, "every choice of three keys", Of::Name, left, right)?;
            }
        }
    }
    // Every two keys with parts at the edges, each alone in its table.
    let edges = [0, 1, 0x0100, 0xFFFF];
    let languages = [0, 1, 0x0100, 0x7FFF];
    let tables: Vec<Vec<u8>> = (0..256)
        .map(|choice| {
            let key = [
                edges[choice / 64],
                edges[choice / 16 % 4],
                languages[choice / 4 % 4],
                edges[choice % 4],
            ];
            keyed(&[(key, [0, 1])], b"a")
        })
        .collect();
    for left in &tables {
        for right in &tables {
            once(asker, "every two keys", Of::Name, [left, right], 13)?;
        }
    }
    // Every bit of a table changed alone.
    for left in [name_0(), name_1()] {
        for byte in 0..left.len() {
            for bit in 0..8 {
                let mut right = left.clone();
                right[byte] ^= 1 << bit;
                let sweep = "every bit of a name table changed alone";
                some(asker, sweep, Of::Name, &left, &right)?;
            }
        }
    }
    // Every room: for 7 differences, for one, for none.
    let (left, right) = (name_0(), name_1());
    every_room(asker, Of::Name, &left, &right)?;
    let mut other = left.clone();
    other[54] = b'3';
    every_room(asker, Of::Name, &left, &other)?;
    every_room(asker, Of::Name, &left, &left)
}

fn one_string(asker: &mut Asker) -> Result<(), Found> {
    let of = |string: &[u8], before: usize| {
        let storage = [&vec![0xAA; before][..], string].concat();
        keyed(
            &[([3, 1, 0x409, 4], [before as u16, string.len() as u16])],
            &storage,
        )
    };
    let text: Vec<u8> = (0..70).map(|place| 65 + place % 23).collect();
    // Every length against every length of the same text, and every byte changed alone.
    for length in 0..=text.len() {
        let left = of(&text[..length], 0);
        for other in 0..=text.len() {
            let right = of(&text[..other], 3);
            let sweep = "every two beginnings of a text";
            once(asker, sweep, Of::Name, [&left, &right], 8)?;
        }
        for byte in 0..length {
            let mut changed = text[..length].to_vec();
            changed[byte] ^= 0x80;
            let right = of(&changed, 1);
            let sweep = "every byte of a text changed alone";
            once(asker, sweep, Of::Name, [&left, &right], 8)?;
        }
    }
    // Lengths about powers of two.
    let long = vec![7; 65_535];
    for length in [255, 256, 257, 32_768, 65_534, 65_535] {
        let left = of(&long[..length], 0);
        for other in [length - 256.min(length), length - 1, length] {
            let right = of(&long[..other], 5);
            let sweep = "long texts";
            once(asker, sweep, Of::Name, [&left, &right], 8)?;
        }
        for byte in [0, length / 2, length - 1] {
            let mut changed = long[..length].to_vec();
            changed[byte] = 8;
            let right = of(&changed, 0);
            once(asker, "long texts", Of::Name, [&left, &right], 8)?;
        }
    }
    Ok(())
}

/// Tables that are refused by 10 to 19 and 27, then some that are accepted.
fn names() -> Vec<Vec<u8>> {
    let twice = ([1, 0, 0, 6], [0, 0]);
    vec![
        vec![0; 5],
        table(&[2, 0, 6], b""),
        table(&[0, 1, 6], b""),
        table(&[1, 0, 6], b""),
        table(&[0, 0, 5], b""),
        // 15: one beyond the end and empty, the same at a later record, the last offset.
        keyed(&[([0, 0, 0, 0], [1, 0])], b""),
        keyed(&[([0, 0, 0, 0], [0, 0]), ([0, 0, 0, 1], [2, 0])], b"a"),
        keyed(&[([0, 0, 0, 0], [65_535, 2])], b"a"),
        table(&[1, 0, 16, 2, 0, 0, 1, 0], b""),
        table(&[1, 0, 16, 2, 0, 0, 0, 1], b""),
        // 17, then 17 with equal keys behind it.
        keyed(&[twice, ([1, 0, 0, 5], [0, 0])], b""),
        keyed(
            &[twice, ([1, 0, 0, 5], [0, 0]), ([1, 0, 0, 5], [0, 0])],
            b"",
        ),
        keyed(&[([0, 0, 0x8000, 0], [0, 0])], b""),
        // 19, then 19 with falling keys behind it.
        keyed(&[twice, twice], b""),
        keyed(&[twice, twice, ([1, 0, 0, 5], [0, 0])], b""),
        // 27: from the end, the same at a later record, from before it.
        keyed(&[([0, 0, 0, 0], [0, 1])], b""),
        keyed(&[([0, 0, 0, 0], [0, 0]), ([0, 0, 0, 1], [1, 1])], b"a"),
        keyed(&[([0, 0, 0, 0], [1, 65_535])], b"abc"),
        keyed(&[twice], b""),
        // An empty string at the end.
        keyed(&[([1, 0, 0, 6], [1, 0])], b"a"),
    ]
}

/// Tables that are too short or break one of the rules, then one that is accepted. The rules are broken in version 5, so at
/// lower levels they are not asked.
fn os2s() -> Vec<Vec<u8>> {
    let broken = |place: usize, number: u16| {
        let mut bytes = os2_of(5);
        bytes[place..place + 2].copy_from_slice(&number.to_be_bytes());
        bytes
    };
    vec![
        vec![0],
        os2_of(0)[..77].to_vec(),
        os2_of(5)[..99].to_vec(),
        broken(4, 0),
        broken(6, 0),
        broken(8, 1),
        broken(8, 6),
        broken(62, 0x0400),
        broken(62, 0x0041),
        broken(98, 0),
        os2_of(4),
    ]
}

fn refused(asker: &mut Asker) -> Result<(), Found> {
    let sweep = "every two refusals";
    for left in names() {
        for right in names() {
            for numbers in 0..12 {
                once(asker, sweep, Of::Name, [&left, &right], numbers)?;
            }
        }
    }
    for left in os2s() {
        for right in os2s() {
            for level in (0..6).chain(LEVELS_ABOVE) {
                for numbers in [0, 1, 4, 5, 243] {
                    once(asker, sweep, Of::Os2(level), [&left, &right], numbers)?;
                }
            }
        }
    }
    let sweep = "every cut of one of two tables";
    for whole in [name_0(), name_1()] {
        for length in 0..=whole.len() {
            some(asker, sweep, Of::Name, &whole, &whole[..length])?;
            some(asker, sweep, Of::Name, &whole[..length], &whole)?;
        }
    }
    for version in 0..=7 {
        let whole = os2_of(version);
        let mut other = whole.clone();
        other[3] = 1;
        other.extend([0x41; 4]);
        for length in 0..=other.len() {
            for level in LEVELS {
                let of = Of::Os2(level);
                once(asker, sweep, of, [&whole, &other[..length]], 243)?;
                once(asker, sweep, of, [&other[..length], &whole], 243)?;
            }
        }
    }
    Ok(())
}

/// 5,460 records with two-byte strings; each has a string of its own.
fn most(platform: u16) -> Vec<u8> {
    let mut words = vec![0, 5_460, 65_526];
    for record in 0..5_460 {
        words.extend([platform, 1, 0x409, record, 2, 2 * record]);
    }
    let storage: Vec<u8> = (0..5_460_u16).flat_map(u16::to_be_bytes).collect();
    table(&words, &storage)
}

fn largest(asker: &mut Asker) -> Result<(), Found> {
    let sweep = "the largest tables";
    let left = most(3);
    some(asker, sweep, Of::Name, &left, &left.clone())?;
    // One string, one name, one language and one platform changed.
    for record in [0, 1, 255, 256, 2_729, 2_730, 4_095, 5_458, 5_459] {
        for place in [
            65_526 + 2 * record,
            65_527 + 2 * record,
            6 + 12 * record + 7,
        ] {
            let mut right = left.clone();
            right[place] ^= 0x40;
            once(asker, sweep, Of::Name, [&left, &right], 11)?;
        }
    }
    for place in [6 + 1, 6 + 12 * 5_459, 6 + 12 * 5_459 + 4] {
        let mut right = left.clone();
        right[place] += 1;
        once(asker, sweep, Of::Name, [&left, &right], 11)?;
    }
    // No key in both: 10,920 rows.
    some(asker, sweep, Of::Name, &left, &most(2))?;
    some(asker, sweep, Of::Name, &left, &table(&[0, 0, 6], b""))?;
    // Every string changed: 5,460 rows.
    let mut right = left.clone();
    right[65_526..].iter_mut().for_each(|byte| *byte ^= 1);
    some(asker, sweep, Of::Name, &left, &right)
}
