//! Sweeps over lists of entries to write: every text about the pool's end and far from it, every two and three texts of a
//! small pool, every order of few keys, every number in each part of a key, offsets and counts about the highest, every fault
//! of three entries, every room, and records of tables given as entries.

use crate::ask::{caught, Amount, Asker, Difference};
use crate::entries::{Entry, List};
use crate::make::Made;
use crate::numbers::Numbers;
use crate::sweeps::{found, name_0, table, Found, Key, Sweep};
use crate::written::Reading;

/// The groups, each with its words.
pub const SWEEPS: [(&str, Sweep); 7] = [
    ("texts of entries", texts),
    ("keys of entries", keys),
    ("offsets of entries", offsets),
    ("faults of entries", faults),
    ("counts of entries", counts),
    ("rooms for entries", rooms),
    ("records as entries", records),
];

/// Asks something of a list.
fn on(
    sweep: &str,
    list: &List,
    ask: impl FnOnce(&Reading) -> Result<(), Difference>,
) -> Result<(), Found> {
    caught(|| ask(&Reading::of(list)))
        .map_err(|difference| found(difference, &Made::Entries(list.clone()), sweep))
}

/// Numbers that depend on a list.
fn numbers_of(list: &List) -> Numbers {
    let lengths = list.entries.iter().map(|entry| u64::from(entry.length));
    let names = list.entries.iter().map(|entry| u64::from(entry.key[3]));
    Numbers::new(lengths.sum::<u64>() + 65_537 * names.sum::<u64>())
}

/// Writes a list with several rooms, and reads back.
fn some(asker: &mut Asker, sweep: &str, list: &List) -> Result<(), Found> {
    on(sweep, list, |_| {
        asker.entries(list, Amount::Some, &mut numbers_of(list))
    })
}

/// Writes a list once, with a room that is exactly as long as its table is or would be.
fn once(asker: &mut Asker, sweep: &str, list: &List) -> Result<(), Found> {
    on(sweep, list, |reading| {
        asker.write_in(list, reading, &[reading.size], &mut numbers_of(list))?;
        Ok(())
    })
}

/// A list with keys that rise, and these starts and lengths.
fn with_texts(places: &[(u64, u16)], pool: &[u8]) -> List {
    let entries = places.iter().zip(0..).map(|(&(start, length), number)| {
        let key = [3, 1, 0x409, number];
        Entry { key, start, length }
    });
    List {
        entries: entries.collect(),
        pool: pool.to_vec(),
    }
}

/// A list with these keys, and texts of one byte each, of which every second is the same.
fn with_keys(keys: &[Key]) -> List {
    let entries = keys.iter().zip(0..).map(|(&key, number)| Entry {
        key,
        start: number % 2,
        length: 1,
    });
    List {
        entries: entries.collect(),
        pool: b"xy".to_vec(),
    }
}

/// A pool of so many bytes, in which every short text stands once or seldom.
fn pool_of(count: usize) -> Vec<u8> {
    let byte = |place: usize| (place as u8) ^ (place >> 8) as u8;
    (0..count).map(byte).collect()
}

fn texts(asker: &mut Asker) -> Result<(), Found> {
    let sweep = "every text about the pool's end, and far from it";
    for pool in 0..=4_u64 {
        let bytes = pool_of(pool as usize);
        let far = [
            (1 << 16) - 1,
            1 << 16,
            (1 << 16) + 1,
            (1 << 32) - 1,
            1 << 32,
            (1 << 32) + 1,
            (1 << 63) - 1,
            1 << 63,
            (1 << 63) + 1,
        ];
        for length in (0..=pool as u16 + 2).chain([255, 256, 65_534, 65_535]) {
            // The start that makes 2 to the 64th with the length, and those about it.
            let whole = 0_u64.wrapping_sub(u64::from(length));
            let about = (0..=pool + 3).map(|more| (whole.wrapping_sub(2)).wrapping_add(more));
            let near = (0..=pool + 2).chain((0..4).map(|less| u64::MAX - less));
            for start in near.chain(far).chain(about) {
                for number in 0..3 {
                    let mut places = [(0, 0); 3];
                    places[number] = (start, length);
                    some(asker, sweep, &with_texts(&places, &bytes))?;
                }
            }
        }
    }

    let sweep = "every two and three texts of a small pool";
    let bytes = pool_of(4);
    let places: Vec<(u64, u16)> = (0..=4)
        .flat_map(|start| (0..=4 - start as u16).map(move |length| (start, length)))
        .collect();
    for &first in &places {
        for &second in &places {
            some(asker, sweep, &with_texts(&[first, second], &bytes))?;
            for &third in &places {
                once(asker, sweep, &with_texts(&[first, second, third], &bytes))?;
            }
        }
    }

    let sweep = "starts and lengths in a long pool";
    let bytes = pool_of(70_000);
    let mut list = with_texts(&[(0, 3)], &bytes);
    for start in (0..300).chain(65_400..65_700).chain(69_800..70_004) {
        list.entries[0].start = start;
        once(asker, sweep, &list)?;
    }
    let lengths = (0..300)
        .chain(32_760..32_776)
        .chain(65_270..65_290)
        .chain(65_500..=65_535);
    for length in lengths {
        for start in [0, 1, 70_000 - u64::from(length)] {
            (list.entries[0].start, list.entries[0].length) = (start, length);
            once(asker, sweep, &list)?;
        }
    }
    Ok(())
}

fn keys(asker: &mut Asker) -> Result<(), Found> {
    // Up to three keys out of nine, which rise here, in any order, also one of them several times; then four out of four and
    // five out of three.
    let keys: [Key; 9] = [
        [0, 9, 9, 9],
        [1, 0, 0, 5],
        [1, 0, 0, 6],
        [1, 0, 1, 5],
        [1, 1, 0, 5],
        [3, 1, 0x409, 6],
        [3, 1, 0x8000, 6],
        [240, 1, 0x8000, 6],
        [0xFFFF, 0xFFFF, 0x7FFF, 0xFFFF],
    ];
    let sweep = "every order of few keys to write";
    for (count, keys) in [
        (1, &keys[..]),
        (2, &keys[..]),
        (3, &keys[..]),
        (4, &keys[1..5]),
        (5, &keys[1..4]),
    ] {
        for choice in 0..keys.len().pow(count) {
            let chosen: Vec<Key> = (0..count)
                .map(|place| keys[choice / keys.len().pow(place) % keys.len()])
                .collect();
            some(asker, sweep, &with_keys(&chosen))?;
        }
    }

    let sweep = "every number as a part of a key to write";
    let mut list = with_keys(&[[300; 4], [300; 4]]);
    for part in 0..4 {
        for number in 0..=u16::MAX {
            list.entries[1].key[part] = number;
            once(asker, sweep, &list)?;
        }
        list.entries[1].key = [300; 4];
    }
    let sweep = "every platform and every language number to write";
    let mut list = with_keys(&[[0; 4]]);
    for number in 0..=u16::MAX {
        for (place, other) in [(0, 0x8000), (2, 3), (2, 239), (2, 240), (2, 255), (2, 256)] {
            list.entries[0].key[2 - place] = other;
            list.entries[0].key[place] = number;
            once(asker, sweep, &list)?;
        }
    }
    Ok(())
}

/// A text of this length from the pool's start.
fn from_start(length: usize) -> (u64, u16) {
    (0, length as u16)
}

fn offsets(asker: &mut Asker) -> Result<(), Found> {
    let sweep = "offsets about 65,535";
    let pool = pool_of(65_540);
    for sum in 65_533..=65_538 {
        for before in [
            vec![sum],
            vec![0, sum, 0],
            vec![sum - 1, 1],
            vec![1, sum - 1],
            vec![sum / 2, sum - sum / 2],
            vec![300, 7, sum - 312, 0, 5],
        ] {
            if before.iter().any(|&length| length > 65_535) {
                continue;
            }
            let before: Vec<_> = before.into_iter().map(from_start).collect();
            for last in [0, 1, 65_535] {
                let mut places = before.clone();
                places.push((3, last));
                some(asker, sweep, &with_texts(&places, &pool))?;
                // Another entry behind it.
                places.push((65_540, 0));
                some(asker, sweep, &with_texts(&places, &pool))?;
            }
        }
    }
    // The same text in many entries.
    let sweep = "offsets of many entries";
    for length in [11, 12, 13] {
        for count in [5_041, 5_042, 5_043, 5_460] {
            some(
                asker,
                sweep,
                &with_texts(&vec![(2, length); count], &pool[..20]),
            )?;
        }
    }
    Ok(())
}

/// Three entries, each with one of four keys, of which the last has a language that is not allowed, and one of three texts:
/// one byte, empty at the pool's end, from the end and over. Before them stands nothing, or so much that their offsets are
/// about the highest, or that they are all too far.
fn faults(asker: &mut Asker) -> Result<(), Found> {
    let sweep = "every fault of three entries";
    let keys: [Key; 4] = [[1, 0, 0, 5], [1, 0, 0, 6], [1, 0, 1, 0], [1, 0, 0x8000, 0]];
    let long = pool_of(65_535);
    for before in [&[][..], &[65_535][..], &[65_535, 1][..]] {
        let pool = if before.is_empty() { &long[..3] } else { &long };
        let end = pool.len() as u64;
        let texts = [(0, 1), (end, 0), (end, 1)];
        let mut list = with_texts(&vec![(0, 0); before.len() + 3], pool);
        for (number, &length) in before.iter().enumerate() {
            list.entries[number].key = [0, 0, 0, number as u16];
            list.entries[number].length = length;
        }
        for choice in 0..12 * 12 * 12_usize {
            for (place, entry) in list.entries[before.len()..].iter_mut().enumerate() {
                let one = choice / 12_usize.pow(place as u32) % 12;
                let (start, length) = texts[one % 3];
                let key = keys[one / 3];
                *entry = Entry { key, start, length };
            }
            if before.is_empty() {
                some(asker, sweep, &list)?;
                continue;
            }
            on(sweep, &list, |reading| {
                let exact = match reading.refused(usize::MAX) {
                    None => reading.size,
                    Some(_) => 100,
                };
                asker.write_in(&list, reading, &[0, exact], &mut numbers_of(&list))?;
                Ok(())
            })?;
        }
    }
    Ok(())
}

fn counts(asker: &mut Asker) -> Result<(), Found> {
    let sweep = "every number of entries up to 300";
    for count in 0..=300 {
        some(asker, sweep, &with_texts(&vec![(1, 2); count], b".ab"))?;
        some(asker, sweep, &with_texts(&vec![(0, 0); count], b""))?;
    }

    let sweep = "numbers of entries about the highest";
    let counts = [
        5_459,
        5_460,
        5_461,
        5_462,
        8_192,
        65_535,
        65_536,
        65_537,
        65_536 + 5_460,
        65_536 + 5_461,
    ];
    for count in counts {
        let key = |place: usize| [3, 1, (place / 1_000) as u16, (place % 1_000) as u16];
        let mut list = with_texts(&[], b"abc");
        list.entries.extend((0..count).map(|place| Entry {
            key: key(place),
            start: (place % 4) as u64,
            length: u16::from(place % 4 < 3),
        }));
        some(asker, sweep, &list)?;
        // One fault, at either end.
        for at in [0, 1, count - 2, count - 1] {
            let held = list.entries[at];
            let before = list.entries[at.saturating_sub(1)];
            for fault in 0..5 {
                let entry = &mut list.entries[at];
                match fault {
                    0 => entry.start = u64::MAX,
                    1 => (entry.start, entry.length) = (4, 0),
                    2 => entry.key = [4, 1, 0x8000, 0],
                    3 => entry.key = before.key,
                    _ => entry.key = [0; 4],
                }
                some(asker, sweep, &list)?;
                list.entries[at] = held;
            }
        }
    }

    // Every key of 5,460 is looked up.
    let sweep = "every record of a largest table that is written";
    let places: Vec<(u64, u16)> = (0..5_460)
        .map(|place| (place, 1 + place as u16 % 3))
        .collect();
    let list = with_texts(&places, &pool_of(5_463));
    on(sweep, &list, |_| {
        asker.entries(&list, Amount::Everything, &mut numbers_of(&list))
    })
}

/// Every room up to 40 bytes more than are needed, for lists that are written and for one with each refusal.
fn rooms(asker: &mut Asker) -> Result<(), Found> {
    let sweep = "every room for a list";
    let mut lists = vec![
        with_texts(&[], b""),
        with_texts(&[], b"abc"),
        with_texts(&[(0, 0)], b""),
        with_texts(&[(0, 3)], b"abc"),
        with_texts(&[(1, 2), (0, 3), (3, 0), (1, 2)], b"abc"),
        with_texts(&[(0, 200), (50, 150)], &pool_of(200)),
        with_texts(&[(0, 3), (1, 3)], b"abc"),
        with_keys(&[[1, 0, 0, 1], [1, 0, 0x8000, 1]]),
        with_keys(&[[1, 0, 0, 2], [1, 0, 0, 1]]),
        with_keys(&[[1, 0, 0, 1], [1, 0, 0, 1]]),
    ];
    // Many short entries, and few long ones.
    lists.push(with_texts(&[(0, 1); 60], b"x"));
    for list in &lists {
        on(sweep, list, |_| {
            asker.entries(list, Amount::Everything, &mut Numbers::new(1))
        })?;
    }
    // Lists that are refused by 32 and by 30, and a table of more than 65,536 bytes.
    let long = pool_of(65_535);
    for list in [
        with_texts(&[(0, 65_535), (0, 1), (0, 0)], &long),
        with_texts(&vec![(0, 0); 5_461], b""),
        with_texts(&[(0, 65_535), (0, 9), (5, 0)][..2], &long),
    ] {
        on(sweep, &list, |reading| {
            let size = reading.size;
            let mut rooms: Vec<usize> = (0..70).collect();
            rooms.extend([65_534, 65_535, 65_536, 65_537]);
            rooms.extend(size - 3..size + 3);
            asker.write_in(&list, reading, &rooms, &mut Numbers::new(1))?;
            Ok(())
        })?;
    }
    Ok(())
}

/// A table of format 0 with so many records, all with a string of the same length at an offset that depends on the record's
/// number, and with some bytes before the storage that nothing refers to.
fn stored(
    count: u16,
    length: u16,
    offset: impl Fn(u16) -> u16,
    gap: u16,
    storage: usize,
) -> Vec<u8> {
    let mut words = vec![0, count, 6 + 12 * count + gap];
    for number in 0..count {
        words.extend([3, 1, number / 64, number % 64, length, offset(number)]);
    }
    let mut bytes = table(&words, &pool_of(gap.into()));
    bytes.extend(pool_of(storage));
    bytes
}

fn records(asker: &mut Asker) -> Result<(), Found> {
    let sweep = "records of tables as entries";
    let mut tables = vec![
        name_0(),
        stored(0, 0, |_| 0, 0, 0),
        stored(0, 0, |_| 0, 3, 9),
    ];
    for count in 1..=24 {
        // Each with a string of its own, all with one, and strings that overlap; with and without other bytes.
        for gap in [0, 5] {
            tables.push(stored(
                count,
                2,
                |number| 2 * number,
                gap,
                2 * usize::from(count),
            ));
            tables.push(stored(count, 3, |_| 1, gap, 9));
            tables.push(stored(count, 3, |number| number, gap, 40));
            tables.push(stored(count, 0, |number| number, gap, 24));
        }
    }
    for table in &tables {
        on_table(asker, sweep, table, Amount::Everything)?;
    }
    // The most records with one string: together they come near 65,535 bytes, or pass that.
    let sweep = "records of large tables as entries";
    for (count, length) in [
        (5_460, 1),
        (5_460, 12),
        (5_460, 13),
        (5_042, 13),
        (5_043, 13),
    ] {
        on_table(
            asker,
            sweep,
            &stored(count, length, |_| 0, 0, 20),
            Amount::Some,
        )?;
    }
    for (count, length) in [
        (2, 65_535),
        (3, 65_535),
        (3, 32_768),
        (3, 32_767),
        (4, 21_846),
    ] {
        let table = stored(count, length, |number| number, 0, 65_540);
        on_table(asker, sweep, &table, Amount::Some)?;
    }
    Ok(())
}

/// Gives the records of a table as entries.
fn on_table(asker: &mut Asker, sweep: &str, table: &[u8], amount: Amount) -> Result<(), Found> {
    caught(|| asker.rewriting(table, amount, &mut Numbers::new(table.len() as u64)))
        .map_err(|difference| found(difference, &Made::Name(table.to_vec()), sweep))
}
