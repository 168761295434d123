//! The writer of 'name' tables (document 02, Ask 5).

mod common;

use common::*;
use second::name::{self, Entry, Text};
use second::Refusal;

/// An entry with this key, and the start and length of its text.
fn entry(key: [u16; 4], start: u64, length: u16) -> Entry {
    let [platform, encoding, language, name] = key;
    Entry {
        platform,
        encoding,
        language,
        name,
        start,
        length,
    }
}

/// The key (3, 1, 0x409, `name`), which rises with the number.
fn rising(name: usize) -> [u16; 4] {
    [3, 1, 0x409, u16::try_from(name).unwrap()]
}

/// Entries with keys that rise and these starts and lengths.
fn texts(places: &[(u64, u16)]) -> Vec<Entry> {
    let numbered = places.iter().enumerate();
    numbered
        .map(|(number, &(start, length))| entry(rising(number), start, length))
        .collect()
}

/// Entries with these keys and empty texts.
fn keyed(keys: &[[u16; 4]]) -> Vec<Entry> {
    keys.iter().map(|&key| entry(key, 0, 0)).collect()
}

/// What a room holds at a place before it is lent.
fn mark(place: usize) -> u8 {
    (place * 37 % 251) as u8 + 3
}

/// Writes into a room of this length. Gives the answer and the table; looks
/// whether all other bytes of the room hold what they held.
fn written(entries: &[Entry], pool: &[u8], room: usize) -> Result<Vec<u8>, Refusal> {
    let mut bytes: Vec<u8> = (0..room).map(mark).collect();
    let answer = name::write(entries, pool, &mut bytes);
    let size = *answer.as_ref().unwrap_or(&0);
    assert!(size <= room);
    for (place, &byte) in bytes.iter().enumerate().skip(size) {
        assert_eq!(byte, mark(place), "byte {place} of the room");
    }
    bytes.truncate(size);
    answer.map(|_| bytes)
}

/// The length of the table that would be written.
fn needed(entries: &[Entry]) -> usize {
    let texts: usize = entries.iter().map(|entry| usize::from(entry.length)).sum();
    6 + 12 * entries.len() + texts
}

/// Writes into a room that is exactly long enough. A longer one gives the same;
/// one that is shorter, the same refusal or 33.
fn exactly(entries: &[Entry], pool: &[u8]) -> Result<Vec<u8>, Refusal> {
    let size = needed(entries);
    let table = written(entries, pool, size);
    assert_eq!(written(entries, pool, size + 5), table);
    for room in [size - 1, size / 2, 0] {
        let refusal = match &table {
            Ok(_) => Refusal::plain(33),
            Err(refusal) => *refusal,
        };
        assert_eq!(written(entries, pool, room), Err(refusal), "{room}");
    }
    table
}

/// The table, built by hand from entries whose texts lie in the pool, whatever
/// their keys are.
fn by_hand(entries: &[Entry], pool: &[u8]) -> Vec<u8> {
    let strings: Vec<Named> = entries
        .iter()
        .map(|entry| {
            let text = &pool[entry.start as usize..][..usize::from(entry.length)];
            (entry.key(), text)
        })
        .collect();
    named(&strings)
}

/// Reads a table back: every entry is found, in the record of its number, with
/// its text's bytes.
fn read_back(entries: &[Entry], pool: &[u8], table: &[u8]) {
    assert_eq!(name::check(table), Ok(()));
    let mut start = 6 + 12 * entries.len();
    for (number, entry) in entries.iter().enumerate() {
        let (platform, encoding, language, name) = entry.key();
        let found = name::lookup(
            table,
            platform.into(),
            encoding.into(),
            language.into(),
            name.into(),
        )
        .answer;
        let text = &pool[entry.start as usize..][..usize::from(entry.length)];
        let expected = Text {
            start,
            length: text.len(),
            record: number,
        };
        assert_eq!(found, Ok(expected), "entry {number}");
        assert_eq!(&table[start..start + text.len()], text, "entry {number}");
        start += text.len();
    }
    assert_eq!(start, table.len());
}

/// As [`exactly`], for what is to be written; looks at every byte and reads the
/// table back.
fn success(entries: &[Entry], pool: &[u8]) -> Vec<u8> {
    let table = exactly(entries, pool).unwrap();
    assert_eq!(table, by_hand(entries, pool));
    read_back(entries, pool, &table);
    table
}

/// As [`exactly`], for what is refused.
fn refusal(entries: &[Entry], pool: &[u8]) -> Result<(), Refusal> {
    exactly(entries, pool).map(|_| ())
}

// ---- what is written ----

#[test]
fn no_entries() {
    for pool in [&b""[..], b"abc"] {
        let table = success(&[], pool);
        assert_eq!(table, [0, 0, 0, 0, 0, 6]);
        for room in 0..6 {
            assert_eq!(written(&[], pool, room), no(33), "{room}");
        }
        for room in 6..20 {
            assert_eq!(written(&[], pool, room).unwrap(), table, "{room}");
        }
    }
}

#[test]
fn the_listings_table() {
    let entries = [entry([1, 0, 0, 6], 0, 2), entry([3, 1, 0x409, 6], 2, 4)];
    let table = success(&entries, b"Ab\0A\0b");
    let expected = name0(&[[1, 0, 0, 6, 2, 0], [3, 1, 0x409, 6, 4, 2]], b"Ab\0A\0b");
    assert_eq!(table, expected);
    let lines = "name format 0 records 2 storage 6\n0 1 0 0 6 0 2\n1 3 1 1033 6 2 4\n\
                 postscript Ab record 0\nversion refused 20\n";
    assert_eq!(second::listing::name(&table), lines);
}

#[test]
fn texts_stand_in_the_order_of_the_entries() {
    // In the pool they stand the other way round, with bytes between them.
    let table = success(&texts(&[(7, 3), (4, 1), (0, 2)]), b"ab..c..def.");
    assert_eq!(&table[42..], b"defcab");
    assert_eq!(table[..6], [0, 0, 0, 3, 0, 42]);
}

#[test]
fn equal_texts_are_not_shared() {
    // The very same text, and the same bytes in another place.
    let table = success(&texts(&[(1, 2), (1, 2), (4, 2), (1, 2)]), b".ab.ab");
    assert_eq!(&table[54..], b"abababab");
    let offsets: Vec<u8> = (0..4).map(|number| table[6 + 12 * number + 11]).collect();
    assert_eq!(offsets, [0, 2, 4, 6]);
}

#[test]
fn overlapping_texts() {
    let table = success(&texts(&[(0, 3), (1, 3), (2, 1), (0, 4), (0, 0)]), b"abcd");
    assert_eq!(&table[66..], b"abcbcdcabcd");
}

#[test]
fn every_two_texts_of_a_small_pool() {
    let pool = b"abcd";
    let all: Vec<(u64, u16)> = (0..=4)
        .flat_map(|start| (0..=4 - start as u16).map(move |length| (start, length)))
        .collect();
    for &first in &all {
        for &second in &all {
            success(&texts(&[first, second]), pool);
        }
    }
}

#[test]
fn empty_texts() {
    // At the pool's start, inside it and at its end; then without a pool.
    let table = success(&texts(&[(0, 0), (1, 0), (2, 0)]), b"ab");
    assert_eq!(table.len(), 42);
    success(&texts(&[(0, 0)]), b"");
    success(&texts(&[(0, 0), (0, 0), (0, 0)]), b"");
    // Before, between and behind others.
    let table = success(&texts(&[(2, 0), (0, 1), (0, 0), (1, 1), (2, 0)]), b"ab");
    assert_eq!(&table[66..], b"ab");
}

#[test]
fn a_start_beyond_sixteen_bits() {
    let pool: Vec<u8> = (0..70_000).map(mark).collect();
    let starts = [0, 255, 256, 65_535, 65_536, 65_537, 69_997];
    for start in starts {
        let table = success(&texts(&[(start, 3)]), &pool);
        assert_eq!(table[18..], pool[start as usize..][..3]);
    }
    success(&texts(&starts.map(|start| (start, 3))), &pool);
    // The longest text, at the pool's end.
    success(&texts(&[(70_000 - 65_535, 65_535)]), &pool);
}

#[test]
fn the_most_entries() {
    let pool: Vec<u8> = (0..5_463).map(mark).collect();
    let places: Vec<(u64, u16)> = (0..5_460).map(|n| (n, 1 + (n % 3) as u16)).collect();
    let entries = texts(&places);
    // To read back 5,460 keys takes long, so only some are looked up.
    let table = exactly(&entries, &pool).unwrap();
    assert_eq!(table, by_hand(&entries, &pool));
    assert_eq!(name::check(&table), Ok(()));
    assert_eq!(table[..6], [0, 0, 0x15, 0x54, 0xFF, 0xF6]);
    for number in [0, 1, 255, 256, 2_730, 5_458, 5_459] {
        let text = name::lookup(&table, 3, 1, 0x409, number as u32)
            .answer
            .unwrap();
        assert_eq!(text.record, number);
        let (start, length) = places[number];
        let bytes = &table[text.start..text.start + text.length];
        assert_eq!(bytes, &pool[start as usize..][..usize::from(length)]);
    }
    assert_eq!(name::lookup(&table, 3, 1, 0x409, 5_460).answer, no(20));
}

#[test]
fn a_table_longer_than_65_536_bytes() {
    let pool: Vec<u8> = (0..65_600).map(mark).collect();
    // The last offset is 65,535, and its text is the longest that there is.
    let entries = texts(&[(3, 40_000), (0, 0), (9, 25_534), (2, 1), (65, 65_535)]);
    let table = success(&entries, &pool);
    assert_eq!(table.len(), 66 + 131_070);
    assert_eq!(table[6 + 4 * 12 + 8..66], [0xFF, 0xFF, 0xFF, 0xFF]);
    // Its length is about 65,536.
    for length in [65_535, 65_536, 65_537] {
        let table = success(&texts(&[(0, 300), (5, (length - 330) as u16)]), &pool);
        assert_eq!(table.len(), length);
    }
    // 5,460 records alone nearly fill 65,536 bytes.
    let mut entries: Vec<Entry> = (0..5_460).map(|n| entry(rising(n), 0, 0)).collect();
    for (length, size) in [(9, 65_535), (10, 65_536), (11, 65_537), (999, 66_525)] {
        entries[5_459].length = length;
        let table = exactly(&entries, &pool).unwrap();
        assert_eq!(table.len(), size);
        assert_eq!(table, by_hand(&entries, &pool));
        let found = name::lookup(&table, 3, 1, 0x409, 5_459).answer.unwrap();
        assert_eq!(found.record, 5_459);
        assert_eq!(found.start, 65_526);
        assert_eq!(table[65_526..], pool[..usize::from(length)]);
    }
}

// ---- each refusal ----

#[test]
fn refusal_30_too_many_entries() {
    for count in [5_459, 5_460, 5_461, 5_462, 65_535, 65_536, 65_537, 70_996] {
        let entries: Vec<Entry> = (0..count)
            .map(|n: usize| entry([3, 1, (n / 1_000) as u16, (n % 1_000) as u16], 0, 0))
            .collect();
        let room = 6 + 12 * count;
        if count <= 5_460 {
            assert_eq!(written(&entries, &[], room).unwrap().len(), room);
        } else {
            for room in [room + 9, room, room - 1, 6, 0] {
                assert_eq!(written(&entries, &[], room), no(30), "{count} {room}");
            }
        }
    }
}

#[test]
fn refusal_31_text_passes_the_pool() {
    let bytes: Vec<u8> = (0..6).map(mark).collect();
    for pool in 0..=6 {
        for start in 0..=pool + 3 {
            for length in (0..=pool + 3).chain([65_534, 65_535]) {
                for number in 0..3 {
                    let mut entries = texts(&[(0, 0); 3]);
                    entries[number as usize].start = start;
                    entries[number as usize].length = length as u16;
                    let pool_bytes = &bytes[..pool as usize];
                    if start + length > pool {
                        assert_eq!(refusal(&entries, pool_bytes), no_at(31, number));
                    } else {
                        success(&entries, pool_bytes);
                    }
                }
            }
        }
    }
}

#[test]
fn refusal_31_at_the_pools_end() {
    let pool = b"abc";
    success(&texts(&[(3, 0)]), pool);
    assert_eq!(refusal(&texts(&[(4, 0)]), pool), no_at(31, 0));
    assert_eq!(refusal(&texts(&[(3, 1)]), pool), no_at(31, 0));
    success(&texts(&[(2, 1)]), pool);
    assert_eq!(refusal(&texts(&[(2, 2)]), pool), no_at(31, 0));
    success(&texts(&[(0, 3)]), pool);
    assert_eq!(refusal(&texts(&[(0, 4)]), pool), no_at(31, 0));
    // A pool of 0 bytes.
    success(&texts(&[(0, 0)]), b"");
    assert_eq!(refusal(&texts(&[(1, 0)]), b""), no_at(31, 0));
    assert_eq!(refusal(&texts(&[(0, 1)]), b""), no_at(31, 0));
}

#[test]
fn refusal_31_the_sum_does_not_wrap() {
    let pool: Vec<u8> = (0..66_000).map(mark).collect();
    for pool in [&pool[..], &pool[..65_535], &pool[..9], &[]] {
        for length in [0, 1, 2, 255, 65_535] {
            let mut starts = vec![u64::MAX, u64::MAX - 1, 1 << 63, (1 << 63) - 1];
            // The sum is 2 to the 64th, or little more.
            starts
                .extend((0..4).map(|more| (u64::MAX - u64::from(length)).saturating_add(1 + more)));
            // Inside the pool by their low 32 or 48 bits.
            starts.extend([1 << 32, (1 << 32) + 1, 1 << 48]);
            for start in starts {
                assert_eq!(
                    refusal(&texts(&[(0, 0), (start, length)]), pool),
                    no_at(31, 1),
                    "{start} {length}"
                );
            }
        }
    }
}

#[test]
fn refusal_18_language() {
    for platform in (0..300).chain([0x7FFF, 0x8000, 0xFFFF]) {
        for language in [0, 0x409, 0x7FFF, 0x8000, 0x8001, 0xFFFF] {
            let entries = keyed(&[[0; 4], [platform, 1, language, 1]]);
            if language < 0x8000 || (240..=255).contains(&platform) {
                success(&entries, b"");
            } else {
                assert_eq!(refusal(&entries, b""), no_at(18, 1));
                assert_eq!(refusal(&entries[1..], b""), no_at(18, 0));
            }
        }
    }
}

#[test]
fn refusal_17_and_19_order_of_keys() {
    let middle = [3, 300, 1_000, 300];
    for part in 0..4 {
        for number in [
            0, 1, 2, 3, 4, 255, 256, 299, 300, 301, 999, 1_000, 1_001, 32_767,
        ] {
            let mut other = middle;
            other[part] = number;
            // The parts behind it do not outweigh it.
            for rest in [0, 1, 32_000] {
                let mut key = other;
                if number != middle[part] {
                    key[part + 1..].fill(rest);
                }
                let entries = keyed(&[middle, key]);
                match key.cmp(&middle) {
                    std::cmp::Ordering::Less => assert_eq!(refusal(&entries, b""), no_at(17, 1)),
                    std::cmp::Ordering::Equal => assert_eq!(refusal(&entries, b""), no_at(19, 1)),
                    std::cmp::Ordering::Greater => {
                        success(&entries, b"");
                    }
                }
            }
        }
    }
    let order = |names: &[usize]| {
        let keys: Vec<[u16; 4]> = names.iter().map(|&name| rising(name)).collect();
        refusal(&keyed(&keys), b"")
    };
    assert_eq!(order(&[1, 2, 2]), no_at(19, 2));
    assert_eq!(order(&[1, 2, 1]), no_at(17, 2));
    assert_eq!(order(&[2, 1, 1]), no_at(17, 1));
    assert_eq!(order(&[2, 2, 1]), no_at(19, 1));
    assert_eq!(order(&[1, 2, 3, 0, 9]), no_at(17, 3));
    assert_eq!(order(&[1, 2, 3, 4]), Ok(()));
}

#[test]
fn refusal_19_whatever_the_texts_are() {
    for places in [[(0, 2), (0, 2)], [(0, 1), (1, 2)], [(0, 0), (3, 0)]] {
        let mut entries = texts(&places);
        entries[1].name = entries[0].name;
        assert_eq!(refusal(&entries, b"abc"), no_at(19, 1));
    }
}

#[test]
fn refusal_32_offset_above_65_535() {
    let pool: Vec<u8> = (0..65_535).map(mark).collect();
    for last in [0, 1, 2, 65_535] {
        // Offset 65,535 is the highest, be the text empty or not; it runs on.
        success(&texts(&[(0, 65_535), (0, last)]), &pool);
        success(&texts(&[(0, 0), (9, 65_000), (9, 535), (0, last)]), &pool);
        // Offset 65,536 is too far, also for an empty text.
        let entries = texts(&[(0, 65_535), (0, 1), (0, last)]);
        assert_eq!(refusal(&entries, &pool), no_at(32, 2));
        let entries = texts(&[(0, 1), (0, 65_535), (0, last)]);
        assert_eq!(refusal(&entries, &pool), no_at(32, 2));
        let entries = texts(&[(0, 60_000), (0, 5_536), (0, last)]);
        assert_eq!(refusal(&entries, &pool), no_at(32, 2));
        // 131,070 is far too far.
        let entries = texts(&[(0, 65_535), (0, 65_535), (0, last)]);
        assert_eq!(refusal(&entries, &pool), no_at(32, 2));
    }
    // The first entry that lies too far is told, and the last text that does not
    // may be of any length.
    let entries = texts(&[(0, 65_535), (0, 0), (0, 0), (0, 9), (0, 0), (0, 0)]);
    success(&entries[..4], &pool);
    assert_eq!(refusal(&entries[..5], &pool), no_at(32, 4));
    assert_eq!(refusal(&entries, &pool), no_at(32, 4));
}

#[test]
fn refusal_32_with_many_entries() {
    // 12 bytes each: entry 5,459 lies at 65,508. 13 bytes each: entry 5,042 at
    // 65,546.
    let pool: Vec<u8> = (0..13).map(mark).collect();
    let mut entries = texts(&vec![(0, 12); 5_460]);
    assert_eq!(exactly(&entries, &pool).unwrap(), by_hand(&entries, &pool));
    for entry in &mut entries {
        entry.length = 13;
    }
    assert_eq!(refusal(&entries, &pool), no_at(32, 5_042));
    assert!(written(&entries[..5_042], &pool, 130_000).is_ok());
}

#[test]
fn refusal_33_room() {
    let pool = b"abcdef";
    for places in [&[][..], &[(0, 0)], &[(0, 6)], &[(1, 2), (0, 4), (5, 0)]] {
        let entries = texts(places);
        let size = needed(&entries);
        for room in 0..size + 40 {
            let answer = written(&entries, pool, room);
            if room < size {
                assert_eq!(answer, no(33), "{room}");
            } else {
                assert_eq!(answer.unwrap().len(), size, "{room}");
            }
        }
    }
}

// ---- several refusals at once ----

/// The faults that one entry may have.
#[derive(Clone, Copy, Debug, PartialEq)]
enum Fault {
    Pool,
    Language,
    Below,
    Equal,
}

/// Gives an entry a fault; the entry before it is fine.
fn spoil(entries: &mut [Entry], at: usize, fault: Fault) {
    let before = entries[at - 1];
    let entry = &mut entries[at];
    match fault {
        Fault::Pool => entry.start = 1 << 40,
        // On platform 4, which is above platform 3 and has no such languages.
        Fault::Language => (entry.platform, entry.language) = (4, 0x8000),
        Fault::Below => entry.platform = 0,
        Fault::Equal => {
            (entry.platform, entry.encoding) = (before.platform, before.encoding);
            (entry.language, entry.name) = (before.language, before.name);
        }
    }
}

fn number_of(fault: Fault) -> u32 {
    match fault {
        Fault::Pool => 31,
        Fault::Language => 18,
        Fault::Below => 17,
        Fault::Equal => 19,
    }
}

const FAULTS: [Fault; 4] = [Fault::Pool, Fault::Language, Fault::Below, Fault::Equal];

#[test]
fn order_at_one_entry() {
    let pool: Vec<u8> = (0..65_535).map(mark).collect();
    // 31 before 18, 17, 19.
    for fault in [Fault::Language, Fault::Below, Fault::Equal] {
        let mut entries = texts(&[(0, 1), (1, 1), (2, 1)]);
        spoil(&mut entries, 1, fault);
        assert_eq!(refusal(&entries, &pool), no_at(number_of(fault), 1));
        spoil(&mut entries, 1, Fault::Pool);
        assert_eq!(refusal(&entries, &pool), no_at(31, 1));
    }
    // 18 before 17.
    let entries = keyed(&[[3, 1, 0x409, 1], [2, 1, 0x8000, 1]]);
    assert_eq!(refusal(&entries, &pool), no_at(18, 1));
    // 32 after each of them.
    for fault in FAULTS {
        let mut entries = texts(&[(0, 65_535), (0, 1), (0, 1), (0, 1)]);
        assert_eq!(refusal(&entries, &pool), no_at(32, 2));
        spoil(&mut entries, 2, fault);
        assert_eq!(refusal(&entries, &pool), no_at(number_of(fault), 2));
    }
}

#[test]
fn order_at_several_entries() {
    let pool: Vec<u8> = (0..65_535).map(mark).collect();
    // 32 does not wait for the entries behind it.
    for fault in FAULTS {
        let mut entries = texts(&[(0, 65_535), (0, 1), (0, 1), (0, 1)]);
        spoil(&mut entries, 3, fault);
        assert_eq!(refusal(&entries, &pool), no_at(32, 2));
        // And it waits for those before it.
        let mut entries = texts(&[(0, 65_535), (0, 1), (0, 1), (0, 1)]);
        spoil(&mut entries, 1, fault);
        assert_eq!(refusal(&entries, &pool), no_at(number_of(fault), 1));
    }
    // Any two at two entries: the first entry's is told.
    for first in FAULTS {
        for second in FAULTS {
            for between in 0..3 {
                let mut entries = texts(&[(0, 1), (1, 1), (2, 1), (3, 1), (4, 1)]);
                spoil(&mut entries, 1, first);
                spoil(&mut entries, 2 + between, second);
                assert_eq!(
                    refusal(&entries, &pool),
                    no_at(number_of(first), 1),
                    "{first:?} {second:?}"
                );
            }
        }
    }
}

#[test]
fn refusal_30_comes_first_and_33_last() {
    let pool: Vec<u8> = (0..65_535).map(mark).collect();
    for fault in FAULTS {
        // A fault at the last entry, and no room at all.
        let mut entries = texts(&[(0, 1), (1, 1), (2, 1)]);
        spoil(&mut entries, 2, fault);
        assert_eq!(written(&entries, &pool, 0), no_at(number_of(fault), 2));

        // At the last of 5,460, and with one entry more.
        let mut entries = texts(&vec![(0, 0); 5_461]);
        spoil(&mut entries, 5_459, fault);
        let last = no_at(number_of(fault), 5_459);
        assert_eq!(written(&entries[..5_460], &pool, 0), last);
        assert_eq!(written(&entries[..5_460], &pool, 65_526), last);
        for room in [0, 65_538, 70_000] {
            assert_eq!(written(&entries, &pool, room), no(30));
        }
    }
    // 32 before 33, and 30 before 32.
    let mut entries = texts(&vec![(0, 0); 5_461]);
    (entries[0].length, entries[1].length) = (65_535, 65_535);
    for room in [0, 200_000] {
        assert_eq!(written(&entries[..3], &pool, room), no_at(32, 2));
        assert_eq!(written(&entries[..5_460], &pool, room), no_at(32, 2));
        assert_eq!(written(&entries, &pool, room), no(30));
    }
    // A fault at entry 0.
    let mut entries = texts(&vec![(0, 0); 5_461]);
    entries[0].start = u64::MAX;
    assert_eq!(written(&entries[..5_460], &pool, 0), no_at(31, 0));
    assert_eq!(written(&entries, &pool, 0), no(30));
}

// ---- lists at random ----

/// Document 02's Ask 5 once more: all refusals that apply, each with its place
/// in the order, and the least of them.
fn naive_refusal(entries: &[Entry], pool: usize, room: usize) -> Option<Refusal> {
    let mut all = Vec::new();
    if entries.len() >= 5_461 {
        all.push(((0, 0, 0), Refusal::plain(30)));
    }
    for (number, entry) in entries.iter().enumerate() {
        let mut fault = |rank, refusal| {
            all.push(((1, number, rank), Refusal::at(refusal, number as u32)));
        };
        let end = entry.start.checked_add(u64::from(entry.length));
        if end.is_none_or(|end| end > pool as u64) {
            fault(0, 31);
        }
        if entry.language / 0x8000 == 1 && entry.platform / 16 != 15 {
            fault(1, 18);
        }
        let number_of = |entry: &Entry| {
            let (platform, encoding, language, name) = entry.key();
            [platform, encoding, language, name]
                .into_iter()
                .fold(0, |number, part| number << 16 | u64::from(part))
        };
        if number > 0 {
            let (this, before) = (number_of(entry), number_of(&entries[number - 1]));
            if this < before {
                fault(2, 17);
            }
            if this == before {
                fault(2, 19);
            }
        }
        let offset: u64 = entries[..number].iter().map(|e| u64::from(e.length)).sum();
        if offset >= 65_536 {
            fault(3, 32);
        }
    }
    if room < needed(entries) {
        all.push(((2, 0, 0), Refusal::plain(33)));
    }
    all.sort_by_key(|(order, _)| *order);
    all.first().map(|(_, refusal)| *refusal)
}

/// Up to 8 entries, mostly in order and with texts inside the pool.
fn any_entries(numbers: &mut Numbers, pool: usize) -> Vec<Entry> {
    let count = numbers.below(9);
    let mut keys: Vec<[u16; 4]> = (0..count)
        .map(|_| {
            let platform = numbers.pick(&[0, 1, 3, 239, 240, 255, 256]);
            let language = match (240..=255).contains(&platform) || numbers.below(20) == 0 {
                true => numbers.pick(&[0, 0x7FFF, 0x8000, 0xFFFF]),
                false => numbers.pick(&[0, 0x409, 0x7FFF]),
            };
            [
                platform,
                numbers.pick(&[0, 1]),
                language,
                numbers.pick(&[0, 1, 2, 6, 0xFFFF]),
            ]
        })
        .collect();
    if numbers.below(8) > 0 {
        keys.sort_unstable();
    }
    if numbers.below(8) > 0 {
        keys.dedup();
    }
    keys.into_iter()
        .map(|key| {
            let start = match numbers.below(40) {
                0 => numbers.pick(&[u64::MAX, 1 << 32, pool as u64 + 1]),
                _ => numbers.below(pool as u64 + 1),
            };
            let most = (pool as u64).saturating_sub(start).min(65_535);
            let length = match numbers.below(40) {
                0 => numbers.pick(&[1, 65_535]),
                1..=4 => most,
                _ => numbers.below(most + 1),
            };
            entry(key, start, length as u16)
        })
        .collect()
}

#[test]
fn writer_agrees_with_the_naive_writer() {
    let mut numbers = Numbers::new(5);
    let large: Vec<u8> = (0..70_000).map(mark).collect();
    let mut seen = std::collections::BTreeMap::new();
    for round in 0..6_000 {
        let pool = match round % 40 {
            0 => 65_530 + numbers.below(4_000),
            _ => numbers.below(20),
        };
        let pool = &large[..pool as usize];
        let entries = any_entries(&mut numbers, pool.len());
        let size = needed(&entries);
        let rooms = [
            size + 9,
            size,
            size - 1,
            numbers.below(size as u64) as usize,
            0,
        ];
        for room in rooms {
            let answer = written(&entries, pool, room);
            let expected = match naive_refusal(&entries, pool.len(), room) {
                Some(refusal) => Err(refusal),
                None => Ok(by_hand(&entries, pool)),
            };
            assert_eq!(answer, expected, "{entries:?}");
            let number = answer.as_ref().map_or_else(|refusal| refusal.number, |_| 0);
            *seen.entry(number).or_insert(0) += 1;
            if let Ok(table) = answer {
                read_back(&entries, pool, &table);
            }
        }
    }
    for number in [0, 17, 18, 19, 31, 32, 33] {
        assert!(seen[&number] > 50, "{number}: {seen:?}");
    }
}

#[test]
fn the_reader_refuses_what_is_not_written() {
    // A table with the same records is refused by the same number, at the same
    // place, where the writer gives 18, 17 or 19.
    let mut numbers = Numbers::new(6);
    let pool: Vec<u8> = (0..20).map(mark).collect();
    let mut seen = 0;
    for _ in 0..20_000 {
        let entries = any_entries(&mut numbers, pool.len());
        let inside =
            |entry: &Entry| entry.start <= 20 && entry.start + u64::from(entry.length) <= 20;
        if !entries.iter().all(inside) {
            continue;
        }
        let answer = refusal(&entries, &pool);
        assert_eq!(name::check(&by_hand(&entries, &pool)), answer);
        seen += u32::from(answer.is_err());
    }
    assert!(seen > 2_000, "{seen}");
}

#[test]
fn rewriting_a_table() {
    // The records of an accepted table as entries, with the table as the pool.
    let storage = b"abcdefgh";
    let mut numbers = Numbers::new(7);
    for _ in 0..5_000 {
        let count = numbers.below(7) as u16;
        let records: Vec<[u16; 6]> = (0..count)
            .map(|number| {
                let offset = numbers.below(9) as u16;
                let length = numbers.below(9 - u64::from(offset)) as u16;
                [3, 1, number / 3, number % 3, length, offset]
            })
            .collect();
        let table = name0(&records, storage);
        let read = name::read(&table).unwrap();
        let entries: Vec<Entry> = read
            .records
            .iter()
            .map(|record| {
                let start = (read.storage_start + usize::from(record.offset)) as u64;
                let (platform, encoding, language, name) = record.key();
                entry([platform, encoding, language, name], start, record.length)
            })
            .collect();
        let rewritten = success(&entries, &table);
        let again = name::read(&rewritten).unwrap();
        assert_eq!(again.records.len(), read.records.len());
        for (old, new) in read.records.iter().zip(&again.records) {
            assert_eq!(new.key(), old.key());
            assert_eq!(
                again.string_of(new, &rewritten),
                read.string_of(old, &table)
            );
        }
    }
}
