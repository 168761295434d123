//! The 'name' check, lookup, PostScript question and version question.

mod common;

use common::*;
use second::name::{self, LookedUp, Text, Version};
use second::Refusal;

const PS1: (u16, u16, u16, u16) = (1, 0, 0, 6);
const PS3: (u16, u16, u16, u16) = (3, 1, 0x409, 6);
const V1: (u16, u16, u16, u16) = (1, 0, 0, 5);
const V3: (u16, u16, u16, u16) = (3, 1, 0x409, 5);

// ---- the check ----

#[test]
fn starred_smallest_table() {
    let table = [0, 0, 0, 0, 0, 6];
    assert_eq!(name::check(&table), Ok(()));
    let mut numbers = Numbers::new(1);
    for _ in 0..1000 {
        let part = |n: &mut Numbers| n.pick(&[0, 1, 3, 6, 0x409, 65_535, 65_536, u32::MAX]);
        let key = [
            part(&mut numbers),
            part(&mut numbers),
            part(&mut numbers),
            part(&mut numbers),
        ];
        assert_eq!(looked_up(&table, key), missing(0));
    }
    assert_eq!(name::postscript(&table), no(21));
    assert_eq!(name::version(&table), no(20));
}

#[test]
fn refusal_10_under_six_bytes() {
    for length in 0..6 {
        assert_eq!(name::check(&vec![0; length]), no(10));
        // 10 comes before 11.
        assert_eq!(name::check(&vec![0xFF; length]), no(10));
    }
}

#[test]
fn refusal_11_format() {
    for format in 0..=u16::MAX {
        let expected = match format {
            0 => Ok(()),
            // No room for the tag count.
            1 => no(13),
            _ => no(11),
        };
        assert_eq!(name::check(&words(&[format, 0, 6])), expected);
        if format > 1 {
            // 11 comes before 12 and 14.
            assert_eq!(name::check(&words(&[format, 9, 0])), no(11));
        }
    }
}

#[test]
fn refusal_12_records_pass_the_end() {
    for length in 6..18 {
        let mut table = name0(&[[0; 6]], &[]);
        table.truncate(length);
        assert_eq!(name::check(&table), no(12), "{length}");
        // 12 comes before 13 and 14.
        table[1] = 1;
        put(&mut table, 4, 0);
        assert_eq!(name::check(&table), no(12), "{length}");
    }
    assert_eq!(name::check(&name0(&[[0; 6]], &[])), Ok(()));
    assert_eq!(name::check(&words(&[0, 65_535, 6])), no(12));
}

#[test]
fn refusal_13_tags_pass_the_end() {
    // The two settled points.
    assert_eq!(name::check(&words(&[1, 0, 6])), no(13));
    assert_eq!(name::check(&words(&[1, 0, 8, 0])), Ok(()));
    // Half a tag count.
    assert_eq!(name::check(&[0, 1, 0, 0, 0, 8, 0]), no(13));
    let whole = name1(&[[0; 6]], &[[0, 0], [0, 0]], &[]);
    assert_eq!(whole.len(), 28);
    for length in 18..28 {
        assert_eq!(name::check(&whole[..length]), no(13), "{length}");
    }
    assert_eq!(name::check(&whole), Ok(()));
    // 13 comes before 14.
    assert_eq!(name::check(&words(&[1, 0, 0, 1])), no(13));
    // Format 0 has no tags.
    assert_eq!(name::check(&words(&[0, 0, 6])), Ok(()));
}

#[test]
fn refusal_14_storage_start() {
    // Format 0: 18 is the end of the records, 20 the table's end.
    for start in 0..=u16::MAX {
        let mut table = name0(&[[0; 6]], &[7, 7]);
        put(&mut table, 4, start);
        let expected = if (18..=20).contains(&start) {
            Ok(())
        } else {
            no(14)
        };
        assert_eq!(name::check(&table), expected, "{start}");
    }
    // Format 1: 24 is the end of the tags, 26 the table's end.
    for start in 0..=u16::MAX {
        let mut table = name1(&[[0; 6]], &[[0, 0]], &[7, 7]);
        put(&mut table, 4, start);
        let expected = if (24..=26).contains(&start) {
            Ok(())
        } else {
            no(14)
        };
        assert_eq!(name::check(&table), expected, "{start}");
    }
    // 14 comes before 15 and 27.
    for (offset, number) in [(9, 15), (0, 27)] {
        let mut table = name0(&[[0, 0, 0, 0, 9, offset]], &[]);
        put(&mut table, 4, 17);
        assert_eq!(name::check(&table), no(14));
        put(&mut table, 4, 18);
        assert_eq!(name::check(&table), no_at(number, 0));
    }
}

/// The check of one record with this length and offset, on a storage of so many
/// bytes.
fn string_in(storage: usize, length: u16, offset: u16) -> Result<(), Refusal> {
    name::check(&name0(&[[0, 0, 0, 0, length, offset]], &vec![0; storage]))
}

#[test]
fn refusal_27_string_runs_over() {
    // A string ending on the last storage byte: accepted; one longer: 27.
    assert_eq!(string_in(5, 3, 2), Ok(()));
    assert_eq!(string_in(5, 4, 2), no_at(27, 0));
    // From the first byte, from the last one, and from the end.
    assert_eq!(string_in(5, 6, 0), no_at(27, 0));
    assert_eq!(string_in(5, 2, 4), no_at(27, 0));
    assert_eq!(string_in(5, 1, 5), no_at(27, 0));
    assert_eq!(string_in(5, 65_535, 0), no_at(27, 0));
    assert_eq!(string_in(5, 65_535, 5), no_at(27, 0));
    // The sum doesn't wrap.
    assert_eq!(string_in(5, 65_535, 1), no_at(27, 0));
    assert_eq!(string_in(5, 65_535, 2), no_at(27, 0));
    assert_eq!(string_in(5, 65_531, 5), no_at(27, 0));
    assert_eq!(string_in(65_535, 2, 65_535), no_at(27, 0));
    assert_eq!(string_in(65_536, 2, 65_535), no_at(27, 0));
    assert_eq!(string_in(65_537, 2, 65_535), Ok(()));
    // The largest sum, on a storage that holds it and on one that doesn't.
    assert_eq!(string_in(131_070, 65_535, 65_535), Ok(()));
    assert_eq!(string_in(131_069, 65_535, 65_535), no_at(27, 0));
    // Storage counts from its start, not from the end of the records.
    let mut table = name0(&[[0, 0, 0, 0, 3, 2]], &[0; 5]);
    put(&mut table, 4, 19);
    assert_eq!(name::check(&table), no_at(27, 0));
}

#[test]
fn refusal_15_string_starts_beyond() {
    // At the end an empty string is accepted; one beyond it nothing is.
    assert_eq!(string_in(5, 0, 5), Ok(()));
    assert_eq!(string_in(5, 0, 6), no_at(15, 0));
    assert_eq!(string_in(5, 1, 6), no_at(15, 0));
    assert_eq!(string_in(5, 65_535, 6), no_at(15, 0));
    // The last offset there is, with any length: 65535 plus 2 doesn't wrap.
    for length in [0, 1, 2, 3, 5, 6, 7, 65_534, 65_535] {
        assert_eq!(string_in(5, length, 65_535), no_at(15, 0));
        assert_eq!(string_in(65_534, length, 65_535), no_at(15, 0));
    }
    assert_eq!(string_in(65_535, 0, 65_535), Ok(()));
    assert_eq!(string_in(65_535, 1, 65_535), no_at(27, 0));
    // Storage counts from its start, not from the end of the records.
    let mut table = name0(&[[0, 0, 0, 0, 0, 5]], &[0; 5]);
    put(&mut table, 4, 19);
    assert_eq!(name::check(&table), no_at(15, 0));
}

#[test]
fn strings_without_storage() {
    assert_eq!(string_in(0, 0, 0), Ok(()));
    for length in [1, 2, 65_535] {
        assert_eq!(string_in(0, length, 0), no_at(27, 0));
    }
    for offset in [1, 2, 65_535] {
        for length in [0, 1, 65_535] {
            assert_eq!(string_in(0, length, offset), no_at(15, 0));
        }
    }
}

/// Every offset and length about the end of small storages, at each of three
/// records, in both formats.
#[test]
fn every_string_about_the_end() {
    for storage in 0..=4_u16 {
        let near: Vec<u16> = (0..=storage + 3).chain([65_534, 65_535]).collect();
        for number in 0..3 {
            for (&offset, &length) in near.iter().flat_map(|o| near.iter().map(move |l| (o, l))) {
                let mut records = [[1, 0, 0, 1, 0, 0], [1, 0, 0, 2, 0, 0], [1, 0, 0, 3, 0, 0]];
                records[number][4] = length;
                records[number][5] = offset;
                let place = number as u32;
                let expected = if offset > storage {
                    no_at(15, place)
                } else if u32::from(offset) + u32::from(length) > u32::from(storage) {
                    no_at(27, place)
                } else {
                    Ok(())
                };
                let bytes = vec![0; usize::from(storage)];
                assert_eq!(name::check(&name0(&records, &bytes)), expected);
                assert_eq!(name::check(&name1(&records, &[], &bytes)), expected);
                // The same string of a tag gives 16, wherever it starts.
                let mut tags = [[0, 0]; 3];
                tags[number] = [length, offset];
                let expected = expected.map_err(|_| Refusal {
                    number: 16,
                    carries: Some(place),
                });
                assert_eq!(name::check(&name1(&[[0; 6]], &tags, &bytes)), expected);
            }
        }
    }
}

#[test]
fn refusal_16_tag_passes_storage() {
    let table = |tags: &[[u16; 2]]| name1(&[[0; 6]], tags, &[0; 5]);
    assert_eq!(name::check(&table(&[[3, 2], [0, 5], [5, 0]])), Ok(()));
    assert_eq!(name::check(&table(&[[3, 2], [4, 2]])), no_at(16, 1));
    assert_eq!(name::check(&table(&[[0, 6], [4, 2]])), no_at(16, 0));
    assert_eq!(
        name::check(&table(&[[0, 0], [0, 0], [2, 65_535]])),
        no_at(16, 2)
    );
    // It is 16 where the string runs over and where it starts beyond the end.
    assert_eq!(name::check(&table(&[[1, 5]])), no_at(16, 0));
    assert_eq!(name::check(&table(&[[0, 6]])), no_at(16, 0));
    assert_eq!(name::check(&table(&[[1, 6]])), no_at(16, 0));
    assert_eq!(name::check(&table(&[[0, 65_535]])), no_at(16, 0));
    assert_eq!(name::check(&table(&[[65_535, 0]])), no_at(16, 0));
    // Every record comes before every tag.
    for (record, number) in [
        ([0, 0, 0, 0, 0, 0], 19),
        ([0, 0, 0, 1, 1, 0], 27),
        ([0, 0, 0, 1, 0, 1], 15),
        ([0, 0, 0x8001, 1, 0, 0], 18),
    ] {
        for tag in [[9, 9], [1, 0], [0, 1]] {
            let late = name1(&[[0; 6], record], &[tag], &[]);
            assert_eq!(name::check(&late), no_at(number, 1));
        }
    }
    let late = name1(&[[0, 0, 0, 1, 0, 0], [0; 6]], &[[9, 9]], &[]);
    assert_eq!(name::check(&late), no_at(17, 1));
}

/// A format 0 table with these keys and empty strings.
fn keyed(keys: &[[u16; 4]]) -> Vec<u8> {
    let records: Vec<Entry> = keys
        .iter()
        .map(|&[p, e, l, n]| [p, e, l, n, 0, 0])
        .collect();
    name0(&records, &[])
}

#[test]
fn refusal_17_order_of_keys() {
    let two = |a: [u16; 4], b: [u16; 4]| keyed(&[a, b]);
    for part in 0..4 {
        let low = [5, 5, 5, 5];
        let mut high = low;
        high[part] = 6;
        // A later part doesn't outweigh an earlier one.
        high[part + 1..].fill(0);
        assert_eq!(name::check(&two(low, high)), Ok(()));
        assert_eq!(name::check(&two(high, low)), no_at(17, 1));
    }
    // Each record is compared with the one before it.
    let three = keyed(&[[1, 0, 0, 0], [3, 0, 0, 0], [2, 0, 0, 0]]);
    assert_eq!(name::check(&three), no_at(17, 2));
    // Equal to the one two before it is below the one before it.
    let three = keyed(&[[1, 0, 0, 0], [3, 0, 0, 0], [1, 0, 0, 0]]);
    assert_eq!(name::check(&three), no_at(17, 2));
}

#[test]
fn refusal_19_equal_keys() {
    for key in [[0; 4], [5; 4], [240, 0, 65_535, 65_535], [255; 4]] {
        assert_eq!(name::check(&keyed(&[key, key])), no_at(19, 1));
        assert_eq!(name::check(&keyed(&[key, key, key])), no_at(19, 1));
    }
    // Keys that differ in one part alone are not equal.
    for part in 0..4 {
        let mut higher = [5; 4];
        higher[part] = 6;
        assert_eq!(name::check(&keyed(&[[5; 4], higher])), Ok(()));
        assert_eq!(name::check(&keyed(&[higher, [5; 4]])), no_at(17, 1));
    }
    // At a later record.
    let three = keyed(&[[1, 0, 0, 0], [2, 0, 0, 0], [2, 0, 0, 0]]);
    assert_eq!(name::check(&three), no_at(19, 2));
    // Length and offset are no part of the key.
    for string in [[0, 0], [1, 1], [2, 0]] {
        let [length, offset] = string;
        let same = name0(&[[1, 1, 1, 1, 0, 0], [1, 1, 1, 1, length, offset]], &[0, 0]);
        assert_eq!(name::check(&same), no_at(19, 1));
    }
}

/// The first record that is not above the one before it says which it is.
#[test]
fn equal_and_falling_keys() {
    let (low, middle, high) = ([1, 0, 0, 5], [1, 0, 0, 6], [1, 0, 1, 0]);
    // Equal keys behind falling ones.
    assert_eq!(name::check(&keyed(&[middle, low, low])), no_at(17, 1));
    assert_eq!(
        name::check(&keyed(&[low, high, middle, middle])),
        no_at(17, 2)
    );
    assert_eq!(
        name::check(&keyed(&[high, middle, high, high])),
        no_at(17, 1)
    );
    // Falling keys behind equal ones.
    assert_eq!(name::check(&keyed(&[middle, middle, low])), no_at(19, 1));
    assert_eq!(
        name::check(&keyed(&[low, high, high, middle])),
        no_at(19, 2)
    );
    // Every table of up to four keys out of these three.
    for count in 0..=4_u32 {
        for choice in 0..3_usize.pow(count) {
            let chosen: Vec<usize> = (0..count).map(|n| choice / 3_usize.pow(n) % 3).collect();
            let keys: Vec<[u16; 4]> = chosen.iter().map(|&n| [low, middle, high][n]).collect();
            let mut expected = Ok(());
            for later in (1..chosen.len()).rev() {
                match chosen[later].cmp(&chosen[later - 1]) {
                    std::cmp::Ordering::Less => expected = no_at(17, later as u32),
                    std::cmp::Ordering::Equal => expected = no_at(19, later as u32),
                    std::cmp::Ordering::Greater => {}
                }
            }
            assert_eq!(name::check(&keyed(&keys)), expected, "{keys:?}");
        }
    }
}

#[test]
fn refusal_18_language() {
    // Format 0: 0x8000 and more only for platforms 240 to 255.
    for platform in 0..=u16::MAX {
        let table = |language| name0(&[[platform, 0, language, 0, 0, 0]], &[]);
        let high = if (240..=255).contains(&platform) {
            Ok(())
        } else {
            no_at(18, 0)
        };
        assert_eq!(name::check(&table(0x7FFF)), Ok(()));
        assert_eq!(name::check(&table(0x8000)), high);
        assert_eq!(name::check(&table(0xFFFF)), high);
    }
    // Format 1: below 0x8000 plus the tag count, on every platform.
    for platform in [0, 1, 3, 239, 240, 255, 256, 65_535] {
        for tag_count in 0..4 {
            let tags = vec![[0, 0]; tag_count];
            for language in [0x7FFF, 0x8000, 0x8001, 0x8002, 0x8003, 0x8004, 0xFFFF] {
                let table = name1(&[[platform, 0, language, 0, 0, 0]], &tags, &[]);
                let allowed = i32::from(language) - 0x8000 < tag_count as i32;
                let expected = if allowed { Ok(()) } else { no_at(18, 0) };
                assert_eq!(name::check(&table), expected);
            }
        }
    }
}

#[test]
fn refusal_18_tag_count_does_not_wrap() {
    // 0x8000 tags are too many for any storage start, so 14 comes first; the
    // largest tag count that can be accepted is 16,381.
    let tags = vec![[0, 0]; 16_378];
    let last = 0x8000 + 16_377;
    let table = name1(&[[9, 9, last, 9, 0, 0]], &tags, &[]);
    assert_eq!(name::check(&table), Ok(()));
    let table = name1(&[[9, 9, last + 1, 9, 0, 0]], &tags, &[]);
    assert_eq!(name::check(&table), no_at(18, 0));
    let most = name1(&[], &vec![[0, 0]; 16_381], &[]);
    assert_eq!(most.len(), 65_532);
    assert_eq!(name::check(&most), Ok(()));
    let mut more = name1(&[], &vec![[0, 0]; 16_382], &[]);
    assert_eq!(name::check(&more), no(14));
    put(&mut more, 4, 65_535);
    assert_eq!(name::check(&more), no(14));
}

#[test]
fn order_at_one_record() {
    // At record 1: 15 or 27, then 18, then 17 or 19.
    let table = |record| name0(&[[5, 0, 0, 0, 0, 0], record], &[]);
    for (number, length, offset) in [(15, 0, 1), (15, 1, 1), (15, 2, 65_535), (27, 1, 0)] {
        let at = |platform, language| table([platform, 0, language, 0, length, offset]);
        // All three, each two, and the string alone.
        assert_eq!(name::check(&at(1, 0x8000)), no_at(number, 1));
        assert_eq!(name::check(&at(6, 0x8000)), no_at(number, 1));
        assert_eq!(name::check(&at(1, 0)), no_at(number, 1));
        assert_eq!(name::check(&at(5, 0)), no_at(number, 1));
        assert_eq!(name::check(&at(6, 0)), no_at(number, 1));
    }
    assert_eq!(name::check(&table([1, 0, 0x8000, 0, 0, 0])), no_at(18, 1));
    assert_eq!(name::check(&table([6, 0, 0x8000, 0, 0, 0])), no_at(18, 1));
    assert_eq!(name::check(&table([1, 0, 0, 0, 0, 0])), no_at(17, 1));
    assert_eq!(name::check(&table([5, 0, 0, 0, 0, 0])), no_at(19, 1));
    assert_eq!(name::check(&table([6, 0, 0, 0, 0, 0])), Ok(()));
    // A key equal to the one before it has the same language, so 18 is told at
    // the record before.
    let same = name0(&[[5, 0, 0x8000, 0, 0, 0]; 2], &[]);
    assert_eq!(name::check(&same), no_at(18, 0));
}

/// Puts a fault into a record, which stands behind another one.
type Fault = fn(Entry, Entry) -> Entry;

/// A faulty record behind a faulty one: the earlier record comes first, whatever
/// the numbers are.
#[test]
fn the_first_faulty_record_is_told() {
    // Records 1 and 3 of four, each with one fault; 17 and 19 are about the
    // record before it.
    let faults: [(u32, Fault); 5] = [
        (15, |[p, e, l, n, ..], _| [p, e, l, n, 0, 1]),
        (27, |[p, e, l, n, ..], _| [p, e, l, n, 1, 0]),
        (18, |[p, e, _, n, ..], _| [p, e, 0x8000, n, 0, 0]),
        (17, |_, [p, e, l, ..]| [p, e, l, 1, 0, 0]),
        (19, |_, before| before),
    ];
    for (first, fault) in faults {
        for (second, other) in faults {
            let mut records = [1, 2, 3, 4].map(|platform| [platform, 0, 0, 2, 0, 0]);
            records[3] = other(records[3], records[2]);
            assert_eq!(name::check(&name0(&records, &[])), no_at(second, 3));
            records[1] = fault(records[1], records[0]);
            assert_eq!(name::check(&name0(&records, &[])), no_at(first, 1));
        }
    }
}

#[test]
fn most_records() {
    let records: Vec<Entry> = (0..5460).map(|n| [0, 0, 0, n, 0, 0]).collect();
    assert_eq!(name::check(&name0(&records, &[])), Ok(()));
    let records: Vec<Entry> = (0..5461).map(|n| [0, 0, 0, n, 0, 0]).collect();
    let mut table = name0(&records, &[]);
    assert_eq!(table.len(), 65_538);
    for start in [0, 2, 6, 65_535] {
        put(&mut table, 4, start);
        assert_eq!(name::check(&table), no(14));
    }
}

/// The first refusal, found another way: every condition of the records and
/// tags that holds is collected with its place in the order, and the least is
/// taken.
fn naive_check(bytes: &[u8]) -> Result<(), Refusal> {
    let word = |at: usize| -> Option<i64> {
        let pair: [u8; 2] = bytes.get(at..at + 2)?.try_into().ok()?;
        Some(i64::from(i16::from_be_bytes(pair)).rem_euclid(65_536))
    };
    let (Some(format), Some(count), Some(start)) = (word(0), word(2), word(4)) else {
        return no(10);
    };
    if ![0, 1].contains(&format) {
        return no(11);
    }
    let mut front = 6;
    for _ in 0..count {
        front += 12;
    }
    if bytes.get(..front).is_none() {
        return no(12);
    }
    let tags_at = front + 2;
    let mut tag_count = 0;
    if format == 1 {
        let Some(stored) = word(front) else {
            return no(13);
        };
        tag_count = stored;
        front += 2 + 4 * stored as usize;
        if bytes.get(..front).is_none() {
            return no(13);
        }
    }
    let Some(storage) = bytes.get(start as usize..) else {
        return no(14);
    };
    if (start as usize) < front {
        return no(14);
    }
    let lies = |offset: i64, length: i64| {
        storage
            .get(offset as usize..)
            .and_then(|rest| rest.get(..length as usize))
            .is_some()
    };
    let mut broken: Vec<(u8, u32, u8, u32)> = Vec::new();
    let mut keys: Vec<u64> = Vec::new();
    for n in 0..count {
        let w: Vec<i64> = (0..6)
            .map(|part| word(6 + 12 * n as usize + 2 * part).unwrap())
            .collect();
        let n = n as u32;
        keys.push(w[..4].iter().fold(0, |key, &part| key << 16 | part as u64));
        if !lies(w[5], w[4]) {
            // A string that starts beyond the end doesn't lie in storage even
            // without its bytes.
            broken.push((0, n, 0, if lies(w[5], 0) { 27 } else { 15 }));
        }
        let high = w[2] & 0x8000 != 0;
        let private = w[0] >> 4 == 15;
        if format == 0 && high && !private {
            broken.push((0, n, 1, 18));
        }
        if format == 1 && high && (w[2] & 0x7FFF) >= tag_count {
            broken.push((0, n, 1, 18));
        }
    }
    for n in 1..keys.len() {
        if keys[n - 1] >= keys[n] {
            let number = if keys[n - 1] == keys[n] { 19 } else { 17 };
            broken.push((0, n as u32, 2, number));
        }
    }
    for n in 0..tag_count {
        let at = tags_at + 4 * n as usize;
        if !lies(word(at + 2).unwrap(), word(at).unwrap()) {
            broken.push((1, n as u32, 0, 16));
        }
    }
    broken.sort();
    match broken.first() {
        Some(&(_, place, _, number)) => no_at(number, place),
        None => Ok(()),
    }
}

/// A small table, often accepted and often with one thing wrong.
fn any_table(numbers: &mut Numbers) -> Vec<u8> {
    let storage: Vec<u8> = (0..numbers.below(12))
        .map(|_| numbers.pick(b"\0\0.0159 Aa"))
        .collect();
    let size = storage.len() as u64 + 1;
    let mut records: Vec<Entry> = Vec::new();
    for _ in 0..numbers.below(5) {
        let offset = numbers.below(size);
        let length = numbers.below(size - offset);
        records.push([
            numbers.pick(&[1, 1, 3, 3, 240]),
            numbers.pick(&[0, 0, 1, 1]),
            numbers.pick(&[0, 0, 0x409, 0x409, 0x8000, 0x8001]),
            numbers.pick(&[5, 6, 6, 7]),
            length as u16,
            offset as u16,
        ]);
    }
    if numbers.below(5) > 0 {
        records.sort();
        records.dedup_by_key(|record| (record[0], record[1], record[2], record[3]));
    }
    let mut tags: Vec<[u16; 2]> = Vec::new();
    for _ in 0..numbers.below(4) {
        let offset = numbers.below(size);
        tags.push([numbers.below(size - offset) as u16, offset as u16]);
    }
    let mut table = if numbers.below(2) == 0 {
        name0(&records, &storage)
    } else {
        name1(&records, &tags, &storage)
    };
    // Spoil some tables: a byte, the storage start, or the length.
    match numbers.below(6) {
        0 => {
            let at = numbers.below(table.len() as u64) as usize;
            table[at] = numbers.pick(&[0, 1, 2, 5, 6, 0x80, 0xFF]);
        }
        1 => {
            let start = numbers.below(table.len() as u64 + 3);
            put(&mut table, 4, start as u16);
        }
        2 => {
            let length = numbers.below(table.len() as u64 + 1);
            table.truncate(length as usize);
        }
        _ => {}
    }
    table
}

#[test]
fn check_agrees_with_the_naive_check() {
    let mut numbers = Numbers::new(2);
    let mut seen = std::collections::BTreeMap::new();
    for _ in 0..300_000 {
        let table = any_table(&mut numbers);
        let result = name::check(&table);
        assert_eq!(result, naive_check(&table), "{table:02x?}");
        *seen
            .entry(result.err().map_or(0, |r| r.number))
            .or_insert(0) += 1;
    }
    for number in [0, 10, 11, 12, 13, 14, 15, 16, 17, 18, 19, 27] {
        assert!(seen.get(&number).is_some_and(|&n| n > 50), "{seen:?}");
    }
}

/// Every question gives this refusal, whatever is asked for.
fn passed_on(table: &[u8], refusal: Refusal) {
    assert_eq!(name::check(table), Err(refusal));
    assert_eq!(name::read(table), Err(refusal));
    for key in [[1, 0, 0, 6], [1, 0, 0, 5], [65_536, 0, 0, 0]] {
        let refused = LookedUp {
            answer: Err(refusal),
            looked: 0,
        };
        assert_eq!(looked_up(table, key), refused);
    }
    assert_eq!(name::postscript(table), Err(refusal));
    assert_eq!(name::version(table), Err(refusal));
}

#[test]
fn every_question_passes_on_the_refusal() {
    let mut numbers = Numbers::new(3);
    let mut seen = std::collections::BTreeMap::new();
    for _ in 0..50_000 {
        let table = any_table(&mut numbers);
        if let Err(refusal) = name::check(&table) {
            passed_on(&table, refusal);
            *seen.entry(refusal.number).or_insert(0) += 1;
        }
    }
    for number in (10..20).chain([27]) {
        assert!(seen.get(&number).is_some_and(|&n| n > 5), "{seen:?}");
    }
}

/// Records that would answer every question, and one fault in the last of them.
#[test]
fn every_question_passes_on_what_is_wrong_with_a_record() {
    let storage = b"Ab\0A\0b2.5\x002\0.\x005";
    let records = [
        [1, 0, 0, 5, 3, 6],
        [1, 0, 0, 6, 2, 0],
        [3, 1, 0x409, 5, 6, 9],
        [3, 1, 0x409, 6, 4, 2],
    ];
    let fine = name0(&records, storage);
    assert_eq!(name::postscript(&fine), at(54, 2, 1));
    assert_eq!(name::version(&fine), found_in(2, 5, 2));
    for (number, last) in [
        (15, [3, 1, 0x409, 7, 0, 16]),
        (15, [3, 1, 0x409, 7, 0, 65_535]),
        (27, [3, 1, 0x409, 7, 1, 15]),
        (27, [3, 1, 0x409, 7, 16, 0]),
        (17, [3, 1, 0x409, 5, 6, 9]),
        (17, [1, 0, 0, 6, 2, 0]),
        (19, [3, 1, 0x409, 6, 4, 2]),
        (18, [3, 1, 0x8000, 6, 4, 2]),
    ] {
        let table = name0(&[&records[..], &[last]].concat(), storage);
        let carries = Some(4);
        passed_on(&table, Refusal { number, carries });
    }
}

// ---- the lookup ----

/// A string's place, and its record.
fn at(start: usize, length: usize, record: usize) -> Result<Text, Refusal> {
    Ok(Text {
        start,
        length,
        record,
    })
}

/// What a lookup of any four numbers gives.
fn looked_up(table: &[u8], [p, e, l, n]: [u32; 4]) -> LookedUp {
    name::lookup(table, p, e, l, n)
}

/// The answer to a key.
fn lookup(table: &[u8], key: (u16, u16, u16, u16)) -> Result<Text, Refusal> {
    let (p, e, l, n) = key;
    looked_up(table, [p, e, l, n].map(u32::from)).answer
}

/// What a lookup gives that finds no record and looks at so many.
fn missing(looked: usize) -> LookedUp {
    LookedUp {
        answer: no(20),
        looked,
    }
}

#[test]
fn lookup_counts_from_the_first_byte() {
    let table = name0(
        &[[1, 0, 0, 6, 2, 0], [3, 1, 0x409, 6, 4, 2]],
        &[0x41, 0x62, 0, 0x41, 0, 0x62],
    );
    assert_eq!(looked_up(&table, [1, 0, 0, 6]).answer, at(30, 2, 0));
    assert_eq!(looked_up(&table, [3, 1, 0x409, 6]).answer, at(32, 4, 1));
    assert_eq!(looked_up(&table, [3, 1, 0x409, 5]).answer, no(20));
    // Parts above 65,535 don't wrap.
    assert_eq!(looked_up(&table, [65_537, 0, 0, 6]).answer, no(20));
    assert_eq!(looked_up(&table, [1, 65_536, 0, 6]).answer, no(20));
    assert_eq!(looked_up(&table, [1, 0, 65_536, 6]).answer, no(20));
    assert_eq!(looked_up(&table, [1, 0, 0, 65_542]).answer, no(20));
    assert_eq!(looked_up(&table, [u32::MAX, 0, 0, 6]).answer, no(20));
}

#[test]
fn lookup_agrees_with_a_map() {
    let mut numbers = Numbers::new(4);
    for _ in 0..20_000 {
        let table = any_table(&mut numbers);
        let Ok(contents) = name::read(&table) else {
            continue;
        };
        let start = usize::from(u16::from_be_bytes([table[4], table[5]]));
        let map: std::collections::BTreeMap<_, _> = contents
            .records
            .iter()
            .enumerate()
            .map(|(n, r)| (r.key(), (start + r.offset as usize, r.length as usize, n)))
            .collect();
        assert_eq!(map.len(), contents.records.len());
        for platform in [0, 1, 3, 240] {
            for encoding in [0, 1] {
                for language in [0, 0x409, 0x8000, 0x8001] {
                    for number in [5, 6, 7] {
                        let expected = match map.get(&(platform, encoding, language, number)) {
                            Some(&(start, length, record)) => at(start, length, record),
                            None => no(20),
                        };
                        let key = (platform, encoding, language, number);
                        let result = lookup(&table, key);
                        assert_eq!(result, expected);
                        if let Ok(text) = result {
                            assert!(text.start + text.length <= table.len());
                            // The record's twelve bytes begin with the key.
                            let at = 6 + 12 * text.record;
                            let key = words(&[platform, encoding, language, number]);
                            assert_eq!(table[at..at + 8], key);
                        }
                    }
                }
            }
        }
    }
}

#[test]
fn strings_may_overlap_and_be_empty() {
    let table = name0(
        &[[0, 0, 0, 0, 4, 0], [0, 0, 0, 1, 3, 1], [0, 0, 0, 2, 0, 4]],
        b"abcd",
    );
    assert_eq!(looked_up(&table, [0, 0, 0, 0]).answer, at(42, 4, 0));
    assert_eq!(looked_up(&table, [0, 0, 0, 1]).answer, at(43, 3, 1));
    assert_eq!(looked_up(&table, [0, 0, 0, 2]).answer, at(46, 0, 2));
}

#[test]
fn a_gap_before_the_storage() {
    // Storage start 20 where the records end at 18.
    let mut table = name0(&[[1, 0, 0, 5, 3, 1]], b"--x1.2");
    put(&mut table, 4, 20);
    assert_eq!(looked_up(&table, [1, 0, 0, 5]).answer, at(21, 3, 0));
    assert_eq!(name::version(&table), found(1, 2));
}

// ---- which record it was ----

/// Every record of tables of up to nine records, in both formats, is found with
/// its own number; keys that no record has are in none.
#[test]
fn every_record_has_its_number() {
    for count in 0..=9_u16 {
        // Even names; strings of lengths 0, 1 and 2 at any places.
        let records: Vec<Entry> = (0..count)
            .map(|n| [1, 0, 0, 2 * n, n % 3, (5 * n + 1) % 7])
            .collect();
        for (table, start) in [
            (name0(&records, &[0; 9]), 6 + 12 * records.len()),
            (
                name1(&records, &[[1, 0]; 2], &[0; 9]),
                16 + 12 * records.len(),
            ),
        ] {
            for (number, record) in records.iter().enumerate() {
                let [p, e, l, n, length, offset] = *record;
                let expected = at(start + usize::from(offset), usize::from(length), number);
                assert_eq!(lookup(&table, (p, e, l, n)), expected);
                // The keys beside it.
                assert_eq!(lookup(&table, (p, e, l, n + 1)), no(20));
                assert_eq!(lookup(&table, (p, e, l + 1, n)), no(20));
                assert_eq!(lookup(&table, (p, e + 1, l, n)), no(20));
                assert_eq!(lookup(&table, (p + 1, e, l, n)), no(20));
            }
        }
    }
}

#[test]
fn the_first_and_the_last_of_the_most_records() {
    let records: Vec<Entry> = (0..5460).map(|n| [3, 1, 1033, n, 1, n % 10]).collect();
    for (table, start) in [
        (name0(&records, &[0; 10]), 65_526),
        (name1(&records, &[], &[0; 10]), 65_528),
    ] {
        for number in [
            0, 1, 9, 10, 255, 256, 257, 2_729, 2_730, 4_095, 4_096, 5_459,
        ] {
            let key = (3, 1, 1033, number as u16);
            assert_eq!(lookup(&table, key), at(start + number % 10, 1, number));
        }
        assert_eq!(lookup(&table, (3, 1, 1033, 5460)), no(20));
    }
}

/// Records with one string are told apart by their keys.
#[test]
fn two_records_with_the_same_string() {
    let table = name0(
        &[
            [1, 0, 0, 1, 2, 0],
            [1, 0, 0, 4, 2, 0],
            [1, 0, 0, 6, 2, 1],
            [1, 0, 0, 16, 2, 0],
        ],
        b"Ababa",
    );
    assert_eq!(lookup(&table, (1, 0, 0, 1)), at(54, 2, 0));
    assert_eq!(lookup(&table, (1, 0, 0, 4)), at(54, 2, 1));
    assert_eq!(lookup(&table, (1, 0, 0, 6)), at(55, 2, 2));
    assert_eq!(lookup(&table, (1, 0, 0, 16)), at(54, 2, 3));
}

/// Neighbours whose keys differ in one part alone.
#[test]
fn a_neighbour_that_differs_in_one_part() {
    for part in 0..4 {
        let mut keys = [[5; 4], [6; 4], [7; 4]];
        keys[0] = keys[1];
        keys[2] = keys[1];
        keys[0][part] = 5;
        keys[2][part] = 7;
        let table = keyed(&keys);
        for (number, [p, e, l, n]) in keys.into_iter().enumerate() {
            assert_eq!(lookup(&table, (p, e, l, n)), at(42, 0, number));
        }
    }
}

/// Every choice of the four records that the PostScript and the version question
/// use, with others before, between and behind them, in both formats.
#[test]
fn postscript_and_version_tell_their_records() {
    let known: [Named; 9] = [
        (V1, b"1.2"),
        (PS1, b"Ab"),
        (V3, b"\x003\0.\x004"),
        (PS3, b"\0A\0b"),
        // The others.
        ((0, 3, 0, 5), b"5.6"),
        ((1, 0, 0, 4), b"7.8"),
        ((1, 0, 1, 6), b"Ab"),
        ((3, 1, 0x408, 5), b"\x009\0.\x009"),
        ((3, 1, 0x409, 7), b"\0A\0b"),
    ];
    for choice in 0..512_usize {
        let mut strings: Vec<Named> = (0..known.len())
            .filter(|bit| choice >> bit & 1 == 1)
            .map(|bit| known[bit])
            .collect();
        strings.sort();
        let number = |key| strings.iter().position(|(other, _)| *other == key);
        let postscript = match (number(PS1), number(PS3)) {
            (None, None) => no(21),
            (Some(first), Some(_)) => Ok(first),
            _ => no(22),
        };
        let version = match (number(V3), number(V1)) {
            (Some(record), _) => found_in(3, 4, record),
            (None, Some(record)) => found_in(1, 2, record),
            (None, None) => no(20),
        };
        let format_0 = named(&strings);
        // The same with an empty list of tags behind the records.
        let mut format_1 = format_0.clone();
        let front = 6 + 12 * strings.len();
        format_1.splice(front..front, [0, 0]);
        format_1[1] = 1;
        put(&mut format_1, 4, front as u16 + 2);
        for table in [format_0, format_1] {
            assert_eq!(name::version(&table), version);
            let answer = name::postscript(&table);
            assert_eq!(answer.map(|text| text.record), postscript);
            // It is the lookup's answer.
            if answer.is_ok() {
                assert_eq!(answer, lookup(&table, PS1));
            }
        }
    }
}

/// The same behind many other records, so that the numbers need two bytes.
#[test]
fn postscript_and_version_behind_many_records() {
    let (number, second) = (wide("3.4"), wide("Ab"));
    for before in (250..260).chain([4_095, 4_096, 5_456]) {
        let others: Vec<Named> = (0..before).map(|n| ((0, 3, 0, n), &b""[..])).collect();
        let names: [Named; 2] = [(PS1, b"Ab"), (PS3, &second)];
        let versions: [Named; 2] = [(V1, b"1.2"), (V3, &number)];
        let before = usize::from(before);
        for (used, version) in [
            (&versions[..], found_in(3, 4, before + 2)),
            (&versions[..1], found_in(1, 2, before)),
            (&versions[1..], found_in(3, 4, before + 1)),
        ] {
            let mut strings = [&others[..], used, &names].concat();
            strings.sort();
            let table = named(&strings);
            assert_eq!(name::version(&table), version);
            let record = before + usize::from(used[0].0 == V1);
            let postscript = name::postscript(&table);
            assert_eq!(postscript.map(|text| text.record), Ok(record));
        }
    }
}

/// A refusal carries what document 01's table says, and no record's number.
#[test]
fn a_refusal_tells_no_record() {
    let before: Named = ((0, 3, 0, 1), b"x");
    let one = |string: Named| named(&[before, string]);
    let two = |first: Named, second: Named| named(&[before, first, second]);
    for (table, number) in [
        (named(&[before]), 21),
        (one((PS1, b"Ab")), 22),
        (one((PS3, b"\0A")), 22),
        (two((PS1, b"A b"), (PS3, b"\0A")), 23),
        (two((PS1, b"A"), (PS3, b"\0B")), 24),
    ] {
        assert_eq!(name::postscript(&table), no(number));
    }
    for (table, number) in [
        (named(&[before]), 20),
        (one((V1, b"none")), 25),
        (one((V3, b"\x001\0.")), 25),
        (two((V1, b"1.2"), (V3, b"\x001\0.")), 25),
    ] {
        assert_eq!(name::version(&table), no(number));
    }
    assert_eq!(lookup(&one((PS1, b"Ab")), (1, 0, 0, 5)), no(20));
}

// ---- how many records a lookup looks at ----

/// The keys of so many records and those between, in their order: below the
/// first, the first, between it and the second, and so on up to above the last.
/// So the records have the odd places.
type Keys = Vec<[u16; 4]>;

/// Keys that differ in one part alone, in each of the four, and in all of them
/// in turn.
fn key_shapes(count: u16) -> Vec<Keys> {
    let places = 0..=2 * count;
    let mut shapes: Vec<Keys> = (0..4)
        .map(|part| {
            let key = |place| {
                let mut key = [700, 80, 9, 1];
                key[part] = 100 + place;
                key
            };
            places.clone().map(key).collect()
        })
        .collect();
    // Two values in each of the last three parts, the rest in the first.
    let spread = |place: u16| [place / 8, place / 4 % 2, place / 2 % 2, place % 2];
    shapes.push(places.clone().map(spread).collect());
    // Later parts fall where an earlier one rises.
    let falling = |place: u16| [3, place / 9, 9 - place / 3 % 3, 9 - place % 3];
    let mut falling: Keys = places.map(falling).collect();
    falling.sort();
    shapes.push(falling);
    shapes
}

/// Tables of both formats whose records have the keys in the odd places.
fn at_odd_places(keys: &[[u16; 4]]) -> [Vec<u8>; 2] {
    let odd = keys.iter().skip(1).step_by(2);
    let records: Vec<Entry> = odd.map(|&[p, e, l, n]| [p, e, l, n, 0, 0]).collect();
    [name0(&records, b""), name1(&records, &[], b"")]
}

/// Whether a count is allowed for so many records: 0 where there are none, else
/// two to its power is at most twice their number.
fn allowed(looked: usize, records: usize) -> bool {
    match records {
        0 => looked == 0,
        _ => looked <= 13 && 1 << looked <= 2 * records,
    }
}

/// Each key of small tables and each key between, with the counts that Ask 8's
/// steps give, worked out by hand.
#[test]
fn every_key_of_small_tables_is_looked_at_as_often_as_by_hand() {
    let by_hand: [(u16, &[usize]); 7] = [
        (0, &[0]),
        (1, &[1, 1, 1]),
        // Record 1 first, then record 0.
        (2, &[2, 2, 2, 1, 1]),
        // Record 1 first, then record 0 or 2.
        (3, &[2, 2, 2, 1, 2, 2, 2]),
        // Record 2 first, then record 1 or 3, then record 0.
        (4, &[3, 3, 3, 2, 2, 1, 2, 2, 2]),
        // Record 3 first, then record 1 or 5, then one of the others.
        (7, &[3, 3, 3, 2, 3, 3, 3, 1, 3, 3, 3, 2, 3, 3, 3]),
        // Record 4 first, then record 2 or 6, then 1, 3, 5 or 7, then record 0.
        (8, &[4, 4, 4, 3, 3, 2, 3, 3, 3, 1, 3, 3, 3, 2, 3, 3, 3]),
    ];
    for (count, expected) in by_hand {
        for keys in key_shapes(count) {
            assert_eq!(keys.len(), expected.len());
            for table in at_odd_places(&keys) {
                for (place, key) in keys.iter().enumerate() {
                    let LookedUp { answer, looked } = looked_up(&table, whole(*key));
                    let record = match place % 2 {
                        1 => Ok(place / 2),
                        _ => no(20),
                    };
                    assert_eq!(answer.map(|text| text.record), record);
                    assert_eq!(looked, expected[place], "{count} records, {key:?}");
                    assert!(allowed(looked, usize::from(count)));
                }
            }
        }
    }
}

/// Two to the power of the count is at most twice the number of records, and
/// for every number of records some key comes as near as can be.
#[test]
fn the_bound_holds_and_is_reached() {
    for count in 0..=70 {
        let keys = &key_shapes(count)[4];
        for table in at_odd_places(keys) {
            let counts = keys.iter().map(|key| looked_up(&table, whole(*key)).looked);
            let most = counts.max().unwrap();
            let count = usize::from(count);
            assert!(allowed(most, count));
            assert!(!allowed(most + 1, count));
        }
    }
}

/// The largest tables: never above 13, and 13 is reached, found and not found.
#[test]
fn the_most_records_are_looked_at_up_to_13_times() {
    for count in [5_459, 5_460] {
        // The record's number is 64 times the language and the name.
        let key = |number: u16| [3, 1, number / 64, 2 * (number % 64) + 1];
        let records: Vec<Entry> = (0..count)
            .map(key)
            .map(|[p, e, l, n]| [p, e, l, n, 0, 0])
            .collect();
        for table in [name0(&records, b""), name1(&records, &[], b"")] {
            let mut most = [0, 0];
            let numbers = (0..count).step_by(17).chain(count - 20..count);
            for number in numbers {
                let [p, e, l, n] = key(number).map(u32::from);
                let found = looked_up(&table, [p, e, l, n]);
                assert_eq!(
                    found.answer.map(|text| text.record),
                    Ok(usize::from(number))
                );
                assert!(allowed(found.looked, usize::from(count)));
                most[0] = most[0].max(found.looked);
                for beside in [[p, e, l, n - 1], [p, e, l, n + 1]] {
                    let LookedUp { answer, looked } = looked_up(&table, beside);
                    assert_eq!(answer, no(20));
                    assert!(allowed(looked, usize::from(count)));
                    most[1] = most[1].max(looked);
                }
            }
            assert_eq!(most, [13, 13]);
        }
    }
    // Some of 5,460, by hand: the first half is 2,730, the second 1,365 or
    // 4,095. Record 0 is the last of thirteen, record 5,459 of twelve.
    let records: Vec<Entry> = (0..5460).map(|n| [3, 1, 1033, n, 1, n % 10]).collect();
    let table = name0(&records, &[0; 10]);
    for (key, looked) in [
        ([3, 1, 1033, 2_730], 1),
        ([3, 1, 1033, 1_365], 2),
        ([3, 1, 1033, 4_095], 2),
        ([3, 1, 1033, 682], 3),
        ([3, 1, 1033, 1], 12),
        ([3, 1, 1033, 0], 13),
        ([3, 1, 1033, 5_459], 12),
        ([3, 1, 1033, 5_460], 12),
        ([3, 1, 1033, 65_536], 12),
        ([3, 1, 1034, 0], 12),
        ([3, 1, 1032, 65_536], 13),
        ([0, 0, 0, 0], 13),
        ([u32::MAX; 4], 12),
    ] {
        assert_eq!(looked_up(&table, key).looked, looked, "{key:?}");
    }
}

/// A part above 65,535 is above every record's: the search stays among those
/// that share the parts before it, and ends below the ones above.
#[test]
fn a_part_above_65_535_is_simply_above() {
    let keys = [
        [1, 1, 1, 1],
        [1, 1, 1, 2],
        [1, 1, 2, 1],
        [1, 2, 1, 1],
        [2, 1, 1, 1],
    ];
    let table = keyed(&keys);
    // Of five records number 2 comes first, then 1 or 4, then 0 or 3.
    for (key, looked) in [
        ([1, 1, 1, 1], 3),
        ([1, 1, 1, 2], 2),
        ([1, 1, 2, 1], 1),
        ([1, 2, 1, 1], 3),
        ([2, 1, 1, 1], 2),
    ] {
        assert!(looked_up(&table, key).answer.is_ok());
        assert_eq!(looked_up(&table, key).looked, looked, "{key:?}");
    }
    for above in [65_536, 65_537, 65_538, 131_073, 1 << 31 | 1, u32::MAX] {
        // Behind record 1: record 2, then 1.
        assert_eq!(looked_up(&table, [1, 1, 1, above]), missing(2));
        // Behind record 2: record 2, then 4, then 3.
        assert_eq!(looked_up(&table, [1, 1, above, 0]), missing(3));
        assert_eq!(looked_up(&table, [1, 1, above, 1]), missing(3));
        // Behind record 3: record 2, then 4, then 3.
        assert_eq!(looked_up(&table, [1, above, 0, 0]), missing(3));
        assert_eq!(looked_up(&table, [1, above, 1, 1]), missing(3));
        // Behind record 4: record 2, then 4.
        assert_eq!(looked_up(&table, [above, 0, 0, 0]), missing(2));
        assert_eq!(looked_up(&table, [above, 1, 1, 1]), missing(2));
        assert_eq!(looked_up(&table, [2, above, 1, 1]), missing(2));
        assert_eq!(looked_up(&table, [above; 4]), missing(2));
        // Before record 0: record 2, then 1, then 0. The first part decides.
        assert_eq!(looked_up(&table, [0, above, above, above]), missing(3));
        assert_eq!(looked_up(&table, [1, 0, above, above]), missing(3));
        assert_eq!(looked_up(&table, [1, 1, 0, above]), missing(3));
    }
    // The highest number that a record holds is below 65,536.
    let table = keyed(&[[0xFFFF, 0xFFFF, 0, 0xFFFF]]);
    assert_eq!(looked_up(&table, [65_536, 0, 0, 0]), missing(1));
    let found = looked_up(&table, [65_535, 65_535, 0, 65_535]);
    assert_eq!((found.answer, found.looked), (at(18, 0, 0), 1));
}

/// The count is the steps' whatever the strings are, and in a table of any kind.
#[test]
fn the_count_is_that_of_the_steps_in_any_table() {
    /// The steps by their words, from the low number and the high one.
    fn steps(keys: &[[u32; 4]], key: [u32; 4], low: usize, high: usize) -> usize {
        if low == high {
            return 0;
        }
        let half = (low + high) / 2;
        match keys[half].cmp(&key) {
            std::cmp::Ordering::Equal => 1,
            std::cmp::Ordering::Less => 1 + steps(keys, key, half + 1, high),
            std::cmp::Ordering::Greater => 1 + steps(keys, key, low, half),
        }
    }
    let mut numbers = Numbers::new(8);
    for _ in 0..20_000 {
        let table = any_table(&mut numbers);
        let keys: Option<Vec<[u32; 4]>> = name::read(&table).ok().map(|contents| {
            let key = |r: &name::Record| [r.platform, r.encoding, r.language, r.name];
            contents.records.iter().map(key).map(whole).collect()
        });
        for _ in 0..20 {
            let mut key = [
                numbers.pick(&[0, 1, 3, 240, 65_535]),
                numbers.pick(&[0, 1]),
                numbers.pick(&[0, 0x409, 0x8000, 0x8001]),
                numbers.pick(&[5, 6, 7]),
            ];
            if numbers.below(4) == 0 {
                key[numbers.below(4) as usize] += 65_536;
            }
            let expected = match &keys {
                Some(keys) => steps(keys, key, 0, keys.len()),
                None => 0,
            };
            assert_eq!(looked_up(&table, key).looked, expected);
        }
    }
}

/// A refused table reports 0, also where it has records and one has the key.
#[test]
fn a_refused_table_is_not_looked_at() {
    let fine = [
        [1, 0, 0, 5, 1, 0],
        [1, 0, 0, 6, 1, 0],
        [3, 1, 0x409, 6, 1, 0],
    ];
    let key = [1, 0, 0, 6];
    let found = looked_up(&name0(&fine, b"x"), key);
    assert_eq!((found.answer, found.looked), (at(42, 1, 1), 1));
    let with = |last| name0(&[&fine[..], &[last]].concat(), b"x");
    let mut start = name0(&fine, b"x");
    put(&mut start, 4, 41);
    let mut format = name0(&fine, b"x");
    put(&mut format, 0, 2);
    for (table, refusal) in [
        (vec![0, 0, 0, 3, 0], no(10)),
        (format, no(11)),
        (name0(&fine, b"")[..41].to_vec(), no(12)),
        (name1(&fine, &[], b"")[..43].to_vec(), no(13)),
        (start, no(14)),
        (with([3, 1, 0x409, 7, 0, 2]), no_at(15, 3)),
        (with([3, 1, 0x409, 7, 2, 0]), no_at(27, 3)),
        (with([3, 1, 0x8000, 7, 1, 0]), no_at(18, 3)),
        (with([1, 0, 0, 6, 1, 0]), no_at(17, 3)),
        (with([3, 1, 0x409, 6, 1, 0]), no_at(19, 3)),
        (name1(&fine, &[[2, 0]], b"x"), no_at(16, 0)),
    ] {
        for key in [key, [0, 0, 0, 0], [65_536, 0, 0, 6], [u32::MAX; 4]] {
            let refused = LookedUp {
                answer: refusal,
                looked: 0,
            };
            assert_eq!(looked_up(&table, key), refused);
        }
    }
}

/// Four numbers as a lookup takes them.
fn whole(key: [u16; 4]) -> [u32; 4] {
    key.map(u32::from)
}

// ---- the PostScript question ----

/// The PostScript answer for two strings; the first starts at 30.
fn postscript(first: &[u8], second: &[u8]) -> Result<Text, Refusal> {
    name::postscript(&named(&[(PS1, first), (PS3, second)]))
}

fn first_string(length: usize) -> Result<Text, Refusal> {
    at(30, length, 0)
}

#[test]
fn postscript_21_and_22() {
    assert_eq!(name::postscript(&named(&[])), no(21));
    assert_eq!(name::postscript(&named(&[(PS1, b"Ab")])), no(22));
    assert_eq!(name::postscript(&named(&[(PS3, &wide("Ab"))])), no(22));
    // 22 comes before 23.
    assert_eq!(name::postscript(&named(&[(PS1, b"")])), no(22));
    assert_eq!(name::postscript(&named(&[(PS3, b"x")])), no(22));
    // Only two records count.
    let others = named(&[
        ((0, 3, 0, 6), &wide("Ab")),
        ((1, 0, 1, 6), b"Ab"),
        ((1, 1, 0, 6), b"Ab"),
        ((3, 0, 0x409, 6), &wide("Ab")),
        ((3, 1, 0x407, 6), &wide("Ab")),
        ((3, 1, 0x409, 4), &wide("Ab")),
    ]);
    assert_eq!(name::postscript(&others), no(21));
}

#[test]
fn postscript_answer_is_the_first_string() {
    assert_eq!(postscript(b"Ab", &wide("Ab")), first_string(2));
    assert_eq!(postscript(b"!", &wide("!")), first_string(1));
}

#[test]
fn postscript_lengths() {
    for length in 0..70 {
        let text = "a".repeat(length);
        let expected = if (1..=63).contains(&length) {
            first_string(length)
        } else {
            no(23)
        };
        assert_eq!(postscript(text.as_bytes(), &wide(&text)), expected);
    }
    // One good, one too long or empty: 23, not 24.
    assert_eq!(postscript(b"a", &wide(&"a".repeat(64))), no(23));
    assert_eq!(postscript("a".repeat(64).as_bytes(), &wide("a")), no(23));
    assert_eq!(postscript(b"", &wide("a")), no(23));
    assert_eq!(postscript(b"a", b""), no(23));
}

#[test]
fn postscript_characters() {
    let forbidden = ['[', ']', '(', ')', '{', '}', '<', '>', '/', '%'];
    let mut allowed = 0;
    for code in 0..=255_u8 {
        let good = char::from(code).is_ascii_graphic() && !forbidden.contains(&char::from(code));
        allowed += u32::from(good);
        let expected = if good { first_string(3) } else { no(23) };
        let first = [b'a', code, b'z'];
        let second = [0, b'a', 0, code, 0, b'z'];
        assert_eq!(postscript(&first, &second), expected, "{code}");
        // Either string alone being ill-formed is enough.
        if !good {
            assert_eq!(postscript(&first, &wide("abz")), no(23));
            assert_eq!(postscript(b"abz", &second), no(23));
        } else if code != b'b' {
            assert_eq!(postscript(&first, &wide("abz")), no(24));
            assert_eq!(postscript(b"abz", &second), no(24));
        }
        // Each high byte is 0.
        let expected = if code == 0 { first_string(2) } else { no(23) };
        assert_eq!(postscript(b"ab", &[0, b'a', code, b'b']), expected);
    }
    assert_eq!(allowed, 84);
}

#[test]
fn postscript_odd_second_string() {
    assert_eq!(postscript(b"Ab", &[0, b'A', 0, b'b', 0]), no(23));
    assert_eq!(postscript(b"Ab", &[0, b'A', 0]), no(23));
    assert_eq!(postscript(b"A", b"A"), no(23));
}

#[test]
fn postscript_24_compares_characters() {
    assert_eq!(postscript(b"Ab", &wide("AB")), no(24));
    assert_eq!(postscript(b"Ab", &wide("Abc")), no(24));
    assert_eq!(postscript(b"Abc", &wide("Ab")), no(24));
    assert_eq!(postscript(b"Ab", &wide("Ab")), first_string(2));
    // 23 comes before 24.
    assert_eq!(postscript(b"A b", &wide("x")), no(23));
}

#[test]
fn postscript_strings_may_share_storage() {
    // "A" within 00 41.
    let table = name0(&[[1, 0, 0, 6, 1, 1], [3, 1, 0x409, 6, 2, 0]], &[0, b'A']);
    assert_eq!(name::postscript(&table), at(31, 1, 0));
}

// ---- the version question ----

/// A number out of record 0.
fn found(major: u32, minor: u32) -> Result<Version, Refusal> {
    found_in(major, minor, 0)
}

fn found_in(major: u32, minor: u32, record: usize) -> Result<Version, Refusal> {
    Ok(Version {
        major,
        minor,
        record,
    })
}

/// The answer for a text, asked in both widths, which must agree. The text is
/// that of record 0.
fn version(text: &str) -> Result<Version, Refusal> {
    let one = name::version(&named(&[(V1, text.as_bytes())]));
    let two = name::version(&named(&[(V3, &wide(text))]));
    assert_eq!(one, two, "{text}");
    one
}

#[test]
fn starred_versions() {
    assert_eq!(version("Version 1.70000 2.5"), found(2, 5));
    assert_eq!(version("Version 65535.1"), no(25));
    assert_eq!(version("Version 65534.1"), found(65_534, 1));
}

#[test]
fn settled_versions() {
    assert_eq!(version("70000.1.2"), found(1, 2));
    assert_eq!(version("1.70000.5"), no(25));
    assert_eq!(version("70000.1"), no(25));
}

#[test]
fn version_edges() {
    assert_eq!(version(""), no(25));
    assert_eq!(version("1"), no(25));
    assert_eq!(version("."), no(25));
    assert_eq!(version("1."), no(25));
    assert_eq!(version(".1"), no(25));
    assert_eq!(version("1..2"), no(25));
    assert_eq!(version("1 .2"), no(25));
    assert_eq!(version("1. 2"), no(25));
    assert_eq!(version("1,2"), no(25));
    assert_eq!(version("0.0"), found(0, 0));
    assert_eq!(version("1.2"), found(1, 2));
    assert_eq!(version("x1.2y"), found(1, 2));
    assert_eq!(version(".1.2"), found(1, 2));
    assert_eq!(version("1.2.3"), found(1, 2));
    assert_eq!(version("1..2.3"), found(2, 3));
    assert_eq!(version("1.65534"), found(1, 65_534));
    assert_eq!(version("1.65535"), no(25));
    assert_eq!(version("1.65536"), no(25));
    assert_eq!(version("65536.1"), no(25));
    assert_eq!(version("65535.1.65535.2.3"), found(2, 3));
    assert_eq!(version("-1.5"), found(1, 5));
    assert_eq!(version("1.5e9"), found(1, 5));
    assert_eq!(version("Version 2.37; 9.9"), found(2, 37));
}

#[test]
fn version_leading_zeros() {
    assert_eq!(version("001.005"), found(1, 5));
    assert_eq!(version("0000065534.0000065534"), found(65_534, 65_534));
    assert_eq!(version("0000065535.1"), no(25));
    let zeros = "0".repeat(1000);
    assert_eq!(version(&format!("{zeros}7.{zeros}8")), found(7, 8));
    let nines = "9".repeat(1000);
    assert_eq!(version(&format!("{nines}.{nines}.{zeros}.4")), found(0, 4));
    // Figures whose low bits alone would seem to fit.
    assert_eq!(version("65536.1"), no(25));
    assert_eq!(version("4294967297.1"), no(25));
    assert_eq!(version("18446744073709551617.1"), no(25));
    assert_eq!(version("340282366920938463463374607431768211457.1"), no(25));
}

#[test]
fn longest_version_string() {
    let text = "1".repeat(65_535);
    assert_eq!(name::version(&named(&[(V1, text.as_bytes())])), no(25));
    let text = "x".repeat(65_532) + "2.3";
    assert_eq!(name::version(&named(&[(V1, text.as_bytes())])), found(2, 3));
    let text = "70000.".repeat(10_000) + "2.3";
    assert_eq!(name::version(&named(&[(V1, text.as_bytes())])), found(2, 3));
}

#[test]
fn version_which_string_counts() {
    let two = wide("3.4");
    assert_eq!(
        name::version(&named(&[(V1, b"1.2"), (V3, &two)])),
        found_in(3, 4, 1)
    );
    assert_eq!(name::version(&named(&[(V1, b"1.2")])), found(1, 2));
    assert_eq!(name::version(&named(&[(V3, &two)])), found(3, 4));
    assert_eq!(name::version(&named(&[])), no(20));
    // The first counts when it is there, even without a number.
    assert_eq!(
        name::version(&named(&[(V1, b"1.2"), (V3, &wide("none"))])),
        no(25)
    );
    assert_eq!(name::version(&named(&[(V1, b"1.2"), (V3, b"")])), no(25));
    assert_eq!(name::version(&named(&[(V1, b"1.2"), (V3, b"x")])), no(25));
    // Only two records count.
    let others = named(&[
        ((0, 3, 0, 5), &two),
        ((1, 0, 1, 5), b"1.2"),
        ((3, 0, 0x409, 5), &two),
        ((3, 1, 0x407, 5), &two),
        ((3, 10, 0x409, 5), &two),
    ]);
    assert_eq!(name::version(&others), no(20));
}

#[test]
fn version_two_byte_characters() {
    // Odd length gives 25, whatever is in it.
    let mut odd = wide("1.2");
    odd.push(0);
    assert_eq!(name::version(&named(&[(V3, &odd)])), no(25));
    // One-byte strings may be odd: "1.2" above is.
    let two = |string: &[u8]| name::version(&named(&[(V3, string)]));
    // A character with a high byte is neither digit nor period.
    assert_eq!(two(&[0, b'1', 1, b'.', 0, b'2']), no(25));
    assert_eq!(two(&[1, b'1', 0, b'.', 0, b'2']), no(25));
    assert_eq!(two(&[0, b'1', 0, b'.', 1, b'2']), no(25));
    // Since it is no digit, a digit after it may start a number.
    assert_eq!(two(&[1, b'7', 0, b'1', 0, b'.', 0, b'2']), found(1, 2));
    // And it ends the second group.
    assert_eq!(two(&[0, b'1', 0, b'.', 0, b'2', 1, b'3']), found(1, 2));
    // Bytes are not looked at across characters.
    assert_eq!(two(b"1.2."), no(25));
    // In a one-byte string a zero byte is a character and no digit.
    assert_eq!(name::version(&named(&[(V1, &wide("1.2"))])), no(25));
    assert_eq!(name::version(&named(&[(V1, b"7\x001.2")])), found(1, 2));
}

/// The version found another way: the text is cut into its longest runs of
/// digits; a number is two neighbouring runs with one period between them.
fn naive_version(characters: &[u16]) -> Option<(u32, u32)> {
    let text: Vec<char> = characters
        .iter()
        .map(|&c| if c < 128 { char::from(c as u8) } else { '?' })
        .collect();
    let mut runs: Vec<(usize, String)> = Vec::new();
    for (at, &c) in text.iter().enumerate() {
        if !c.is_ascii_digit() {
            continue;
        }
        match runs.last_mut() {
            Some((start, run)) if *start + run.len() == at => run.push(c),
            _ => runs.push((at, c.to_string())),
        }
    }
    for pair in runs.windows(2) {
        let (start, first) = &pair[0];
        let (next, second) = &pair[1];
        let period = start + first.len();
        if *next != period + 1 || text[period] != '.' {
            continue;
        }
        // No group in these tests is too long for 128 bits.
        let major: u128 = first.parse().unwrap();
        let minor: u128 = second.parse().unwrap();
        if major < 65_535 && minor < 65_535 {
            return Some((major as u32, minor as u32));
        }
    }
    None
}

#[test]
fn version_agrees_with_the_naive_version() {
    // All texts of up to seven characters.
    let alphabet = [b'0', b'7', b'.', b' '].map(u16::from);
    for length in 0..=7 {
        for mut number in 0..4_usize.pow(length) {
            let mut text = Vec::new();
            for _ in 0..length {
                text.push(alphabet[number % 4]);
                number /= 4;
            }
            let result = name::version_in(&text).map(|v| (v.major, v.minor));
            assert_eq!(result, naive_version(&text), "{text:?}");
        }
    }
    // Longer ones from pieces.
    let pieces: [&[u16]; 14] = [
        &[0x31],
        &[0x30, 0x30],
        &[0x36, 0x35, 0x35, 0x33, 0x34],
        &[0x36, 0x35, 0x35, 0x33, 0x35],
        &[0x37, 0x30, 0x30, 0x30, 0x30],
        &[0x32, 0x35],
        &[0x2E],
        &[0x2E],
        &[0x2E],
        &[0x2E, 0x2E],
        &[0x20],
        &[0x131],
        &[0x12E],
        &[0x78],
    ];
    let mut numbers = Numbers::new(5);
    let mut yes = 0;
    for _ in 0..300_000 {
        let mut text = Vec::new();
        for _ in 0..numbers.below(8) {
            text.extend(numbers.pick(&pieces));
        }
        let expected = naive_version(&text);
        let result = name::version_in(&text).map(|v| (v.major, v.minor));
        assert_eq!(result, expected, "{text:x?}");
        // Through a table too.
        let bytes = words(&text);
        let result = name::version(&named(&[(V3, &bytes)]));
        let expected = match expected {
            Some((major, minor)) => found(major, minor),
            None => no(25),
        };
        assert_eq!(result, expected);
        yes += u32::from(result.is_ok());
    }
    assert!(yes > 1000);
}
