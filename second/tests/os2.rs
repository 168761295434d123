//! OS/2 acceptance, the seven questions, the writer and rewriting.

mod common;

use common::*;
use second::os2::{self, Answer, OpticalSizes, Rights, StylePosition};
use second::Refusal;

const LEVELS: [u32; 6] = [0, 1, 2, 3, 4, 5];
const HIGH_LEVELS: [u32; 3] = [6, 7, u32::MAX];

// ---- the catalogue ----

#[test]
fn catalogue_tiles_every_version() {
    let mut end = 0;
    for field in os2::FIELDS {
        assert_eq!(field.offset, end);
        assert!([1, 2, 4].contains(&field.bytes));
        end += field.bytes;
    }
    assert_eq!(end, 100);
    for version in 0..=5 {
        let bytes: usize = os2::FIELDS
            .iter()
            .filter(|field| field.since <= version)
            .map(|field| field.bytes)
            .sum();
        assert_eq!(bytes, SIZES[version as usize]);
        assert_eq!(os2::size(version), bytes);
    }
    assert_eq!(os2::size(6), 100);
    assert_eq!(os2::size(65_535), 100);
}

/// Rows of document 01's table, read as rows: first and last field, first and
/// last offset, bytes, since.
#[test]
fn catalogue_has_the_rows_of_the_document() {
    let rows = [
        (0, 4, 0, 8, 2, 0),
        (5, 12, 10, 24, 2, 0),
        (13, 15, 26, 30, 2, 0),
        (16, 25, 32, 41, 1, 0),
        (26, 29, 42, 54, 4, 0),
        (30, 30, 58, 58, 4, 0),
        (31, 33, 62, 66, 2, 0),
        (34, 38, 68, 76, 2, 0),
        (39, 40, 78, 82, 4, 1),
        (41, 45, 86, 94, 2, 2),
        (46, 47, 96, 98, 2, 5),
    ];
    let mut next = 0;
    for (first, last, from, to, bytes, since) in rows {
        assert_eq!(first, next);
        next = last + 1;
        assert_eq!(os2::FIELDS[first].offset, from);
        assert_eq!(os2::FIELDS[last].offset, to);
        for field in &os2::FIELDS[first..=last] {
            assert_eq!(field.bytes, bytes);
            assert_eq!(field.since, since);
        }
    }
    assert_eq!(next, 48);
    let signed: Vec<usize> = (0..48).filter(|&n| os2::FIELDS[n].signed).collect();
    let mut expected = vec![1];
    expected.extend(5..=15);
    expected.extend(34..=36);
    expected.extend(41..=42);
    assert_eq!(signed, expected);
}

// ---- the examples ----

#[test]
fn starred_first_table() {
    let table = os2(&[]);
    assert_eq!(table.len(), 78);
    for level in LEVELS {
        assert_eq!(os2::accept(level, &table), Ok(()));
        assert_eq!(os2::accept(level, &table[..77]), no(2));
    }
}

#[test]
fn starred_version_5_in_96_bytes() {
    let mut table = os2(&[]);
    table.extend([0; 18]);
    put(&mut table, 0, 5);
    assert_eq!(table.len(), 96);
    assert_eq!(os2::accept(4, &table), Ok(()));
    assert_eq!(os2::accept(5, &table), no(2));
    for level in LEVELS {
        let expected = if level < 5 { Ok(()) } else { no(2) };
        assert_eq!(os2::accept(level, &table), expected);
    }
}

#[test]
fn starred_selection_bit_7() {
    let table = os2(&[(0, 4), (62, 0x0080)]);
    assert_eq!(os2::selection_bit(5, &table, 7), Ok(Answer::Value(1)));
    assert_eq!(os2::selection_bit(4, &table, 7), Ok(Answer::Value(1)));
    assert_eq!(os2::selection_bit(3, &table, 7), Ok(Answer::NotKnown));
    // The field came with version 0 and is given whole.
    assert_eq!(os2::field(3, &table, 31), Ok(Answer::Value(0x80)));
}

#[test]
fn starred_version_3_with_bit_7() {
    let table = os2(&[(0, 3), (62, 0x0080)]);
    assert_eq!(os2::accept(3, &table), no_at(3, 5));
    assert_eq!(os2::accept(2, &table), Ok(()));
}

#[test]
fn starred_rules_6_and_4() {
    let table = os2(&[(0, 4), (62, 0x0041)]);
    assert_eq!(os2::accept(4, &table), no_at(3, 6));
    let table = os2(&[(0, 4), (8, 0x000C)]);
    assert_eq!(os2::accept(5, &table), no_at(3, 4));
}

// ---- acceptance ----

#[test]
fn refusal_1_level() {
    for level in HIGH_LEVELS {
        for table in [&os2(&[])[..], &[], &[0xFF; 200]] {
            assert_eq!(os2::accept(level, table), no(1));
            // 1 comes before 6 and 7.
            assert_eq!(os2::field(level, table, 0), no(1));
            assert_eq!(os2::field(level, table, 48), no(1));
            assert_eq!(os2::selection_bit(level, table, 10), no(1));
            assert_eq!(os2::unicode_bit(level, table, 128), no(1));
            assert_eq!(os2::code_page_bit(level, table, 64), no(1));
            assert_eq!(os2::rights(level, table), no(1));
            assert_eq!(os2::style_position(level, table), no(1));
            assert_eq!(os2::optical_sizes(level, table), no(1));
        }
    }
}

#[test]
fn refusal_2_length() {
    for version in [0, 1, 2, 3, 4, 5, 6, 7, 255, 256, 65_535] {
        let mut table = vec![0; 130];
        put(&mut table, 0, version);
        put(&mut table, 4, 400);
        put(&mut table, 6, 5);
        put(&mut table, 98, 1);
        for level in LEVELS {
            let needed = SIZES[usize::from(version).min(level as usize)];
            for length in 0..=130 {
                let expected = if length < needed { no(2) } else { Ok(()) };
                let result = os2::accept(level, &table[..length]);
                assert_eq!(result, expected, "{version} {level} {length}");
            }
        }
    }
    // 2 comes before 3; the short 68-byte form is too short.
    for level in LEVELS {
        assert_eq!(os2::accept(level, &[0; 77]), no(2));
        assert_eq!(os2::accept(level, &[0; 68]), no(2));
        assert_eq!(os2::accept(level, &[0; 78]), no_at(3, 1));
    }
}

/// The first rule broken, found another way: with masks, on the stored bytes,
/// from the last rule to the first.
fn naive_rule(table: &[u8]) -> Option<u32> {
    let word = |at: usize| u16::from_be_bytes([table[at], table[at + 1]]);
    let (version, weight, width, fs_type, selection) =
        (word(0), word(4), word(6), word(8), word(62));
    let mut first = None;
    if version == 5 && word(96) >= word(98) {
        first = Some(7);
    }
    if selection & 0x40 != 0 && selection & 0x21 != 0 {
        first = Some(6);
    }
    let mask = if version < 4 { 0xFF80 } else { 0xFC00 };
    if selection & mask != 0 {
        first = Some(5);
    }
    if version >= 3 && (fs_type & 0x000E).count_ones() > 1 {
        first = Some(4);
    }
    if fs_type & 0xFCF1 != 0 {
        first = Some(3);
    }
    if !matches!(width, 1..=9) {
        first = Some(2);
    }
    if !matches!(weight, 1..=1000) {
        first = Some(1);
    }
    first
}

/// Acceptance at a level 0 to 5, found another way.
fn naive_accept(level: u32, table: &[u8]) -> Result<(), Refusal> {
    let Some(head) = table.get(..2) else {
        return no(2);
    };
    let version = u32::from(head[0]) << 8 | u32::from(head[1]);
    let lower = if version < level { version } else { level };
    if table.len() < SIZES[lower as usize] {
        return no(2);
    }
    if level < version {
        return Ok(());
    }
    match naive_rule(table) {
        Some(rule) => no_at(3, rule),
        None => Ok(()),
    }
}

#[test]
fn every_number_in_each_ruled_field() {
    for version in 0..=6 {
        for (offset, level) in [(4, 5), (6, 5), (8, 5), (62, 5), (62, 3), (8, 0)] {
            let mut table = vec![0; 100];
            put(&mut table, 0, version);
            put(&mut table, 4, 400);
            put(&mut table, 6, 5);
            put(&mut table, 98, 1);
            for number in 0..=u16::MAX {
                put(&mut table, offset, number);
                let result = os2::accept(level, &table);
                assert_eq!(result, naive_accept(level, &table), "{version} {number}");
            }
        }
    }
}

#[test]
fn rule_edges() {
    let accept = |numbers: &[(usize, u16)]| os2::accept(5, &os2(numbers));
    assert_eq!(accept(&[(4, 0)]), no_at(3, 1));
    assert_eq!(accept(&[(4, 1)]), Ok(()));
    assert_eq!(accept(&[(4, 1000)]), Ok(()));
    assert_eq!(accept(&[(4, 1001)]), no_at(3, 1));
    assert_eq!(accept(&[(6, 0)]), no_at(3, 2));
    assert_eq!(accept(&[(6, 1)]), Ok(()));
    assert_eq!(accept(&[(6, 9)]), Ok(()));
    assert_eq!(accept(&[(6, 10)]), no_at(3, 2));
    for bit in 0..16 {
        let good = [1, 2, 3, 8, 9].contains(&bit);
        let expected = if good { Ok(()) } else { no_at(3, 3) };
        assert_eq!(accept(&[(8, 1 << bit)]), expected);
    }
    for (fs_type, good) in [
        (0x2, true),
        (0x4, true),
        (0x8, true),
        (0x6, false),
        (0xA, false),
        (0xC, false),
        (0xE, false),
        (0x302, true),
        (0x306, false),
    ] {
        let expected = if good { Ok(()) } else { no_at(3, 4) };
        assert_eq!(accept(&[(0, 3), (8, fs_type)]), expected);
        assert_eq!(accept(&[(0, 4), (8, fs_type)]), expected);
        // Rule 4 applies only from version 3.
        for version in 0..3 {
            assert_eq!(accept(&[(0, version), (8, fs_type)]), Ok(()));
        }
    }
    // The other rules keep their numbers and their order below version 3.
    for version in 0..3 {
        let broken = [
            (&[(4, 0), (8, 0xE)][..], 1),
            (&[(6, 0), (8, 0xE)], 2),
            (&[(8, 0xF)], 3),
            (&[(8, 0x1E)], 3),
            (&[(8, 0x40E)], 3),
            (&[(8, 0xE), (62, 0x80)], 5),
            (&[(8, 0xE), (62, 0x41)], 6),
        ];
        for (numbers, rule) in broken {
            let numbers = [&[(0, version)], numbers].concat();
            assert_eq!(accept(&numbers), no_at(3, rule), "{numbers:X?}");
        }
    }
    for version in 0..=4 {
        for bit in 0..16 {
            let good = bit < 7 || (bit < 10 && version == 4);
            let expected = if good { Ok(()) } else { no_at(3, 5) };
            assert_eq!(accept(&[(0, version), (62, 1 << bit)]), expected);
        }
    }
    assert_eq!(accept(&[(62, 0x40)]), Ok(()));
    assert_eq!(accept(&[(62, 0x41)]), no_at(3, 6));
    assert_eq!(accept(&[(62, 0x60)]), no_at(3, 6));
    assert_eq!(accept(&[(62, 0x61)]), no_at(3, 6));
    assert_eq!(accept(&[(62, 0x5E)]), Ok(()));
    assert_eq!(accept(&[(62, 0x3F)]), Ok(()));
    assert_eq!(os2::accept(5, &os2_version_5(0, 0)), no_at(3, 7));
    assert_eq!(os2::accept(5, &os2_version_5(0, 1)), Ok(()));
    assert_eq!(os2::accept(5, &os2_version_5(9, 9)), no_at(3, 7));
    assert_eq!(os2::accept(5, &os2_version_5(10, 9)), no_at(3, 7));
    assert_eq!(os2::accept(5, &os2_version_5(65_534, 65_535)), Ok(()));
    assert_eq!(os2::accept(5, &os2_version_5(65_535, 65_535)), no_at(3, 7));
}

#[test]
fn first_rule_broken_wins() {
    // Everything wrong, then mended rule by rule.
    let mut table = os2(&[
        (0, 5),
        (4, 0),
        (6, 0),
        (8, 0xFFFF),
        (62, 0xFFFF),
        (96, 5),
        (98, 5),
    ]);
    let mends = [
        (4, 1),
        (6, 1),
        (8, 0x000E),
        (8, 0x0002),
        (62, 0x0061),
        (62, 0x0021),
        (98, 6),
    ];
    for (broken, (offset, number)) in mends.into_iter().enumerate() {
        assert_eq!(os2::accept(5, &table), no_at(3, broken as u32 + 1));
        // Below version 5 nothing is looked at.
        for level in 0..5 {
            assert_eq!(os2::accept(level, &table), Ok(()));
        }
        put(&mut table, offset, number);
    }
    assert_eq!(os2::accept(5, &table), Ok(()));
}

/// A table of any version, mostly accepted, with all other bytes filled.
fn any_table(numbers: &mut Numbers) -> Vec<u8> {
    let mut table: Vec<u8> = (0..104).map(|_| numbers.next() as u8).collect();
    let version = numbers.pick(&[0, 1, 2, 3, 4, 4, 5, 5, 5, 6, 256, 65_535]);
    put(&mut table, 0, version);
    if numbers.below(10) > 0 {
        let weight = 1 + numbers.below(1000) as u16;
        put(&mut table, 4, weight);
    }
    if numbers.below(10) > 0 {
        let width = 1 + numbers.below(9) as u16;
        put(&mut table, 6, width);
    }
    if numbers.below(10) > 0 {
        let fs_type = numbers.pick(&[0, 2, 4, 8, 0x100, 0x302, 6, 0xA, 0x20C, 0xE]);
        put(&mut table, 8, fs_type);
    }
    if numbers.below(10) > 0 {
        let selection = numbers.pick(&[0, 0x40, 0x21, 0x3F, 0x41, 0x80, 0x380, 0x3C0, 0x60]);
        put(&mut table, 62, selection);
    }
    if numbers.below(3) == 0 {
        let (lower, upper) = numbers.pick(&[(0, 65_535), (7, 65_535), (0, 1), (9, 9), (0, 0)]);
        put(&mut table, 96, lower);
        put(&mut table, 98, upper);
    }
    let length = numbers.pick(&[104, 104, 104, 100, 99, 96, 95, 86, 85, 78, 77, 2, 1, 0]);
    table.truncate(length);
    table
}

#[test]
fn accept_agrees_with_the_naive_accept() {
    let mut numbers = Numbers::new(11);
    let mut seen = std::collections::BTreeMap::new();
    for _ in 0..200_000 {
        let table = any_table(&mut numbers);
        for level in LEVELS {
            let result = os2::accept(level, &table);
            assert_eq!(result, naive_accept(level, &table));
            *seen.entry(format!("{result:?}")).or_insert(0) += 1;
        }
    }
    // Accepted, 2, and 3 with each of the seven rules.
    assert_eq!(seen.len(), 9, "{seen:?}");
}

// ---- the questions ----

#[test]
fn refusals_6_and_7_come_before_2_and_3() {
    for level in LEVELS {
        for table in [&os2(&[])[..], &[], &[0; 77], &[0; 78], &[0xFF; 200]] {
            let accepted = os2::accept(level, table);
            for number in [48, 49, 255, 256, 65_536, u32::MAX] {
                assert_eq!(os2::field(level, table, number), no(6));
            }
            for bit in [10, 15, 16, 32, 256, 65_536, u32::MAX] {
                assert_eq!(os2::selection_bit(level, table, bit), no(7));
            }
            for bit in [128, 129, 256, 65_536, u32::MAX] {
                assert_eq!(os2::unicode_bit(level, table, bit), no(7));
            }
            for bit in [64, 127, 128, 256, u32::MAX] {
                assert_eq!(os2::code_page_bit(level, table, bit), no(7));
            }
            // The last number in range gets to the table.
            assert_eq!(os2::field(level, table, 47).err(), accepted.err());
            assert_eq!(os2::selection_bit(level, table, 9).err(), accepted.err());
            assert_eq!(os2::unicode_bit(level, table, 127).err(), accepted.err());
            assert_eq!(os2::code_page_bit(level, table, 63).err(), accepted.err());
        }
    }
}

/// A field read another way: by hand from the stored bytes.
fn naive_field(table: &[u8], number: usize) -> i64 {
    let two = |at: usize| [table[at], table[at + 1]];
    let unsigned = |at| i64::from(u16::from_be_bytes(two(at)));
    let signed = |at| i64::from(i16::from_be_bytes(two(at)));
    let long = |at| unsigned(at) << 16 | unsigned(at + 2);
    match number {
        0 | 2 | 3 | 4 => unsigned(2 * number),
        1 | 5..=15 => signed(2 * number),
        16..=25 => i64::from(table[32 + number - 16]),
        26..=30 => long(42 + 4 * (number - 26)),
        31..=33 => unsigned(62 + 2 * (number - 31)),
        34..=36 => signed(68 + 2 * (number - 34)),
        37..=38 => unsigned(74 + 2 * (number - 37)),
        39..=40 => long(78 + 4 * (number - 39)),
        41..=42 => signed(86 + 2 * (number - 41)),
        43..=47 => unsigned(90 + 2 * (number - 43)),
        _ => unreachable!(),
    }
}

fn naive_since(number: usize) -> u32 {
    match number {
        0..=38 => 0,
        39..=40 => 1,
        41..=45 => 2,
        _ => 5,
    }
}

fn naive_three<T>(level: u32, version: u32, since: u32, value: impl Fn() -> T) -> Answer<T> {
    match (level >= since, version >= since) {
        (false, _) => Answer::NotKnown,
        (true, false) => Answer::Absent,
        (true, true) => Answer::Value(value()),
    }
}

/// Whether bit `bit` is set in a stretch of 32-bit numbers from `at`, found by
/// its byte.
fn naive_bit(table: &[u8], at: usize, bit: usize) -> i64 {
    let byte = table[at + 4 * (bit / 32) + 3 - (bit % 32) / 8];
    i64::from(byte / (1 << (bit % 8)) % 2)
}

#[test]
fn every_answer_agrees_with_the_naive_answer() {
    let mut numbers = Numbers::new(12);
    let mut accepted = 0;
    for _ in 0..20_000 {
        let table = any_table(&mut numbers);
        for level in LEVELS {
            if let Err(refusal) = naive_accept(level, &table) {
                assert_eq!(os2::field(level, &table, 0), Err(refusal));
                assert_eq!(os2::selection_bit(level, &table, 0), Err(refusal));
                assert_eq!(os2::unicode_bit(level, &table, 0), Err(refusal));
                assert_eq!(os2::code_page_bit(level, &table, 0), Err(refusal));
                assert_eq!(os2::rights(level, &table), Err(refusal));
                assert_eq!(os2::style_position(level, &table), Err(refusal));
                assert_eq!(os2::optical_sizes(level, &table), Err(refusal));
                continue;
            }
            accepted += 1;
            let version = u32::from(u16::from_be_bytes([table[0], table[1]]));
            for number in 0..48 {
                let expected = naive_three(level, version, naive_since(number), || {
                    naive_field(&table, number)
                });
                let result = os2::field(level, &table, number as u32);
                assert_eq!(result, Ok(expected), "{level} {version} {number}");
            }
            for bit in 0..10 {
                let since = if bit < 7 { 0 } else { 4 };
                let expected = naive_three(level, version, since, || {
                    i64::from(table[63 - bit / 8] >> (bit % 8) & 1)
                });
                let result = os2::selection_bit(level, &table, bit as u32);
                assert_eq!(result, Ok(expected));
            }
            for bit in 0..128 {
                let result = os2::unicode_bit(level, &table, bit as u32);
                assert_eq!(result, Ok(Answer::Value(naive_bit(&table, 42, bit))));
            }
            for bit in 0..64 {
                let expected = naive_three(level, version, 1, || naive_bit(&table, 78, bit));
                let result = os2::code_page_bit(level, &table, bit as u32);
                assert_eq!(result, Ok(expected));
            }
            let known = version <= level;
            let rights = if known {
                Answer::Value(match table[9] & 0xE {
                    0 => Rights::Installable,
                    2 => Rights::Restricted,
                    4 => Rights::Preview,
                    8 => Rights::Editable,
                    _ if version > 2 => panic!("rule 4"),
                    6 => Rights::Preview,
                    _ => Rights::Editable,
                })
            } else {
                Answer::NotKnown
            };
            assert_eq!(os2::rights(level, &table), Ok(rights));
            let style = if known {
                let percents = [50.0, 62.5, 75.0, 87.5, 100.0, 112.5, 125.0, 150.0, 200.0];
                Answer::Value(StylePosition {
                    weight: naive_field(&table, 2) as u16 as f32,
                    width_percent: percents[naive_field(&table, 3) as usize - 1],
                })
            } else {
                Answer::NotKnown
            };
            assert_eq!(os2::style_position(level, &table), Ok(style));
            let sizes = match (level, version) {
                (5, 5) => Answer::Value(match (naive_field(&table, 46), naive_field(&table, 47)) {
                    (0, 65_535) => OpticalSizes::Every,
                    (lower, 65_535) => OpticalSizes::From(naive_points(lower)),
                    (lower, upper) => {
                        OpticalSizes::Between(naive_points(lower), naive_points(upper))
                    }
                }),
                (5, 0..=4) => Answer::Absent,
                _ => Answer::NotKnown,
            };
            assert_eq!(os2::optical_sizes(level, &table), Ok(sizes));
        }
    }
    assert!(accepted > 10_000);
}

/// Points by way of 64 bits: a 64-bit quotient of two numbers of at most 24
/// bits has enough bits that rounding it once more changes nothing.
fn naive_points(stored: i64) -> f32 {
    (stored as f64 / 20.0) as f32
}

#[test]
fn every_point_figure_is_the_nearest() {
    for upper in 1..65_535_u16 {
        let result = os2::optical_sizes(5, &os2_version_5(0, upper));
        let Ok(Answer::Value(OpticalSizes::Between(lower, points))) = result else {
            panic!("{upper}");
        };
        assert_eq!(lower.to_bits(), 0.0_f32.to_bits());
        assert_eq!(points.to_bits(), naive_points(upper.into()).to_bits());
        // 20 times a 32-bit float is exact in 64 bits, so distances are too.
        let distance = |figure: f32| (f64::from(figure) * 20.0 - f64::from(upper)).abs();
        assert!(distance(points) < distance(points.next_up()));
        assert!(distance(points) < distance(points.next_down()));
    }
}

#[test]
fn optical_sizes_cases() {
    let ask = |level, lower, upper| os2::optical_sizes(level, &os2_version_5(lower, upper));
    assert_eq!(ask(5, 0, 65_535), Ok(Answer::Value(OpticalSizes::Every)));
    assert_eq!(
        ask(5, 1, 65_535),
        Ok(Answer::Value(OpticalSizes::From(0.05)))
    );
    assert_eq!(
        ask(5, 65_534, 65_535),
        Ok(Answer::Value(OpticalSizes::From(3276.7)))
    );
    assert_eq!(
        ask(5, 0, 1),
        Ok(Answer::Value(OpticalSizes::Between(0.0, 0.05)))
    );
    assert_eq!(
        ask(5, 0, 65_534),
        Ok(Answer::Value(OpticalSizes::Between(0.0, 3276.7)))
    );
    assert_eq!(
        ask(5, 160, 240),
        Ok(Answer::Value(OpticalSizes::Between(8.0, 12.0)))
    );
    for level in 0..5 {
        assert_eq!(ask(level, 0, 65_535), Ok(Answer::NotKnown));
        // Not known below level 5 even where the version lacks them.
        assert_eq!(os2::optical_sizes(level, &os2(&[])), Ok(Answer::NotKnown));
    }
    for version in 0..5 {
        let table = os2(&[(0, version)]);
        assert_eq!(os2::optical_sizes(5, &table), Ok(Answer::Absent));
    }
}

#[test]
fn version_6_at_level_5() {
    let mut table = os2(&[(0, 6), (96, 9), (98, 3)]);
    // The value rules are not applied.
    put(&mut table, 4, 0);
    assert_eq!(os2::accept(5, &table), Ok(()));
    assert_eq!(os2::field(5, &table, 0), Ok(Answer::Value(6)));
    assert_eq!(os2::field(5, &table, 2), Ok(Answer::Value(0)));
    assert_eq!(os2::field(5, &table, 46), Ok(Answer::Value(9)));
    assert_eq!(os2::field(5, &table, 47), Ok(Answer::Value(3)));
    assert_eq!(os2::field(4, &table, 46), Ok(Answer::NotKnown));
    assert_eq!(os2::rights(5, &table), Ok(Answer::NotKnown));
    assert_eq!(os2::style_position(5, &table), Ok(Answer::NotKnown));
    assert_eq!(os2::optical_sizes(5, &table), Ok(Answer::NotKnown));
    assert_eq!(os2::rewrite(&table, &mut [0; 100]), no(4));
}

#[test]
fn long_version_0_table_has_no_code_pages() {
    let mut table = os2(&[]);
    table.extend([0xFF; 22]);
    for level in LEVELS {
        let expected = if level == 0 {
            Answer::NotKnown
        } else {
            Answer::Absent
        };
        assert_eq!(os2::field(level, &table, 39), Ok(expected));
        assert_eq!(os2::code_page_bit(level, &table, 0), Ok(expected));
        assert_eq!(os2::code_page_bit(level, &table, 63), Ok(expected));
    }
}

#[test]
fn rights_and_style() {
    for (fs_type, rights) in [
        (0, Rights::Installable),
        (2, Rights::Restricted),
        (4, Rights::Preview),
        (8, Rights::Editable),
        (0x300, Rights::Installable),
        (0x308, Rights::Editable),
    ] {
        let table = os2(&[(8, fs_type)]);
        for level in LEVELS {
            assert_eq!(os2::rights(level, &table), Ok(Answer::Value(rights)));
        }
    }
    for weight in 1..=1000 {
        let result = os2::style_position(0, &os2(&[(4, weight)]));
        let Ok(Answer::Value(style)) = result else {
            panic!("{weight}");
        };
        assert_eq!(style.weight, f32::from(weight));
        assert_eq!(style.width_percent, 100.0);
    }
    let table = os2(&[(0, 2)]);
    assert_eq!(os2::rights(1, &table), Ok(Answer::NotKnown));
    assert_eq!(os2::style_position(1, &table), Ok(Answer::NotKnown));
    assert!(matches!(os2::rights(2, &table), Ok(Answer::Value(_))));
}

// ---- document 02, Ask 1 ----

/// For each version 0 to 6, for each level 0 to 6, the answers for fsType 0, 2,
/// 4, 6, 8, 10, 12, 14: I, R, P and E are accepted with the rights installable,
/// restricted, preview and editable; ? is accepted with the rights not known; 4
/// is refusal 3 carrying rule 4; 1 is refusal 1.
#[rustfmt::skip]
const ASK_1: [[&str; 7]; 7] = [
    ["IRPPEEEE", "IRPPEEEE", "IRPPEEEE", "IRPPEEEE", "IRPPEEEE", "IRPPEEEE", "11111111"],
    ["????????", "IRPPEEEE", "IRPPEEEE", "IRPPEEEE", "IRPPEEEE", "IRPPEEEE", "11111111"],
    ["????????", "????????", "IRPPEEEE", "IRPPEEEE", "IRPPEEEE", "IRPPEEEE", "11111111"],
    ["????????", "????????", "????????", "IRP4E444", "IRP4E444", "IRP4E444", "11111111"],
    ["????????", "????????", "????????", "????????", "IRP4E444", "IRP4E444", "11111111"],
    ["????????", "????????", "????????", "????????", "????????", "IRP4E444", "11111111"],
    ["????????", "????????", "????????", "????????", "????????", "????????", "11111111"],
];

/// Each version with each setting of fsType bits 1 to 3 at each level. Bits 8
/// and 9 change nothing.
#[test]
fn ask_1_rule_4_and_rights() {
    for (version, levels) in (0..).zip(ASK_1) {
        for (level, answers) in (0..).zip(levels) {
            for (fs_type, letter) in (0..16).step_by(2).zip(answers.chars()) {
                let expected = match letter {
                    'I' => Ok(Answer::Value(Rights::Installable)),
                    'R' => Ok(Answer::Value(Rights::Restricted)),
                    'P' => Ok(Answer::Value(Rights::Preview)),
                    'E' => Ok(Answer::Value(Rights::Editable)),
                    '?' => Ok(Answer::NotKnown),
                    '4' => no_at(3, 4),
                    _ => no(1),
                };
                for fs_type in [fs_type, fs_type + 0x100, fs_type + 0x200, fs_type + 0x300] {
                    let table = os2(&[(0, version), (8, fs_type), (98, 1)]);
                    let case = format!("version {version}, level {level}, fsType {fs_type:#X}");
                    let accepted = expected.map(|_| ());
                    assert_eq!(os2::accept(level, &table), accepted, "{case}");
                    assert_eq!(os2::rights(level, &table), expected, "{case}");
                    let field = expected.map(|_| Answer::Value(i64::from(fs_type)));
                    assert_eq!(os2::field(level, &table, 4), field, "{case}");
                }
            }
        }
    }
}

/// The font that document 02 names.
#[test]
fn ask_1_version_2_font() {
    let table = os2(&[(0, 2), (8, 0x000C)]);
    for level in LEVELS {
        assert_eq!(os2::accept(level, &table), Ok(()));
    }
    for level in 2..=5 {
        let editable = Ok(Answer::Value(Rights::Editable));
        assert_eq!(os2::rights(level, &table), editable);
    }
    for level in 0..=1 {
        assert_eq!(os2::rights(level, &table), Ok(Answer::NotKnown));
    }
}

#[test]
fn levels_agree_where_both_know() {
    let mut numbers = Numbers::new(13);
    for _ in 0..5_000 {
        let table = any_table(&mut numbers);
        for low in LEVELS {
            for high in low..=5 {
                if os2::accept(low, &table).is_err() || os2::accept(high, &table).is_err() {
                    continue;
                }
                for number in 0..48 {
                    let a = os2::field(low, &table, number).unwrap();
                    let b = os2::field(high, &table, number).unwrap();
                    assert!(a == b || a == Answer::NotKnown);
                }
                for bit in 0..10 {
                    let a = os2::selection_bit(low, &table, bit).unwrap();
                    let b = os2::selection_bit(high, &table, bit).unwrap();
                    assert!(a == b || a == Answer::NotKnown);
                }
                let a = os2::rights(low, &table).unwrap();
                assert!(a == Answer::NotKnown || Ok(a) == os2::rights(high, &table));
                let a = os2::style_position(low, &table).unwrap();
                assert!(a == Answer::NotKnown || Ok(a) == os2::style_position(high, &table));
                let a = os2::optical_sizes(low, &table).unwrap();
                assert!(a == Answer::NotKnown || Ok(a) == os2::optical_sizes(high, &table));
            }
        }
    }
}

// ---- the writer ----

/// The 48 numbers of a plain table of this version; those it lacks are no
/// field's numbers.
fn plain(version: i64) -> [i64; 48] {
    let mut values = [0; 48];
    values[0] = version;
    values[2] = 400;
    values[3] = 5;
    values[47] = 1;
    for (number, field) in os2::FIELDS.iter().enumerate() {
        if i64::from(field.since) > version {
            values[number] = if number % 2 == 0 { i64::MIN } else { i64::MAX };
        }
    }
    values
}

/// Writes into room filled with 0xA5 and gives the answer and the room.
fn write(values: &[i64; 48], length: usize) -> (Result<usize, Refusal>, Vec<u8>) {
    let mut room = vec![0xA5; length];
    let result = os2::write(values, &mut room);
    if result.is_err() {
        assert!(room.iter().all(|&byte| byte == 0xA5), "room was touched");
    }
    (result, room)
}

#[test]
fn writer_sizes_and_later_bytes() {
    for version in 0..=5 {
        let size = SIZES[version as usize];
        for length in 0..130 {
            let (result, room) = write(&plain(version), length);
            if length < size {
                assert_eq!(result, no(5));
            } else {
                assert_eq!(result, Ok(size));
                assert!(room[size..].iter().all(|&byte| byte == 0xA5));
                let mut expected = os2(&[(0, version as u16)]);
                if version == 5 {
                    put(&mut expected, 98, 1);
                }
                assert_eq!(room[..size], expected);
            }
        }
    }
}

#[test]
fn writer_refusal_4() {
    for version in [-1, 6, 7, 65_535, 65_536, 4_294_967_296, i64::MIN, i64::MAX] {
        let mut values = plain(5);
        values[0] = version;
        assert_eq!(write(&values, 100).0, no(4));
        // 4 comes before 5, 8 and 3.
        values[1] = 99_999;
        values[2] = 0;
        assert_eq!(write(&values, 0).0, no(4));
    }
}

#[test]
fn writer_order_5_8_3() {
    let mut values = plain(5);
    values[2] = 0;
    values[9] = 40_000;
    assert_eq!(write(&values, 99).0, no(5));
    assert_eq!(write(&values, 100).0, no_at(8, 9));
    values[9] = 0;
    assert_eq!(write(&values, 100).0, no_at(3, 1));
    values[2] = 1;
    assert_eq!(write(&values, 100).0, Ok(100));
}

#[test]
fn writer_edges_of_every_field() {
    for version in 0..=5_i64 {
        for (number, field) in os2::FIELDS.iter().enumerate().skip(1) {
            let (low, high): (i64, i64) = match (field.bytes, field.signed) {
                (1, false) => (0, 255),
                (2, false) => (0, 65_535),
                (2, true) => (-32_768, 32_767),
                (4, false) => (0, 4_294_967_295),
                _ => unreachable!(),
            };
            for value in [low - 1, low, -1, 0, 1, high, high + 1, i64::MIN, i64::MAX] {
                let mut values = plain(version);
                values[number] = value;
                let (result, room) = write(&values, 100);
                if i64::from(field.since) > version {
                    // Not looked at.
                    assert!(result.is_ok());
                    assert_eq!(room, write(&plain(version), 100).1);
                } else if value < low || value > high {
                    assert_eq!(result, no_at(8, number as u32));
                } else if let Ok(size) = result {
                    let written = os2::field(5, &room[..size], number as u32);
                    assert_eq!(written, Ok(Answer::Value(value)));
                } else {
                    // Only the ruled fields may break a rule.
                    assert_eq!(result.unwrap_err().number, 3);
                    assert!([2, 3, 4, 31, 46, 47].contains(&number));
                }
            }
        }
    }
}

#[test]
fn writer_lowest_field_that_does_not_fit() {
    let mut values = plain(5);
    let wrong: Vec<usize> = (1..48).rev().collect();
    for number in wrong {
        values[number] = 1 << 40;
        assert_eq!(write(&values, 100).0, no_at(8, number as u32));
    }
}

#[test]
fn writer_rules() {
    let with = |version: i64, changes: &[(usize, i64)]| {
        let mut values = plain(version);
        for &(number, value) in changes {
            values[number] = value;
        }
        write(&values, 100).0
    };
    assert_eq!(with(0, &[(2, 0)]), no_at(3, 1));
    assert_eq!(with(0, &[(2, 1001), (3, 0)]), no_at(3, 1));
    assert_eq!(with(0, &[(3, 10)]), no_at(3, 2));
    assert_eq!(with(0, &[(4, 1)]), no_at(3, 3));
    assert_eq!(with(0, &[(4, 6)]), Ok(78));
    assert_eq!(with(3, &[(4, 6)]), no_at(3, 4));
    assert_eq!(with(2, &[(4, 14), (31, 0x80)]), no_at(3, 5));
    assert_eq!(with(3, &[(31, 0x80)]), no_at(3, 5));
    assert_eq!(with(4, &[(31, 0x80)]), Ok(96));
    assert_eq!(with(4, &[(31, 0x400)]), no_at(3, 5));
    assert_eq!(with(4, &[(31, 0x41)]), no_at(3, 6));
    assert_eq!(with(5, &[(46, 1), (47, 1)]), no_at(3, 7));
    // Rule 7 doesn't look at sizes that the version lacks.
    assert_eq!(with(4, &[(46, 1), (47, 1)]), Ok(96));
}

/// Document 02, Ask 1: each version with each setting of fsType bits 1 to 3,
/// from 0 to 14; w is written, 4 is refusal 3 carrying rule 4.
#[test]
fn writer_rule_4() {
    for (version, size, answers) in [
        (0, 78, "wwwwwwww"),
        (1, 86, "wwwwwwww"),
        (2, 96, "wwwwwwww"),
        (3, 96, "www4w444"),
        (4, 96, "www4w444"),
        (5, 100, "www4w444"),
    ] {
        for (fs_type, letter) in (0..16).step_by(2).zip(answers.chars()) {
            for fs_type in [fs_type, fs_type + 0x100, fs_type + 0x200, fs_type + 0x300] {
                let mut values = plain(version);
                values[4] = fs_type;
                let case = format!("version {version}, fsType {fs_type:#X}");
                let (result, room) = write(&values, 101);
                if letter == '4' {
                    assert_eq!(result, no_at(3, 4), "{case}");
                    continue;
                }
                assert_eq!(result, Ok(size), "{case}");
                let table = os2(&[(0, version as u16), (8, fs_type as u16), (98, 1)]);
                assert_eq!(room[..size], table, "{case}");
                assert!(room[size..].iter().all(|&byte| byte == 0xA5), "{case}");
            }
        }
    }
}

#[test]
fn writer_and_reader_agree() {
    let mut numbers = Numbers::new(14);
    let mut written = 0;
    for _ in 0..100_000 {
        let source = any_table(&mut numbers);
        if source.len() < 100 {
            continue;
        }
        let mut values = [0; 48];
        for (number, value) in values.iter_mut().enumerate() {
            *value = naive_field(&source, number);
        }
        let version = values[0];
        let (result, room) = write(&values, 100);
        if version > 5 {
            assert_eq!(result, no(4));
            continue;
        }
        // The numbers fit, so the writer refuses as the reader does.
        assert_eq!(result.err(), naive_accept(5, &source).err());
        if let Ok(size) = result {
            written += 1;
            assert_eq!(size, SIZES[version as usize]);
            assert_eq!(room[..size], source[..size]);
            assert_eq!(os2::accept(5, &room[..size]), Ok(()));
        }
    }
    assert!(written > 1000);
}

// ---- rewriting ----

#[test]
fn rewriting_gives_the_bytes_back() {
    let mut numbers = Numbers::new(15);
    let mut seen = std::collections::BTreeMap::new();
    for _ in 0..100_000 {
        let table = any_table(&mut numbers);
        let length = numbers.pick(&[0, 77, 78, 85, 86, 95, 96, 99, 100, 120]);
        let mut room = vec![0xA5; length];
        let result = os2::rewrite(&table, &mut room);
        let version = table
            .get(..2)
            .map_or(0, |two| usize::from(two[0]) * 256 + usize::from(two[1]));
        let size = SIZES[version.min(5)];
        let expected = if let Err(refusal) = naive_accept(5, &table) {
            Err(refusal)
        } else if version > 5 {
            no(4)
        } else if length < size {
            no(5)
        } else {
            Ok(size)
        };
        assert_eq!(result, expected);
        *seen
            .entry(result.err().map_or(0, |r| r.number))
            .or_insert(0) += 1;
        let touched = result.unwrap_or(0);
        assert_eq!(room[..touched], table[..touched]);
        assert!(room[touched..].iter().all(|&byte| byte == 0xA5));
    }
    assert_eq!(seen.keys().copied().collect::<Vec<_>>(), [0, 2, 3, 4, 5]);
}

#[test]
fn rewriting_order() {
    // 4 comes before 5, and the reader's 2 before both.
    let six = os2(&[(0, 6)]);
    assert_eq!(os2::rewrite(&six, &mut []), no(4));
    assert_eq!(os2::rewrite(&six[..99], &mut []), no(2));
    assert_eq!(os2::rewrite(&[0; 78], &mut []), no_at(3, 1));
    assert_eq!(os2::rewrite(&os2(&[]), &mut [0; 77]), no(5));
    // Extra bytes are not carried over.
    let mut long = os2(&[]);
    long.extend([7; 50]);
    let mut room = [9; 100];
    assert_eq!(os2::rewrite(&long, &mut room), Ok(78));
    assert_eq!(room[..78], os2(&[]));
    assert_eq!(room[78..], [9; 22]);
}

/// Document 02, Ask 1: all three bits in version 2 are read, written and read
/// again; in version 3 they are refused.
#[test]
fn rewriting_all_three_rights_bits() {
    let table = os2(&[(0, 2), (8, 0x000E)]);
    let mut room = [0xA5; 101];
    assert_eq!(os2::rewrite(&table, &mut room), Ok(96));
    assert_eq!(room[..96], table);
    assert_eq!(room[96..], [0xA5; 5]);
    assert_eq!(room[..2], [0, 2]);
    assert_eq!(room[8..10], [0, 0x0E]);
    for level in 2..=5 {
        let editable = Ok(Answer::Value(Rights::Editable));
        assert_eq!(os2::rights(level, &room[..96]), editable);
    }
    for level in 0..=1 {
        assert_eq!(os2::rights(level, &room[..96]), Ok(Answer::NotKnown));
    }
    let mut other = [0x5A; 101];
    assert_eq!(os2::rewrite(&room[..96], &mut other), Ok(96));
    assert_eq!(other[..96], table);

    let table = os2(&[(0, 3), (8, 0x000E)]);
    let mut room = [0xA5; 101];
    assert_eq!(os2::rewrite(&table, &mut room), no_at(3, 4));
    assert_eq!(room, [0xA5; 101]);
}
