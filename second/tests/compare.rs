//! What changed between two tables (document 02, Ask 2): the rows, the refusals
//! with their sides, and the lent room.

mod common;

use common::*;
use second::compare::{self, FieldDifference, KeyDifference, Refused, Side, Which};
use second::os2::Answer::{Absent, NotKnown, Value};
use second::{name, os2 as reader, Refusal};

const LEVELS: [u32; 6] = [0, 1, 2, 3, 4, 5];
const HIGH_LEVELS: [u32; 3] = [6, 7, u32::MAX];

/// A refusal without a side, as a result of any kind.
fn refused<T>(number: u32) -> Result<T, Refused> {
    Err(Refused {
        side: None,
        refusal: Refusal {
            number,
            carries: None,
        },
    })
}

/// A table's refusal with its side, as a result of any kind.
fn refused_side<T>(side: Side, number: u32, carries: Option<u32>) -> Result<T, Refused> {
    Err(Refused {
        side: Some(side),
        refusal: Refusal { number, carries },
    })
}

/// A row for two OS/2 tables.
fn field(field: u32, left: reader::Answer, right: reader::Answer) -> FieldDifference {
    FieldDifference { field, left, right }
}

/// A row for two 'name' tables.
fn key(key: (u16, u16, u16, u16), which: Which) -> KeyDifference {
    KeyDifference { key, which }
}

// ---- 'OS/2': the rows ----

#[test]
fn equal_os2_tables_have_no_rows() {
    for version in 0..=7 {
        let table = os2(&[(0, version), (98, 1)]);
        for level in LEVELS {
            assert_eq!(
                compare::os2_differences(level, &table, &table),
                Ok(vec![]),
                "version {version} at level {level}"
            );
        }
    }
}

#[test]
fn one_field_differs() {
    let left = os2(&[]);
    let right = os2(&[(4, 700)]);
    for level in LEVELS {
        assert_eq!(
            compare::os2_differences(level, &left, &right),
            Ok(vec![field(2, Value(400), Value(700))])
        );
        assert_eq!(
            compare::os2_differences(level, &right, &left),
            Ok(vec![field(2, Value(700), Value(400))])
        );
    }
}

#[test]
fn signed_fields_keep_their_sign() {
    let left = os2(&[(2, 0xFFFF), (68, 1), (74, 0xFFFF)]);
    let right = os2(&[(2, 1), (68, 0x8000), (74, 1)]);
    assert_eq!(
        compare::os2_differences(5, &left, &right),
        Ok(vec![
            field(1, Value(-1), Value(1)),
            field(34, Value(1), Value(-32_768)),
            field(37, Value(65_535), Value(1)),
        ])
    );
}

/// Each byte of a version 5 table belongs to one field; changed alone it makes
/// this field's row and no other.
#[test]
fn each_byte_makes_its_fields_row() {
    for (number, place) in reader::FIELDS.iter().enumerate() {
        for byte in place.offset..place.offset + place.bytes {
            // Of a version above the level no rules are asked, so every byte
            // may be anything.
            let left = vec![0xFF; 100];
            let mut right = left.clone();
            right[byte] = 0x7F;
            for level in LEVELS {
                let rows = compare::os2_differences(level, &left, &right).unwrap();
                let fields: Vec<u32> = rows.iter().map(|row| row.field).collect();
                if place.since > level {
                    assert_eq!(fields, [], "field {number} at level {level}");
                } else {
                    assert_eq!(fields, [number as u32], "field {number} at level {level}");
                }
            }
        }
    }
}

#[test]
fn absent_and_a_value_differ() {
    // Version 4 has no optical sizes.
    let left = os2(&[(0, 4)]);
    let right = os2_version_5(160, 320);
    let expected = vec![
        field(0, Value(4), Value(5)),
        field(46, Absent, Value(160)),
        field(47, Absent, Value(320)),
    ];
    assert_eq!(compare::os2_differences(5, &left, &right), Ok(expected));
    let expected = vec![
        field(0, Value(5), Value(4)),
        field(46, Value(160), Absent),
        field(47, Value(320), Absent),
    ];
    assert_eq!(compare::os2_differences(5, &right, &left), Ok(expected));
    // Level 4 knows no optical sizes on either side.
    assert_eq!(
        compare::os2_differences(4, &left, &right),
        Ok(vec![field(0, Value(4), Value(5))])
    );
}

#[test]
fn absent_and_zero_differ() {
    let left = os2(&[]);
    let right = os2(&[(0, 1)]);
    assert_eq!(
        compare::os2_differences(5, &left, &right),
        Ok(vec![
            field(0, Value(0), Value(1)),
            field(39, Absent, Value(0)),
            field(40, Absent, Value(0)),
        ])
    );
    assert_eq!(
        compare::os2_differences(0, &left, &right),
        Ok(vec![field(0, Value(0), Value(1))])
    );
    // Of version 6 even the upper size may be 0.
    let right = os2(&[(0, 6)]);
    let mut expected = vec![field(0, Value(6), Value(0))];
    expected.extend((39..48).map(|number| field(number, Value(0), Absent)));
    assert_eq!(compare::os2_differences(5, &right, &left), Ok(expected));
}

#[test]
fn bytes_behind_the_fields_do_not_count() {
    let left = os2(&[]);
    let mut right = left.clone();
    right.extend([0xFF; 40]);
    for level in LEVELS {
        assert_eq!(compare::os2_differences(level, &left, &right), Ok(vec![]));
        assert_eq!(compare::os2_differences(level, &right, &left), Ok(vec![]));
    }
}

#[test]
fn all_48_fields() {
    // Both are newer than the level, so no rules are asked.
    let left = vec![0x81; 100];
    let right = vec![0x7E; 100];
    let rows = compare::os2_differences(5, &left, &right).unwrap();
    let numbers: Vec<u32> = rows.iter().map(|row| row.field).collect();
    assert_eq!(numbers, (0..48).collect::<Vec<u32>>());
    assert_eq!(rows[0], field(0, Value(0x8181), Value(0x7E7E)));
    assert_eq!(rows[1], field(1, Value(0x8181 - 65_536), Value(0x7E7E)));
    assert_eq!(rows[16], field(16, Value(0x81), Value(0x7E)));
    assert_eq!(rows[26], field(26, Value(0x8181_8181), Value(0x7E7E_7E7E)));
    assert_eq!(rows[47], field(47, Value(0x8181), Value(0x7E7E)));
}

/// The definition, field by field: a row is there exactly where the two
/// answers differ, and it holds both.
#[test]
fn rows_are_the_answers_that_differ() {
    let mut numbers = Numbers::new(21);
    let mut listed = 0;
    for _ in 0..4000 {
        let mut pair = [os2(&[]), os2(&[])];
        for table in &mut pair {
            table.resize(100, 0);
            put(table, 0, numbers.pick(&[0, 1, 2, 3, 4, 5, 6, 65_535]));
            put(table, 98, 7);
            for _ in 0..numbers.below(6) {
                let place = 10 + numbers.below(90) as usize;
                table[place] = numbers.below(256) as u8;
            }
        }
        let [left, right] = pair;
        for level in LEVELS {
            let Ok(rows) = compare::os2_differences(level, &left, &right) else {
                continue;
            };
            let mut expected = Vec::new();
            for number in 0..48 {
                let answers =
                    [&left, &right].map(|table| reader::field(level, table, number).unwrap());
                if answers[0] != answers[1] {
                    expected.push(field(number, answers[0], answers[1]));
                }
            }
            assert_eq!(rows, expected);
            for row in rows {
                assert_ne!(row.left, NotKnown);
                assert_ne!(row.right, NotKnown);
                listed += 1;
            }
        }
    }
    assert!(listed > 1000);
}

#[test]
fn all_fields_at_once_are_the_fields_one_by_one() {
    let mut numbers = Numbers::new(22);
    for _ in 0..500 {
        let mut table = os2(&[]);
        table.resize(100, 0);
        put(&mut table, 0, numbers.pick(&[0, 1, 2, 3, 4, 5, 6]));
        for _ in 0..numbers.below(4) {
            let place = numbers.below(100) as usize;
            table[place] = numbers.below(256) as u8;
        }
        table.truncate(numbers.pick(&[0, 77, 78, 86, 96, 100]));
        for level in LEVELS.into_iter().chain(HIGH_LEVELS) {
            let one_by_one: Result<Vec<_>, Refusal> = (0..48)
                .map(|number| reader::field(level, &table, number))
                .collect();
            let at_once = reader::fields(level, &table).map(|answers| answers.to_vec());
            assert_eq!(at_once, one_by_one);
        }
    }
}

// ---- 'OS/2': the refusals ----

#[test]
fn a_level_above_5_is_refused_first() {
    let fine = os2(&[]);
    for level in HIGH_LEVELS {
        for left in [&fine[..], &fine[..77], &[]] {
            for right in [&fine[..], &fine[..77], &[]] {
                for length in [0, 4, 240] {
                    let mut room = vec![9; length];
                    let result = compare::os2(level, left, right, &mut room);
                    assert_eq!(result, refused(1));
                    assert_eq!(room, vec![9; length]);
                }
            }
        }
    }
}

#[test]
fn the_left_os2_refusal_comes_first() {
    let fine = os2(&[]);
    let short = &fine[..77];
    let light = os2(&[(4, 0)]);
    let wide = os2(&[(6, 10)]);
    use Side::{Left, Right};
    for level in LEVELS {
        let of = |left: &[u8], right: &[u8]| compare::os2_differences(level, left, right);
        assert_eq!(of(short, &fine), refused_side(Left, 2, None));
        assert_eq!(of(&fine, short), refused_side(Right, 2, None));
        assert_eq!(of(&light, &fine), refused_side(Left, 3, Some(1)));
        assert_eq!(of(&fine, &light), refused_side(Right, 3, Some(1)));
        assert_eq!(of(&wide, &light), refused_side(Left, 3, Some(2)));
        assert_eq!(of(&light, &wide), refused_side(Left, 3, Some(1)));
        assert_eq!(of(&light, short), refused_side(Left, 3, Some(1)));
        assert_eq!(of(short, &light), refused_side(Left, 2, None));
    }
}

/// What a level refuses it refuses on either side, and no other level does.
#[test]
fn sides_are_judged_at_the_level() {
    let old = os2(&[]);
    let mut new = os2(&[(0, 5)]);
    new.truncate(96);
    for level in 0..=4 {
        assert_eq!(
            compare::os2_differences(level, &old, &new).map(|rows| rows[0]),
            Ok(field(0, Value(0), Value(5)))
        );
    }
    assert_eq!(
        compare::os2_differences(5, &old, &new),
        refused_side(Side::Right, 2, None)
    );
    assert_eq!(
        compare::os2_differences(5, &new, &old),
        refused_side(Side::Left, 2, None)
    );
}

// ---- 'OS/2': the room ----

#[test]
fn rows_of_os2_in_the_room() {
    let left = os2(&[(0, 4), (2, 0xFFFF)]);
    let right = os2_version_5(0, 320);
    let rows = [
        [0, 1, 4, 1, 5],
        [1, 1, -1, 1, 0],
        [46, 2, 0, 1, 0],
        [47, 2, 0, 1, 320],
    ]
    .concat();
    for length in 0..40 {
        let before: Vec<i64> = (0..length as i64).map(|place| -7 - place).collect();
        let mut room = before.clone();
        let result = compare::os2(5, &left, &right, &mut room);
        if length < 20 {
            assert_eq!(result, refused(29));
            assert_eq!(room, before);
        } else {
            assert_eq!(result, Ok(4));
            assert_eq!(room[..20], rows);
            assert_eq!(room[20..], before[20..]);
        }
    }
}

#[test]
fn no_rows_for_no_os2_difference() {
    let table = os2(&[]);
    let other = os2(&[(4, 401)]);
    for length in 0..10 {
        let mut room = vec![3; length];
        assert_eq!(compare::os2(5, &table, &table, &mut room), Ok(0));
        assert_eq!(room, vec![3; length]);
        let result = compare::os2(5, &table, &other, &mut room);
        if length < 5 {
            assert_eq!(result, refused(29));
        } else {
            assert_eq!(result, Ok(1));
        }
    }
}

#[test]
fn an_input_is_refused_before_29() {
    let fine = os2(&[]);
    let light = os2(&[(4, 0)]);
    let mut room = [5; 4];
    let result = compare::os2(5, &fine, &light, &mut room);
    assert_eq!(result, refused_side(Side::Right, 3, Some(1)));
    let result = compare::os2(5, &light, &fine, &mut room);
    assert_eq!(result, refused_side(Side::Left, 3, Some(1)));
    assert_eq!(room, [5; 4]);
}

// ---- 'name': the rows ----

#[test]
fn equal_name_tables_have_no_rows() {
    for table in [
        words(&[0, 0, 6]),
        words(&[1, 0, 8, 0]),
        named(&[((1, 0, 0, 6), b"Ab"), ((3, 1, 1033, 6), b"\0A\0b")]),
    ] {
        assert_eq!(compare::name_differences(&table, &table), Ok(vec![]));
    }
}

#[test]
fn the_three_kinds_in_one_order() {
    let left = named(&[
        ((1, 0, 0, 1), b"a"),
        ((1, 0, 0, 4), b"b"),
        ((3, 1, 1033, 1), b"c"),
        ((3, 1, 1033, 4), b"d"),
    ]);
    let right = named(&[
        ((0, 3, 0, 1), b"a"),
        ((1, 0, 0, 4), b"b"),
        ((1, 0, 0, 6), b"b"),
        ((3, 1, 1033, 1), b"C"),
        ((3, 1, 1033, 6), b"d"),
    ]);
    assert_eq!(
        compare::name_differences(&left, &right),
        Ok(vec![
            key((0, 3, 0, 1), Which::OnlyRight),
            key((1, 0, 0, 1), Which::OnlyLeft),
            key((1, 0, 0, 6), Which::OnlyRight),
            key((3, 1, 1033, 1), Which::OtherBytes),
            key((3, 1, 1033, 4), Which::OnlyLeft),
            key((3, 1, 1033, 6), Which::OnlyRight),
        ])
    );
    assert_eq!(
        compare::name_differences(&right, &left),
        Ok(vec![
            key((0, 3, 0, 1), Which::OnlyLeft),
            key((1, 0, 0, 1), Which::OnlyRight),
            key((1, 0, 0, 6), Which::OnlyLeft),
            key((3, 1, 1033, 1), Which::OtherBytes),
            key((3, 1, 1033, 4), Which::OnlyRight),
            key((3, 1, 1033, 6), Which::OnlyLeft),
        ])
    );
}

/// Keys compare by platform, then encoding, then language, then name.
#[test]
fn one_key_order() {
    let left = named(&[
        ((0, 0, 0, 9), b""),
        ((0, 0, 9, 0), b""),
        ((0, 9, 0, 0), b""),
        ((9, 0, 0, 0), b""),
    ]);
    let right = named(&[
        ((0, 0, 0, 10), b""),
        ((0, 0, 8, 65_535), b""),
        ((0, 8, 32_767, 65_535), b""),
        ((8, 65_535, 0, 0), b""),
    ]);
    use Which::{OnlyLeft, OnlyRight};
    assert_eq!(
        compare::name_differences(&left, &right),
        Ok(vec![
            key((0, 0, 0, 9), OnlyLeft),
            key((0, 0, 0, 10), OnlyRight),
            key((0, 0, 8, 65_535), OnlyRight),
            key((0, 0, 9, 0), OnlyLeft),
            key((0, 8, 32_767, 65_535), OnlyRight),
            key((0, 9, 0, 0), OnlyLeft),
            key((8, 65_535, 0, 0), OnlyRight),
            key((9, 0, 0, 0), OnlyLeft),
        ])
    );
}

#[test]
fn where_a_string_lies_does_not_count() {
    // Another order in storage, shared bytes, a gap before the storage, other
    // record numbers, another format.
    let left = name0(
        &[[1, 0, 0, 1, 2, 0], [1, 0, 0, 2, 2, 2], [1, 0, 0, 3, 2, 0]],
        b"abcd",
    );
    let right = name1(
        &[
            [0, 0, 0, 1, 0, 9],
            [1, 0, 0, 1, 2, 3],
            [1, 0, 0, 2, 2, 1],
            [1, 0, 0, 3, 2, 7],
        ],
        &[[1, 0]],
        b"xcdabcdab",
    );
    assert_eq!(
        compare::name_differences(&left, &right),
        Ok(vec![key((0, 0, 0, 1), Which::OnlyRight)])
    );
}

#[test]
fn lengths_count() {
    let of = |left: &[u8], right: &[u8]| {
        compare::name_differences(
            &named(&[((1, 0, 0, 1), left)]),
            &named(&[((1, 0, 0, 1), right)]),
        )
        .unwrap()
        .len()
    };
    assert_eq!(of(b"Ab", b"Ab"), 0);
    assert_eq!(of(b"Ab", b"A"), 1);
    assert_eq!(of(b"A", b"Ab"), 1);
    assert_eq!(of(b"Ab", b"Ab\0"), 1);
    assert_eq!(of(b"", b""), 0);
    assert_eq!(of(b"", b"\0"), 1);
    assert_eq!(of(b"\0", b""), 1);
    assert_eq!(of(b"Ab", b"ab"), 1);
    assert_eq!(of(b"Ab", b"bA"), 1);
    assert_eq!(of(&[7; 300], &[7; 300]), 0);
    assert_eq!(of(&[7; 300], &[7; 44]), 1);
}

#[test]
fn tags_do_not_count() {
    let records = [[3, 1, 0x8000, 1, 1, 0]];
    let left = name1(&records, &[[2, 0], [1, 1]], b"abc");
    let right = name1(&records, &[[1, 2]], b"abd");
    assert_eq!(compare::name_differences(&left, &right), Ok(vec![]));
    // The same language number is the same key, whatever its tag says.
    let right = name1(&[[3, 1, 0x8001, 1, 1, 0]], &[[1, 2], [2, 0]], b"abd");
    assert_eq!(
        compare::name_differences(&left, &right),
        Ok(vec![
            key((3, 1, 0x8000, 1), Which::OnlyLeft),
            key((3, 1, 0x8001, 1), Which::OnlyRight),
        ])
    );
}

#[test]
fn against_the_empty_table() {
    let empty = words(&[0, 0, 6]);
    let table = named(&[((1, 0, 0, 1), b"a"), ((1, 0, 0, 2), b"")]);
    assert_eq!(
        compare::name_differences(&table, &empty),
        Ok(vec![
            key((1, 0, 0, 1), Which::OnlyLeft),
            key((1, 0, 0, 2), Which::OnlyLeft),
        ])
    );
    assert_eq!(
        compare::name_differences(&empty, &table),
        Ok(vec![
            key((1, 0, 0, 1), Which::OnlyRight),
            key((1, 0, 0, 2), Which::OnlyRight),
        ])
    );
}

#[test]
fn the_largest_tables() {
    let records: Vec<Entry> = (0..5460).map(|i| [3, 1, 1033, i, 1, i % 9]).collect();
    let left = name0(&records, b"123456789");
    assert_eq!(left.len(), 65_535);
    let mut right = left.clone();
    assert_eq!(compare::name_differences(&left, &right), Ok(vec![]));
    // A byte of the storage is in many strings.
    right[65_534] = b'8';
    let rows = compare::name_differences(&left, &right).unwrap();
    assert_eq!(rows.len(), 5460 / 9);
    assert_eq!(rows[0], key((3, 1, 1033, 8), Which::OtherBytes));
    // A key changes.
    let mut right = left.clone();
    right[65_521] = 0x54;
    assert_eq!(right[65_514..65_522], [0, 3, 0, 1, 4, 9, 0x15, 0x54]);
    assert_eq!(
        compare::name_differences(&left, &right),
        Ok(vec![
            key((3, 1, 1033, 5459), Which::OnlyLeft),
            key((3, 1, 1033, 5460), Which::OnlyRight),
        ])
    );
    // Two that share no key.
    let records: Vec<Entry> = (0..5460).map(|i| [3, 1, 1034, i, 1, i % 9]).collect();
    let right = name0(&records, b"123456789");
    let mut room = vec![0; 5 * 10_920];
    assert_eq!(compare::name(&left, &right, &mut room), Ok(10_920));
    assert_eq!(room[5 * 10_919..], [3, 1, 1034, 5459, 2]);
    let result = compare::name(&left, &right, &mut room[..5 * 10_919]);
    assert_eq!(result, refused(29));
}

/// The definition by lookups: a key is listed exactly if the two answers to it
/// are of different kinds or give other bytes.
#[test]
fn rows_are_the_lookups_that_differ() {
    let mut numbers = Numbers::new(23);
    let mut listed = [0; 4];
    for _ in 0..3000 {
        let mut tables = Vec::new();
        for _ in 0..2 {
            let storage: Vec<u8> = (0..6).map(|_| numbers.below(2) as u8).collect();
            let mut records: Vec<Entry> = (0..numbers.below(7))
                .map(|_| {
                    let length = numbers.below(3) as u16;
                    let offset = numbers.below(4) as u16;
                    let mut part = || numbers.below(2) as u16;
                    [part(), part(), part(), part(), length, offset]
                })
                .collect();
            records.sort();
            records.dedup_by_key(|record| [record[0], record[1], record[2], record[3]]);
            tables.push(name0(&records, &storage));
        }
        let [left, right] = &tables[..] else {
            unreachable!()
        };
        let mut expected = Vec::new();
        for bits in 0..16_u16 {
            let asked = (bits >> 3, bits >> 2 & 1, bits >> 1 & 1, bits & 1);
            let found = [left, right].map(|table| {
                let (p, e, l, n) = asked;
                name::lookup(table, p.into(), e.into(), l.into(), n.into())
                    .answer
                    .ok()
                    .map(|text| &table[text.start..text.start + text.length])
            });
            let which = match found {
                [Some(_), None] => Which::OnlyLeft,
                [None, Some(_)] => Which::OnlyRight,
                [Some(left), Some(right)] if left != right => Which::OtherBytes,
                _ => continue,
            };
            listed[which as usize] += 1;
            expected.push(key(asked, which));
        }
        assert_eq!(compare::name_differences(left, right), Ok(expected));
    }
    assert!(listed[..3].iter().all(|&count| count > 500), "{listed:?}");
}

// ---- 'name': the refusals ----

/// Tables for each of the refusals 10 to 19 and 27, with what they carry.
fn refused_tables() -> Vec<(Vec<u8>, u32, Option<u32>)> {
    vec![
        (vec![0; 5], 10, None),
        (words(&[2, 0, 6]), 11, None),
        (words(&[0, 1, 6]), 12, None),
        (words(&[1, 0, 6]), 13, None),
        (words(&[0, 0, 5]), 14, None),
        (name0(&[[0, 0, 0, 0, 0, 1]], &[]), 15, Some(0)),
        (name0(&[[0; 6], [0, 0, 0, 1, 2, 65_535]], &[7]), 15, Some(1)),
        (name1(&[], &[[0, 0], [1, 0]], &[]), 16, Some(1)),
        (name1(&[], &[[0, 1]], &[]), 16, Some(0)),
        (name0(&[[1, 0, 0, 6, 0, 0], [0; 6]], &[]), 17, Some(1)),
        (name0(&[[0, 0, 0x8000, 0, 0, 0]], &[]), 18, Some(0)),
        (name0(&[[1, 0, 0, 6, 0, 0]; 2], &[]), 19, Some(1)),
        (name0(&[[0, 0, 0, 0, 1, 0]], &[]), 27, Some(0)),
        (name0(&[[0; 6], [0, 0, 0, 1, 2, 0]], &[7]), 27, Some(1)),
    ]
}

#[test]
fn the_left_name_refusal_comes_first() {
    let fine = named(&[((1, 0, 0, 6), b"Ab")]);
    for (table, number, carries) in refused_tables() {
        let left = refused_side(Side::Left, number, carries);
        let right = refused_side(Side::Right, number, carries);
        assert_eq!(compare::name_differences(&table, &fine), left);
        assert_eq!(compare::name_differences(&fine, &table), right);
        for (other, ..) in refused_tables() {
            assert_eq!(compare::name_differences(&table, &other), left);
        }
        // The inputs' own come before 29.
        let mut room = [8; 4];
        let result = compare::name(&table, &fine, &mut room);
        assert_eq!(result, refused_side(Side::Left, number, carries));
        let result = compare::name(&fine, &table, &mut room);
        assert_eq!(result, refused_side(Side::Right, number, carries));
        assert_eq!(room, [8; 4]);
    }
}

// ---- 'name': the room ----

#[test]
fn rows_of_names_in_the_room() {
    let left = named(&[((1, 0, 0, 6), b"Ab"), ((3, 1, 1033, 6), b"x")]);
    let right = named(&[((3, 1, 1033, 6), b"y"), ((255, 1, 0x8001, 65_535), b"")]);
    let rows = [
        [1, 0, 0, 6, 1],
        [3, 1, 1033, 6, 3],
        [255, 1, 0x8001, 65_535, 2],
    ]
    .concat();
    for length in 0..30 {
        let before: Vec<u16> = (0..length as u16).map(|place| 900 + place).collect();
        let mut room = before.clone();
        let result = compare::name(&left, &right, &mut room);
        if length < 15 {
            assert_eq!(result, refused(29));
            assert_eq!(room, before);
        } else {
            assert_eq!(result, Ok(3));
            assert_eq!(room[..15], rows);
            assert_eq!(room[15..], before[15..]);
        }
    }
}

#[test]
fn no_rows_for_no_name_difference() {
    let table = named(&[((1, 0, 0, 6), b"Ab")]);
    let other = named(&[((1, 0, 0, 6), b"Ac")]);
    for length in 0..10 {
        let mut room = vec![3; length];
        assert_eq!(compare::name(&table, &table, &mut room), Ok(0));
        assert_eq!(room, vec![3; length]);
        let result = compare::name(&table, &other, &mut room);
        if length < 5 {
            assert_eq!(result, refused(29));
        } else {
            assert_eq!(result, Ok(1));
        }
    }
}

// ---- words ----

#[test]
fn words_of_a_refusal() {
    let words = |side, number, carries| {
        let refusal = Refusal { number, carries };
        Refused { side, refusal }.to_string()
    };
    assert_eq!(words(None, 1, None), "refused 1");
    assert_eq!(words(None, 29, None), "refused 29");
    assert_eq!(words(Some(Side::Left), 17, Some(1)), "left refused 17 at 1");
    assert_eq!(words(Some(Side::Left), 19, Some(2)), "left refused 19 at 2");
    assert_eq!(
        words(Some(Side::Right), 27, Some(0)),
        "right refused 27 at 0"
    );
    assert_eq!(words(Some(Side::Right), 11, None), "right refused 11");
}
