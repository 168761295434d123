//! The chooser for the rack (document 02, Ask 7).

mod common;

use common::*;
use second::chooser::{Face, Rack};
use second::Refusal;

/// The family record that counts first, and the one that counts else.
const FIRST: (u16, u16, u16, u16) = (3, 1, 0x409, 16);
const ELSE: (u16, u16, u16, u16) = (3, 1, 0x409, 1);

/// An 'OS/2' table of version 0 with this weight, width and fsSelection.
fn style(weight: u16, width: u16, selection: u16) -> Vec<u8> {
    os2(&[(4, weight), (6, width), (62, selection)])
}

/// Document 01's first 'OS/2' table: version 0, weight 400, width 5, upright.
fn plain() -> Vec<u8> {
    os2(&[])
}

/// A 'name' table with this family in record 1 alone.
fn family(bytes: &[u8]) -> Vec<u8> {
    named(&[(ELSE, bytes)])
}

/// A rack with faces of family `A` in these slots, loaded from tables: weight,
/// width, fsSelection.
fn rack_of(faces: &[(u32, u16, u16, u16)]) -> Rack {
    let mut rack = Rack::new();
    for &(slot, weight, width, selection) in faces {
        let table = style(weight, width, selection);
        assert_eq!(rack.load(slot, 5, &table, &family(b"A")), Ok(()));
    }
    rack
}

/// The slot chosen in such a rack.
fn chosen(faces: &[(u32, u16, u16, u16)], weight: u32, width: u32, sloped: bool) -> u32 {
    rack_of(faces)
        .request(b"A", weight, width, sloped)
        .expect("the rack has faces of the family")
}

/// Loads into a rack that has slot 7 taken, and looks whether the rack is then
/// what a map says: with the face in its slot, or as it was.
fn loaded(slot: u32, level: u32, os2_table: &[u8], name_table: &[u8]) -> Result<Face, Refusal> {
    let mut rack = Rack::new();
    let taken = Face {
        family: b"taken".to_vec(),
        weight: 1,
        width: 9,
        sloped: true,
    };
    rack.faces.insert(7, taken);
    let before = rack.clone();
    let answer = rack.load(slot, level, os2_table, name_table);
    match answer {
        Ok(()) => {
            let face = rack.faces.remove(&slot).expect("the slot is filled");
            assert_eq!(rack, before, "a load fills its own slot alone");
            Ok(face)
        }
        Err(refusal) => {
            assert_eq!(rack, before, "a refused load changes no slot");
            Err(refusal)
        }
    }
}

// ---- loads

#[test]
fn a_face_is_what_the_tables_hold() {
    let face = loaded(0, 5, &style(700, 3, 0x0021), &family(b"\0A\0b"));
    let expected = Face {
        family: b"\0A\0b".to_vec(),
        weight: 700,
        width: 3,
        sloped: true,
    };
    assert_eq!(face, Ok(expected.clone()));
    // The rack does not remember the level, and 31 is the last slot.
    for slot in [0, 31] {
        for level in 0..=5 {
            let face = loaded(slot, level, &style(700, 3, 0x0021), &family(b"\0A\0b"));
            assert_eq!(face, Ok(expected.clone()));
        }
    }
    for weight in [1, 2, 999, 1000] {
        let face = loaded(0, 0, &style(weight, 5, 0), &family(b"A")).unwrap();
        assert_eq!(face.weight, weight);
    }
    for width in 1..=9 {
        let face = loaded(0, 0, &style(400, width, 0), &family(b"A")).unwrap();
        assert_eq!(face.width, width);
    }
}

#[test]
fn slope_is_bit_0_alone() {
    let sloped = |version: u16, selection: u16| {
        let table = os2(&[(0, version), (62, selection), (98, 1)]);
        loaded(0, 5, &table, &family(b"A")).unwrap().sloped
    };
    assert!(sloped(0, 0x0001));
    assert!(sloped(0, 0x003F));
    assert!(!sloped(0, 0x003E));
    assert!(!sloped(0, 0x0040));
    // Bit 9, which calls a face oblique, and bits 7 and 8.
    for version in [4, 5] {
        assert!(!sloped(version, 0x0200));
        assert!(!sloped(version, 0x03BE));
        assert!(sloped(version, 0x0201));
        assert!(sloped(version, 0x03BF));
    }
}

#[test]
fn the_rack_is_full_after_32_loads() {
    let mut rack = Rack::new();
    for slot in (0..32).rev() {
        assert_eq!(rack.load(slot, 5, &plain(), &family(b"A")), Ok(()));
    }
    for slot in 0..32 {
        assert_eq!(rack.load(slot, 5, &plain(), &family(b"A")), no(53));
    }
    assert_eq!(rack.load(32, 5, &plain(), &family(b"A")), no(54));
    assert_eq!(rack.request(b"A", 400, 5, false), Ok(0));
    assert_eq!(rack.unload(0), Ok(()));
    assert_eq!(rack.request(b"A", 400, 5, false), Ok(1));
    assert_eq!(rack.faces.len(), 31);
    assert_eq!(rack.load(0, 5, &style(401, 5, 0), &family(b"A")), Ok(()));
    assert_eq!(rack.request(b"A", 401, 5, false), Ok(0));
}

// ---- the family

#[test]
fn record_16_is_before_record_1() {
    let of = |name: Vec<u8>| loaded(0, 5, &plain(), &name).map(|face| face.family);
    let both = named(&[(ELSE, b"one"), (FIRST, b"sixteen")]);
    assert_eq!(of(both), Ok(b"sixteen".to_vec()));
    assert_eq!(of(named(&[(FIRST, b"sixteen")])), Ok(b"sixteen".to_vec()));
    assert_eq!(of(named(&[(ELSE, b"one")])), Ok(b"one".to_vec()));
    // Format 1, where the language 0x409 needs no tag.
    let records = [[3, 1, 0x409, 1, 3, 0], [3, 1, 0x409, 16, 2, 3]];
    assert_eq!(of(name1(&records, &[], b"oneab")), Ok(b"ab".to_vec()));
    assert_eq!(
        of(name1(&records[..1], &[[0, 0]], b"oneab")),
        Ok(b"one".to_vec())
    );
}

#[test]
fn an_empty_or_too_long_16_is_51_even_if_1_is_fine() {
    let long = [b'x'; 65];
    for text in [&b""[..], &long] {
        let name = named(&[(ELSE, b"one"), (FIRST, text)]);
        assert_eq!(loaded(0, 5, &plain(), &name), no(51));
        assert_eq!(loaded(0, 5, &plain(), &named(&[(FIRST, text)])), no(51));
        assert_eq!(loaded(0, 5, &plain(), &family(text)), no(51));
        // A record 1 that would be refused does not count beside a record 16.
        let name = named(&[(ELSE, text), (FIRST, b"sixteen")]);
        let face = loaded(0, 5, &plain(), &name).unwrap();
        assert_eq!(face.family, b"sixteen");
    }
}

#[test]
fn a_family_has_1_to_64_bytes() {
    let bytes: Vec<u8> = (0..65_535_u32).map(|place| (place * 7) as u8).collect();
    for length in (1..=64).chain([65, 66, 127, 128, 255, 256, 257, 320, 65_535]) {
        let text = &bytes[..length];
        for name in [family(text), named(&[(FIRST, text)])] {
            let face = loaded(0, 5, &plain(), &name).map(|face| face.family);
            // Odd lengths are fine.
            match length {
                1..=64 => assert_eq!(face, Ok(text.to_vec())),
                _ => assert_eq!(face, no(51)),
            }
        }
    }
}

#[test]
fn no_other_record_is_a_family() {
    assert_eq!(
        loaded(0, 5, &plain(), &[0, 0, 0, 0, 0, 6]),
        no(20),
        "a table without records"
    );
    for key in [FIRST, ELSE] {
        let (platform, encoding, language, name) = key;
        for other in [
            (platform - 1, encoding, language, name),
            (platform + 1, encoding, language, name),
            (platform, encoding - 1, language, name),
            (platform, encoding + 1, language, name),
            (platform, encoding, language - 1, name),
            (platform, encoding, language + 1, name),
            (platform, encoding, 0, name),
            (platform, encoding, language, name - 1),
            (platform, encoding, language, name + 1),
            (1, 0, 0, name),
            (0, 3, 0, name),
        ] {
            assert_eq!(
                loaded(0, 5, &plain(), &named(&[(other, b"A")])),
                no(20),
                "{other:?}"
            );
        }
    }
    // The other family records of the standard: 4, 17, 21, 22.
    let keys = [4, 17, 21, 22].map(|name| ((3, 1, 0x409, name), &b"A"[..]));
    assert_eq!(loaded(0, 5, &plain(), &named(&keys)), no(20));
}

// ---- the refusals of a load

#[test]
fn levels_and_slots() {
    let font = (plain(), family(b"A"));
    for level in [6, 7, 255, 256, 65_536, 1 << 31, u32::MAX] {
        assert_eq!(loaded(0, level, &font.0, &font.1), no(1));
    }
    for slot in [32, 33, 255, 256, 263, 65_536, 1 << 31, u32::MAX] {
        assert_eq!(loaded(slot, 5, &font.0, &font.1), no(54));
    }
    assert_eq!(loaded(7, 5, &font.0, &font.1), no(53));
    for slot in [6, 8] {
        assert!(loaded(slot, 5, &font.0, &font.1).is_ok());
    }
}

#[test]
fn the_os2_refusal() {
    let name = family(b"A");
    let whole = plain();
    for level in 0..=5 {
        assert_eq!(loaded(0, level, b"", &name), no(2));
        assert_eq!(loaded(0, level, b"\0", &name), no(2));
        assert_eq!(loaded(0, level, &whole[..77], &name), no(2));
        assert!(loaded(0, level, &whole, &name).is_ok());
        // More bytes are allowed.
        let more = [&whole[..], &[0xFF; 30]].concat();
        assert!(loaded(0, level, &more, &name).is_ok());
    }
    assert_eq!(loaded(0, 5, &style(0, 5, 0), &name), no_at(3, 1));
    assert_eq!(loaded(0, 5, &style(1001, 5, 0), &name), no_at(3, 1));
    assert_eq!(loaded(0, 5, &style(400, 0, 0), &name), no_at(3, 2));
    assert_eq!(loaded(0, 5, &style(400, 10, 0), &name), no_at(3, 2));
    assert_eq!(loaded(0, 5, &os2(&[(8, 1)]), &name), no_at(3, 3));
    assert_eq!(loaded(0, 5, &os2(&[(0, 3), (8, 12)]), &name), no_at(3, 4));
    // Ask 1: before version 3 these two bits break no rule.
    assert!(loaded(0, 5, &os2(&[(0, 2), (8, 12)]), &name).is_ok());
    assert_eq!(loaded(0, 5, &os2(&[(0, 3), (62, 128)]), &name), no_at(3, 5));
    assert_eq!(loaded(0, 5, &style(400, 5, 0x0041), &name), no_at(3, 6));
    assert_eq!(loaded(0, 5, &os2_version_5(20, 20), &name), no_at(3, 7));
    assert!(loaded(0, 5, &os2_version_5(20, 21), &name).is_ok());
}

#[test]
fn newer_tables() {
    let name = family(b"A");
    // Of version 5 with 100 bytes: accepted at level 5, newer at each below.
    let table = os2_version_5(0, 1);
    for level in 0..5 {
        assert_eq!(loaded(0, level, &table, &name), no(52));
    }
    assert!(loaded(0, 5, &table, &name).is_ok());
    for version in [6, 7, 256, 65_535] {
        let table = os2(&[(0, version)]);
        for level in 0..=5 {
            assert_eq!(loaded(0, level, &table, &name), no(52));
        }
    }
    // Too short for the level: 2. Too short only for its own version: 52.
    for (length, level, number) in [
        (77, 0, 2),
        (78, 0, 52),
        (85, 0, 52),
        (85, 1, 2),
        (86, 1, 52),
        (95, 2, 2),
        (96, 2, 52),
        (95, 4, 2),
        (96, 4, 52),
        (99, 4, 52),
        (99, 5, 2),
    ] {
        let answer = loaded(0, level, &table[..length], &name);
        assert_eq!(answer, no(number), "{length} bytes at level {level}");
    }
    let table = os2(&[(0, 6)]);
    assert_eq!(loaded(0, 5, &table[..99], &name), no(2));
    assert_eq!(loaded(0, 5, &table, &name), no(52));
    // The value rules are not applied to a newer table.
    assert_eq!(loaded(0, 0, &os2(&[(0, 1), (4, 0)]), &name), no(52));
    assert_eq!(loaded(0, 1, &os2(&[(0, 1), (4, 0)]), &name), no_at(3, 1));
}

/// A 'name' table with each refusal of its own, and what that is. In those of
/// the records and tags the family can be read, and is fine.
fn bad_names() -> Vec<(Vec<u8>, Refusal)> {
    let one = [3, 1, 0x409, 1, 1, 0];
    let two = [3, 1, 0x409, 2, 1, 0];
    vec![
        (vec![0; 5], Refusal::plain(10)),
        (vec![0, 2, 0, 0, 0, 6], Refusal::plain(11)),
        (vec![0, 0, 0, 1, 0, 6], Refusal::plain(12)),
        (vec![0, 1, 0, 0, 0, 6], Refusal::plain(13)),
        (vec![0, 0, 0, 0, 0, 5], Refusal::plain(14)),
        (
            name0(&[one, [3, 1, 0x409, 2, 0, 2]], b"A"),
            Refusal::at(15, 1),
        ),
        (
            name0(&[one, [3, 1, 0x409, 2, 1, 1]], b"A"),
            Refusal::at(27, 1),
        ),
        (
            name0(&[one, [3, 1, 0x8000, 2, 1, 0]], b"A"),
            Refusal::at(18, 1),
        ),
        (name0(&[two, one], b"A"), Refusal::at(17, 1)),
        (name0(&[one, one], b"A"), Refusal::at(19, 1)),
        (name1(&[one], &[[1, 1]], b"A"), Refusal::at(16, 0)),
    ]
}

#[test]
fn the_name_refusal() {
    for (name, refusal) in bad_names() {
        assert_eq!(loaded(0, 5, &plain(), &name), Err(refusal));
    }
}

/// An 'OS/2' table with each refusal, the level it is read at, and the refusal:
/// 2, 3 with each rule, 52.
fn bad_os2s() -> Vec<(Vec<u8>, u32, Refusal)> {
    vec![
        (vec![], 5, Refusal::plain(2)),
        (vec![0; 77], 5, Refusal::plain(2)),
        (style(0, 5, 0), 5, Refusal::at(3, 1)),
        (style(400, 0, 0), 5, Refusal::at(3, 2)),
        (os2(&[(8, 1)]), 5, Refusal::at(3, 3)),
        (os2(&[(0, 4), (8, 6)]), 5, Refusal::at(3, 4)),
        (style(400, 5, 0x0400), 5, Refusal::at(3, 5)),
        (style(400, 5, 0x0060), 5, Refusal::at(3, 6)),
        (os2_version_5(1, 1), 5, Refusal::at(3, 7)),
        (os2(&[(0, 1)]), 0, Refusal::plain(52)),
        (os2(&[(0, 6)]), 5, Refusal::plain(52)),
    ]
}

#[test]
fn each_two_refusals_of_a_load_that_can_meet() {
    let fine = family(b"A");
    let long = family(&[b'x'; 65]);
    // What is said of a 'name' table: its own refusal, 20, 51.
    let mut names = bad_names();
    names.push((named(&[]), Refusal::plain(20)));
    names.push((family(b""), Refusal::plain(51)));
    names.push((long.clone(), Refusal::plain(51)));

    // 1 comes before 54, 53 and all that is said of tables.
    for slot in [0, 7, 32] {
        assert_eq!(loaded(slot, 6, &plain(), &fine), no(1));
        for (os2_table, _, _) in bad_os2s() {
            assert_eq!(loaded(slot, 6, &os2_table, &fine), no(1));
        }
        for (name, _) in &names {
            assert_eq!(loaded(slot, 6, &plain(), name), no(1));
        }
    }
    // 54 and 53 come before all that is said of tables.
    for (slot, number) in [(32, 54), (7, 53)] {
        for (os2_table, level, _) in bad_os2s() {
            assert_eq!(loaded(slot, level, &os2_table, &fine), no(number));
        }
        for (name, _) in &names {
            assert_eq!(loaded(slot, 5, &plain(), name), no(number));
        }
    }
    // The 'OS/2' refusal and 52 come before all that is said of the 'name' table.
    for (os2_table, level, refusal) in bad_os2s() {
        for (name, _) in &names {
            assert_eq!(loaded(0, level, &os2_table, name), Err(refusal));
        }
    }
    // 2 comes before 3: a table that is too short, and has weight 0.
    assert_eq!(loaded(0, 5, &style(0, 5, 0)[..77], &fine), no(2));
    // The 'name' refusal comes before 20: a fault, and no family record.
    let no_family = [
        (name0(&[[1, 0, 0, 1, 0, 1]], b""), Refusal::at(15, 0)),
        (name0(&[[1, 0, 0, 1, 1, 0]], b""), Refusal::at(27, 0)),
        (name0(&[[1, 0, 0x8000, 1, 0, 0]], b""), Refusal::at(18, 0)),
        (
            name0(&[[1, 0, 0, 2, 0, 0], [1, 0, 0, 1, 0, 0]], b""),
            Refusal::at(17, 1),
        ),
        (name0(&[[1, 0, 0, 1, 0, 0]; 2], b""), Refusal::at(19, 1)),
        (name1(&[], &[[0, 1]], b""), Refusal::at(16, 0)),
    ];
    for (name, refusal) in no_family {
        assert_eq!(loaded(0, 5, &plain(), &name), Err(refusal));
    }
    // It comes before 51: a fault, and a family that is empty or too long.
    for length in [0, 65] {
        let one = [3, 1, 0x409, 1, length, 0];
        let storage = [b'x'; 65];
        let faulty = [
            (
                name0(&[one, [3, 1, 0x409, 2, 0, 66]], &storage),
                Refusal::at(15, 1),
            ),
            (
                name0(&[one, [3, 1, 0x409, 2, 1, 65]], &storage),
                Refusal::at(27, 1),
            ),
            (
                name0(&[one, [3, 1, 0x8000, 2, 1, 0]], &storage),
                Refusal::at(18, 1),
            ),
            (
                name0(&[[3, 1, 0x409, 2, 1, 0], one], &storage),
                Refusal::at(17, 1),
            ),
            (name0(&[one, one], &storage), Refusal::at(19, 1)),
            (name1(&[one], &[[66, 0]], &storage), Refusal::at(16, 0)),
        ];
        for (name, refusal) in faulty {
            assert_eq!(loaded(0, 5, &plain(), &name), Err(refusal));
        }
    }
    // A family that is too long and passes the storage's end is 27.
    let over = name0(&[[3, 1, 0x409, 1, 65, 0]], &[b'x'; 64]);
    assert_eq!(loaded(0, 5, &plain(), &over), no_at(27, 0));
}

// ---- unloads

#[test]
fn unloads() {
    let mut rack = rack_of(&[(0, 400, 5, 0), (7, 500, 5, 0), (31, 600, 5, 0)]);
    let before = rack.clone();
    for slot in [32, 33, 256, 263, 65_536, 1 << 31, u32::MAX] {
        assert_eq!(rack.unload(slot), no(54));
    }
    for slot in [1, 6, 8, 30] {
        assert_eq!(rack.unload(slot), no(55));
    }
    assert_eq!(rack, before, "a refused unload changes no slot");
    assert_eq!(rack.unload(7), Ok(()));
    assert_eq!(rack, rack_of(&[(0, 400, 5, 0), (31, 600, 5, 0)]));
    assert_eq!(rack.unload(7), no(55));
    assert_eq!(rack.unload(31), Ok(()));
    assert_eq!(rack.unload(0), Ok(()));
    assert_eq!(rack, Rack::new());
    assert_eq!(rack.request(b"A", 400, 5, false), no(50));
}

// ---- requests

#[test]
fn families_are_equal_when_their_bytes_are() {
    let mut rack = Rack::new();
    let longest: Vec<u8> = (1..=64).collect();
    let mut last = longest.clone();
    last[63] ^= 1;
    let mut first = longest.clone();
    first[0] ^= 0x80;
    let families: [&[u8]; 9] = [
        b"A", b"B", b"AB", b"ABC", b"\0A", &longest, &last, &first, b"a",
    ];
    for (slot, text) in families.iter().enumerate() {
        let slot = slot as u32;
        assert_eq!(rack.load(slot, 5, &plain(), &family(text)), Ok(()));
    }
    for (slot, text) in families.iter().enumerate() {
        assert_eq!(rack.request(text, 400, 5, false), Ok(slot as u32));
    }
    let too_long = [&longest[..], b"\x41"].concat();
    let long = vec![b'A'; 100_000];
    for text in [
        b"",
        &b"C"[..],
        b"ABCD",
        b"A\0",
        b"\0",
        &longest[..63],
        &longest[1..],
        &too_long,
        &long,
    ] {
        assert_eq!(rack.request(text, 400, 5, false), no(50), "{text:?}");
    }
}

#[test]
fn fifty_exactly_if_no_loaded_face_has_the_family() {
    assert_eq!(Rack::new().request(b"A", 400, 5, false), no(50));
    assert_eq!(Rack::new().request(b"", 0, 0, false), no(50));
    let rack = rack_of(&[(9, 1000, 9, 1)]);
    // Whatever the numbers are, the only face is chosen.
    for weight in [0, 1, 400, 1000, 65_535, 65_536, u32::MAX] {
        for width in [0, 1, 5, 9, 10, 65_535, 65_536, u32::MAX] {
            for sloped in [false, true] {
                assert_eq!(rack.request(b"A", weight, width, sloped), Ok(9));
                assert_eq!(rack.request(b"B", weight, width, sloped), no(50));
            }
        }
    }
}

#[test]
fn slope_is_first() {
    // Slot 0 is nearer in width and weight, and lower.
    let faces = [(0, 400, 5, 0), (1, 900, 9, 1)];
    assert_eq!(chosen(&faces, 400, 5, false), 0);
    assert_eq!(chosen(&faces, 400, 5, true), 1);
    assert_eq!(chosen(&faces, 900, 9, false), 0);
    // If no face has the slope, those of the other slope are chosen from.
    let sloped = [(3, 900, 5, 1), (4, 400, 5, 1), (5, 400, 9, 1)];
    assert_eq!(chosen(&sloped, 400, 5, false), 4);
    assert_eq!(chosen(&sloped, 400, 9, false), 5);
    let upright = [(3, 900, 5, 0), (4, 400, 5, 0), (5, 400, 9, 0)];
    assert_eq!(chosen(&upright, 900, 5, true), 3);
}

#[test]
fn width_difference_is_second() {
    // Slot 0 is nearer in weight, lighter and lower.
    let faces = [(0, 400, 3, 0), (1, 900, 4, 0)];
    assert_eq!(chosen(&faces, 400, 4, false), 1);
    assert_eq!(chosen(&faces, 400, 5, false), 1);
    assert_eq!(chosen(&faces, 400, 3, false), 0);
    assert_eq!(chosen(&faces, 900, 2, false), 0);
    // 4 and 6 are equally near 5, so the weight decides, or the slot.
    let around = [(0, 300, 4, 0), (1, 400, 6, 0)];
    assert_eq!(chosen(&around, 400, 5, false), 1);
    assert_eq!(chosen(&around, 300, 5, false), 0);
    assert_eq!(chosen(&[(2, 400, 6, 0), (3, 400, 4, 0)], 400, 5, false), 2);
    assert_eq!(chosen(&[(2, 400, 4, 0), (3, 400, 6, 0)], 400, 5, false), 2);
    // 1 and 9 are equally near 5 too, and farther than 2.
    let ends = [(0, 400, 1, 0), (1, 400, 9, 0), (2, 400, 2, 0)];
    assert_eq!(chosen(&ends, 400, 5, false), 2);
    assert_eq!(chosen(&ends[..2], 400, 5, false), 0);
}

#[test]
fn weight_difference_is_third() {
    let faces = [(0, 300, 5, 0), (1, 500, 5, 0)];
    assert_eq!(chosen(&faces, 399, 5, false), 0);
    assert_eq!(chosen(&faces, 401, 5, false), 1);
    // The lower weight, whichever slot it is in.
    assert_eq!(chosen(&faces, 400, 5, false), 0);
    assert_eq!(chosen(&[(0, 500, 5, 0), (1, 300, 5, 0)], 400, 5, false), 1);
    // A difference of 1 decides.
    let near = [(0, 399, 5, 0), (1, 402, 5, 0)];
    assert_eq!(chosen(&near, 400, 5, false), 0);
    assert_eq!(chosen(&near, 401, 5, false), 1);
    // The lower weight is not chosen where it is farther away.
    assert_eq!(chosen(&[(0, 1, 5, 0), (1, 1000, 5, 0)], 501, 5, false), 1);
    assert_eq!(chosen(&[(0, 1, 5, 0), (1, 1000, 5, 0)], 500, 5, false), 0);
}

#[test]
fn the_lower_slot_is_last() {
    for (lower, higher) in [(0, 1), (0, 31), (30, 31), (7, 8), (2, 10)] {
        let faces = [(higher, 400, 5, 0), (lower, 400, 5, 0)];
        assert_eq!(chosen(&faces, 400, 5, false), lower);
        assert_eq!(chosen(&faces, 700, 2, true), lower);
    }
    // The same weight on either side of the width that is wanted.
    assert_eq!(chosen(&[(9, 400, 6, 0), (8, 400, 4, 0)], 1, 5, false), 8);
    // Of three the one with the lower weight, then with the lower slot.
    let three = [(1, 500, 5, 0), (2, 300, 5, 0), (3, 300, 5, 0)];
    assert_eq!(chosen(&three, 400, 5, false), 2);
}

#[test]
fn numbers_beyond_what_a_face_has() {
    let faces = [(0, 1000, 9, 0), (1, 1, 1, 0)];
    assert_eq!(chosen(&faces, 0, 0, false), 1);
    for far in [10, 65_535, 65_536, 65_537, 1 << 31, u32::MAX - 1, u32::MAX] {
        assert_eq!(chosen(&faces, 1, far, false), 0, "{far}");
    }
    let weights = [(0, 1000, 5, 0), (1, 1, 5, 0)];
    assert_eq!(chosen(&weights, 0, 5, false), 1);
    for far in [1001, 65_535, 65_536, 65_537, 1 << 31, u32::MAX] {
        assert_eq!(chosen(&weights, far, 5, false), 0, "{far}");
    }
    // Two widths that are far from the one wanted are not equally far.
    let widths = [(0, 400, 8, 0), (1, 400, 9, 0)];
    assert_eq!(chosen(&widths, 400, u32::MAX, false), 1);
    assert_eq!(chosen(&widths, 400, 0, false), 0);
}

/// Every face of a small set in every two slots, held against the order put
/// into words: of two faces the first difference that counts decides.
#[test]
fn every_two_faces() {
    let mut faces = Vec::new();
    for weight in [399, 400, 401, 500] {
        for width in [4, 5, 6] {
            faces.extend([(weight, width, 0), (weight, width, 1)]);
        }
    }
    for first in &faces {
        for second in &faces {
            let rack = rack_of(&[
                (4, first.0, first.1, first.2),
                (11, second.0, second.1, second.2),
            ]);
            for &(weight, width, slope) in &faces {
                let far = |face: &(u16, u16, u16)| {
                    (
                        (face.2 as i32 - slope as i32).abs(),
                        (face.1 as i32 - width as i32).abs(),
                        (face.0 as i32 - weight as i32).abs(),
                        face.0,
                    )
                };
                let slot = if far(second) < far(first) { 11 } else { 4 };
                let answer = rack.request(b"A", weight.into(), width.into(), slope == 1);
                assert_eq!(answer, Ok(slot));
            }
        }
    }
}

#[test]
fn a_request_changes_no_slot() {
    let rack = rack_of(&[(0, 400, 5, 0), (1, 700, 5, 1)]);
    let before = rack.clone();
    let _ = rack.request(b"A", 700, 5, true);
    let _ = rack.request(b"B", 700, 5, true);
    assert_eq!(rack, before);
}
