//! Cutting tables out of font files.

mod common;

use common::*;
use second::{listing, sfnt};

/// A font file of these tables, with its header `start` bytes into the file.
fn font(form: &[u8; 4], start: usize, tables: &[(&[u8; 4], &[u8])]) -> Vec<u8> {
    let mut header = form.to_vec();
    header.extend(words(&[tables.len() as u16, 0, 0, 0]));
    let mut body = Vec::new();
    let body_start = start + 12 + 16 * tables.len();
    for (tag, bytes) in tables {
        header.extend(*tag);
        header.extend([0; 4]);
        header.extend(((body_start + body.len()) as u32).to_be_bytes());
        header.extend((bytes.len() as u32).to_be_bytes());
        body.extend_from_slice(bytes);
        while body.len() % 4 != 0 {
            body.push(0xEE);
        }
    }
    header.extend(body);
    header
}

const FORMS: [&[u8; 4]; 4] = [b"\x00\x01\x00\x00", b"OTTO", b"true", b"typ1"];

#[test]
fn single_fonts() {
    let name = [0, 0, 0, 0, 0, 6, 1];
    let os2 = os2(&[]);
    for form in FORMS {
        let file = font(
            form,
            0,
            &[(b"OS/2", &os2), (b"cmap", &[1]), (b"name", &name)],
        );
        assert_eq!(sfnt::name(&file), Some(&name[..]));
        assert_eq!(sfnt::os2(&file), Some(&os2[..]));
        assert_eq!(sfnt::table(&file, *b"cmap"), Some(&[1][..]));
        assert_eq!(sfnt::table(&file, *b"head"), None);
        assert_eq!(sfnt::fonts(&file), 1);
        assert_eq!(sfnt::table_of(&file, 0, *b"cmap"), Some(&[1][..]));
        assert_eq!(sfnt::table_of(&file, 1, *b"cmap"), None);
        let lines = listing::font(5, &file);
        assert_eq!(lines, listing::name(&name) + &listing::os2(5, &os2));
    }
    let file = font(b"wOFF", 0, &[(b"OS/2", &os2)]);
    assert_eq!(sfnt::os2(&file), None);
    assert_eq!(sfnt::fonts(&file), 0);
    assert_eq!(sfnt::fonts(&[]), 0);
}

#[test]
fn collections_give_their_first_font() {
    let name = [0, 0, 0, 0, 0, 6];
    let other = [0, 0, 0, 0, 0, 6, 9];
    let mut file = b"ttcf".to_vec();
    file.extend(words(&[1, 0, 0, 2]));
    file.extend(20_u32.to_be_bytes());
    file.extend(0_u32.to_be_bytes());
    let first = font(FORMS[0], 20, &[(b"name", &name)]);
    let second_start = (20 + first.len()) as u32;
    file[16..20].copy_from_slice(&second_start.to_be_bytes());
    file.extend(first);
    file.extend(font(FORMS[1], file.len(), &[(b"name", &other)]));
    assert_eq!(sfnt::name(&file), Some(&name[..]));
    assert_eq!(sfnt::os2(&file), None);
    // Each font by its number.
    assert_eq!(sfnt::fonts(&file), 2);
    assert_eq!(sfnt::table_of(&file, 0, *b"name"), Some(&name[..]));
    assert_eq!(sfnt::table_of(&file, 1, *b"name"), Some(&other[..]));
    assert_eq!(sfnt::table_of(&file, 2, *b"name"), None);
    // Fonts taken in the other order.
    file[12..16].copy_from_slice(&second_start.to_be_bytes());
    assert_eq!(sfnt::name(&file), Some(&other[..]));
    // A collection of no fonts, and one that points at itself.
    let mut none = file.clone();
    none[11] = 0;
    assert_eq!(sfnt::name(&none), None);
    assert_eq!(sfnt::fonts(&none), 0);
    // More fonts than the file has offsets for.
    none[8..12].fill(0xFF);
    assert_eq!(sfnt::fonts(&none), (none.len() - 12) / 4);
    assert_eq!(sfnt::table_of(&none, usize::MAX, *b"name"), None);
    file[12..16].copy_from_slice(&[0; 4]);
    assert_eq!(sfnt::name(&file), None);
}

#[test]
fn tables_that_are_not_there() {
    let file = font(FORMS[0], 0, &[(b"name", &[0, 0, 0, 0, 0, 6])]);
    assert_eq!(sfnt::os2(&file), None);
    assert_eq!(
        listing::font(5, &file),
        "name format 0 records 0 storage 0\n\
         postscript refused 21\n\
         version refused 20\n\
         no OS/2 table\n"
    );
    assert_eq!(listing::font(5, &[]), "no name table\nno OS/2 table\n");
    // No cut of the file gives a cut table.
    for length in 0..file.len() {
        let cut = sfnt::name(&file[..length]);
        assert!(cut.is_none() || cut == sfnt::name(&file));
    }
    let last = 12 + 16 + 6;
    assert!(sfnt::name(&file[..last]).is_some());
    assert!(sfnt::name(&file[..last - 1]).is_none());
    // Offsets and lengths near the largest number.
    let mut wild = file.clone();
    wild[20..28].fill(0xFF);
    assert_eq!(sfnt::name(&wild), None);
    // The empty table at the file's end is there.
    let mut empty = file;
    let end = (empty.len() as u32).to_be_bytes();
    empty[20..24].copy_from_slice(&end);
    empty[24..28].fill(0);
    assert_eq!(sfnt::name(&empty), Some(&[][..]));
}
