//! The listing's lines.

mod common;

use common::*;
use second::listing;

/// The table of document 01's example.
fn example() -> Vec<u8> {
    name0(
        &[[1, 0, 0, 6, 2, 0], [3, 1, 0x409, 6, 4, 2]],
        &[0x41, 0x62, 0x00, 0x41, 0x00, 0x62],
    )
}

#[test]
fn example_of_the_document() {
    assert_eq!(
        listing::name(&example()),
        "name format 0 records 2 storage 6\n\
         0 1 0 0 6 0 2\n\
         1 3 1 1033 6 2 4\n\
         postscript Ab record 0\n\
         version refused 20\n"
    );
}

#[test]
fn refused_tables() {
    // Both keys (1, 0, 0, 6).
    let table = name0(
        &[[1, 0, 0, 6, 2, 0], [1, 0, 0, 6, 4, 2]],
        &[0x41, 0x62, 0x00, 0x41, 0x00, 0x62],
    );
    assert_eq!(listing::name(&table), "refused 19 at 1\n");
    let table = name0(&[[1, 0, 0, 6, 0, 0], [1, 0, 0, 5, 0, 0]], &[]);
    assert_eq!(listing::name(&table), "refused 17 at 1\n");
    assert_eq!(listing::name(&words(&[2, 0, 6])), "refused 11\n");
    assert_eq!(listing::name(&[]), "refused 10\n");
    assert_eq!(listing::name(&words(&[0, 1, 6])), "refused 12\n");
    assert_eq!(listing::name(&words(&[1, 0, 6])), "refused 13\n");
    assert_eq!(listing::name(&words(&[0, 0, 5])), "refused 14\n");
    let table = name0(&[[0, 0, 0, 0, 1, 0]], &[]);
    assert_eq!(listing::name(&table), "refused 27 at 0\n");
    let table = name0(&[[0; 6], [0, 0, 0, 1, 0, 1]], &[]);
    assert_eq!(listing::name(&table), "refused 15 at 1\n");
    let table = name1(&[], &[[0, 0], [1, 0]], &[]);
    assert_eq!(listing::name(&table), "refused 16 at 1\n");
    let table = name0(&[[0, 0, 0x8000, 0, 0, 0]], &[]);
    assert_eq!(listing::name(&table), "refused 18 at 0\n");
}

#[test]
fn empty_table() {
    assert_eq!(
        listing::name(&[0, 0, 0, 0, 0, 6]),
        "name format 0 records 0 storage 0\n\
         postscript refused 21\n\
         version refused 20\n"
    );
}

#[test]
fn format_1_lists_no_tags() {
    let table = name1(&[[3, 1, 0x8001, 5, 3, 1]], &[[1, 0], [0, 4]], b"abcd");
    assert_eq!(
        listing::name(&table),
        "name format 1 records 1 storage 4\n\
         0 3 1 32769 5 1 3\n\
         postscript refused 21\n\
         version refused 20\n"
    );
}

#[test]
fn version_and_postscript_lines() {
    let table = named(&[
        ((1, 0, 0, 5), b"Version 1.70000 2.5"),
        ((1, 0, 0, 6), b"Ab"),
    ]);
    assert_eq!(
        listing::name(&table),
        "name format 0 records 2 storage 21\n\
         0 1 0 0 5 0 19\n\
         1 1 0 0 6 19 2\n\
         postscript refused 22\n\
         version 2 5 record 0\n"
    );
    let end = |strings: &[Named]| {
        let lines = listing::name(&named(strings));
        let lines: Vec<&str> = lines.lines().rev().take(2).collect();
        format!("{}|{}", lines[1], lines[0])
    };
    let ps =
        |first: &[u8], second: &[u8]| end(&[((1, 0, 0, 6), first), ((3, 1, 0x409, 6), second)]);
    assert_eq!(ps(b"A", b"A"), "postscript refused 23|version refused 20");
    assert_eq!(
        ps(b"A", &wide("B")),
        "postscript refused 24|version refused 20"
    );
    assert_eq!(
        end(&[((1, 0, 0, 5), b"none")]),
        "postscript refused 21|version refused 25"
    );
    // All 84 characters, in two names.
    let all: String = (33..=126)
        .map(char::from)
        .filter(|c| !"[](){}<>/%".contains(*c))
        .collect();
    assert_eq!(all.len(), 84);
    for text in [&all[..42], &all[42..]] {
        assert_eq!(
            ps(text.as_bytes(), &wide(text)),
            format!("postscript {text} record 0|version refused 20")
        );
    }
}

/// The numbers are those that stand at the front of the records' lines.
#[test]
fn the_lines_of_the_records_that_were_used() {
    let both = named(&[
        ((0, 3, 0, 6), b"Cd"),
        ((1, 0, 0, 5), b"1.2"),
        ((1, 0, 0, 6), b"Ab"),
        ((3, 1, 0x409, 4), b""),
        ((3, 1, 0x409, 5), &wide("2.5")),
        ((3, 1, 0x409, 6), &wide("Ab")),
    ]);
    assert_eq!(
        listing::name(&both),
        "name format 0 records 6 storage 17\n\
         0 0 3 0 6 0 2\n\
         1 1 0 0 5 2 3\n\
         2 1 0 0 6 5 2\n\
         3 3 1 1033 4 7 0\n\
         4 3 1 1033 5 7 6\n\
         5 3 1 1033 6 13 4\n\
         postscript Ab record 2\n\
         version 2 5 record 4\n"
    );
    // The version of platform 1, and numbers of two digits: ten records before.
    let mut strings: Vec<Named> = (0..10).map(|n| ((0, 3, 0, n), &b"x"[..])).collect();
    let second = wide("Ab");
    strings.extend([
        ((1, 0, 0, 5), &b"v 0.07"[..]),
        ((1, 0, 0, 6), b"Ab"),
        ((3, 1, 0x409, 6), &second),
    ]);
    let lines = listing::name(&named(&strings));
    assert!(lines.contains("\n10 1 0 0 5 10 6\n11 1 0 0 6 16 2\n12 3 1 1033 6 18 4\n"));
    assert!(lines.ends_with("\npostscript Ab record 11\nversion 0 7 record 10\n"));
}

#[test]
fn too_long() {
    let mut table = example();
    table.resize(65_536, 0);
    assert!(listing::name(&table).starts_with("name format 0 records 2 storage 65506\n"));
    table.push(0);
    assert_eq!(listing::name(&table), "too long\n");
    // Before any refusal.
    assert_eq!(listing::name(&[0xFF; 65_537]), "too long\n");
    assert_eq!(listing::name(&[0xFF; 65_536]), "refused 11\n");
}

#[test]
fn os2_lines() {
    let mut table = os2(&[(0, 5), (2, 0xFFFF), (8, 4), (96, 0), (98, 1)]);
    let lines = listing::os2(5, &table);
    let lines: Vec<&str> = lines.lines().collect();
    assert_eq!(lines.len(), 51);
    assert_eq!(lines[0], "0 5");
    assert_eq!(lines[1], "1 -1");
    assert_eq!(lines[2], "2 400");
    assert_eq!(lines[47], "47 1");
    assert_eq!(lines[48], "rights preview");
    assert_eq!(lines[49], "style position 400 100");
    assert_eq!(lines[50], "optical sizes between 0 and 0.05");

    let lines = listing::os2(1, &table);
    let lines: Vec<&str> = lines.lines().collect();
    assert_eq!(lines[39], "39 0");
    assert_eq!(lines[41], "41 not known");
    assert_eq!(lines[47], "47 not known");
    assert_eq!(lines[48], "rights not known");
    assert_eq!(lines[49], "style position not known");
    assert_eq!(lines[50], "optical sizes not known");

    put(&mut table, 98, 65_535);
    assert!(listing::os2(5, &table).ends_with("\noptical sizes every size\n"));
    put(&mut table, 96, 30);
    assert!(listing::os2(5, &table).ends_with("\noptical sizes from 1.5 upwards\n"));

    let lines = listing::os2(5, &os2(&[(6, 2)]));
    assert!(lines.contains("\n38 0\n39 absent\n"));
    assert!(lines.ends_with(
        "47 absent\nrights installable\nstyle position 400 62.5\noptical sizes absent\n"
    ));
}

#[test]
fn os2_refused_lines() {
    assert_eq!(listing::os2(6, &os2(&[])), "refused 1\n");
    assert_eq!(listing::os2(5, &[]), "refused 2\n");
    assert_eq!(listing::os2(5, &os2(&[(6, 0)])), "refused 3 at 2\n");
}

// ---- the compare tool ----

#[test]
fn compare_os2_lines() {
    let left = os2(&[(0, 4), (2, 0xFF9C)]);
    let right = os2(&[(0, 5), (2, 500), (4, 700), (96, 160), (98, 320)]);
    assert_eq!(
        listing::compare_os2(5, &left, &right),
        "0 4 5\n1 -100 500\n2 400 700\n46 absent 160\n47 absent 320\n"
    );
    assert_eq!(
        listing::compare_os2(5, &right, &left),
        "0 5 4\n1 500 -100\n2 700 400\n46 160 absent\n47 320 absent\n"
    );
    assert_eq!(
        listing::compare_os2(4, &left, &right),
        "0 4 5\n1 -100 500\n2 400 700\n"
    );
    assert_eq!(listing::compare_os2(5, &left, &left), "");
    assert_eq!(
        listing::compare_os2(5, &os2(&[]), &os2(&[(0, 1)])),
        "0 0 1\n39 absent 0\n40 absent 0\n"
    );
}

#[test]
fn compare_name_lines() {
    let left = named(&[
        ((1, 0, 0, 6), b"Ab"),
        ((3, 1, 1033, 4), b"x"),
        ((3, 1, 1033, 5), b"y"),
    ]);
    let right = named(&[
        ((3, 1, 1033, 4), b"z"),
        ((3, 1, 1033, 5), b"y"),
        ((3, 1, 1033, 6), b"Ab"),
    ]);
    assert_eq!(
        listing::compare_name(&left, &right),
        "left 1 0 0 6\nboth 3 1 1033 4\nright 3 1 1033 6\n"
    );
    assert_eq!(
        listing::compare_name(&right, &left),
        "right 1 0 0 6\nboth 3 1 1033 4\nleft 3 1 1033 6\n"
    );
    assert_eq!(listing::compare_name(&left, &left), "");
}

#[test]
fn compare_refusal_lines() {
    let fine = os2(&[]);
    let light = os2(&[(4, 0)]);
    assert_eq!(listing::compare_os2(6, &light, &[]), "refused 1\n");
    assert_eq!(
        listing::compare_os2(5, &light, &[]),
        "left refused 3 at 1\n"
    );
    assert_eq!(listing::compare_os2(5, &[], &light), "left refused 2\n");
    assert_eq!(listing::compare_os2(5, &fine, &[]), "right refused 2\n");
    assert_eq!(
        listing::compare_os2(5, &fine, &light),
        "right refused 3 at 1\n"
    );

    let fine = [0, 0, 0, 0, 0, 6];
    let format_2 = [0, 2, 0, 0, 0, 6];
    let twice = name0(&[[1, 0, 0, 6, 0, 0]; 2], &[]);
    let falling = name0(&[[1, 0, 0, 6, 0, 0], [1, 0, 0, 5, 0, 0]], &[]);
    let over = name0(&[[1, 0, 0, 6, 2, 0]], b"A");
    let beyond = name0(&[[1, 0, 0, 6, 0, 2]], b"A");
    assert_eq!(
        listing::compare_name(&twice, &format_2),
        "left refused 19 at 1\n"
    );
    assert_eq!(
        listing::compare_name(&falling, &twice),
        "left refused 17 at 1\n"
    );
    assert_eq!(
        listing::compare_name(&over, &beyond),
        "left refused 27 at 0\n"
    );
    assert_eq!(
        listing::compare_name(&beyond, &over),
        "left refused 15 at 0\n"
    );
    assert_eq!(
        listing::compare_name(&fine, &over),
        "right refused 27 at 0\n"
    );
    assert_eq!(
        listing::compare_name(&fine, &beyond),
        "right refused 15 at 0\n"
    );
    assert_eq!(
        listing::compare_name(&format_2, &twice),
        "left refused 11\n"
    );
    assert_eq!(
        listing::compare_name(&fine, &twice),
        "right refused 19 at 1\n"
    );
    assert_eq!(
        listing::compare_name(&fine, &format_2),
        "right refused 11\n"
    );
}

#[test]
fn compare_too_long() {
    let fine = os2(&[]);
    let mut longest = os2(&[(4, 401)]);
    longest.resize(65_536, 0xFF);
    let mut longer = longest.clone();
    longer.push(0xFF);
    let light = os2(&[(4, 0)]);
    for level in 0..=5 {
        let of = |left: &[u8], right: &[u8]| listing::compare_os2(level, left, right);
        assert_eq!(of(&fine, &longest), "2 400 401\n");
        assert_eq!(of(&longest, &fine), "2 401 400\n");
        assert_eq!(of(&longer, &fine), "left too long\n");
        assert_eq!(of(&fine, &longer), "right too long\n");
        assert_eq!(of(&longer, &longer), "left too long\n");
        assert_eq!(of(&longer, &light), "left too long\n");
        assert_eq!(of(&light, &longer), "left refused 3 at 1\n");
    }
    assert_eq!(listing::compare_os2(6, &longer, &longer), "refused 1\n");

    let fine = [0, 0, 0, 0, 0, 6];
    let format_2 = [0, 2, 0, 0, 0, 6];
    let mut longest = fine.to_vec();
    longest.resize(65_536, 0xFF);
    let mut longer = longest.clone();
    longer.push(0xFF);
    let of = listing::compare_name;
    assert_eq!(of(&fine, &longest), "");
    assert_eq!(of(&longest, &fine), "");
    assert_eq!(of(&longer, &fine), "left too long\n");
    assert_eq!(of(&fine, &longer), "right too long\n");
    assert_eq!(of(&longer, &format_2), "left too long\n");
    assert_eq!(of(&format_2, &longer), "left refused 11\n");
    // A table that is too long is not looked into.
    longer[1] = 2;
    assert_eq!(of(&longer, &fine), "left too long\n");
    assert_eq!(of(&fine, &longer), "right too long\n");
}
