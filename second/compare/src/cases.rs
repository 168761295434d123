//! Comparisons of two tables with the rows that follow from the words of document 02's Ask 2, and the refusals with Ask 3's
//! numbers, written down by hand.

use crate::ask::{Amount, Asker, Difference};
use crate::make::Made;
use crate::numbers::Numbers;
use crate::pair::{Of, Pair, Row};
use crate::question::{shown, Words};
use crate::rows::{name, os2, refused, refused_at};

/// A case: its words, two tables, how many numbers of room are lent, and what is answered and written.
pub struct Case {
    pub words: &'static str,
    of: Of,
    left: Vec<u8>,
    right: Vec<u8>,
    numbers: usize,
    answer: Words,
    rows: Vec<Row>,
}

impl Case {
    /// The case's tables.
    pub fn made(&self) -> Made {
        let (left, right) = (self.left.clone(), self.right.clone());
        match self.of {
            Of::Os2(_) => Made::Os2Pair(left, right),
            Of::Name => Made::NamePair(left, right),
        }
    }
}

/// Compares the tables of one case, first with its room, then with every room.
pub fn ask(asker: &mut Asker, case: &Case) -> Result<(), Difference> {
    let pair = Pair {
        of: case.of,
        left: &case.left,
        right: &case.right,
    };
    let (words, rows) = asker.compare(pair, case.numbers, 1)?;
    if words != case.answer || rows != case.rows {
        let function = pair.function();
        return Err(Difference(format!(
            "{pair}: the sides agree, but the papers say otherwise\n  papers:    {} {:?}\n  all sides: {} {:?}\n",
            shown(function, case.answer),
            case.rows,
            shown(function, words),
            rows
        )));
    }
    asker.pair(pair, Amount::Everything, &mut Numbers::new(1))
}

const LEFT: u64 = 1;
const RIGHT: u64 = 2;

/// So many rows are written.
fn wrote(rows: u64) -> Words {
    [0, 0, 0, 0, rows, 0, 0]
}

/// A table's refusal, with its side.
fn on(side: u64, mut refusal: Words) -> Words {
    refusal[3] = side;
    refusal
}

const WEIGHT: usize = 4;
const FS_TYPE: usize = 8;
const FS_SELECTION: usize = 62;

/// The cases: OS/2 tables, then 'name' tables.
pub fn cases() -> Vec<Case> {
    let mut cases = Vec::new();
    os2_cases(&mut |words, level, left, right, numbers, answer, rows| {
        cases.push(Case {
            words,
            of: Of::Os2(level),
            left: left.to_vec(),
            right: right.to_vec(),
            numbers,
            answer,
            rows: rows.to_vec(),
        });
    });
    name_cases(&mut |words, left, right, numbers, answer, rows| {
        cases.push(Case {
            words,
            of: Of::Name,
            left: left.to_vec(),
            right: right.to_vec(),
            numbers,
            answer,
            rows: rows.to_vec(),
        });
    });
    cases
}

/// Takes the words, the level, both tables, the room, the answer and the rows.
type Os2Case<'a> = &'a mut dyn FnMut(&'static str, u32, &[u8], &[u8], usize, Words, &[Row]);

fn os2_cases(case: Os2Case) {
    let plain = os2(0, 78, &[]);
    let bold = os2(0, 78, &[(WEIGHT, 700)]);
    case(
        "weights 400 and 700",
        5,
        &plain,
        &bold,
        240,
        wrote(1),
        &[[2, 1, 400, 1, 700]],
    );
    case(
        "weights 700 and 400, at level 0",
        0,
        &bold,
        &plain,
        5,
        wrote(1),
        &[[2, 1, 700, 1, 400]],
    );
    case("equal tables", 5, &plain, &plain, 240, wrote(0), &[]);
    case("equal tables, no room", 3, &plain, &plain, 0, wrote(0), &[]);
    case(
        "equal tables, four numbers of room",
        3,
        &bold,
        &bold,
        4,
        wrote(0),
        &[],
    );
    case(
        "one difference, no room",
        5,
        &plain,
        &bold,
        0,
        refused(29),
        &[],
    );
    case(
        "one difference, four numbers of room",
        5,
        &plain,
        &bold,
        4,
        refused(29),
        &[],
    );
    case(
        "one difference, nine numbers of room",
        5,
        &plain,
        &bold,
        9,
        wrote(1),
        &[[2, 1, 400, 1, 700]],
    );

    let version_1 = os2(1, 86, &[]);
    case(
        "absent is not 0: version 0 against version 1 with no code pages set",
        5,
        &plain,
        &version_1,
        15,
        wrote(3),
        &[[0, 1, 0, 1, 1], [39, 2, 0, 1, 0], [40, 2, 0, 1, 0]],
    );
    case(
        "the same with the sides exchanged",
        1,
        &version_1,
        &plain,
        15,
        wrote(3),
        &[[0, 1, 1, 1, 0], [39, 1, 0, 2, 0], [40, 1, 0, 2, 0]],
    );
    case(
        "the same at level 0, which knows no code pages",
        0,
        &version_1,
        &plain,
        15,
        wrote(1),
        &[[0, 1, 1, 1, 0]],
    );
    case(
        "the same with one row too few",
        5,
        &plain,
        &version_1,
        14,
        refused(29),
        &[],
    );

    let version_4 = os2(4, 96, &[]);
    let version_5 = os2(5, 100, &[(96, 160), (98, 320)]);
    case(
        "version 4 against version 5 with optical sizes 160 and 320",
        5,
        &version_4,
        &version_5,
        17,
        wrote(3),
        &[[0, 1, 4, 1, 5], [46, 2, 0, 1, 160], [47, 2, 0, 1, 320]],
    );
    case(
        "the same at level 4: optical sizes are not known on both sides",
        4,
        &version_4,
        &version_5,
        17,
        wrote(1),
        &[[0, 1, 4, 1, 5]],
    );
    case(
        "version 6 of 0 in all later fields against version 0: no rules are asked of it",
        5,
        &os2(6, 100, &[]),
        &plain,
        50,
        wrote(10),
        &[
            [0, 1, 6, 1, 0],
            [39, 1, 0, 2, 0],
            [40, 1, 0, 2, 0],
            [41, 1, 0, 2, 0],
            [42, 1, 0, 2, 0],
            [43, 1, 0, 2, 0],
            [44, 1, 0, 2, 0],
            [45, 1, 0, 2, 0],
            [46, 1, 0, 2, 0],
            [47, 1, 0, 2, 0],
        ],
    );
    case(
        "signed fields: average width -1 and 1, family class -32768, x height -500 and 500",
        2,
        &os2(2, 96, &[(2, 0xFFFF), (30, 0x8000), (86, 0xFE0C)]),
        &os2(2, 96, &[(2, 1), (86, 500)]),
        16,
        wrote(3),
        &[
            [1, 1, -1, 1, 1],
            [15, 1, -32_768, 1, 0],
            [41, 1, -500, 1, 500],
        ],
    );
    case(
        "unsigned fields: a Unicode range, the vendor, PANOSE, win ascent",
        5,
        &os2(
            0,
            78,
            &[
                (32, 0x0002),
                (42, 0x8000),
                (58, 0x4142),
                (60, 0x4344),
                (74, 0xFFFF),
            ],
        ),
        &os2(
            0,
            78,
            &[(32, 0xFF02), (58, 0x4142), (60, 0x4345), (74, 0x7FFF)],
        ),
        20,
        wrote(4),
        &[
            [16, 1, 0, 1, 255],
            [26, 1, 2_147_483_648, 1, 0],
            [30, 1, 1_094_861_636, 1, 1_094_861_637],
            [37, 1, 65_535, 1, 32_767],
        ],
    );
    case(
        "bytes behind a version 0 table are not read",
        5,
        &plain,
        &os2(0, 100, &[(78, 0xFFFF), (86, 0xFFFF), (98, 0xFFFF)]),
        0,
        wrote(0),
        &[],
    );
    case(
        "Ask 1: version 2 with fsType 12 and 8",
        5,
        &os2(2, 96, &[(FS_TYPE, 12)]),
        &os2(2, 96, &[(FS_TYPE, 8)]),
        5,
        wrote(1),
        &[[4, 1, 12, 1, 8]],
    );

    let selection = os2(3, 96, &[(FS_SELECTION, 0x0080)]);
    let without = os2(3, 96, &[]);
    case(
        "version 3, fsSelection 0x0080 on the left: 3 (rule 5) at level 3",
        3,
        &selection,
        &without,
        5,
        on(LEFT, refused_at(3, 5)),
        &[],
    );
    case(
        "on the right: 3 (rule 5) at level 4",
        4,
        &without,
        &selection,
        0,
        on(RIGHT, refused_at(3, 5)),
        &[],
    );
    case(
        "and at level 2 a difference",
        2,
        &without,
        &selection,
        5,
        wrote(1),
        &[[31, 1, 0, 1, 128]],
    );

    let short = &plain[..77];
    let light = os2(0, 78, &[(WEIGHT, 0)]);
    case(
        "left of 77 bytes",
        5,
        short,
        &plain,
        5,
        on(LEFT, refused(2)),
        &[],
    );
    case(
        "right of 77 bytes",
        0,
        &plain,
        short,
        5,
        on(RIGHT, refused(2)),
        &[],
    );
    case(
        "both refused: the left's 2",
        5,
        short,
        &light,
        5,
        on(LEFT, refused(2)),
        &[],
    );
    case(
        "both refused: the left's 3 (rule 1)",
        5,
        &light,
        short,
        5,
        on(LEFT, refused_at(3, 1)),
        &[],
    );
    case(
        "the right's refusal comes before 29",
        5,
        &bold,
        &light,
        0,
        on(RIGHT, refused_at(3, 1)),
        &[],
    );
    case(
        "level 6 comes before both tables' refusals, and has no side",
        6,
        short,
        &light,
        0,
        refused(1),
        &[],
    );
    case(
        "level 4294967295",
        u32::MAX,
        &plain,
        &bold,
        5,
        refused(1),
        &[],
    );
    case(
        "level 261, which is 5 in its low byte",
        261,
        &plain,
        &bold,
        5,
        refused(1),
        &[],
    );
    case(
        "version 5 with 96 bytes on the right: 2 at level 5",
        5,
        &version_4,
        &os2(5, 96, &[]),
        5,
        on(RIGHT, refused(2)),
        &[],
    );
    case(
        "and a difference at level 4",
        4,
        &version_4,
        &os2(5, 96, &[]),
        5,
        wrote(1),
        &[[0, 1, 4, 1, 5]],
    );
}

/// Takes the words, both tables, the room, the answer and the rows.
type NameCase<'a> = &'a mut dyn FnMut(&'static str, &[u8], &[u8], usize, Words, &[Row]);

fn name_cases(case: NameCase) {
    let empty = [0, 0, 0, 0, 0, 6];
    // The records are platform, encoding, language, name, length, offset.
    let macintosh = name(&[[1, 0, 0, 6, 2, 0]], b"Ab");
    let windows = name(&[[3, 1, 1033, 6, 2, 0]], b"Ab");
    case(
        "two empty tables, no room",
        &empty,
        &empty,
        0,
        wrote(0),
        &[],
    );
    case(
        "a key only on the left and a key only on the right",
        &macintosh,
        &windows,
        10,
        wrote(2),
        &[[1, 0, 0, 6, 1], [3, 1, 1033, 6, 2]],
    );
    case(
        "the same with the sides exchanged",
        &windows,
        &macintosh,
        12,
        wrote(2),
        &[[1, 0, 0, 6, 2], [3, 1, 1033, 6, 1]],
    );
    case(
        "the same with one row too few",
        &windows,
        &macintosh,
        9,
        refused(29),
        &[],
    );
    case(
        "against the empty table",
        &macintosh,
        &empty,
        5,
        wrote(1),
        &[[1, 0, 0, 6, 1]],
    );
    case(
        "the empty table against another",
        &empty,
        &macintosh,
        5,
        wrote(1),
        &[[1, 0, 0, 6, 2]],
    );
    case(
        "one difference, four numbers of room",
        &empty,
        &macintosh,
        4,
        refused(29),
        &[],
    );
    case(
        "all three kinds in one order of keys",
        &name(
            &[
                [0, 3, 0, 4, 1, 0],
                [1, 0, 0, 6, 1, 0],
                [3, 1, 1033, 4, 1, 0],
                [3, 1, 1033, 6, 1, 1],
            ],
            b"ab",
        ),
        &name(
            &[
                [0, 3, 0, 1, 1, 0],
                [1, 0, 0, 6, 1, 1],
                [3, 1, 1033, 6, 1, 0],
                [3, 1, 1034, 1, 1, 0],
            ],
            b"ab",
        ),
        30,
        wrote(6),
        &[
            [0, 3, 0, 1, 2],
            [0, 3, 0, 4, 1],
            [1, 0, 0, 6, 3],
            [3, 1, 1033, 4, 1],
            [3, 1, 1033, 6, 3],
            [3, 1, 1034, 1, 2],
        ],
    );
    case(
        "the same bytes at other offsets and in other records",
        &name(&[[1, 0, 0, 1, 2, 0], [1, 0, 0, 2, 2, 2]], b"abcd"),
        &name(
            &[[0, 0, 0, 0, 0, 0], [1, 0, 0, 1, 2, 2], [1, 0, 0, 2, 2, 0]],
            b"cdab",
        ),
        5,
        wrote(1),
        &[[0, 0, 0, 0, 2]],
    );
    case(
        "the same place, but another storage",
        &name(&[[1, 0, 0, 1, 2, 0]], b"ab"),
        &name(&[[1, 0, 0, 1, 2, 0]], b"ac"),
        5,
        wrote(1),
        &[[1, 0, 0, 1, 3]],
    );
    case(
        "the left string is the beginning of the right one",
        &name(&[[1, 0, 0, 1, 2, 0]], b"abc"),
        &name(&[[1, 0, 0, 1, 3, 0]], b"abc"),
        5,
        wrote(1),
        &[[1, 0, 0, 1, 3]],
    );
    case(
        "the right string is the beginning of the left one",
        &name(&[[1, 0, 0, 1, 3, 0]], b"abc"),
        &name(&[[1, 0, 0, 1, 2, 0]], b"abc"),
        5,
        wrote(1),
        &[[1, 0, 0, 1, 3]],
    );
    case(
        "empty strings in different places are equal; an empty one and a zero byte are not",
        &name(
            &[[1, 0, 0, 1, 0, 0], [1, 0, 0, 2, 0, 1], [1, 0, 0, 3, 1, 0]],
            b"\0",
        ),
        &name(
            &[[1, 0, 0, 1, 0, 1], [1, 0, 0, 2, 1, 0], [1, 0, 0, 3, 0, 0]],
            b"\0",
        ),
        10,
        wrote(2),
        &[[1, 0, 0, 2, 3], [1, 0, 0, 3, 3]],
    );
    // Format 1, the record (1, 0, 0, 6) "Ab" and one tag.
    let mut format_1 = vec![0, 1, 0, 1, 0, 24, 0, 1, 0, 0, 0, 0, 0, 6, 0, 2, 0, 1];
    format_1.extend([0, 1, 0, 1, 0, 0]);
    format_1.extend(b"xAb");
    case(
        "format 0 against format 1 with the same string, and a tag",
        &macintosh,
        &format_1,
        0,
        wrote(0),
        &[],
    );
    // The same without its tag.
    let mut untagged = vec![0, 1, 0, 1, 0, 20, 0, 1, 0, 0, 0, 0, 0, 6, 0, 2, 0, 0];
    untagged.extend([0, 0]);
    untagged.extend(b"Ab");
    case(
        "tags are not compared",
        &format_1,
        &untagged,
        0,
        wrote(0),
        &[],
    );
    case(
        "languages from 0x8000 on, platform 255 and name 65535",
        &name(&[[255, 0, 0x8001, 65_535, 0, 0]], b""),
        &name(&[[255, 0, 0x8000, 65_535, 0, 0]], b""),
        10,
        wrote(2),
        &[[255, 0, 32_768, 65_535, 2], [255, 0, 32_769, 65_535, 1]],
    );
    case(
        "the listing's table against the same with another PostScript name",
        &name(
            &[[1, 0, 0, 6, 2, 0], [3, 1, 0x409, 6, 4, 2]],
            &[0x41, 0x62, 0, 0x41, 0, 0x62],
        ),
        &name(
            &[[1, 0, 0, 6, 2, 0], [3, 1, 0x409, 6, 4, 2]],
            &[0x41, 0x63, 0, 0x41, 0, 0x63],
        ),
        10,
        wrote(2),
        &[[1, 0, 0, 6, 3], [3, 1, 1033, 6, 3]],
    );

    let twice = name(&[[1, 0, 0, 6, 0, 0], [1, 0, 0, 6, 0, 0]], b"");
    let format_2 = [0, 2, 0, 0, 0, 6];
    for (words, table, refusal) in [
        ("refused 10", &vec![0; 5], refused(10)),
        ("refused 11", &format_2.to_vec(), refused(11)),
        ("refused 12", &vec![0, 0, 0, 1, 0, 6], refused(12)),
        ("refused 13", &vec![0, 1, 0, 0, 0, 6], refused(13)),
        ("refused 14", &vec![0, 0, 0, 0, 0, 7], refused(14)),
        (
            "refused 15 at 1",
            &name(&[[1, 0, 0, 6, 0, 0], [1, 0, 0, 7, 0, 1]], b""),
            refused_at(15, 1),
        ),
        (
            "refused 15 at 0",
            &name(&[[1, 0, 0, 6, 2, 65_535]], b"Ab"),
            refused_at(15, 0),
        ),
        (
            "refused 27 at 1",
            &name(&[[1, 0, 0, 6, 0, 0], [1, 0, 0, 7, 1, 0]], b""),
            refused_at(27, 1),
        ),
        (
            "refused 27 at 0",
            &name(&[[1, 0, 0, 6, 3, 0]], b"Ab"),
            refused_at(27, 0),
        ),
        (
            "refused 16 at 0",
            &vec![0, 1, 0, 0, 0, 12, 0, 1, 0, 1, 0, 0],
            refused_at(16, 0),
        ),
        (
            "refused 17 at 1",
            &name(&[[1, 0, 0, 6, 0, 0], [1, 0, 0, 5, 0, 0]], b""),
            refused_at(17, 1),
        ),
        ("refused 19 at 1", &twice, refused_at(19, 1)),
        (
            "refused 18 at 0",
            &name(&[[3, 1, 0x8000, 1, 0, 0]], b""),
            refused_at(18, 0),
        ),
    ] {
        case(words, table, &windows, 5, on(LEFT, refusal), &[]);
        case(words, &windows, table, 0, on(RIGHT, refusal), &[]);
        let other: &[u8] = match table == &twice {
            true => &format_2,
            false => &twice,
        };
        case(words, table, other, 5, on(LEFT, refusal), &[]);
    }
}
