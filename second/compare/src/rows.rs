//! The papers' rows on one table: document 01's "Examples to check against" and "Easy slips", each with the answer that stands
//! there or that Asks 3, 4 and 8 put in its place, and rows of document 02's Asks 1, 3, 4 and 8, each with the answers that follow
//! from its words.

use crate::ask::{Amount, Asker, Difference};
use crate::make::Made;
use crate::numbers::Numbers;
use crate::question::{shown, Question, Words, LOOKED};

/// A row: its words, its table, and the answers that the papers give.
pub struct Row {
    pub words: &'static str,
    pub table: Vec<u8>,
    pub answers: Vec<(Question, Words)>,
}

impl Row {
    /// The row's table; it is of the kind that its first question is on.
    pub fn made(&self) -> Made {
        match self.answers[0].0 {
            Question::NameCheck
            | Question::Lookup(_)
            | Question::PostScript
            | Question::Version => Made::Name(self.table.clone()),
            _ => Made::Os2(self.table.clone()),
        }
    }
}

/// Of a 'name' table of so many bytes not everything is asked.
const LARGE: usize = 10_000;

/// Asks everything of one row's table, after the answers that the papers give, compares it with itself, and writes the records
/// of a 'name' table. Of a large table some keys are looked up.
pub fn ask(asker: &mut Asker, row: &Row) -> Result<(), Difference> {
    for &(question, expected) in &row.answers {
        let words = asker.ask(&row.table, question)?;
        if words != expected {
            let function = question.function();
            return Err(Difference(format!(
                "{question}: the sides agree, but the papers say otherwise\n  papers:    {}\n  all sides: {}\n",
                shown(function, expected),
                shown(function, words)
            )));
        }
    }
    let mut numbers = Numbers::new(1);
    match row.made() {
        Made::Name(table) => {
            let amount = match table.len() < LARGE {
                true => Amount::Everything,
                false => Amount::Some,
            };
            asker.name(&table, amount, &mut numbers)?;
            asker.name_pair(&table, &table, amount, &mut numbers)?;
            asker.rewriting(&table, amount, &mut numbers)
        }
        Made::Os2(table) => {
            asker.os2(&table, Amount::Everything, &mut numbers)?;
            asker.os2_pair(&table, &table, Amount::Everything, &mut numbers)
        }
        _ => unreachable!("a row's table is 'name' or 'OS/2'"),
    }
}

const ACCEPTED: Words = [0; 7];

pub fn refused(number: u64) -> Words {
    [number, 0, 0, 0, 0, 0, 0]
}

pub fn refused_at(number: u64, place: u64) -> Words {
    [number, 1, place, 0, 0, 0, 0]
}

/// A string's start and length, or a version's two figures, and the record's number.
fn told(first: u64, second: u64, record: u64) -> Words {
    [0, 0, 0, first, second, record, 0]
}

/// The words of a lookup that looked at so many records.
fn after(looked: u64, mut words: Words) -> Words {
    words[LOOKED] = looked;
    words
}

fn value(value: u64) -> Words {
    [0, 0, 0, 1, value, 0, 0]
}

/// The words of two of the rights.
const PREVIEW: u64 = 2;
const EDITABLE: u64 = 3;

const ABSENT: Words = [0, 0, 0, 2, 0, 0, 0];
const NOT_KNOWN: Words = [0, 0, 0, 3, 0, 0, 0];

/// An OS/2 table of zero bytes but weight 400, width 5 and these 16-bit numbers, given by their offsets.
pub fn os2(version: u8, size: usize, numbers: &[(usize, u16)]) -> Vec<u8> {
    let mut table = vec![0; size];
    table[1] = version;
    for &(offset, number) in [(4, 400), (6, 5)].iter().chain(numbers) {
        table[offset..offset + 2].copy_from_slice(&number.to_be_bytes());
    }
    table
}

const FS_TYPE: usize = 8;
const FS_SELECTION: usize = 62;

/// A format 0 'name' table: records of platform, encoding, language, name, length, offset; then the storage.
pub fn name(records: &[[u16; 6]], storage: &[u8]) -> Vec<u8> {
    let count = records.len() as u16;
    let head = [0, count, 6 + 12 * count];
    let words = head.iter().chain(records.iter().flatten());
    let mut table: Vec<u8> = words.flat_map(|word| word.to_be_bytes()).collect();
    table.extend(storage);
    table
}

fn two_bytes(text: &str) -> Vec<u8> {
    text.bytes().flat_map(|code| [0, code]).collect()
}

/// A table with this version text, two bytes a character.
fn windows_version(text: &str) -> Vec<u8> {
    let storage = two_bytes(text);
    name(&[[3, 1, 0x409, 5, storage.len() as u16, 0]], &storage)
}

/// A table with this version text, one byte a character.
fn macintosh_version(text: &str) -> Vec<u8> {
    name(&[[1, 0, 0, 5, text.len() as u16, 0]], text.as_bytes())
}

/// A table with this PostScript name in both records.
fn postscript(text: &str) -> Vec<u8> {
    let length = text.len() as u16;
    let mut storage = text.as_bytes().to_vec();
    storage.extend(two_bytes(text));
    name(
        &[
            [1, 0, 0, 6, length, 0],
            [3, 1, 0x409, 6, 2 * length, length],
        ],
        &storage,
    )
}

/// The rows of document 01 in its order, then those of document 02's Ask 1, of its Ask 3, of its Ask 4 and of its Ask 8.
pub fn rows() -> Vec<Row> {
    let mut rows = Vec::new();
    let mut row = |words: &'static str, table: Vec<u8>, answers: Vec<(Question, Words)>| {
        rows.push(Row {
            words,
            table,
            answers,
        });
    };
    let check = Question::Os2Check;

    row(
        "78 zero bytes but weight 400, width 5: accepted at every level",
        os2(0, 78, &[]),
        (0..=5).map(|level| (check(level), ACCEPTED)).collect(),
    );
    row(
        "the same, 77 bytes: 2 at every level",
        os2(0, 77, &[]),
        (0..=5).map(|level| (check(level), refused(2))).collect(),
    );
    row(
        "that table with version 5, 96 bytes: accepted at level 4, 2 at level 5",
        os2(5, 96, &[]),
        vec![(check(4), ACCEPTED), (check(5), refused(2))],
    );
    row(
        "version 4, fsSelection 0x0080: bit 7 set at level 5, not known at level 3",
        os2(4, 96, &[(FS_SELECTION, 0x0080)]),
        vec![
            (Question::SelectionBit(5, 7), value(1)),
            (Question::SelectionBit(3, 7), NOT_KNOWN),
        ],
    );
    row(
        "version 3, fsSelection 0x0080: 3 (rule 5) at level 3, accepted at level 2",
        os2(3, 96, &[(FS_SELECTION, 0x0080)]),
        vec![(check(3), refused_at(3, 5)), (check(2), ACCEPTED)],
    );
    row(
        "fsSelection 0x0041, version 4, level 4: 3 (rule 6)",
        os2(4, 96, &[(FS_SELECTION, 0x0041)]),
        vec![(check(4), refused_at(3, 6))],
    );
    row(
        "fsType 0x000C, version 4, level 5: 3 (rule 4)",
        os2(4, 96, &[(FS_TYPE, 0x000C)]),
        vec![(check(5), refused_at(3, 4))],
    );
    row(
        "'name' bytes 00 00 00 00 00 06: accepted, any lookup 20",
        vec![0, 0, 0, 0, 0, 6],
        vec![
            (Question::NameCheck, ACCEPTED),
            (Question::Lookup([0, 0, 0, 0]), refused(20)),
            (Question::Lookup([3, 1, 0x409, 6]), refused(20)),
            (Question::Lookup([u32::MAX; 4]), refused(20)),
        ],
    );
    for (words, text, answer) in [
        (
            "`Version 1.70000 2.5`: 2 and 5",
            "Version 1.70000 2.5",
            told(2, 5, 0),
        ),
        ("`Version 65535.1`: 25", "Version 65535.1", refused(25)),
        (
            "`Version 65534.1`: 65534 and 1",
            "Version 65534.1",
            told(65_534, 1, 0),
        ),
        (
            "easy slip: 0.1 is not found inside `70000.1`",
            "70000.1",
            refused(25),
        ),
    ] {
        row(
            words,
            windows_version(text),
            vec![(Question::Version, answer)],
        );
        row(
            words,
            macintosh_version(text),
            vec![(Question::Version, answer)],
        );
    }
    row(
        "a string ending on the last storage byte: accepted",
        name(&[[1, 0, 0, 1, 1, 0], [1, 0, 0, 2, 2, 1]], b"abc"),
        vec![
            (Question::NameCheck, ACCEPTED),
            (Question::Lookup([1, 0, 0, 2]), after(1, told(31, 2, 1))),
        ],
    );
    row(
        "a string one byte longer: 27 by Ask 3",
        name(&[[1, 0, 0, 1, 1, 0], [1, 0, 0, 2, 3, 1]], b"abc"),
        vec![(Question::NameCheck, refused_at(27, 1))],
    );
    row(
        "a PostScript string of 63 characters: well formed",
        postscript(&"A".repeat(63)),
        vec![(Question::PostScript, told(30, 63, 0))],
    );
    row(
        "a PostScript string of 64 characters: 23",
        postscript(&"A".repeat(64)),
        vec![(Question::PostScript, refused(23))],
    );
    row(
        "the listing's table: PostScript name Ab, by Ask 4 in record 0, version refused 20",
        name(
            &[[1, 0, 0, 6, 2, 0], [3, 1, 0x409, 6, 4, 2]],
            &[0x41, 0x62, 0, 0x41, 0, 0x62],
        ),
        vec![
            (Question::NameCheck, ACCEPTED),
            (Question::PostScript, told(30, 2, 0)),
            (Question::Version, refused(20)),
            (Question::Lookup([1, 0, 0, 6]), after(2, told(30, 2, 0))),
            (Question::Lookup([3, 1, 1033, 6]), after(1, told(32, 4, 1))),
        ],
    );
    row(
        "the listing's table with both keys (1, 0, 0, 6): refused 19 at 1 by Ask 3",
        name(
            &[[1, 0, 0, 6, 2, 0], [1, 0, 0, 6, 4, 2]],
            &[0x41, 0x62, 0, 0x41, 0, 0x62],
        ),
        vec![
            (Question::NameCheck, refused_at(19, 1)),
            (Question::PostScript, refused_at(19, 1)),
        ],
    );
    row(
        "a listing refused without a place: refused 11",
        vec![0, 2, 0, 0, 0, 6],
        vec![(Question::NameCheck, refused(11))],
    );
    row(
        "easy slip: a table out of order is refused, not looked up by halving",
        name(
            &[
                [3, 1, 0x409, 1, 1, 0],
                [3, 1, 0x409, 3, 1, 1],
                [3, 1, 0x409, 2, 1, 2],
            ],
            b"abc",
        ),
        vec![
            (Question::Lookup([3, 1, 0x409, 2]), refused_at(17, 2)),
            (Question::Lookup([3, 1, 0x409, 1]), refused_at(17, 2)),
        ],
    );
    row(
        "easy slip: offset 65535 and length 2 don't fit",
        name(&[[3, 1, 0x409, 1, 2, 65_535]], b"abc"),
        vec![(Question::NameCheck, refused_at(15, 0))],
    );
    row(
        "easy slip: a long version 0 table has no code pages",
        os2(
            0,
            86,
            &[(78, 0xFFFF), (80, 0xFFFF), (82, 0xFFFF), (84, 0xFFFF)],
        ),
        vec![
            (Question::Field(5, 39), ABSENT),
            (Question::Field(1, 40), ABSENT),
            (Question::CodePageBit(5, 0), ABSENT),
            (Question::CodePageBit(0, 63), NOT_KNOWN),
        ],
    );
    row(
        "easy slip: a version 4 table at level 3 is not refused for its bit 7",
        os2(4, 96, &[(FS_SELECTION, 0x0080)]),
        vec![
            (check(3), ACCEPTED),
            (Question::Field(3, 31), value(0x0080)),
            (Question::SelectionBit(3, 7), NOT_KNOWN),
            (Question::Rights(3), NOT_KNOWN),
        ],
    );

    // Ask 1: "bits 1 to 3 exclude each other only since version 3; before it, the least restrictive set bit holds."
    for (words, fs_type, rights) in [
        (
            "Ask 1: version 2, fsType 0x000C: accepted, editable",
            0x000C,
            EDITABLE,
        ),
        (
            "Ask 1: version 2, fsType 0x0006: accepted, preview",
            0x0006,
            PREVIEW,
        ),
        (
            "Ask 1: version 2, fsType 0x000A: accepted, editable",
            0x000A,
            EDITABLE,
        ),
        (
            "Ask 1: version 2, fsType 0x000E: accepted, editable",
            0x000E,
            EDITABLE,
        ),
    ] {
        let mut answers: Vec<_> = (0..=5).map(|level| (check(level), ACCEPTED)).collect();
        answers.extend((0..=1).map(|level| (Question::Rights(level), NOT_KNOWN)));
        answers.extend((2..=5).map(|level| (Question::Rights(level), value(rights))));
        row(words, os2(2, 96, &[(FS_TYPE, fs_type)]), answers);
    }
    let mut answers: Vec<_> = (0..=2).map(|level| (check(level), ACCEPTED)).collect();
    answers.extend((0..=2).map(|level| (Question::Rights(level), NOT_KNOWN)));
    answers.extend((3..=5).map(|level| (check(level), refused_at(3, 4))));
    answers.extend((3..=5).map(|level| (Question::Rights(level), refused_at(3, 4))));
    row(
        "Ask 1: version 3, fsType 0x000C: 3 (rule 4) at levels 3 to 5, accepted at levels 0 to 2 with rights not known",
        os2(3, 96, &[(FS_TYPE, 0x000C)]),
        answers,
    );
    for (words, table, answer) in record_rows() {
        let asked = [
            Question::NameCheck,
            Question::PostScript,
            Question::Version,
            Question::Lookup([1, 0, 0, 1]),
        ];
        // Every question passes on the refusal; where the table is accepted, the check alone says so.
        let asked = match answer {
            ACCEPTED => &asked[..1],
            _ => &asked[..],
        };
        let answers = asked.iter().map(|&question| (question, answer)).collect();
        row(words, table, answers);
    }
    rows.extend(answer_rows());
    rows.extend(looked_rows());
    rows
}

/// Ask 3: "17 for a key below the one before, 19 for a key equal to it. Split 15 too: 15 when the string starts beyond the
/// storage end, 27 when it starts within or at the end and runs over."
fn record_rows() -> Vec<(&'static str, Vec<u8>, Words)> {
    // Key (1, 0, 0, 1) with this length and offset, on the storage `abc`.
    let string = |length, offset| name(&[[1, 0, 0, 1, length, offset]], b"abc");
    // The keys (1, 0, 0, `number`), all with empty strings.
    let keys = |numbers: &[u16]| {
        let records: Vec<_> = numbers.iter().map(|&n| [1, 0, 0, n, 0, 0]).collect();
        name(&records, b"")
    };
    // Key (1, 0, 0, 2), then this record, on the storage `abc`.
    let second = |record| name(&[[1, 0, 0, 2, 0, 0], record], b"abc");
    vec![
        ("Ask 3: empty, at the end", string(0, 3), ACCEPTED),
        (
            "Ask 3: one byte, at the end",
            string(1, 3),
            refused_at(27, 0),
        ),
        ("Ask 3: empty, one beyond", string(0, 4), refused_at(15, 0)),
        (
            "Ask 3: one byte, one beyond",
            string(1, 4),
            refused_at(15, 0),
        ),
        (
            "Ask 3: offset 65535, empty",
            string(0, 65_535),
            refused_at(15, 0),
        ),
        (
            "Ask 3: offset 0, length 65535",
            string(65_535, 0),
            refused_at(27, 0),
        ),
        (
            "Ask 3: offset 1, length 65535: no sum in 16 bits",
            string(65_535, 1),
            refused_at(27, 0),
        ),
        (
            "Ask 3: the last byte and one more",
            string(2, 2),
            refused_at(27, 0),
        ),
        (
            "Ask 3: no storage, offset 0 and length 0",
            name(&[[1, 0, 0, 1, 0, 0]], b""),
            ACCEPTED,
        ),
        (
            "Ask 3: no storage, offset 0 and length 1",
            name(&[[1, 0, 0, 1, 1, 0]], b""),
            refused_at(27, 0),
        ),
        (
            "Ask 3: no storage, offset 1 and length 0",
            name(&[[1, 0, 0, 1, 0, 1]], b""),
            refused_at(15, 0),
        ),
        ("Ask 3: an equal key", keys(&[1, 1]), refused_at(19, 1)),
        ("Ask 3: a lower key", keys(&[2, 1]), refused_at(17, 1)),
        (
            "Ask 3: equal keys behind keys that rise",
            keys(&[1, 2, 2]),
            refused_at(19, 2),
        ),
        (
            "Ask 3: equal keys behind keys that fall",
            keys(&[2, 1, 1]),
            refused_at(17, 1),
        ),
        (
            "Ask 3: keys that fall behind equal ones",
            keys(&[2, 2, 1]),
            refused_at(19, 1),
        ),
        (
            "Ask 3: the key two before",
            keys(&[1, 2, 1]),
            refused_at(17, 2),
        ),
        (
            "Ask 3: 15 before 19",
            second([1, 0, 0, 2, 0, 4]),
            refused_at(15, 1),
        ),
        (
            "Ask 3: 15 before 17",
            second([1, 0, 0, 1, 0, 4]),
            refused_at(15, 1),
        ),
        (
            "Ask 3: 15 before 18",
            second([3, 0, 0x8000, 1, 1, 4]),
            refused_at(15, 1),
        ),
        (
            "Ask 3: 27 before 19",
            second([1, 0, 0, 2, 1, 3]),
            refused_at(27, 1),
        ),
        (
            "Ask 3: 27 before 17",
            second([1, 0, 0, 1, 4, 0]),
            refused_at(27, 1),
        ),
        (
            "Ask 3: 27 before 18",
            second([3, 0, 0x8000, 1, 4, 0]),
            refused_at(27, 1),
        ),
        (
            "Ask 3: 18 before 17",
            second([0, 0, 0x8000, 1, 0, 0]),
            refused_at(18, 1),
        ),
        (
            "Ask 3: 19, and 15 and 27 in the records behind",
            name(
                &[
                    [1, 0, 0, 1, 0, 0],
                    [1, 0, 0, 1, 0, 0],
                    [1, 0, 0, 2, 0, 4],
                    [1, 0, 0, 3, 4, 0],
                ],
                b"abc",
            ),
            refused_at(19, 1),
        ),
        (
            "Ask 3: 27, and 15 in the record behind",
            name(&[[1, 0, 0, 1, 4, 0], [1, 0, 0, 2, 0, 4]], b"abc"),
            refused_at(27, 0),
        ),
        (
            "Ask 3: a tag that starts beyond the end: 16",
            vec![0, 1, 0, 0, 0, 12, 0, 1, 0, 0, 0, 1],
            refused_at(16, 0),
        ),
        (
            "Ask 3: a tag that runs over: 16",
            vec![0, 1, 0, 0, 0, 12, 0, 1, 0, 1, 0, 0],
            refused_at(16, 0),
        ),
    ]
}

/// Ask 4: "Lookup shall also give the record's number. PostScript and version answers carry the number of the record that they
/// used (for a PostScript name, the platform 1 record)." Records are counted from 0, and a refusal gives no number.
fn answer_rows() -> Vec<Row> {
    let lookup = |p, e, l, n| Question::Lookup([p, e, l, n]);
    let six = [
        [0, 3, 0, 6, 2, 0],
        [1, 0, 0, 5, 3, 2],
        [1, 0, 0, 6, 2, 5],
        [3, 1, 0x409, 5, 6, 7],
        [3, 1, 0x409, 6, 4, 13],
        [3, 1, 0x409, 7, 0, 17],
    ];
    let storage = b"\0C1.2Ab\x003\0.\x004\0A\0b";
    // The same with two tags, before which the storage starts 10 bytes later.
    let mut tagged = name(&six, storage);
    tagged.splice(78..78, [0, 2, 0, 1, 0, 0, 0, 0, 0, 17]);
    (tagged[1], tagged[5]) = (1, 88);
    let all = |start: u64| {
        vec![
            (Question::NameCheck, ACCEPTED),
            (Question::PostScript, told(start + 5, 2, 2)),
            (Question::Version, told(3, 4, 3)),
            (lookup(0, 3, 0, 6), after(3, told(start, 2, 0))),
            (lookup(1, 0, 0, 5), after(2, told(start + 2, 3, 1))),
            (lookup(1, 0, 0, 6), after(3, told(start + 5, 2, 2))),
            (lookup(3, 1, 1033, 5), after(1, told(start + 7, 6, 3))),
            (lookup(3, 1, 1033, 6), after(3, told(start + 13, 4, 4))),
            (lookup(3, 1, 1033, 7), after(2, told(start + 17, 0, 5))),
            (lookup(3, 1, 1033, 4), after(3, refused(20))),
            (lookup(1, 0, 0, 7), after(3, refused(20))),
            (lookup(3, 1, 1033, 65_536 + 6), after(2, refused(20))),
        ]
    };
    let mut rows = Vec::new();
    let mut row = |words, table, answers| {
        rows.push(Row {
            words,
            table,
            answers,
        });
    };
    row(
        "Ask 4: six records, the name in records 2 and 4, a version in records 1 and 3",
        name(&six, storage),
        all(78),
    );
    row("Ask 4: the same in format 1 with two tags", tagged, all(88));
    row(
        "Ask 4: the version in platform 1's record, record 2, beside others that do not count",
        name(
            &[
                [0, 3, 0, 5, 3, 0],
                [1, 0, 0, 4, 3, 0],
                [1, 0, 0, 5, 3, 3],
                [1, 0, 1, 5, 3, 0],
                [3, 1, 0x407, 5, 6, 6],
            ],
            b"9.92.5\x007\0.\x007",
        ),
        vec![
            (Question::Version, told(2, 5, 2)),
            (Question::PostScript, refused(21)),
        ],
    );
    row(
        "Ask 4: the version in platform 3's record, record 1, and none of platform 1's",
        name(
            &[[1, 0, 0, 4, 3, 0], [3, 1, 0x409, 5, 6, 3]],
            b"9.9\x002\0.\x005",
        ),
        vec![(Question::Version, told(2, 5, 1))],
    );
    row(
        "Ask 4: the same string in three records",
        name(
            &[[1, 0, 0, 1, 2, 1], [1, 0, 0, 4, 2, 1], [1, 0, 0, 16, 2, 1]],
            b".Ab",
        ),
        vec![
            (lookup(1, 0, 0, 1), after(2, told(43, 2, 0))),
            (lookup(1, 0, 0, 4), after(1, told(43, 2, 1))),
            (lookup(1, 0, 0, 16), after(2, told(43, 2, 2))),
        ],
    );
    row(
        "Ask 4: strings that overlap, the name in record 1",
        name(
            &[
                [0, 3, 0, 6, 2, 0],
                [1, 0, 0, 6, 1, 1],
                [3, 1, 0x409, 6, 2, 0],
            ],
            b"\0A",
        ),
        vec![
            (Question::PostScript, told(43, 1, 1)),
            (lookup(0, 3, 0, 6), after(2, told(42, 2, 0))),
            (lookup(3, 1, 1033, 6), after(2, told(42, 2, 2))),
        ],
    );
    row(
        "Ask 4: keys that are one part away from the key before them",
        name(
            &[
                [1, 0, 0, 5, 1, 0],
                [1, 0, 0, 6, 1, 0],
                [1, 0, 1, 6, 1, 0],
                [1, 1, 1, 6, 1, 0],
                [3, 1, 1, 6, 1, 0],
            ],
            b"x",
        ),
        vec![
            (lookup(1, 0, 0, 5), after(3, told(66, 1, 0))),
            (lookup(1, 0, 0, 6), after(2, told(66, 1, 1))),
            (lookup(1, 0, 1, 6), after(1, told(66, 1, 2))),
            (lookup(1, 1, 1, 6), after(3, told(66, 1, 3))),
            (lookup(3, 1, 1, 6), after(2, told(66, 1, 4))),
            (lookup(3, 1, 1, 5), after(3, refused(20))),
            (Question::PostScript, refused(22)),
            (Question::Version, refused(25)),
        ],
    );
    // Refusals that are about records 1 and 2.
    for (words, one, two, answer) in [
        ("Ask 4: no record beside 23", "A b", "\0A\0b", refused(23)),
        ("Ask 4: no record beside 24", "Ab", "\0A\0c", refused(24)),
    ] {
        let [length, other] = [one, two].map(|text| text.len() as u16);
        let table = name(
            &[
                [0, 3, 0, 6, length, 0],
                [1, 0, 0, 6, length, 0],
                [3, 1, 0x409, 6, other, length],
            ],
            format!("{one}{two}").as_bytes(),
        );
        row(words, table, vec![(Question::PostScript, answer)]);
    }
    for (words, length) in [
        (
            "Ask 4: no record beside 25, and a number in platform 1's record",
            4,
        ),
        ("Ask 4: the same for an odd length", 5),
    ] {
        let table = name(
            &[
                [0, 3, 0, 5, 3, 0],
                [1, 0, 0, 5, 3, 0],
                [3, 1, 0x409, 5, length, 3],
            ],
            b"1.2\x003\0.\0",
        );
        row(words, table, vec![(Question::Version, refused(25))]);
    }
    // 5,460 records, of which number i has the key (3, 1, 1033, i).
    let most: Vec<_> = (0..5_460).map(|i| [3, 1, 1033, i, 1, i % 10]).collect();
    row(
        "Ask 4: 5,460 records",
        name(&most, b"0123456789"),
        vec![
            (lookup(3, 1, 1033, 0), after(13, told(65_526, 1, 0))),
            (lookup(3, 1, 1033, 255), after(12, told(65_531, 1, 255))),
            (lookup(3, 1, 1033, 256), after(6, told(65_532, 1, 256))),
            (lookup(3, 1, 1033, 2_733), after(11, told(65_529, 1, 2_733))),
            (lookup(3, 1, 1033, 5_459), after(12, told(65_535, 1, 5_459))),
            (lookup(3, 1, 1033, 5_460), after(12, refused(20))),
            (Question::PostScript, refused(22)),
            (Question::Version, refused(25)),
        ],
    );
    rows
}

/// Ask 8: "Between a low number (included, at first 0) and a high one (excluded, at first the count), look at half their sum rounded
/// down; equal ends it, a smaller key moves low to one past, a larger key moves high to there; it ends when low meets high." What
/// is looked at was worked out by hand.
fn looked_rows() -> Vec<Row> {
    let mut rows = Vec::new();
    let mut row = |words, table, answers| {
        rows.push(Row {
            words,
            table,
            answers,
        });
    };
    let missing = |looked| after(looked, refused(20));
    // The counts for the keys of so many records and between them, which are from below the first to above the last in turn. The
    // records are those of the names 1, 3, 5 and so on.
    let tables: [(&str, &[u64]); 7] = [
        ("Ask 8: no records, none looked at", &[0]),
        ("Ask 8: one record, looked at for every key", &[1, 1, 1]),
        ("Ask 8: two records, record 1 first", &[2, 2, 2, 1, 1]),
        (
            "Ask 8: three records, record 1 first",
            &[2, 2, 2, 1, 2, 2, 2],
        ),
        (
            "Ask 8: four records, 2 first, then 1 or 3",
            &[3, 3, 3, 2, 2, 1, 2, 2, 2],
        ),
        (
            "Ask 8: seven records, 3 first, then 1 or 5",
            &[3, 3, 3, 2, 3, 3, 3, 1, 3, 3, 3, 2, 3, 3, 3],
        ),
        (
            "Ask 8: eight records, 4 first, then 2 or 6",
            &[4, 4, 4, 3, 3, 2, 3, 3, 3, 1, 3, 3, 3, 2, 3, 3, 3],
        ),
    ];
    for (words, counts) in tables {
        let count = counts.len() / 2;
        let records: Vec<_> = (0..count as u16)
            .map(|number| [3, 1, 0x409, 2 * number + 1, 0, 0])
            .collect();
        let format_0 = name(&records, b"");
        let mut format_1 = format_0.clone();
        let front = format_1.len();
        format_1.extend([0, 0]);
        (format_1[1], format_1[5]) = (1, front as u8 + 2);
        for table in [format_0, format_1] {
            let start = table.len() as u64;
            let mut answers: Vec<_> = counts
                .iter()
                .enumerate()
                .map(|(place, &looked)| {
                    let answer = match place % 2 {
                        1 => told(start, 0, place as u64 / 2),
                        _ => refused(20),
                    };
                    let key = [3, 1, 0x409, place as u32];
                    (Question::Lookup(key), after(looked, answer))
                })
                .collect();
            // Below the first and above the last by each part.
            let (below, above) = (missing(counts[0]), missing(counts[2 * count]));
            for part in 0..3 {
                let mut key = [3, 1, 0x409, 5];
                key[part] -= 1;
                answers.push((Question::Lookup(key), below));
                for number in [3 + 0x409, 65_536, u32::MAX] {
                    key[part] = number;
                    answers.push((Question::Lookup(key), above));
                }
            }
            for number in [65_536, 65_537, u32::MAX] {
                answers.push((Question::Lookup([3, 1, 0x409, number]), above));
            }
            row(words, table, answers);
        }
    }

    // Of five records number 2 comes first, then 1 or 4, then 0 or 3.
    let five = [
        [1, 1, 1, 1, 0, 0],
        [1, 1, 1, 2, 0, 0],
        [1, 1, 2, 1, 0, 0],
        [1, 2, 1, 1, 0, 0],
        [2, 1, 1, 1, 0, 0],
    ];
    let mut answers = Vec::new();
    for above in [65_536, 65_537, u32::MAX] {
        for (key, looked) in [
            ([1, 1, 1, above], 2),
            ([1, 1, above, 1], 3),
            ([1, above, 1, 1], 3),
            ([above, 1, 1, 1], 2),
            ([0, above, above, above], 3),
            ([1, 0, above, above], 3),
            ([1, 1, 0, above], 3),
            ([1, 2, above, above], 3),
            ([2, above, 0, 0], 2),
        ] {
            answers.push((Question::Lookup(key), missing(looked)));
        }
    }
    row(
        "Ask 8: five records, and a part above 65,535 in each place",
        name(&five, b""),
        answers,
    );

    // Record 1 of three has 65,535 in each place in turn; a number above that is not equal to it, and is above it.
    for part in 0..4 {
        let mut one = [240, 5, 5, 5, 0, 0];
        one[part] = 65_535;
        let two = match part {
            0 => [65_535, 6, 0, 0, 0, 0],
            _ => [241, 0, 0, 0, 0, 0],
        };
        let mut key = [240, 5, 5, 5];
        key[part] = 65_535;
        let mut answers = vec![(Question::Lookup(key), after(1, told(42, 0, 1)))];
        for above in [65_536, 131_071, u32::MAX] {
            key[part] = above;
            answers.push((Question::Lookup(key), missing(2)));
        }
        row(
            "Ask 8: a part of 65,535, and numbers above it",
            name(&[[1, 1, 1, 1, 0, 0], one, two], b""),
            answers,
        );
    }

    // Three records, one of which has the key, and a fault that is not in a record.
    let three = [1, 3, 5].map(|number| [3, 1, 0x409, number, 0, 0]);
    let fine = name(&three, b"");
    // Format 1 with a tag whose string runs over.
    let mut tagged = fine.clone();
    tagged.extend([0, 1, 0, 1, 0, 0]);
    (tagged[1], tagged[5]) = (1, 48);
    let (mut format, mut start) = (fine.clone(), fine.clone());
    (format[1], start[5]) = (2, 41);
    for (words, table, answer) in [
        ("Ask 8: none looked at beside 11", format, refused(11)),
        (
            "Ask 8: none looked at beside 12",
            fine[..41].to_vec(),
            refused(12),
        ),
        (
            "Ask 8: none looked at beside 13",
            tagged[..43].to_vec(),
            refused(13),
        ),
        ("Ask 8: none looked at beside 14", start, refused(14)),
        ("Ask 8: none looked at beside 16", tagged, refused_at(16, 0)),
    ] {
        let answers = [1, 2, 3, 5].map(|number| (Question::Lookup([3, 1, 0x409, number]), answer));
        row(words, table, answers.to_vec());
    }

    // Record 0 of 5,459 is the last after 2,729, 1,364, 682, 341, 170, 85, 42, 21, 10, 5, 2 and 1.
    let most: Vec<_> = (0..5_459).map(|i| [3, 1, 1033, i, 0, 0]).collect();
    row(
        "Ask 8: 5,459 records, at most 13 looked at",
        name(&most, b""),
        vec![
            (
                Question::Lookup([3, 1, 1033, 2_729]),
                after(1, told(65_514, 0, 2_729)),
            ),
            (
                Question::Lookup([3, 1, 1033, 1_364]),
                after(2, told(65_514, 0, 1_364)),
            ),
            (
                Question::Lookup([3, 1, 1033, 682]),
                after(3, told(65_514, 0, 682)),
            ),
            (
                Question::Lookup([3, 1, 1033, 1]),
                after(12, told(65_514, 0, 1)),
            ),
            (
                Question::Lookup([3, 1, 1033, 0]),
                after(13, told(65_514, 0, 0)),
            ),
            (Question::Lookup([3, 1, 1032, 65_536]), missing(13)),
            (Question::Lookup([0; 4]), missing(13)),
        ],
    );
    // The last key is equal to the one before it.
    let mut twice: Vec<_> = (0..5_460).map(|i| [3, 1, 1033, i, 0, 0]).collect();
    twice[5_459][3] = 5_458;
    row(
        "Ask 8: a refused table of 5,460 records, none looked at",
        name(&twice, b""),
        vec![
            (Question::Lookup([3, 1, 1033, 2_730]), refused_at(19, 5_459)),
            (Question::Lookup([0; 4]), refused_at(19, 5_459)),
        ],
    );
    rows
}
