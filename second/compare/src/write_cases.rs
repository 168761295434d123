//! Lists of entries with the answers and the tables that follow from the words of document 02's Ask 5, written down by hand.

use crate::ask::{Amount, Asker, Difference};
use crate::entries::{Entry, Lent, List};
use crate::make::Made;
use crate::numbers::Numbers;
use crate::question::{shown, Function, Words};
use crate::rows::{refused, refused_at};
use crate::written::Reading;

/// A case: its words, its list, how many bytes of room are lent, what is answered, and the table that is written.
pub struct Case {
    pub words: &'static str,
    list: List,
    room: usize,
    answer: Words,
    table: Vec<u8>,
}

impl Case {
    /// The case's list.
    pub fn made(&self) -> Made {
        Made::Entries(self.list.clone())
    }
}

/// Of a table of so many bytes not everything is asked.
const LARGE: usize = 10_000;

/// Writes the list of one case, first with its room, then with every room. Of a large table some keys are looked up.
pub fn ask(asker: &mut Asker, case: &Case) -> Result<(), Difference> {
    let list = &case.list;
    let reading = Reading::of(list);
    let mut numbers = Numbers::new(1);
    let lent = Lent::new(list, &mut numbers);
    let (words, left) = asker.write_list(list, &reading, &lent, case.room, 0xA5)?;
    if words != case.answer || left.table() != case.table {
        let function = Function::NameWrite;
        return Err(Difference(format!(
            "{} with {} bytes of room: the sides agree, but the papers say otherwise\n  papers:    {} {:02X?}\n  all sides: {} {:02X?}\n",
            function.title(),
            case.room,
            shown(function, case.answer),
            case.table,
            shown(function, words),
            left.table()
        )));
    }
    let amount = match reading.size < LARGE {
        true => Amount::Everything,
        false => Amount::Some,
    };
    asker.entries(list, amount, &mut numbers)
}

/// So many bytes are written.
fn wrote(size: u64) -> Words {
    [0, 0, 0, size, 0, 0, 0]
}

fn entry(key: [u16; 4], start: u64, length: u16) -> Entry {
    Entry { key, start, length }
}

/// Entries with the keys (1, 0, 0, 0), (1, 0, 0, 1) and so on, and these starts and lengths.
fn texts(places: &[(u64, u16)]) -> Vec<Entry> {
    let numbered = places.iter().zip(0..);
    numbered
        .map(|(&(start, length), number)| entry([1, 0, 0, number], start, length))
        .collect()
}

/// Entries with these keys and empty texts.
fn keyed(keys: &[[u16; 4]]) -> Vec<Entry> {
    keys.iter().map(|&key| entry(key, 0, 0)).collect()
}

/// The table with the records of [`texts`], each with a length and an offset.
fn table(strings: &[[u16; 2]], storage: &[u8]) -> Vec<u8> {
    let count = strings.len() as u16;
    let mut words = vec![0, count, 6 + 12 * count];
    for (string, number) in strings.iter().zip(0..) {
        words.extend([1, 0, 0, number, string[0], string[1]]);
    }
    let mut table: Vec<u8> = words.iter().flat_map(|word| word.to_be_bytes()).collect();
    table.extend(storage);
    table
}

/// The cases: what is written, then each refusal, then several at once.
pub fn cases() -> Vec<Case> {
    let mut cases = Vec::new();
    let mut case = |words, entries: Vec<Entry>, pool: &[u8], room, answer, table: Vec<u8>| {
        cases.push(Case {
            words,
            list: List {
                entries,
                pool: pool.to_vec(),
            },
            room,
            answer,
            table,
        });
    };
    written(&mut case);
    let mut refusal = |words, entries, pool: &[u8], room, answer| {
        case(words, entries, pool, room, answer, vec![])
    };
    each_refusal(&mut refusal);
    several_refusals(&mut refusal);
    cases
}

type WrittenCase<'a> = &'a mut dyn FnMut(&'static str, Vec<Entry>, &[u8], usize, Words, Vec<u8>);

/// "write a format 0 table: records in the given order, strings copied one after another, nothing shared, storage directly
/// after the records."
fn written(case: WrittenCase) {
    let none = vec![0, 0, 0, 0, 0, 6];
    case("no entries", vec![], b"", 6, wrote(6), none.clone());
    case(
        "no entries and a longer room",
        vec![],
        b"",
        9,
        wrote(6),
        none.clone(),
    );
    case("no entries and a pool", vec![], b"abc", 6, wrote(6), none);
    case(
        "document 01's listing: its table",
        vec![entry([1, 0, 0, 6], 0, 2), entry([3, 1, 0x409, 6], 2, 4)],
        &[0x41, 0x62, 0, 0x41, 0, 0x62],
        36,
        wrote(36),
        vec![
            0, 0, 0, 2, 0, 30, //
            0, 1, 0, 0, 0, 0, 0, 6, 0, 2, 0, 0, //
            0, 3, 0, 1, 4, 9, 0, 6, 0, 4, 0, 2, //
            0x41, 0x62, 0, 0x41, 0, 0x62,
        ],
    );
    case(
        "the texts in the order of the entries, not of the pool",
        texts(&[(5, 2), (0, 1), (2, 3)]),
        b"a.bcdef",
        60,
        wrote(48),
        table(&[[2, 0], [1, 2], [3, 3]], b"efabcd"),
    );
    case(
        "nothing shared: one text three times, and its bytes in another place",
        texts(&[(0, 2), (0, 2), (2, 2), (0, 2)]),
        b"abab",
        62,
        wrote(62),
        table(&[[2, 0], [2, 2], [2, 4], [2, 6]], b"abababab"),
    );
    case(
        "texts that overlap",
        texts(&[(0, 3), (1, 3), (0, 4)]),
        b"abcd",
        52,
        wrote(52),
        table(&[[3, 0], [3, 3], [4, 6]], b"abcbcdabcd"),
    );
    case(
        "empty texts at the pool's start, inside it and at its end",
        texts(&[(0, 0), (1, 0), (0, 2), (2, 0)]),
        b"ab",
        56,
        wrote(56),
        table(&[[0, 0], [0, 0], [2, 0], [0, 2]], b"ab"),
    );
    case(
        "an empty text without a pool",
        texts(&[(0, 0)]),
        b"",
        18,
        wrote(18),
        table(&[[0, 0]], b""),
    );
    let long: Vec<u8> = (0..65_600_u32).map(|place| (place % 253) as u8).collect();
    case(
        "a start above 65,535",
        texts(&[(65_597, 3), (65_536, 1)]),
        &long,
        34,
        wrote(34),
        table(&[[3, 0], [1, 3]], &[70, 71, 72, 9]),
    );
    case(
        "offset 65,535 and an empty text",
        texts(&[(0, 65_535), (9, 0)]),
        &long,
        65_565,
        wrote(65_565),
        table(&[[65_535, 0], [0, 65_535]], &long[..65_535]),
    );
    case(
        "offset 65,535 and a text that runs on: more than 65,536 bytes",
        texts(&[(0, 65_535), (2, 3)]),
        &long,
        65_568,
        wrote(65_568),
        table(
            &[[65_535, 0], [3, 65_535]],
            &[&long[..65_535], &[2, 3, 4]].concat(),
        ),
    );
    let both = [&long[..65_535], &long[1..65_536]].concat();
    case(
        "offset 65,535 and the longest text",
        texts(&[(0, 65_535), (1, 65_535)]),
        &long,
        131_100,
        wrote(131_100),
        table(&[[65_535, 0], [65_535, 65_535]], &both),
    );
    case(
        "languages from 0x8000 on, on platforms 240 and 255",
        keyed(&[[240, 0, 0x8000, 0], [255, 0, 0xFFFF, 0]]),
        b"",
        30,
        wrote(30),
        vec![
            0, 0, 0, 2, 0, 30, //
            0, 240, 0, 0, 0x80, 0, 0, 0, 0, 0, 0, 0, //
            0, 255, 0, 0, 0xFF, 0xFF, 0, 0, 0, 0, 0, 0,
        ],
    );
    let most: Vec<(u64, u16)> = vec![(0, 0); 5_460];
    case(
        "5,460 entries",
        texts(&most),
        b"",
        65_526,
        wrote(65_526),
        table(&[[0, 0]; 5_460], b""),
    );
}

type RefusedCase<'a> = &'a mut dyn FnMut(&'static str, Vec<Entry>, &[u8], usize, Words);

/// "30 more than 5,460 entries; per entry, carrying its number, 31 start plus length past the pool's end, 18 (format 0 rule),
/// 17 and 19, then 32 offset above 65,535; last 33 not enough room".
fn each_refusal(case: RefusedCase) {
    let many: Vec<(u64, u16)> = vec![(0, 0); 5_461];
    case("5,461 entries", texts(&many), b"", 65_538, refused(30));

    let last = u64::MAX;
    for (words, start, length) in [
        ("an empty text one byte past the pool's end", 4, 0),
        ("one byte at the pool's end", 3, 1),
        ("one byte more than the pool has", 0, 4),
        ("the last byte and one more", 2, 2),
        ("the longest text", 0, 65_535),
        ("the highest start and an empty text", last, 0),
        (
            "the highest start and one byte: 2 to the 64th in sum",
            last,
            1,
        ),
        ("the highest start and two bytes", last, 2),
        ("the highest start and the longest text", last, 65_535),
        ("2 to the 64th in sum", last - 65_534, 65_535),
        ("the pool's start by its low 32 bits", 1 << 32, 1),
        ("the pool's start by its low 16 bits", 1 << 16, 1),
    ] {
        let entries = texts(&[(0, 0), (start, length)]);
        case(words, entries, b"abc", 100, refused_at(31, 1));
    }
    case(
        "no pool and one byte",
        texts(&[(0, 1)]),
        b"",
        19,
        refused_at(31, 0),
    );
    case(
        "no pool and start 1",
        texts(&[(1, 0)]),
        b"",
        18,
        refused_at(31, 0),
    );

    for (words, platform, language) in [
        ("language 0x8000 on platform 3", 3, 0x8000),
        ("language 0xFFFF on platform 0", 0, 0xFFFF),
        ("language 0x8000 on platform 239", 239, 0x8000),
        ("language 0x8000 on platform 256", 256, 0x8000),
    ] {
        let entries = keyed(&[[platform, 0, language, 0]]);
        case(words, entries, b"", 18, refused_at(18, 0));
    }

    let names = |names: &[u16]| {
        let keys: Vec<[u16; 4]> = names.iter().map(|&name| [1, 0, 0, name]).collect();
        keyed(&keys)
    };
    case("a lower key", names(&[2, 1]), b"", 30, refused_at(17, 1));
    case("an equal key", names(&[1, 1]), b"", 30, refused_at(19, 1));
    case(
        "the key two before",
        names(&[1, 2, 1]),
        b"",
        42,
        refused_at(17, 2),
    );
    case(
        "equal keys behind falling ones",
        names(&[2, 1, 1]),
        b"",
        42,
        refused_at(17, 1),
    );
    case(
        "falling keys behind equal ones",
        names(&[2, 2, 1]),
        b"",
        42,
        refused_at(19, 1),
    );
    case(
        "an equal key and another text",
        vec![entry([1, 0, 0, 1], 0, 1), entry([1, 0, 0, 1], 1, 2)],
        b"abc",
        33,
        refused_at(19, 1),
    );
    case(
        "a lower platform and higher others",
        keyed(&[[3, 1, 1, 1], [2, 9, 9, 9]]),
        b"",
        30,
        refused_at(17, 1),
    );

    let long = [0x5A; 65_535];
    for (words, places) in [
        (
            "offset 65,536 and an empty text",
            [(0, 65_535), (0, 1), (0, 0)],
        ),
        ("offset 65,536 and one byte", [(0, 1), (0, 65_535), (0, 1)]),
        ("offset 131,070", [(0, 65_535), (0, 65_535), (0, 0)]),
    ] {
        case(words, texts(&places), &long, 200_000, refused_at(32, 2));
    }

    case("no entries and 5 bytes", vec![], b"", 5, refused(33));
    case("no entries and no room", vec![], b"", 0, refused(33));
    case(
        "one byte too few",
        texts(&[(0, 3)]),
        b"abc",
        20,
        refused(33),
    );
    case(
        "room for the records alone",
        texts(&[(0, 3)]),
        b"abc",
        18,
        refused(33),
    );
    case("no room", texts(&[(0, 3)]), b"abc", 0, refused(33));
}

/// Which one is given where several hold.
fn several_refusals(case: RefusedCase) {
    let bad = 1 << 40;
    let before = entry([3, 1, 0x409, 5], 0, 1);
    let second = |words, entry, number, case: RefusedCase| {
        case(words, vec![before, entry], b"abc", 0, refused_at(number, 1));
    };
    second("31 before 18", entry([4, 1, 0x8000, 5], bad, 1), 31, case);
    second("31 before 17", entry([3, 1, 0x409, 4], bad, 1), 31, case);
    second("31 before 19", entry([3, 1, 0x409, 5], bad, 1), 31, case);
    second("18 before 17", entry([2, 1, 0x8000, 5], 0, 1), 18, case);
    second(
        "31 before 18 and 17",
        entry([2, 1, 0x8000, 5], bad, 1),
        31,
        case,
    );

    // Two entries with the faults, each of which the other could have too.
    let three = |second, third| vec![before, second, third];
    let [past, low, equal] = [
        entry([3, 1, 0x409, 6], bad, 0),
        entry([3, 1, 0x409, 4], 0, 0),
        entry([3, 1, 0x409, 5], 0, 0),
    ];
    let language = entry([4, 1, 0x8000, 0], 0, 0);
    for (words, entries, number) in [
        ("17 before the next entry's 31", three(low, past), 17),
        ("19 before the next entry's 31", three(equal, past), 19),
        ("18 before the next entry's 31", three(language, past), 18),
        ("31 before the next entry's 17", three(past, low), 31),
        ("31 before the next entry's 18", three(past, language), 31),
        ("19 before the next entry's 17", three(equal, low), 19),
    ] {
        case(words, entries, b"abc", 100, refused_at(number, 1));
    }

    // Entry 2 has offset 65,536.
    let long = [0x5A; 65_535];
    let far = |entries: &[Entry]| {
        let mut all = vec![entry([1, 0, 0, 0], 0, 65_535), entry([1, 0, 0, 1], 0, 1)];
        all.extend(entries);
        all
    };
    for (words, entries, number) in [
        ("31 before 32", far(&[entry([1, 0, 0, 2], bad, 0)]), 31),
        ("18 before 32", far(&[entry([4, 0, 0x8000, 0], 0, 0)]), 18),
        ("17 before 32", far(&[entry([0, 0, 0, 2], 0, 0)]), 17),
        ("19 before 32", far(&[entry([1, 0, 0, 1], 0, 0)]), 19),
        (
            "32 before the next entry's 31",
            far(&[entry([1, 0, 0, 2], 0, 0), entry([1, 0, 0, 3], bad, 0)]),
            32,
        ),
        (
            "32 before the next entry's 17",
            far(&[entry([1, 0, 0, 2], 0, 0), entry([1, 0, 0, 0], 0, 0)]),
            32,
        ),
    ] {
        case(words, entries, &long, 0, refused_at(number, 2));
    }

    // No room, and a fault in the last entry.
    let mut most = texts(&vec![(0, 0); 5_460]);
    most[5_459].start = 1;
    case(
        "31 in the last of 5,460, and no room",
        most.clone(),
        b"",
        0,
        refused_at(31, 5_459),
    );
    most[5_459] = most[5_458];
    case(
        "19 in the last of 5,460, and no room",
        most.clone(),
        b"",
        9,
        refused_at(19, 5_459),
    );
    // One entry more than may be, with every fault, and no room.
    most.push(past);
    most[0] = language;
    most[1].length = 65_535;
    most[2].length = 65_535;
    case("30 before all others", most, b"", 0, refused(30));
}
