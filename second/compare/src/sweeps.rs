//! Sweeps: every 16-bit number in the places of a small table that the rules look at, every string about the end of small
//! storages, every order of few keys, every cut of some tables, every field of the writer at the edges of its range, and every
//! setting of the writer's fsType.

use second::os2::{size, FIELDS};

use crate::ask::{caught, Asker, Difference, LEVELS};
use crate::faults;
use crate::make::{range, Made};
use crate::question::Question;

/// A difference, the table it is on, and the sweep's words.
pub struct Found {
    pub difference: Difference,
    pub made: Made,
    pub sweep: String,
}

/// A group of sweeps.
pub type Sweep = fn(&mut Asker) -> Result<(), Found>;

/// The groups, each with its words.
pub const SWEEPS: [(&str, Sweep); 5] = [
    ("numbers in name tables", name),
    ("strings and keys of name tables", records),
    ("numbers in OS/2 tables", os2),
    ("cuts", cuts),
    ("the writer's fields", writer),
];

/// Asks the questions of a table.
pub fn ask(
    asker: &mut Asker,
    sweep: &str,
    made: &Made,
    questions: &[Question],
) -> Result<(), Found> {
    caught(|| {
        match made {
            Made::Name(table) => {
                let read = faults::refused(table);
                for &question in questions {
                    asker.ask_name(table, question, read)?;
                }
            }
            Made::Os2(table) => {
                for &question in questions {
                    asker.ask(table, question)?;
                }
            }
            _ => {}
        }
        Ok(())
    })
    .map_err(|difference| found(difference, made, sweep))
}

pub fn found(difference: Difference, made: &Made, sweep: &str) -> Found {
    Found {
        difference,
        made: made.clone(),
        sweep: sweep.to_string(),
    }
}

/// The bytes of a table that is given as 16-bit numbers, and more bytes after them.
pub fn table(words: &[u16], after: &[u8]) -> Vec<u8> {
    let mut bytes: Vec<u8> = words.iter().flat_map(|word| word.to_be_bytes()).collect();
    bytes.extend(after);
    bytes
}

/// Puts every 16-bit number at each of the places, and asks the questions of each table.
fn every_word(
    asker: &mut Asker,
    sweep: &str,
    mut made: Made,
    places: &[usize],
    questions: &[Question],
) -> Result<(), Found> {
    for &place in places {
        let (Made::Name(bytes) | Made::Os2(bytes)) = &made else {
            return Ok(());
        };
        let held = [bytes[place], bytes[place + 1]];
        for number in 0..=u16::MAX {
            put(&mut made, place, number.to_be_bytes());
            ask(asker, sweep, &made, questions)?;
        }
        put(&mut made, place, held);
    }
    Ok(())
}

fn put(made: &mut Made, place: usize, two: [u8; 2]) {
    if let Made::Name(bytes) | Made::Os2(bytes) = made {
        bytes[place..place + 2].copy_from_slice(&two);
    }
}

/// Format 0, both PostScript records and both version records.
pub fn name_0() -> Vec<u8> {
    let words = [
        [0, 4, 54].as_slice(),
        &[1, 0, 0, 5, 3, 0],
        &[1, 0, 0, 6, 2, 3],
        &[3, 1, 0x409, 5, 6, 5],
        &[3, 1, 0x409, 6, 4, 11],
    ]
    .concat();
    table(&words, b"2.5Ab\x003\x00.\x006\x00A\x00b")
}

/// Format 1, two records that refer to tags, three tags.
pub fn name_1() -> Vec<u8> {
    let words = [
        [1, 3, 56].as_slice(),
        &[0, 0, 0x8000, 1, 1, 0],
        &[1, 0, 0, 5, 3, 1],
        &[3, 1, 0x8002, 1, 2, 2],
        &[3, 1, 0, 2, 2, 0, 2, 2],
    ]
    .concat();
    table(&words, b"a1.5")
}

fn name(asker: &mut Asker) -> Result<(), Found> {
    let all = [Question::NameCheck, Question::PostScript, Question::Version];
    let places: Vec<usize> = (0..27).map(|word| 2 * word).collect();
    let sweep = "every number in the header and the records of a format 0 table";
    every_word(asker, sweep, Made::Name(name_0()), &places, &all)?;
    let places: Vec<usize> = (0..28).map(|word| 2 * word).collect();
    let sweep = "every number in the header, the records and the tags of a format 1 table";
    every_word(asker, sweep, Made::Name(name_1()), &places, &all[..1])?;

    // Two-byte characters of the version 3.6 and of the PostScript name; one-byte characters two at a time.
    let sweep = "every character of the version and PostScript strings";
    let places: Vec<usize> = (54..68).collect();
    every_word(asker, sweep, Made::Name(name_0()), &places, &all[1..])?;
    // The same where only the one-byte version counts.
    let mut one = name_0();
    one[37] = 4;
    every_word(asker, sweep, Made::Name(one), &[54, 55], &all[2..])?;

    // Every language on the platforms at the edges, in both formats.
    for platform in [0, 3, 239, 240, 255, 256, 65_535] {
        let sweep = "every language number on a platform";
        let bytes = table(&[0, 1, 18, platform, 0, 0, 0, 0, 0], b"");
        every_word(asker, sweep, Made::Name(bytes), &[10], &all[..1])?;
        let bytes = table(
            &[1, 1, 32, platform, 0, 0, 0, 0, 0, 3, 0, 0, 0, 0, 0, 0],
            b"",
        );
        every_word(asker, sweep, Made::Name(bytes), &[10], &all[..1])?;
    }

    // Every number as each part of a key that is looked up.
    let made = Made::Name(name_0());
    for part in 0..4 {
        for number in 0..=65_536 {
            for more in [0, 65_536, 1 << 31] {
                let mut key = [3, 1, 0x409, 5];
                key[part] = number + more;
                let sweep = "every number as a part of a key";
                ask(asker, sweep, &made, &[Question::Lookup(key)])?;
            }
        }
    }
    Ok(())
}

/// A table with these records, each of a key, a length and an offset, and a storage of so many bytes; in format 1 where tags are
/// given, each of a length and an offset.
fn table_of(records: &[(Key, [u16; 2])], tags: Option<&[[u16; 2]]>, storage: u16) -> Vec<u8> {
    let mut words = vec![u16::from(tags.is_some()), records.len() as u16, 0];
    for (key, string) in records {
        words.extend(key);
        words.extend(string);
    }
    if let Some(tags) = tags {
        words.push(tags.len() as u16);
        words.extend(tags.concat());
    }
    words[2] = 2 * words.len() as u16;
    table(&words, &b"2.51"[..usize::from(storage)])
}

pub type Key = [u16; 4];

/// Every question on a 'name' table, with lookups of some keys.
pub fn name_questions(keys: &[Key]) -> Vec<Question> {
    let mut questions = vec![Question::NameCheck, Question::PostScript, Question::Version];
    questions.extend(keys.iter().map(|key| Question::Lookup(key.map(u32::from))));
    questions
}

/// What is wrong with a record: every string about the end of small storages, every order of few keys, and both at once.
fn records(asker: &mut Asker) -> Result<(), Found> {
    let rising: [Key; 3] = [[1, 0, 0, 5], [1, 0, 0, 6], [3, 1, 0x409, 6]];
    let asked = name_questions(&[rising[0], rising[2], [0, 0, 0, 0]]);
    let sweep = "every string about the end of a small storage";
    for storage in 0..=4 {
        let near: Vec<u16> = (0..=storage + 3).chain(65_530..=65_535).collect();
        for number in 0..3 {
            for &offset in &near {
                for &length in &near {
                    // At this record, with fine ones before and behind it.
                    let mut records = rising.map(|key| (key, [0, 0]));
                    records[number].1 = [length, offset];
                    for tags in [None, Some(&[[0, 0]][..])] {
                        let made = Made::Name(table_of(&records, tags, storage));
                        ask(asker, sweep, &made, &asked)?;
                    }
                    // At this tag.
                    let mut tags = [[0, 0]; 3];
                    tags[number] = [length, offset];
                    records[number].1 = [0, 0];
                    let made = Made::Name(table_of(&records, Some(&tags), storage));
                    ask(asker, sweep, &made, &asked)?;
                }
            }
        }
    }

    // Up to three keys out of nine, which rise here, in any order, also one of them several times; then four out of four and
    // five out of three.
    let keys: [Key; 9] = [
        [0, 9, 9, 9],
        [1, 0, 0, 5],
        [1, 0, 0, 6],
        [1, 0, 1, 5],
        [1, 1, 0, 5],
        [2, 0, 0, 0],
        [3, 1, 0x409, 6],
        [3, 1, 0x8000, 6],
        [0xFFFF, 0xFFFF, 0x7FFF, 0xFFFF],
    ];
    let sweep = "every order of few keys";
    for (count, keys) in [
        (1, &keys[..]),
        (2, &keys[..]),
        (3, &keys[..]),
        (4, &keys[1..5]),
        (5, &keys[1..4]),
    ] {
        for choice in 0..keys.len().pow(count) {
            let records: Vec<(Key, [u16; 2])> = (0..count)
                .map(|place| keys[choice / keys.len().pow(place) % keys.len()])
                .map(|key| (key, [1, 0]))
                .collect();
            for tags in [None, Some(&[[0, 0]][..])] {
                let made = Made::Name(table_of(&records, tags, 1));
                ask(asker, sweep, &made, &asked)?;
            }
        }
    }

    // Three records, each with one of four keys, of which the last has a language that format 0 does not allow, and one of five
    // strings: inside, empty at the end, from the end and over, beyond it and empty, beyond it.
    let sweep = "every order of few keys with strings about the end";
    let keys: [Key; 4] = [[1, 0, 0, 5], [1, 0, 0, 6], [1, 0, 1, 0], [1, 0, 0x8000, 0]];
    let strings = [[1, 0], [0, 1], [1, 1], [0, 2], [1, 2]];
    let asked = name_questions(&keys[..1]);
    for choice in 0..8_000 {
        let records = [choice / 400, choice / 20 % 20, choice % 20]
            .map(|one| (keys[one / 5], strings[one % 5]));
        for tags in [None, Some([[1, 0]]), Some([[0, 2]]), Some([[2, 0]])] {
            let tags = tags.as_ref().map(|tags| &tags[..]);
            let made = Made::Name(table_of(&records, tags, 1));
            ask(asker, sweep, &made, &asked)?;
        }
    }
    Ok(())
}

/// A table of zero bytes but weight 400 and width 5; in version 5, sizes 0 and 65,535.
pub fn os2_of(version: u16) -> Vec<u8> {
    let mut bytes = vec![0; size(u32::from(version))];
    bytes[..2].copy_from_slice(&version.to_be_bytes());
    bytes[4..8].copy_from_slice(&[1, 144, 0, 5]);
    if version >= 5 {
        bytes[98..100].fill(0xFF);
    }
    bytes
}

fn os2(asker: &mut Asker) -> Result<(), Found> {
    let rights: Vec<Question> = (0..=5)
        .flat_map(|level| [Question::Os2Check(level), Question::Rights(level)])
        .collect();
    for version in 0..=6 {
        let concerned: [(usize, &[Question]); 4] = [
            (4, &[Question::Os2Check(5), Question::StylePosition(5)]),
            (6, &[Question::Os2Check(5), Question::StylePosition(5)]),
            (8, &rights),
            (
                62,
                &[
                    Question::Os2Check(5),
                    Question::Os2Check(3),
                    Question::SelectionBit(5, 6),
                    Question::SelectionBit(4, 9),
                ],
            ),
        ];
        for (place, questions) in concerned {
            let sweep = "every weight, width, fsType and fsSelection";
            let made = Made::Os2(os2_of(version));
            every_word(asker, sweep, made, &[place], questions)?;
        }
    }
    let sweep = "every optical size";
    let sizes = [Question::OpticalSizes(5), Question::Os2Check(5)];
    for (lower, upper) in [
        (0, 0xFFFF),
        (1, 0xFFFF),
        (20, 200),
        (0, 1),
        (0xFFFE, 0xFFFF),
    ] {
        let mut bytes = os2_of(5);
        bytes[96..100].copy_from_slice(&table(&[lower, upper], b""));
        every_word(asker, sweep, Made::Os2(bytes), &[96, 98], &sizes)?;
    }
    for lower in 0..=u16::MAX {
        for upper in [lower, lower.wrapping_add(1), lower.wrapping_sub(1)] {
            let mut bytes = os2_of(5);
            bytes[96..100].copy_from_slice(&table(&[lower, upper], b""));
            ask(asker, sweep, &Made::Os2(bytes), &sizes)?;
        }
    }
    let sweep = "every version";
    let checks = [0, 1, 2, 4, 5].map(Question::Os2Check);
    for length in [77, 85, 95, 99, 100] {
        let mut bytes = os2_of(5);
        bytes.truncate(length);
        every_word(asker, sweep, Made::Os2(bytes), &[0], &checks)?;
    }
    // Every number in every field of two bytes.
    for (number, field) in FIELDS.iter().enumerate() {
        if field.bytes == 2 {
            let sweep = "every number in a field";
            let made = Made::Os2(os2_of(5));
            let questions = [Question::Field(5, number as u32)];
            every_word(asker, sweep, made, &[field.offset], &questions)?;
        }
    }
    Ok(())
}

/// Every length of some tables, with bytes after them.
fn cuts(asker: &mut Asker) -> Result<(), Found> {
    for mut bytes in [name_0(), name_1()] {
        bytes.extend([0x41; 30]);
        for length in 0..=bytes.len() {
            let made = Made::Name(bytes[..length].to_vec());
            let questions = [Question::NameCheck, Question::PostScript, Question::Version];
            ask(asker, "every cut of a name table", &made, &questions)?;
        }
    }
    for version in 0..=7 {
        let mut bytes = os2_of(version);
        bytes.extend([0x41; 30]);
        for length in 0..=bytes.len() {
            let made = Made::Os2(bytes[..length].to_vec());
            for level in LEVELS {
                let questions = [
                    Question::Os2Check(level),
                    Question::Field(level, 38),
                    Question::Field(level, 40),
                    Question::Field(level, 45),
                    Question::Field(level, 47),
                    Question::CodePageBit(level, 63),
                    Question::OpticalSizes(level),
                ];
                ask(asker, "every cut of an OS/2 table", &made, &questions)?;
            }
            for room in [
                0,
                size(u32::from(version)) - 1,
                size(u32::from(version)),
                120,
            ] {
                asker
                    .rewrite(&bytes[..length], room, 0x5A)
                    .map_err(|difference| found(difference, &made, "every cut of an OS/2 table"))?;
            }
        }
    }
    Ok(())
}

/// The numbers of a table of zero bytes but weight 400, width 5 and sizes 0 and 65,535.
fn values_of(version: i64) -> [i64; 48] {
    let mut values = [0; 48];
    (values[0], values[2], values[3], values[47]) = (version, 400, 5, 65_535);
    values
}

/// Rooms about a version's size.
fn rooms(needed: usize) -> [usize; 4] {
    [needed + 7, needed, needed - 1, 0]
}

/// Every version, field and number at the edges of the field; then every version and setting of fsType bits 0 to 3, 8 and 9,
/// and what was written is rewritten. All with rooms about the version's size.
fn writer(asker: &mut Asker) -> Result<(), Found> {
    for version in -1..=6 {
        for field in 0..48 {
            let (lowest, highest) = range(field);
            let edges = [
                lowest - 1,
                lowest,
                highest,
                highest + 1,
                highest + 65_536,
                i64::MIN,
                i64::MAX,
            ];
            for edge in edges {
                let mut values = values_of(version);
                values[field] = edge;
                for room in rooms(size(version.clamp(0, 5) as u32)) {
                    asker.write(&values, room, 0xA5).map_err(|difference| {
                        let made = Made::Numbers(Box::new(values));
                        found(difference, &made, "every field of the writer at its edges")
                    })?;
                }
            }
        }
    }
    let sweep = "every setting of the writer's fsType";
    for version in 0..=5 {
        for fs_type in (0..0x400).filter(|fs_type| fs_type & 0xF0 == 0) {
            let mut values = values_of(version);
            values[4] = fs_type;
            let needed = size(version as u32);
            for room in rooms(needed) {
                asker.write(&values, room, 0xA5).map_err(|difference| {
                    found(difference, &Made::Numbers(Box::new(values)), sweep)
                })?;
            }
            let mut table = vec![0; needed];
            if second::os2::write(&values, &mut table).is_ok() {
                for room in rooms(needed) {
                    asker.rewrite(&table, room, 0xA5).map_err(|difference| {
                        found(difference, &Made::Os2(table.clone()), sweep)
                    })?;
                }
            }
        }
    }
    Ok(())
}
