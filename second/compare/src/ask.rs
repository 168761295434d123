//! Asks all sides the same question and stops at the first difference.

use std::fmt::Display;
use std::panic::{self, AssertUnwindSafe};

use crate::faults::{self, Front, Refused};
use crate::looked;
use crate::met::{self, Thing};
use crate::numbers::Numbers;
use crate::pair::Marks;
use crate::question::{shown, Function, Question, Words};
use crate::raw;
use crate::records;
use crate::sides::{by_crate, by_second};
use crate::tally::Tally;

/// The levels asked at when everything is asked.
pub const LEVELS: [u32; 8] = [0, 1, 2, 3, 4, 5, 6, u32::MAX];
/// Bytes before and after a lent room that nobody may touch.
pub const MARGIN: usize = 24;

/// A difference, or an answer that the papers have no place for, in whole lines.
#[derive(Debug)]
pub struct Difference(pub String);

/// The result of the questions; a panic of the second program or of the crate is a difference too.
pub fn caught(questions: impl FnOnce() -> Result<(), Difference>) -> Result<(), Difference> {
    match panic::catch_unwind(AssertUnwindSafe(questions)) {
        Ok(result) => result,
        Err(_) => Err(Difference(
            "a side panicked; its message stands above\n".to_string(),
        )),
    }
}

/// How much is asked of a table.
#[derive(Clone, Copy, PartialEq, Eq)]
pub enum Amount {
    /// Every question at every level, every number, every key and all its near misses.
    Everything,
    /// A choice that depends on the table: see the README.
    Some,
}

/// The state of the comparison.
pub struct Asker {
    pub tally: Tally,
    /// Made at the first comparison of two tables.
    pub marks: Option<Marks>,
}

impl Asker {
    /// An asker that has asked nothing.
    pub fn new() -> Asker {
        Asker {
            tally: Tally::new(),
            marks: None,
        }
    }

    /// Asks one question of all sides. Gives the words that all answered.
    pub fn ask(&mut self, table: &[u8], question: Question) -> Result<Words, Difference> {
        let function = question.function();
        let second = by_second::words(table, question);
        let archive = raw::words(table, question);
        if archive != second {
            return Err(differ(&question, function, second, "archive", archive));
        }
        let krate = by_crate::words(table, question);
        if krate != second {
            return Err(differ(&question, function, second, "crate", krate));
        }
        self.counted(&question, function, second, version_and_fs_type(table))
    }

    /// Asks one question on a 'name' table, of which the comparison's own reading says this. All sides have to say the same.
    pub fn ask_name(
        &mut self,
        table: &[u8],
        question: Question,
        read: Option<Refused>,
    ) -> Result<Words, Difference> {
        let words = self.ask(table, question)?;
        let function = question.function();
        as_read(&question, function, words, read.map(own_words))?;
        let mut met = |thing| self.tally.met.add(thing);
        match (read, Front::of(table)) {
            (Some(refused), _) => {
                met(Thing::Passed(function, refused.0));
                met::of_refused(table, question, refused, &mut met);
            }
            (None, Ok(front)) => {
                let said = records::against(&front, question, words)
                    .or_else(|| looked::against(&front, question, words));
                if let Some(said) = said {
                    return Err(otherwise(&question, function, words, &said));
                }
                met::of_answer(&front, question, words, &mut met);
            }
            (None, Err(_)) => {}
        }
        Ok(words)
    }

    /// Counts a call that all sides answered with these words.
    pub fn counted(
        &mut self,
        question: &dyn Display,
        function: Function,
        words: Words,
        version_and_fs_type: [i64; 2],
    ) -> Result<Words, Difference> {
        match self.tally.count(function, words, version_and_fs_type) {
            Ok(()) => Ok(words),
            Err(fault) => Err(Difference(format!(
                "{}: {fault}\n  all sides answer: {}\n",
                question,
                shown(function, words)
            ))),
        }
    }

    /// Writes 48 numbers with a room of this length on all sides, and compares the room and the bytes around it.
    pub fn write(
        &mut self,
        numbers: &[i64; 48],
        length: usize,
        pattern: u8,
    ) -> Result<Words, Difference> {
        let (words, _) = same_rooms(
            &format_args!("write with {length} bytes of room"),
            Function::Write,
            length,
            pattern,
            &[
                &|room| by_second::write(numbers, room),
                &|room| raw::write(numbers, room),
                &|room| by_crate::write(numbers, room),
            ],
        )?;
        self.counted(
            &format_args!("write with {length} bytes of room"),
            Function::Write,
            words,
            [numbers[0], numbers[4]],
        )
    }

    /// Rewrites a table with a room of this length on all sides, and compares the room and the bytes around it.
    pub fn rewrite(
        &mut self,
        table: &[u8],
        length: usize,
        pattern: u8,
    ) -> Result<Words, Difference> {
        let (words, _) = same_rooms(
            &format_args!("rewrite with {length} bytes of room"),
            Function::Rewrite,
            length,
            pattern,
            &[
                &|room| by_second::rewrite(table, room),
                &|room| raw::rewrite(table, room),
                &|room| by_crate::rewrite(table, room),
            ],
        )?;
        self.counted(
            &format_args!("rewrite with {length} bytes of room"),
            Function::Rewrite,
            words,
            version_and_fs_type(table),
        )
    }

    /// Asks the four 'name' questions.
    pub fn name(
        &mut self,
        table: &[u8],
        amount: Amount,
        numbers: &mut Numbers,
    ) -> Result<(), Difference> {
        self.tally.names[0] += 1;
        let read = faults::refused(table);
        let accepted = self.ask_name(table, Question::NameCheck, read)?[0] == 0;
        self.tally.names[1] += u64::from(accepted);
        self.ask_name(table, Question::PostScript, read)?;
        self.ask_name(table, Question::Version, read)?;
        met::of_name(table, &mut |thing| self.tally.met.add(thing));

        let fixed = [
            [1, 0, 0, 6],
            [3, 1, 0x409, 6],
            [3, 1, 0x409, 5],
            [1, 0, 0, 5],
            [0, 0, 0, 0],
            [65_535; 4],
            [65_536; 4],
            [u32::MAX; 4],
        ];
        let keys = stored_keys(table);
        match amount {
            Amount::Everything => {
                for key in fixed.iter().chain(&keys) {
                    self.key_and_near_misses(table, *key, read)?;
                }
            }
            // A refused table passes its refusal on, whatever the key is.
            Amount::Some if !accepted => {
                let mut asked = vec![numbers.pick(&fixed)];
                if !keys.is_empty() {
                    asked.push(numbers.pick(&keys));
                }
                // The key of the record that is refused.
                if let Some((15 | 17..=19 | 27, Some(record))) = read {
                    asked.push(keys[record]);
                }
                for key in asked {
                    self.ask_name(table, Question::Lookup(key), read)?;
                }
            }
            Amount::Some => {
                for key in fixed {
                    self.ask_name(table, Question::Lookup(key), read)?;
                }
                if keys.len() <= 12 {
                    for key in keys {
                        self.key_and_near_misses(table, key, read)?;
                    }
                } else {
                    // The two ends, the numbers about one byte's, and some between.
                    self.key_and_near_misses(table, keys[0], read)?;
                    self.key_and_near_misses(table, keys[keys.len() - 1], read)?;
                    for &key in keys.iter().skip(255).take(2) {
                        self.ask_name(table, Question::Lookup(key), read)?;
                    }
                    for _ in 0..6 {
                        let key = numbers.pick(&keys);
                        self.ask_name(table, Question::Lookup(key), read)?;
                        let part = numbers.below(4);
                        let mut near = key;
                        near[part] = numbers.pick(&near_parts(key[part]));
                        self.ask_name(table, Question::Lookup(near), read)?;
                    }
                    self.on_the_way(table, &keys, read, numbers)?;
                }
            }
        }
        Ok(())
    }

    /// Looks up, in an accepted table, the keys of the records that document 02's Ask 8 looks at on a way taken at random, so one
    /// for each count; a key beside the last of them; and for each part a key that has a number above 65,535 there.
    fn on_the_way(
        &mut self,
        table: &[u8],
        keys: &[[u32; 4]],
        read: Option<Refused>,
        numbers: &mut Numbers,
    ) -> Result<(), Difference> {
        let (mut low, mut high) = (0, keys.len());
        let mut beside = [0; 4];
        while low < high {
            let half = (low + high) / 2;
            self.ask_name(table, Question::Lookup(keys[half]), read)?;
            beside = keys[half];
            if numbers.chance(1, 2) {
                (low, beside[3]) = (half + 1, beside[3] + 1);
            } else {
                (high, beside[3]) = (half, beside[3].saturating_sub(1));
            }
        }
        self.ask_name(table, Question::Lookup(beside), read)?;
        for part in 0..4 {
            let mut key = numbers.pick(keys);
            let more = 65_536 + numbers.below((u32::MAX - 65_536) as usize) as u32;
            key[part] = numbers.pick(&[65_536, key[part] + 65_536, more, u32::MAX]);
            self.ask_name(table, Question::Lookup(key), read)?;
        }
        Ok(())
    }

    fn key_and_near_misses(
        &mut self,
        table: &[u8],
        key: [u32; 4],
        read: Option<Refused>,
    ) -> Result<(), Difference> {
        self.ask_name(table, Question::Lookup(key), read)?;
        for part in 0..4 {
            for near in near_parts(key[part]) {
                let mut other = key;
                other[part] = near;
                self.ask_name(table, Question::Lookup(other), read)?;
            }
        }
        let [p, e, l, n] = key;
        for other in [
            key.map(|part| part.wrapping_add(65_536)),
            [n, l, e, p],
            [p, e, n, l],
        ] {
            self.ask_name(table, Question::Lookup(other), read)?;
        }
        Ok(())
    }

    /// Asks the OS/2 questions, rewrites the table, and writes the numbers that it holds.
    pub fn os2(
        &mut self,
        table: &[u8],
        amount: Amount,
        numbers: &mut Numbers,
    ) -> Result<(), Difference> {
        self.tally.os2s[0] += 1;
        let mut somewhere = false;
        // The levels at which every number is asked for.
        let chosen = [numbers.below(6) as u32, numbers.below(6) as u32];
        for level in LEVELS {
            let accepted = self.ask(table, Question::Os2Check(level))?[0] == 0;
            somewhere |= accepted;
            self.tally.os2s[1] += u64::from(accepted && level == 5);
            self.ask(table, Question::Rights(level))?;
            self.ask(table, Question::StylePosition(level))?;
            self.ask(table, Question::OpticalSizes(level))?;
            if amount == Amount::Everything || (accepted && chosen.contains(&level)) {
                self.every_number(table, level)?;
            } else {
                self.some_numbers(table, level, numbers)?;
            }
        }
        self.tally.os2s[2] += u64::from(somewhere);

        let pattern = numbers.below(256) as u8;
        let size = match table {
            [high, low, ..] => second::os2::size(u32::from(u16::from_be_bytes([*high, *low]))),
            _ => 100,
        };
        for length in [size + 1 + numbers.below(40), size, size - 1, 0] {
            self.rewrite(table, length, pattern)?;
        }
        if amount == Amount::Everything {
            for length in 0..=size + 40 {
                self.rewrite(table, length, pattern)?;
            }
        }

        // The numbers that the table holds, as far as level 5 reads them. For fields that it lacks, a number that would not
        // fit them.
        let mut values = [i64::MIN; 48];
        for (number, value) in values.iter_mut().enumerate() {
            match second::os2::field(5, table, number as u32) {
                Ok(second::os2::Answer::Value(read)) => *value = read,
                Ok(_) => {}
                Err(_) => return Ok(()),
            }
        }
        self.write(&values, size + numbers.below(3), pattern)?;
        Ok(())
    }

    fn every_number(&mut self, table: &[u8], level: u32) -> Result<(), Difference> {
        for number in (0..=49).chain(OUT_OF_RANGE) {
            self.ask(table, Question::Field(level, number))?;
        }
        for number in (0..=17).chain(OUT_OF_RANGE) {
            self.ask(table, Question::SelectionBit(level, number))?;
        }
        for number in (0..=130).chain(OUT_OF_RANGE) {
            self.ask(table, Question::UnicodeBit(level, number))?;
        }
        for number in (0..=66).chain(OUT_OF_RANGE) {
            self.ask(table, Question::CodePageBit(level, number))?;
        }
        Ok(())
    }

    fn some_numbers(
        &mut self,
        table: &[u8],
        level: u32,
        numbers: &mut Numbers,
    ) -> Result<(), Difference> {
        let out = numbers.pick(&OUT_OF_RANGE);
        for number in [numbers.below(48) as u32, 48, out] {
            self.ask(table, Question::Field(level, number))?;
        }
        for number in [numbers.below(10) as u32, 10, out] {
            self.ask(table, Question::SelectionBit(level, number))?;
        }
        for number in [numbers.below(128) as u32, 128, out] {
            self.ask(table, Question::UnicodeBit(level, number))?;
        }
        for number in [numbers.below(64) as u32, 64, out] {
            self.ask(table, Question::CodePageBit(level, number))?;
        }
        Ok(())
    }

    /// Writes 48 numbers with rooms that are longer than needed, exactly as long, one byte shorter, empty, and of a length
    /// taken at random.
    pub fn numbers(
        &mut self,
        values: &[i64; 48],
        amount: Amount,
        numbers: &mut Numbers,
    ) -> Result<(), Difference> {
        self.tally.writes[0] += 1;
        let pattern = numbers.below(256) as u8;
        let size = match u32::try_from(values[0]) {
            Ok(version) => second::os2::size(version),
            Err(_) => 100,
        };
        let written = self.write(values, size + 1 + numbers.below(40), pattern)?;
        self.tally.writes[1] += u64::from(written[0] == 0);
        for length in [size, size - 1, 0, 70 + numbers.below(40)] {
            self.write(values, length, pattern)?;
        }
        if amount == Amount::Everything {
            for length in 0..=size + 40 {
                self.write(values, length, pattern)?;
            }
        }
        Ok(())
    }
}

/// Numbers that no field and no bit has.
const OUT_OF_RANGE: [u32; 7] = [255, 256, 65_535, 65_536, 65_536 + 2, 1 << 31, u32::MAX];

/// The message of a difference between the second program and another side.
pub fn differ(
    question: &dyn Display,
    function: Function,
    second: Words,
    side: &str,
    words: Words,
) -> Difference {
    Difference(format!(
        "{question}: the answers differ\n  {:8} {}\n  {:8} {}\n",
        "second:",
        shown(function, second),
        format!("{side}:"),
        shown(function, words)
    ))
}

/// The words of a refusal by the comparison's own reading.
pub fn own_words((number, place): Refused) -> Words {
    let mut words = [0; 7];
    words[0] = u64::from(number);
    words[1] = u64::from(place.is_some());
    words[2] = place.unwrap_or(0) as u64;
    words
}

/// What all sides answered about 'name' tables has to be the refusal that the comparison's own reading gives; where that gives
/// none, it has to be an answer or a refusal that is not a table's.
pub fn as_read(
    question: &dyn Display,
    function: Function,
    words: Words,
    read: Option<Words>,
) -> Result<(), Difference> {
    let said = match read {
        Some(read) if words != read => shown(function, read),
        None if faults::of_table(words[0]) => "accepted".to_string(),
        _ => return Ok(()),
    };
    Err(otherwise(question, function, words, &said))
}

/// The message where all sides agree and the comparison's own reading says something else.
pub fn otherwise(
    question: &dyn Display,
    function: Function,
    words: Words,
    said: &str,
) -> Difference {
    Difference(format!(
        "{question}: the sides agree, but the comparison reads the papers otherwise\n  comparison: {said}\n  all sides:  {}\n",
        shown(function, words)
    ))
}

/// One side's writing into a room.
pub type Writing<'a> = &'a dyn Fn(&mut [u8]) -> Words;

/// Lends each side a room of the same length and bytes, and compares their words, the rooms and the bytes around them. Gives
/// the words, and what all sides leave in the room, with the bytes around it.
pub fn same_rooms(
    question: &dyn Display,
    function: Function,
    length: usize,
    pattern: u8,
    sides: &[Writing; 3],
) -> Result<(Words, Vec<u8>), Difference> {
    let before: Vec<u8> = (0..length + 2 * MARGIN)
        .map(|place| (place as u8).wrapping_mul(37).wrapping_add(pattern))
        .collect();
    let mut expected = [0; 7];
    let mut left = Vec::new();
    for (side, (title, writing)) in ["second", "archive", "crate"].iter().zip(sides).enumerate() {
        let mut room = before.clone();
        let words = writing(&mut room[MARGIN..MARGIN + length]);
        if side == 0 {
            (expected, left) = (words, room);
            continue;
        }
        if words != expected {
            return Err(differ(question, function, expected, title, words));
        }
        if room != left {
            let place = (0..before.len())
                .find(|&place| room[place] != left[place])
                .unwrap_or(0);
            return Err(Difference(format!(
                "{question}: the rooms differ at byte {}, counted from the room's start\n  {:8} {}\n  {:8} {}\n",
                place as i64 - MARGIN as i64,
                "second:",
                left[place],
                format!("{title}:"),
                room[place]
            )));
        }
    }
    // What the papers say of lent memory, of all sides at once.
    let touched = match expected[0] {
        0 => expected[3] as usize,
        _ => 0,
    };
    if touched > length {
        return Err(Difference(format!(
            "{question}: all sides say that they wrote {touched} bytes\n"
        )));
    }
    let (from, to) = (MARGIN, MARGIN + touched);
    if left[..from] != before[..from] || left[to..] != before[to..] {
        let outside = (0..from).chain(to..before.len());
        let mut changed = outside.filter(|&place| left[place] != before[place]);
        return Err(Difference(format!(
            "{}: byte {}, counted from the room's start, is not to be touched, and all sides change it\n",
            question,
            changed.next().unwrap_or(0) as i64 - MARGIN as i64
        )));
    }
    Ok((expected, left))
}

/// The 16-bit number at a place, or 0 where the table's bytes don't go so far.
pub fn word(table: &[u8], at: usize) -> u32 {
    match table.get(at..at + 2) {
        Some(two) => u32::from(u16::from_be_bytes([two[0], two[1]])),
        None => 0,
    }
}

/// The version and the fsType of an OS/2 table. Of a 'name' table they mean nothing, and nothing is made of them.
pub fn version_and_fs_type(table: &[u8]) -> [i64; 2] {
    [0, 8].map(|at| i64::from(word(table, at)))
}

/// The keys of the records as far as the table's bytes go, accepted or not.
pub fn stored_keys(table: &[u8]) -> Vec<[u32; 4]> {
    let count = word(table, 2) as usize;
    (0..count)
        .map(|record| 6 + 12 * record)
        .take_while(|at| at + 12 <= table.len())
        .map(|at| [0, 2, 4, 6].map(|part| word(table, at + part)))
        .collect()
}

/// The near misses of one part of a key.
pub fn near_parts(part: u32) -> [u32; 6] {
    [
        part.wrapping_sub(1),
        part.wrapping_add(1),
        part.wrapping_add(65_536),
        part | 1 << 31,
        part ^ 0x8000,
        u32::MAX,
    ]
}
