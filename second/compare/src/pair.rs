//! Compares two tables on all sides: with rooms about the number of differences, with the sides exchanged, and against what
//! the archive's other functions answer.

use std::fmt::{self, Display};

use crate::ask::{
    as_read, differ, own_words, stored_keys, version_and_fs_type, Amount, Asker, Difference,
};
use crate::faults;
use crate::met::{self, Thing};
use crate::numbers::Numbers;
use crate::question::{Function, Question, Words};
use crate::raw;
use crate::sides::{by_crate, by_second};

/// Numbers before and after a lent room that nobody may touch.
const MARGIN: usize = 12;
/// Rows before and after those that are lent to the crate.
const MARGIN_ROWS: usize = 3;
/// Up to so many records in both tables every key is looked up.
const FEW_RECORDS: usize = 24;
/// Up to so many rows every count of numbers is tried as a room, where everything is asked.
const FEW_ROWS: usize = 60;

/// Levels above 5 that two tables are compared at: the next one, two that are levels in their low 8 or 16 bits, and two far
/// away.
pub const LEVELS_ABOVE: [u32; 5] = [6, 256 + 5, 65_536 + 5, 1 << 31, u32::MAX];

/// What the two tables are.
#[derive(Clone, Copy, Debug, PartialEq, Eq)]
pub enum Of {
    /// 'OS/2' tables at a level.
    Os2(u32),
    /// 'name' tables.
    Name,
}

/// Two tables to compare.
#[derive(Clone, Copy)]
pub struct Pair<'a> {
    pub of: Of,
    pub left: &'a [u8],
    pub right: &'a [u8],
}

/// A row's five numbers.
pub type Row = [i64; 5];

/// What all sides answered: the words, and the rows that were written.
pub type Listed = (Words, Vec<Row>);

impl Pair<'_> {
    /// The function that compares them.
    pub fn function(&self) -> Function {
        match self.of {
            Of::Os2(_) => Function::Os2Compare,
            Of::Name => Function::NameCompare,
        }
    }

    /// The same with the sides exchanged.
    fn exchanged(&self) -> Self {
        Pair {
            of: self.of,
            left: self.right,
            right: self.left,
        }
    }

    /// How many differences the second program finds; nothing where it refuses.
    fn differences(&self) -> Option<usize> {
        match self.of {
            Of::Os2(level) => second::compare::os2_differences(level, self.left, self.right)
                .ok()
                .map(|rows| rows.len()),
            Of::Name => second::compare::name_differences(self.left, self.right)
                .ok()
                .map(|rows| rows.len()),
        }
    }
}

impl Display for Pair<'_> {
    fn fmt(&self, f: &mut fmt::Formatter<'_>) -> fmt::Result {
        f.write_str(self.function().title())?;
        match self.of {
            Of::Os2(level) => write!(f, " at level {level}"),
            Of::Name => Ok(()),
        }
    }
}

/// Rows to fill the crate's rooms with.
pub struct Marks {
    os2: Vec<gyalvindor::os2::Difference>,
    name: Vec<gyalvindor::name::Difference>,
}

impl Marks {
    fn new() -> Marks {
        Marks {
            os2: by_crate::os2_marks(),
            name: by_crate::name_marks(),
        }
    }
}

impl Asker {
    /// Compares two tables with a room of so many numbers on all sides, and the rooms and what is around them. Gives what all
    /// answered.
    pub fn compare(
        &mut self,
        pair: Pair,
        numbers: usize,
        pattern: u64,
    ) -> Result<Listed, Difference> {
        let Pair { of, left, right } = pair;
        let question = format_args!("{pair} with {numbers} numbers of room");
        let marks = self.marks.get_or_insert_with(Marks::new);
        let listed = match of {
            Of::Os2(level) => {
                let listed = same_rooms::<i64>(
                    &question,
                    pair.function(),
                    numbers,
                    pattern,
                    &|room| by_second::os2_compare(level, left, right, room),
                    &|room| raw::os2_compare(level, left, right, room),
                )?;
                same_rows(
                    &question,
                    pair.function(),
                    numbers / 5,
                    &listed,
                    &marks.os2,
                    &|rows| by_crate::os2_compare(level, left, right, rows),
                    by_crate::os2_row,
                )?;
                listed
            }
            Of::Name => {
                let listed = same_rooms::<u16>(
                    &question,
                    pair.function(),
                    numbers,
                    pattern,
                    &|room| by_second::name_compare(left, right, room),
                    &|room| raw::name_compare(left, right, room),
                )?;
                same_rows(
                    &question,
                    pair.function(),
                    numbers / 5,
                    &listed,
                    &marks.name,
                    &|rows| by_crate::name_compare(left, right, rows),
                    by_crate::name_row,
                )?;
                as_read(&question, pair.function(), listed.0, read_names(&pair))?;
                listed
            }
        };
        let refused = match listed.0[3] {
            1 => left,
            _ => right,
        };
        self.counted(
            &question,
            pair.function(),
            listed.0,
            version_and_fs_type(refused),
        )?;
        Ok(listed)
    }

    /// Compares two OS/2 tables: at every level from 0 to 5 and at those above, or at two of them.
    pub fn os2_pair(
        &mut self,
        left: &[u8],
        right: &[u8],
        amount: Amount,
        numbers: &mut Numbers,
    ) -> Result<(), Difference> {
        let two = [
            numbers.below(6) as u32,
            match numbers.below(8) {
                0 | 1 => numbers.pick(&LEVELS_ABOVE),
                2..=4 => 5,
                _ => numbers.below(6) as u32,
            },
        ];
        let levels = match amount {
            Amount::Everything => (0..6).chain(LEVELS_ABOVE).collect(),
            Amount::Some => two.to_vec(),
        };
        for level in levels {
            let of = Of::Os2(level);
            self.pair(Pair { of, left, right }, amount, numbers)?;
        }
        Ok(())
    }

    /// Compares two 'name' tables.
    pub fn name_pair(
        &mut self,
        left: &[u8],
        right: &[u8],
        amount: Amount,
        numbers: &mut Numbers,
    ) -> Result<(), Difference> {
        let of = Of::Name;
        self.pair(Pair { of, left, right }, amount, numbers)
    }

    /// Compares two tables with several rooms, then with the sides exchanged, then by what the archive answers to other
    /// questions on them.
    pub fn pair(
        &mut self,
        pair: Pair,
        amount: Amount,
        numbers: &mut Numbers,
    ) -> Result<(), Difference> {
        self.tally.pairs[usize::from(pair.of != Of::Name)] += 1;
        let pattern = numbers.next();
        let differences = pair.differences();
        // The first room has rows for everything.
        let mut rooms = match differences {
            None => vec![5 * numbers.below(4) + numbers.below(5), numbers.below(5)],
            Some(0) => vec![
                5 * (1 + numbers.below(3)) + numbers.below(5),
                numbers.below(5),
            ],
            Some(count) => vec![
                5 * (count + 1 + numbers.below(3)) + numbers.below(5),
                5 * count + numbers.below(5),
                5 * (count - 1) + numbers.below(5),
                numbers.below(5),
            ],
        };
        if amount == Amount::Everything && differences.unwrap_or(0) <= FEW_ROWS {
            rooms.extend(0..5 * differences.unwrap_or(0) + 10);
        }
        let mut all = Vec::new();
        for (place, &room) in rooms.iter().enumerate() {
            let (_, rows) = self.compare(pair, room, pattern)?;
            if place == 0 {
                all = rows;
            }
            let thing = met::of_room(pair.function(), differences, room);
            self.tally.met.add(thing);
        }
        met::of_pair(pair, &mut |thing| self.tally.met.add(thing));

        if differences.is_some() {
            let room = 5 * all.len() + numbers.below(5);
            let (_, rows) = self.compare(pair.exchanged(), room, pattern)?;
            exchanged_rows(&pair, &all, &rows)?;
            if !rows.is_empty() {
                self.tally.met.add(Thing::Exchanged(pair.function()));
            }
            match pair.of {
                Of::Os2(level) => os2_by_definition(&pair, level, &all)?,
                Of::Name => name_by_definition(&pair, &all, numbers)?,
            }
        }
        Ok(())
    }
}

/// The words of the first refusal of two 'name' tables by the comparison's own reading, with its side.
fn read_names(pair: &Pair) -> Option<Words> {
    [(1, pair.left), (2, pair.right)]
        .into_iter()
        .find_map(|(side, table)| {
            let mut words = own_words(faults::refused(table)?);
            words[3] = side;
            Some(words)
        })
}

/// A number of a room, and what stands there before.
trait Number: Copy + PartialEq + Display + Into<i64> {
    fn mark(place: usize, pattern: u64) -> Self;
}

fn mixed(place: usize, pattern: u64) -> u64 {
    (place as u64 + 1)
        .wrapping_mul(0x9E37_79B9_7F4A_7C15)
        .wrapping_add(pattern)
}

impl Number for i64 {
    fn mark(place: usize, pattern: u64) -> i64 {
        mixed(place, pattern) as i64
    }
}

impl Number for u16 {
    fn mark(place: usize, pattern: u64) -> u16 {
        (mixed(place, pattern) >> 48) as u16
    }
}

/// One side's comparison into a room of numbers or of rows.
type Comparing<'a, T> = &'a dyn Fn(&mut [T]) -> Words;

/// Lends the second program and the archive rooms with the same numbers, and compares their words, the rooms and the numbers
/// around them.
fn same_rooms<T: Number>(
    question: &dyn Display,
    function: Function,
    numbers: usize,
    pattern: u64,
    second: Comparing<T>,
    archive: Comparing<T>,
) -> Result<Listed, Difference> {
    let before: Vec<T> = (0..numbers + 2 * MARGIN)
        .map(|place| T::mark(place, pattern))
        .collect();
    let mut ours = before.clone();
    let words = second(&mut ours[MARGIN..MARGIN + numbers]);
    let mut theirs = before.clone();
    let answered = archive(&mut theirs[MARGIN..MARGIN + numbers]);
    if answered != words {
        return Err(differ(question, function, words, "archive", answered));
    }
    if let Some(place) = (0..before.len()).find(|&place| ours[place] != theirs[place]) {
        return Err(Difference(format!(
            "{question}: the rooms differ at number {}, counted from the room's start\n  before:  {}\n  second:  {}\n  archive: {}\n",
            place as i64 - MARGIN as i64,
            before[place],
            ours[place],
            theirs[place]
        )));
    }
    // What the papers say of lent room, of both sides at once.
    let written = match words[0] {
        0 => words[4] as usize,
        _ => 0,
    };
    if written > numbers / 5 {
        return Err(Difference(format!(
            "{question}: both sides say that they wrote {written} rows\n"
        )));
    }
    let rows = MARGIN..MARGIN + 5 * written;
    let outside =
        (0..before.len()).find(|&place| !rows.contains(&place) && theirs[place] != before[place]);
    if let Some(place) = outside {
        return Err(Difference(format!(
            "{question}: number {}, counted from the room's start, is not to be touched, and both sides change it\n",
            place as i64 - MARGIN as i64
        )));
    }
    let rows = theirs[rows]
        .chunks(5)
        .map(|row| [row[0], row[1], row[2], row[3], row[4]].map(Into::into))
        .collect();
    Ok((words, rows))
}

/// Lends the crate so many rows, and compares its words and rows with what the other sides listed. All other rows have to
/// hold what they held.
fn same_rows<R: Copy>(
    question: &dyn Display,
    function: Function,
    rows: usize,
    (words, listed): &Listed,
    marks: &[R],
    krate: Comparing<R>,
    told: fn(&R) -> Row,
) -> Result<(), Difference> {
    let mut room: Vec<R> = (0..rows + 2 * MARGIN_ROWS)
        .map(|place| marks[place % marks.len()])
        .collect();
    let mut expected: Vec<Row> = room.iter().map(told).collect();
    expected[MARGIN_ROWS..MARGIN_ROWS + listed.len()].copy_from_slice(listed);
    let answered = krate(&mut room[MARGIN_ROWS..MARGIN_ROWS + rows]);
    if answered != *words {
        return Err(differ(question, function, *words, "crate", answered));
    }
    for (place, row) in room.iter().enumerate() {
        if told(row) != expected[place] {
            return Err(Difference(format!(
                "{question}: row {}, counted from the first that is lent\n  crate:            {:?}\n  it has to hold:   {:?}\n",
                place as i64 - MARGIN_ROWS as i64,
                told(row),
                expected[place]
            )));
        }
    }
    Ok(())
}

/// With the sides exchanged, the rows are the same with their sides exchanged.
fn exchanged_rows(pair: &Pair, rows: &[Row], others: &[Row]) -> Result<(), Difference> {
    let expected: Vec<Row> = rows
        .iter()
        .map(|&[a, b, c, d, e]| match (pair.of, e) {
            (Of::Os2(_), _) => [a, d, e, b, c],
            (Of::Name, 1) => [a, b, c, d, 2],
            (Of::Name, 2) => [a, b, c, d, 1],
            (Of::Name, _) => [a, b, c, d, e],
        })
        .collect();
    if others == expected {
        return Ok(());
    }
    Err(Difference(format!(
        "{pair}: all sides list other rows where left and right are exchanged\n  as given:  {rows:?}\n  exchanged: {others:?}\n"
    )))
}

/// The definition, by the archive's own answers: a field is listed exactly if its two answers differ, in the order of the
/// fields, with both answers.
fn os2_by_definition(pair: &Pair, level: u32, rows: &[Row]) -> Result<(), Difference> {
    let mut expected = Vec::new();
    for field in 0..48 {
        let answer = |table| {
            let words = raw::words(table, Question::Field(level, field));
            [words[3] as i64, words[4] as i64]
        };
        let ([left, right], number) = ([pair.left, pair.right].map(answer), i64::from(field));
        if left != right {
            expected.push([number, left[0], left[1], right[0], right[1]]);
        }
    }
    if rows == expected {
        return Ok(());
    }
    Err(Difference(format!(
        "{pair}: the rows are not those that the archive's fields make\n  listed: {rows:?}\n  fields: {expected:?}\n"
    )))
}

/// The definition, by the archive's own answers: the rows' keys rise; and of the keys that either table has, a key is listed
/// exactly if only one lookup finds it or the strings differ. Where there are many records, some of the keys are looked up.
fn name_by_definition(pair: &Pair, rows: &[Row], numbers: &mut Numbers) -> Result<(), Difference> {
    if let Some(two) = rows.windows(2).find(|two| two[0][..4] >= two[1][..4]) {
        return Err(Difference(format!(
            "{pair}: the keys do not rise from row to row: {two:?}\n"
        )));
    }
    let mut keys = stored_keys(pair.left);
    keys.extend(stored_keys(pair.right));
    if keys.len() > FEW_RECORDS {
        keys = (0..8).map(|_| numbers.pick(&keys)).collect();
    }
    for key in keys {
        let string = |table| {
            let words = raw::words(table, Question::Lookup(key));
            match words[0] {
                0 => Some(&table[words[3] as usize..(words[3] + words[4]) as usize]),
                _ => None,
            }
        };
        let which = match [pair.left, pair.right].map(string) {
            [Some(_), None] => Some(1),
            [None, Some(_)] => Some(2),
            [Some(left), Some(right)] if left != right => Some(3),
            _ => None,
        };
        let key = key.map(i64::from);
        let listed = rows
            .binary_search_by_key(&&key[..], |row| &row[..4])
            .ok()
            .map(|place| rows[place][4]);
        if listed != which {
            return Err(Difference(format!(
                "{pair}: the key {key:?}\n  listed:  {listed:?}\n  lookups: {which:?}\n"
            )));
        }
    }
    Ok(())
}
