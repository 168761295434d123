//! Writes lists of entries as 'name' tables on all sides: with rooms about the table's length, and reads back what was
//! written. Also gives the records of accepted tables as entries, with the table itself as the pool.

use std::cell::Cell;

use crate::ask::{
    near_parts, otherwise, own_words, same_rooms, stored_keys, Amount, Asker, Difference, MARGIN,
};
use crate::entries::{Entry, Lent, List};
use crate::faults::{self, Front, Refused};
use crate::met;
use crate::numbers::Numbers;
use crate::question::{shown, Function, Question, Words, LOOKED};
use crate::raw;
use crate::sides::{by_crate, by_second};
use crate::write_met::{self, Rewriting, Thing};
use crate::written::{self, Reading};

/// Up to so many entries or records every key is looked up.
const FEW: usize = 24;
/// With a table of more bytes than these fewer rooms are tried.
const LARGE: usize = 2_000;

/// What all sides leave: the room with the bytes around it, and the table's length.
pub struct Left {
    around: Vec<u8>,
    size: usize,
}

impl Left {
    /// The table's bytes.
    pub fn table(&self) -> &[u8] {
        &self.around[MARGIN..MARGIN + self.size]
    }
}

impl Asker {
    /// Writes a list once with a room of this length on all sides, and compares the room and the bytes around it. What all
    /// answer has to be what the comparison's own reading says, and so has every byte of the table.
    pub fn write_list(
        &mut self,
        list: &List,
        reading: &Reading,
        lent: &Lent,
        room: usize,
        pattern: u8,
    ) -> Result<(Words, Left), Difference> {
        let question = format_args!(
            "name write of {} entries with {room} bytes of room",
            list.entries.len()
        );
        let function = Function::NameWrite;
        // What each side was lent for reading holds what it held, after each side's call.
        let held = Cell::new(true);
        let after = |words| {
            held.set(held.get() && lent.unchanged());
            words
        };
        let (words, around) = same_rooms(
            &question,
            function,
            room,
            pattern,
            &[
                &|room| after(by_second::name_write(lent.to_second(), lent.pool(), room)),
                &|room| after(raw::name_write(lent.to_archive(), lent.pool(), room)),
                &|room| after(by_crate::name_write(lent.to_crate(), lent.pool(), room)),
            ],
        )?;
        if !held.get() {
            return Err(Difference(format!(
                "{question}: a side changed entries or pool, which were lent for reading\n"
            )));
        }
        let read = match reading.refused(room) {
            Some(refused) => own_words(refused),
            None => [0, 0, 0, reading.size as u64, 0, 0, 0],
        };
        if words != read {
            return Err(otherwise(
                &question,
                function,
                words,
                &shown(function, read),
            ));
        }
        self.counted(&question, function, words, [0; 2])?;
        let size = words[3] as usize;
        let left = Left { around, size };
        if words[0] == 0 {
            if let Some(said) = written::against(list, left.table()) {
                return Err(otherwise(&question, function, words, &said));
            }
        }
        let mut met = |thing| self.tally.met.add(met::Thing::Write(thing));
        write_met::of_room(reading, room, &mut met);
        Ok((words, left))
    }

    /// Writes a list with each of these rooms. Gives the table of the first that is long enough, if the list is not refused.
    pub fn write_in(
        &mut self,
        list: &List,
        reading: &Reading,
        rooms: &[usize],
        n: &mut Numbers,
    ) -> Result<Option<Left>, Difference> {
        let lent = Lent::new(list, n);
        let mut first = None;
        for &room in rooms {
            let pattern = n.below(256) as u8;
            let (words, left) = self.write_list(list, reading, &lent, room, pattern)?;
            if words[0] == 0 && first.is_none() {
                first = Some(left);
            }
        }
        Ok(first)
    }

    /// Writes a list with rooms that are longer than needed, exactly as long, one byte shorter, shorter and empty. Then reads
    /// back the table that was written; or looks whether the reader refuses, by the same number, the table that was not.
    pub fn entries(
        &mut self,
        list: &List,
        amount: Amount,
        n: &mut Numbers,
    ) -> Result<(), Difference> {
        let reading = Reading::of(list);
        let refused = reading.refused(usize::MAX);
        self.tally.lists[0] += 1;
        self.tally.lists[1] += u64::from(refused.is_none());
        let size = reading.size;
        let longer = size + 1 + n.below(40);
        let shorter = 1 + n.below(size - 2);
        let mut rooms = match refused {
            None if size < LARGE => vec![longer, size, size - 1, shorter, 0],
            None => vec![n.pick(&[size, longer]), n.pick(&[size - 1, shorter, 0])],
            Some(_) if size < LARGE => vec![longer, size, size - 1, n.pick(&[shorter, 0])],
            Some(_) => vec![n.pick(&[longer, size, size - 1]), n.below(60), 0],
        };
        if amount == Amount::Everything && size < LARGE {
            rooms.extend(0..=size + 40);
        }
        let left = self.write_in(list, &reading, &rooms, n)?;
        write_met::of_list(list, &reading, &mut |thing| {
            self.tally.met.add(met::Thing::Write(thing));
        });
        match (left, refused) {
            (Some(left), _) => self.read_back(list, &reading, left.table(), amount, n),
            (None, Some(refused @ (17..=19, _))) if reading.can_be_laid_out() => {
                self.reader_refuses(list, refused, n)
            }
            _ => Ok(()),
        }
    }

    /// Reads a written table back on all sides: it is accepted, and a lookup of each entry's four numbers, or of some, gives
    /// the place of its text's bytes and the entry's number.
    pub fn read_back(
        &mut self,
        list: &List,
        reading: &Reading,
        table: &[u8],
        amount: Amount,
        n: &mut Numbers,
    ) -> Result<(), Difference> {
        let read = faults::refused(table);
        if let Some((number, place)) = read {
            return Err(Difference(format!(
                "name write: the comparison's own reading refuses what all sides wrote: {number}, {place:?}\n"
            )));
        }
        self.ask_name(table, Question::NameCheck, read)?;
        let count = list.entries.len();
        let numbers = match amount {
            Amount::Some if count > FEW => {
                let mut some = vec![0, count - 1];
                some.extend((0..4).map(|_| n.below(count)));
                some
            }
            _ => (0..count).collect(),
        };
        for number in numbers {
            let entry = &list.entries[number];
            let question = Question::Lookup(entry.key.map(u32::from));
            let words = self.ask_name(table, question, read)?;
            let start = 6 + 12 * count as u64 + reading.entries[number].offset;
            let length = u64::from(entry.length);
            // How many records it looked at was judged when it was asked.
            let expected = [0, 0, 0, start, length, number as u64, words[LOOKED]];
            let text = words[3] as usize..(words[3] + words[4]) as usize;
            let found = words == expected && table.get(text) == written::place(entry, &list.pool);
            if !found {
                return Err(Difference(format!(
                    "{question}: what was written for entry {number} is not found\n  expected:  {}\n  all sides: {}\n",
                    shown(Function::Lookup, expected),
                    shown(Function::Lookup, words)
                )));
            }
        }
        Ok(())
    }

    /// Lays the table out that is not written because of 17, 18 or 19. All sides' check has to refuse it by the same number,
    /// at the record of the entry's number.
    fn reader_refuses(
        &mut self,
        list: &List,
        refused: Refused,
        n: &mut Numbers,
    ) -> Result<(), Difference> {
        let mut around = written::laid_out(list);
        let length = around.len();
        around.extend(n.bytes(16));
        let table = &around[..length];
        let words = self.ask_name(table, Question::NameCheck, faults::refused(table))?;
        if words != own_words(refused) {
            return Err(Difference(format!(
                "name check: the table that the writer refuses is not refused alike\n  writer: {}\n  check:  {}\n",
                shown(Function::NameCheck, own_words(refused)),
                shown(Function::NameCheck, words)
            )));
        }
        let thing = Thing::ReaderRefuses(refused.0);
        self.tally.met.add(met::Thing::Write(thing));
        Ok(())
    }

    /// Gives the records of an accepted table of format 0 as entries, with the table as the pool. That is refused by 32 or 33
    /// alone, or gives a table that answers every lookup with the same bytes and the same record, and 20 where that does, each
    /// with as many records looked at.
    pub fn rewriting(
        &mut self,
        table: &[u8],
        amount: Amount,
        n: &mut Numbers,
    ) -> Result<(), Difference> {
        let front = match (faults::refused(table), Front::of(table)) {
            (None, Ok(front)) if !front.tagged => front,
            _ => return Ok(()),
        };
        let list = records_of(&front, table);
        let reading = Reading::of(&list);
        let size = reading.size;
        let rooms = [size + 1 + n.below(40), size, size - 1];
        self.tally.rewritings[0] += 1;
        let lent = Lent::new(&list, n);
        let mut rewritten = None;
        for room in rooms {
            let pattern = n.below(256) as u8;
            let (words, left) = self.write_list(&list, &reading, &lent, room, pattern)?;
            let kind = match (words[0], room >= size) {
                (0, true) if room > size => Rewriting::Longer,
                (0, true) => Rewriting::Exact,
                (32, _) => Rewriting::TooFar,
                (33, false) => Rewriting::NoRoom,
                _ => {
                    return Err(Difference(format!(
                        "the records of an accepted table, written with {room} bytes of room where {size} are needed\n  all sides: {}\n",
                        shown(Function::NameWrite, words)
                    )));
                }
            };
            self.tally
                .met
                .add(met::Thing::Write(Thing::Rewriting(kind)));
            if words[0] == 0 {
                rewritten = Some(left);
            }
        }
        let Some(left) = rewritten else {
            return Ok(());
        };
        self.tally.rewritings[1] += 1;
        write_met::of_rewritten(&front, table, left.table(), &mut |thing| {
            self.tally.met.add(met::Thing::Write(thing));
        });
        self.same_answers([table, left.table()], amount, n)
    }

    /// Asks lookups, the PostScript name and the version number of an accepted table and of what it was rewritten to.
    fn same_answers(
        &mut self,
        tables: [&[u8]; 2],
        amount: Amount,
        n: &mut Numbers,
    ) -> Result<(), Difference> {
        let stored = stored_keys(tables[0]);
        let mut keys = vec![[0; 4], [65_535; 4], [65_536; 4], [3, 1, 0x409, 1]];
        if amount == Amount::Everything {
            for &key in &stored {
                keys.push(key);
                for part in 0..4 {
                    for near in near_parts(key[part]) {
                        let mut other = key;
                        other[part] = near;
                        keys.push(other);
                    }
                }
            }
        } else {
            let few = stored.len() <= FEW / 2;
            let count = if few { stored.len() } else { 6 };
            for number in 0..count {
                let mut key = match few {
                    true => stored[number],
                    false => n.pick(&stored),
                };
                keys.push(key);
                let part = n.below(4);
                key[part] = n.pick(&near_parts(key[part]));
                keys.push(key);
            }
        }
        let lookups = keys.into_iter().map(Question::Lookup);
        for question in lookups.chain([Question::PostScript, Question::Version]) {
            let [old, new] = tables.map(|table| self.ask_name(table, question, None));
            let (old, new) = (old?, new?);
            let same = match question {
                Question::Version => old == new,
                _ => {
                    let bytes = |table: &[u8], words: Words| {
                        let text = words[3] as usize..(words[3] + words[4]) as usize;
                        table.get(text).map(<[u8]>::to_vec)
                    };
                    old[0] == new[0]
                        && old[5..] == new[5..]
                        && bytes(tables[0], old) == bytes(tables[1], new)
                }
            };
            if !same {
                return Err(Difference(format!(
                    "{question}: the table and what its records were written to answer otherwise\n  table:     {}\n  rewritten: {}\n",
                    shown(question.function(), old),
                    shown(question.function(), new)
                )));
            }
        }
        Ok(())
    }
}

/// The records of an accepted table as entries, with the table as the pool.
fn records_of(front: &Front, table: &[u8]) -> List {
    let entry = |number| {
        let [length, offset] = front.string(number);
        Entry {
            key: front.key(number).map(|part| part as u16),
            start: (front.start + offset) as u64,
            length: length as u16,
        }
    };
    List {
        entries: (0..front.records).map(entry).collect(),
        pool: table.to_vec(),
    }
}
