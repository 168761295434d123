//! What is wrong with a 'name' table, by a reading of the comparison's own. It follows document 01 and document 02's Ask 3, and
//! asks none of the sides.

use std::cmp::Ordering;

use crate::ask::word;

/// Where a string lies beside the storage's end, which is the table's end.
#[derive(Clone, Copy, Debug, PartialEq, Eq, PartialOrd, Ord)]
pub enum Place {
    /// It ends before the end or at it.
    Inside,
    /// It starts before the end or at it, and runs over.
    Over,
    /// It starts beyond the end, be it empty or not.
    Beyond,
}

/// A record, and what it is beside the storage and the record before it.
#[derive(Clone, Copy)]
pub struct Record {
    pub key: [u32; 4],
    pub length: usize,
    pub offset: usize,
    pub place: Place,
    /// Whether the language number is allowed.
    pub allowed: bool,
    /// The key beside that of the record before it; nothing for record 0.
    pub order: Option<Ordering>,
}

impl Record {
    /// The conditions that hold for the record, in the order of their numbers' places: 15 or 27, then 18, then 17 or 19.
    pub fn conditions(&self) -> [Option<u32>; 3] {
        let string = match self.place {
            Place::Inside => None,
            Place::Over => Some(27),
            Place::Beyond => Some(15),
        };
        let language = if self.allowed { None } else { Some(18) };
        let key = match self.order {
            Some(Ordering::Less) => Some(17),
            Some(Ordering::Equal) => Some(19),
            _ => None,
        };
        [string, language, key]
    }

    /// Whether the condition of this number holds for the record.
    pub fn has(&self, number: u32) -> bool {
        self.conditions().contains(&Some(number))
    }
}

/// A table's counts and its storage, where the conditions of 10 to 14 don't hold.
pub struct Front<'a> {
    table: &'a [u8],
    /// Whether the format is 1.
    pub tagged: bool,
    pub records: usize,
    pub tags: usize,
    /// The storage's start, from the table's first byte.
    pub start: usize,
}

/// The number of a refusal, and what it carries.
pub type Refused = (u32, Option<usize>);

impl Front<'_> {
    /// The front of a table, or the first of 10 to 14 whose condition holds.
    pub fn of(table: &[u8]) -> Result<Front<'_>, u32> {
        if table.len() < 6 {
            return Err(10);
        }
        let [format, records, start] = [0, 2, 4].map(|at| word(table, at) as usize);
        if format > 1 {
            return Err(11);
        }
        let mut end = 6 + 12 * records;
        if table.len() < end {
            return Err(12);
        }
        let mut tags = 0;
        if format == 1 {
            if table.len() < end + 2 {
                return Err(13);
            }
            tags = word(table, end) as usize;
            end += 2 + 4 * tags;
            if table.len() < end {
                return Err(13);
            }
        }
        if !(end..=table.len()).contains(&start) {
            return Err(14);
        }
        Ok(Front {
            table,
            tagged: format == 1,
            records,
            tags,
            start,
        })
    }

    /// How many bytes the storage has.
    pub fn storage(&self) -> usize {
        self.table.len() - self.start
    }

    /// Record `number`, counted from 0.
    pub fn record(&self, number: usize) -> Record {
        let [length, offset] = self.string(number);
        let key = self.key(number);
        let [platform, _, language, _] = key;
        let allowed = match (language.checked_sub(0x8000), self.tagged) {
            (None, _) => true,
            (Some(_), false) => (240..=255).contains(&platform),
            (Some(tag), true) => (tag as usize) < self.tags,
        };
        let order = number
            .checked_sub(1)
            .map(|before| key.cmp(&self.key(before)));
        Record {
            key,
            length,
            offset,
            place: self.place(length, offset),
            allowed,
            order,
        }
    }

    /// The key of record `number`.
    pub fn key(&self, number: usize) -> [u32; 4] {
        let at = 6 + 12 * number;
        [0, 2, 4, 6].map(|part| word(self.table, at + part))
    }

    /// Length and offset of the string of record `number`.
    pub fn string(&self, number: usize) -> [usize; 2] {
        let at = 6 + 12 * number;
        [at + 8, at + 10].map(|at| word(self.table, at) as usize)
    }

    /// The string's bytes of record `number`, in an accepted table.
    pub fn text(&self, number: usize) -> &[u8] {
        let [length, offset] = self.string(number);
        &self.table[self.start + offset..][..length]
    }

    /// The number of the first record that has this key.
    pub fn number_of(&self, key: [u32; 4]) -> Option<usize> {
        (0..self.records).find(|&number| self.key(number) == key)
    }

    /// Where the string of tag `number` lies.
    pub fn tag(&self, number: usize) -> Place {
        let at = 6 + 12 * self.records + 2 + 4 * number;
        let [length, offset] = [at, at + 2].map(|at| word(self.table, at) as usize);
        self.place(length, offset)
    }

    fn place(&self, length: usize, offset: usize) -> Place {
        let first = self.start + offset;
        if first > self.table.len() {
            Place::Beyond
        } else if first + length > self.table.len() {
            Place::Over
        } else {
            Place::Inside
        }
    }

    /// The first record with a fault, or else the first tag with one.
    fn refused(&self) -> Option<Refused> {
        for number in 0..self.records {
            if let Some(fault) = self
                .record(number)
                .conditions()
                .into_iter()
                .flatten()
                .next()
            {
                return Some((fault, Some(number)));
            }
        }
        let tag = (0..self.tags).find(|&number| self.tag(number) != Place::Inside)?;
        Some((16, Some(tag)))
    }
}

/// The refusal of a table; nothing where it is accepted.
pub fn refused(table: &[u8]) -> Option<Refused> {
    match Front::of(table) {
        Ok(front) => front.refused(),
        Err(number) => Some((number, None)),
    }
}

/// Whether a refusal's number is about a 'name' table, and not about what is asked of it.
pub fn of_table(number: u64) -> bool {
    matches!(number, 10..=19 | 27)
}
