//! The answers of the second program and of the Rust crate, put in the words that the papers and the header make of them.

use crate::question::{Question, Words, LOOKED};

/// The words of a refusal.
fn refused(number: u32, carried: Option<u64>) -> Words {
    let mut words = [0; 7];
    words[0] = u64::from(number);
    words[1] = u64::from(carried.is_some());
    words[2] = carried.unwrap_or(0);
    words
}

/// The words of an answer that is not refused.
fn given(members: [u64; 4]) -> Words {
    let [a, b, c, d] = members;
    [0, 0, 0, a, b, c, d]
}

/// The words of a lookup: those of its answer or its refusal, and how many records it looked at.
fn looked_up(mut answer: Words, looked: usize) -> Words {
    answer[LOOKED] = looked as u64;
    answer
}

/// The words of a comparison: how many rows it wrote, or its refusal with the side (1 left, 2 right, 0 neither).
fn compared(result: Result<usize, (u64, Words)>) -> Words {
    match result {
        Ok(rows) => given([0, rows as u64, 0, 0]),
        Err((side, mut refused)) => {
            refused[3] = side;
            refused
        }
    }
}

const VALUE: u64 = 1;
const ABSENT: [u64; 4] = [2, 0, 0, 0];
const NOT_KNOWN: [u64; 4] = [3, 0, 0, 0];

fn float(value: f32) -> u64 {
    u64::from(value.to_bits())
}

/// What the second program answers.
pub mod by_second {
    use super::*;
    use second::chooser::Rack;
    use second::compare::{self, Refused, Side};
    use second::os2::{Answer, OpticalSizes, Rights, StylePosition};
    use second::{name, os2, Refusal};

    fn of<T>(result: Result<T, Refusal>, members: impl FnOnce(T) -> [u64; 4]) -> Words {
        match result {
            Ok(value) => given(members(value)),
            Err(refusal) => refused(refusal.number, refusal.carries.map(u64::from)),
        }
    }

    fn answer<T>(result: Result<Answer<T>, Refusal>, members: impl FnOnce(T) -> [u64; 4]) -> Words {
        of(result, |answer| match answer {
            Answer::Value(value) => members(value),
            Answer::Absent => ABSENT,
            Answer::NotKnown => NOT_KNOWN,
        })
    }

    fn whole(result: Result<Answer, Refusal>) -> Words {
        answer(result, |value| [VALUE, value as u64, 0, 0])
    }

    fn rights(rights: Rights) -> u64 {
        match rights {
            Rights::Installable => 0,
            Rights::Restricted => 1,
            Rights::Preview => 2,
            Rights::Editable => 3,
        }
    }

    fn style(style: StylePosition) -> [u64; 4] {
        [VALUE, float(style.weight), float(style.width_percent), 0]
    }

    fn sizes(sizes: OpticalSizes) -> [u64; 4] {
        match sizes {
            OpticalSizes::Every => [VALUE, 1, 0, 0],
            OpticalSizes::From(lower) => [VALUE, 2, float(lower), 0],
            OpticalSizes::Between(lower, upper) => [VALUE, 3, float(lower), float(upper)],
        }
    }

    /// The words that the second program's answer makes.
    pub fn words(table: &[u8], question: Question) -> Words {
        let text = |name::Text {
                        start,
                        length,
                        record,
                    }| [start as u64, length as u64, record as u64, 0];
        match question {
            Question::NameCheck => of(name::check(table), |()| [0; 4]),
            Question::Lookup([p, e, l, n]) => {
                let name::LookedUp { answer, looked } = name::lookup(table, p, e, l, n);
                looked_up(of(answer, text), looked)
            }
            Question::PostScript => of(name::postscript(table), text),
            Question::Version => of(name::version(table), |version| {
                let (major, minor) = (u64::from(version.major), u64::from(version.minor));
                [major, minor, version.record as u64, 0]
            }),
            Question::Os2Check(level) => of(os2::accept(level, table), |()| [0; 4]),
            Question::Field(level, n) => whole(os2::field(level, table, n)),
            Question::SelectionBit(level, n) => whole(os2::selection_bit(level, table, n)),
            Question::UnicodeBit(level, n) => whole(os2::unicode_bit(level, table, n)),
            Question::CodePageBit(level, n) => whole(os2::code_page_bit(level, table, n)),
            Question::Rights(level) => {
                answer(os2::rights(level, table), |r| [VALUE, rights(r), 0, 0])
            }
            Question::StylePosition(level) => answer(os2::style_position(level, table), style),
            Question::OpticalSizes(level) => answer(os2::optical_sizes(level, table), sizes),
        }
    }

    /// The words that the second program's writer makes.
    pub fn write(numbers: &[i64; 48], room: &mut [u8]) -> Words {
        of(os2::write(numbers, room), |size| [size as u64, 0, 0, 0])
    }

    /// The words that the second program's rewriting makes.
    pub fn rewrite(table: &[u8], room: &mut [u8]) -> Words {
        of(os2::rewrite(table, room), |size| [size as u64, 0, 0, 0])
    }

    /// The words that the second program's writer of 'name' tables makes.
    pub fn name_write(entries: &[name::Entry], pool: &[u8], room: &mut [u8]) -> Words {
        of(name::write(entries, pool, room), |size| {
            [size as u64, 0, 0, 0]
        })
    }

    fn with_side(refused: Refused) -> (u64, Words) {
        let side = match refused.side {
            None => 0,
            Some(Side::Left) => 1,
            Some(Side::Right) => 2,
        };
        let refusal = of(Err::<(), _>(refused.refusal), |()| [0; 4]);
        (side, refusal)
    }

    /// The words that the second program's comparison of two OS/2 tables makes.
    pub fn os2_compare(level: u32, left: &[u8], right: &[u8], room: &mut [i64]) -> Words {
        compared(compare::os2(level, left, right, room).map_err(with_side))
    }

    /// The words that the second program's comparison of two 'name' tables makes.
    pub fn name_compare(left: &[u8], right: &[u8], room: &mut [u16]) -> Words {
        compared(compare::name(left, right, room).map_err(with_side))
    }

    /// The words that the second program's load makes.
    pub fn rack_load(rack: &mut Rack, slot: u32, level: u32, os2: &[u8], name: &[u8]) -> Words {
        of(rack.load(slot, level, os2, name), |()| [0; 4])
    }

    /// The words that the second program's unload makes.
    pub fn rack_unload(rack: &mut Rack, slot: u32) -> Words {
        of(rack.unload(slot), |()| [0; 4])
    }

    /// The words that the second program's request makes. A slope of 0 is upright, any other sloped.
    pub fn rack_request(rack: &Rack, family: &[u8], weight: u32, width: u32, slope: u32) -> Words {
        of(rack.request(family, weight, width, slope != 0), |slot| {
            [u64::from(slot), 0, 0, 0]
        })
    }
}

/// What the Rust crate over the archive answers.
pub mod by_crate {
    use super::*;
    use gyalvindor::os2::{OpticalSizes, Rights, StylePosition};
    use gyalvindor::rack::Rack;
    use gyalvindor::{name, os2, Answer, CompareRefusal, Refusal, Side};

    fn of<T>(result: Result<T, Refusal>, members: impl FnOnce(T) -> [u64; 4]) -> Words {
        match result {
            Ok(value) => given(members(value)),
            Err(refusal) => refused(refusal.number(), refusal.carried().map(|c| c as u64)),
        }
    }

    fn answer<T>(result: Result<Answer<T>, Refusal>, members: impl FnOnce(T) -> [u64; 4]) -> Words {
        of(result, |answer| match answer {
            Answer::Value(value) => members(value),
            Answer::Absent => ABSENT,
            Answer::NotKnown => NOT_KNOWN,
        })
    }

    fn bit(result: Result<Answer<bool>, Refusal>) -> Words {
        answer(result, |set| [VALUE, u64::from(set), 0, 0])
    }

    fn rights(rights: Rights) -> u64 {
        match rights {
            Rights::Installable => 0,
            Rights::Restricted => 1,
            Rights::Preview => 2,
            Rights::Editable => 3,
        }
    }

    fn style(style: StylePosition) -> [u64; 4] {
        [VALUE, float(style.weight), float(style.width), 0]
    }

    fn sizes(sizes: OpticalSizes) -> [u64; 4] {
        match sizes {
            OpticalSizes::Every => [VALUE, 1, 0, 0],
            OpticalSizes::Upwards(lower) => [VALUE, 2, float(lower), 0],
            OpticalSizes::Between(lower, upper) => [VALUE, 3, float(lower), float(upper)],
        }
    }

    /// The words that the crate's answer makes.
    pub fn words(table: &[u8], question: Question) -> Words {
        let text = |name::Text {
                        start,
                        length,
                        record,
                    }| [start as u64, length as u64, record as u64, 0];
        match question {
            Question::NameCheck => of(name::check(table), |()| [0; 4]),
            Question::Lookup([p, e, l, n]) => {
                let name::LookedUp { answer, looked } = name::lookup(table, p, e, l, n);
                looked_up(of(answer, text), looked)
            }
            Question::PostScript => of(name::postscript(table), text),
            Question::Version => of(name::version(table), |version| {
                let (major, minor) = (u64::from(version.major), u64::from(version.minor));
                [major, minor, version.record as u64, 0]
            }),
            Question::Os2Check(level) => of(os2::check(table, level), |()| [0; 4]),
            Question::Field(level, n) => {
                answer(os2::field(table, level, n), |v| [VALUE, v as u64, 0, 0])
            }
            Question::SelectionBit(level, n) => bit(os2::selection_bit(table, level, n)),
            Question::UnicodeBit(level, n) => bit(os2::unicode_bit(table, level, n)),
            Question::CodePageBit(level, n) => bit(os2::code_page_bit(table, level, n)),
            Question::Rights(level) => {
                answer(os2::rights(table, level), |r| [VALUE, rights(r), 0, 0])
            }
            Question::StylePosition(level) => answer(os2::style_position(table, level), style),
            Question::OpticalSizes(level) => answer(os2::optical_sizes(table, level), sizes),
        }
    }

    /// The words that the crate's writer makes.
    pub fn write(numbers: &[i64; 48], room: &mut [u8]) -> Words {
        of(os2::write(numbers, room), |size| [size as u64, 0, 0, 0])
    }

    /// The words that the crate's rewriting makes.
    pub fn rewrite(table: &[u8], room: &mut [u8]) -> Words {
        of(os2::rewrite(table, room), |size| [size as u64, 0, 0, 0])
    }

    /// The words that the crate's writer of 'name' tables makes.
    pub fn name_write(entries: &[name::Entry], pool: &[u8], room: &mut [u8]) -> Words {
        of(name::write(entries, pool, room), |size| {
            [size as u64, 0, 0, 0]
        })
    }

    fn with_side(refused: CompareRefusal) -> (u64, Words) {
        let side = match refused.side {
            None => 0,
            Some(Side::Left) => 1,
            Some(Side::Right) => 2,
        };
        let refusal = of(Err::<(), _>(refused.refusal), |()| [0; 4]);
        (side, refusal)
    }

    /// The words that the crate's comparison of two OS/2 tables makes. The rows that it gives have to be the first of those
    /// that were lent.
    pub fn os2_compare(
        level: u32,
        left: &[u8],
        right: &[u8],
        rows: &mut [os2::Difference],
    ) -> Words {
        let first = rows.as_ptr();
        let result = os2::compare(left, right, level, rows).map(|given| {
            assert_eq!(given.as_ptr(), first, "the crate's rows are not the lent");
            given.len()
        });
        compared(result.map_err(with_side))
    }

    /// The words that the crate's comparison of two 'name' tables makes. The rows that it gives have to be the first of those
    /// that were lent.
    pub fn name_compare(left: &[u8], right: &[u8], rows: &mut [name::Difference]) -> Words {
        let first = rows.as_ptr();
        let result = name::compare(left, right, rows).map(|given| {
            assert_eq!(given.as_ptr(), first, "the crate's rows are not the lent");
            given.len()
        });
        compared(result.map_err(with_side))
    }

    /// The words that the crate's load makes.
    pub fn rack_load(rack: &mut Rack, slot: u32, level: u32, os2: &[u8], name: &[u8]) -> Words {
        of(rack.load(slot, level, os2, name), |()| [0; 4])
    }

    /// The words that the crate's unload makes.
    pub fn rack_unload(rack: &mut Rack, slot: u32) -> Words {
        of(rack.unload(slot), |()| [0; 4])
    }

    /// The words that the crate's request makes. A slope of 0 is upright, any other sloped.
    pub fn rack_request(rack: &Rack, family: &[u8], weight: u32, width: u32, slope: u32) -> Words {
        of(rack.request(family, weight, width, slope != 0), |slot| {
            [u64::from(slot), 0, 0, 0]
        })
    }

    /// The five numbers of a row for two OS/2 tables, as far as the crate tells them.
    pub fn os2_row(row: &os2::Difference) -> [i64; 5] {
        let told = |answer: Answer<i64>| match answer {
            Answer::Value(value) => [1, value],
            Answer::Absent => [2, 0],
            Answer::NotKnown => [3, 0],
        };
        let [left_kind, left_value] = told(row.left());
        let [right_kind, right_value] = told(row.right());
        let field = i64::from(row.field());
        [field, left_kind, left_value, right_kind, right_value]
    }

    /// The five numbers of a row for two 'name' tables, as far as the crate tells them.
    pub fn name_row(row: &name::Difference) -> [i64; 5] {
        let [platform, encoding, language, name] = row.key().map(i64::from);
        let which = match row.which() {
            None => 0,
            Some(name::Which::OnlyLeft) => 1,
            Some(name::Which::OnlyRight) => 2,
            Some(name::Which::OtherBytes) => 3,
        };
        [platform, encoding, language, name, which]
    }

    /// Rows of 48 fields to fill a room with. A row can't be made by hand, so these are written by a comparison of two tables
    /// that differ in every field; where that gives none, a row to make room with stands for them.
    pub fn os2_marks() -> Vec<os2::Difference> {
        let count = os2::FIELD_COUNT;
        let mut marks = vec![os2::Difference::ROOM; 1 + count + 1];
        let room = &mut marks[1..=count];
        let _ = os2::compare(&[0x6B; 100], &[0xC4; 100], os2::NEWEST, room);
        marks[1..=count].to_vec()
    }

    /// As above, for two 'name' tables; only their fifth number can't be made by hand.
    pub fn name_marks() -> Vec<name::Difference> {
        let mark = |place: u16| {
            let mut row = name::Difference::ROOM;
            row.platform = 40_503_u16.wrapping_mul(place + 1);
            row.encoding = 40_503_u16.wrapping_mul(place + 101);
            row.language = 40_503_u16.wrapping_mul(place + 201);
            row.name = 40_503_u16.wrapping_mul(place + 301);
            row
        };
        (0..48).map(mark).collect()
    }
}
