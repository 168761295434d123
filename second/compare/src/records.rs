//! Which record an answer on a 'name' table tells, by a reading of the comparison's own. It follows document 01 and document 02's
//! Ask 4, and asks none of the sides.

use crate::faults::Front;
use crate::question::{Question, Words, LOOKED};

/// The records of a PostScript name. The answer tells the first.
pub const POSTSCRIPT: [[u32; 4]; 2] = [[1, 0, 0, 6], [3, 1, 0x409, 6]];
/// The records of a version number. The second counts only where the first is not there.
pub const VERSION: [[u32; 4]; 2] = [[3, 1, 0x409, 5], [1, 0, 0, 5]];

/// What the table's bytes have against an answer, or a refusal of what is asked, on an accepted table; nothing where they bear it
/// out. How many records a lookup looked at is not judged here.
pub fn against(front: &Front, question: Question, mut words: Words) -> Option<String> {
    match question {
        Question::Lookup(_) => words[LOOKED] = 0,
        _ if words[LOOKED] != 0 => return Some("only a lookup says more".to_string()),
        _ => {}
    }
    match words[0] {
        0 => against_answer(front, question, words),
        number => {
            if words[1..] != [0; 6] {
                return Some("every word after the number is 0".to_string());
            }
            against_refusal(front, question, number)
        }
    }
}

/// The record with the number that is told has the key; its length and its offset give the string that is answered, or the number
/// stands in its string.
fn against_answer(front: &Front, question: Question, words: Words) -> Option<String> {
    let [_, _, _, start, length, told, _] = words;
    let wanted = match question {
        Question::Lookup(key) => key,
        Question::PostScript => POSTSCRIPT[0],
        Question::Version if front.number_of(VERSION[0]).is_some() => VERSION[0],
        Question::Version => VERSION[1],
        // The check tells no record.
        _ => return (words != [0; 7]).then(|| "accepted, and nothing else".to_string()),
    };
    if told >= front.records as u64 {
        return Some(format!(
            "there is no record {told}, the count is {}",
            front.records
        ));
    }
    let record = front.record(told as usize);
    if record.key != wanted {
        return Some(format!(
            "record {told} has the key {:?}, and {wanted:?} is wanted",
            record.key
        ));
    }
    if let Question::Version = question {
        // The members before it are the number's figures.
        let text = characters(front.text(told as usize), wanted == VERSION[0]);
        let stands = stands(&text, [start, length]);
        return (!stands).then(|| format!("the string of record {told} is {text:?}"));
    }
    let place = [(front.start + record.offset) as u64, record.length as u64];
    (place != [start, length]).then(|| {
        let [start, length] = place;
        format!("the string of record {told} has start {start} and length {length}")
    })
}

/// The characters of a string with one or two bytes each. One that is not of ASCII is a question mark.
fn characters(string: &[u8], two_bytes: bool) -> String {
    let character = |bytes: &[u8]| match bytes {
        [code @ ..128] | [0, code @ ..128] => char::from(*code),
        _ => '?',
    };
    string
        .chunks(if two_bytes { 2 } else { 1 })
        .map(character)
        .collect()
}

/// Whether a number with these two figures stands somewhere in a text: digits, a period, digits, both groups as long as they go.
fn stands(text: &str, figures: [u64; 2]) -> bool {
    let digit = |c: char| c.is_ascii_digit();
    let same = |digits: &str, figure: u64| {
        let figure = figure.to_string();
        !digits.is_empty() && digits.trim_start_matches('0') == figure.trim_start_matches('0')
    };
    text.match_indices('.').any(|(at, _)| {
        let (before, after) = (&text[..at], &text[at + 1..]);
        let before = &before[before.trim_end_matches(digit).len()..];
        let after = &after[..after.len() - after.trim_start_matches(digit).len()];
        same(before, figures[0]) && same(after, figures[1])
    })
}

/// The records that a refusal says are there are there, and those that it says are not are not.
fn against_refusal(front: &Front, question: Question, number: u64) -> Option<String> {
    let (keys, counts) = match (question, number) {
        (Question::Lookup(key), 20) => (vec![key], 0..=0),
        (Question::PostScript, 21) => (POSTSCRIPT.to_vec(), 0..=0),
        (Question::PostScript, 22) => (POSTSCRIPT.to_vec(), 1..=1),
        (Question::PostScript, 23 | 24) => (POSTSCRIPT.to_vec(), 2..=2),
        (Question::Version, 20) => (VERSION.to_vec(), 0..=0),
        (Question::Version, 25) => (VERSION.to_vec(), 1..=2),
        _ => return Some("another refusal".to_string()),
    };
    let numbers: Vec<Option<usize>> = keys.iter().map(|&key| front.number_of(key)).collect();
    let found = numbers.iter().flatten().count();
    if counts.contains(&found) {
        return None;
    }
    Some(format!("the records of {keys:?} are {numbers:?}"))
}
