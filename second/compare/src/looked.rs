//! How many records a lookup looks at, by a reading of the comparison's own. It follows document 02's Ask 8, and asks none of the
//! sides.

use std::cmp::Ordering;

use crate::faults::Front;
use crate::question::{Question, Words, LOOKED};

/// No lookup looks at more records than this.
pub const MOST: u64 = 13;

/// What Ask 8 has against the count that a question on an accepted table reports; nothing where it bears it out. First the count
/// has to keep the bounds, whatever the key is; then it has to be that of the steps.
pub fn against(front: &Front, question: Question, words: Words) -> Option<String> {
    let Question::Lookup(key) = question else {
        return None;
    };
    let (looked, records) = (words[LOOKED], front.records as u64);
    if !kept(looked, records) {
        return Some(match records {
            0 => "0 records are looked at where there are none".to_string(),
            _ => format!(
                "two to the power of the count is at most twice {records}, and the count at most {MOST}"
            ),
        });
    }
    let counted = count(front, key);
    (looked != counted).then(|| format!("the steps look at {counted} of {records} records"))
}

/// Whether a count keeps the bounds for so many records.
fn kept(looked: u64, records: u64) -> bool {
    match records {
        0 => looked == 0,
        _ => looked <= MOST && 1 << looked <= 2 * records,
    }
}

/// How many records the steps look at for a key. Where the keys rise, that follows from how many of them are smaller, and
/// whether one is equal: the smaller ones stand before it.
pub fn count(front: &Front, key: [u32; 4]) -> u64 {
    let orders = (0..front.records).map(|number| front.key(number).cmp(&key));
    let (mut smaller, mut equal) = (0, false);
    for order in orders {
        match order {
            Ordering::Less => smaller += 1,
            Ordering::Equal => equal = true,
            Ordering::Greater => {}
        }
    }
    steps(0, front.records, smaller, equal)
}

/// The steps between a low number and a high one for a key that is, or (false) would be, behind so many smaller ones.
fn steps(low: usize, high: usize, smaller: usize, equal: bool) -> u64 {
    if low == high {
        return 0;
    }
    let half = (low + high) / 2;
    match half.cmp(&smaller) {
        Ordering::Less => 1 + steps(half + 1, high, smaller, equal),
        Ordering::Equal if equal => 1,
        _ => 1 + steps(low, half, smaller, equal),
    }
}
