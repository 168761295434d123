//! Calls of the chooser, one after another, and the rack that they begin with.

use std::fmt;
use std::rc::Rc;

use crate::raw::{Rack, Slot, FAMILY_BYTES, SLOTS};

/// A call of the chooser.
#[derive(Clone)]
pub enum Call {
    Load {
        slot: u32,
        level: u32,
        os2: Rc<[u8]>,
        name: Rc<[u8]>,
    },
    Unload {
        slot: u32,
    },
    Request {
        family: Vec<u8>,
        weight: u32,
        width: u32,
        slope: u32,
    },
}

/// The words of a call in messages.
impl fmt::Display for Call {
    fn fmt(&self, f: &mut fmt::Formatter<'_>) -> fmt::Result {
        match self {
            Call::Load { slot, level, .. } => write!(f, "load into slot {slot} at level {level}"),
            Call::Unload { slot } => write!(f, "unload of slot {slot}"),
            Call::Request {
                family,
                weight,
                width,
                slope,
            } => write!(
                f,
                "request for a family of {} bytes, weight {weight}, width {width}, slope {slope}",
                family.len()
            ),
        }
    }
}

/// Calls, each on the rack that the one before it leaves.
#[derive(Clone, Default)]
pub struct Calls {
    /// The rack before the first call; nothing for the archive's empty one.
    pub rack: Option<Box<Rack>>,
    pub calls: Vec<Call>,
}

/// A slot with nothing in it.
pub const EMPTY: Slot = Slot {
    weight: 0,
    width: 0,
    sloped: 0,
    length: 0,
    family: [0; FAMILY_BYTES],
};

impl Calls {
    /// The slots of the rack, if it is not the archive's, and the calls, as lines. Bytes are hexadecimal digits, or `-` where
    /// there are none.
    pub fn lines(&self) -> String {
        let mut lines = String::new();
        if let Some(rack) = &self.rack {
            for (number, slot) in rack.slots.iter().enumerate() {
                let Slot {
                    weight,
                    width,
                    sloped,
                    length,
                    family,
                } = slot;
                let family = digits(family);
                lines += &format!("slot {number} {weight} {width} {sloped} {length} {family}\n");
            }
        }
        for call in &self.calls {
            lines += &match call {
                Call::Load {
                    slot,
                    level,
                    os2,
                    name,
                } => format!("load {slot} {level} {} {}\n", digits(os2), digits(name)),
                Call::Unload { slot } => format!("unload {slot}\n"),
                Call::Request {
                    family,
                    weight,
                    width,
                    slope,
                } => format!("request {} {weight} {width} {slope}\n", digits(family)),
            };
        }
        lines
    }

    /// The calls of such lines, or the line that is none.
    pub fn of_lines(lines: &str) -> Result<Calls, String> {
        let mut calls = Calls::default();
        for line in lines.lines() {
            let words: Vec<&str> = line.split_whitespace().collect();
            if put(&mut calls, &words).is_none() {
                return Err(format!("\"{line}\" is no slot and no call"));
            }
        }
        Ok(calls)
    }
}

/// Puts what the words of a line say; nothing where they say nothing.
fn put(calls: &mut Calls, words: &[&str]) -> Option<()> {
    let number = |word: &str| word.parse::<u32>().ok();
    let short = |word: &str| word.parse::<u16>().ok();
    match *words {
        ["slot", slot, weight, width, sloped, length, family] => {
            let slot = number(slot)? as usize;
            let held = Slot {
                weight: short(weight)?,
                width: short(width)?,
                sloped: short(sloped)?,
                length: short(length)?,
                family: bytes(family)?.try_into().ok()?,
            };
            let empty = Rack {
                slots: [EMPTY; SLOTS],
            };
            let rack = calls.rack.get_or_insert_with(|| Box::new(empty));
            *rack.slots.get_mut(slot)? = held;
        }
        ["load", slot, level, os2, name] => calls.calls.push(Call::Load {
            slot: number(slot)?,
            level: number(level)?,
            os2: bytes(os2)?.into(),
            name: bytes(name)?.into(),
        }),
        ["unload", slot] => calls.calls.push(Call::Unload {
            slot: number(slot)?,
        }),
        ["request", family, weight, width, slope] => calls.calls.push(Call::Request {
            family: bytes(family)?,
            weight: number(weight)?,
            width: number(width)?,
            slope: number(slope)?,
        }),
        _ => return None,
    }
    Some(())
}

/// Bytes as hexadecimal digits, two a byte.
fn digits(bytes: &[u8]) -> String {
    if bytes.is_empty() {
        return "-".to_string();
    }
    bytes.iter().map(|byte| format!("{byte:02x}")).collect()
}

/// The bytes of such digits.
fn bytes(digits: &str) -> Option<Vec<u8>> {
    if digits == "-" {
        return Some(Vec::new());
    }
    let two = |two: &[u8]| u8::from_str_radix(std::str::from_utf8(two).ok()?, 16).ok();
    let pairs = digits.as_bytes().chunks(2);
    pairs
        .map(|pair| if pair.len() == 2 { two(pair) } else { None })
        .collect()
}
