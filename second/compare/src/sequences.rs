//! Makes calls of the chooser at random: loads of fonts that are right, that have a fault at an edge or several, unloads, and
//! requests near what is loaded; on the archive's empty rack, and on racks that no load makes.
//!
//! The makers know the rules of document 01 and of document 02's Ask 7 only to come near their edges. Whether a call is right is
//! for the compared programs.

use std::rc::Rc;

use crate::calls::{Call, Calls, EMPTY};
use crate::chosen::size;
use crate::make::{self, Key, FS_SELECTION, WEIGHT, WIDTH};
use crate::numbers::Numbers;
use crate::raw::{Rack, Slot, FAMILY_BYTES, SLOTS};

const FAMILY_16: Key = [3, 1, 0x409, 16];
const FAMILY_1: Key = [3, 1, 0x409, 1];

/// What the fonts, slots and requests of one sequence are made from, so that they meet.
struct Theme {
    families: Vec<Vec<u8>>,
    weights: Vec<u16>,
    widths: Vec<u16>,
    /// How many slots are mostly named.
    slots: usize,
    /// Whether tables have faults.
    faulty: bool,
    os2s: Vec<Rc<[u8]>>,
    names: Vec<Rc<[u8]>>,
}

/// Calls, one after another.
pub fn calls(n: &mut Numbers) -> Calls {
    let theme = theme(n);
    let mut rack = match n.below(10) {
        0..=5 => None,
        6 => Some(full_rack(n, &theme)),
        _ => Some(any_rack(n, &theme)),
    };
    let mut calls = Vec::new();
    if let (Some(rack), true) = (&mut rack, n.chance(1, 4)) {
        // One slot that is empty, and a load into it.
        let slot = n.below(SLOTS);
        rack.slots[slot].length = n.pick(&[0, 0, 65, 257, 65_535]);
        calls.push(load(n, &theme, slot as u32));
    }
    for _ in 0..6 + n.below(26) {
        let slot = slot(n, &theme);
        calls.push(match n.below(20) {
            0..=8 => load(n, &theme, slot),
            9..=11 => Call::Unload { slot },
            _ => request(n, &theme),
        });
    }
    Calls {
        rack: rack.map(Box::new),
        calls,
    }
}

/// Calls on the fonts whose tables are given, `OS/2` and `name`: loads at every level, each followed by requests.
pub fn of_fonts(n: &mut Numbers, fonts: &[[Rc<[u8]>; 2]], levels: &[u32]) -> Calls {
    let mut calls = Vec::new();
    for [os2, name] in fonts {
        for &level in levels {
            let slot = n.below(SLOTS) as u32;
            if n.chance(1, 3) {
                calls.push(Call::Unload { slot });
            }
            calls.push(Call::Load {
                slot,
                level,
                os2: os2.clone(),
                name: name.clone(),
            });
            calls.extend((0..3).map(|_| font_request(n, os2, name)));
        }
    }
    Calls { rack: None, calls }
}

/// A request near a font: its family as the second program finds it, or nearly that, and its weight and width or others.
fn font_request(n: &mut Numbers, os2: &[u8], name: &[u8]) -> Call {
    let text = |id| second::name::lookup(name, 3, 1, 0x409, id).answer.ok();
    let mut family = match text(16).or_else(|| text(1)) {
        Some(text) => name[text.start..text.start + text.length].to_vec(),
        None => b"none".to_vec(),
    };
    if n.chance(1, 8) {
        family = near_family(n, &family);
    }
    let held = |at| crate::ask::word(os2, at);
    Call::Request {
        family,
        weight: n.pick(&[held(4), held(4) + 1, 400, 700, 0, u32::MAX]),
        width: n.pick(&[held(6), held(6) + 1, 5, 1, 9, u32::MAX]),
        slope: n.pick(&[0, 1]),
    }
}

fn theme(n: &mut Numbers) -> Theme {
    let length = n.pick(&[1, 2, 3, 5, 9, 20, 63, 64, 64]);
    let mut base = n.bytes(length);
    if n.chance(1, 3) {
        // Two bytes a character, as fonts have it.
        base.iter_mut().step_by(2).for_each(|high| *high = 0);
    }
    let mut families = vec![base.clone(), base.clone()];
    families.extend((0..3).map(|_| near_family(n, &base)));
    if n.chance(1, 2) {
        let length = 1 + n.below(FAMILY_BYTES);
        families.push(n.bytes(length));
    }

    let weight = 1 + n.below(1000);
    let apart = n.pick(&[1, 2, 50, 300]);
    let weights = [weight, weight + apart, weight.saturating_sub(apart), weight]
        .map(|weight| weight.clamp(1, 1000) as u16);
    let width = 1 + n.below(9) as u16;
    let widths = [width - 1, width, width + 1].map(|width| width.clamp(1, 9));

    let mut theme = Theme {
        families,
        weights: weights.to_vec(),
        widths: widths.to_vec(),
        slots: n.pick(&[2, 4, 8, 32]),
        faulty: n.chance(1, 2),
        os2s: Vec::new(),
        names: Vec::new(),
    };
    theme.weights.push(1 + n.below(1000) as u16);
    theme.widths.push(1 + n.below(9) as u16);
    for _ in 0..6 {
        theme.os2s.push(os2(n, &theme).into());
        theme.names.push(name(n, &theme).into());
    }
    theme
}

/// A family that differs in the first byte, in the last, in another, or in its length alone.
fn near_family(n: &mut Numbers, family: &[u8]) -> Vec<u8> {
    let mut near = family.to_vec();
    if near.is_empty() {
        return vec![0];
    }
    let last = near.len() - 1;
    match n.below(6) {
        0 => near[0] ^= n.pick(&[1, 0x20, 0x80]),
        1 => near[last] ^= n.pick(&[1, 0x20, 0x80]),
        2 if last > 0 => {
            near.pop();
        }
        3 => near.push(n.pick(&[0, near[0], b'a'])),
        4 => near.reverse(),
        _ => {
            let place = n.below(near.len());
            near[place] ^= 1 << n.below(8);
        }
    }
    near
}

fn family(n: &mut Numbers, theme: &Theme) -> Vec<u8> {
    let place = n.below(theme.families.len());
    theme.families[place].clone()
}

// ---- tables

fn os2(n: &mut Numbers, theme: &Theme) -> Vec<u8> {
    if theme.faulty && n.chance(1, 20) {
        return make::os2(n);
    }
    let version = match n.below(20) {
        _ if !theme.faulty => n.below(6) as u16,
        0..=15 => n.below(6) as u16,
        16..=18 => n.pick(&[6, 7, 65_535]),
        _ => n.word(),
    };
    let mut values = make::valid_values(n, i64::from(version));
    values[WEIGHT] = i64::from(n.pick(&theme.weights));
    values[WIDTH] = i64::from(n.pick(&theme.widths));
    // Upright, or sloped, with any other bits.
    match n.chance(1, 2) {
        true => values[FS_SELECTION] &= !1,
        false => values[FS_SELECTION] = values[FS_SELECTION] & !0x40 | 1,
    }
    if theme.faulty && n.chance(1, 3) {
        make::break_rule(n, &mut values);
    }
    let mut bytes = make::encoded(&values);
    let after = n.below(8);
    bytes.extend(n.bytes(after));
    let size = size(u32::from(version));
    match n.below(20) {
        _ if !theme.faulty => {}
        0..=11 => bytes.truncate(size),
        12 => bytes.truncate(size - 1),
        13..=15 => bytes.truncate(n.pick(&[77, 78, 85, 86, 95, 96, 99, 100])),
        16 => bytes.truncate(n.pick(&[0, 1, 2, 5, 10, 63, 64, 76])),
        _ => {}
    }
    bytes
}

fn name(n: &mut Numbers, theme: &Theme) -> Vec<u8> {
    match n.below(40) {
        _ if !theme.faulty => {}
        0 | 1 => return make::name(n),
        2 => {
            let length = n.below(6);
            return n.bytes(length);
        }
        _ => {}
    }
    let keys: &[Key] = match n.below(10) {
        0..=3 => &[FAMILY_1],
        4 | 5 => &[FAMILY_16],
        6..=8 => &[FAMILY_1, FAMILY_16],
        _ => &[],
    };
    let mut strings: Vec<(Key, Vec<u8>)> = Vec::new();
    for &key in keys {
        strings.push((key, text(n, theme)));
    }
    // Records that only look like those.
    while n.chance(1, 2) {
        let mut key = n.pick(&[FAMILY_1, FAMILY_16]);
        let part = n.below(4);
        key[part] = match n.chance(1, 2) {
            true => key[part] + 1,
            false => key[part] - 1,
        };
        strings.push((n.pick(&[key, key, [1, 0, 0, 1]]), text(n, theme)));
    }
    let faults = match n.below(10) {
        _ if !theme.faulty => 0,
        0..=5 => 0,
        6..=8 => 1,
        _ => 2,
    };
    make::name_with(n, strings, faults)
}

/// A family in a record: mostly one of the theme's, else empty or too long.
fn text(n: &mut Numbers, theme: &Theme) -> Vec<u8> {
    match n.below(24) {
        _ if !theme.faulty => family(n, theme),
        0 | 1 => Vec::new(),
        2 => n.bytes(65),
        3 => {
            let length = n.pick(&[66, 127, 128, 255, 256, 257, 256 + 63, 256 + 64, 512 + 9]);
            n.bytes(length)
        }
        4 => {
            let length = n.pick(&[1, 2, 3, 63, 64]);
            n.bytes(length)
        }
        _ => family(n, theme),
    }
}

// ---- calls

fn slot(n: &mut Numbers, theme: &Theme) -> u32 {
    match n.below(20) {
        0 | 1 => {
            let low = n.below(SLOTS) as u32;
            n.pick(&[
                32,
                33,
                255,
                256 + low,
                65_536 + low,
                65_536 + 256 + low,
                (1 << 31) + low,
                u32::MAX - 31 + low,
                u32::MAX,
            ])
        }
        2 | 3 => n.pick(&[0, 31]),
        _ => n.below(theme.slots) as u32,
    }
}

fn load(n: &mut Numbers, theme: &Theme, slot: u32) -> Call {
    let level = match n.below(12) {
        0 => n.pick(&[6, 6, 7, 255, 256, 65_536 + 5, 1 << 31, u32::MAX, u32::MAX]),
        1..=5 => 5,
        _ => n.below(6) as u32,
    };
    let [os2, name] =
        [&theme.os2s, &theme.names].map(|tables| tables[n.below(tables.len())].clone());
    Call::Load {
        slot,
        level,
        os2,
        name,
    }
}

fn request(n: &mut Numbers, theme: &Theme) -> Call {
    let mut family = family(n, theme);
    match n.below(24) {
        0 => family.clear(),
        1 | 2 => family = near_family(n, &family),
        3 => {
            let more = 65 - family.len().min(64);
            family.extend(n.bytes(more));
        }
        // The low 16 bits of the length are the family's.
        4 if n.chance(1, 30) => family.resize(65_536 + family.len(), 0),
        _ => {}
    }
    Call::Request {
        family,
        weight: wanted(n, &theme.weights),
        width: wanted(n, &theme.widths),
        slope: n.pick(&[0, 0, 0, 0, 0, 1, 1, 1, 2, 256, 65_536, 1 << 31, u32::MAX]),
    }
}

/// A number about those that faces have, or far from them.
fn wanted(n: &mut Numbers, numbers: &[u16]) -> u32 {
    let [one, other] = [0; 2].map(|_| u32::from(n.pick(numbers)));
    match n.below(10) {
        0..=3 => one,
        // Between two of them, where they may be equally far.
        4..=6 => (one + other) / 2,
        7 => n.pick(&[
            one + 1,
            one.saturating_sub(1),
            65_536 + one,
            (1 << 31) + one,
        ]),
        8 => n.pick(&[0, 1, 5, 10, 1000, 1001, 65_535, 65_536, 65_537]),
        _ => n.pick(&[0, 65_535, 65_536, 1 << 31, u32::MAX - 1, u32::MAX]),
    }
}

// ---- racks

/// A rack of any slots.
fn any_rack(n: &mut Numbers, theme: &Theme) -> Rack {
    let mut slots = [EMPTY; SLOTS];
    let few = n.chance(1, 2);
    for slot in &mut slots {
        if n.chance(if few { 9 } else { 2 }, 10) {
            continue;
        }
        *slot = any_slot(n, theme);
        let length = slot.length;
        if n.chance(1, 5) {
            slot.length = n.pick(&[
                0,
                0,
                65,
                65,
                66,
                128,
                255,
                256,
                256 + length,
                512 + length,
                65_535,
                65_535,
            ]);
        }
    }
    Rack { slots }
}

/// A slot with one of the theme's families, and with any numbers and bytes.
fn any_slot(n: &mut Numbers, theme: &Theme) -> Slot {
    let text = family(n, theme);
    let length = text.len().min(FAMILY_BYTES);
    let mut slot = EMPTY;
    if n.chance(1, 2) {
        let behind = n.bytes(FAMILY_BYTES);
        slot.family.copy_from_slice(&behind);
    }
    slot.family[..length].copy_from_slice(&text[..length]);
    slot.length = length as u16;
    let any = n.word();
    slot.weight = match n.below(4) {
        0 => n.pick(&[0, 0, 1001, 32_768, 65_535, any]),
        _ => n.pick(&theme.weights),
    };
    slot.width = match n.below(4) {
        0 => n.pick(&[0, 0, 10, 32_768, 65_535, any]),
        _ => n.pick(&theme.widths),
    };
    slot.sloped = n.pick(&[0, 0, 0, 0, 1, 1, 2, 7, 256, 0xFF00, 65_535]);
    slot
}

/// A rack in which every slot holds a face; sometimes all have one family.
fn full_rack(n: &mut Numbers, theme: &Theme) -> Rack {
    let mut slots = [EMPTY; SLOTS];
    for slot in &mut slots {
        *slot = any_slot(n, theme);
    }
    if n.chance(1, 2) {
        let (length, family) = (slots[0].length, slots[0].family);
        for slot in &mut slots {
            (slot.length, slot.family) = (length, family);
        }
    }
    Rack { slots }
}
