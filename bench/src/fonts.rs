//! The tables that are timed: those of the fonts under some folders, 'name' tables of a given number of records or with a long PostScript name, and the tables of made faces.

use std::path::{Path, PathBuf};

/// The 'name' and 'OS/2' tables of the fonts found, and those of the fonts that have both.
pub struct Tables {
    pub names: Vec<Vec<u8>>,
    pub os2s: Vec<Vec<u8>>,
    pub both: Vec<Font>,
    pub fonts: usize,
}

/// The two tables of a font.
pub struct Font {
    pub os2: Vec<u8>,
    pub name: Vec<u8>,
}

fn collect(folder: &Path, files: &mut Vec<PathBuf>) {
    let Ok(entries) = std::fs::read_dir(folder) else {
        return;
    };
    for entry in entries.flatten() {
        let path = entry.path();
        if path.is_dir() {
            collect(&path, files);
        } else if path.extension().is_some_and(|e| e == "ttf" || e == "otf") {
            files.push(path);
        }
    }
}

fn u32_at(b: &[u8], at: usize) -> Option<usize> {
    Some(u32::from_be_bytes(b.get(at..at + 4)?.try_into().ok()?) as usize)
}

/// A table of a font file, by its tag in the table directory.
fn table(font: &[u8], tag: &[u8; 4]) -> Option<Vec<u8>> {
    let count = u16::from_be_bytes([*font.get(4)?, *font.get(5)?]) as usize;
    for i in 0..count {
        let at = 12 + 16 * i;
        if font.get(at..at + 4)? == tag {
            let start = u32_at(font, at + 8)?;
            return Some(font.get(start..start + u32_at(font, at + 12)?)?.to_vec());
        }
    }
    None
}

pub fn tables(folders: &[PathBuf]) -> Tables {
    let mut files = Vec::new();
    for folder in folders {
        collect(folder, &mut files);
    }
    files.sort();
    let mut found = Tables {
        names: Vec::new(),
        os2s: Vec::new(),
        both: Vec::new(),
        fonts: 0,
    };
    for file in &files {
        if let Ok(font) = std::fs::read(file) {
            found.fonts += 1;
            let name = table(&font, b"name");
            let os2 = table(&font, b"OS/2");
            if let (Some(name), Some(os2)) = (&name, &os2) {
                found.both.push(Font {
                    os2: os2.clone(),
                    name: name.clone(),
                });
            }
            found.names.extend(name);
            found.os2s.extend(os2);
        }
    }
    found
}

/// An accepted 'name' table of format 0 with so many records, with a string of one byte that all share.
pub fn many_records(count: u16) -> Vec<u8> {
    let end = 6 + 12 * count;
    let mut t = Vec::new();
    for number in [0, count, end] {
        t.extend(number.to_be_bytes());
    }
    for i in 0..count {
        for part in [3, 1, 0x409 + i / 256, i % 256, 1, 0] {
            t.extend(u16::to_be_bytes(part));
        }
    }
    t.push(b'x');
    t
}

/// An accepted 'name' table of 5,460 records, each with a string of 12 bytes of its own, and the same with one byte of the last
/// string but one changed.
pub fn one_byte_changed() -> [Vec<u8>; 2] {
    let mut t = many_records(5460);
    t.pop();
    for i in 0..5460 {
        let at = 6 + 12 * i + 8;
        t[at..at + 2].copy_from_slice(&12u16.to_be_bytes());
        t[at + 2..at + 4].copy_from_slice(&(12 * i as u16).to_be_bytes());
        t.extend(format!("string {i:05}").bytes());
    }
    let mut changed = t.clone();
    let last = changed.len() - 13;
    changed[last] ^= 1;
    [t, changed]
}

/// An accepted 'name' table with a PostScript name of so many characters, at most 63: letters, digits and a hyphen, in both records.
pub fn postscript_name(count: u16) -> Vec<u8> {
    let all = b"ABCDEFGHIJKLMNOPQRSTUVWXYZabcdefghijklmnopqrstuvwxyz0123456789-";
    let name = &all[..usize::from(count)];
    let records = [[1, 0, 0, 6, count, 0], [3, 1, 0x409, 6, 2 * count, count]];
    let mut t = Vec::new();
    for number in [0, 2, 30].into_iter().chain(records.concat()) {
        t.extend(u16::to_be_bytes(number));
    }
    t.extend(name);
    t.extend(name.iter().flat_map(|&code| [0, code]));
    t
}

/// A family's text as fonts store it, two bytes a character.
pub fn two_bytes(family: &str) -> Vec<u8> {
    family.encode_utf16().flat_map(u16::to_be_bytes).collect()
}

/// An accepted 'OS/2' table of version 4.
pub fn os2(weight: u16, width: u16, sloped: bool) -> Vec<u8> {
    let mut t = vec![0; 96];
    for (at, number) in [(0, 4), (4, weight), (6, width), (62, u16::from(sloped))] {
        t[at..at + 2].copy_from_slice(&number.to_be_bytes());
    }
    t
}

/// An accepted 'name' table with a text for a family under each of the name IDs, which rise.
pub fn families(texts: &[(u16, &[u8])]) -> Vec<u8> {
    let count = texts.len() as u16;
    let mut t = Vec::new();
    for number in [0, count, 6 + 12 * count] {
        t.extend(number.to_be_bytes());
    }
    let mut offset = 0;
    for (name, text) in texts {
        let length = text.len() as u16;
        for part in [3, 1, 0x409, *name, length, offset] {
            t.extend(u16::to_be_bytes(part));
        }
        offset += length;
    }
    t.extend(texts.iter().flat_map(|(_, text)| *text));
    t
}
