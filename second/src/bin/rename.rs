//! Renames the family of a 'name' table, as `examples/rename.c` does: `rename TABLE FAMILY > NEWTABLE`.
//! The bytes in `examples/rename.expected` are those that this one writes.

#![forbid(unsafe_code)]

use std::io::{self, Write};
use std::process::ExitCode;
use std::{env, fs};

use second::name::{self, Entry};

/// The most characters of a family: with two bytes each, as many as a length can count.
const LONGEST_FAMILY: usize = 32_767;

fn main() -> ExitCode {
    let words: Vec<_> = env::args_os().skip(1).collect();
    let [path, family] = &words[..] else {
        eprintln!("usage: rename TABLE FAMILY > NEWTABLE");
        return ExitCode::from(2);
    };
    let renamed = checked(family.as_encoded_bytes()).and_then(|family| {
        let table = fs::read(path).map_err(|e| format!("{}: {e}", path.display()))?;
        renamed(&table, family).map_err(|message| format!("{}: {message}", path.display()))
    });
    let written = renamed.and_then(|table| {
        let mut output = io::stdout().lock();
        output
            .write_all(&table)
            .and_then(|()| output.flush())
            .map_err(|e| format!("standard output: {e}"))
    });
    match written {
        Ok(()) => ExitCode::SUCCESS,
        Err(message) => {
            eprintln!("rename: {message}");
            ExitCode::from(1)
        }
    }
}

/// The family, if it may be written.
fn checked(family: &[u8]) -> Result<&[u8], String> {
    if family.is_empty() {
        Err("the family is empty".to_string())
    } else if family.len() > LONGEST_FAMILY {
        Err("the family has more than 32767 characters".to_string())
    } else if family.iter().any(|byte| !(32..=126).contains(byte)) {
        Err("the family has a character that is not printable ASCII".to_string())
    } else {
        Ok(family)
    }
}

/// The table with another family, or why there is none.
fn renamed(bytes: &[u8], family: &[u8]) -> Result<Vec<u8>, String> {
    let table = name::read(bytes).map_err(|refusal| format!("the table is {refusal}"))?;
    if table.format != 0 {
        return Err(
            "it has format 1, and a table of format 0 can't have its language tags".to_string(),
        );
    }
    // The pool: the table, the family with one byte a character, and with two.
    let one_byte = bytes.len();
    let two_bytes = one_byte + family.len();
    let mut pool = bytes.to_vec();
    pool.extend(family);
    pool.extend(family.iter().flat_map(|&byte| [0, byte]));

    let mut replaced = false;
    let mut entries = Vec::new();
    for record in &table.records {
        let (platform, encoding, language, name) = record.key();
        let other = match (platform, encoding, name) {
            (1, 0, 1) => Some((one_byte, family.len())),
            (3, 1, 1) => Some((two_bytes, 2 * family.len())),
            _ => None,
        };
        replaced |= other.is_some();
        let own_start = table.storage_start + usize::from(record.offset);
        let (start, length) = other.unwrap_or((own_start, usize::from(record.length)));
        entries.push(Entry {
            platform,
            encoding,
            language,
            name,
            start: start as u64,
            length: u16::try_from(length).expect("the length has 16 bits"),
        });
    }
    if !replaced {
        return Err("it has no family record to replace".to_string());
    }
    // No table is longer: the last text starts at offset 65,535 at most.
    let mut room = vec![0; 6 + 12 * name::MOST_RECORDS + 2 * 65_535];
    let size = name::write(&entries, &pool, &mut room)
        .map_err(|refusal| format!("the new table is {refusal}"))?;
    room.truncate(size);
    Ok(room)
}
