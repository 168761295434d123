//! The benchmark with ttf-parser beside it.

use bench::Other;
use ttf_parser::{name, os2};

fn lookup(table: &[u8], key: [u16; 4]) -> Option<usize> {
    let names = name::Table::parse(table)?.names;
    for i in 0..names.len() {
        let n = names.get(i)?;
        if [n.platform_id as u16, n.encoding_id, n.language_id, n.name_id] == key {
            return Some(n.name.len());
        }
    }
    None
}

fn weight(table: &[u8]) -> Option<u16> {
    Some(os2::Table::parse(table)?.weight().to_number())
}

fn main() -> std::process::ExitCode {
    bench::run(Some(Other { name: "ttf-parser", lookup, weight }))
}
