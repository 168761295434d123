//! Finds the archive that this crate calls, in the repository that holds the crate.

use std::path::Path;
use std::{env, process};

fn main() {
    let krate = env::var("CARGO_MANIFEST_DIR").expect("cargo names the crate's folder");
    let root = Path::new(&krate).join("..");
    let root = root.canonicalize().unwrap_or(root);
    let folder = root.join("target").join("staticlib");
    let archive = folder.join("libgyalvindor.a");
    println!("cargo::rerun-if-changed={}", archive.display());
    if !archive.is_file() {
        eprintln!("The archive {} is not there.", archive.display());
        eprintln!("Make it by running, in {}:", root.display());
        eprintln!();
        eprintln!("    ./archive");
        process::exit(1);
    }
    println!("cargo::rustc-link-search=native={}", folder.display());
    println!("cargo::rustc-link-lib=static=gyalvindor");
}
