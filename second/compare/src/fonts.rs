//! Finds the fonts under folders.

use std::collections::HashSet;
use std::env;
use std::fs;
use std::path::{Path, PathBuf};

/// The endings of a font file's name.
const ENDINGS: [&str; 4] = ["ttf", "otf", "ttc", "otc"];

/// The folders in which fonts are installed, as far as they are there.
pub fn installed() -> Vec<PathBuf> {
    let mut folders = vec![
        PathBuf::from("/usr/share/fonts"),
        PathBuf::from("/usr/local/share/fonts"),
    ];
    if let Some(home) = env::var_os("HOME") {
        let home = PathBuf::from(home);
        folders.push(home.join(".fonts"));
        folders.push(home.join(".local/share/fonts"));
    }
    folders.retain(|folder| folder.is_dir());
    folders
}

/// The font files under the folders, each once, in order. A file may be named too.
pub fn under(folders: &[PathBuf]) -> Result<Vec<PathBuf>, String> {
    let mut seen = HashSet::new();
    let mut fonts = Vec::new();
    for folder in folders {
        visit(folder, &mut seen, &mut fonts)?;
    }
    fonts.sort();
    Ok(fonts)
}

fn visit(path: &Path, seen: &mut HashSet<PathBuf>, fonts: &mut Vec<PathBuf>) -> Result<(), String> {
    let fault = |e: std::io::Error| format!("{}: {e}", path.display());
    let real = path.canonicalize().map_err(fault)?;
    if !seen.insert(real.clone()) {
        return Ok(());
    }
    if real.is_dir() {
        for entry in fs::read_dir(&real).map_err(fault)? {
            let inside = entry.map_err(fault)?.path();
            // A link to nowhere is no font.
            if inside.exists() && (inside.is_dir() || is_font(&inside)) {
                visit(&inside, seen, fonts)?;
            }
        }
    } else {
        fonts.push(real);
    }
    Ok(())
}

fn is_font(path: &Path) -> bool {
    let ending = path.extension().map(|e| e.to_string_lossy().to_lowercase());
    ending.is_some_and(|ending| ENDINGS.contains(&ending.as_str()))
}
