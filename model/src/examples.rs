//! The example files: an expected edition, a table and transactions as the listing reads them, a capture as the trace does, transactions that arrive
//! later, or what is asked for as `pattern` does; with a text beside each that says what it holds.

pub mod arrivals;
mod captures;
mod lists;
mod patterns;
mod text;

pub use lists::{all, Example};

use std::fs;
use std::io;
use std::path::Path;

/// Writes `NAME.bin` and `NAME.txt` of each into `examples/` under the repository's root.
pub fn write(root: &Path) -> io::Result<()> {
    let folder = root.join("examples");
    fs::create_dir_all(&folder)?;
    for (name, bytes, text) in files() {
        fs::write(folder.join(format!("{name}.bin")), &bytes)?;
        fs::write(folder.join(format!("{name}.txt")), text)?;
        println!("{name}: {} bytes", bytes.len());
    }
    Ok(())
}

/// Each file's name, its bytes and the text beside it.
fn files() -> Vec<(&'static str, Vec<u8>, String)> {
    let listed = all();
    let listed = listed.iter().map(|e| (e.head.name, e.bytes(), e.text()));
    let traced = captures::all();
    let traced = traced.iter().map(|e| (e.head.name, e.bytes(), e.text()));
    let later = [(arrivals::NAME, arrivals::bytes(), arrivals::text())];
    let patterned = patterns::all();
    let patterned = patterned.iter().map(|e| (e.head.name, e.bytes(), e.text()));
    listed.chain(traced).chain(later).chain(patterned).collect()
}

#[cfg(test)]
mod tests {
    use super::*;

    #[test]
    fn the_stored_files_stay_as_they_are() {
        let folder = Path::new(env!("CARGO_MANIFEST_DIR")).join("../examples");
        let stored = |name| fs::read(folder.join(name)).expect("it's stored");
        for (name, bytes, text) in files() {
            assert!(stored(format!("{name}.bin")) == bytes, "{name}");
            assert!(stored(format!("{name}.txt")) == text.as_bytes(), "{name}");
        }
    }
}
