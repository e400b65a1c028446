//! What the programs `hostile`, `verdicts`, `served`, `runs`, `listings`, `traces` and `patterns` are run on, and what they and `calls`, which is
//! run on nothing, must write.

use std::fs;
use std::io;
use std::path::Path;

use crate::{calls, hostile, listings, patterns, runs, served, traces, verdicts};

/// A program's name, its input and its output.
type Stored = (&'static str, Vec<u8>, String);

pub fn all() -> Vec<Stored> {
    type Cases = fn() -> Vec<u8>;
    type Lines = fn(&[u8]) -> String;
    let programs: [(&str, Cases, Lines); 8] = [
        ("hostile", hostile::cases, hostile::lines),
        ("verdicts", verdicts::cases, verdicts::lines),
        ("served", served::cases, served::lines),
        ("runs", runs::cases, runs::lines),
        ("listings", listings::cases, listings::lines),
        ("traces", traces::cases, traces::lines),
        ("patterns", patterns::cases, patterns::lines),
        ("calls", Vec::new, |_| calls::lines()),
    ];
    programs
        .map(|(program, cases, lines)| {
            let input = cases();
            let output = lines(&input);
            (program, input, output)
        })
        .into()
}

/// Writes them into the programs' folders under the repository's root.
pub fn write(root: &Path) -> io::Result<()> {
    for (program, input, output) in all() {
        let folder = root.join("crates").join(program);
        fs::create_dir_all(&folder)?;
        if !input.is_empty() {
            fs::write(folder.join("stdin"), &input)?;
        }
        fs::write(folder.join("stdout"), &output)?;
        let (bytes, lines) = (input.len(), output.lines().count());
        println!("{program}: {bytes} bytes in, {lines} lines out");
    }
    Ok(())
}

#[cfg(test)]
mod tests {
    use super::*;

    #[test]
    fn the_stored_files_stay_as_they_are() {
        let crates = Path::new(env!("CARGO_MANIFEST_DIR")).join("../crates");
        for (program, input, output) in all() {
            let stored = |file| fs::read(crates.join(program).join(file)).expect("it's stored");
            assert!(
                input.is_empty() || stored("stdin") == input,
                "{program}: stdin"
            );
            assert!(stored("stdout") == output.as_bytes(), "{program}: stdout");
        }
    }
}
