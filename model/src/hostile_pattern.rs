//! Inputs of the program `pattern`, good and hostile, and what it must print for each: those that are stored, and longer ones.

use std::io;
use std::path::Path;

use crate::house::{bytes_of, TABLE_A};
use crate::inputs::Cases;
use crate::pattern::pattern;
use crate::patterns;

fn cases() -> Cases {
    let mut cases = Cases::default();
    cases.group("as they are stored");
    for input in patterns::inputs() {
        cases.put(&input);
    }
    cases.group("longer than any table, however they go on");
    let one = [&bytes_of(&TABLE_A)[..], &[0, 1, 1, 128]].concat();
    for more in [0, 1, 8, 22, 23, 24, 25, 26, 27, 28, 1000, 100_000] {
        cases.own(&[&one[..], &vec![7; more]].concat());
        cases.own(&[&vec![0; more][..], &one].concat());
    }
    cases
}

/// Writes the inputs and the right outputs into the folder.
pub fn write(folder: &Path) -> io::Result<()> {
    cases().write(folder, pattern)
}

#[cfg(test)]
mod tests {
    use super::*;

    #[test]
    fn about_a_thousand() {
        let inputs = cases().inputs;
        assert!((900..1000).contains(&inputs.len()), "{}", inputs.len());
        let printed: Vec<String> = inputs.iter().map(|input| pattern(input)).collect();
        assert!(printed.iter().all(|out| out.len() <= 256));
    }
}
