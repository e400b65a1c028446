//! Inputs of the program `trace`, good and hostile, and what it must print for each.

mod accepted;
mod refused;

use std::io;
use std::path::Path;

use crate::inputs::Cases;
use crate::trace::trace;

fn cases() -> Cases {
    let mut cases = Cases::default();
    accepted::put(&mut cases);
    refused::put(&mut cases);
    cases
}

/// Writes the inputs and the right outputs into the folder.
pub fn write(folder: &Path) -> io::Result<()> {
    cases().write(folder, trace)
}

#[cfg(test)]
mod tests {
    use super::*;
    use crate::rules::RULES;

    #[test]
    fn a_few_hundred_that_meet_every_refusal_and_every_verdict() {
        let inputs = cases().inputs;
        assert!((300..1000).contains(&inputs.len()), "{}", inputs.len());
        let longest = inputs.iter().map(Vec::len).max();
        assert_eq!(longest, Some(1_000_002));
        let printed: Vec<String> = inputs.iter().map(|input| trace(input)).collect();
        let starting = |start: &str| printed.iter().filter(|out| out.starts_with(start)).count();
        for number in 1..=12 {
            let met = starting(&format!("refused {number} at ")) > 0;
            assert_eq!(met, [1, 2, 7, 10, 11].contains(&number), "{number}");
        }
        assert!(starting("refused") > 150 && starting("edition") > 200);
        let ending = |end: &str| printed.iter().filter(|out| out.ends_with(end)).count();
        for rule in RULES.into_iter().chain([10]) {
            // No two true cycles are the same.
            let met = ending(&format!(" breaks rule {rule}\n")) > 0;
            assert_eq!(met, rule != 2, "{rule}");
        }
        assert!(ending("\naccepted\n") > 100);
        assert!(starting("edition 7 commands 69632\n") > 1);
        let holding = |part: &str| printed.iter().any(|out| out.contains(part));
        assert!(holding("\n4294967295 ACT 0 0\n") && holding("refused 11 at 65537 edition"));
    }
}
