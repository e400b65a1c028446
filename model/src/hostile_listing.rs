//! Inputs of the listing program, good and hostile, and what it must print for each.

mod accepted;
mod editions;
mod lists;
mod refreshes;
mod refused;

use std::io;
use std::path::Path;

use crate::inputs::Cases;
use crate::listing::listing;
pub use lists::any_list;

fn cases() -> Cases {
    let mut cases = Cases::default();
    accepted::put(&mut cases);
    refused::put(&mut cases);
    editions::put(&mut cases);
    refreshes::put(&mut cases);
    cases
}

/// Writes the inputs and the right outputs into the folder.
pub fn write(folder: &Path) -> io::Result<()> {
    cases().write(folder, listing)
}

#[cfg(test)]
mod tests {
    use super::*;

    #[test]
    fn a_few_hundred_that_meet_every_refusal() {
        let inputs = cases().inputs;
        assert!((300..1000).contains(&inputs.len()));
        let longest = inputs.iter().map(Vec::len).max();
        assert_eq!(longest, Some(200_002));
        let printed: Vec<String> = inputs.iter().map(|input| listing(input)).collect();
        let starting = |start: &str| printed.iter().filter(|out| out.starts_with(start)).count();
        for number in 1..=10 {
            let met = starting(&format!("refused {number} at ")) > 0;
            assert_eq!(met, number <= 5 || number == 10, "{number}");
        }
        assert!(starting("refused") > 200 && starting("edition") > 200);
        assert!(starting("edition 7 commands 8192\n") > 0);
        assert!(starting("edition 65535 commands 8192\n") > 0);
    }
}
