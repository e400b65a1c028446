//! The tool's parts, tried alone: what lies in files is tried by `tests/tool`.

mod hostile;
mod near;
mod promise;
mod random;

use crate::desk::Table;
use random::Random;
use skvorzhan::Command;

/// House table A, in twenty numbers.
const A: [u16; 20] = [
    7, 8, 4, 4, 10, 10, 28, 38, 6, 32, 10, 8, 6, 12, 6, 0, 1, 4, 6, 6,
];

fn table(numbers: [u16; 20]) -> Table {
    let bytes = numbers.iter().flat_map(|x| x.to_le_bytes()).collect();
    let expected = numbers[0];
    Table { expected, bytes }
}

fn commands(text: &str) -> Vec<Command> {
    let lines = text.replace(", ", "\n");
    let read = crate::command_text::read("", &lines);
    read.expect("a schedule").commands
}
