//! What document 01 and the customer's requests say, once more in plain Rust and from the papers alone, to hold the proved programs
//! against.
//!
//! The public calls are in `desk`, the house tables in `house`, captures are written by `sent`, and `pins` tells who holds the data pins.
//! What the calls rest on is in `records`, `rules`, `scheduler`, `capture`, `serves` and `shortest`; the other modules make the stored cases of the
//! programs, the example files, and what must be printed for each. `README.md` has them in layers.

mod calls;
mod capture;
pub mod desk;
pub mod examples;
mod hostile;
pub mod hostile_listing;
pub mod hostile_pattern;
pub mod hostile_trace;
pub mod house;
mod inputs;
pub mod listing;
mod listings;
pub mod pattern;
mod patterns;
pub mod pins;
mod records;
mod rules;
mod runs;
mod scheduler;
pub mod sent;
mod served;
mod serves;
mod shortest;
mod stored;
pub mod trace;
mod traces;
pub mod vectors;
mod verdicts;
