//! The two queues, the cycle rule tried against all earlier records, the build and the bound.

#[cfg(test)]
mod before;
mod bound;
mod build;
mod lists;
mod queues;
mod state;
mod straight;

pub use bound::*;
pub use build::build;
pub use lists::*;
pub use queues::{dues, Due};
pub use state::{run, Bank, Group, State, NEVER};
pub use straight::Engine;
