//! What the papers say of the calls, and laws that hold of them all.

mod arrivals;
mod captures;
mod editions;
mod engines;
mod groups;
mod laws;
mod pins;
mod refreshes;
mod refusals;
mod table_t;
mod worked;
mod wraps;
