//! What the benchmark measures: the library and the rival on the same rows.

#![forbid(unsafe_code)]

pub mod bars;
pub mod contenders;
pub mod keys;
pub mod measure;
pub mod rows;
