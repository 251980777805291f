//! Calls of two parties that share a table. `random` and `histories` have a check
//! that any store can be put to: the library passes, and `mistakes` has stores that
//! do not.

mod histories;
mod mistakes;
mod numbers;
mod random;
mod rules;
mod separation;
mod whole;
