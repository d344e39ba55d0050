//! What scripts and examples of all kinds share: random numbers from a seed, records of one size,
//! sequences of calls, and the numbers in an example's text.

pub mod random;
pub mod records;
pub mod sequences;
pub mod text;
