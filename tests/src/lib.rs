//! What the tests and the benchmark share: the library's C interface, document 01 written down a second time, and random numbers.

pub mod library;
pub mod paper;
pub mod random;
