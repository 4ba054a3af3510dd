//! The library's algorithms in unchecked Rust: the same questions, sums and remainders in the same order, with indices that nothing tests and
//! arithmetic that nothing watches. What it is for: the price of the library's proved code beside the same code without checks.
//! The sheets it is given must be long enough for their own header; `bench/measure` gives it the ones that it gives the library, and compares the
//! answers before it takes any time. R3 is decided by the recurrence, so 3l - 3 < p is assumed.

pub mod counting;
pub mod horner;
mod primes;
pub mod rows;
pub mod rules;
mod services;

pub use primes::question_three;
pub use services::{check, compose, kernel, push, solve, write};

/// The values in a sheet's header; 0 where its form has no such word.
#[derive(Clone, Copy, Default)]
pub struct Values {
    pub p: u32,
    pub a: u32,
    pub b: u32,
    pub atilde: u32,
    pub btilde: u32,
    pub degree: u32,
    pub sigma: u32,
}

/// The last k at which the recurrence is asked for R3, as in the library.
pub fn last(l: usize) -> usize {
    l
}

/// What the library returns beside a refusal's number.
pub const REFUSED: u64 = 1 << 57;
/// The number of the point at infinity.
pub const INFINITY: u64 = 1 << 56;
