//! An independent implementation of document 01 and of the requests of document 02
//! that have landed: normalized isogenies of odd degree between elliptic curves
//! over a prime field. Request E9 stands beside them (`without_sum`) until it lands.
//!
//! It is written from these documents alone and serves as the expectation in
//! comparisons with the C library. It prefers the shortest route from their
//! words to code; nothing here is tuned beyond what the tests need.
//!
//! Letters follow the document: curve (a, b) is y^2 = x^3 + ax + b, the codomain
//! is (a_t, b_t), the degree is l = 2d + 1, and g, n, sigma are its g, N, sigma.

#![forbid(unsafe_code)]

pub mod brute;
pub mod call;
pub mod chains;
pub mod composition;
pub mod curve;
pub mod euclid;
pub mod field;
pub mod fraction;
pub mod generate;
pub mod marked;
pub mod miscounts;
pub mod mistakes;
pub mod poly;
pub mod primes;
pub mod random;
pub mod rational;
pub mod repetition;
pub mod rules;
pub mod services;
pub mod sheet;
pub mod spoil;
pub mod unreduced;
pub mod without_sum;
