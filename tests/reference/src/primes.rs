//! Primes below 2^28: by trial division with the primes below 2^14, which a
//! sieve gives once, and for whole ranges by crossing out their multiples. The
//! strong test, which some composites pass, is here for those that ask for them.

use std::ops::Range;
use std::sync::OnceLock;

use crate::field::Field;

const SIEVED: usize = 1 << 14;

/// All primes below the limit, by the sieve of Eratosthenes.
pub fn sieve(limit: usize) -> Vec<u32> {
    let mut composite = vec![false; limit];
    let mut primes = Vec::new();
    for n in 2..limit {
        if !composite[n] {
            primes.push(n as u32);
            for multiple in (n * n..limit).step_by(n) {
                composite[multiple] = true;
            }
        }
    }
    primes
}

fn small() -> &'static [u32] {
    static SMALL: OnceLock<Vec<u32>> = OnceLock::new();
    SMALL.get_or_init(|| sieve(SIEVED))
}

/// The odd primes up to 16381 in rising order. Beside 2 no number below 2^28 need
/// be tried with another divisor.
pub fn divisors() -> impl Iterator<Item = u64> {
    small()[1..].iter().map(|&q| u64::from(q))
}

/// Of each number of a range whether it is prime, by the sieve of Eratosthenes;
/// the range ends at 2^28 at most.
pub fn sieved(range: Range<u32>) -> Vec<bool> {
    let Range { start, end } = range;
    assert!(end as usize <= SIEVED * SIEVED, "{end} is out of range");
    let mut prime: Vec<bool> = (start..end).map(|n| n >= 2).collect();
    for &q in small().iter().take_while(|&&q| q * q < end) {
        let first = start.next_multiple_of(q).max(q * q) - start;
        let multiples = prime.iter_mut().skip(first as usize).step_by(q as usize);
        multiples.for_each(|prime| *prime = false);
    }
    prime
}

pub fn is_prime(n: u64) -> bool {
    assert!(n < (SIEVED * SIEVED) as u64, "{n} is out of range");
    let n = n as u32;
    n >= 2
        && small()
            .iter()
            .take_while(|&&q| q * q <= n)
            .all(|&q| !n.is_multiple_of(q))
}

/// The smallest prime from n on.
pub fn next_prime(n: u64) -> u64 {
    (n..).find(|&m| is_prime(m)).expect("unbounded search")
}

/// The largest prime up to n, which is 2 or more.
pub fn previous_prime(n: u64) -> u64 {
    (2..=n).rev().find(|&m| is_prime(m)).expect("2 is prime")
}

/// Whether an odd n passes the strong test to this base, as every prime does
/// that does not divide it: with n - 1 = 2^t s and s odd, the base to the power
/// s is 1, or one of its first t squares, itself the first, is -1.
pub fn passes_strong_test(n: u64, base: u64) -> bool {
    let ring = Field::new(n);
    let twos = (n - 1).trailing_zeros();
    let power = ring.pow(base, (n - 1) >> twos);
    let squares = std::iter::successors(Some(power), |&x| Some(ring.mul(x, x)));
    power == 1 || squares.take(twos as usize).any(|x| x == n - 1)
}
