//! Primes: the two sieves and trial division held against one another, and the
//! number of primes against a way to count them without finding them.

use std::ops::Range;

use reference::primes::{
    divisors, is_prime, next_prime, passes_strong_test, previous_prime, sieve, sieved,
};

const LIMIT: u32 = 1 << 28;

#[test]
fn primality_agrees_with_a_sieve() {
    let limit = 1 << 21;
    let primes = sieve(limit);
    let mut listed = primes.iter().copied().peekable();
    for n in 0..limit as u64 {
        let is_listed = listed.next_if_eq(&(n as u32)).is_some();
        assert_eq!(is_prime(n), is_listed, "{n}");
    }
    assert_eq!(previous_prime((1 << 28) - 1), 268435399);
    assert_eq!(next_prime(1002), 1009);
    // The largest square of a prime below 2^28.
    assert!(is_prime(16381) && !is_prime(16381 * 16381));
}

#[test]
fn ranges_agree_with_primality() {
    let square = 16381 * 16381;
    let ends = [0..3, 2..2, 0..70_000, LIMIT - 20_000..LIMIT];
    let pieces = (0..40).map(|i| i * 6_700_417..i * 6_700_417 + i * 50);
    for range in pieces
        .chain(ends)
        .chain([square - 1..square, square..square + 20_000])
    {
        let expected: Vec<bool> = range.clone().map(|n| is_prime(u64::from(n))).collect();
        assert_eq!(sieved(range.clone()), expected, "{range:?}");
    }
}

/// The number of primes up to n. For v = n / i, every i at once, the numbers from 2
/// to v are counted, then those taken away whose least factor is 2 and which are
/// not 2, then 3, and so on: with least factor p are as many as are left of those
/// from p to v / p.
fn count_up_to(n: usize) -> usize {
    let root = n.isqrt();
    let mut left: Vec<usize> = (0..=root).map(|v| v.saturating_sub(1)).collect();
    let mut left_of_quotient: Vec<usize> = (1..=root).map(|i| n / i - 1).collect();
    left_of_quotient.insert(0, 0);
    for p in 2..=root {
        let below = left[p - 1];
        if left[p] == below {
            continue;
        }
        for i in 1..=root.min(n / (p * p)) {
            let part = i * p;
            let kept = if part <= root {
                left_of_quotient[part]
            } else {
                left[n / part]
            };
            left_of_quotient[i] -= kept - below;
        }
        for v in (p * p..=root).rev() {
            left[v] -= left[v / p] - below;
        }
    }
    left_of_quotient[1]
}

fn count_of(range: Range<u32>) -> usize {
    sieved(range).iter().filter(|&&prime| prime).count()
}

/// The numbers are PARI/GP's primepi(2^14), primepi(2^20) and primepi(2^28).
#[test]
fn numbers_of_primes() {
    for (limit, number) in [(1 << 14, 1900), (1 << 20, 82_025), (LIMIT, 14_630_843)] {
        let size = 1 << 14;
        let starts = (0..limit).step_by(size as usize);
        let sum: usize = starts.map(|start| count_of(start..start + size)).sum();
        assert_eq!(sum, number);
        assert_eq!(count_up_to(limit as usize - 1), number);
    }
    assert_eq!(sieve(1 << 20).len(), 82_025);
}

/// By the definition of a prime; the next one's square is not below 2^28.
#[test]
fn divisors_are_the_odd_primes_to_16381() {
    let prime = |n: &u64| (2..*n).all(|divisor| !n.is_multiple_of(divisor));
    assert!(divisors().eq((3..=16381).filter(prime)));
    assert!(next_prime(16382).pow(2) >= u64::from(LIMIT));
}

/// Primes pass; which composites do to base 2 was computed with PARI/GP.
#[test]
fn strong_test() {
    for p in divisors() {
        for base in [2, 3, 5, 7].into_iter().filter(|&base| base != p) {
            assert!(passes_strong_test(p, base), "{p} to base {base}");
        }
    }
    let composites = (9..1 << 15).step_by(2).filter(|&n| !is_prime(n));
    let passing = composites.filter(|&n| passes_strong_test(n, 2));
    assert!(passing.eq([2047, 3277, 4033, 4681, 8321, 15841, 29341]));
}
