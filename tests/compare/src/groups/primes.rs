//! Question 3, by name, which puts it first, and by the p of sheets: every p below
//! 2^28, against a sieve; and numbers that a test by division or by powers most
//! easily takes for another sort, known from how they are made.

use std::ops::Range;

use reference::call::{Call, Reply, INFINITY};
use reference::marked;
use reference::primes::{
    divisors, is_prime, next_prime, passes_strong_test, previous_prime, sieve, sieved,
};
use reference::random::Random;
use reference::sheet::VALUE_LIMIT;

use crate::groups::certificates::LARGEST_PRIME;
use crate::judge::Judge;

/// The least p that is refused for its size.
const LIMIT: u32 = VALUE_LIMIT as u32;
/// So many numbers are sieved at once, few enough for a processor's cache.
const SEGMENT: usize = 1 << 18;

/// One of so many shares of all p below 2^28. With a = p the next "no" is 5, so 5
/// says that question 3 was passed.
pub fn every(judge: &mut Judge, share: u64, shares: u64) {
    let bound = |share: u64| (share * VALUE_LIMIT / shares) as u32;
    let end = bound(share + 1);
    let mut primes = 0;
    for start in (bound(share)..end).step_by(SEGMENT) {
        let prime = sieved(start..end.min(start + SEGMENT as u32));
        primes += prime.iter().filter(|&&prime| prime).count();
        let cases = (start..).zip(prime);
        judge.names_refused(cases.map(|(p, prime)| {
            let passes = prime && p >= 11;
            ([p, p, 0], if passes { 5 } else { 3 })
        }));
    }
    judge.note(format!("{primes} primes"));
}

/// Both ends of the range whole, and what is hard between and above. Sheets are
/// made of every hard number below 2^28, in the quick form of every sixteenth.
pub fn run(judge: &mut Judge, quick: bool) {
    let (low, high) = if quick {
        (1 << 14, 2000)
    } else {
        (1 << 20, 100_000)
    };
    all_of(judge, 0..low);
    all_of(judge, LIMIT - high..LIMIT);
    (14..28).for_each(|bits| all_of(judge, (1 << bits) - 100..(1 << bits) + 100));
    let mut random = Random::new(60);
    for _ in 0..100 {
        let start = random.below(VALUE_LIMIT - 100) as u32;
        all_of(judge, start..start + 100);
    }
    let sheets = |place: usize| !quick || place.is_multiple_of(16);
    let (composites, primes) = (composites(), primes());
    for (place, &n) in composites.iter().enumerate() {
        let calls = calls(n, sheets(place));
        calls.iter().for_each(|call| judge.refuses(call, 3));
    }
    for (place, &p) in primes.iter().enumerate() {
        let calls = calls(p, sheets(place));
        judge.expect(&calls[0], &Reply::number(0));
        calls[1..].iter().for_each(|call| judge.agrees(call));
    }
    for p in above(&mut random, high) {
        judge.refuses(&name(p), 3);
    }
    let (composites, primes) = (composites.len(), primes.len());
    judge.note(format!(
        "{composites} products, {primes} primes beside them"
    ));
}

/// Of a permitted prime, the j-value is 0.
fn name(p: u32) -> Call {
    Call::Name { p, a: 0, b: 1 }
}

/// Name, and if that is wanted and a sheet can hold p, the first certificate
/// with p for its prime, to every entry.
fn calls(p: u32, sheets: bool) -> Vec<Call> {
    let mut calls = vec![name(p)];
    if sheets && p < LIMIT {
        let mut certificate = marked::first();
        certificate.question.p = u64::from(p);
        let words = certificate.words();
        calls.extend([
            Call::check(&words),
            Call::push(&words, INFINITY),
            Call::solve(&certificate.question.words()),
            Call::kernel(&certificate.kernel_sheet().words()),
        ]);
    }
    calls
}

/// Every number of the range, by name.
fn all_of(judge: &mut Judge, range: Range<u32>) {
    for (p, prime) in range.clone().zip(sieved(range)) {
        if prime && p >= 11 {
            judge.expect(&name(p), &Reply::number(0));
        } else {
            judge.refuses(&name(p), 3);
        }
    }
}

/// Products of few primes: squares and neighbours, up to 2^32; each divisor with the
/// least prime that is no divisor, and with the largest two for which the product
/// is below 2^28; higher powers; composites with powers like those of primes.
fn composites() -> Vec<u32> {
    let mut numbers = Vec::new();
    for pair in sieve(1 << 16)[1..].windows(2) {
        numbers.extend([pair[0] * pair[0], pair[0] * pair[1]].map(u64::from));
    }
    let beyond = next_prime(1 << 14);
    for q in divisors() {
        let largest = previous_prime((VALUE_LIMIT - 1) / q);
        let second = previous_prime(largest - 1);
        numbers.extend([beyond, largest, second].map(|r| q * r));
        let powers = std::iter::successors(Some(q * q * q), |power| Some(power * q));
        numbers.extend(powers.take_while(|&power| power < VALUE_LIMIT));
    }
    numbers.extend(carmichael_numbers());
    numbers.extend(strong_pseudoprimes());
    numbers.into_iter().map(|n| n as u32).collect()
}

/// Those of three prime factors below 2^28, by Korselt's criterion: each factor
/// less 1 divides n - 1.
fn carmichael_numbers() -> Vec<u64> {
    let mut numbers = Vec::new();
    for p in divisors() {
        let others = divisors().filter(|&q| q > p);
        for q in others.take_while(|q| p * q * q < VALUE_LIMIT) {
            // r - 1 divides pqr - 1, so it divides pq - 1; and r > q.
            let parts = (2..p).filter(|part| (p * q - 1).is_multiple_of(*part));
            for r in parts.map(|part| (p * q - 1) / part + 1) {
                let n = p * q * r;
                let divides = |factor: u64| (n - 1).is_multiple_of(factor - 1);
                if n < VALUE_LIMIT && r > q && is_prime(r) && divides(p) && divides(q) {
                    numbers.push(n);
                }
            }
        }
    }
    numbers
}

/// To base 2: products of q and m(q - 1) + 1, of which many pass, to other bases
/// too.
fn strong_pseudoprimes() -> Vec<u64> {
    let mut numbers = Vec::new();
    for q in divisors() {
        let others = (2..=64).map(|m| m * (q - 1) + 1);
        let small = others.take_while(|r| q * r < VALUE_LIMIT);
        let products = small.filter(|&r| is_prime(r)).map(|r| q * r);
        numbers.extend(products.filter(|&n| passes_strong_test(n, 2)));
    }
    numbers
}

/// Permitted primes: the largest; the divisors; those next to the square of a
/// divisor q, for which q is the last to be tried or the first not to be; and the
/// least p from there on that is -2^32 modulo q. If q divides n, then n times the
/// inverse of q modulo 2^32 is at most (2^32 - 1)/q, else more: for this p it is
/// (2^32 + p)/q, which is as little more as it can be.
fn primes() -> Vec<u32> {
    let mut primes: Vec<u64> = (VALUE_LIMIT - 1000..VALUE_LIMIT).collect();
    primes.retain(|&p| is_prime(p));
    for q in divisors() {
        let square = q * q;
        primes.extend([q, previous_prime(square), next_prime(square)]);
        let from = square + q - (1 << 32) % q;
        let alike = (from..VALUE_LIMIT).step_by(q as usize);
        primes.extend(alike.filter(|&p| is_prime(p)).take(1));
    }
    primes.retain(|&p| p >= 11);
    primes.into_iter().map(|p| p as u32).collect()
}

/// Numbers from 2^28 on: the least, the last, those at powers of two, those whose
/// low 28 bits are a permitted prime, and some of the rest.
fn above(random: &mut Random, count: u32) -> Vec<u32> {
    let mut numbers: Vec<u32> = (LIMIT..LIMIT + count).collect();
    numbers.extend(u32::MAX - 1000..=u32::MAX);
    numbers.extend((29..32).flat_map(|bits| (1 << bits) - 100..(1 << bits) + 100));
    for high in 1..16 {
        let low = [11, 13, 1009, 65537, LARGEST_PRIME as u32];
        numbers.extend(low.map(|p| high * LIMIT + p));
    }
    let size = u64::from(u32::MAX - LIMIT);
    numbers.extend((0..1000).map(|_| LIMIT + random.below(size) as u32));
    numbers
}
