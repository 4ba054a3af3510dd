//! Request E6 for every degree of g, from 1 to 127: polynomials with all, none, one, half
//! or any number of their roots in the field, 0 among them or not, over the least primes
//! that allow the degree, over primes whose first bits make d or a neighbour of it, over
//! every small one and over the largest. How many roots there are is known from how each
//! was made; of one that is any they are counted.

use reference::call::{Call, INFINITY};
use reference::field::Field;
use reference::generate::random_monic;
use reference::miscounts::near;
use reference::poly::Poly;
use reference::primes::{is_prime, next_prime, sieve};
use reference::random::Random;
use reference::rational::{count, with_only};
use reference::rules::{r3_at, R3};
use reference::sheet::{ask_degree, with_value, Certificate, VALUE_LIMIT};

use crate::groups::certificates::LARGEST_PRIME;
use crate::groups::rational::certificate;
use crate::judge::Judge;

pub fn run(judge: &mut Judge, quick: bool) {
    let mut random = Random::new(59);
    let pairs = pairs(&mut random, quick);
    for &(d, p) in &pairs {
        let list = polynomials(&mut random, Field::new(p), d as usize);
        for (g, right) in list.iter().step_by(if quick { 4 } else { 1 }) {
            put(judge, &mut random, g, *right);
        }
    }
    judge.note(format!("{} pairs of prime and degree", pairs.len()));
}

/// Every degree with its primes; and every prime below 2^12 with the largest degree that
/// it allows and with any other. In the quick form every degree with a small prime.
fn pairs(random: &mut Random, quick: bool) -> Vec<(u64, u64)> {
    let mut pairs = Vec::new();
    for d in 1..=127 {
        let mut primes = primes(random, d);
        if quick {
            primes.retain(|&p| p < 1 << 12);
            primes = vec![primes[d as usize % primes.len()]];
        }
        pairs.extend(primes.into_iter().map(|p| (d, p)));
    }
    let small = sieve(if quick { 0 } else { 1 << 12 }).into_iter();
    for p in small.map(u64::from).filter(|&p| p >= 11) {
        let most = ((p - 2) / 4).min(127);
        pairs.extend([(most, p), (1 + random.below(most), p)]);
    }
    pairs
}

/// Lawful ones for the degree: the two least; those of which some first bits make d - 1, d
/// or d + 1, with few bits behind them and with many; 1009 and the largest; any small one.
fn primes(random: &mut Random, d: u64) -> Vec<u64> {
    let least = next_prime((4 * d + 2).max(11));
    let mut list = vec![least, next_prime(least + 1), 1009, 65521, LARGEST_PRIME];
    list.push(next_prime(least + random.below(4096)));
    for first in d - 1..=d + 1 {
        let large = (VALUE_LIMIT / (first + 1)).ilog2();
        for bits in [2, 3, 5, 7, large] {
            // Over a large field not every element may be a cube.
            let wanted = |p: &u64| is_prime(*p) && (*p < 1 << 15 || p % 3 == 1);
            list.extend((first << bits..(first + 1) << bits).find(wanted));
        }
    }
    list.retain(|&p| p >= 11 && ask_degree(2 * d + 1, p).is_ok());
    list.sort_unstable();
    list.dedup();
    list
}

/// Each with the number of its roots.
fn polynomials(random: &mut Random, field: Field, d: usize) -> Vec<(Poly, u64)> {
    let any = 1 + random.index(d);
    let mut counts = vec![0, 1, 2, d / 2, any, d.saturating_sub(2), d];
    counts.retain(|&k| k <= d && d - k != 1);
    counts.sort_unstable();
    counts.dedup();
    let mut list = Vec::new();
    for k in counts {
        let roots = distinct(random, field, k);
        list.push((with_only(random, field, d, &roots), k as u64));
        if k > 0 {
            // 0 in the place of one of them.
            let with_0 = [&roots[1..], &[0]].concat();
            list.push((with_only(random, field, d, &with_0), k as u64));
        }
    }
    // One of d - 1 roots twice, the last one or 0.
    if d > 1 {
        let mut twice = distinct(random, field, d - 1);
        twice.push(twice[d - 2]);
        list.push((Poly::with_roots(field, &twice), d as u64 - 1));
        twice[d - 2..].fill(0);
        list.push((Poly::with_roots(field, &twice), d as u64 - 1));
    }
    let monic = random_monic(random, field, d);
    let right = count(&monic);
    list.push((monic, right));
    list
}

/// So many elements, none of them 0.
fn distinct(random: &mut Random, field: Field, count: usize) -> Vec<u64> {
    let mut chosen = Vec::new();
    while chosen.len() < count {
        let u = 1 + random.below(field.p() - 1);
        if !chosen.contains(&u) {
            chosen.push(u);
        }
    }
    chosen
}

/// The right count gets as far as R3; one more, one less and some others get 9.
fn put(judge: &mut Judge, random: &mut Random, g: &Poly, right: u64) {
    let (p, d) = (g.field().p(), g.degree().expect("monic") as u64);
    let certificate = certificate(random, 2 * d + 1, g, right);
    let number = if meets_r3(random, &certificate) {
        0
    } else {
        10
    };
    let words = certificate.words();
    judge.refuses(&Call::check(&words), number);
    if number != 0 {
        judge.refuses(&Call::push(&words, INFINITY), number);
    }
    let others = near(right, d, p);
    let mut claims = vec![right + 1, *random.pick(&others), *random.pick(&others)];
    claims.extend(right.checked_sub(1));
    for &claim in &claims {
        let claimed = with_value(&words, words.len() - 2, claim);
        judge.refuses(&Call::check(&claimed), 9);
    }
    let claimed = with_value(&words, words.len() - 2, claims[1]);
    judge.refuses(&Call::push(&claimed, INFINITY), 9);
}

/// At some u both sides of R3 have one value, or it fails; else all coefficients tell.
fn meets_r3(random: &mut Random, certificate: &Certificate) -> bool {
    let q = &certificate.question;
    (0..4).all(|_| r3_at(certificate, random.below(q.p))) && R3::of(certificate).holds(q.a_t, q.b_t)
}
