//! Request E2: on question and kernel sheets a value at or above p is read modulo p;
//! on certificates and for name it gets 5 or 6 as before; p, l, the count of rational
//! abscissas and the end are never reduced. Where certificates are known from how they were made, the expectation is
//! the certificate; else it is what the reduced sheet gets, which is put too.

use reference::call::{answered, Call, Put, Reply, INFINITY};
use reference::curve::Curve;
use reference::field::Field;
use reference::generate::{self, multiplication, singular};
use reference::primes::previous_prime;
use reference::random::Random;
use reference::sheet::{ask_degree, kind, value, with_value};
use reference::sheet::{Certificate, KernelSheet, Question, END, L, P, RATIONAL, VALUE_LIMIT};
use reference::unreduced::{alike, any, greatest, limits, places, raised, reduced, with_values};

use crate::groups::certificates::LARGEST_PRIME;
use crate::judge::Judge;

/// Small ones, and those of which five, four, three, two or one multiple fit a word,
/// just so or almost.
pub fn primes(quick: bool) -> Vec<u64> {
    if quick {
        return vec![11, 1009, 65521, LARGEST_PRIME];
    }
    let mut primes = vec![11, 13, 17, 23, 101, 521, 1009, 65521, 65537, 16777213];
    for count in 2..=5 {
        primes.push(previous_prime((VALUE_LIMIT - 1) / count));
    }
    primes.extend([134217757, previous_prime(LARGEST_PRIME - 1), LARGEST_PRIME]);
    primes
}

pub fn over(judge: &mut Judge, p: u64, quick: bool) {
    let mut random = Random::new(p + 54);
    let certificates = certificates(&mut random, p, quick);
    for certificate in &certificates {
        for (put, words) in answered(certificate) {
            one_place(judge, &mut random, put, &words, certificate);
            all_places(judge, &mut random, put, &words, certificate);
            beside(judge, &mut random, put, &words);
            never_reduced(judge, &mut random, put, &words);
        }
        leading(judge, &mut random, certificate);
        strict(judge, &mut random, certificate);
    }
    singular_curves(judge, &mut random, p);
    names(judge, &mut random, p);
    judge.note(format!("{} certificates", certificates.len()));
}

/// Every seventh multiple of 11 below 2^28 for the constant term 0 of document 01's
/// kernel sheet; in the quick form far fewer.
pub fn multiples_of_11(judge: &mut Judge, quick: bool) {
    let certificate = reference::marked::smallest();
    let words = certificate.kernel_sheet().words();
    let answer = Reply::written(certificate.words());
    for multiple in alike(0, 11).step_by(if quick { 9973 } else { 7 }) {
        let sheet = with_value(&words, 4, multiple);
        judge.expect(&Call::kernel(&sheet), &answer);
    }
}

/// From points on any curve, and on the curves with the least and the largest values:
/// over the largest primes only small values have others alike. By the same reason
/// multiplications by 3 with small values in the domain, g and the codomain, which
/// is (81 A, 729 B).
fn certificates(random: &mut Random, p: u64, quick: bool) -> Vec<Certificate> {
    let lawful = |l: &u64| ask_degree(*l, p).is_ok();
    let mut wanted: Vec<u64> = [3, 5, 7, 15, 63, 255].into_iter().filter(lawful).collect();
    if quick {
        wanted.truncate(4);
    }
    let mut list = generate::from_points(random, p, &wanted, 3000);
    for (a, b) in [(1, 3), (p - 1, p - 1), (0, 1), (1, 0)] {
        if reference::brute::is_curve(p, a, b) {
            let curve = Curve::new(p, a, b);
            let steps = wanted.iter().take(3);
            list.extend(steps.filter_map(|&l| generate::step(random, &curve, l, 100)));
        }
    }
    if lawful(&9) {
        let k = Field::new(p);
        for (a, b) in [(0, 1), (k.inv(k.of(81)), k.div(2, k.of(729)))] {
            list.push(multiplication(&Curve::new(p, a, b), 3));
        }
    }
    list
}

/// Other values that are alike modulo p: the next, the last, and any.
fn others(random: &mut Random, v: u64, p: u64) -> Vec<u64> {
    let mut values: Vec<u64> = alike(v, p).take(3).collect();
    values.extend(alike(v, p).rev().take(2));
    values.extend((0..10).map(|_| any(random, v, p)));
    values.retain(|&other| other != v);
    values.sort_unstable();
    values.dedup();
    values
}

fn one_place(judge: &mut Judge, random: &mut Random, put: Put, words: &[u32], c: &Certificate) {
    let answer = Reply::written(c.words());
    for i in places(words) {
        for new in others(random, value(words[i]), c.question.p) {
            judge.expect(&put(&with_value(words, i, new)), &answer);
        }
    }
}

fn all_places(judge: &mut Judge, random: &mut Random, put: Put, words: &[u32], c: &Certificate) {
    let answer = Reply::written(c.words());
    let next = |v: u64, p: u64| if v + p < VALUE_LIMIT { v + p } else { v };
    judge.expect(&put(&with_values(words, next)), &answer);
    judge.expect(&put(&with_values(words, greatest)), &answer);
    for _ in 0..20 {
        judge.expect(&put(&raised(random, words)), &answer);
    }
}

/// A sheet and the same sheet reduced: number and every word are the same.
fn pair(judge: &mut Judge, put: Put, words: &[u32]) {
    let plain = put(&reduced(words));
    let reply = plain.reply();
    judge.expect(&plain, &reply);
    judge.expect(&put(words), &reply);
}

/// Other elements of the field, most of which leave no answer: one more than the
/// right one, and the values at which a reduction most easily goes wrong.
fn beside(judge: &mut Judge, random: &mut Random, put: Put, words: &[u32]) {
    let p = value(words[0]);
    let few = if words.len() > 20 { 20 } else { usize::MAX };
    for i in places(words).into_iter().rev().take(few) {
        let one_more = any(random, value(words[i]) + 1, p);
        for new in limits(p).into_iter().chain([one_more]) {
            pair(judge, put, &with_value(words, i, new));
            let all = raised(random, words);
            pair(judge, put, &with_value(&all, i, new));
        }
    }
}

/// Of the leading coefficient 0 and 2, and p - 1; 1 is among the places.
fn leading(judge: &mut Judge, random: &mut Random, certificate: &Certificate) {
    let (words, p) = (certificate.kernel_sheet().words(), certificate.question.p);
    for v in [0, 2, p - 1] {
        for new in others(random, v, p) {
            let changed = with_value(&words, words.len() - 2, new);
            judge.refuses(&Call::kernel(&changed), 8);
        }
    }
}

/// What would be lawful if it were reduced.
fn never_reduced(judge: &mut Judge, random: &mut Random, put: Put, words: &[u32]) {
    for (i, &w) in words.iter().enumerate() {
        let number = match kind(w) {
            P => 3,
            L => 4,
            END => 6,
            RATIONAL => 9,
            _ => continue,
        };
        for new in others(random, value(w), value(words[0])) {
            judge.refuses(&put(&with_value(words, i, new)), number);
        }
    }
}

/// Every place of a certificate with a value from p on. That of the count is among what
/// is never reduced.
fn strict(judge: &mut Judge, random: &mut Random, certificate: &Certificate) {
    let (words, p) = (certificate.words(), certificate.question.p);
    let few = if words.len() > 40 { 7 } else { 1 };
    let coefficients = (7..words.len() - 2).step_by(few);
    for i in [1, 2, 3, 4, 6, words.len() - 3]
        .into_iter()
        .chain(coefficients)
    {
        let number = if i < 7 { 5 } else { 6 };
        let values = others(random, value(words[i]), p).into_iter();
        for new in values.chain(limits(p)).filter(|&new| new >= p) {
            let changed = with_value(&words, i, new);
            judge.refuses(&Call::check(&changed), number);
            judge.refuses(&Call::push(&changed, INFINITY), number);
        }
    }
    never_reduced(judge, random, Call::check, &words);
}

/// Curves that are singular after reduction, as domain and as codomain.
fn singular_curves(judge: &mut Judge, random: &mut Random, p: u64) {
    let field = Field::new(p);
    let mut curves: Vec<(u64, u64)> = vec![(0, 0); 20];
    curves.extend((0..20).map(|_| singular(field, random.below(p))));
    for (a, b) in curves {
        let (a, b) = (any(random, a, p), any(random, b, p));
        let g = vec![any(random, 0, p), any(random, 1, p)];
        for values in [[p, a, b, 0, 1, 3, 0], [p, 0, 1, a, b, 3, 0]] {
            judge.refuses(&Call::solve(&Question::of(values).words()), 7);
        }
        judge.refuses(&Call::kernel(&KernelSheet { p, a, b, l: 3, g }.words()), 7);
    }
}

/// Name takes any 32 bits.
fn names(judge: &mut Judge, random: &mut Random, p: u64) {
    let top = u64::from(u32::MAX);
    for v in [0, 1, p - 1, random.below(p)] {
        let last = top - (top - v) % p;
        let middle = v + p * (1 + random.below((top - v) / p));
        for large in [v + p, middle, last] {
            for (a, b) in [(large, 1), (1, large), (large, large)] {
                let [p, a, b] = [p, a, b].map(|value| value as u32);
                judge.refuses(&Call::Name { p, a, b }, 5);
            }
        }
    }
}
