//! Request E12 from the other side: sheets on which g has a repeated factor, a factor
//! in common with f, or one in common with N. Whatever else they meet, none passes, as the
//! request says; the reference is asked only what solve makes of their values.

use reference::brute::is_curve;
use reference::call::{Call, INFINITY};
use reference::curve::Curve;
use reference::field::Field;
use reference::generate::{self, random_monic};
use reference::poly::Poly;
use reference::primes::sieve;
use reference::random::Random;
use reference::repetition::{
    curve_with_root, identity, inflated, power_of_root, with_factor_of_f, with_repeated_factor,
};
use reference::sheet::{half, Certificate};

use crate::groups::certificates::{degrees, LARGEST_PRIME};
use crate::judge::Judge;

const PRIMES: [u64; 8] = [11, 13, 17, 23, 101, 521, 1009, LARGEST_PRIME];

pub fn run(judge: &mut Judge, quick: bool) {
    let mut random = Random::new(56);
    beyond_question_4(judge, &mut random);
    let mut sheets = 0;
    for p in PRIMES {
        let degrees = degrees(p);
        let rounds = if quick {
            1
        } else {
            64_usize.div_ceil(degrees.len())
        };
        // From the top, so that the quick form has the largest.
        let degrees = degrees.into_iter().rev();
        for l in degrees.step_by(if quick { 42 } else { 1 }) {
            for _ in 0..rounds {
                sheets += repeated_or_of_f(judge, &mut random, p, l);
                sheets += of_n(judge, &mut random, p, l);
            }
        }
    }
    judge.note(format!("{sheets} sheets with a factor too many"));
}

/// Where rules R1 to R3 hold all the same: over every p for which p + 2 is a degree.
fn beyond_question_4(judge: &mut Judge, random: &mut Random) {
    let mut put = |certificate: &Certificate| {
        let words = certificate.words();
        judge.refuses(&Call::check(&words), 4);
        judge.refuses(&Call::push(&words, INFINITY), 4);
        judge.refuses(&Call::solve(&certificate.question.words()), 4);
        judge.refuses(&Call::kernel(&certificate.kernel_sheet().words()), 4);
    };
    put(&power_of_root(&Curve::new(11, 1, 0), 0));
    for p in sieve(254).into_iter().map(u64::from).filter(|&p| p >= 11) {
        for _ in 0..10 {
            let root = random.below(p);
            let curve = curve_with_root(random, Field::new(p), root);
            put(&power_of_root(&curve, root));
        }
    }
}

/// R1, R2 and the highest coefficients of R3 are met. Returns the number of sheets.
fn repeated_or_of_f(judge: &mut Judge, random: &mut Random, p: u64, l: u64) -> usize {
    let root = random.below(p);
    let curve = curve_with_root(random, Field::new(p), root);
    let mut list = with_repeated_factor(random, curve.field, half(l));
    list.extend(with_factor_of_f(random, &curve, root, half(l)));
    for g in &list {
        let candidate = generate::candidate(&curve, l, g);
        let q = &candidate.question;
        let number = if is_curve(p, q.a_t, q.b_t) { 10 } else { 7 };
        judge.refuses(&Call::check(&candidate.words()), number);
        judge.refuses(&Call::push(&candidate.words(), INFINITY), number);
        judge.refuses(&Call::kernel(&candidate.kernel_sheet().words()), 11);
        // Of these values another g may be the answer.
        judge.agrees(&Call::solve(&q.words()));
    }
    list.len()
}

/// R1 and R3 are met: the identity and isogenies of lower degree with a factor more in
/// g and twice in N. Returns the number of sheets.
fn of_n(judge: &mut Judge, random: &mut Random, p: u64, l: u64) -> usize {
    let curve = generate::random_curve(random, p);
    let lower = [3, 5].into_iter().filter(|&lower| lower < l);
    let steps = lower.filter_map(|lower| generate::step(random, &curve, lower, 3));
    let maps: Vec<Certificate> = steps.chain([identity(&curve)]).collect();
    for map in &maps {
        let missing = half(l) - map.question.d();
        let root = random.below(p);
        for c in [
            random_monic(random, curve.field, missing),
            Poly::with_roots(curve.field, &vec![root; missing]),
        ] {
            let words = inflated(map, &c).words();
            judge.refuses(&Call::check(&words), 9);
            judge.refuses(&Call::push(&words, INFINITY), 9);
        }
    }
    2 * maps.len()
}
