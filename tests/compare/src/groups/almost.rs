//! Sheets that meet R1 and R2 and part of R3: its highest coefficients, its
//! lowest ones, or its values at some points. Only the whole of R3 tells.

use reference::brute::{all_monic, all_pairs, is_curve};
use reference::call::Call;
use reference::curve::Curve;
use reference::field::Field;
use reference::generate::{self, random_curve, random_monic, random_question};
use reference::poly::Poly;
use reference::random::Random;
use reference::rules::R3;
use reference::services;
use reference::sheet::{self, Certificate, Question};

use crate::groups::certificates::{degrees, LARGEST_PRIME};
use crate::judge::Judge;

/// Every curve and every monic g over the smallest fields; for degree 7 a
/// part of them.
pub fn small(judge: &mut Judge, quick: bool) {
    let fields: &[(u64, u64)] = if quick {
        &[(11, 3), (11, 5)]
    } else {
        &[(11, 3), (13, 3), (17, 3), (11, 5), (13, 5), (17, 7)]
    };
    for &(p, l) in fields {
        let (rows, stride) = if l == 7 { (3, 11) } else { (p, 1) };
        for (a, b) in all_pairs(p).filter(|&(a, b)| is_curve(p, a, b) && a < rows) {
            for g in all_monic(Field::new(p), sheet::half(l)).step_by(stride) {
                let curve = Curve::new(p, a, b);
                for candidate in candidates(&curve, l, &g) {
                    judge.agrees(&Call::check(&candidate.words()));
                }
            }
        }
    }
}

/// The certificate of a g with each codomain that makes a part of R3 hold.
fn candidates(curve: &Curve, l: u64, g: &Poly) -> Vec<Certificate> {
    let highest = generate::candidate(curve, l, g);
    let equation = R3::of(&highest);
    let lowest = (0..equation.count()).find(|&i| equation.g6.at(i) != 0);
    let start = lowest.unwrap_or(0);
    let others = [
        equation.codomain_with(|poly| [poly.at(start), poly.at(start + 1)]),
        equation.codomain_with(|poly| [poly.value(0), poly.value(1)]),
        equation.codomain_with(|poly| [poly.value(2), poly.value(3)]),
    ];
    let mut list = vec![highest];
    for (a_t, b_t) in others.into_iter().flatten() {
        let mut other = list[0].clone();
        other.question.a_t = a_t;
        other.question.b_t = b_t;
        list.push(other);
    }
    list.dedup();
    list
}

/// All degrees, with g of special shape, on a random curve and on the one with
/// the largest values.
pub fn large(judge: &mut Judge, quick: bool) {
    let mut random = Random::new(50);
    let primes: &[u64] = if quick {
        &[1009]
    } else {
        &[13, 101, 521, 1009, LARGEST_PRIME]
    };
    for &p in primes {
        for l in degrees(p).into_iter().step_by(if quick { 12 } else { 6 }) {
            for curve in [random_curve(&mut random, p), Curve::new(p, p - 1, p - 1)] {
                for g in shapes(&mut random, curve.field, sheet::half(l)) {
                    for candidate in candidates(&curve, l, &g) {
                        put(judge, &candidate);
                    }
                }
            }
            for _ in 0..3 {
                recurrence(judge, &random_question(&mut random, p, l));
            }
            let top = p - 1;
            recurrence(judge, &Question::of([p, top, top, top, top, l, top]));
        }
    }
}

/// Powers of one linear factor and multiples of a power of x, which make many
/// coefficients of R3 vanish, the largest coefficients, and random ones.
pub fn shapes(random: &mut Random, field: Field, d: usize) -> Vec<Poly> {
    let root = random.below(field.p());
    let some = random_monic(random, field, d - d / 2);
    let mut high = vec![0; d / 2];
    high.extend(some.coefficients());
    let mut largest = vec![field.p() - 1; d];
    largest.push(1);
    vec![
        Poly::with_roots(field, &vec![0; d]),
        Poly::with_roots(field, &vec![root; d]),
        Poly::new(field, high),
        Poly::new(field, largest),
        random_monic(random, field, d),
    ]
}

/// Many random questions over fields so small that for some of them R3 holds
/// in a few more coefficients than the recurrence sees to.
pub fn deep(judge: &mut Judge, quick: bool) {
    let mut random = Random::new(51);
    let mut most = 0;
    for (p, l) in [(11, 5), (17, 7), (19, 9), (23, 11), (29, 13), (31, 15)] {
        for _ in 0..if quick { 300 } else { 6000 } {
            let candidate = recurrence(judge, &random_question(&mut random, p, l));
            let (equation, q) = (R3::of(&candidate), &candidate.question);
            let first = (0..=3 * l as usize)
                .rev()
                .position(|i| equation.difference_at(i, q.a_t, q.b_t) != 0);
            most = most.max(first.map_or(0, |count| count - q.d()));
        }
    }
    judge.note(format!(
        "up to d + {most} coefficients agree, then one does not"
    ));
}

/// The only g that a question can have makes the highest d + 1 coefficients of
/// R3 hold; most questions have no answer all the same.
fn recurrence(judge: &mut Judge, question: &Question) -> Certificate {
    let candidate = services::recurrence_candidate(question);
    put(judge, &candidate);
    candidate
}

/// The sheet as a certificate, as a question and as a kernel sheet.
fn put(judge: &mut Judge, candidate: &Certificate) {
    judge.agrees(&Call::check(&candidate.words()));
    judge.agrees(&Call::solve(&candidate.question.words()));
    judge.agrees(&Call::kernel(&candidate.kernel_sheet().words()));
}
