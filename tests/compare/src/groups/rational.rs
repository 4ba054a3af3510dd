//! Request E6: question 9 for the count of rational abscissas. Polynomials of every
//! degree for which it is known from how they are made, or by trying each u; sheets that
//! claim it, and sheets that claim another. Then the word itself: missing, twice, in
//! another place or of another kind, which question 6 asks for.

use reference::brute::all_monic;
use reference::call::{Call, INFINITY};
use reference::curve::Curve;
use reference::field::Field;
use reference::generate::{self, random_curve};
use reference::marked;
use reference::miscounts::{self, near, ALL};
use reference::poly::Poly;
use reference::random::Random;
use reference::rational::{count, roots, with_count};
use reference::repetition::with_repeated_factor;
use reference::rules::{self, R3};
use reference::services;
use reference::sheet::{half, kind, value, with_value, word, Certificate, Question};
use reference::sheet::{A_T, END, G, N, RATIONAL, SIGMA, VALUE_LIMIT};

use crate::groups::almost::shapes;
use crate::groups::certificates::{degrees, LARGEST_PRIME};
use crate::groups::document;
use crate::judge::Judge;

const PRIMES: [u64; 7] = [11, 13, 17, 101, 1009, 65521, LARGEST_PRIME];

pub fn run(judge: &mut Judge, quick: bool) {
    let mut random = Random::new(57);
    let mut met = Met::default();
    for (i, p) in PRIMES.into_iter().enumerate() {
        let all = degrees(p);
        let rounds = if quick { 1 } else { 24 / all.len().min(24) };
        // From the top, so that the quick form has the largest; where there are many, each
        // second one, and the others over the next prime.
        let step = if quick { 42 } else { 1 + all.len() / 64 };
        let first = if quick { 0 } else { i % step };
        for &l in all.iter().rev().skip(first).step_by(step) {
            for _ in 0..rounds {
                any(judge, &mut random, p, l, &mut met);
            }
        }
    }
    for certificate in &passing(&mut random, quick) {
        claims(judge, certificate, 0, &mut met);
        order(judge, certificate);
        places(judge, certificate);
    }
    assert!(met.each.iter().all(|&n| n > 0), "a mistake without a sheet");
    assert!(met.shares.iter().all(|&n| n > 0), "{:?}", met.shares);
    judge.note(format!("{} sheets with a wrong count", met.wrong));
}

/// How many sheets have a wrong count, how many each mistake made wrong, and how many
/// passing certificates have none, some and all abscissas in the field.
#[derive(Default)]
struct Met {
    wrong: usize,
    each: [usize; ALL.len()],
    shares: [usize; 3],
}

/// Polynomials with a known count, of special shape, and with a repeated factor, which
/// the count sees once. R3 fails for nearly all of them.
fn any(judge: &mut Judge, random: &mut Random, p: u64, l: u64, met: &mut Met) {
    let (field, d) = (Field::new(p), half(l));
    let mut counts = vec![0, 1, 2, d / 2, d.saturating_sub(2), d];
    counts.retain(|&k| k <= d && d - k != 1);
    counts.sort_unstable();
    counts.dedup();
    let known = counts.into_iter().map(|k| {
        let g = with_count(random, field, d, k);
        (g, k as u64)
    });
    let mut list: Vec<(Poly, u64)> = known.collect();
    list.push((with_root_at_0(random, field, d), d as u64));
    // Powers of x and of x - u.
    let [first, second, others @ ..] = &shapes(random, field, d)[..] else {
        unreachable!("there are five");
    };
    list.extend([(first.clone(), 1), (second.clone(), 1)]);
    let repeated = with_repeated_factor(random, field, d);
    list.extend(
        others
            .iter()
            .chain(&repeated)
            .map(|g| (g.clone(), count(g))),
    );
    for (g, rational) in list {
        let certificate = certificate(random, l, &g, rational);
        let q = &certificate.question;
        let holds = R3::of(&certificate).holds(q.a_t, q.b_t);
        claims(judge, &certificate, if holds { 0 } else { 10 }, met);
    }
}

/// All d abscissas in the field, 0 among them.
fn with_root_at_0(random: &mut Random, field: Field, d: usize) -> Poly {
    loop {
        let others = with_count(random, field, d - 1, d - 1);
        if others.at(0) != 0 {
            return others.mul(&Poly::of(field, &[0, 1]));
        }
    }
}

/// From any curve to any other with R1's sigma, R2's N and this count.
pub fn certificate(random: &mut Random, l: u64, g: &Poly, rational: u64) -> Certificate {
    let (p, d) = (g.field().p(), half(l));
    let [domain, codomain] = [(); 2].map(|()| random_curve(random, p));
    let sigma = rules::sigma(g, d);
    let (Curve { a, b, .. }, Curve { a: a_t, b: b_t, .. }) = (domain, codomain);
    Certificate {
        question: Question::of([p, a, b, a_t, b_t, l, sigma]),
        g: g.padded(d + 1),
        n: rules::r2(a, b, l, sigma, g).padded(2 * d + 2),
        rational,
    }
}

/// The certificate gets this number, and with any other count 9.
fn claims(judge: &mut Judge, certificate: &Certificate, number: u32, met: &mut Met) {
    let (words, right) = (certificate.words(), certificate.rational);
    judge.refuses(&Call::check(&words), number);
    let (g, _) = certificate.polynomials();
    let mistaken = ALL.map(|miscount| miscount(&g));
    for (count, claim) in met.each.iter_mut().zip(mistaken) {
        *count += usize::from(claim != right);
    }
    let wrong = miscounts::claims(&g, right, &mistaken);
    for (i, &claim) in wrong.iter().enumerate() {
        let claimed = with_value(&words, words.len() - 2, claim);
        judge.refuses(&Call::check(&claimed), 9);
        // Push asks the same; a point above 2^56 would get 12 after it.
        if i % 4 == 0 {
            judge.refuses(&Call::push(&claimed, INFINITY + (i as u64 / 4) % 2), 9);
        }
    }
    met.wrong += wrong.len();
    if number == 0 {
        let d = certificate.question.d() as u64;
        let share = usize::from(right > 0) + usize::from(right == d);
        met.shares[share] += 1;
    } else {
        judge.refuses(&Call::push(&words, INFINITY), number);
    }
}

/// Certificates that pass, known from how they were made: document 01's, from points,
/// of which all abscissas are in the field, multiplications and duals, of which none or
/// some may be.
fn passing(random: &mut Random, quick: bool) -> Vec<Certificate> {
    let mut list = document::samples();
    list.push(marked::smallest());
    let primes: &[u64] = if quick {
        &[11, 1009, LARGEST_PRIME]
    } else {
        &[11, 13, 23, 101, 521, 1009, 65521, 134217757, LARGEST_PRIME]
    };
    for &p in primes {
        let mut wanted = degrees(p);
        wanted.retain(|l| [3, 5, 7, 9, 15, 31, 127, 255].contains(l));
        wanted.truncate(if quick { 4 } else { 8 });
        for found in generate::from_points(random, p, &wanted, 3000) {
            let dual = services::solution(&generate::dual_question(&found));
            list.extend(dual);
            if found.question.l < 10 {
                list.extend(generate::with_multiplications(&found));
            }
            list.push(found);
        }
    }
    if quick {
        list.retain(|certificate| certificate.question.l < 40);
    }
    list
}

/// The count is asked with N, after R1 and before R3.
fn order(judge: &mut Judge, certificate: &Certificate) {
    let (words, q) = (certificate.words(), &certificate.question);
    let next = |wanted: u32| {
        let place = words.iter().position(|&w| kind(w) == wanted);
        let place = place.expect("the sheet has a word of this kind");
        with_value(&words, place, (value(words[place]) + 1) % q.p)
    };
    let codomain = next(A_T);
    let singular = Question::of([q.p, q.a, q.b, (q.a_t + 1) % q.p, q.b_t, q.l, q.sigma]);
    let third = if Question::read(&singular.words()).is_ok() {
        10
    } else {
        7
    };
    for (sheet, number) in [(codomain, third), (next(N), 9), (next(SIGMA), 8)] {
        judge.refuses(&Call::check(&sheet), number);
        for claim in near(certificate.rational, q.d() as u64, q.p) {
            let claimed = with_value(&sheet, words.len() - 2, claim);
            judge.refuses(&Call::check(&claimed), number.min(9));
        }
        let claimed = with_value(&sheet, words.len() - 2, VALUE_LIMIT - 1);
        judge.refuses(&Call::push(&claimed, INFINITY + 1), number.min(9));
    }
}

/// The word where it does not belong, with the right count, or not there at all: the
/// form of before request E6. All get 6.
fn places(judge: &mut Judge, certificate: &Certificate) {
    let words = certificate.words();
    let (place, counted) = (words.len() - 2, words[words.len() - 2]);
    let mut without = words.clone();
    without.remove(place);
    let mut sheets = vec![without.clone()];
    // In any other place, beside the one that is right and without it.
    let between = [7, 8, 7 + certificate.g.len(), place - 1, place, place + 1];
    for other in between {
        let mut twice = words.clone();
        twice.insert(other, counted);
        sheets.push(twice);
        let mut moved = without.clone();
        moved.insert(other, counted);
        if moved != words {
            sheets.push(moved);
        }
    }
    // Of another kind, its value the count, 0 or a coefficient; and an end without it.
    for other in (0..16).filter(|&other| other != RATIONAL) {
        for value in [value(counted), 0, 1] {
            let mut changed = words.clone();
            changed[place] = word(other, value);
            sheets.push(changed);
        }
    }
    // In the place of a coefficient, or of the end.
    for i in [7, place - 1, place + 1] {
        let mut changed = words.clone();
        changed[i] = word(RATIONAL, value(words[i]));
        sheets.push(changed);
    }
    // One coefficient less, so that the number of words is that of before.
    for wanted in [G, N] {
        let mut shorter = words.clone();
        let last = words.iter().rposition(|&w| kind(w) == wanted);
        shorter.remove(last.expect("coefficients"));
        sheets.push(shorter);
    }
    for sheet in &sheets {
        judge.refuses(&Call::check(sheet), 6);
        judge.refuses(&Call::push(sheet, INFINITY), 6);
    }
    // Questions and kernel sheets have no such word.
    let mut question = certificate.question.words();
    question.insert(question.len() - 1, counted);
    judge.refuses(&Call::solve(&question), 6);
    let mut kernel = certificate.kernel_sheet().words();
    kernel.insert(kernel.len() - 1, counted);
    judge.refuses(&Call::kernel(&kernel), 6);
    assert_eq!(words.last(), Some(&word(END, 0)));
}

/// Every monic g of the lawful degrees over small fields with every count up to one more
/// than its degree; each u is tried.
pub fn every(judge: &mut Judge, quick: bool) {
    let mut random = Random::new(58);
    let fields: &[(u64, u64)] = if quick {
        &[(11, 3), (11, 5), (13, 5)]
    } else {
        &[
            (11, 3),
            (13, 3),
            (17, 3),
            (11, 5),
            (13, 5),
            (23, 5),
            (17, 7),
            (19, 9),
        ]
    };
    let mut polynomials = 0;
    for &(p, l) in fields {
        let step = if l == 9 { 13 } else { 1 };
        for g in all_monic(Field::new(p), half(l)).step_by(step) {
            let right = roots(&g).len() as u64;
            let certificate = certificate(&mut random, l, &g, right);
            let q = &certificate.question;
            let holds = R3::of(&certificate).holds(q.a_t, q.b_t);
            for claim in 0..=half(l) as u64 + 1 {
                let sheet = Certificate {
                    rational: claim,
                    ..certificate.clone()
                };
                let number = match (claim == right, holds) {
                    (false, _) => 9,
                    (true, false) => 10,
                    (true, true) => 0,
                };
                judge.refuses(&Call::check(&sheet.words()), number);
            }
            polynomials += 1;
        }
    }
    judge.note(format!("{polynomials} polynomials"));
}
