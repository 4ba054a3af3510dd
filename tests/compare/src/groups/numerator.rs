//! Question 9 for any monic g: with the sigma of R1 the sum of the three parts
//! must pass, a sum with a mistake must not. Nearly all of these g are no kernel
//! polynomials, so nothing but check and push shows the N that the library builds.

use reference::call::{Call, INFINITY};
use reference::curve::Curve;
use reference::generate::random_curve;
use reference::marked;
use reference::mistakes::{self, Worked};
use reference::poly::Poly;
use reference::random::Random;
use reference::rational;
use reference::rules;
use reference::sheet::{self, Certificate, Question};

use crate::groups::almost::shapes;
use crate::groups::certificates::{degrees, LARGEST_PRIME};
use crate::groups::document;
use crate::judge::Judge;

const PRIMES: [u64; 5] = [11, 13, 1009, 65521, LARGEST_PRIME];

/// All degrees; where there are few, as many sheets as where there are all. Then
/// certificates that pass.
pub fn run(judge: &mut Judge, quick: bool) {
    let mut random = Random::new(53);
    let mut met = Met::default();
    for p in PRIMES {
        let degrees = degrees(p);
        let rounds = if quick { 1 } else { 128 / degrees.len() };
        // From the top, so that the quick form has the largest.
        let degrees = degrees.into_iter().rev();
        for l in degrees.step_by(if quick { 42 } else { 1 }) {
            for _ in 0..rounds {
                any(judge, &mut random, p, l, &mut met);
            }
        }
    }
    for certificate in document::samples().iter().chain([&marked::smallest()]) {
        let (g, _) = certificate.polynomials();
        claims(judge, &mut random, &certificate.question, &g, &mut met);
    }
    assert!(met.each.iter().all(|&n| n > 0), "a mistake without a sheet");
    judge.note(format!("{} sheets with a wrong N", met.wrong));
}

/// How many sheets have a wrong N, and how many each mistake made wrong.
#[derive(Default)]
struct Met {
    wrong: usize,
    each: [usize; mistakes::ALL.len()],
}

/// Any g, and g of special shape, over three curves.
fn any(judge: &mut Judge, random: &mut Random, p: u64, l: u64, met: &mut Met) {
    for curve in curves(random, p) {
        for g in shapes(random, curve.field, sheet::half(l)) {
            let question = question(random, &curve, l, &g);
            claims(judge, random, &question, &g, met);
        }
    }
}

/// Any curve, the one with the largest values, and one without A or without B.
fn curves(random: &mut Random, p: u64) -> [Curve; 3] {
    let value = 1 + random.below(p - 1);
    let (a, b) = if random.once_in(2) {
        (value, 0)
    } else {
        (0, value)
    };
    [
        random_curve(random, p),
        Curve::new(p, p - 1, p - 1),
        Curve::new(p, a, b),
    ]
}

/// From this curve to any other, with R1's sigma.
fn question(random: &mut Random, curve: &Curve, l: u64, g: &Poly) -> Question {
    let p = curve.field.p();
    let codomain = random_curve(random, p);
    let sigma = rules::sigma(g, sheet::half(l));
    Question::of([p, curve.a, curve.b, codomain.a, codomain.b, l, sigma])
}

/// Sheets with this g and the N that is right or almost.
fn claims(judge: &mut Judge, random: &mut Random, question: &Question, g: &Poly, met: &mut Met) {
    let worked = Worked::new(question, g);
    let right = worked.right();
    let rational = rational::count(g);
    let words = |n: &[u64]| {
        let certificate = Certificate {
            question: question.clone(),
            g: g.padded(question.d() + 1),
            n: n.to_vec(),
            rational,
        };
        certificate.words()
    };
    // 10 for most, 0 where R3 holds.
    judge.agrees(&Call::check(&words(&right)));
    let mut wrong = mistakes::ALL.map(|mistake| worked.wrong(mistake)).to_vec();
    for (count, n) in met.each.iter_mut().zip(&wrong) {
        *count += usize::from(*n != right);
    }
    for place in [0, random.index(right.len()), right.len() - 1] {
        let mut one_more = right.clone();
        one_more[place] = (one_more[place] + 1) % question.p;
        wrong.push(one_more);
    }
    wrong.retain(|n| *n != right);
    for n in &wrong {
        judge.refuses(&Call::check(&words(n)), 9);
    }
    let some = random.pick(&wrong);
    judge.refuses(&Call::push(&words(some), INFINITY), 9);
    met.wrong += wrong.len();
}
