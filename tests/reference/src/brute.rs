//! Exhaustive search over tiny fields: every monic g, every codomain, rules R1
//! to R3 as they stand. No recurrence, no formula for the codomain.

use crate::field::Field;
use crate::poly::Poly;
use crate::rules::{self, R3};
use crate::services;
use crate::sheet::{self, Certificate, Question};

/// Primes and degrees so small that every g can be tried for every curve.
pub const TINY: [(u64, u64); 7] = [
    (11, 3),
    (13, 3),
    (17, 3),
    (19, 3),
    (23, 3),
    (11, 5),
    (13, 5),
];

/// All monic polynomials of degree d.
pub fn all_monic(field: Field, d: usize) -> impl Iterator<Item = Poly> {
    let p = field.p();
    (0..p.pow(d as u32)).map(move |index| {
        let mut rest = index;
        let mut coefficients = Vec::with_capacity(d + 1);
        for _ in 0..d {
            coefficients.push(rest % p);
            rest /= p;
        }
        coefficients.push(1);
        Poly::new(field, coefficients)
    })
}

/// All pairs of field elements.
pub fn all_pairs(p: u64) -> impl Iterator<Item = (u64, u64)> {
    (0..p).flat_map(move |a| (0..p).map(move |b| (a, b)))
}

/// Every g and codomain that meet R1 to R3 for this domain and degree, with
/// the sigma that R1 gives; codomains that fail question 7 are among them.
pub fn all_isogenies(p: u64, a: u64, b: u64, l: u64) -> Vec<Certificate> {
    let field = Field::new(p);
    let d = sheet::half(l);
    let mut found = Vec::new();
    for g in all_monic(field, d) {
        let sigma = rules::sigma(&g, d);
        let n = rules::r2(a, b, l, sigma, &g);
        let equation = R3::new(a, b, &g, &n);
        for (a_t, b_t) in all_pairs(p) {
            if equation.holds(a_t, b_t) {
                let question = Question::of([p, a, b, a_t, b_t, l, sigma]);
                found.push(services::certificate(question, &g, &n));
            }
        }
    }
    found
}

/// Whether a curve passes question 7.
pub fn is_curve(p: u64, a: u64, b: u64) -> bool {
    sheet::ask_curve(p, a, b).is_ok()
}
