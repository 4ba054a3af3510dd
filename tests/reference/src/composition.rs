//! Request E1: two certificates become that of the first map followed by the second. The
//! kernel polynomial is worked out with rational functions, and what is to be cleared
//! must leave a polynomial.

use crate::fraction::Fraction;
use crate::poly::Poly;
use crate::rules;
use crate::services;
use crate::sheet::{Certificate, Question, Refusal};

/// Questions 13 and 14 for two certificates that pass, in this order, then what is written.
pub fn composed(first: &Certificate, second: &Certificate) -> Result<Certificate, Refusal> {
    let (q1, q2) = (&first.question, &second.question);
    if !meets(q1, q2) {
        return Err(13);
    }
    if !is_permitted(q1.l, q2.l, q1.p) {
        return Err(14);
    }
    Ok(joined(first, second))
}

/// Question 13: one prime, and one curve between the maps.
pub fn meets(first: &Question, second: &Question) -> bool {
    (first.p, first.a_t, first.b_t) == (second.p, second.a, second.b)
}

/// Question 14: the product of the degrees is at most 255, and twice it less 1 below p.
pub fn is_permitted(first: u64, second: u64, p: u64) -> bool {
    let product = first * second;
    product <= 255 && 2 * product - 1 < p
}

/// The certificate of the first map followed by the second, whatever 13 and 14 say.
pub fn joined(first: &Certificate, second: &Certificate) -> Certificate {
    let (q1, q2) = (&first.question, &second.question);
    let k = q1.field();
    let question = Question {
        a_t: q2.a_t,
        b_t: q2.b_t,
        l: q1.l * q2.l,
        sigma: k.add(q2.sigma, k.mul(q2.l % q1.p, q1.sigma)),
        ..q1.clone()
    };
    let g = kernel(first, second).expect("the power of g clears the denominator");
    let Question { a, b, l, sigma, .. } = question;
    let n = rules::r2(a, b, l, sigma, &g);
    services::certificate(question, &g, &n)
}

/// N/g^2 of a certificate.
pub fn x_map(certificate: &Certificate) -> Fraction {
    let (g, n) = certificate.polynomials();
    Fraction::new(&n, &g.square())
}

/// The first g times what the second becomes at N/g^2 of the first, times the power 2d of
/// the first g, with the second's d; None if that is no polynomial.
pub fn kernel(first: &Certificate, second: &Certificate) -> Option<Poly> {
    let (g1, _) = first.polynomials();
    let (g2, _) = second.polynomials();
    let becomes = x_map(first).put_into(&g2);
    let one = Poly::of(g1.field(), &[1]);
    let power = (0..2 * second.question.d()).fold(one, |power, _| power.mul(&g1));
    let cleared = becomes.mul(&Fraction::of(&power));
    cleared.mul(&Fraction::of(&g1)).polynomial()
}
