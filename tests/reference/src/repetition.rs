//! Request E12: where a certificate passes, its kernel polynomial is square-free and
//! coprime to f and to N. Here are the greatest common divisors that tell, and sheets for
//! which one of them is not 1.

use crate::curve::Curve;
use crate::field::Field;
use crate::generate::random_monic;
use crate::poly::Poly;
use crate::random::Random;
use crate::rules;
use crate::services;
use crate::sheet::{self, Certificate, Question, Reading, Refusal, QUESTION_HEAD};

/// What g is held against, each with the greatest common divisor.
pub type CommonFactors = [(&'static str, Poly); 3];

/// gcd(g, g'), gcd(g, f) and gcd(g, N) of a certificate, whether it passes or not.
/// All are 1 exactly if g is as request E12 says.
pub fn common_factors(certificate: &Certificate) -> CommonFactors {
    let q = &certificate.question;
    let (g, n) = certificate.polynomials();
    let f = rules::cubic(q.field(), q.a, q.b);
    [
        ("g'", g.gcd(&g.derivative())),
        ("f", g.gcd(&f)),
        ("N", g.gcd(&n)),
    ]
}

/// Whether all three are 1.
pub fn is_free(certificate: &Certificate) -> bool {
    let common = common_factors(certificate);
    common.iter().all(|(_, gcd)| gcd.degree() == Some(0))
}

/// A certificate of any odd degree from 3 on, by questions 2, 3, 5 and 6; another degree
/// gets 4. What question 4 leaves out need not be free.
pub fn read_any_degree(words: &[u32]) -> Result<Certificate, Refusal> {
    let [p, a, b, a_t, b_t, l, sigma] = sheet::ask_head(words, QUESTION_HEAD)?;
    sheet::ask_prime(p)?;
    if l < 3 || l % 2 == 0 {
        return Err(4);
    }
    let reading = Reading::Strict;
    let [a, b, a_t, b_t, sigma] = sheet::ask_values([a, b, a_t, b_t, sigma], p, reading)?;
    let question = Question::of([p, a, b, a_t, b_t, l, sigma]);
    Certificate::read_rest(words, question, reading)
}

/// Over p with l = p + 2, which question 4 refuses. For a root r of f the power
/// g = (x - r)^((p + 1)/2) meets R1 to R3: twice the exponent is 1 in the field, so
/// R2 gives N/g^2 = x + v/(x - r) with v = f'(r). That is the normalized isogeny of
/// degree 2 that takes (r, 0) to infinity, with h_1 = v and h_2 = rv.
pub fn power_of_root(curve: &Curve, root: u64) -> Certificate {
    let Curve { field: k, a, b } = *curve;
    assert_eq!(curve.cubic(root), 0, "{root} is no root of f");
    let v = k.add(k.mul(k.of(3), k.mul(root, root)), a);
    let a_t = k.sub(a, k.mul(k.of(5), v));
    let b_t = k.sub(b, k.mul(k.of(7), k.mul(root, v)));
    let exponent = (k.p() as usize).div_ceil(2);
    let g = Poly::with_roots(k, &vec![root; exponent]);
    let (l, sigma) = (k.p() + 2, rules::sigma(&g, exponent));
    let n = rules::r2(a, b, l, sigma, &g);
    services::certificate(Question::of([k.p(), a, b, a_t, b_t, l, sigma]), &g, &n)
}

/// A curve for which f has this root.
pub fn curve_with_root(random: &mut Random, field: Field, root: u64) -> Curve {
    loop {
        let a = random.below(field.p());
        let b = field.neg(field.mul(root, field.add(field.mul(root, root), a)));
        if crate::brute::is_curve(field.p(), a, b) {
            return Curve { field, a, b };
        }
    }
}

/// Monic polynomials of degree d that a square divides, from d = 2 on: that of a linear
/// factor, that of a factor with half the degree, and the d-th power of a linear one.
pub fn with_repeated_factor(random: &mut Random, field: Field, d: usize) -> Vec<Poly> {
    if d < 2 {
        return Vec::new();
    }
    let mut multiple = |degree: usize| {
        let factor = random_monic(random, field, degree);
        let other = random_monic(random, field, d - 2 * degree);
        factor.square().mul(&other)
    };
    let (linear, half) = (multiple(1), multiple(d / 2));
    let power = Poly::with_roots(field, &vec![random.below(field.p()); d]);
    vec![linear, half, power]
}

/// Monic polynomials of degree d that are multiples of a factor of f: of x - r for its
/// root r, of the other factor, and of f itself, as far as the degree allows it.
pub fn with_factor_of_f(random: &mut Random, curve: &Curve, root: u64, d: usize) -> Vec<Poly> {
    let k = curve.field;
    let linear = Poly::with_roots(k, &[root]);
    let f = rules::cubic(k, curve.a, curve.b);
    let (other, _) = f.div_rem(&linear);
    let mut list = vec![linear.mul(&random_monic(random, k, d - 1))];
    for factor in [other, f] {
        if let Some(rest) = factor.degree().and_then(|degree| d.checked_sub(degree)) {
            list.push(factor.mul(&random_monic(random, k, rest)));
        }
    }
    list
}

/// The identity of a curve in the form of a certificate, of degree 1.
pub fn identity(curve: &Curve) -> Certificate {
    let Curve { field, a, b } = *curve;
    let question = Question::of([field.p(), a, b, a, b, 1, 0]);
    let (one, x) = (Poly::of(field, &[1]), Poly::of(field, &[0, 1]));
    services::certificate(question, &one, &x)
}

/// The map of a certificate written with a factor c too many: g c for g and N c^2 for
/// N. R1 and R3 hold, for a degree that is not the map's.
pub fn inflated(certificate: &Certificate, c: &Poly) -> Certificate {
    let q = &certificate.question;
    let (g, n) = certificate.polynomials();
    let g = g.mul(c);
    let d = g.degree().expect("a product of monic polynomials");
    let mut question = q.clone();
    question.l = 2 * d as u64 + 1;
    question.sigma = rules::sigma(&g, d);
    services::certificate(question, &g, &n.mul(&c.square()))
}
