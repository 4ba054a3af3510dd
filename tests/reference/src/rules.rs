//! Rules R1 to R3 of document 01, and the power sums and the expansion at
//! infinity that it prints beside them. N is summed in the order of request E5.

use crate::field::Field;
use crate::poly::Poly;
use crate::sheet::Certificate;

/// f = x^3 + ax + b.
pub fn cubic(field: Field, a: u64, b: u64) -> Poly {
    Poly::new(field, vec![b, a, 0, 1])
}

/// The sigma that R1 wants: -2 times the coefficient of x^(d - 1).
pub fn sigma(g: &Poly, d: usize) -> u64 {
    g.field().mul(g.field().of(-2), g.at(d - 1))
}

/// R1.
pub fn r1(g: &Poly, d: usize, claimed_sigma: u64) -> bool {
    g.degree() == Some(d) && g.at(d) == 1 && sigma(g, d) == claimed_sigma
}

/// The terms of source 001's formula (13) times D = g^2, in its order: the one with
/// lx - sigma, the one with D'/D = 2g'/g, and the one with its derivative, which is
/// 2(gg'' - g'^2)/g^2. Each carries the sign with which it joins the sum.
pub fn parts(a: u64, b: u64, l: u64, sigma: u64, g: &Poly) -> [Poly; 3] {
    let field = g.field();
    let (g1, g2) = (g.derivative(), g.derivative().derivative());
    let line = Poly::new(field, vec![field.neg(sigma), l % field.p()]);
    let quadratic = Poly::new(field, vec![a, 0, field.of(3)]);
    let bend = g.mul(&g2).sub(&g1.square());
    [
        line.mul(&g.square()),
        quadratic.mul(g).mul(&g1).scale(field.of(-2)),
        cubic(field, a, b).mul(&bend).scale(field.of(-4)),
    ]
}

/// R2: the N of a domain, a degree, a sigma and a g.
pub fn r2(a: u64, b: u64, l: u64, sigma: u64, g: &Poly) -> Poly {
    let [first, second, third] = parts(a, b, l, sigma, g);
    first.add(&second).add(&third)
}

/// The polynomials of R3 that do not depend on the codomain, so that one g can
/// be held against many codomains.
pub struct R3 {
    /// f(N'g - 2Ng')^2 - N^3
    pub rest: Poly,
    /// N g^4
    pub n_g4: Poly,
    /// g^6
    pub g6: Poly,
}

/// N'g - 2Ng'.
pub fn wronskian(g: &Poly, n: &Poly) -> Poly {
    let two = g.field().of(2);
    let first = n.derivative().mul(g);
    first.sub(&n.mul(&g.derivative()).scale(two))
}

/// Whether both sides of R3 have one value at u. Where they have not, R3 does not hold.
pub fn r3_at(certificate: &Certificate, u: u64) -> bool {
    let (q, (g, n)) = (&certificate.question, certificate.polynomials());
    let k = q.field();
    let [g_u, n_u] = [&g, &n].map(|poly| poly.value(u));
    let [g_1, n_1] = [&g, &n].map(|poly| poly.derivative().value(u));
    let bend = k.sub(k.mul(n_1, g_u), k.mul(k.of(2), k.mul(n_u, g_1)));
    let left = k.mul(cubic(k, q.a, q.b).value(u), k.mul(bend, bend));
    let second = k.mul(q.a_t, k.mul(n_u, k.pow(g_u, 4)));
    let third = k.mul(q.b_t, k.pow(g_u, 6));
    left == k.add(k.pow(n_u, 3), k.add(second, third))
}

impl R3 {
    pub fn new(a: u64, b: u64, g: &Poly, n: &Poly) -> R3 {
        let left = cubic(g.field(), a, b).mul(&wronskian(g, n).square());
        let g2 = g.square();
        let g4 = g2.square();
        R3 {
            rest: left.sub(&n.square().mul(n)),
            n_g4: n.mul(&g4),
            g6: g4.mul(&g2),
        }
    }

    /// R3 of a certificate, for any codomain.
    pub fn of(certificate: &Certificate) -> R3 {
        let (g, n) = certificate.polynomials();
        R3::new(certificate.question.a, certificate.question.b, &g, &n)
    }

    /// Left side minus right side at x^i.
    pub fn difference_at(&self, i: usize, a_t: u64, b_t: u64) -> u64 {
        let field = self.rest.field();
        let first = field.mul(a_t, self.n_g4.at(i));
        let second = field.mul(b_t, self.g6.at(i));
        field.sub(self.rest.at(i), field.add(first, second))
    }

    /// Number of coefficients that some side of R3 can have.
    pub fn count(&self) -> usize {
        let all = [&self.rest, &self.n_g4, &self.g6];
        let counts = all.map(|poly| poly.coefficients().len());
        counts.into_iter().max().unwrap_or(0)
    }

    /// R3, coefficient by coefficient.
    pub fn holds(&self, a_t: u64, b_t: u64) -> bool {
        (0..self.count()).all(|i| self.difference_at(i, a_t, b_t) == 0)
    }

    /// The only codomain that can meet R3: N g^4 has the leading term
    /// x^(3l - 2) and g^6 the leading term x^(3l - 3), so these two
    /// coefficients of the rest fix it. N has degree l and is monic.
    pub fn matching_codomain(&self) -> (u64, u64) {
        let top = self.n_g4.degree().expect("N g^4 is monic");
        self.codomain_with(|poly| [poly.at(top), poly.at(top - 1)])
            .expect("the leading terms have different degrees")
    }

    /// The codomain for which two values of both sides agree, such as two
    /// coefficients or the values at two points; None if not just one.
    pub fn codomain_with(&self, values: impl Fn(&Poly) -> [u64; 2]) -> Option<(u64, u64)> {
        let k = self.rest.field();
        let ([m0, m1], [c0, c1]) = (values(&self.n_g4), values(&self.g6));
        let [r0, r1] = values(&self.rest);
        let cross = |x0, y1, x1, y0| k.sub(k.mul(x0, y1), k.mul(x1, y0));
        let determinant = cross(m0, c1, m1, c0);
        (determinant != 0).then(|| {
            (
                k.div(cross(r0, c1, r1, c0), determinant),
                k.div(cross(m0, r1, m1, r0), determinant),
            )
        })
    }
}

/// s_0 .. s_count-1 from g by Newton's identities, each root counted twice.
/// The coefficients of x^(d - j) are 0 for j > d.
pub fn power_sums(g: &Poly, d: usize, count: usize) -> Vec<u64> {
    let field = g.field();
    let from_top = |j: usize| if j <= d { g.at(d - j) } else { 0 };
    // Sums over the roots of g, each once: p_k = -k e_k - sum of e_j p_(k-j).
    let mut once = vec![field.of(d as i64)];
    for k in 1..count {
        let mut sum = field.mul(field.of(k as i64), from_top(k));
        for j in 1..k {
            sum = field.add(sum, field.mul(from_top(j), once[k - j]));
        }
        once.push(field.neg(sum));
    }
    once.truncate(count);
    once.iter().map(|&s| field.add(s, s)).collect()
}

/// The monic g of degree d whose roots, each counted twice, have the power
/// sums s_0 .. s_d. Needs d < p.
pub fn from_power_sums(field: Field, d: usize, s: &[u64]) -> Poly {
    let half = field.inv(field.of(2));
    let mut from_top = vec![1];
    for k in 1..=d {
        let mut sum = 0;
        for j in 1..=k {
            let once = field.mul(half, s[j]);
            sum = field.add(sum, field.mul(once, from_top[k - j]));
        }
        from_top.push(field.neg(field.div(sum, field.of(k as i64))));
    }
    from_top.reverse();
    Poly::new(field, from_top)
}

/// h_i = (2i + 1) s_(i+1) + (2i - 1) a s_(i-1) + (2i - 2) b s_(i-2).
pub fn h_from_power_sums(field: Field, a: u64, b: u64, s: &[u64], i: usize) -> u64 {
    let k = i as i64;
    let first = field.mul(field.of(2 * k + 1), s[i + 1]);
    field.add(first, h_tail(field, a, b, s, i))
}

/// The part of h_i that does not contain s_(i+1).
fn h_tail(field: Field, a: u64, b: u64, s: &[u64], i: usize) -> u64 {
    let k = i as i64;
    let middle = field.mul(field.mul(field.of(2 * k - 1), a), s[i - 1]);
    if i == 1 {
        return middle;
    }
    let last = field.mul(field.mul(field.of(2 * k - 2), b), s[i - 2]);
    field.add(middle, last)
}

/// s_0 .. s_d from h_1 .. h_(d-1), l and sigma; h[0] is not used.
pub fn power_sums_from_h(field: Field, a: u64, b: u64, l: u64, sigma: u64, h: &[u64]) -> Vec<u64> {
    let d = (l as usize - 1) / 2;
    let mut s = vec![(l - 1) % field.p(), sigma];
    for (i, &h_i) in h.iter().enumerate().take(d).skip(1) {
        let top = field.sub(h_i, h_tail(field, a, b, &s, i));
        s.push(field.div(top, field.of(2 * i as i64 + 1)));
    }
    s
}

/// h_0 = 0, h_1 .. h_(count-1) of the expansion at infinity. The divisors
/// 5, 7 and (k - 2)(2k + 3) must not be 0 in the field: for k <= d - 1 that
/// follows from 2l - 1 < p.
pub fn expansion(field: Field, domain: (u64, u64), codomain: (u64, u64), count: usize) -> Vec<u64> {
    let (a, b) = domain;
    let mut h = vec![0];
    for k in 1..count {
        let next = match k {
            1 => field.div(field.sub(a, codomain.0), field.of(5)),
            2 => field.div(field.sub(b, codomain.1), field.of(7)),
            _ => {
                let n = k as i64;
                let mut sum = 0;
                for i in 1..=k - 2 {
                    sum = field.add(sum, field.mul(h[i], h[k - 1 - i]));
                }
                let with_a = field.mul(field.of((n - 2) * (2 * n - 3)), field.mul(a, h[k - 2]));
                let with_b = field.mul(field.of(2 * (n - 2) * (n - 3)), field.mul(b, h[k - 3]));
                let right = field.sub(field.mul(field.of(3), sum), field.add(with_a, with_b));
                field.div(right, field.of((n - 2) * (2 * n + 3)))
            }
        };
        h.push(next);
    }
    h
}
