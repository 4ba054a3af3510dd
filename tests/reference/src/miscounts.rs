//! The count of rational abscissas worked out with a mistake: a sheet may claim it, and
//! a wrong library may write it and compare with it.

use crate::poly::Poly;
use crate::rational::{count, degree_with, power_of_x};
use crate::sheet::VALUE_LIMIT;

/// From a g that is not 0.
pub type Miscount = fn(&Poly) -> u64;

/// Each is another count for some g; for many g some are not.
pub const ALL: [Miscount; 16] = [
    one_more,
    one_less,
    none,
    all,
    not_roots,
    without_zero,
    squares,
    square_values,
    with_multiplicity,
    with_plus,
    half_power,
    power_of_27_bits,
    power_less_1,
    unreduced_start,
    stopped_at_constant,
    stopped_half_way,
];

pub fn one_more(g: &Poly) -> u64 {
    count(g) + 1
}

pub fn one_less(g: &Poly) -> u64 {
    count(g).saturating_sub(1)
}

pub fn none(_: &Poly) -> u64 {
    0
}

/// As if all abscissas were in the field.
pub fn all(g: &Poly) -> u64 {
    g.degree().map_or(0, |d| d as u64)
}

/// The u that are no roots.
pub fn not_roots(g: &Poly) -> u64 {
    g.field().p() - count(g)
}

/// The u from 1 on: x^(p - 1) - 1 in the place of x^p - x.
pub fn without_zero(g: &Poly) -> u64 {
    count(g) - u64::from(g.at(0) == 0)
}

/// The roots that are squares: the power (p + 1)/2.
pub fn squares(g: &Poly) -> u64 {
    degree_with(g, g.field().p().div_ceil(2), -1)
}

/// The u for which g(u) is a square; over large fields the right count.
pub fn square_values(g: &Poly) -> u64 {
    let k = g.field();
    if k.p() > 1100 {
        return count(g);
    }
    (0..k.p()).filter(|&u| k.is_square(g.value(u))).count() as u64
}

/// Each root as often as it is one.
pub fn with_multiplicity(g: &Poly) -> u64 {
    let k = g.field();
    let fixed = power_of_x(g, k.p()).sub(&Poly::of(k, &[0, 1]));
    let (mut rest, mut common) = (g.clone(), g.gcd(&fixed));
    let mut sum = 0;
    while let Some(degree @ 1..) = common.degree() {
        sum += degree as u64;
        rest = rest.div_rem(&common).0;
        common = rest.gcd(&common);
    }
    sum
}

/// x^p + x.
pub fn with_plus(g: &Poly) -> u64 {
    degree_with(g, g.field().p(), 1)
}

/// One squaring too few.
pub fn half_power(g: &Poly) -> u64 {
    degree_with(g, g.field().p() / 2, -1)
}

/// The bit of 2^27 is lost.
pub fn power_of_27_bits(g: &Poly) -> u64 {
    degree_with(g, g.field().p() % (1 << 27), -1)
}

/// The lowest bit is lost.
pub fn power_less_1(g: &Poly) -> u64 {
    degree_with(g, g.field().p() - 1, -1)
}

/// The first bits of p, as many as make d at most, give the power of x to start from. If
/// they make d, that power has no place among d coefficients and is lost: what is left
/// is 0 - x.
pub fn unreduced_start(g: &Poly) -> u64 {
    let d = all(g);
    if (0..28).any(|bits| g.field().p() >> bits == d) {
        u64::from(g.at(0) == 0)
    } else {
        count(g)
    }
}

/// Euclid's algorithm ends at a remainder without x, also if that is not 0: what came
/// before is then no divisor.
pub fn stopped_at_constant(g: &Poly) -> u64 {
    euclid(g, |_, remainder| remainder.degree() > Some(0))
}

/// It ends when the degree has become less than half of the first.
pub fn stopped_half_way(g: &Poly) -> u64 {
    euclid(g, |divisor, remainder| {
        !remainder.is_zero() && divisor.degree() >= g.degree().map(|d| d.div_ceil(2))
    })
}

/// The degree of the divisor when the algorithm ends: it goes on as long as it is told,
/// of divisor and remainder.
fn euclid(g: &Poly, goes_on: impl Fn(&Poly, &Poly) -> bool) -> u64 {
    let k = g.field();
    let mut divisor = g.clone();
    let mut remainder = power_of_x(g, k.p()).sub(&Poly::of(k, &[0, 1]));
    while goes_on(&divisor, &remainder) {
        let (_, next) = divisor.div_rem(&remainder);
        (divisor, remainder) = (remainder, next);
    }
    divisor.degree().map_or(0, |d| d as u64)
}

/// What a sheet may claim in the place of the right count: counts with a mistake, what
/// differs from it by the modulus or by a power of two, and what lies at the limits.
pub fn claims(g: &Poly, right: u64, mistaken: &[u64]) -> Vec<u64> {
    let mut claims = near(right, all(g), g.field().p());
    claims.extend(mistaken);
    claims.retain(|&claim| claim != right && claim < VALUE_LIMIT);
    claims.sort_unstable();
    claims.dedup();
    claims
}

/// The same for a degree and a p, without a mistake in counting.
pub fn near(right: u64, d: u64, p: u64) -> Vec<u64> {
    let mut near = vec![right + 1, 0, 1, d, d + 1, d - right, p - 1, p, right + p];
    near.extend([8, 16, 24, 27].map(|bits| right + (1 << bits)));
    near.extend([VALUE_LIMIT - p, VALUE_LIMIT - 1 - right, VALUE_LIMIT - 1]);
    near.extend(right.checked_sub(1));
    near.retain(|&claim| claim != right && claim < VALUE_LIMIT);
    near.sort_unstable();
    near.dedup();
    near
}
