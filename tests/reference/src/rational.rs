//! Request E6: how many abscissas of the kernel lie in the field, that is, how many u
//! from 0 to p - 1 have g(u) = 0; and polynomials for which that is known from how they
//! are made. Where the field is small each u is tried, as the request defines the count;
//! where that would take too long, it is a degree, and the tests hold that against
//! trying.

use crate::field::Field;
use crate::generate::random_monic;
use crate::poly::Poly;
use crate::random::Random;

/// Fields with fewer elements have each of them tried.
const TRIED: u64 = 1 << 15;

/// The u from 0 to p - 1 with g(u) = 0, by trying each.
pub fn roots(g: &Poly) -> Vec<u64> {
    let all = 0..g.field().p();
    all.filter(|&u| g.value(u) == 0).collect()
}

/// Those of a g that has each of its roots once, for fields in which not each u can be
/// tried: the roots u for which u + s is a square are told from the others, for some s.
pub fn roots_by_squares(random: &mut Random, g: &Poly) -> Vec<u64> {
    let x = Poly::of(g.field(), &[0, 1]);
    let linear = g.gcd(&power_of_x(g, g.field().p()).sub(&x)).monic();
    let mut found = Vec::new();
    split(random, &linear, &mut found);
    found.sort_unstable();
    found
}

/// The roots of a product of different x - u.
fn split(random: &mut Random, product: &Poly, found: &mut Vec<u64>) {
    let (k, one) = (product.field(), Poly::of(product.field(), &[1]));
    let degree = product.degree().expect("a product");
    if degree < 2 {
        found.extend(product.coefficients().split_last().and_then(|(_, rest)| {
            let &constant = rest.first()?;
            Some(k.neg(constant))
        }));
        return;
    }
    loop {
        // With x - s for x a root u becomes u + s.
        let s = random.below(k.p());
        let [back, forth] = [s, k.neg(s)].map(|t| Poly::with_roots(k, &[t]));
        let moved = product.substitute(&back, &one, degree);
        let squares = moved.gcd(&power_of_x(&moved, (k.p() - 1) / 2).sub(&one));
        if let Some(some @ 1..) = squares.degree().filter(|&some| some < degree) {
            let others = moved.exact_quotient(&squares).expect("a divisor");
            for (part, degree) in [(squares, some), (others, degree - some)] {
                split(
                    random,
                    &part.substitute(&forth, &one, degree).monic(),
                    found,
                );
            }
            return;
        }
    }
}

/// How many there are, for any g.
pub fn count(g: &Poly) -> u64 {
    let p = g.field().p();
    match g.degree() {
        None => p,
        Some(_) if p < TRIED => by_differences(g),
        Some(_) => by_power(g),
    }
}

/// Tries each u, the value at u + 1 from that at u by a table of differences: after its
/// first column nothing is multiplied. g is not 0, and p is below 2^31.
pub fn by_differences(g: &Poly) -> u64 {
    let k = g.field();
    let p = u32::try_from(k.p()).expect("p fits a word");
    let d = g.degree().expect("g is not 0");
    // Of the values at 0 to d, in turn each difference takes the place of the later one.
    let mut column: Vec<u64> = (0..=d as u64).map(|u| g.value(u % k.p())).collect();
    for order in 1..=d {
        for i in (order..=d).rev() {
            column[i] = k.sub(column[i], column[i - 1]);
        }
    }
    // The i-th entry is the i-th difference at u, so the value is the first.
    let mut column: Vec<u32> = column.into_iter().map(|c| c as u32).collect();
    let mut zeros = 0;
    for _ in 0..p {
        zeros += u64::from(column[0] == 0);
        for i in 0..d {
            // Below 2 p, which fits; what p is taken off in vain is the greater one.
            let sum = column[i].wrapping_add(column[i + 1]);
            column[i] = sum.min(sum.wrapping_sub(p));
        }
    }
    zeros
}

/// The degree of gcd(x^p - x, g): x^p - x is the product of all x - u. g is not 0.
pub fn by_power(g: &Poly) -> u64 {
    let x = Poly::of(g.field(), &[0, 1]);
    degree_of_gcd(g, &power_of_x(g, g.field().p()).sub(&x))
}

fn degree_of_gcd(g: &Poly, other: &Poly) -> u64 {
    g.gcd(other).degree().expect("g is not 0") as u64
}

/// x to a power modulo g, which is not 0, read from the exponent's lowest bit up.
pub fn power_of_x(g: &Poly, exponent: u64) -> Poly {
    let g = g.monic();
    let mut result = remainder(&Poly::of(g.field(), &[1]), &g);
    let mut square = remainder(&Poly::of(g.field(), &[0, 1]), &g);
    let mut rest = exponent;
    while rest > 0 {
        if rest % 2 == 1 {
            result = remainder(&result.mul(&square), &g);
        }
        square = remainder(&square.square(), &g);
        rest /= 2;
    }
    result
}

/// The remainder by a monic g. A coefficient is taken modulo p when nothing is added to
/// it any more.
fn remainder(poly: &Poly, g: &Poly) -> Poly {
    let p = g.field().p();
    let (_, lower) = g.coefficients().split_last().expect("g is monic");
    let all = poly.coefficients().iter();
    let mut sums: Vec<u128> = all.map(|&c| u128::from(c)).collect();
    let reduced = |sum: u128| (sum % u128::from(p)) as u64;
    while sums.len() > lower.len() {
        let minus = p - reduced(sums.pop().expect("not empty"));
        let start = sums.len() - lower.len();
        for (sum, &c) in sums[start..].iter_mut().zip(lower) {
            *sum += u128::from(minus * c);
        }
    }
    Poly::new(g.field(), sums.into_iter().map(reduced).collect())
}

/// The degree of gcd(x^exponent + factor x, g), with which mistakes count.
pub fn degree_with(g: &Poly, exponent: u64, factor: i64) -> u64 {
    let term = Poly::of(g.field(), &[0, factor]);
    degree_of_gcd(g, &power_of_x(g, exponent).add(&term))
}

/// A monic polynomial of degree d with so many roots, each once: the product of as many
/// x - u, and of factors of degrees 2 and 3 without a root, which leave no rest of 1.
pub fn with_count(random: &mut Random, field: Field, d: usize, count: usize) -> Poly {
    assert!(d >= count && d - count != 1, "{count} roots of degree {d}");
    let mut chosen = Vec::new();
    while chosen.len() < count {
        let u = random.below(field.p());
        if !chosen.contains(&u) {
            chosen.push(u);
        }
    }
    let mut product = Poly::with_roots(field, &chosen);
    let mut rest = d - count;
    while rest > 0 {
        let factor = if rest % 2 == 1 {
            cubic_without_root(random, field)
        } else {
            quadratic_without_root(random, field)
        };
        rest -= factor.degree().expect("not 0");
        product = product.mul(&factor);
    }
    product
}

/// A monic polynomial of degree d with these roots, each as often as it is named, and no
/// other. The degree is not one more than their number.
pub fn with_only(random: &mut Random, field: Field, d: usize, roots: &[u64]) -> Poly {
    let linear = Poly::with_roots(field, roots);
    match d - roots.len() {
        0 => linear,
        rest => linear.mul(&without_root(random, field, rest)),
    }
}

/// Any monic polynomial of a degree from 2 on that has no root. Over a small field each u
/// is tried. Over a large one it is h^2 - c for any h and a c that is no square, with a
/// cubic factor where the degree is odd.
pub fn without_root(random: &mut Random, field: Field, d: usize) -> Poly {
    assert!(d > 1, "degree {d} without a root");
    if field.p() < TRIED {
        loop {
            let any = random_monic(random, field, d);
            if by_differences(&any) == 0 {
                return any;
            }
        }
    }
    if d % 2 == 1 {
        let cubic = cubic_without_root(random, field);
        return match d {
            3 => cubic,
            _ => cubic.mul(&without_root(random, field, d - 3)),
        };
    }
    let c = drawn(random, field, |c| !field.is_square(c));
    let any = random_monic(random, field, d / 2);
    any.square().sub(&Poly::new(field, vec![c]))
}

/// (x - t)^2 - c for a c that is no square.
fn quadratic_without_root(random: &mut Random, field: Field) -> Poly {
    let c = drawn(random, field, |c| !field.is_square(c));
    let line = Poly::with_roots(field, &[random.below(field.p())]);
    line.square().sub(&Poly::new(field, vec![c]))
}

/// (x - t)^3 - c for a c that is no cube, if there is one; else the field is small, and
/// each u is tried.
fn cubic_without_root(random: &mut Random, field: Field) -> Poly {
    let p = field.p();
    if p % 3 == 1 {
        let c = drawn(random, field, |c| field.pow(c, (p - 1) / 3) != 1);
        let line = Poly::with_roots(field, &[random.below(p)]);
        return line.square().mul(&line).sub(&Poly::new(field, vec![c]));
    }
    assert!(p < TRIED, "every element is a cube, and the field is large");
    loop {
        let lower = [(); 3].map(|()| random.below(p));
        let cubic = Poly::new(field, [&lower[..], &[1]].concat());
        if roots(&cubic).is_empty() {
            return cubic;
        }
    }
}

/// An element other than 0 of a kind that is not rare.
fn drawn(random: &mut Random, field: Field, is_one: impl Fn(u64) -> bool) -> u64 {
    loop {
        let c = 1 + random.below(field.p() - 1);
        if is_one(c) {
            return c;
        }
    }
}
