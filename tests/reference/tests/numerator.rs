//! The three parts of N held against the numbers of document 02 and of PARI/GP,
//! against R2's terms over the integers, against formula (13) with its quotients,
//! and against sums over the roots of g, which need no derivative.

use reference::field::Field;
use reference::generate::{self, random_curve, random_monic};
use reference::marked;
use reference::mistakes::{self, Worked};
use reference::poly::Poly;
use reference::random::Random;
use reference::rules;
use reference::sheet::Certificate;

const PRIMES: [u64; 5] = [11, 13, 1009, 65521, 268435399];
/// Degrees that g can have on a sheet.
const DEGREES: std::ops::RangeInclusive<usize> = 1..=127;

fn parts_of(certificate: &Certificate) -> Vec<Vec<u64>> {
    let q = &certificate.question;
    let (g, _) = certificate.polynomials();
    let parts = rules::parts(q.a, q.b, q.l, q.sigma, &g);
    let count = 2 * q.d() + 2;
    parts.iter().map(|part| part.padded(count)).collect()
}

#[test]
fn numbers_of_document_02() {
    assert_eq!(parts_of(&marked::first()), marked::PARTS);
}

/// Of the other marked sheets document 02 prints no parts: PARI/GP computed these
/// with rational functions, from formula (13) times D.
#[test]
fn numbers_of_pari() {
    let degree_9 = [
        [0, 1, 937, 275, 432, 30, 216, 36, 0, 9],
        [8, 51, 889, 476, 457, 945, 649, 929, 0, 985],
        [735, 821, 336, 726, 48, 64, 865, 32, 0, 16],
    ];
    assert_eq!(parts_of(&marked::not_cyclic()), degree_9);
    let over_11 = [[0, 0, 0, 3], [0, 0, 0, 5], [4, 0, 0, 4]];
    assert_eq!(parts_of(&marked::smallest()), over_11);
}

/// A polynomial over the integers; nothing is reduced before the end.
struct Integers(Vec<i128>);

impl Integers {
    fn of(values: &[u64]) -> Integers {
        Integers(values.iter().map(|&value| i128::from(value)).collect())
    }

    fn times(&self, other: &Integers) -> Integers {
        let mut product = vec![0; self.0.len() + other.0.len()];
        for (i, x) in self.0.iter().enumerate() {
            for (j, y) in other.0.iter().enumerate() {
                product[i + j] += x * y;
            }
        }
        Integers(product)
    }

    fn minus(&self, other: &Integers) -> Integers {
        let at = |list: &[i128], i: usize| list.get(i).copied().unwrap_or(0);
        let count = self.0.len().max(other.0.len());
        Integers(
            (0..count)
                .map(|i| at(&self.0, i) - at(&other.0, i))
                .collect(),
        )
    }

    fn derivative(&self) -> Integers {
        let terms = self.0.iter().enumerate().skip(1);
        Integers(terms.map(|(i, x)| i as i128 * x).collect())
    }

    fn modulo(&self, p: u64) -> Poly {
        let reduced = self.0.iter().map(|x| x.rem_euclid(i128::from(p)) as u64);
        Poly::new(Field::new(p), reduced.collect())
    }
}

/// R2 has the first of these, less the second, less the third.
fn terms_of_r2(a: u64, b: u64, l: u64, sigma: u64, g: &Poly) -> [Integers; 3] {
    let line = Integers(vec![-i128::from(sigma), i128::from(l)]);
    let twice_quadratic = Integers(vec![2 * i128::from(a), 0, 6]);
    let four_f = Integers(vec![4 * i128::from(b), 4 * i128::from(a), 0, 4]);
    let g = Integers::of(g.coefficients());
    let g1 = g.derivative();
    let g2 = g1.derivative();
    [
        line.times(&g).times(&g),
        twice_quadratic.times(&g).times(&g1),
        four_f.times(&g.times(&g2).minus(&g1.times(&g1))),
    ]
}

/// With the sigma of R1 and with another one, as the parts are polynomials in it.
#[test]
fn parts_are_the_terms_of_r2() {
    let mut random = Random::new(9);
    for p in PRIMES {
        for d in DEGREES {
            let g = random_monic(&mut random, Field::new(p), d);
            let (a, b, l) = (random.below(p), random.below(p), 2 * d as u64 + 1);
            for sigma in [rules::sigma(&g, d), random.below(p)] {
                let [first, second, third] = terms_of_r2(a, b, l, sigma, &g);
                let n = first.minus(&second).minus(&third).modulo(p);
                let zero = Integers(Vec::new());
                let terms = [first, zero.minus(&second), zero.minus(&third)];
                let parts = rules::parts(a, b, l, sigma, &g);
                assert_eq!(parts, terms.map(|term| term.modulo(p)), "{p}, {g:?}");
                let sum = parts[0].add(&parts[1]).add(&parts[2]);
                assert_eq!(sum, n, "{p}, {g:?}");
                assert_eq!(rules::r2(a, b, l, sigma, &g), n, "{p}, {g:?}");
            }
        }
    }
}

/// Formula (13) as numbers: at each u where D is not 0, each part over D is the
/// printed term, with the quotients D'/D and (D''D - D'^2)/D^2 taken there.
#[test]
fn formula_13_at_every_u() {
    let mut random = Random::new(10);
    for p in [11, 13, 101, 521] {
        let k = Field::new(p);
        for d in DEGREES {
            let g = random_monic(&mut random, k, d);
            let (a, b, l) = (random.below(p), random.below(p), 2 * d as u64 + 1);
            let sigma = rules::sigma(&g, d);
            let parts = rules::parts(a, b, l, sigma, &g);
            let n = rules::r2(a, b, l, sigma, &g);
            let d0 = g.mul(&g);
            let (d1, d2) = (d0.derivative(), d0.derivative().derivative());
            let mut places = 0;
            for u in (0..p).filter(|&u| d0.value(u) != 0) {
                let at = d0.value(u);
                let first = k.div(d1.value(u), at);
                let top = k.sub(k.mul(d2.value(u), at), k.pow(d1.value(u), 2));
                let second = k.div(top, k.pow(at, 2));
                let three_u2_a = k.add(k.mul(3, k.pow(u, 2)), a);
                let f = k.add(k.add(k.pow(u, 3), k.mul(a, u)), b);
                let printed = [
                    k.sub(k.mul(k.of(l as i64), u), sigma),
                    k.neg(k.mul(three_u2_a, first)),
                    k.neg(k.mul(k.mul(2, f), second)),
                ];
                let over_d = |poly: &Poly| k.div(poly.value(u), at);
                assert_eq!(parts.each_ref().map(over_d), printed, "{u}, {g:?}");
                assert_eq!(over_d(&n), printed.into_iter().fold(0, |s, t| k.add(s, t)));
                places += 1;
            }
            assert!(places > 0, "D is 0 everywhere: {g:?}");
        }
    }
}

/// g without one of its roots, by Horner's rule.
fn without(g: &Poly, root: u64) -> Poly {
    let k = g.field();
    let mut from_top = Vec::new();
    let mut carried = 0;
    for &c in g.coefficients().iter().rev() {
        carried = k.add(c, k.mul(carried, root));
        from_top.push(carried);
    }
    assert_eq!(from_top.pop(), Some(0), "{root} is no root");
    from_top.reverse();
    Poly::new(k, from_top)
}

/// The last sum in source 001's proof of proposition 4.1, which runs over all
/// points of the kernel but infinity, so over each root r of g twice: x, and with
/// every point x - r, -(3x^2 + A)/(x - r) and 2f/(x - r)^2.
#[test]
fn parts_are_sums_over_the_roots() {
    let mut random = Random::new(11);
    for p in PRIMES {
        let k = Field::new(p);
        for d in DEGREES {
            let roots: Vec<u64> = (0..d).map(|_| random.below(p)).collect();
            let g = Poly::with_roots(k, &roots);
            let (a, b, l) = (random.below(p), random.below(p), 2 * d as u64 + 1);
            let mut sums = [Poly::of(k, &[0, 1]), Poly::of(k, &[]), Poly::of(k, &[])];
            for &root in &roots {
                let others = without(&g, root);
                let points = [
                    Poly::new(k, vec![k.neg(root), 1]),
                    others.mul(&g),
                    others.square(),
                ];
                for (sum, point) in sums.iter_mut().zip(points) {
                    *sum = sum.add(&point).add(&point);
                }
            }
            let [line, first, second] = sums;
            let expected = [
                line.mul(&g.square()),
                first.mul(&Poly::of(k, &[-(a as i64), 0, -3])),
                second.mul(&rules::cubic(k, a, b)).scale(2),
            ];
            let parts = rules::parts(a, b, l, rules::sigma(&g, d), &g);
            assert_eq!(parts, expected, "{p}, {roots:?}");
        }
    }
}

/// Each mistake is one: it gives another N for some g of every degree from 2 on.
#[test]
fn mistakes_differ() {
    let mut random = Random::new(12);
    for d in DEGREES.skip(1) {
        let curve = random_curve(&mut random, 65521);
        let g = random_monic(&mut random, curve.field, d);
        let l = 2 * d as u64 + 1;
        let candidate = generate::candidate(&curve, l, &g);
        let worked = Worked::new(&candidate.question, &g);
        assert_eq!(worked.right(), candidate.n);
        for (place, &mistake) in mistakes::ALL.iter().enumerate() {
            assert_ne!(worked.wrong(mistake), candidate.n, "{place}, {g:?}");
        }
    }
}
