//! Request E6's count of rational abscissas, held against the definition wherever each
//! u can be tried, and elsewhere against how a polynomial was made and against linear
//! algebra.

use std::collections::BTreeSet;

use reference::brute::all_monic;
use reference::curve::Curve;
use reference::field::Field;
use reference::generate::{self, random_monic};
use reference::marked;
use reference::miscounts::{self, ALL};
use reference::poly::Poly;
use reference::random::Random;
use reference::rational::{self, by_differences, by_power, count, roots, with_count, with_only};
use reference::repetition::with_repeated_factor;
use reference::rules::{r3_at, R3};
use reference::services::{self, Checked};
use reference::sheet::{self, kind, value, with_value, Certificate, RATIONAL, VALUE_LIMIT};

const LARGEST: u64 = 268435399;

/// Fields with the greatest degree of which every monic polynomial is tried.
const SMALL: [(u64, usize); 8] = [
    (2, 10),
    (3, 8),
    (5, 6),
    (7, 5),
    (11, 4),
    (13, 4),
    (17, 3),
    (23, 3),
];

/// The definition, both fast ways to it, and what is chosen.
fn agree(g: &Poly) -> u64 {
    let tried = roots(g).len() as u64;
    assert_eq!(by_differences(g), tried, "{g:?}");
    assert_eq!(by_power(g), tried, "{g:?}");
    assert_eq!(count(g), tried, "{g:?}");
    tried
}

/// Square-free or not, x^d among them. With k roots there are, by inclusion and
/// exclusion, binomial(p, k) times the sum of (-1)^j binomial(p - k, j) p^(d - k - j).
#[test]
fn every_polynomial_over_small_fields() {
    for (p, most) in SMALL {
        let field = Field::new(p);
        for d in 0..=most {
            let mut met = vec![0; d + 1];
            for g in all_monic(field, d) {
                met[agree(&g) as usize] += 1;
            }
            for (k, &found) in met.iter().enumerate() {
                let (p, k) = (p as i64, k as i64);
                let without = (0..=d as i64 - k).map(|j| {
                    let sign = if j % 2 == 0 { 1 } else { -1 };
                    sign * binomial(p - k, j) * p.pow((d as i64 - k - j) as u32)
                });
                let wanted = binomial(p, k) * without.sum::<i64>();
                assert_eq!(found, wanted, "{p}, degree {d}, {k} roots");
            }
        }
    }
}

fn binomial(n: i64, k: i64) -> i64 {
    (0..k).fold(1, |product, i| product * (n - i) / (i + 1))
}

/// Also with another leading coefficient, and the polynomial 0, of which all are roots.
#[test]
fn not_monic() {
    let field = Field::new(11);
    for g in all_monic(field, 3).step_by(7) {
        for leading in 2..11 {
            assert_eq!(agree(&g.scale(leading)), roots(&g).len() as u64);
        }
    }
    for p in [11, LARGEST] {
        let zero = Poly::of(Field::new(p), &[]);
        assert_eq!(count(&zero), p);
    }
}

/// Degrees up to 127 over fields that are tried in whole.
#[test]
fn any_degree_over_middle_fields() {
    let mut random = Random::new(20);
    for p in [251, 521, 1009, 4099, 65537] {
        let field = Field::new(p);
        for d in [1, 2, 3, 4, 5, 16, 31, 64, 100, 127] {
            let mut list = with_repeated_factor(&mut random, field, d);
            list.push(random_monic(&mut random, field, d));
            list.push(Poly::with_roots(field, &vec![0; d]));
            list.push(with_count(&mut random, field, d, d));
            for g in list {
                agree(&g);
            }
        }
    }
}

/// The counts by construction, with a root at 0 and without.
#[test]
fn known_counts() {
    let mut random = Random::new(21);
    for p in [11, 17, 101, 1009, 16777213, 134217757, LARGEST] {
        let field = Field::new(p);
        let x = Poly::of(field, &[0, 1]);
        for d in [1usize, 2, 3, 4, 5, 8, 15, 40, 127] {
            if 4 * d as u64 >= p {
                continue;
            }
            for k in [0, 1, 2, d / 2, d.saturating_sub(2), d] {
                if k > d || d - k == 1 {
                    continue;
                }
                let g = with_count(&mut random, field, d, k);
                let known = k as u64;
                assert_eq!((g.degree(), g.at(d)), (Some(d), 1));
                assert!(g.is_square_free(), "{g:?}");
                assert_eq!((count(&g), by_power(&g)), (known, known), "{g:?}");
                let zero = u64::from(g.at(0) == 0);
                // x^3 g and g^2 have no other roots.
                let shifted = x.mul(&x).mul(&x).mul(&g);
                assert_eq!(by_power(&shifted), known + 1 - zero, "{g:?}");
                assert_eq!(by_power(&g.square()), known, "{g:?}");
            }
            let root = random.below(p);
            for r in [0, root, p - 1] {
                let power = Poly::with_roots(field, &vec![r; d]);
                assert_eq!((count(&power), by_power(&power)), (1, 1));
            }
        }
    }
}

/// Polynomials by their roots, of which 0 comes twice: no other u is one, by trying each,
/// and over large fields by a degree.
#[test]
fn only_the_roots_that_are_named() {
    let mut random = Random::new(27);
    for p in [11, 13, 523, 1009, 65521, 134217757, LARGEST] {
        let field = Field::new(p);
        for d in (1..=127).filter(|&d| 4 * d + 1 < p).step_by(7) {
            let d = d as usize;
            for k in (0..=d).filter(|k| d - k != 1).step_by(1 + d / 6) {
                let named: Vec<u64> = (0..k as u64).map(|i| i * i / 2 % p).collect();
                let g = with_only(&mut random, field, d, &named);
                assert_eq!((g.degree(), g.at(d)), (Some(d), 1));
                assert!(named.iter().all(|&u| g.value(u) == 0), "{g:?}");
                let known: BTreeSet<u64> = named.into_iter().collect();
                assert_eq!(by_power(&g), known.len() as u64, "{g:?}");
                if p < 2000 {
                    assert_eq!(roots(&g), Vec::from_iter(known), "{g:?}");
                }
            }
        }
    }
}

/// R3 at one u is what its polynomials give there.
#[test]
fn r3_by_values() {
    let mut random = Random::new(28);
    for p in [11, 13, 1009, LARGEST] {
        for l in [3, 5, 7, 9, 31].into_iter().filter(|l| 2 * l - 1 < p) {
            let curve = generate::random_curve(&mut random, p);
            let g = random_monic(&mut random, curve.field, sheet::half(l));
            let mut list = vec![generate::candidate(&curve, l, &g)];
            list.extend(generate::from_points(&mut random, p, &[l], 3000));
            for certificate in list {
                let (q, r3) = (&certificate.question, R3::of(&certificate));
                let k = q.field();
                let right = r3.n_g4.scale(q.a_t).add(&r3.g6.scale(q.b_t));
                let difference = r3.rest.sub(&right);
                assert_eq!(difference.is_zero(), r3.holds(q.a_t, q.b_t));
                for u in 0..k.p().min(100) {
                    assert_eq!(r3_at(&certificate, u), difference.value(u) == 0);
                }
            }
        }
    }
}

/// Each u of the largest field.
#[test]
fn every_u_of_the_largest_field() {
    let mut random = Random::new(22);
    let field = Field::new(LARGEST);
    let any = random_monic(&mut random, field, 7);
    let some = with_count(&mut random, field, 5, 2);
    let repeated = with_count(&mut random, field, 2, 2).square();
    for g in [any, some, repeated] {
        assert_eq!(by_differences(&g), by_power(&g), "{g:?}");
    }
}

/// The dimension of the h modulo g with (x^p - x) h = 0, which is the degree of what g
/// and x^p - x have in common: by elimination, without Euclid's algorithm, and with the
/// power read from its top bit down.
fn nullity(g: &Poly) -> u64 {
    let k = g.field();
    let d = g.degree().expect("not 0");
    let times = |a: &Poly, b: &Poly| a.mul(b).div_rem(g).1;
    let x = Poly::of(k, &[0, 1]);
    let bits = 64 - k.p().leading_zeros();
    let power = (0..bits).rev().fold(Poly::of(k, &[1]), |power, bit| {
        let square = times(&power, &power);
        match k.p() >> bit & 1 {
            1 => times(&square, &x),
            _ => square,
        }
    });
    let mut row = power.sub(&x).div_rem(g).1;
    let mut matrix = Vec::new();
    for _ in 0..d {
        matrix.push(row.padded(d));
        row = times(&row, &x);
    }
    let mut rank = 0;
    for column in 0..d {
        let Some(found) = (rank..d).find(|&i| matrix[i][column] != 0) else {
            continue;
        };
        matrix.swap(rank, found);
        let inverse = k.inv(matrix[rank][column]);
        let pivot = matrix[rank].clone();
        for row in &mut matrix[rank + 1..] {
            let factor = k.mul(row[column], inverse);
            for (entry, &c) in row.iter_mut().zip(&pivot) {
                *entry = k.sub(*entry, k.mul(factor, c));
            }
        }
        rank += 1;
    }
    (d - rank) as u64
}

#[test]
fn linear_algebra_finds_the_same() {
    for g in all_monic(Field::new(11), 3).step_by(3) {
        assert_eq!(nullity(&g), roots(&g).len() as u64, "{g:?}");
    }
    let mut random = Random::new(23);
    for p in [1009, 16777213, LARGEST] {
        let field = Field::new(p);
        for d in [1, 2, 3, 5, 8, 13, 31, 64, 127] {
            let mut list = with_repeated_factor(&mut random, field, d);
            list.push(random_monic(&mut random, field, d));
            list.push(with_count(&mut random, field, d, d));
            for g in list {
                assert_eq!(by_power(&g), nullity(&g), "{g:?}");
            }
        }
    }
}

/// PARI/GP: #polrootsmod(g, p).
#[test]
fn counts_of_pari() {
    for (p, g, wanted) in [
        (1009, &[-23, 1][..], 1),
        (1009, &[336, 12, 2, 0, 1], 1),
        (11, &[0, 1], 1),
        (11, &[-1, 1], 1),
        (1009, &[-22, 1], 1),
        (1009, &[1, 0, 1], 2),
        (11, &[1, 0, 1], 0),
        (13, &[-1, 0, 0, 1], 3),
        (LARGEST, &[-1, 0, 0, 1], 3),
        (LARGEST, &[1, 0, 1], 0),
        (LARGEST, &[0, 4, 0, 0, 1], 4),
        (LARGEST, &[1, 1, 0, 0, 0, 1], 3),
        (LARGEST, &[3, 1, 0, 0, 0, 0, 0, 1], 0),
        (65521, &[2, 0, 0, 0, 0, 1, 1], 2),
        // x^4 (x + 1)^2 (x - 5)^3 and (x^2 + 1)^2 (x - 7) x^2
        (1009, &[0, 0, 0, 0, -125, -175, 10, 46, -13, 1], 3),
        (LARGEST, &[0, 0, -7, 1, -14, 2, -7, 1], 2),
    ] {
        assert_eq!(count(&Poly::of(Field::new(p), g)), wanted, "{p}, {g:?}");
    }
    for certificate in [marked::first(), marked::not_cyclic(), marked::smallest()] {
        let (g, _) = certificate.polynomials();
        assert_eq!(certificate.rational, count(&g));
    }
}

/// A subgroup that a point of the curve or of its twist generates has all its abscissas
/// in the field. Of the others some have none, and some have a part of them.
#[test]
fn certificates_have_none_some_or_all() {
    let mut random = Random::new(24);
    let [mut none, mut some, mut all] = [0, 0, 0];
    for p in [521, 1009, 65521, LARGEST] {
        let wanted = [3, 5, 7, 9, 15, 31, 63];
        for certificate in generate::from_points(&mut random, p, &wanted, 5000) {
            assert_eq!(certificate.rational, certificate.question.d() as u64);
            let dual = services::solution(&generate::dual_question(&certificate));
            let others = generate::with_multiplications(&certificate);
            for other in others.iter().chain(&dual) {
                match other.question.d() as u64 - other.rational {
                    0 => all += 1,
                    _ if other.rational == 0 => none += 1,
                    _ => some += 1,
                }
            }
        }
    }
    assert!(none > 10 && some > 10 && all > 10, "{none}, {some}, {all}");
}

/// Question 9 asks for the count after R1 and before R3, and 6 does not.
#[test]
fn only_the_right_count_passes() {
    let mut random = Random::new(25);
    let curve = Curve::new(1009, 1, 3);
    let wrong = generate::candidate(&curve, 7, &random_monic(&mut random, curve.field, 3));
    let third = generate::from_points(&mut random, LARGEST, &[15], 5000).remove(0);
    for (certificate, number) in [
        (marked::first(), 0),
        (marked::not_cyclic(), 0),
        (marked::smallest(), 0),
        (third, 0),
        (wrong, 10),
    ] {
        let words = certificate.words();
        let place = words.len() - 2;
        assert_eq!(kind(words[place]), RATIONAL);
        assert_eq!(words.len(), 3 * certificate.question.d() + 12);
        let right = value(words[place]);
        let (g, _) = certificate.polynomials();
        let mistaken = ALL.map(|miscount| miscount(&g));
        let mut claims = miscounts::claims(&g, right, &mistaken);
        claims.extend(0..20);
        for claim in claims {
            let claimed = with_value(&words, place, claim);
            let read = Certificate::read(&claimed).expect("6 does not ask for the size");
            assert_eq!(read.rational, claim);
            let wanted = match (claim == right, number) {
                (false, _) => Checked::Refused(9),
                (true, 0) => Checked::Passes,
                (true, _) => Checked::Refused(number),
            };
            assert_eq!(services::check(&claimed), wanted, "{claim}");
        }
        let mut other_sigma = words.clone();
        other_sigma[6] = sheet::word(sheet::SIGMA, certificate.question.sigma ^ 1);
        let both = with_value(&other_sigma, place, VALUE_LIMIT - 1);
        assert_eq!(services::check(&both), Checked::Refused(8));
    }
}

/// Each mistake is one for some polynomial.
#[test]
fn miscounts_differ() {
    let mut random = Random::new(26);
    let mut met = [0; ALL.len()];
    for p in [11, 13, 101, 1009, LARGEST] {
        let field = Field::new(p);
        for d in 1..=(p as usize / 5).min(10) {
            let mut list = with_repeated_factor(&mut random, field, d);
            list.push(Poly::with_roots(field, &vec![0; d]));
            for k in (0..=d).filter(|k| d - k != 1) {
                list.push(with_count(&mut random, field, d, k));
            }
            for g in &list {
                let right = rational::count(g);
                for (met, miscount) in met.iter_mut().zip(ALL) {
                    *met += usize::from(miscount(g) != right);
                }
            }
        }
    }
    assert!(met.iter().all(|&count| count > 0), "{met:?}");
}
