//! Divisors held against listing them all: over tiny fields every product of monic
//! polynomials, and counts that are known.

use std::collections::{HashMap, HashSet};

use reference::brute::all_monic;
use reference::field::Field;
use reference::generate::random_monic;
use reference::poly::Poly;
use reference::random::Random;

/// Fields with the largest degree up to which all polynomials are listed.
const SMALL: [(u64, usize); 4] = [(2, 5), (3, 4), (5, 3), (7, 2)];
const LARGEST: u64 = 268435399;

/// All monic polynomials of degree 0 to d.
fn monic_up_to(field: Field, d: usize) -> Vec<Poly> {
    (0..=d).flat_map(|n| all_monic(field, n)).collect()
}

/// All polynomials of degree d or less, 0 among them.
fn all_up_to(field: Field, d: usize) -> Vec<Poly> {
    let monic = monic_up_to(field, d).into_iter();
    let multiples = monic.flat_map(|poly| (1..field.p()).map(move |c| poly.scale(c)));
    multiples.chain([Poly::of(field, &[])]).collect()
}

type Divisors = HashMap<Vec<u64>, HashSet<Vec<u64>>>;

fn key(poly: &Poly) -> Vec<u64> {
    poly.coefficients().to_vec()
}

/// The monic divisors of every monic polynomial up to a degree: whatever has a
/// multiple there.
fn divisors_up_to(field: Field, d: usize) -> Divisors {
    let mut divisors = Divisors::new();
    for a in monic_up_to(field, d) {
        let left = d - a.degree().expect("monic");
        for b in monic_up_to(field, left) {
            let product = key(&a.mul(&b));
            divisors.entry(product).or_default().insert(key(&a));
        }
    }
    divisors
}

/// Every quotient and remainder comes up, and from the one dividend that it should.
#[test]
fn division_by_multiplying_out() {
    for (p, d) in SMALL {
        let field = Field::new(p);
        let all = all_up_to(field, d);
        for divisor in all.iter().filter(|poly| !poly.is_zero()) {
            let degree = divisor.degree().expect("not 0");
            let remainders = all.iter().filter(|rest| rest.degree() < Some(degree));
            for rest in remainders {
                for quotient in all_up_to(field, d - degree) {
                    let dividend = quotient.mul(divisor).add(rest);
                    let expected = (quotient, rest.clone());
                    assert_eq!(dividend.div_rem(divisor), expected);
                    let exact = rest.is_zero().then_some(expected.0);
                    assert_eq!(dividend.exact_quotient(divisor), exact);
                    assert_eq!(divisor.divides(&dividend), rest.is_zero());
                }
            }
        }
    }
}

#[test]
fn division_of_large_polynomials() {
    let mut random = Random::new(17);
    let field = Field::new(LARGEST);
    for (d, e) in [(1, 0), (3, 3), (255, 127), (127, 126), (254, 1), (5, 9)] {
        let divisor = random_monic(&mut random, field, e).scale(field.p() - 1);
        let quotient = random_monic(&mut random, field, d).scale(2);
        let rest = match e {
            0 => Poly::of(field, &[]),
            _ => random_monic(&mut random, field, e - 1).scale(field.p() - 2),
        };
        let dividend = quotient.mul(&divisor).add(&rest);
        assert_eq!(dividend.div_rem(&divisor), (quotient, rest));
    }
}

/// The greatest common divisor is a common divisor, and all others divide it. Every
/// pair, with 0 and with leading coefficients that are not 1.
#[test]
fn greatest_common_divisors_by_listing() {
    for (p, d) in SMALL {
        let field = Field::new(p);
        let divisors = divisors_up_to(field, d);
        let of = |poly: &Poly| &divisors[poly.monic().coefficients()];
        let all = all_up_to(field, d);
        for a in &all {
            for b in &all {
                let gcd = a.gcd(b);
                let common = match (a.is_zero(), b.is_zero()) {
                    (true, true) => {
                        assert!(gcd.is_zero());
                        continue;
                    }
                    (true, false) => of(b).clone(),
                    (false, true) => of(a).clone(),
                    (false, false) => of(a).intersection(of(b)).cloned().collect(),
                };
                let longest = common.iter().max_by_key(|divisor| divisor.len());
                assert_eq!(longest, Some(&key(&gcd)), "{a:?}, {b:?}");
                assert_eq!(&common, of(&gcd), "{a:?}, {b:?}");
                assert_eq!(a.is_coprime_to(b), common.len() == 1);
            }
        }
    }
}

fn is_bezout(a: &Poly, b: &Poly) {
    let [u, v, gcd] = a.bezout(b);
    assert_eq!(gcd, a.gcd(b));
    assert_eq!(u.mul(a).add(&v.mul(b)), gcd, "{a:?}, {b:?}");
    // No longer than need be.
    if a.degree() > Some(0) && b.degree() > Some(0) {
        assert!(u.degree() < b.degree() && v.degree() < a.degree());
    }
}

#[test]
fn bezout_of_every_pair() {
    for (p, d) in SMALL {
        let all = all_up_to(Field::new(p), d);
        for a in &all {
            all.iter().for_each(|b| is_bezout(a, b));
        }
    }
}

/// Products of linear factors: what is common can be read off the roots.
#[test]
fn greatest_common_divisors_of_known_roots() {
    let mut random = Random::new(18);
    for p in [1009, 65521, LARGEST] {
        let field = Field::new(p);
        for (common, first, second) in [(0, 127, 126), (1, 126, 254), (60, 3, 5), (127, 0, 128)] {
            let mut roots = HashSet::new();
            while roots.len() < common + first + second {
                roots.insert(random.below(p));
            }
            let roots: Vec<u64> = roots.into_iter().collect();
            let (shared, others) = roots.split_at(common);
            let (left, right) = others.split_at(first);
            let a = Poly::with_roots(field, &[shared, left].concat()).scale(3);
            let b = Poly::with_roots(field, &[shared, right].concat());
            assert_eq!(a.gcd(&b), Poly::with_roots(field, shared));
            assert!(a.is_square_free() && b.is_square_free());
            is_bezout(&a, &b);
            // Of a product with a cube its square is common with the derivative.
            let cubed = a.mul(&b.square().mul(&b));
            assert!(!cubed.is_square_free());
            if common == 0 {
                assert_eq!(cubed.gcd(&cubed.derivative()), b.square());
            }
        }
    }
}

/// Of the monic polynomials of degree n from 2 on p^n - p^(n - 1) are square-free, and
/// every other one has the square of a listed polynomial for a divisor.
#[test]
fn square_free_polynomials_by_counting() {
    for (p, d) in [(2, 9), (3, 6), (5, 4), (7, 4), (11, 3), (13, 3)] {
        let field = Field::new(p);
        for n in 2..=d {
            let mut repeated = HashSet::new();
            for h in (1..=n / 2).flat_map(|degree| all_monic(field, degree)) {
                let square = h.square();
                let left = n - 2 * h.degree().expect("monic");
                repeated.extend(all_monic(field, left).map(|k| key(&square.mul(&k))));
            }
            let mut count = 0;
            for poly in all_monic(field, n) {
                let free = poly.is_square_free();
                assert_eq!(free, !repeated.contains(poly.coefficients()), "{poly:?}");
                count += u64::from(free);
            }
            assert_eq!(count, p.pow(n as u32) - p.pow(n as u32 - 1));
        }
        // Nothing of degree 0 or 1 is repeated; 0 is divided by every square.
        assert!(all_monic(field, 1).all(|poly| poly.is_square_free()));
        assert!(Poly::of(field, &[1]).is_square_free());
        assert!(!Poly::of(field, &[]).is_square_free());
    }
}

/// Of the pairs of monic polynomials of degree n from 1 on all but one in p are
/// coprime.
#[test]
fn coprime_pairs_by_counting() {
    for (p, d) in [(2, 5), (3, 3), (5, 2), (7, 2), (11, 1), (13, 1)] {
        let field = Field::new(p);
        for n in 1..=d {
            let all: Vec<Poly> = all_monic(field, n).collect();
            let prime_to = |a: &Poly| all.iter().filter(|b| a.is_coprime_to(b)).count() as u64;
            let count: u64 = all.iter().map(prime_to).sum();
            assert_eq!(count, p.pow(2 * n as u32) - p.pow(2 * n as u32 - 1));
        }
    }
}

/// p-th powers, whose derivative is 0, and x^p - x, which has every element for a
/// simple root.
#[test]
fn powers_with_the_characteristic() {
    for p in [2, 3, 5, 7, 11, 13, 101] {
        let field = Field::new(p);
        let power = |c: i64, low: i64| {
            let mut coefficients = vec![0; p as usize + 1];
            coefficients[0] = field.of(c);
            coefficients[1] = field.of(low);
            coefficients[p as usize] = 1;
            Poly::new(field, coefficients)
        };
        let repeated = power(-1, 0);
        assert_eq!(repeated, Poly::with_roots(field, &vec![1; p as usize]));
        assert!(repeated.derivative().is_zero() && !repeated.is_square_free());
        assert_eq!(repeated.gcd(&repeated.derivative()), repeated);
        let all: Vec<u64> = (0..p).collect();
        assert_eq!(power(0, -1), Poly::with_roots(field, &all));
        assert!(power(0, -1).is_square_free());
        // A p-th power beside a simple factor.
        let beside = repeated.mul(&Poly::of(field, &[0, 1]));
        assert_eq!(beside.gcd(&beside.derivative()), repeated);
    }
}
