//! Field and polynomials held against their definitions.

use reference::field::Field;
use reference::poly::Poly;
use reference::random::Random;
use reference::rules;

#[test]
fn inverses_and_powers() {
    for p in [11, 13, 1009, 268435399] {
        let field = Field::new(p);
        for a in (1..p).step_by((p as usize / 500).max(1)) {
            assert_eq!(field.mul(a, field.inv(a)), 1);
            assert_eq!(field.pow(a, p - 1), 1);
            assert_eq!(field.pow(a, p - 2), field.inv(a));
            assert_eq!(field.pow(a, 0), 1);
        }
    }
}

#[test]
fn square_roots() {
    for p in [11, 13, 17, 1009, 65537, 268435399] {
        let field = Field::new(p);
        for a in (0..p).step_by((p as usize / 300).max(1)) {
            let root = field.sqrt(field.mul(a, a)).expect("a square");
            assert!(root == a || root == field.neg(a));
            assert_eq!(field.sqrt(a).is_some(), field.is_square(a));
        }
    }
}

#[test]
fn products_and_values() {
    let mut random = Random::new(1);
    let field = Field::new(268435399);
    let mut poly = |count: usize| {
        let coefficients = (0..count).map(|_| random.below(field.p())).collect();
        Poly::new(field, coefficients)
    };
    for count in [0, 1, 2, 40, 383] {
        let (a, b) = (poly(count), poly(30));
        for x in [0, 1, 5, field.p() - 1] {
            let product = field.mul(a.value(x), b.value(x));
            assert_eq!(a.mul(&b).value(x), product);
            assert_eq!(a.add(&b).sub(&b), a);
        }
        let derived = a.derivative().mul(&b).add(&a.mul(&b.derivative()));
        assert_eq!(a.mul(&b).derivative(), derived);
    }
}

#[test]
fn substitution_clears_denominators() {
    let field = Field::new(1009);
    let poly = Poly::of(field, &[3, 0, 5, 7]);
    let (num, den) = (Poly::of(field, &[1, 2, 3]), Poly::of(field, &[4, 5]));
    let cleared = poly.substitute(&num, &den, 4);
    for x in 0..1009 {
        if den.value(x) != 0 {
            let at = field.div(num.value(x), den.value(x));
            let expected = field.mul(field.pow(den.value(x), 4), poly.value(at));
            assert_eq!(cleared.value(x), expected);
        }
    }
}

#[test]
fn power_sums_of_known_roots() {
    let field = Field::new(1009);
    let roots = [5, 7, 100, 1008];
    let g = Poly::with_roots(field, &roots);
    let sums = rules::power_sums(&g, 4, 8);
    for (k, &sum) in sums.iter().enumerate() {
        let terms = roots.iter().map(|&r| 2 * field.pow(r, k as u64));
        assert_eq!(sum, terms.sum::<u64>() % 1009);
    }
    assert_eq!(rules::from_power_sums(field, 4, &sums), g);
}
