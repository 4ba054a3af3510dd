//! Monic polynomials of every degree and shape, on which counts of roots are compared.

use reference::field::Field;
use reference::generate::random_monic;
use reference::poly::Poly;
use reference::random::Random;

pub const PRIMES: [u64; 5] = [11, 13, 1009, 65_537, 268_435_399];
/// The largest degree of a g: l is 255.
const MOST: usize = 127;

/// With a known seed: all shapes of every degree over every prime.
pub fn all() -> impl Iterator<Item = Poly> {
    let mut random = Random::new(6);
    let degrees = |p| (1..=MOST).map(move |d| (Field::new(p), d));
    let places = PRIMES.into_iter().flat_map(degrees);
    places.flat_map(move |(field, d)| shapes(&mut random, field, d))
}

/// Random ones; with all, with about a third of their roots in the field, and with three roots many times; with few coefficients, and x^d.
fn shapes(random: &mut Random, field: Field, d: usize) -> [Poly; 6] {
    let roots = |random: &mut Random, count: usize, bound: u64| {
        let list: Vec<u64> = (0..count).map(|_| random.below(bound)).collect();
        Poly::with_roots(field, &list)
    };
    let p = field.p();
    let rest = random_monic(random, field, d - d / 3);
    let mut few = random_monic(random, field, d).coefficients().to_vec();
    for k in (1..d).filter(|k| k % 5 != 2) {
        few[k] = 0;
    }
    [
        random_monic(random, field, d),
        roots(random, d, p),
        roots(random, d / 3, p).mul(&rest),
        roots(random, d, 3),
        Poly::new(field, few),
        roots(random, d, 1),
    ]
}
