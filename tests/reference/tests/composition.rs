//! Request E1 held against document 02's case, against other ways to the same kernel
//! polynomial, against pushing twice, against what theory says of the composed map, and
//! against exhaustive search.

use std::collections::{HashMap, HashSet};

use reference::brute::{all_isogenies, all_monic, all_pairs, is_curve};
use reference::call::{Call, Reply};
use reference::composition::{composed, is_permitted, joined, kernel, meets, x_map};
use reference::curve::Curve;
use reference::field::Field;
use reference::fraction::Fraction;
use reference::generate::{self, dual, factors, random_monic};
use reference::marked;
use reference::poly::Poly;
use reference::random::Random;
use reference::rational::{self, roots};
use reference::rules;
use reference::services::{self, Checked, Point, Pushed, Written};
use reference::sheet::{self, Certificate};
use reference::spoil;

const LARGEST: u64 = 268435399;

/// The composed certificate, which passes and is what the words give.
fn passing(first: &Certificate, second: &Certificate) -> Certificate {
    let both = composed(first, second).expect("two maps that meet");
    assert_eq!(services::check(&both.words()), Checked::Passes);
    let call = Call::compose(&first.words(), &second.words());
    assert_eq!(call.reply(), Reply::written(both.words()));
    let question = &both.question;
    assert_eq!(both.words().len(), 3 * question.d() + 12);
    assert_eq!(question.l, first.question.l * second.question.l);
    both
}

/// The certificate by other ways: N/g^2 as one function at the other, in lowest terms;
/// Horner's rule in numerator and denominator; and the values at d + 1 places.
fn by_other_ways(first: &Certificate, second: &Certificate) {
    let both = passing(first, second);
    let (g, n) = both.polynomials();
    let through = x_map(first).then(&x_map(second));
    assert_eq!(
        (through.numerator(), through.denominator()),
        (&n, &g.square())
    );
    assert_eq!(generate::compose(first, second), both);
    assert_eq!(interpolated(first, second), g);
}

/// The g that has, at d + 1 places where the first g is not 0, the value that it must have
/// there.
fn interpolated(first: &Certificate, second: &Certificate) -> Poly {
    let (g1, n1) = first.polynomials();
    let (g2, _) = second.polynomials();
    let k = g1.field();
    let d2 = second.question.d();
    let count = (first.question.l * second.question.l) as usize / 2 + 1;
    let places: Vec<u64> = (0..k.p())
        .filter(|&u| g1.value(u) != 0)
        .take(count)
        .collect();
    assert_eq!(places.len(), count, "p is large enough");
    let values: Vec<u64> = places
        .iter()
        .map(|&u| value(&g1, &n1, &g2, d2, u))
        .collect();
    Poly::through(k, &places, &values)
}

fn value(g1: &Poly, n1: &Poly, g2: &Poly, d2: usize, u: u64) -> u64 {
    let k = g1.field();
    let at = g1.value(u);
    let image = k.div(n1.value(u), k.pow(at, 2));
    k.mul(k.mul(at, g2.value(image)), k.pow(at, 2 * d2 as u64))
}

/// Every point of the domain and infinity, through the composed map and through both.
fn pushed(first: &Certificate, second: &Certificate) -> [usize; 2] {
    let both = passing(first, second);
    let image = |certificate: &Certificate, point| match services::push(
        &certificate.words(),
        Some(point),
    ) {
        Pushed::Image(image) => image,
        Pushed::Refused(number) => panic!("{number}"),
    };
    let q = &first.question;
    let mut points = Curve::new(q.p, q.a, q.b).all_points();
    points.push(Point::Infinity);
    let mut met = [0, 0];
    for point in points {
        let middle = image(first, point);
        let end = image(second, middle);
        assert_eq!(image(&both, point), end, "{point:?}");
        met[0] += usize::from(middle == Point::Infinity);
        met[1] += usize::from(end == Point::Infinity && middle != Point::Infinity);
    }
    // The roots in the field are the first one's, and those that go to the second one's.
    let (g, _) = both.polynomials();
    let ((g1, _), (g2, _)) = (first.polynomials(), second.polynomials());
    let through = x_map(first);
    let is_root =
        |u: &u64| g1.value(*u) == 0 || through.value(*u).is_some_and(|w| g2.value(w) == 0);
    let known: Vec<u64> = (0..q.p).filter(is_root).collect();
    assert_eq!(roots(&g), known);
    assert_eq!(both.rational, known.len() as u64);
    met
}

#[test]
fn document_02() {
    let (first, second) = (marked::first(), marked::second());
    assert_eq!(services::check(&second.words()), Checked::Passes);
    assert_eq!(passing(&first, &second), marked::not_cyclic());
    let words = marked::not_cyclic().words();
    let written = Written::Words(words.clone());
    assert_eq!(
        services::compose(&first.words(), &second.words(), 393),
        written
    );
    // Written out: g = x^4 + 2x^2 + 12x + 336.
    let wanted = [
        0x100003f1, 0x20000001, 0x30000003, 0x40000051, 0x500000a9, 0x60000009,
    ];
    assert_eq!(words[..6], wanted);
    let wanted = [
        0x70000000, 0x80000150, 0x8000000c, 0x80000002, 0x80000000, 0x80000001,
    ];
    assert_eq!(words[6..12], wanted);
    assert_eq!(words[22..], [0xa0000001, 0xf0000000]);
    by_other_ways(&first, &second);
    pushed(&first, &second);
}

/// Laws of rational functions, and what they are at every u.
#[test]
fn fractions() {
    let mut random = Random::new(91);
    for p in [11, 13, 101] {
        let k = Field::new(p);
        for _ in 0..300 {
            let [a, b, c] = [(); 3].map(|()| {
                let degree = random.index(4);
                let top = random_monic(&mut random, k, degree).scale(random.below(p));
                let degree = random.index(4);
                Fraction::new(&top, &random_monic(&mut random, k, degree))
            });
            for one in [&a, &b, &c, &a.add(&b), &a.mul(&b)] {
                let (top, bottom) = (one.numerator(), one.denominator());
                assert_eq!(bottom.coefficients().last(), Some(&1));
                assert_eq!(top.gcd(bottom).degree(), Some(0));
            }
            assert_eq!(a.add(&b), b.add(&a));
            assert_eq!(a.mul(&b), b.mul(&a));
            assert_eq!(a.mul(&b.add(&c)), a.mul(&b).add(&a.mul(&c)));
            let at_a = a.put_into(b.denominator()).numerator().is_zero();
            let through = (!at_a).then(|| a.then(&b));
            for u in 0..p {
                let (Some(x), Some(y)) = (a.value(u), b.value(u)) else {
                    continue;
                };
                assert_eq!(a.add(&b).value(u), Some(k.add(x, y)));
                assert_eq!(a.mul(&b).value(u), Some(k.mul(x, y)));
                let poly = b.numerator();
                assert_eq!(a.put_into(poly).value(u), Some(poly.value(x)));
                if let (Some(through), Some(z)) = (&through, b.value(x)) {
                    assert_eq!(through.value(u), Some(z));
                }
            }
        }
    }
}

/// A cyclic kernel in two steps, in every way that there is: the certificate is that of
/// the whole kernel, whose polynomial has known roots.
#[test]
fn cyclic_kernels() {
    let mut random = Random::new(92);
    let mut pairs = HashSet::new();
    for (p, most, curves) in [(521, 255, 4000), (16381, 255, 20000), (LARGEST, 63, 3000)] {
        let composite = |l: &u64| !factors(*l).is_empty();
        let wanted: Vec<u64> = (9..=most).step_by(2).filter(composite).collect();
        for cyclic in generate::cyclic(&mut random, p, &wanted, curves) {
            let whole = cyclic.certificate();
            for (m, n) in factors(cyclic.l()) {
                let [first, second] = cyclic.split(m);
                assert_eq!((first.question.l, second.question.l), (m, n));
                assert_eq!(passing(&first, &second), whole);
                if cyclic.l() < 100 {
                    by_other_ways(&first, &second);
                }
                pairs.insert((m, n));
            }
        }
    }
    // All with a product of at most 255.
    assert_eq!(pairs.len(), 201);
}

/// A step and its dual make multiplication by l, in both orders; the dual of a composed
/// map is made of the duals.
#[test]
fn duals_and_multiplications() {
    let mut random = Random::new(93);
    for p in [1009, 65521, LARGEST] {
        for step in generate::from_points(&mut random, p, &[3, 5, 7, 9, 11, 13, 15], 3000) {
            let q = &step.question;
            let back = dual(&step);
            let domain = Curve::new(p, q.a, q.b);
            assert_eq!(
                passing(&step, &back),
                generate::multiplication(&domain, q.l)
            );
            let moved = generate::rescale(&step, q.l);
            let codomain = Curve::new(p, q.a_t, q.b_t);
            assert_eq!(
                passing(&back, &moved),
                generate::multiplication(&codomain, q.l)
            );
        }
        for cyclic in generate::cyclic(&mut random, p, &[15, 21, 25, 27, 63], 3000) {
            for (m, _) in factors(cyclic.l()) {
                let [first, second] = cyclic.split(m);
                let [back, before] = [dual(&second), dual(&first)];
                // That of the first, on the curve where that of the second ends.
                let before = generate::rescale(&before, second.question.l);
                assert_eq!(passing(&back, &before), dual(&cyclic.certificate()));
            }
        }
    }
}

/// Steps of any kind one after the other: their kernel need not be cyclic.
#[test]
fn steps_one_after_the_other() {
    let mut random = Random::new(94);
    let mut met = [0, 0];
    for (p, degrees) in [
        (19, [3, 3]),
        (23, [3, 3]),
        (31, [3, 5]),
        (31, [5, 3]),
        (101, [5, 5]),
        (101, [3, 7]),
        (521, [15, 9]),
    ] {
        for _ in 0..8 {
            let found = generate::pair(&mut random, p, degrees, 2000);
            let [first, second] = found.expect("some curve allows these steps");
            by_other_ways(&first, &second);
            let [one, two] = pushed(&first, &second);
            (met[0], met[1]) = (met[0] + one, met[1] + two);
        }
    }
    assert!(met.iter().all(|&count| count > 56), "{met:?}");
}

/// All certificates of a degree over a field, by search.
fn all(p: u64, l: u64) -> Vec<Certificate> {
    let curves = all_pairs(p).filter(|&(a, b)| is_curve(p, a, b));
    let found = curves.flat_map(|(a, b)| all_isogenies(p, a, b, l));
    let lawful = |c: &Certificate| is_curve(p, c.question.a_t, c.question.b_t);
    found.filter(lawful).collect()
}

/// Every pair of certificates of degree 3 over small fields.
#[test]
fn every_pair_over_small_fields() {
    for p in [11, 13, 17, 19, 23] {
        let list = all(p, 3);
        let [mut joined, mut apart] = [0, 0];
        for first in &list {
            // None goes from a curve to itself, so one sheet lent twice gets 13.
            assert!(!meets(&first.question, &first.question));
            for second in &list {
                let call = || Call::compose(&first.words(), &second.words());
                let (q1, q2) = (&first.question, &second.question);
                if (q1.a_t, q1.b_t) != (q2.a, q2.b) {
                    apart += 1;
                    assert_eq!(composed(first, second), Err(13));
                    if apart % 50 == 0 {
                        assert_eq!(call().reply(), Reply::refused(13));
                    }
                } else if p < 19 {
                    assert_eq!(call().reply(), Reply::refused(14));
                } else {
                    joined += 1;
                    by_other_ways(first, second);
                    let both = passing(first, second);
                    assert_eq!(services::solution(&both.question), Some(both.clone()));
                    pushed(first, second);
                }
            }
        }
        assert!(
            apart > 1000 && (joined > 100) == (p > 17),
            "{p}: {joined}, {apart}"
        );
    }
}

/// The list by division polynomials is that of the search.
#[test]
fn every_certificate_of_small_fields() {
    for (p, l) in [(11, 3), (11, 5), (13, 3), (13, 5), (19, 3)] {
        assert_eq!(generate::every(p, &[l]), all(p, l), "{p}, {l}");
    }
}

/// Every pair of degrees 3 and 5 that meets over 31; 25 is not permitted there.
#[test]
fn every_pair_over_31() {
    let list = generate::every(31, &[3, 5]);
    let mut from: HashMap<(u64, u64), Vec<&Certificate>> = HashMap::new();
    for c in &list {
        from.entry((c.question.a, c.question.b))
            .or_default()
            .push(c);
    }
    let mut met: HashMap<(u64, u64), usize> = HashMap::new();
    for first in &list {
        let q = &first.question;
        for second in from.get(&(q.a_t, q.b_t)).into_iter().flatten() {
            let l = (q.l, second.question.l);
            *met.entry(l).or_default() += 1;
            if l == (5, 5) {
                assert_eq!(composed(first, second), Err(14));
                continue;
            }
            by_other_ways(first, second);
            let both = passing(first, second);
            assert_eq!(services::solution(&both.question), Some(both));
            if met[&l].is_multiple_of(10) {
                pushed(first, second);
            }
        }
    }
    assert_eq!(met.len(), 4, "{met:?}");
    assert!(met.values().all(|&count| count > 800), "{met:?}");
}

/// Every g of degree 4 on some curves over 19: those that are kernel polynomials are the
/// composed ones, or that of multiplication by 3, which need not fall into two steps.
#[test]
fn search_finds_the_composed_ones() {
    let p = 19;
    let list = all(p, 3);
    let mut from: HashMap<(u64, u64), Vec<&Certificate>> = HashMap::new();
    for c in &list {
        from.entry((c.question.a, c.question.b))
            .or_default()
            .push(c);
    }
    let mut curves: Vec<(u64, u64)> = from.keys().copied().collect();
    curves.sort_unstable();
    let mut made = 0;
    for &(a, b) in curves.iter().step_by(1 + curves.len() / 8) {
        let domain = Curve::new(p, a, b);
        let mut known = HashSet::from([generate::multiplication(&domain, 3).words()]);
        for first in &from[&(a, b)] {
            let (a_t, b_t) = (first.question.a_t, first.question.b_t);
            for second in from.get(&(a_t, b_t)).into_iter().flatten() {
                known.insert(passing(first, second).words());
                made += 1;
            }
        }
        let mut found = HashSet::new();
        for g in all_monic(domain.field, 4) {
            // R3 at the first u rules most out.
            let candidate = candidate(&domain, &g);
            if (0..p).all(|u| rules::r3_at(&candidate, u)) {
                found.extend(services::from_kernel(p, a, b, 9, &g).map(|c| c.words()));
            }
        }
        assert_eq!(found, known, "{a}, {b}");
    }
    assert!(made > 8, "{made}");
}

/// R1 and R2 for any g, with the codomain that the power sums give.
fn candidate(curve: &Curve, g: &Poly) -> Certificate {
    let (k, d) = (curve.field, g.degree().expect("not 0"));
    let s = rules::power_sums(g, d, 4);
    let [h1, h2] = [1, 2].map(|i| rules::h_from_power_sums(k, curve.a, curve.b, &s, i));
    let a_t = k.sub(curve.a, k.mul(k.of(5), h1));
    let b_t = k.sub(curve.b, k.mul(k.of(7), h2));
    let (l, sigma) = (2 * d as u64 + 1, rules::sigma(g, d));
    let question = sheet::Question::of([k.p(), curve.a, curve.b, a_t, b_t, l, sigma]);
    Certificate {
        g: g.padded(d + 1),
        n: rules::r2(curve.a, curve.b, l, sigma, g).padded(2 * d + 2),
        rational: 0,
        question,
    }
}

/// Without 13 the power of the first g may still clear the denominator, but the result
/// does not pass; so 13 says something.
#[test]
fn maps_that_do_not_meet() {
    let mut random = Random::new(95);
    let list = generate::from_points(&mut random, 1009, &[3, 5, 7, 9], 2000);
    let mut refused = 0;
    for first in &list {
        for second in list.iter().filter(|c| !meets(&first.question, &c.question)) {
            assert!(kernel(first, second).is_some());
            let both = joined(first, second);
            let checked = services::check(&both.words());
            refused += usize::from(checked == Checked::Refused(10));
        }
    }
    assert_eq!(refused, 16);
}

/// Twists of both maps compose to the twist; with one map alone twisted they meet only if
/// neither coefficient of the middle curve changes.
#[test]
fn twists() {
    let mut random = Random::new(98);
    for p in [1009, 65521, LARGEST] {
        let k = Field::new(p);
        let roots = generate::cube_roots(k);
        assert_eq!(roots.len(), if p % 3 == 1 { 2 } else { 0 });
        assert!(roots.iter().all(|&t| t != 1 && k.pow(t, 3) == 1));
        for cyclic in generate::cyclic(&mut random, p, &[9, 15, 21, 25], 2000) {
            let [first, second] = cyclic.split(factors(cyclic.l())[0].0);
            let both = passing(&first, &second);
            let mut factors = vec![p - 1, 1 + random.below(p - 1)];
            factors.extend(&roots);
            for t in factors {
                let [one, two, whole] = [&first, &second, &both].map(|c| generate::twist(c, t));
                assert_eq!(passing(&one, &two), whole);
                let (q1, q2) = (&first.question, &two.question);
                let met = (q1.a_t, q1.b_t) == (q2.a, q2.b);
                assert_eq!(composed(&first, &two).err(), (!met).then_some(13));
            }
        }
    }
}

/// Question 14 at its limits.
#[test]
fn permitted_degrees() {
    for (first, second, p, wanted) in [
        (3, 3, 17, false),
        (3, 3, 19, true),
        (3, 85, 509, false),
        (3, 85, 521, true),
        (85, 3, 521, true),
        (15, 17, 521, true),
        (17, 15, 509, false),
        (3, 87, LARGEST, false),
        (17, 17, LARGEST, false),
        (255, 3, LARGEST, false),
        (255, 255, LARGEST, false),
        (5, 51, LARGEST, true),
    ] {
        assert_eq!(
            is_permitted(first, second, p),
            wanted,
            "{first}, {second}, {p}"
        );
        assert_eq!(wanted, sheet::ask_degree(first * second, p).is_ok());
    }
}

/// The room first, then the first certificate, then the second, then 13, then 14.
#[test]
fn first_no_decides() {
    let mut random = Random::new(96);
    let (first, second) = (marked::first(), marked::second());
    let cyclic = &generate::cyclic(&mut random, 509, &[255], 5000)[0];
    let [small, next] = cyclic.split(15);
    for (one, two, number) in [
        (&first, &second, 0),
        (&first, &first, 13),
        (&small, &next, 14),
        (&next, &small, 13),
    ] {
        let reply = |one: &[u32], two: &[u32], room| services::compose(one, two, room);
        let (a, b) = (one.words(), two.words());
        let good = reply(&a, &b, 393);
        assert_eq!(matches!(good, Written::Words(_)), number == 0);
        if number > 0 {
            assert_eq!(good, Written::Refused(number));
        }
        let (spoiled_a, spoiled_b) = (spoil::certificates(one), spoil::certificates(two));
        for (words, number) in &spoiled_b {
            assert_eq!(reply(&a, words, 393), Written::Refused(*number));
        }
        for (words, number) in &spoiled_a {
            assert_eq!(reply(words, &b, 393), Written::Refused(*number));
            assert_eq!(reply(words, &[], 392), Written::Refused(1));
            for (others, _) in spoiled_b.iter().step_by(5) {
                assert_eq!(reply(words, others, 1000), Written::Refused(*number));
            }
        }
    }
}

/// Counts of the composed map that are none, some and all, and not those of its parts.
#[test]
fn counts_of_their_own() {
    let mut random = Random::new(97);
    let [mut none, mut some, mut all, mut others] = [0, 0, 0, 0];
    for p in [523, 65537, LARGEST] {
        for cyclic in generate::cyclic(&mut random, p, &[9, 15, 25, 27, 35, 49, 63], 2000) {
            for (m, _) in factors(cyclic.l()) {
                let [first, second] = cyclic.split(m);
                let before = generate::rescale(&dual(&first), second.question.l);
                let mut pairs = vec![(dual(&second), before)];
                if is_permitted(m, m, p) {
                    pairs.push((first.clone(), dual(&first)));
                }
                pairs.push((first, second));
                for (one, two) in pairs {
                    let both = passing(&one, &two);
                    let (g, _) = both.polynomials();
                    assert_eq!(both.rational, rational::by_power(&g));
                    let [first, second] = [one.rational, two.rational];
                    let parts = [first, second, first + second];
                    others += usize::from(!parts.contains(&both.rational));
                    match both.question.d() as u64 - both.rational {
                        0 => all += 1,
                        _ if both.rational == 0 => none += 1,
                        _ => some += 1,
                    }
                }
            }
        }
    }
    let met = [none, some, all, others];
    assert!(met.iter().all(|&count| count > 5), "{met:?}");
}
