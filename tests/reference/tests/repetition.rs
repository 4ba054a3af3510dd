//! Request E12: g is square-free and prime to f and to N on every certificate that
//! passes, by exhaustive search over small fields; and where question 4 does not let
//! the degree pass, it need not be.

use std::collections::HashSet;

use reference::brute::{all_isogenies, all_monic, all_pairs, is_curve, TINY};
use reference::call::Call;
use reference::curve::Curve;
use reference::field::Field;
use reference::generate::{self, random_curve, random_monic};
use reference::marked;
use reference::poly::Poly;
use reference::primes::sieve;
use reference::random::Random;
use reference::rational::roots;
use reference::repetition::{self, common_factors, is_free, power_of_root};
use reference::rules::{self, R3};
use reference::services::{self, Checked};
use reference::sheet::{self, Certificate};

const LARGEST: u64 = 268435399;

fn curves(p: u64) -> impl Iterator<Item = Curve> {
    let pairs = all_pairs(p).filter(move |&(a, b)| is_curve(p, a, b));
    pairs.map(move |(a, b)| Curve::new(p, a, b))
}

/// Every certificate over a field with a degree that passes.
fn passing(p: u64, l: u64) -> Vec<Certificate> {
    let found = curves(p).flat_map(|curve| all_isogenies(p, curve.a, curve.b, l));
    found
        .filter(|c| services::check(&c.words()) == Checked::Passes)
        .collect()
}

/// f, g and N.
fn polynomials(certificate: &Certificate) -> [Poly; 3] {
    let q = &certificate.question;
    let (g, n) = certificate.polynomials();
    [rules::cubic(q.field(), q.a, q.b), g, n]
}

/// Whether a monic polynomial h of degree 1 or more divides another, without a
/// division: the other is added up with x^i modulo h for x^i, each from the one before
/// by the companion matrix of h.
fn vanishes(h: &Poly, other: &Poly) -> bool {
    let k = h.field();
    let size = h.degree().expect("monic");
    let mut power: Vec<u64> = (0..size).map(|j| u64::from(j == 0)).collect();
    let mut sum = vec![0; size];
    for &c in other.coefficients() {
        for (term, &entry) in sum.iter_mut().zip(&power) {
            *term = k.add(*term, k.mul(c, entry));
        }
        // Times x, and x^size is replaced.
        let top = power[size - 1];
        power.rotate_right(1);
        power[0] = 0;
        for (j, entry) in power.iter_mut().enumerate() {
            *entry = k.sub(*entry, k.mul(top, h.at(j)));
        }
    }
    sum.iter().all(|&term| term == 0)
}

/// The monic polynomials of degree 1 or more that divide both; the first is not 0.
fn common_divisors(a: &Poly, b: &Poly) -> Vec<Poly> {
    let degree = a.degree().expect("not 0");
    let all = (1..=degree).flat_map(|n| all_monic(a.field(), n));
    all.filter(|h| vanishes(h, a) && vanishes(h, b)).collect()
}

/// Every question and every g that meets the rules under question 4.
#[test]
fn no_common_divisor_on_any_certificate_over_small_fields() {
    for (p, l) in TINY {
        let certificates = passing(p, l);
        assert!(certificates.len() >= 50, "{p}, {l}: {}", certificates.len());
        for certificate in certificates {
            let [f, g, n] = polynomials(&certificate);
            for other in [&g.derivative(), &f, &n] {
                assert_eq!(common_divisors(&g, other), [], "{certificate:?}");
            }
            assert!(is_free(&certificate), "{certificate:?}");
        }
    }
}

/// For any g, so that the watch on certificates can fail: the three divisors are the
/// greatest of those that are listed.
#[test]
fn common_divisors_of_any_g() {
    let mut met = [0; 3];
    for (p, l) in [(11, 3), (11, 5), (13, 5)] {
        for curve in curves(p).step_by(5) {
            for g in all_monic(curve.field, sheet::half(l)).step_by(3) {
                let certificate = generate::candidate(&curve, l, &g);
                let [f, g, n] = polynomials(&certificate);
                let found = common_factors(&certificate);
                for (i, other) in [g.derivative(), f, n].iter().enumerate() {
                    let greatest = common_divisors(&g, other).pop();
                    let gcd = greatest.unwrap_or(Poly::of(curve.field, &[1]));
                    assert_eq!(found[i].1, gcd, "{certificate:?}");
                    met[i] += usize::from(gcd.degree() > Some(0));
                }
                let all_one = found.iter().all(|(_, gcd)| gcd.coefficients() == [1]);
                assert_eq!(is_free(&certificate), all_one);
            }
        }
    }
    assert!(met.iter().all(|&count| count > 100), "{met:?}");
}

/// u and v with ug + vg' = 1, and so with f and with N.
#[test]
fn bezout_on_certificates_of_every_degree() {
    let mut random = Random::new(19);
    let mut certificates = vec![marked::first(), marked::not_cyclic(), marked::smallest()];
    let wanted: Vec<u64> = (3..=255).step_by(2).collect();
    let found = generate::from_points(&mut random, LARGEST, &wanted, 20_000);
    assert_eq!(found.len(), wanted.len());
    certificates.extend(generate::with_multiplications(&found[0]));
    certificates.extend(found);
    for p in [11, 13, 17, 23, 101, 521] {
        let lawful = |l: &u64| sheet::ask_degree(*l, p).is_ok();
        let wanted: Vec<u64> = wanted.iter().copied().filter(lawful).collect();
        certificates.extend(generate::from_points(&mut random, p, &wanted, 2000));
    }
    for certificate in &certificates {
        let [f, g, n] = polynomials(certificate);
        for other in [g.derivative(), f, n] {
            let [u, v, _] = g.bezout(&other);
            assert_eq!(u.mul(&g).add(&v.mul(&other)).coefficients(), [1]);
        }
    }
}

/// All ways to write N/g^2 = M/D with D up to a degree: M g^2 = N D. As g and N are
/// monic, M and D have one leading coefficient, which is taken to be 1, and the degree
/// of M is one more.
fn fractions(certificate: &Certificate, most: usize) -> Vec<(Poly, Poly)> {
    let [_, g, n] = polynomials(certificate);
    let (field, square) = (g.field(), g.square());
    let mut found = Vec::new();
    for degree in 0..=most {
        let right: Vec<(Poly, Poly)> = all_monic(field, degree).map(|d| (n.mul(&d), d)).collect();
        let wanted: HashSet<&[u64]> = right.iter().map(|(nd, _)| nd.coefficients()).collect();
        for m in all_monic(field, degree + 1) {
            let left = m.mul(&square);
            if wanted.contains(left.coefficients()) {
                let equal = right.iter().filter(|(nd, _)| *nd == left);
                found.extend(equal.map(|(_, d)| (m.clone(), d.clone())));
            }
        }
    }
    found
}

/// The degree on the sheet is that of the map: there is no shorter fraction, and with
/// a denominator of degree l - 1 there is the one of the certificate alone.
#[test]
fn lowest_terms_by_trying_every_fraction() {
    let mut tried = 0;
    for (p, l, stride) in [(11, 3, 1), (13, 3, 2), (11, 5, 25)] {
        for certificate in passing(p, l).iter().step_by(stride) {
            let [_, g, n] = polynomials(certificate);
            let only = (n, g.square());
            assert_eq!(fractions(certificate, l as usize - 1), [only]);
            tried += 1;
        }
    }
    assert!(tried > 100, "{tried}");
    // Written with a factor too many, the map has its shorter fraction as well.
    let factor = Poly::of(Field::new(11), &[3, 1]);
    let longer = repetition::inflated(&marked::smallest(), &factor);
    let [_, g, n] = polynomials(&marked::smallest());
    assert_eq!(fractions(&longer, 2), [(n, g.square())]);
}

/// The sheets that the comparison puts with a factor too many have one. Those of a map
/// of lower degree meet R1 and R3, so that nothing but R2 refuses them.
#[test]
fn sheets_with_a_factor_too_many() {
    let mut random = Random::new(20);
    let has = |certificate: &Certificate, place: usize| {
        common_factors(certificate)[place].1.degree() > Some(0)
    };
    for p in [11, 13, 101, 1009, LARGEST] {
        let field = Field::new(p);
        let root = random.below(p);
        let curve = repetition::curve_with_root(&mut random, field, root);
        for d in [1, 2, 3, 7, 24].into_iter().filter(|d| 4 * d + 1 < p) {
            let (l, d) = (2 * d + 1, d as usize);
            for g in repetition::with_repeated_factor(&mut random, field, d) {
                assert!(has(&generate::candidate(&curve, l, &g), 0), "{g:?}");
            }
            for g in repetition::with_factor_of_f(&mut random, &curve, root, d) {
                assert!(has(&generate::candidate(&curve, l, &g), 1), "{g:?}");
            }
            for map in [repetition::identity(&curve), marked::smallest()] {
                let k = map.question.field();
                let longer = repetition::inflated(&map, &random_monic(&mut random, k, d));
                let q = &longer.question;
                let (g, _) = longer.polynomials();
                assert!(rules::r1(&g, q.d(), q.sigma) && has(&longer, 2));
                assert!(R3::of(&longer).holds(q.a_t, q.b_t));
                if sheet::ask_degree(q.l, q.p).is_ok() {
                    assert_eq!(services::check(&longer.words()), Checked::Refused(9));
                }
            }
        }
    }
}

/// By R2 N is 4fg'^2 modulo g, so a factor of g and N is repeated in g or divides f:
/// those g need not be looked for apart.
#[test]
fn numerator_modulo_g() {
    let mut random = Random::new(21);
    for p in [11, 13, 1009, LARGEST] {
        for d in [1, 2, 3, 4, 10, 64, 127] {
            let (curve, field) = (random_curve(&mut random, p), Field::new(p));
            let g = random_monic(&mut random, field, d);
            let l = 2 * d as u64 + 1;
            let n = rules::r2(curve.a, curve.b, l, rules::sigma(&g, d), &g);
            let f = rules::cubic(field, curve.a, curve.b);
            let rest = n.sub(&f.mul(&g.derivative().square()).scale(4));
            assert!(g.divides(&rest), "{p}, {g:?}");
        }
    }
}

/// The curves over p but for isomorphism: of (c^4 A, c^6 B) for all c one.
fn classes(p: u64) -> Vec<Curve> {
    let field = Field::new(p);
    let least = |curve: &Curve| {
        (1..p).all(|c| {
            let a = field.mul(field.pow(c, 4), curve.a);
            let b = field.mul(field.pow(c, 6), curve.b);
            (curve.a, curve.b) <= (a, b)
        })
    };
    curves(p).filter(least).collect()
}

/// All monic polynomials of degree d that a square divides.
fn all_repeated(field: Field, d: usize) -> HashSet<Vec<u64>> {
    let mut found = HashSet::new();
    for h in (1..=d / 2).flat_map(|degree| all_monic(field, degree)) {
        let left = d - 2 * h.degree().expect("monic");
        let multiples = all_monic(field, left).map(|k| h.square().mul(&k));
        found.extend(multiples.map(|g| g.coefficients().to_vec()));
    }
    found
}

/// All monic polynomials of degree d that have a factor in common with f.
fn all_with_factor(curve: &Curve, d: usize) -> HashSet<Vec<u64>> {
    let f = rules::cubic(curve.field, curve.a, curve.b);
    let mut found = HashSet::new();
    for h in (1..=d.min(3)).flat_map(|degree| all_monic(curve.field, degree)) {
        if vanishes(&h, &f) {
            let left = d - h.degree().expect("monic");
            let multiples = all_monic(curve.field, left).map(|k| h.mul(&k));
            found.extend(multiples.map(|g| g.coefficients().to_vec()));
        }
    }
    found
}

/// A g with what R3 at each u needs of it: g, g' and g'' there, and the power sums s_0
/// to s_3.
struct Tabled {
    g: Poly,
    values: Vec<[u64; 3]>,
    s: Vec<u64>,
}

impl Tabled {
    fn new(field: Field, g: &[u64]) -> Tabled {
        let g = Poly::new(field, g.to_vec());
        let (g1, g2) = (g.derivative(), g.derivative().derivative());
        let at = |u: u64| [g.value(u), g1.value(u), g2.value(u)];
        Tabled {
            values: (0..field.p()).map(at).collect(),
            s: rules::power_sums(&g, g.degree().expect("monic"), 4),
            g,
        }
    }

    /// The certificate of this g, if it meets the rules, whatever question 4 says. At
    /// each u f times the left side of R3 is a square: that spares working R3 out for
    /// nearly all g.
    fn certificate(&self, curve: &Curve, l: u64) -> Option<Certificate> {
        let Curve { field: k, a, b } = *curve;
        let h = [1, 2].map(|i| rules::h_from_power_sums(k, a, b, &self.s, i));
        let a_t = k.sub(a, k.mul(5, h[0]));
        let b_t = k.sub(b, k.mul(7, h[1]));
        let fits = |(u, &[g, g1, g2]): (u64, &[u64; 3])| {
            let square = k.mul(u, u);
            let f = k.add(k.mul(u, k.add(square, a)), b);
            let slope = k.add(k.mul(3, square), a);
            let line = k.sub(k.mul(l % k.p(), u), self.s[1]);
            let bend = k.sub(k.mul(g, g2), k.mul(g1, g1));
            let (gg, gg1) = (k.mul(g, g), k.mul(g, g1));
            let second = k.mul(2, k.mul(slope, gg1));
            let third = k.mul(4, k.mul(f, bend));
            let n = k.sub(k.sub(k.mul(line, gg), second), third);
            let with_n = k.mul(n, k.add(k.mul(n, n), k.mul(a_t, k.mul(gg, gg))));
            let right = k.add(with_n, k.mul(b_t, k.pow(gg, 3)));
            k.is_square(k.mul(f, right)) && (f != 0 || right == 0)
        };
        let mut all = (0..).zip(&self.values);
        if all.all(fits) {
            services::from_kernel(k.p(), a, b, l, &self.g)
        } else {
            None
        }
    }
}

/// Every certificate with a repeated factor in g, whatever question 4 says.
fn with_repeated(p: u64, l: u64) -> Vec<Certificate> {
    let classes = classes(p);
    let mut found = Vec::new();
    for g in all_repeated(Field::new(p), sheet::half(l)) {
        let g = Tabled::new(Field::new(p), &g);
        found.extend(classes.iter().filter_map(|curve| g.certificate(curve, l)));
    }
    found
}

/// Every certificate with a factor of f in g, whatever question 4 says.
fn with_factor_of_f(p: u64, l: u64) -> Vec<Certificate> {
    let mut found = Vec::new();
    for curve in classes(p) {
        for g in all_with_factor(&curve, sheet::half(l)) {
            let g = Tabled::new(curve.field, &g);
            found.extend(g.certificate(&curve, l));
        }
    }
    found
}

/// Question 4 refuses these degrees, though up to l = p nothing is repeated.
#[test]
fn nothing_is_repeated_up_to_p() {
    for (p, l) in [(11, 7), (11, 9), (11, 11), (13, 7), (13, 9)] {
        assert_eq!(sheet::ask_degree(l, p).is_err(), 2 * l > p);
        assert_eq!(with_repeated(p, l), [], "{p}, {l}");
        assert_eq!(with_factor_of_f(p, l), [], "{p}, {l}");
    }
}

/// With l = p + 2 the powers of the roots of f meet the rules, and beside them no g
/// with a repeated factor.
#[test]
fn powers_of_roots_at_p_plus_2() {
    let found = with_repeated(11, 13);
    let mut expected = Vec::new();
    for curve in classes(11) {
        let f = rules::cubic(curve.field, curve.a, curve.b);
        expected.extend(roots(&f).iter().map(|&root| power_of_root(&curve, root)));
    }
    assert!(!expected.is_empty());
    assert_eq!(found.len(), expected.len());
    assert!(expected
        .iter()
        .all(|certificate| found.contains(certificate)));
}

/// Over every prime for which p + 2 is a degree at all. N/g^2 is x + f'(r)/(x - r),
/// of degree 2, wherever it has a value.
#[test]
fn beyond_question_4_over_every_small_prime() {
    let mut random = Random::new(22);
    let primes = sieve(254).into_iter().map(u64::from).filter(|&p| p >= 11);
    for p in primes {
        let k = Field::new(p);
        let root = random.below(p);
        let curve = repetition::curve_with_root(&mut random, k, root);
        let certificate = power_of_root(&curve, root);
        let [f, g, n] = polynomials(&certificate);
        let meets = services::from_kernel(p, curve.a, curve.b, p + 2, &g);
        assert_eq!(meets.as_ref(), Some(&certificate), "{p}");
        assert_eq!(services::check(&certificate.words()), Checked::Refused(4));
        for u in (0..p).filter(|&u| u != root) {
            let short = k.add(u, k.div(f.derivative().value(root), k.sub(u, root)));
            assert_eq!(k.div(n.value(u), k.pow(g.value(u), 2)), short, "{p}, {u}");
        }
        let power = |exponent: usize| Poly::with_roots(k, &vec![root; exponent]);
        let common = common_factors(&certificate).map(|(_, gcd)| gcd);
        assert_eq!(common, [power(sheet::half(p)), power(1), g]);
    }
}

/// An element s + ti of the field of 121 elements: -1 is no square modulo 11.
#[derive(Clone, Copy, PartialEq, Debug)]
struct Element(i64, i64);

impl Element {
    fn plus(self, other: Element) -> Element {
        Element((self.0 + other.0) % 11, (self.1 + other.1) % 11)
    }

    fn times(self, other: Element) -> Element {
        let (Element(s, t), Element(u, v)) = (self, other);
        Element((s * u + 10 * t * v) % 11, (s * v + t * u) % 11)
    }

    fn power(self, exponent: usize) -> Element {
        (0..exponent).fold(Element(1, 0), |product, _| product.times(self))
    }

    /// c z^exponent.
    fn term(self, c: i64, exponent: usize) -> Element {
        Element(c.rem_euclid(11), 0).times(self.power(exponent))
    }
}

/// Over 11 with l = 13: (1, 0) to (7, 0), sigma = 0, g = x^6 and N = x^13 + x^11, by
/// hand. Both sides of R2 and of R3 have degrees below 121, so that they are equal if
/// they are at all elements of the field of 121. N/g^2 is (x^2 + 1)/x.
#[test]
fn the_example_over_11_with_degree_13() {
    let certificate = power_of_root(&Curve::new(11, 1, 0), 0);
    let mut n = vec![0; 14];
    (n[11], n[13]) = (1, 1);
    assert_eq!(certificate.g, [0, 0, 0, 0, 0, 0, 1]);
    assert_eq!(certificate.n, n);
    let q = &certificate.question;
    let values = [q.p, q.a, q.b, q.a_t, q.b_t, q.l, q.sigma];
    assert_eq!(values, [11, 1, 0, 7, 0, 13, 0]);
    // R1: the coefficient of x^5 is 0, and so is sigma. R2 and R3:
    for (s, t) in all_pairs(11) {
        let z = Element(s as i64, t as i64);
        let minus = Element(10, 0);
        let f = z.power(3).plus(z);
        let (g, g1, g2) = (z.power(6), z.term(6, 5), z.term(30, 4));
        let (n, n1) = (
            z.power(13).plus(z.power(11)),
            z.term(13, 12).plus(z.term(11, 10)),
        );
        let first = z.term(13, 1).times(g).times(g);
        let second = z.term(3, 2).plus(Element(1, 0)).times(g).times(g1);
        let bend = g.times(g2).plus(minus.times(g1).times(g1));
        let twice = second.times(Element(9, 0));
        let four_times = f.times(bend).times(Element(7, 0));
        assert_eq!(first.plus(twice).plus(four_times), n, "R2 at {z:?}");
        let slope = n1.times(g).plus(n.times(g1).times(Element(9, 0)));
        let left = f.times(slope).times(slope);
        let right = n.power(3).plus(n.times(g.power(4)).times(Element(7, 0)));
        assert_eq!(left, right, "R3 at {z:?}");
        assert_eq!(n.times(z), g.times(g).times(z.power(2).plus(Element(1, 0))));
    }
    let [f, g, n] = polynomials(&certificate);
    let x = |exponent: usize| Poly::with_roots(g.field(), &vec![0; exponent]);
    for (other, common) in [(g.derivative(), 5), (f, 1), (n, 6)] {
        assert!([&g, &other].iter().all(|poly| vanishes(&x(common), poly)));
        assert!(common == 6 || !vanishes(&x(common + 1), &other));
        assert_eq!(g.gcd(&other), x(common));
    }
    let shortest = (Poly::of(g.field(), &[1, 0, 1]), x(1));
    assert_eq!(fractions(&certificate, 1), [shortest]);
    // Question 4 refuses it wherever it is put.
    let words = certificate.words();
    for call in [
        Call::check(&words),
        Call::push(&words, 0),
        Call::solve(&q.words()),
        Call::kernel(&certificate.kernel_sheet().words()),
    ] {
        assert_eq!(call.reply(), call.refusal(4), "{call:?}");
    }
}
