//! What is measured: certificates of isogenies that the independent implementation makes from points of odd order, and sheets beside them that are
//! refused after a known part of the work; sheets for the count of rational abscissas, of such certificates and of random g; and pairs of certificates to be
//! composed.

use reference::call::point_number;
use reference::composition;
use reference::curve::Curve;
use reference::field::Field;
use reference::generate;
use reference::random::Random;
use reference::services::Point;
use reference::sheet::{self, bytes_of, with_value, Certificate};

pub const PRIMES: [u64; 2] = [268_435_399, 1009];
pub const DEGREES: [u64; 8] = [3, 15, 31, 63, 101, 127, 201, 255];

#[derive(Clone)]
pub struct Input {
    pub certificate: Certificate,
    pub bytes: Vec<u8>,
    pub question: Vec<u32>,
    pub kernel: Vec<u32>,
    pub words: Vec<u32>,
    /// The number of a point of the domain that does not go to infinity.
    pub point: u64,
    /// p, A, B, A~, B~, l, sigma
    pub values: [u32; 7],
    pub g: Vec<u32>,
    pub n: Vec<u32>,
    pub rational: u32,
    /// The certificate with each thing wrong in turn, in the order of `Wrong`.
    pub refused: Vec<(Wrong, Vec<u8>)>,
}

/// What is wrong with a certificate, in the order in which it is asked for: what stands before it has been worked out when it is refused.
#[derive(Clone, Copy, PartialEq, Eq)]
pub enum Wrong {
    /// The first word's kind.
    Kind,
    /// An even p.
    Prime,
    /// An even degree.
    Degree,
    /// A singular codomain.
    Codomain,
    Sigma,
    /// The leading coefficient of N.
    Numerator,
    Count,
}

impl Wrong {
    /// The question that gets the "no".
    pub fn number(self) -> u32 {
        match self {
            Wrong::Kind => 2,
            Wrong::Prime => 3,
            Wrong::Degree => 4,
            Wrong::Codomain => 7,
            Wrong::Sigma => 8,
            Wrong::Numerator | Wrong::Count => 9,
        }
    }
}

impl Input {
    pub fn with(&self, wrong: Wrong) -> &[u8] {
        let found = self.refused.iter().find(|(what, _)| *what == wrong);
        &found.expect("a sheet for each").1
    }

    /// As it was before certificates had a count.
    pub fn without_count(&self) -> Input {
        let place = self.words.len() - 2;
        let mut words = self.words.clone();
        words.remove(place);
        let shorter = |bytes: &[u8]| [&bytes[..4 * place], &bytes[4 * place + 4..]].concat();
        let refused = self.refused.iter();
        let refused = refused.filter(|(wrong, _)| *wrong != Wrong::Count);
        Input {
            bytes: bytes_of(&words),
            words,
            refused: refused
                .map(|(wrong, bytes)| (*wrong, shorter(bytes)))
                .collect(),
            ..self.clone()
        }
    }
}

fn lawful(p: u64) -> Vec<u64> {
    let passes = |&l: &u64| sheet::ask_degree(l, p).is_ok();
    DEGREES.into_iter().filter(passes).collect()
}

/// A certificate for each degree that the prime allows, the smallest degree first.
pub fn all(p: u64) -> Vec<Input> {
    let mut random = Random::new(p);
    let wanted = lawful(p);
    let mut found = generate::from_points(&mut random, p, &wanted, 20_000);
    assert_eq!(found.len(), wanted.len(), "a degree is missing over {p}");
    found.sort_by_key(|certificate| certificate.question.l);
    found
        .into_iter()
        .map(|certificate| input(&mut random, certificate))
        .collect()
}

fn narrow(values: &[u64]) -> Vec<u32> {
    values.iter().map(|&v| v as u32).collect()
}

/// Another leading coefficient, which is compared last.
fn another_numerator(words: &[u32]) -> Vec<u8> {
    bytes_of(&with_value(words, words.len() - 3, 2))
}

fn another_count(words: &[u32]) -> Vec<u8> {
    let place = words.len() - 2;
    let other = sheet::value(words[place]) + 1;
    bytes_of(&with_value(words, place, other))
}

fn input(random: &mut Random, certificate: Certificate) -> Input {
    let q = certificate.question.clone();
    let (g, _) = certificate.polynomials();
    let domain = Curve::new(q.p, q.a, q.b);
    let point = loop {
        match domain.random_point(random) {
            Point::Affine(u, v) if g.value(u) != 0 => break point_number(Point::Affine(u, v)),
            _ => {}
        }
    };
    let words = certificate.words();
    let changed = |place: usize, value: u64| bytes_of(&with_value(&words, place, value));
    let mut kind = words.clone();
    kind[0] = sheet::word(sheet::A, 0);
    let codomain = with_value(&with_value(&words, 3, 0), 4, 0);
    let refused = vec![
        (Wrong::Kind, bytes_of(&kind)),
        (Wrong::Prime, changed(0, q.p - 1)),
        (Wrong::Degree, changed(5, q.l - 1)),
        (Wrong::Codomain, bytes_of(&codomain)),
        (Wrong::Sigma, changed(6, (q.sigma + 1) % q.p)),
        (Wrong::Numerator, another_numerator(&words)),
        (Wrong::Count, another_count(&words)),
    ];
    Input {
        bytes: bytes_of(&words),
        question: q.words(),
        kernel: certificate.kernel_sheet().words(),
        point,
        values: [q.p, q.a, q.b, q.a_t, q.b_t, q.l, q.sigma].map(|v| v as u32),
        g: narrow(&certificate.g),
        n: narrow(&certificate.n),
        rational: certificate.rational as u32,
        refused,
        words,
        certificate,
    }
}

/// A g and its count, with sheets that tell by difference what the count takes: each has R1, one is refused for its N, one after it for its count.
pub struct Counted {
    pub p: u32,
    pub l: u32,
    pub g: Vec<u32>,
    pub rational: u32,
    /// With the right N and the right count, so not refused with 9.
    pub bytes: Vec<u8>,
    pub another_numerator: Vec<u8>,
    pub another_count: Vec<u8>,
}

impl Counted {
    pub fn of(certificate: &Certificate) -> Counted {
        let words = certificate.words();
        Counted {
            p: certificate.question.p as u32,
            l: certificate.question.l as u32,
            g: narrow(&certificate.g),
            rational: certificate.rational as u32,
            bytes: bytes_of(&words),
            another_numerator: another_numerator(&words),
            another_count: another_count(&words),
        }
    }
}

/// For each degree that the prime allows a random g, which has one root in the field on average. It is no kernel, so R3 does not hold.
pub fn any_g(p: u64) -> Vec<Counted> {
    let mut random = Random::new(p);
    let mut found = Vec::new();
    for l in lawful(p) {
        let curve = generate::random_curve(&mut random, p);
        let g = generate::random_monic(&mut random, Field::new(p), sheet::half(l));
        found.push(Counted::of(&generate::candidate(&curve, l, &g)));
    }
    found
}

/// The degrees of two maps, one after the other.
pub const STEPS: [(u64, u64); 10] = [
    (3, 3),
    (3, 31),
    (31, 3),
    (15, 15),
    (3, 85),
    (85, 3),
    (5, 51),
    (51, 5),
    (15, 17),
    (17, 15),
];

/// Two certificates, the second from where the first ends, and that of the one map followed by the other.
pub struct Steps {
    pub first: Input,
    pub second: Input,
    pub composite: Input,
}

/// A pair for each two degrees. Those of one product are the steps of one isogeny, whose kernel is that of a point, so that all its roots are in the field.
/// Where no point has this order, as none has 225 over 1009, the kernel of each step is that of a point, and some roots of the composite's may not be in it.
pub fn steps(p: u64) -> Vec<Steps> {
    let mut random = Random::new(p);
    let mut wanted: Vec<u64> = STEPS.iter().map(|&(l, m)| l * m).collect();
    wanted.dedup();
    let whole = generate::cyclic(&mut random, p, &wanted, 20_000);
    let mut found = Vec::new();
    for (l, m) in STEPS {
        let [first, second] = match whole.iter().find(|cyclic| cyclic.l() == l * m) {
            Some(cyclic) => cyclic.split(l),
            None => generate::pair(&mut random, p, [l, m], 20_000).expect("two such steps"),
        };
        let composite = composition::joined(&first, &second);
        let [first, second, composite] =
            [first, second, composite].map(|certificate| input(&mut random, certificate));
        found.push(Steps {
            first,
            second,
            composite,
        });
    }
    found
}
