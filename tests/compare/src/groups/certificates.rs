//! Valid certificates of every degree: checked, solved, made from their
//! kernels and pushed through. That they are valid is known from how they were
//! made, so the expectation is the certificate itself.

use reference::call::{point_number, Call, Reply};
use reference::curve::Curve;
use reference::generate;
use reference::primes::{next_prime, previous_prime};
use reference::random::Random;
use reference::services::{self, Point};
use reference::sheet::{ask_degree, with_value, Certificate};

use crate::judge::Judge;

pub const LARGEST_PRIME: u64 = 268435399;

/// Primes over which certificates of all lawful degrees are made.
pub fn primes(quick: bool) -> Vec<u64> {
    if quick {
        vec![1009, LARGEST_PRIME]
    } else {
        vec![521, 1009, 16381, 65537, 16777213, 134217757, LARGEST_PRIME]
    }
}

pub fn degrees(p: u64) -> Vec<u64> {
    (3..=255).filter(|&l| ask_degree(l, p).is_ok()).collect()
}

/// Random curves to look at before a degree is given up.
const CURVES: usize = 30_000;

pub fn over(judge: &mut Judge, p: u64, quick: bool) {
    let mut random = Random::new(p);
    let mut wanted = degrees(p);
    if quick {
        wanted.retain(|l| l % 8 == 7 || *l < 20);
    }
    let found = generate::from_points(&mut random, p, &wanted, CURVES);
    judge.note(format!("{} of {} degrees", found.len(), wanted.len()));
    for certificate in &found {
        valid(judge, &mut random, certificate);
        dual(judge, &mut random, certificate);
    }
}

/// For every degree the first primes above 2l - 1, and those around 3l - 3,
/// where R3 may be decided in different ways.
pub fn least_primes(judge: &mut Judge, quick: bool) {
    let mut random = Random::new(30);
    let (mut found, mut tried) = (0, 0);
    for l in (3..=255).step_by(if quick { 18 } else { 2 }) {
        let mut primes = vec![
            next_prime(2 * l),
            previous_prime(3 * l - 3),
            next_prime(3 * l - 2),
        ];
        primes.retain(|&p| p >= 11 && 2 * l - 1 < p);
        primes.dedup();
        for p in primes {
            tried += 1;
            for certificate in generate::from_points(&mut random, p, &[l], 3000) {
                found += 1;
                valid(judge, &mut random, &certificate);
                dual(judge, &mut random, &certificate);
            }
        }
    }
    judge.note(format!("{found} of {tried} pairs of prime and degree"));
}

/// Steps one after the other, and multiplications by m.
pub fn composed(judge: &mut Judge, quick: bool) {
    let mut random = Random::new(31);
    let chains: [&[u64]; 12] = [
        &[3, 3],
        &[3, 5],
        &[5, 3],
        &[3, 7],
        &[3, 3, 3],
        &[7, 9],
        &[3, 5, 7],
        &[11, 13],
        &[15, 17],
        &[3, 5, 17],
        &[5, 7, 7],
        &[3, 3, 3, 3, 3],
    ];
    let mut made = Vec::new();
    for p in [1009, 65521, LARGEST_PRIME] {
        for degrees in chains.iter().take(if quick { 4 } else { 12 }) {
            made.extend(generate::chain(&mut random, p, degrees, 3000));
        }
    }
    let before = made.len();
    judge.note(format!("{before} chains"));
    for p in [521, 1009, LARGEST_PRIME] {
        let wanted: &[u64] = if quick {
            &[5]
        } else {
            &[3, 5, 7, 9, 13, 25, 27]
        };
        for step in generate::from_points(&mut random, p, wanted, CURVES) {
            made.extend(generate::with_multiplications(&step));
        }
    }
    judge.note(format!("{} with multiplications", made.len() - before));
    for certificate in &made {
        valid(judge, &mut random, certificate);
    }
}

/// Everything that is known of a valid certificate.
pub fn valid(judge: &mut Judge, random: &mut Random, certificate: &Certificate) {
    let words = certificate.words();
    judge.expect(&Call::check(&words), &Reply::number(0));
    let right = certificate.rational;
    let beside = [Some(right + 1), right.checked_sub(1)];
    for claim in beside.into_iter().flatten() {
        let claimed = with_value(&words, words.len() - 2, claim);
        judge.refuses(&Call::check(&claimed), 9);
    }
    let written = Reply::written(words.clone());
    judge.expect(&Call::solve(&certificate.question.words()), &written);
    let kernel = Call::kernel(&certificate.kernel_sheet().words());
    judge.expect(&kernel, &written);
    for point in points(random, certificate) {
        let reply = match services::image(certificate, point) {
            Ok(image) => Reply::number(point_number(image)),
            Err(number) => Reply::refused(number),
        };
        judge.expect(&Call::push(&words, point_number(point)), &reply);
    }
}

/// Points of the domain, of the kernel and beside the domain.
fn points(random: &mut Random, certificate: &Certificate) -> Vec<Point> {
    let q = &certificate.question;
    let domain = Curve::new(q.p, q.a, q.b);
    let mut points: Vec<Point> = (0..4).map(|_| domain.random_point(random)).collect();
    points.push(domain.negative(points[0]));
    if let Point::Affine(u, v) = points[1] {
        points.push(Point::Affine(u, (v + 1) % q.p));
        points.push(Point::Affine((u + 1) % q.p, v));
    }
    // A point whose order divides l lies in the kernel, if that is cyclic.
    let annihilator = domain.annihilator(points[0]);
    let divisor = (3..=q.l).find(|d| q.l.is_multiple_of(*d) && annihilator.is_multiple_of(*d));
    let cofactor = annihilator / divisor.unwrap_or(1);
    points.push(domain.multiple(points[0], cofactor));
    points.push(Point::Infinity);
    points
}

/// The dual's kernel is not known, but that it exists is.
fn dual(judge: &mut Judge, random: &mut Random, certificate: &Certificate) {
    let question = generate::dual_question(certificate);
    let dual = services::solution(&question).expect("every isogeny has a dual");
    valid(judge, random, &dual);
    let mut wrong = question;
    wrong.sigma = (wrong.sigma + 1) % wrong.p;
    judge.agrees(&Call::solve(&wrong.words()));
}
