//! Random damage of every sort, random words and random bytes, to every entry; many
//! question and kernel sheets have values of any size, which request E2 reduces.
//! Each shard draws its own cases from its own seed.

use std::collections::HashSet;
use std::ops::RangeInclusive;

use reference::call::{point_number, Call, INFINITY};
use reference::curve::Curve;
use reference::generate::{self, random_curve, random_monic};
use reference::primes::next_prime;
use reference::random::Random;
use reference::services::Point;
use reference::sheet::{self, bytes_of, kind, word, Certificate, VALUE_LIMIT};
use reference::unreduced::{reduced, sometimes_raised};

use crate::groups::certificates::LARGEST_PRIME;
use crate::groups::damage::damages;
use crate::judge::Judge;

pub fn run(judge: &mut Judge, shard: u64, cases: u64) {
    let mut random = Random::new(0x1000 + shard);
    let pool = pool(&mut random);
    let mut spoiled = Spoiled::new(&pool);
    for _ in 0..cases {
        let kind = random.below(20);
        let call = case(&mut random, &pool, kind);
        spoiled.record(&call, kind);
        judge.agrees(&call);
    }
    judge.note(format!("{} damaged or random sheets", spoiled.count));
}

/// Counts the sheets that are damaged or random, and not one of the pool after
/// all, also not after reduction.
struct Spoiled {
    sound: HashSet<Vec<u8>>,
    count: u64,
}

impl Spoiled {
    fn new(pool: &[Certificate]) -> Spoiled {
        let sheets = pool.iter().flat_map(|certificate| {
            let dual = generate::dual_question(certificate);
            [
                certificate.words(),
                certificate.question.words(),
                certificate.kernel_sheet().words(),
                dual.words(),
            ]
        });
        Spoiled {
            sound: sheets.map(|words| bytes_of(&words)).collect(),
            count: 0,
        }
    }

    fn record(&mut self, call: &Call, kind: u64) {
        let sound = match call {
            Call::Check { bytes } | Call::Push { bytes, .. } => self.sound.contains(bytes),
            Call::Solve { sheet, .. } | Call::Kernel { sheet, .. } => {
                self.sound.contains(&bytes_of(&reduced(sheet)))
            }
            Call::Name { .. } | Call::Compose { .. } => true,
        };
        self.count += u64::from(!sound && !LAWFUL.contains(&kind));
    }
}

/// Valid certificates; many of small degree, a few of the largest.
fn pool(random: &mut Random) -> Vec<Certificate> {
    let mut pool = Vec::new();
    for p in [11, 13, 17, 23, 101, 521, 1009, 65521, LARGEST_PRIME] {
        let wanted: Vec<u64> = [3, 5, 7, 9, 11, 15]
            .into_iter()
            .filter(|&l| sheet::ask_degree(l, p).is_ok())
            .collect();
        for _ in 0..4 {
            pool.extend(generate::from_points(random, p, &wanted, 300));
        }
    }
    pool.extend(generate::from_points(random, 1009, &[31, 45], 3000));
    pool.extend(generate::from_points(
        random,
        LARGEST_PRIME,
        &[101, 255],
        5000,
    ));
    pool
}

/// The kinds whose sheets are neither damaged nor random: names, lawful
/// questions and sheets that almost pass.
const LAWFUL: RangeInclusive<u64> = 2..=6;

fn case(random: &mut Random, pool: &[Certificate], kind: u64) -> Call {
    match kind {
        0 => random_bytes(random),
        1 => random_sheet(random),
        2 => random_name(random),
        3 => random_question(random),
        4..=6 => almost(random),
        7..=10 => damaged_question(random, pool),
        11..=13 => damaged_kernel(random, pool),
        14..=16 => damaged_push(random, pool),
        _ => damaged_check(random, pool),
    }
}

pub fn room(random: &mut Random) -> usize {
    if random.once_in(10) {
        *random.pick(&[0, 1, 14, 392, 394, 1000])
    } else {
        sheet::LARGEST_CERTIFICATE
    }
}

fn solve(random: &mut Random, sheet: Vec<u32>) -> Call {
    let room = room(random);
    Call::Solve { sheet, room }
}

fn kernel(random: &mut Random, sheet: Vec<u32>) -> Call {
    let room = room(random);
    Call::Kernel { sheet, room }
}

/// Up to three damages, or none.
pub fn damage(random: &mut Random, words: &mut Vec<u32>, p: u64) {
    for _ in 0..random.below(4) {
        damage_once(random, words, p);
    }
}

fn damage_once(random: &mut Random, words: &mut Vec<u32>, p: u64) {
    if words.is_empty() {
        return;
    }
    let i = random.index(words.len());
    match random.below(16) {
        0 => words[i] = random.word(),
        1 => words[i] ^= 1 << random.below(32),
        2 => drop_word(words, i),
        3 => words.insert(i, random.word()),
        4 => words.insert(i, words[i]),
        5 => words.swap(i, 0),
        6 => words.truncate(i),
        7 => words.extend(vec![random.word(); random.index(500)]),
        8 => words[0] = word(1, random.below(VALUE_LIMIT)),
        9 => words[0] = word(1, next_prime(random.below(1000) + 11)),
        // A field element, or a value of any size: the sheet keeps its form.
        10..=11 => words[i] = word(kind(words[i]), random.below(p)),
        12 => words[i] = word(kind(words[i]), random.below(VALUE_LIMIT)),
        _ => words[i] = *random.pick(&damages(words[i], p)),
    }
}

fn drop_word(words: &mut Vec<u32>, i: usize) {
    words.remove(i);
}

fn damaged_bytes(random: &mut Random, certificate: &Certificate) -> Vec<u8> {
    let mut words = certificate.words();
    damage(random, &mut words, certificate.question.p);
    let mut bytes = bytes_of(&words);
    if random.once_in(12) && !bytes.is_empty() {
        match random.below(3) {
            0 => bytes.truncate(random.index(bytes.len())),
            1 => bytes.extend(vec![random.draw() as u8; 1 + random.index(9)]),
            _ => {
                bytes.remove(random.index(bytes.len()));
            }
        }
    }
    bytes
}

fn damaged_check(random: &mut Random, pool: &[Certificate]) -> Call {
    let certificate = random.pick(pool);
    let bytes = damaged_bytes(random, certificate);
    Call::Check { bytes }
}

fn damaged_push(random: &mut Random, pool: &[Certificate]) -> Call {
    let certificate = random.pick(pool);
    let bytes = if random.once_in(2) {
        certificate.bytes()
    } else {
        damaged_bytes(random, certificate)
    };
    let point = point(random, certificate);
    Call::Push { bytes, point }
}

fn point(random: &mut Random, certificate: &Certificate) -> u64 {
    let q = &certificate.question;
    let on_domain = Curve::new(q.p, q.a, q.b).random_point(random);
    match random.below(8) {
        0 => random.draw(),
        1 => random.draw() % (2 * INFINITY),
        2 => *random.pick(&[INFINITY, INFINITY + 1, 2 * INFINITY, u64::MAX, 0]),
        3 => point_number(on_domain) ^ 1 << random.below(64),
        4 => point_number(Point::Affine(random.below(q.p), random.below(q.p))),
        _ => point_number(on_domain),
    }
}

fn damaged_question(random: &mut Random, pool: &[Certificate]) -> Call {
    let certificate = random.pick(pool);
    let question = if random.once_in(3) {
        generate::dual_question(certificate)
    } else {
        certificate.question.clone()
    };
    let mut words = sometimes_raised(random, &question.words());
    damage(random, &mut words, question.p);
    solve(random, words)
}

fn damaged_kernel(random: &mut Random, pool: &[Certificate]) -> Call {
    let certificate = random.pick(pool);
    let mut words = sometimes_raised(random, &certificate.kernel_sheet().words());
    damage(random, &mut words, certificate.question.p);
    kernel(random, words)
}

fn small_field(random: &mut Random) -> (u64, u64) {
    let p = match random.below(3) {
        0 => next_prime(11 + random.below(30)),
        1 => next_prime(11 + random.below(2000)),
        _ => next_prime(11 + random.below(LARGEST_PRIME - 1000)),
    };
    let largest = p.div_ceil(2).min(24);
    let l = 3 + 2 * random.below((largest - 2).div_ceil(2));
    let lawful = sheet::ask_degree(l, p).is_ok();
    (p, if lawful { l } else { 3 })
}

/// A lawful question; most have no answer.
fn random_question(random: &mut Random) -> Call {
    let (p, l) = small_field(random);
    let question = generate::random_question(random, p, l);
    let words = sometimes_raised(random, &question.words());
    solve(random, words)
}

/// A sheet that meets R1, R2 and the two highest coefficients of R3.
fn almost(random: &mut Random) -> Call {
    let (p, l) = small_field(random);
    let curve = random_curve(random, p);
    let g = random_monic(random, curve.field, sheet::half(l));
    let candidate = generate::candidate(&curve, l, &g);
    match random.below(4) {
        0 => solve(random, candidate.question.words()),
        1 => kernel(random, candidate.kernel_sheet().words()),
        2 => Call::push(&candidate.words(), INFINITY),
        _ => Call::check(&candidate.words()),
    }
}

fn random_bytes(random: &mut Random) -> Call {
    let count = if random.once_in(20) {
        random.index(40_000)
    } else {
        random.index(200)
    };
    let bytes = (0..count).map(|_| random.draw() as u8).collect();
    if random.once_in(2) {
        Call::Check { bytes }
    } else {
        let point = random.draw();
        Call::Push { bytes, point }
    }
}

/// Random words, often with the kinds of a sheet in place.
fn random_sheet(random: &mut Random) -> Call {
    let count = random.index(60);
    let lawful = random.once_in(2);
    let words: Vec<u32> = (0..count)
        .map(|i| match (lawful, i) {
            (true, 0) => word(1, next_prime(11 + random.below(5000))),
            (true, 1..=6) => word(i as u32 + 1, random.below(20)),
            _ => random.word(),
        })
        .collect();
    match random.below(3) {
        0 => Call::check(&words),
        1 => solve(random, words),
        _ => kernel(random, words),
    }
}

fn random_name(random: &mut Random) -> Call {
    let (p, _) = small_field(random);
    let p = if random.once_in(5) {
        random.word()
    } else {
        p as u32
    };
    let mut value = || {
        if random.once_in(10) {
            random.word()
        } else {
            random.below(u64::from(p.max(1))) as u32
        }
    };
    let (a, b) = (value(), value());
    Call::Name { p, a, b }
}
