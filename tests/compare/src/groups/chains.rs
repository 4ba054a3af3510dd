//! Request E7: chains of certificates joined from the left, from the right and in every
//! other way. Each call is lent what the library itself wrote before. What cyclic kernels
//! make is known by their roots; what other chains make is worked out by the reference
//! without joining any two of their maps. Then chains that are refused, in every way, and
//! with which numbers; last, sheets of which nothing is known but that all ways agree.

use std::collections::{BTreeMap, HashMap};

use reference::brute::is_curve;
use reference::chains::{Chain, Way};
use reference::composition::is_permitted;
use reference::curve::Curve;
use reference::generate::{
    self, cube_roots, dual, rescale, splits, turns_back, twist, walk, walk_by_3,
};
use reference::marked;
use reference::primes::{is_prime, next_prime, previous_prime};
use reference::random::Random;
use reference::sheet::{ask_degree, Certificate, Refusal};
use reference::spoil;

use crate::groups::certificates::LARGEST_PRIME;
use crate::groups::composition::{codomain, domain, CURVES, SPOILED};
use crate::groups::hostile;
use crate::judge::Judge;

/// The degrees that three steps can make.
const PRODUCTS: [u64; 23] = [
    27, 45, 63, 75, 81, 99, 105, 117, 125, 135, 147, 153, 165, 171, 175, 189, 195, 207, 225, 231,
    243, 245, 255,
];

/// Those of which chains over every prime are put, in every order: 3 * 3 * 3, 3 * 5 * 7 and
/// 5 * 3 * 17.
const MAIN: [u64; 3] = [27, 105, 255];

/// Primes over which chains of three steps are put.
pub fn primes(quick: bool) -> Vec<u64> {
    if quick {
        return vec![1009, LARGEST_PRIME];
    }
    let near = previous_prime(LARGEST_PRIME - 1);
    vec![1009, 16381, 65537, 16777213, SPOILED, near, LARGEST_PRIME]
}

fn either_way(judge: &mut Judge, chain: &mut Chain) {
    judge.joins(chain, &Way::either(chain.sheets().len()));
}

fn every_way(judge: &mut Judge, chain: &mut Chain) {
    let ways = chain.ways();
    judge.joins(chain, &ways);
}

/// Cyclic kernels in three steps and steps of any kind, in every order of their degrees.
pub fn over(judge: &mut Judge, p: u64, quick: bool) {
    let mut random = Random::new(p ^ 0xe7);
    let [mut known, mut walks] = [0, 0];
    for round in 0..if quick { 1 } else { 3 } {
        let all = if quick || round > 0 {
            &MAIN[..]
        } else {
            &PRODUCTS
        };
        let found = generate::cyclic(&mut random, p, all, CURVES);
        // Over 1009 some have none, since no multiple of theirs is the order of a curve.
        let wanted = if p == 1009 { &MAIN[..] } else { all };
        for &l in wanted {
            let is_there = found.iter().any(|cyclic| cyclic.l() == l);
            assert!(is_there, "some curve over {p} has a point of order {l}");
        }
        for cyclic in &found {
            for degrees in splits(cyclic.l(), 3) {
                either_way(judge, &mut Chain::cyclic(cyclic, &degrees));
                known += 1;
            }
        }
        for degrees in MAIN.into_iter().flat_map(|l| splits(l, 3)) {
            if let Some(steps) = walk(&mut random, p, &degrees, 300) {
                either_way(judge, &mut Chain::passing(&steps));
                walks += 1;
            }
        }
    }
    judge.note(format!("{known} cyclic kernels, {walks} walks"));
}

/// For each product the two least primes that permit it, and 2l - 1 where that is a prime:
/// there any two steps are permitted, and all three are not.
pub fn least_primes(judge: &mut Judge, quick: bool) {
    let mut random = Random::new(0xe701);
    let [mut permitted, mut refused] = [0, 0];
    for l in PRODUCTS.into_iter().step_by(if quick { 8 } else { 1 }) {
        let first = next_prime(2 * l);
        for p in [first, next_prime(first + 1)] {
            for cyclic in generate::cyclic(&mut random, p, &[l], 1000) {
                for degrees in splits(l, 3) {
                    either_way(judge, &mut Chain::cyclic(&cyclic, &degrees));
                    permitted += 1;
                }
            }
        }
    }
    for l in PRODUCTS.into_iter().filter(|&l| is_prime(2 * l - 1)) {
        for cyclic in generate::cyclic(&mut random, 2 * l - 1, &[l], 1000) {
            for degrees in splits(l, 3) {
                let mut chain = Chain::cyclic(&cyclic, &degrees);
                numbers_are(&chain, [14, 14]);
                either_way(judge, &mut chain);
                refused += 1;
            }
        }
    }
    judge.note(format!("{permitted} permitted, {refused} over 2l - 1"));
}

/// Chains of four and five in all of their 5 and 14 ways: cyclic kernels, and walks of
/// which some turn back and some do not.
pub fn bracketings(judge: &mut Judge, quick: bool) {
    let mut random = Random::new(0xe702);
    let [mut known, mut onward, mut back] = [0, 0, 0];
    let degrees: [&[u64]; 9] = [
        &[3, 3, 3, 3, 3],
        &[3, 3, 3, 3],
        &[3, 3, 3, 5],
        &[3, 5, 3, 5],
        &[3, 3, 3, 9],
        &[9, 3, 3, 3],
        &[5, 3, 5, 3],
        &[3, 3, 7, 3],
        &[5, 3, 3, 3],
    ];
    let primes: &[u64] = if quick {
        &[1009, LARGEST_PRIME]
    } else {
        &[487, 521, 1009, 65537, 16777213, SPOILED, LARGEST_PRIME]
    };
    for &p in primes {
        for degrees in degrees.iter().take(if quick { 3 } else { 9 }) {
            let wanted = [degrees.iter().product()];
            for cyclic in generate::cyclic(&mut random, p, &wanted, CURVES) {
                every_way(judge, &mut Chain::cyclic(&cyclic, degrees));
                known += 1;
            }
        }
        for count in [4, 5] {
            for _ in 0..if quick { 2 } else { 6 } {
                let steps = walk_by_3(&mut random, p, count, 1000);
                every_way(judge, &mut Chain::passing(&steps));
                match steps.windows(2).any(|pair| turns_back(&pair[0], &pair[1])) {
                    true => back += 1,
                    false => onward += 1,
                }
            }
        }
        for degrees in [[3, 5, 3, 5], [5, 3, 3, 3]] {
            if let Some(steps) = walk(&mut random, p, &degrees, 300) {
                every_way(judge, &mut Chain::passing(&steps));
            }
        }
    }
    assert!(known > 4 && onward > 0 && back > 0, "each kind comes up");
    judge.note(format!(
        "{known} cyclic kernels, {back} walks by 3 that turn back, {onward} that do not"
    ));
}

/// A step, its dual and the step again; a multiplication between a step and its dual; the
/// duals of three steps.
pub fn duals(judge: &mut Judge, quick: bool) {
    let mut random = Random::new(0xe703);
    let primes: &[u64] = if quick {
        &[1009, LARGEST_PRIME]
    } else {
        &[521, 1009, 65537, 16777213, LARGEST_PRIME]
    };
    let mut chains = 0;
    let mut put = |maps: [Certificate; 3]| {
        let mut chain = Chain::passing(&maps);
        assert!(chain.is_lawful());
        either_way(judge, &mut chain);
        chains += 1;
    };
    for &p in primes {
        for step in generate::from_points(&mut random, p, &[3, 5], 5000) {
            let (l, back) = (step.question.l, dual(&step));
            let [before, after] =
                [domain(&step), codomain(&step)].map(|curve| generate::multiplication(&curve, 3));
            put([step.clone(), back.clone(), rescale(&step, l)]);
            put([step.clone(), after.clone(), rescale(&back, 3)]);
            put([before, rescale(&step, 3), rescale(&back, 3)]);
            let end = generate::multiplication(&codomain(&back), 3);
            put([step, back, end]);
        }
        for cyclic in generate::cyclic(&mut random, p, &[27, 45, 105, 125], 5000) {
            for degrees in splits(cyclic.l(), 3) {
                let [l, m, n] = degrees[..] else {
                    unreachable!("three steps")
                };
                let [first, second, third] =
                    [(1, l), (l, m), (l * m, n)].map(|(before, l)| dual(&cyclic.part(before, l)));
                // Each on the curve where the one before it ends.
                put([third, rescale(&second, n), rescale(&first, m * n)]);
            }
        }
    }
    // Request E1's two steps, then multiplication by 3: together multiplication by 9.
    let end = generate::multiplication(&codomain(&marked::second()), 3);
    put([marked::first(), marked::second(), end]);
    judge.note(format!("{chains} chains"));
}

/// The numbers of a chain of three, from the left and from the right; 0 for none.
fn numbers(chain: &Chain) -> [Refusal; 2] {
    Way::either(3).map(|way| chain.refusal(&way).unwrap_or(0))
}

/// What the chain is to get by the documents, before the library is asked.
fn numbers_are(chain: &Chain, wanted: [Refusal; 2]) {
    assert_eq!(numbers(chain), wanted, "from the left and from the right");
}

/// A step that ends at a curve, of one of these degrees.
fn step_to(random: &mut Random, curve: &Curve, wanted: &[u64]) -> Option<Certificate> {
    let found = wanted
        .iter()
        .find_map(|&l| generate::step(random, curve, l, 6));
    // The dual goes to the curve with l^4 A and l^6 B.
    found.map(|step| {
        let l = step.question.l % curve.field.p();
        rescale(&dual(&step), curve.field.inv(l))
    })
}

/// Chains of three that are made in both ways, or refused by 13 or 14 in the places told.
struct Samples {
    /// 3 * 5 * 9 or so over some primes.
    sound: Vec<[Certificate; 3]>,
    /// 17 * 17 * 3: the first two alone are too much.
    first_too_large: [Certificate; 3],
    /// 3 * 17 * 17: the last two alone are.
    last_too_large: [Certificate; 3],
    /// 5 * 7 * 9: any two are permitted.
    whole_too_large: [Certificate; 3],
}

impl Samples {
    fn new(random: &mut Random) -> Samples {
        let mut chain = |p: u64, degrees: [u64; 3]| -> [Certificate; 3] {
            let steps = walk(random, p, &degrees, CURVES).expect("some curve allows these steps");
            steps.try_into().expect("three steps")
        };
        let sound = [
            (59, [3, 3, 3]),
            (1009, [3, 5, 9]),
            (65521, [9, 3, 5]),
            (SPOILED, [3, 9, 5]),
        ];
        Samples {
            sound: sound.map(|(p, degrees)| chain(p, degrees)).to_vec(),
            first_too_large: chain(65537, [17, 17, 3]),
            last_too_large: chain(SPOILED, [3, 17, 17]),
            whole_too_large: chain(65537, [5, 7, 9]),
        }
    }
}

/// With the sheet in one place twisted by -1, B of its curves changes.
fn twisted(maps: &[Certificate; 3], place: usize) -> [Certificate; 3] {
    let mut maps = maps.clone();
    maps[place] = twist(&maps[place], maps[place].question.p - 1);
    maps
}

/// The first sheet that fails a question.
fn failing(certificate: &Certificate, number: Refusal) -> Vec<u32> {
    let spoiled = spoil::certificates(certificate);
    let found = spoiled.into_iter().find(|(_, other)| *other == number);
    found.expect("a spoiler for each question").0
}

/// Which number either way gets, as the order of questions has it: the sheets, 13 and 14 of
/// the first call before those of the second. Where more than one question fails the two
/// numbers may differ, and here do.
pub fn numbers_of_either_way(judge: &mut Judge) {
    let mut random = Random::new(0xe704);
    let samples = Samples::new(&mut random);
    let spoil = |maps: &[Certificate; 3], spoiled: &[(usize, Refusal)]| {
        let mut chain = Chain::passing(maps);
        for &(place, number) in spoiled {
            let words = failing(&maps[place], number);
            chain = chain.spoiled(place, &words, number);
        }
        chain
    };
    let mut put = |chain: Chain, wanted: [Refusal; 2]| {
        numbers_are(&chain, wanted);
        let mut chain = chain;
        either_way(judge, &mut chain);
    };
    for maps in &samples.sound {
        put(spoil(maps, &[]), [0, 0]);
        let [first_off, second_off, third_off] = [0, 1, 2].map(|place| twisted(maps, place));
        // From the left the first sheet comes before the third, from the right after it.
        for i in 2..=10 {
            for j in 2..=10 {
                put(spoil(maps, &[(0, i), (2, j)]), [i, j]);
                put(spoil(maps, &[(0, i), (1, j)]), [i, j]);
                put(spoil(maps, &[(1, i), (2, j)]), [i, i]);
                put(spoil(maps, &[(0, i), (1, j), (2, 12 - i)]), [i, j]);
            }
            put(spoil(maps, &[(0, i)]), [i, i]);
            put(spoil(maps, &[(1, i)]), [i, i]);
            put(spoil(maps, &[(2, i)]), [i, i]);
            // A sheet beside two that do not meet.
            put(spoil(&first_off, &[(2, i)]), [13, i]);
            put(spoil(&third_off, &[(0, i)]), [i, 13]);
            put(spoil(&first_off, &[(0, i)]), [i, i]);
            put(spoil(&first_off, &[(1, i)]), [i, i]);
            put(spoil(&second_off, &[(1, i)]), [i, i]);
            put(spoil(&second_off, &[(0, i)]), [i, 13]);
            put(spoil(&second_off, &[(2, i)]), [13, i]);
            put(spoil(&third_off, &[(2, i)]), [i, i]);
        }
        for off in [first_off, second_off, third_off] {
            put(spoil(&off, &[]), [13, 13]);
        }
    }
    let (first, last) = (&samples.first_too_large, &samples.last_too_large);
    let whole = &samples.whole_too_large;
    for maps in [first, last, whole] {
        put(spoil(maps, &[]), [14, 14]);
    }
    // 14 of the first call comes before 13 of the second.
    put(spoil(&twisted(first, 2), &[]), [14, 13]);
    put(spoil(&twisted(first, 0), &[]), [13, 13]);
    put(spoil(&twisted(last, 0), &[]), [13, 14]);
    put(spoil(&twisted(last, 2), &[]), [13, 13]);
    put(spoil(&twisted(whole, 0), &[]), [13, 13]);
    for i in 2..=10 {
        put(spoil(first, &[(2, i)]), [14, i]);
        put(spoil(first, &[(0, i)]), [i, i]);
        put(spoil(last, &[(0, i)]), [i, 14]);
        put(spoil(last, &[(2, i)]), [i, i]);
        put(spoil(whole, &[(0, i)]), [i, i]);
        put(spoil(whole, &[(2, i)]), [i, i]);
    }
}

/// Each way to fail questions 2 to 10 in each place, alone, beside another, and beside 13
/// and 14.
pub fn order(judge: &mut Judge, quick: bool) {
    let mut random = Random::new(0xe705);
    let samples = Samples::new(&mut random);
    let mut chains = samples.sound.clone();
    let others = [
        samples.first_too_large,
        samples.last_too_large,
        samples.whole_too_large,
    ];
    chains.extend((0..3).map(|place| twisted(&samples.sound[1], place)));
    chains.extend([twisted(&others[0], 2), twisted(&others[1], 0)]);
    chains.extend(others);
    if quick {
        chains.truncate(3);
    }
    for maps in &chains {
        let sound = Chain::passing(maps);
        let spoiled = maps.each_ref().map(spoil::certificates);
        for place in 0..3 {
            for (i, (words, number)) in spoiled[place].iter().enumerate() {
                let mut one = sound.spoiled(place, words, *number);
                either_way(judge, &mut one);
                let step = if quick { 23 } else { 5 };
                for other in (0..3).filter(|&other| other != place) {
                    for (words, number) in spoiled[other].iter().skip(i % step).step_by(step) {
                        either_way(judge, &mut one.spoiled(other, words, *number));
                    }
                }
            }
        }
        // No words, the question alone, and certificates one behind the other.
        let words = maps.each_ref().map(Certificate::words);
        for place in 0..3 {
            let run = [&words[place][..], &words[(place + 1) % 3]].concat();
            for (sheet, number) in [(&[][..], 2), (&words[place][..7], 6), (&run, 6)] {
                either_way(judge, &mut sound.spoiled(place, sheet, number));
            }
        }
    }
    judge.note(format!("{} chains", chains.len()));
}

/// Question 13 between the first two, the last two and both: twists that leave A or B as
/// they are, any other curve, the maps in another order, and another prime with the same
/// curve.
pub fn meeting(judge: &mut Judge, quick: bool) {
    let mut random = Random::new(0xe706);
    let [mut chains, mut primes] = [0, 0];
    let mut met: BTreeMap<[Refusal; 2], usize> = BTreeMap::new();
    let mut put = |maps: &[Certificate]| {
        let mut chain = Chain::passing(maps);
        *met.entry(numbers(&chain)).or_default() += 1;
        either_way(judge, &mut chain);
        chains += 1;
    };
    let wanted = [3, 5, 7, 9, 11];
    for (p, degrees) in [
        (59, [3, 3, 3]),
        (61, [3, 3, 3]),
        (101, [3, 5, 3]),
        (1009, [5, 3, 9]),
        (65537, [17, 17, 3]),
        (65537, [3, 17, 17]),
        (LARGEST_PRIME, [3, 5, 7]),
    ] {
        for _ in 0..if quick { 1 } else { 8 } {
            let Some(steps) = walk(&mut random, p, &degrees, 3000) else {
                continue;
            };
            put(&steps);
            let k = steps[0].question.field();
            // -1 leaves A, a third root of 1 leaves B; where A or B is 0 they may still meet.
            let mut factors = cube_roots(k);
            factors.extend([p - 1, 1 + random.below(p - 1)]);
            for t in factors {
                for places in 1..7usize {
                    let some = |(i, map): (usize, &Certificate)| match places >> i & 1 {
                        0 => map.clone(),
                        _ => twist(map, t),
                    };
                    put(&steps.iter().enumerate().map(some).collect::<Vec<_>>());
                }
            }
            for [i, j, k] in [
                [0, 2, 1],
                [1, 0, 2],
                [2, 1, 0],
                [1, 2, 0],
                [0, 0, 1],
                [0, 1, 1],
            ] {
                put(&[i, j, k].map(|place: usize| steps[place].clone()));
            }
            // The same numbers for the middle curves over another prime.
            let [first, second, third] = &steps[..] else {
                unreachable!("three steps")
            };
            let [one, two] = [codomain(first), codomain(second)];
            let least = [p / 2, p + 1, 2 * p].into_iter();
            for other in least.filter(|&least| least < LARGEST_PRIME).map(next_prime) {
                let over = |curve: Curve| {
                    let fits = curve.a.max(curve.b) < other;
                    (fits && is_curve(other, curve.a, curve.b))
                        .then(|| Curve::new(other, curve.a, curve.b))
                };
                let lawful: Vec<u64> = wanted
                    .into_iter()
                    .filter(|&l| ask_degree(l, other).is_ok())
                    .collect();
                let before = over(one).and_then(|curve| step_to(&mut random, &curve, &lawful));
                let after = over(two).and_then(|curve| {
                    let mut tries = lawful.iter();
                    tries.find_map(|&l| generate::step(&mut random, &curve, l, 6))
                });
                if let Some(before) = &before {
                    put(&[before.clone(), second.clone(), third.clone()]);
                    primes += 1;
                }
                if let Some(after) = &after {
                    put(&[first.clone(), second.clone(), after.clone()]);
                    primes += 1;
                }
                if let (Some(before), Some(after)) = (before, after) {
                    put(&[before, second.clone(), after]);
                }
            }
        }
    }
    for wanted in [[0, 0], [13, 13], [13, 14], [14, 13]] {
        assert!(met.contains_key(&wanted), "{wanted:?} of {met:?}");
    }
    assert!(primes > 0, "some over another prime");
    judge.note(format!("{chains} chains, {primes} over two primes"));
}

/// Question 14 where the maps meet: too large for 255 or for p, of the whole alone, of the
/// first two, of the last two, and of both.
pub fn products(judge: &mut Judge, quick: bool) {
    let mut random = Random::new(0xe707);
    // Which calls are refused: the first from the left, the first from the right.
    let mut met: HashMap<[bool; 2], usize> = HashMap::new();
    let mut put = |steps: &[Certificate], wanted: [bool; 2]| {
        let mut chain = Chain::passing(steps);
        let early = [0, 1].map(|i| {
            let (q1, q2) = (&steps[i].question, &steps[i + 1].question);
            !is_permitted(q1.l, q2.l, q1.p)
        });
        assert_eq!(early, wanted);
        numbers_are(&chain, [14, 14]);
        *met.entry(early).or_default() += 1;
        either_way(judge, &mut chain);
    };
    let small = [
        (17, [3, 3, 3], [true, true]),
        (19, [3, 3, 3], [false, false]),
        (29, [3, 3, 5], [false, true]),
        (29, [5, 3, 3], [true, false]),
        (29, [3, 5, 3], [true, true]),
        (31, [5, 3, 3], [false, false]),
        (41, [3, 3, 7], [false, true]),
        (41, [7, 3, 3], [true, false]),
        (53, [3, 3, 3], [false, false]),
        (89, [3, 5, 3], [false, false]),
        (89, [3, 3, 5], [false, false]),
    ];
    let large = [
        ([5, 7, 9], [false, false]),
        ([9, 5, 7], [false, false]),
        ([3, 3, 31], [false, false]),
        ([17, 3, 17], [false, false]),
        ([9, 9, 5], [false, false]),
        ([3, 9, 27], [false, false]),
        ([17, 17, 3], [true, false]),
        ([3, 17, 17], [false, true]),
        ([17, 19, 17], [true, true]),
    ];
    for (p, degrees, wanted) in small {
        for _ in 0..if quick { 2 } else { 10 } {
            let steps = walk(&mut random, p, &degrees, 3000);
            put(&steps.expect("some curve allows these steps"), wanted);
        }
    }
    for (degrees, wanted) in large.into_iter().skip(if quick { 5 } else { 0 }) {
        for p in [65537, LARGEST_PRIME]
            .into_iter()
            .take(if quick { 1 } else { 2 })
        {
            if let Some(steps) = walk(&mut random, p, &degrees, 1000) {
                put(&steps, wanted);
            }
            // A cyclic kernel of each, where there is one: its whole has no certificate.
            let l: u64 = degrees.iter().product();
            for cyclic in generate::cyclic(&mut random, p, &[l], 2000) {
                let mut before = 1;
                let steps = degrees.map(|l| {
                    let step = cyclic.part(before, l);
                    before *= l;
                    step
                });
                put(&steps, wanted);
            }
        }
    }
    assert_eq!(met.len(), 4, "{met:?}");
    let all: usize = met.values().sum();
    judge.note(format!("{all} chains"));
}

/// Four and five sheets in every way, one or two of them spoiled, or twisted so that they
/// do not meet the next, or with too large a product.
pub fn refused_bracketings(judge: &mut Judge, quick: bool) {
    let mut random = Random::new(0xe708);
    let mut chains: Vec<Vec<Certificate>> = Vec::new();
    for (p, count) in [(1009, 4), (SPOILED, 5), (149, 4), (479, 5)] {
        chains.push(walk_by_3(&mut random, p, count, 1000));
    }
    for (p, degrees) in [(65537, [3, 5, 3, 7]), (SPOILED, [17, 3, 3, 17])] {
        chains.extend(walk(&mut random, p, &degrees, CURVES));
    }
    let mut all = 0;
    for steps in &chains {
        let spoiled: Vec<Vec<(Vec<u32>, Refusal)>> =
            steps.iter().map(spoil::certificates).collect();
        for round in 0..if quick { 8 } else { 120 } {
            let mut maps = steps.clone();
            if round % 3 == 0 {
                let place = random.index(maps.len());
                let t = maps[place].question.p - 1;
                maps[place] = twist(&maps[place], t);
            }
            let mut chain = Chain::passing(&maps);
            for _ in 0..round % 4 {
                let place = random.index(maps.len());
                let (words, number) = random.pick(&spoiled[place]);
                chain = chain.spoiled(place, words, *number);
            }
            every_way(judge, &mut chain);
            all += 1;
        }
    }
    judge.note(format!("{all} chains"));
}

/// Fields of which chains of three steps of degree 3 are put.
pub fn fields(quick: bool) -> Vec<u64> {
    if quick {
        vec![53, 59]
    } else {
        vec![53, 59, 61]
    }
}

/// Chains of three steps of degree 3, over the largest prime that does not permit 27 and
/// over the least that do: every one, or a part of them.
pub fn every(judge: &mut Judge, p: u64, step: usize) {
    let mut chains = 0;
    for steps in generate::triples_by_3(p).iter().step_by(step) {
        let mut chain = Chain::passing(steps);
        assert_eq!(chain.is_lawful(), p > 53);
        either_way(judge, &mut chain);
        chains += 1;
    }
    judge.note(format!("{chains} chains"));
}

/// Good chains to draw from, mostly over small fields; over 53, and where the product is
/// above 255, they are refused.
fn pool(random: &mut Random) -> Vec<Vec<Certificate>> {
    let mut pool = Vec::new();
    for p in [53, 59, 61, 67, 101, 521, 1009, LARGEST_PRIME] {
        for _ in 0..3 {
            pool.push(walk_by_3(random, p, 3, 1000));
        }
    }
    for p in [53, 59, 101, 521, 1009] {
        for degrees in [[3, 5, 3], [5, 3, 3], [3, 3, 5], [3, 9, 3], [9, 5, 9]] {
            pool.extend(walk(random, p, &degrees, 300));
        }
    }
    pool
}

/// Three sheets beside those of a good chain, which many stay.
fn neighbours(random: &mut Random, pool: &[Vec<Certificate>]) -> Vec<Vec<u32>> {
    let chain = random.pick(pool);
    let p = chain[0].question.p;
    let mut sheets: Vec<Vec<u32>> = chain.iter().map(Certificate::words).collect();
    for _ in 0..random.below(3) {
        let (i, j) = (random.index(3), random.index(3));
        match random.below(14) {
            0 => sheets.swap(i, j),
            1 => sheets[i] = sheets[j].clone(),
            2..=3 => sheets[i] = random.pick(pool)[j].words(),
            // With -1 the curves keep their A.
            4..=6 => {
                let t = *random.pick(&[p - 1, p - 1, 2, 3]);
                sheets[i] = twist(&chain[i], t).words();
            }
            7 => sheets[i] = (0..random.index(60)).map(|_| random.word()).collect(),
            8 => {
                let more = sheets[j].clone();
                sheets[i].extend(more);
            }
            _ => hostile::damage(random, &mut sheets[i], p),
        }
    }
    sheets
}

/// Random triples, with the reference's numbers.
pub fn neighbours_of_chains(judge: &mut Judge, seed: u64, cases: u64) {
    let mut random = Random::new(0xe710 + seed);
    let pool = pool(&mut random);
    for _ in 0..cases {
        let sheets = neighbours(&mut random, &pool);
        either_way(judge, &mut Chain::of(sheets));
    }
}

/// Random triples of which nothing is known: the library's own answers agree.
pub fn own_answers(judge: &mut Judge, seed: u64, cases: u64) {
    let mut random = Random::new(0xe720 + seed);
    let pool = pool(&mut random);
    for _ in 0..cases {
        let sheets = neighbours(&mut random, &pool);
        judge.joins_alike(&sheets, &Way::either(3));
    }
}
