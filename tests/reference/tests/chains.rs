//! Request E7 held against the reference's own composition from either side, against
//! kernels known by their roots, against the sums of the kernel sums, and against the order
//! of questions.

use std::collections::{HashMap, HashSet};

use reference::call::{Call, Reply, REFUSED};
use reference::chains::{joined, Chain, Way};
use reference::composition::{composed, meets};
use reference::curve::Curve;
use reference::field::Field;
use reference::generate::{
    self, dual, random_monic, rescale, splits, triples_by_3, turns_back, walk, walk_by_3, Cyclic,
};
use reference::marked;
use reference::poly::Poly;
use reference::random::Random;
use reference::rational;
use reference::services::{self, Checked};
use reference::sheet::{ask_degree, Certificate, Refusal};
use reference::spoil;

const LARGEST: u64 = 268435399;

/// What the reference's own composition makes of certificates in a way.
fn by_pairs(maps: &[&Certificate], way: &Way) -> Result<Certificate, Refusal> {
    match way {
        Way::Sheet(place) => Ok(maps[*place].clone()),
        Way::Join(first, second) => composed(&by_pairs(maps, first)?, &by_pairs(maps, second)?),
    }
}

/// The number that the reference's compose gives, fed with its own words.
fn by_calls(chain: &Chain, way: &Way) -> Reply {
    match way {
        Way::Sheet(place) => Reply::written(chain.sheets()[*place].clone()),
        Way::Join(first, second) => {
            let mut words = Vec::new();
            // What a part is refused with comes before what its sheets would get here.
            for part in [first, second] {
                let reply = by_calls(chain, part);
                if reply.number > REFUSED {
                    return reply;
                }
                words.push(reply.words);
            }
            Call::compose(&words[0], &words[1]).reply()
        }
    }
}

/// The map, which passes, by all ways and by none of them; its sum and its count.
fn made(maps: &[&Certificate], ways: &[Way]) -> Certificate {
    let whole = joined(maps);
    assert_eq!(services::check(&whole.words()), Checked::Passes);
    for way in ways {
        assert_eq!(by_pairs(maps, way).as_ref(), Ok(&whole), "{way}");
    }
    let (k, q) = (whole.question.field(), &whole.question);
    let mut factor = 1;
    let mut sum = 0;
    for map in maps.iter().rev() {
        sum = k.add(sum, k.mul(factor, map.question.sigma));
        factor = k.mul(factor, k.of(map.question.l as i64));
    }
    assert_eq!(q.sigma, sum);
    let (g, _) = whole.polynomials();
    if q.p < 2000 {
        assert_eq!(whole.rational, rational::roots(&g).len() as u64);
    } else {
        assert_eq!(whole.rational, rational::by_power(&g));
    }
    whole
}

fn references(maps: &[Certificate]) -> Vec<&Certificate> {
    maps.iter().collect()
}

#[test]
fn ways() {
    let counts = [1, 1, 2, 5, 14, 42];
    for (count, wanted) in (1..).zip(counts) {
        let all = Way::all(count);
        assert_eq!(all.len(), wanted);
        let different: HashSet<&Way> = all.iter().collect();
        assert_eq!(different.len(), wanted);
        assert!(all.iter().all(|way| way.places() == (0..count)));
        assert!(Way::either(count).iter().all(|way| all.contains(way)));
    }
    let [left, right] = Way::either(4).map(|way| way.to_string());
    assert_eq!(left, "(((1 2) 3) 4)");
    assert_eq!(right, "(1 (2 (3 4)))");
    let all: Vec<String> = Way::all(3).iter().map(Way::to_string).collect();
    assert_eq!(all, ["(1 (2 3))", "((1 2) 3)"]);
}

#[test]
fn interpolation() {
    let mut random = Random::new(101);
    for p in [11, 101, LARGEST] {
        let k = Field::new(p);
        for degree in 0..10 {
            let any = random_monic(&mut random, k, degree).scale(1 + random.below(p - 1));
            let first = random.below(p);
            let places: Vec<u64> = (0..=degree as u64).map(|i| (first + i) % p).collect();
            let values: Vec<u64> = places.iter().map(|&u| any.value(u)).collect();
            assert_eq!(Poly::through(k, &places, &values), any);
        }
    }
}

/// Every triple of steps of degree 3 that meet over the least primes that permit 27, from
/// the first of each set of domains (t^2 A, t^3 B), between which twists go.
#[test]
fn every_triple_of_degree_3() {
    for p in [59, 61, 67] {
        let k = Field::new(p);
        let is_first = |maps: &&[Certificate; 3]| {
            let (a, b) = (maps[0].question.a, maps[0].question.b);
            (1..p).all(|t| (a, b) <= (k.mul(a, k.pow(t, 2)), k.mul(b, k.pow(t, 3))))
        };
        let mut curves = HashSet::new();
        let [mut onward, mut back] = [0, 0];
        for maps in triples_by_3(p).iter().filter(is_first) {
            let whole = made(&references(maps), &Way::either(3));
            curves.insert((whole.question.a, whole.question.b));
            assert_eq!(services::solution(&whole.question), Some(whole));
            match maps.windows(2).any(|pair| turns_back(&pair[0], &pair[1])) {
                true => back += 1,
                false => onward += 1,
            }
        }
        assert!(curves.len() > 20 && onward > 20 && back > 20, "over {p}");
    }
}

/// Over 53 two steps of degree 3 are permitted and three are not, from either side.
#[test]
fn every_triple_over_53() {
    let triples = triples_by_3(53);
    for maps in triples.iter().step_by(7) {
        let [first, second, third] = maps;
        assert!(composed(first, second).is_ok() && composed(second, third).is_ok());
        for way in Way::either(3) {
            assert_eq!(by_pairs(&references(maps), &way), Err(14));
        }
    }
    assert!(triples.len() > 1000, "{}", triples.len());
}

/// A cyclic kernel in steps of these degrees.
fn parts(cyclic: &Cyclic, degrees: &[u64]) -> Vec<Certificate> {
    let step = |i: usize| cyclic.part(degrees[..i].iter().product(), degrees[i]);
    (0..degrees.len()).map(step).collect()
}

/// A cyclic kernel in three steps: the certificate is that of the whole kernel,
/// whose polynomial has known roots, and so is that of each part.
#[test]
fn cyclic_kernels() {
    let mut random = Random::new(102);
    let mut met = HashSet::new();
    for (p, most, curves) in [(521, 255, 4000), (16381, 255, 20000), (LARGEST, 105, 3000)] {
        let odd = (27..=most).step_by(2);
        let wanted: Vec<u64> = odd.filter(|&l| !splits(l, 3).is_empty()).collect();
        for cyclic in generate::cyclic(&mut random, p, &wanted, curves) {
            for degrees in splits(cyclic.l(), 3) {
                let mut chain = Chain::cyclic(&cyclic, &degrees);
                assert!(chain.is_lawful());
                let maps = parts(&cyclic, &degrees);
                for pair in maps.windows(2) {
                    assert!(meets(&pair[0].question, &pair[1].question));
                }
                let whole = cyclic.certificate();
                // The reference's own composition takes long for large degrees.
                if met.insert(degrees) || cyclic.l() < 80 {
                    assert_eq!(made(&references(&maps), &Way::either(3)), whole);
                }
                for way in Way::either(3) {
                    assert_eq!(chain.reply(&way), Reply::written(whole.words()));
                    let Way::Join(first, second) = way else {
                        unreachable!("three sheets")
                    };
                    for part in [*first, *second] {
                        let known = by_pairs(&references(&maps), &part).expect("a part");
                        assert_eq!(chain.reply(&part), Reply::written(known.words()));
                    }
                }
            }
        }
    }
    // All with a product of at most 255.
    assert_eq!(met.len(), 104);
}

/// Cyclic kernels in four and five steps, in every way.
#[test]
fn bracketings() {
    let mut random = Random::new(103);
    for (p, degrees) in [
        (521, &[3, 3, 3, 3, 3][..]),
        (LARGEST, &[3, 3, 3, 3, 3]),
        (16381, &[3, 5, 3, 5]),
        (65521, &[5, 3, 3, 3]),
        (LARGEST, &[9, 3, 3, 3]),
    ] {
        let ways = Way::all(degrees.len());
        let found = generate::cyclic(&mut random, p, &[degrees.iter().product()], 20_000);
        let cyclic = found.first().expect("some curve has such a point");
        let maps = parts(cyclic, degrees);
        assert_eq!(made(&references(&maps), &ways), cyclic.certificate());
        let mut chain = Chain::cyclic(cyclic, degrees);
        let whole = Reply::written(cyclic.certificate().words());
        assert!(ways.iter().all(|way| chain.reply(way) == whole));
    }
}

/// Steps of any kind in every way: those of degree 3 go on, which makes cyclic kernels, or
/// turn back.
#[test]
fn walks() {
    let mut random = Random::new(106);
    let [mut onward, mut back] = [0, 0];
    for p in [59, 61, 521, 1009, 65521, LARGEST - 32, LARGEST] {
        for count in [3, 4, 5] {
            if ask_degree(3u64.pow(count as u32), p).is_err() {
                continue;
            }
            for _ in 0..4 {
                let steps = walk_by_3(&mut random, p, count, 1000);
                made(&references(&steps), &Way::all(count));
                if steps.windows(2).any(|pair| turns_back(&pair[0], &pair[1])) {
                    back += 1;
                } else {
                    onward += 1;
                }
            }
        }
    }
    assert!(onward > 10 && back > 10, "{onward}, {back}");
    for (p, degrees) in [
        (1009, [3, 5, 3, 5]),
        (65521, [5, 3, 3, 3]),
        (LARGEST, [3, 7, 3, 3]),
    ] {
        let steps = walk(&mut random, p, &degrees, 5000);
        let steps = steps.unwrap_or_else(|| panic!("no curve over {p} allows {degrees:?}"));
        made(&references(&steps), &Way::all(4));
    }
}

/// Roots that are found without trying each u.
#[test]
fn roots() {
    let mut random = Random::new(107);
    for p in [11, 59, 1009, LARGEST] {
        let k = Field::new(p);
        for degree in 0..7 {
            let any = random_monic(&mut random, k, degree);
            if p < LARGEST && any.gcd(&any.derivative()).degree() == Some(0) {
                let found = rational::roots_by_squares(&mut random, &any);
                assert_eq!(found, rational::roots(&any));
            }
            let mut known: Vec<u64> = (0..degree).map(|_| random.below(p)).collect();
            known.sort_unstable();
            known.dedup();
            let product = Poly::with_roots(k, &known);
            assert_eq!(rational::roots_by_squares(&mut random, &product), known);
        }
    }
}

/// A step, its dual and the step again; multiplications by 3 between steps; the duals of
/// three steps.
#[test]
fn duals_and_multiplications() {
    let mut random = Random::new(104);
    let ways = Way::either(3);
    for p in [1009, 65521, LARGEST] {
        for step in generate::from_points(&mut random, p, &[3, 5], 3000) {
            let (q, l) = (&step.question, step.question.l);
            let moved = rescale(&step, l);
            let forth = made(&[&step, &dual(&step), &moved], &ways);
            let domain = Curve::new(p, q.a, q.b);
            let by_l = generate::multiplication(&domain, l);
            assert_eq!(joined(&[&by_l, &moved]), forth);
            let middle = generate::multiplication(&Curve::new(p, q.a_t, q.b_t), 3);
            let after = rescale(&dual(&step), 3);
            let by_3 = made(&[&step, &middle, &after], &ways);
            assert_eq!(by_3, generate::multiplication(&domain, 3 * l));
        }
        for cyclic in generate::cyclic(&mut random, p, &[27, 45, 105], 20_000) {
            let degrees = &splits(cyclic.l(), 3)[0];
            let [l, m, n] = degrees[..] else {
                unreachable!("three steps")
            };
            let [first, second, third] =
                [(1, l), (l, m), (l * m, n)].map(|(before, l)| dual(&cyclic.part(before, l)));
            // Each on the curve where the one before it ends.
            let [second, first] = [rescale(&second, n), rescale(&first, m * n)];
            let whole = made(&[&third, &second, &first], &ways);
            assert_eq!(whole, dual(&cyclic.certificate()));
        }
    }
}

/// Whatever three sheets get by themselves, meet or not and multiply to: either way is
/// refused exactly when the request's conditions fail, and so is every way of four sheets.
/// The reference's compose agrees with the numbers, fed with what it wrote.
#[test]
fn refused_either_way() {
    let mut random = Random::new(105);
    let mut pool: Vec<Certificate> = vec![marked::first(), marked::second()];
    for (p, degrees) in [
        (53, [3, 3, 3, 3]),
        (59, [3, 3, 3, 3]),
        (101, [3, 5, 3, 5]),
        (1009, [3, 9, 5, 3]),
        // Twice the prime has a place in a word, as the spoilers want.
        (134217689, [17, 17, 3, 5]),
    ] {
        pool.extend(walk(&mut random, p, &degrees, 20_000).expect("some curve allows them"));
    }
    let spoiled: Vec<Vec<(Vec<u32>, Refusal)>> = pool.iter().map(spoil::certificates).collect();
    let mut met: HashMap<[Option<Refusal>; 2], usize> = HashMap::new();
    for round in 0..3000 {
        let count = if round % 8 == 0 { 4 } else { 3 };
        let start = random.index(pool.len());
        let any = random.once_in(4);
        let places: Vec<usize> = (0..count)
            .map(|i| match any {
                true => random.index(pool.len()),
                false => (start + i) % pool.len(),
            })
            .collect();
        let maps: Vec<Certificate> = places.iter().map(|&i| pool[i].clone()).collect();
        let mut chain = Chain::passing(&maps);
        for (i, &place) in places.iter().enumerate() {
            if random.once_in(6) {
                let (words, number) = random.pick(&spoiled[place]);
                chain = chain.spoiled(i, words, *number);
            }
        }
        let ways = chain.ways();
        let numbers: Vec<Option<Refusal>> = ways.iter().map(|way| chain.refusal(way)).collect();
        assert!(numbers
            .iter()
            .all(|number| number.is_none() == chain.is_lawful()));
        for (way, number) in ways.iter().zip(&numbers) {
            let wanted = chain.reply(way);
            assert_eq!(number.is_none(), wanted.number < REFUSED);
            assert_eq!(by_calls(&chain, way), wanted, "{way}");
        }
        *met.entry([numbers[ways.len() - 1], numbers[0]])
            .or_default() += 1;
        // Read from the words, the sheets get the same numbers.
        let read = Chain::of(chain.sheets().to_vec());
        assert!(ways
            .iter()
            .zip(numbers)
            .all(|(way, n)| read.refusal(way) == n));
    }
    let times = |wanted: fn(&[Option<Refusal>; 2]) -> bool| -> usize {
        let all = met.iter().filter(|(numbers, _)| wanted(numbers));
        all.map(|(_, times)| times).sum()
    };
    let [written, equal, other] = [
        times(|[left, _]| left.is_none()),
        times(|[left, right]| left.is_some() && left == right),
        times(|[left, right]| left != right),
    ];
    assert!(written > 100 && equal > 500 && other > 250, "{met:?}");
    // 13 and 14, and those with a number of a sheet, in both orders.
    for pair in [[13, 14], [14, 13], [13, 9], [9, 13], [14, 2], [2, 14]] {
        assert!(met.contains_key(&pair.map(Some)), "{pair:?}");
    }
    assert!(ask_degree(27, 53).is_err() && ask_degree(27, 59).is_ok());
}

/// The conditions of the request by themselves: for every choice of what each sheet gets,
/// which of them meet, degrees and prime, all ways are refused or none.
#[test]
fn every_pattern_of_questions() {
    let mut lawful = 0;
    let mut patterns = 0;
    for count in [3, 4, 5] {
        let ways = Way::all(count);
        let degrees: &[u64] = if count == 3 {
            &[3, 5, 9, 17, 85]
        } else {
            &[3, 5]
        };
        let choices = degrees.len().pow(count as u32);
        for p in [11, 19, 53, 59, 271, 509, 521, 1009] {
            for choice in 0..choices {
                let mut rest = choice;
                let l: Vec<u64> = (0..count)
                    .map(|_| {
                        let l = degrees[rest % degrees.len()];
                        rest /= degrees.len();
                        l
                    })
                    .collect();
                // Which curve each map goes from; it goes to the next one's, or elsewhere.
                for apart in 0..1 << (count - 1) {
                    let map = |i: usize| {
                        let mut map = marked::first();
                        let q = &mut map.question;
                        let to = i as u64 + 1 + 100 * (apart >> i & 1);
                        (q.p, q.l, q.a, q.a_t) = (p, l[i], i as u64, to);
                        (q.b, q.b_t) = (1, 1);
                        map
                    };
                    let maps: Vec<Certificate> = (0..count).map(map).collect();
                    let sound = Chain::passing(&maps);
                    for refused in 0..1usize << count {
                        let mut chain = sound.clone();
                        for place in (0..count).filter(|place| refused >> place & 1 == 1) {
                            chain = chain.spoiled(place, &[], 2 + place as u32);
                        }
                        let wanted = chain.is_lawful();
                        let all = ways.iter().map(|way| chain.refusal(way).is_none());
                        assert!(all.into_iter().all(|joined| joined == wanted));
                        lawful += usize::from(wanted);
                        patterns += 1;
                    }
                }
            }
        }
    }
    assert!(lawful > 100 && patterns > 100_000, "{lawful}, {patterns}");
}
