//! Request E9: questions without the kernel sum. Numbers of refusals are written down from
//! document 02, with the order of questions of document 01; which sigma works comes from a
//! search through all of them, from theory, or from the certificate that was made first.

use std::collections::{BTreeSet, HashMap};

use reference::brute::{all_isogenies, all_pairs, is_curve};
use reference::curve::Curve;
use reference::field::Field;
use reference::generate::{self, dual, random_curve, rescale, twist, with_multiplications};
use reference::marked;
use reference::poly::Poly;
use reference::primes::{is_prime, next_prime, previous_prime};
use reference::random::Random;
use reference::services::{self, solve, solve_with_or_without_sum, Point, Written};
use reference::sheet::{kind, word, Certificate, Refusal};
use reference::sheet::{A, A_T, B, B_T, END, G, L, LARGEST_CERTIFICATE, P, SIGMA};
use reference::unreduced::{alike, greatest, places, raised};
use reference::without_sum::{by_elimination, by_search, denominator, eliminate, CurvePair};

const LARGEST: u64 = 268435399;

/// The degrees that question 4 permits over every large prime.
fn degrees() -> impl Iterator<Item = u64> {
    (3..=255).step_by(2)
}

/// Question 17, as the request has it.
fn passes_17(l: u64, p: u64) -> bool {
    8 * l - 5 < p
}

fn asked(words: &[u32]) -> Written {
    solve_with_or_without_sum(words, LARGEST_CERTIFICATE)
}

fn pair_of(certificate: &Certificate) -> CurvePair {
    CurvePair::from_question(&certificate.question)
}

/// The sheet gets this number, and until the request lands solve gives it 2 as before, or
/// the same number where it is not of the new form.
fn refused(words: &[u32], number: Refusal) {
    assert_eq!(asked(words), Written::Refused(number), "{words:08x?}");
    let is_new = words.len() > 6 && kind(words[6]) == END;
    let before = if is_new { 2 } else { number };
    let answer = solve(words, LARGEST_CERTIFICATE);
    assert_eq!(answer, Written::Refused(before), "{words:08x?}");
}

/// Its curves and degree, with the sum and without it, give the certificate back.
fn gives_itself_back(certificate: &Certificate) {
    let written = Written::Words(certificate.words());
    assert_eq!(asked(&pair_of(certificate).words()), written);
    assert_eq!(asked(&certificate.question.words()), written);
}

/// The domains that come first among those that twists join: with t the map from (A, B) to
/// (A~, B~) with sigma becomes one from (t^2 A, t^3 B) to (t^2 A~, t^3 B~) with t sigma, so
/// that with all codomains they stand for all pairs of curves.
fn first_domains(p: u64) -> Vec<(u64, u64)> {
    let k = Field::new(p);
    let twisted = |(a, b), t| (k.mul(a, k.pow(t, 2)), k.mul(b, k.pow(t, 3)));
    let is_first = |&(a, b): &(u64, u64)| (1..p).all(|t| (a, b) <= twisted((a, b), t));
    let curves = all_pairs(p).filter(|&(a, b)| is_curve(p, a, b));
    curves.filter(is_first).collect()
}

/// Certificates by their curves. There may be more than one for two curves.
fn by_curves(list: Vec<Certificate>) -> HashMap<CurvePair, Vec<Certificate>> {
    let mut found: HashMap<CurvePair, Vec<Certificate>> = HashMap::new();
    for certificate in list {
        let q = &certificate.question;
        if is_curve(q.p, q.a_t, q.b_t) {
            found
                .entry(pair_of(&certificate))
                .or_default()
                .push(certificate);
        }
    }
    found
}

/// How many normalized isogenies of degree 3 there are over p, and as many of degree 5: the
/// modular curve of either degree is a line with two cusps, which leave p - 1 points, and
/// each stands for p - 1 maps, those of its twists together.
fn count_of_maps(p: u64) -> u64 {
    (p - 1) * (p - 1)
}

/// Every pair of curves: R1 to R3 are asked for each sigma, which is 2r for g = x - r, with
/// no recurrence. At most one works. From the first domains elimination finds it, or that
/// there is none, for all codomains; the search with solve is made for all of 23, and for
/// each eighth codomain over the others and those with an answer. Where none works there may
/// be no denominator, one that is no square, or a square with which R3 does not hold.
#[test]
fn every_pair_of_curves_with_degree_3() {
    for p in [23, 29, 31, 37, 41] {
        let first: BTreeSet<(u64, u64)> = first_domains(p).into_iter().collect();
        let [mut with, mut no_denominator, mut no_square, mut square] = [0, 0, 0, 0];
        for (a, b) in all_pairs(p).filter(|&(a, b)| is_curve(p, a, b)) {
            let found = by_curves(all_isogenies(p, a, b, 3));
            for (pair, list) in &found {
                assert_eq!(list.len(), 1, "two sums work for {pair:?}");
                assert_eq!(by_elimination(pair).as_ref(), list.first());
                with += 1;
            }
            if !first.contains(&(a, b)) {
                continue;
            }
            let codomains = all_pairs(p).filter(|&(a_t, b_t)| is_curve(p, a_t, b_t));
            for (i, (a_t, b_t)) in codomains.enumerate() {
                let pair = CurvePair::of([p, a, b, a_t, b_t, 3]);
                let expected = found.get(&pair).and_then(|list| list.first());
                assert_eq!(by_elimination(&pair).as_ref(), expected, "{pair:?}");
                if p == 23 || i % 8 == 0 || expected.is_some() {
                    let all = by_search(&pair);
                    assert_eq!(all.iter().collect::<Vec<_>>(), Vec::from_iter(expected));
                }
                match denominator(&pair) {
                    _ if expected.is_some() => {}
                    None => no_denominator += 1,
                    Some(d) if (0..p).all(|r| d != Poly::with_roots(pair.field(), &[r, r])) => {
                        no_square += 1;
                    }
                    Some(_) => square += 1,
                }
            }
        }
        assert_eq!(with, count_of_maps(p));
        let without = [no_denominator, no_square, square];
        assert!(without.iter().all(|&count| count > p), "{without:?}");
    }
}

/// The same for degree 5, with the divisors of the division polynomial for the search.
#[test]
fn every_pair_of_curves_with_degree_5() {
    for p in [37, 41] {
        let found = by_curves(generate::every(p, &[5]));
        assert!(found.values().all(|list| list.len() == 1));
        assert_eq!(found.len() as u64, count_of_maps(p));
        let [mut with, mut without] = [0, 0];
        for (a, b) in first_domains(p) {
            for (a_t, b_t) in all_pairs(p).filter(|&(a_t, b_t)| is_curve(p, a_t, b_t)) {
                let pair = CurvePair::of([p, a, b, a_t, b_t, 5]);
                let expected = found.get(&pair).and_then(|list| list.first());
                assert_eq!(by_elimination(&pair).as_ref(), expected, "{pair:?}");
                match expected {
                    Some(certificate) => {
                        gives_itself_back(certificate);
                        with += 1;
                    }
                    None => without += 1,
                }
            }
        }
        assert!(with > 10 && without > 10_000, "{p}: {with}, {without}");
    }
}

/// Why 17 is asked. On y^2 = x^3 + 2x over 11 the division polynomial for 3 is
/// 3x^4 + x^2 + 7, with the roots 1 and -1, and both lead to (7, 0): A~ = -9A - 30 r^2.
#[test]
fn two_sums_over_eleven() {
    let pair = CurvePair::of([11, 2, 0, 7, 0, 3]);
    let answers = by_search(&pair);
    let expected = [(2, [10, 1], [2, 0, 9, 1]), (9, [1, 1], [9, 0, 2, 1])];
    for (answer, (sigma, g, n)) in answers.iter().zip(expected) {
        assert_eq!(answer.question, pair.with(sigma));
        assert_eq!((&answer.g[..], &answer.n[..]), (&g[..], &n[..]));
        let passed = services::check(&answer.words());
        assert_eq!(passed, services::Checked::Passes);
        let with_sum = asked(&answer.question.words());
        assert_eq!(with_sum, Written::Words(answer.words()));
    }
    assert_eq!(answers.len(), 2);
    refused(&pair.words(), 17);
    let pair = CurvePair::of([11, 2, 0, 6, 0, 5]);
    let sums: Vec<u64> = by_search(&pair).iter().map(|c| c.question.sigma).collect();
    assert_eq!(sums, [5, 6]);
    refused(&pair.words(), 17);
}

/// Two normalized isogenies of degree l between two curves differ by one that is not
/// separable, whose degree is at least p and at most 4l. So two sums can work up to p = 4l
/// only. That happens over 11, and for degree 5 over 19. Question 17 asks for more, and
/// refuses the rest up to 8l - 5 too.
#[test]
fn where_two_sums_work() {
    let mut with_two = Vec::new();
    for (l, last) in [(3, 19), (5, 31)] {
        for p in (11..=last).filter(|&p| is_prime(p)) {
            let found = by_curves(generate::every(p, &[l]));
            for pair in found.keys() {
                refused(&pair.words(), 17);
            }
            assert!(found.values().all(|list| list.len() <= 2));
            let count: usize = found.values().map(Vec::len).sum();
            assert_eq!(count as u64, count_of_maps(p));
            if found.values().any(|list| list.len() == 2) {
                with_two.push((l, p));
            }
        }
    }
    assert_eq!(with_two, [(3, 11), (5, 11), (5, 19)]);
}

/// Over 11 no degree passes 17: 3 and 5 pass 4, and 7 does not.
#[test]
fn eleven_never_passes() {
    for (l, number) in [(1, 4), (3, 17), (5, 17), (7, 4), (9, 4), (255, 4)] {
        refused(&CurvePair::of([11, 0, 1, 0, 6, l]).words(), number);
        refused(&CurvePair::of([11, 0, 0, 0, 0, l]).words(), number);
    }
    // The marked question keeps its answer.
    let words = marked::smallest().question.words();
    assert_eq!(asked(&words), Written::Words(marked::smallest().words()));
}

/// A sheet with end value 1 gets 6 if it passes 17.
fn with_wrong_end(p: u64, l: u64) -> Vec<u32> {
    let mut words = CurvePair::of([p, 1, 3, 265, 877, l]).words();
    words[6] = word(END, 1);
    words
}

/// As l is odd, p + 1 and p - 1 are never 8l - 5 for a prime p: both are even, and 8l - 5
/// is not. It is p itself for 38 degrees from 3 to 255, p + 2 for 35 and p - 2 for 37.
#[test]
fn edge_of_17() {
    for (offset, wanted, number) in [
        (9, 38, 17),
        (7, 35, 17),
        (6, 0, 17),
        (5, 38, 17),
        (4, 0, 6),
        (3, 37, 6),
        (1, 40, 6),
    ] {
        let mut count = 0;
        for l in degrees().filter(|l| is_prime(8 * l - offset) && 8 * l - offset > 10) {
            refused(&with_wrong_end(8 * l - offset, l), number);
            count += 1;
        }
        assert_eq!(count, wanted, "8l - {offset}");
    }
    for (l, p) in [(3, 19), (9, 67), (127, 1009), (251, 2003)] {
        refused(&with_wrong_end(p, l), 17);
    }
    for (l, p) in [(3, 23), (5, 37), (125, 997), (125, 1009), (255, 2039)] {
        refused(&with_wrong_end(p, l), 6);
    }
}

/// The primes next to 8l - 5: up to it the question needs its sum, after it does not.
#[test]
fn certificates_at_the_edge_of_17() {
    let mut random = Random::new(91);
    let [mut below, mut above] = [0, 0];
    for l in degrees() {
        let last = previous_prime(8 * l - 5);
        for certificate in generate::from_points(&mut random, last, &[l], 400) {
            refused(&pair_of(&certificate).words(), 17);
            let written = asked(&certificate.question.words());
            assert_eq!(written, Written::Words(certificate.words()));
            below += 1;
        }
        let next = next_prime(8 * l - 4);
        for certificate in generate::from_points(&mut random, next, &[l], 400) {
            gives_itself_back(&certificate);
            above += 1;
        }
    }
    assert!(below > 120 && above > 120, "{below}, {above}");
}

/// Over small and large primes, of every degree, with kernels of all kinds.
fn certificates() -> Vec<Certificate> {
    let mut random = Random::new(92);
    let mut list = Vec::new();
    for (p, step) in [
        (23, 1),
        (71, 1),
        (131, 1),
        (521, 1),
        (1009, 1),
        (2053, 5),
        (65521, 1),
        (LARGEST, 3),
    ] {
        let lawful = degrees().filter(|&l| passes_17(l, p));
        let mut wanted: Vec<u64> = lawful
            .collect::<Vec<u64>>()
            .into_iter()
            .step_by(step)
            .collect();
        if p > 2035 {
            wanted.push(255);
        }
        list.extend(generate::from_points(&mut random, p, &wanted, 6000));
    }
    for p in [521, 2053, LARGEST] {
        for certificate in generate::from_points(&mut random, p, &[3, 5, 7], 5000) {
            list.extend(with_multiplications(&certificate));
            list.extend([dual(&certificate), rescale(&certificate, 2)]);
            list.push(twist(&certificate, 1 + random.below(p - 1)));
        }
    }
    // With A = 0 or B = 0 two of three terms of the expansion are 0, or each second one.
    for p in [131, 2053, LARGEST] {
        for (a, b) in [(0, 1), (1, 0), (0, p - 2), (p - 3, 0)] {
            let curve = Curve::new(p, a, b);
            let lawful = (3..=15).step_by(2).filter(|&m| passes_17(m * m, p));
            list.extend(lawful.map(|m| generate::multiplication(&curve, m)));
            let tries = (3..30).step_by(2).filter(|&l| passes_17(l, p));
            list.extend(tries.filter_map(|l| generate::step(&mut random, &curve, l, 20)));
        }
    }
    for degrees in [&[3, 5, 17][..], &[3, 3, 3, 3, 3], &[15, 17], &[5, 7, 7]] {
        list.extend(generate::chain(&mut random, 65521, degrees, 20_000));
    }
    list.retain(|c| passes_17(c.question.l, c.question.p));
    list
}

/// The certificate is known before its sum is left out, and so are the denominator, g^2,
/// and that values of any size ask the same.
#[test]
fn certificates_without_their_sum() {
    let mut random = Random::new(93);
    let mut degrees_of: HashMap<u64, BTreeSet<u64>> = HashMap::new();
    let mut of_255 = 0;
    for certificate in certificates() {
        let (q, pair) = (&certificate.question, pair_of(&certificate));
        gives_itself_back(&certificate);
        let (g, _) = certificate.polynomials();
        assert_eq!(denominator(&pair), Some(g.square()));
        let any = raised(&mut random, &pair.words());
        assert_eq!(asked(&any), Written::Words(certificate.words()));
        degrees_of.entry(q.p).or_default().insert(q.l);
        of_255 += usize::from(q.l == 255);
    }
    assert_eq!(degrees_of[&23], BTreeSet::from([3]));
    assert_eq!(degrees_of[&65521], degrees().collect());
    assert!(degrees_of[&LARGEST].len() > 40 && degrees_of[&1009].len() > 50);
    assert!(of_255 >= 5, "{of_255}");
}

/// Two normalized isogenies of degrees l and m between two curves differ by one that is not
/// separable, whose degree is at least p and at most l + m + 2 sqrt(lm). So with 1021 <= p
/// there is none of another degree up to 255, lower or higher, where one of degree l is;
/// and with l = 1, none of a curve to itself.
#[test]
fn curves_of_another_degree() {
    let mut random = Random::new(94);
    for p in [2053, 65521, LARGEST] {
        let wanted = [3, 5, 9, 15, 21, 45, 101, 127, 255];
        let list = generate::from_points(&mut random, p, &wanted, 3000);
        assert!(list.len() >= 8, "{p}: {}", list.len());
        let mut pairs: Vec<CurvePair> = list.iter().map(pair_of).collect();
        for _ in 0..3 {
            let Curve { a, b, .. } = random_curve(&mut random, p);
            pairs.push(CurvePair::of([p, a, b, a, b, 1]));
            pairs.push(step_of_degree_2(&mut random, p));
        }
        for pair in pairs {
            let mut others: Vec<u64> = vec![3, 5, 7, 9, 25, 99, 253, 255];
            others.extend([pair.l.saturating_sub(2), pair.l + 2, pair.l + 4]);
            others.retain(|l| degrees().any(|m| m == *l) && *l != pair.l && passes_17(*l, p));
            for l in others {
                let other = CurvePair { l, ..pair.clone() };
                refused(&other.words(), 11);
            }
        }
    }
}

/// The curves of a step of degree 2, normalized: with f(r) = 0 and v = 3r^2 + A the map is
/// x + v/(x - r), so h_1 = v and h_2 = rv.
fn step_of_degree_2(random: &mut Random, p: u64) -> CurvePair {
    let k = Field::new(p);
    loop {
        let (r, a) = (random.below(p), random.below(p));
        let b = k.neg(k.mul(r, k.add(k.mul(r, r), a)));
        let v = k.add(k.mul(3, k.mul(r, r)), a);
        let a_t = k.sub(a, k.mul(5, v));
        let b_t = k.sub(b, k.mul(7, k.mul(r, v)));
        if is_curve(p, a, b) && is_curve(p, a_t, b_t) {
            return CurvePair::of([p, a, b, a_t, b_t, 2]);
        }
    }
}

/// Curves with different numbers of points have no map between them: the codomain is
/// twisted by t, which is no square, and the domain has not p + 1 points.
#[test]
fn codomains_with_other_numbers_of_points() {
    let mut random = Random::new(95);
    let mut count = 0;
    for p in [521, 1009, 65521, LARGEST] {
        let k = Field::new(p);
        let wanted: Vec<u64> = (3..=61).step_by(2).collect();
        for certificate in generate::from_points(&mut random, p, &wanted, 500) {
            let mut pair = pair_of(&certificate);
            let domain = Curve::new(p, pair.a, pair.b);
            let point = domain.random_point(&mut random);
            let t = (2..p).find(|&t| !k.is_square(t)).expect("half are none");
            pair.a_t = k.mul(pair.a_t, k.pow(t, 2));
            pair.b_t = k.mul(pair.b_t, k.pow(t, 3));
            if domain.multiple(point, p + 1) != Point::Infinity {
                refused(&pair.words(), 11);
                count += 1;
            }
        }
    }
    assert!(count > 80, "{count}");
}

/// Over primes that let each sigma be tried: any two curves, and curves of a certificate
/// with one value changed or with a codomain of the same name.
#[test]
fn elimination_against_search() {
    let mut random = Random::new(96);
    let [mut with, mut without] = [0, 0];
    for (p, largest, tries) in [
        (53, 7, 40),
        (71, 9, 30),
        (101, 13, 20),
        (263, 33, 6),
        (521, 65, 6),
        (1009, 125, 4),
    ] {
        let k = Field::new(p);
        let lawful: Vec<u64> = degrees().filter(|&l| passes_17(l, p)).collect();
        assert_eq!(lawful.last(), Some(&largest));
        let mut pairs = Vec::new();
        for _ in 0..tries {
            let l = *random.pick(&lawful);
            pairs.push(CurvePair::from_question(&generate::random_question(
                &mut random,
                p,
                l,
            )));
            for certificate in generate::from_points(&mut random, p, &[l], 50) {
                let pair = pair_of(&certificate);
                let (u, changed) = (1 + random.below(p - 1), random.below(p));
                let mut near = [(); 5].map(|()| pair.clone());
                near[0].a = changed;
                near[1].b = changed;
                near[2].a_t = changed;
                near[3].b_t = changed;
                near[4].a_t = k.mul(pair.a_t, k.pow(u, 4));
                near[4].b_t = k.mul(pair.b_t, k.pow(u, 6));
                pairs.push(pair);
                pairs.extend(near);
            }
        }
        for pair in pairs {
            if !is_curve(p, pair.a, pair.b) || !is_curve(p, pair.a_t, pair.b_t) {
                refused(&pair.words(), 7);
                continue;
            }
            let all = by_search(&pair);
            let found = by_elimination(&pair);
            assert_eq!(all.iter().collect::<Vec<_>>(), Vec::from_iter(&found));
            match found {
                Some(_) => with += 1,
                None => without += 1,
            }
        }
    }
    assert!(with > 50 && without > 200, "{with}, {without}");
}

/// All systems of two equations over 5: (p^2 - 1)(p^2 - p) matrices have an inverse. Larger
/// ones with a known solution, and with an equation that follows from others.
#[test]
fn elimination_itself() {
    let k = Field::new(5);
    let mut regular = 0;
    for (first, second) in all_pairs(25) {
        let [a, b, c, d] = [first / 5, first % 5, second / 5, second % 5];
        let solved = eliminate(k, vec![vec![a, b, 1], vec![c, d, 2]]);
        let holds = |x, y| {
            let [left, right] = [(a, b), (c, d)].map(|(s, t)| k.add(k.mul(s, x), k.mul(t, y)));
            (left, right) == (1, 2)
        };
        let all: Vec<(u64, u64)> = all_pairs(5).filter(|&(x, y)| holds(x, y)).collect();
        if k.mul(a, d) == k.mul(b, c) {
            assert_eq!(solved, None);
        } else {
            let [x, y] = solved.expect("an inverse")[..] else {
                panic!("two unknowns");
            };
            assert_eq!(all, [(x, y)]);
            regular += 1;
        }
    }
    assert_eq!(regular, 24 * 20);
    let mut random = Random::new(97);
    let k = Field::new(LARGEST);
    for n in [1, 2, 3, 10, 40] {
        let mut list = |count| -> Vec<u64> { (0..count).map(|_| random.below(LARGEST)).collect() };
        let known = list(n);
        let mut rows: Vec<Vec<u64>> = (0..n).map(|_| list(n)).collect();
        for row in &mut rows {
            let terms = row.iter().zip(&known);
            let right = terms.fold(0, |sum, (&s, &x)| k.add(sum, k.mul(s, x)));
            row.push(right);
        }
        assert_eq!(eliminate(k, rows.clone()), Some(known));
        if n > 2 {
            let sum = rows[0].iter().zip(&rows[1]).map(|(&s, &t)| k.add(s, t));
            rows[n - 1] = sum.collect();
            assert_eq!(eliminate(k, rows), None);
        }
    }
}

/// Document 01's first question without its word of kind 7.
const FIRST: [u32; 7] = [
    0x1000_03f1,
    0x2000_0001,
    0x3000_0003,
    0x4000_0109,
    0x5000_036d,
    0x6000_0003,
    0xf000_0000,
];

/// The words with another one at a place.
fn with_word(words: &[u32], place: usize, new: u32) -> Vec<u32> {
    let mut changed = words.to_vec();
    changed[place] = new;
    changed
}

/// FIRST with another value at a place.
fn with_value(place: usize, new: u64) -> Vec<u32> {
    with_word(&FIRST, place, word(kind(FIRST[place]), new))
}

/// The answers of document 01's questions over 1009 do not need their sum. With B~ = 878 no
/// sum has one: A~ = -9A - 30 r^2 for g = x - r leaves r = 23 and r = -23, of which the
/// first leads to 877, and the second is no root of 3x^4 + 6x^2 + 36x - 1, as 23 is one.
#[test]
fn marked_questions() {
    let Written::Words(words) = asked(&FIRST) else {
        panic!("the first question has an answer");
    };
    let lines: Vec<String> = words.iter().map(|w| format!("{w:08x}")).collect();
    assert_eq!(lines, marked::PRINTED);
    let marked = [marked::first(), marked::not_cyclic(), marked::second()];
    marked.iter().for_each(gives_itself_back);
    refused(&with_value(4, 878), 11);
    // The rows for questions with a sum are as before, and so is every other row.
    for row in marked::rows() {
        if let reference::call::Call::Solve { sheet, room } = &row.call {
            let before = solve(sheet, *room);
            assert_eq!(solve_with_or_without_sum(sheet, *room), before);
        }
        assert_eq!(row.call.reply(), row.reply, "{}", row.name);
    }
}

/// Over 23, the least prime that passes 17: from (0, 1) to (0, -27), g = x, N = x^3 + 4, as
/// document 01 has it over 11. Values from p on are taken modulo p, A = p as A = 0.
#[test]
fn least_prime_by_hand() {
    let question = [0x1000_0017, 0x2000_0000, 0x3000_0001, 0x4000_0000];
    let question = [&question[..], &[0x5000_0013, 0x6000_0003, 0xf000_0000]].concat();
    let mut answer = question[..6].to_vec();
    answer.extend([0x7000_0000, 0x8000_0000, 0x8000_0001]);
    answer.extend([0x9000_0004, 0x9000_0000, 0x9000_0000, 0x9000_0001]);
    answer.extend([0xa000_0001, 0xf000_0000]);
    let answer = Written::Words(answer);
    assert_eq!(asked(&question), answer);
    let kinds: Vec<u32> = places(&question)
        .iter()
        .map(|&i| kind(question[i]))
        .collect();
    assert_eq!(kinds, [A, B, A_T, B_T]);
    for i in places(&question) {
        let value = u64::from(question[i] & 0xfff_ffff);
        for new in alike(value, 23).take(1000).chain([greatest(value, 23)]) {
            let words = with_word(&question, i, word(kind(question[i]), new));
            assert_eq!(asked(&words), answer, "{new} at {i}");
        }
    }
    assert_eq!(asked(&with_word(&question, 1, 0x2000_0017)), answer);
    // p, l and the end are never reduced.
    refused(&with_word(&question, 0, 0x1000_002e), 3);
    refused(&with_word(&question, 5, 0x6000_001a), 4);
    refused(&with_word(&question, 6, 0xf000_0017), 6);
    // Over 19, where -27 is 11, 8l - 5 is p.
    let over_19 = CurvePair::of([19, 0, 1, 0, 11, 3]);
    refused(&over_19.words(), 17);
    let answer = services::solution(&over_19.with(0)).expect("the same map");
    assert_eq!((answer.g, answer.n), (vec![0, 1], vec![4, 0, 0, 1]));
}

/// Without a seventh word, and with one of another kind than 7 or 15, a sheet is not of the
/// new form, and question 2 wants seven words as before.
#[test]
fn question_2() {
    for count in 0..7 {
        refused(&FIRST[..count], 2);
        // An end that comes too early, alone and with words behind it.
        if count < 6 {
            let early = [&FIRST[..count], &[0xf000_0000]].concat();
            refused(&early, 2);
            refused(&with_word(&FIRST, count, 0xf000_0000), 2);
            let with_sum = marked::first().question.words();
            refused(&with_word(&with_sum, count, 0xf000_0000), 2);
        }
    }
    for other in (0..15).filter(|&k| k != SIGMA) {
        for value in [0, 1, 46] {
            let words = with_word(&FIRST, 6, word(other, value));
            refused(&words, 2);
            refused(&[&words[..], &[0xf000_0000]].concat(), 2);
        }
    }
    for (place, right) in [P, A, B, A_T, B_T, L].into_iter().enumerate() {
        for other in (0..16).filter(|&k| k != right) {
            refused(&with_word(&FIRST, place, word(other, 3)), 2);
        }
        for second in 0..place {
            let mut words = FIRST;
            words.swap(place, second);
            refused(&words, 2);
        }
    }
    refused(&[0xf000_0000; 7], 2);
    refused(&[0xf000_0000; 8], 2);
}

/// Seven words make the sheet: an end with a value gets 6, and so does an eighth word of any
/// kind. With the sum there are eight words, and a ninth gets 6 as before.
#[test]
fn question_6() {
    for value in [1, 2, 1009, (1 << 28) - 1] {
        refused(&with_value(6, value), 6);
        refused(&[&with_value(6, value)[..], &[0xf000_0000]].concat(), 6);
    }
    for other in 0..16 {
        for value in [0, 46] {
            refused(&[&FIRST[..], &[word(other, value)]].concat(), 6);
            let nine = [&FIRST[..], &[word(other, value), 0xf000_0000]].concat();
            refused(&nine, 6);
        }
    }
    let with_sum = marked::first().question.words();
    refused(&with_sum[..7], 6);
    refused(&[&with_sum[..7], &[0xf000_0001]].concat(), 6);
    refused(&[&with_sum[..], &[0xf000_0000]].concat(), 6);
    refused(&[&with_sum[..7], &[0x7000_002e, 0xf000_0000]].concat(), 6);
    // A certificate, with its sum and without it.
    let certificate = marked::first().words();
    refused(&certificate, 6);
    refused(&[&certificate[..6], &certificate[7..]].concat(), 2);
    refused(&[&FIRST[..], &certificate[7..]].concat(), 6);
}

#[test]
fn values_of_primes_degrees_and_curves() {
    for p in [
        0,
        1,
        2,
        3,
        5,
        7,
        9,
        10,
        1001,
        1007,
        1010,
        2 * 1009,
        (1 << 28) - 1,
    ] {
        refused(&with_value(0, p), 3);
    }
    for l in [
        0,
        1,
        2,
        4,
        6,
        124,
        126,
        254,
        256,
        257,
        505,
        1009 + 3,
        (1 << 28) - 1,
    ] {
        refused(&with_value(5, l), 4);
    }
    // 8 * 127 - 5 = 1011, and up to 255 degrees pass 4 over 1009.
    for l in [127, 129, 131, 253, 255] {
        refused(&with_value(5, l), 17);
    }
    refused(&with_value(5, 125), 11);
    for (a, b) in [
        (0, 0),
        (1009, 0),
        (0, 1009),
        (2018, 1009),
        (1006, 2),
        (1006, 1011),
    ] {
        refused(&CurvePair::of([1009, a, b, 265, 877, 3]).words(), 7);
        refused(&CurvePair::of([1009, 1, 3, a, b, 3]).words(), 7);
    }
    // 1 + 1009 is 1 again, and the largest value that is 1.
    for a in [1010, greatest(1, 1009)] {
        let answer = Written::Words(marked::first().words());
        assert_eq!(asked(&with_value(1, a)), answer);
    }
}

/// The first "no" decides, in the order 1, 2, 3, 4, 17, 6, 7, 11, and 5 stops nothing: every
/// choice of questions that fail, with values from p on.
#[test]
fn order_of_questions() {
    const ORDER: [Refusal; 8] = [1, 2, 3, 4, 17, 6, 7, 11];
    for choice in 1..1 << ORDER.len() {
        let fails = |number: Refusal| {
            let place = ORDER.iter().position(|&n| n == number);
            choice >> place.expect("a question that is asked") & 1 == 1
        };
        let room = LARGEST_CERTIFICATE - usize::from(fails(1));
        let p = if fails(3) { 1001 } else { 1009 };
        // 127 and 128 do not pass 17 over 1009 or 1001; 6 and 128 are even.
        let l = match (fails(4), fails(17)) {
            (false, false) => 3,
            (true, false) => 6,
            (false, true) => 127,
            (true, true) => 128,
        };
        let (a, b) = if fails(7) { (0, 1009) } else { (1010, 3) };
        let b_t = if fails(11) { 878 } else { 877 + 1009 };
        let mut words = CurvePair::of([p, a, b, 265, b_t, l]).words();
        if fails(2) {
            words[4] = word(SIGMA, b_t);
        }
        if fails(6) {
            words[6] = word(END, 1);
        }
        let first = ORDER.into_iter().find(|&number| fails(number));
        let expected = Written::Refused(first.expect("one fails"));
        assert_eq!(solve_with_or_without_sum(&words, room), expected);
    }
    for room in 0..LARGEST_CERTIFICATE {
        let refused = Written::Refused(1);
        assert_eq!(solve_with_or_without_sum(&FIRST, room), refused);
        assert_eq!(solve_with_or_without_sum(&[], room), refused);
    }
}

/// No other sheet is of the new form. The kernel sheet of degree 3 has its end in the seventh
/// place, and is a kernel sheet; a certificate needs its sum.
#[test]
fn other_sheets() {
    let certificate = marked::first();
    let kernel = certificate.kernel_sheet().words();
    let kinds: Vec<u32> = kernel.iter().map(|&w| kind(w)).collect();
    assert_eq!(kinds, [P, A, B, L, G, G, END]);
    let answer = services::kernel(&kernel, LARGEST_CERTIFICATE);
    assert_eq!(answer, Written::Words(certificate.words()));
    refused(&kernel, 2);
    let answer = services::kernel(&FIRST, LARGEST_CERTIFICATE);
    assert_eq!(answer, Written::Refused(2));
    let words = certificate.words();
    let without = [&words[..6], &words[7..]].concat();
    for sheet in [&FIRST[..], &without, &[&FIRST[..], &words[7..]].concat()] {
        let checked = services::check(sheet);
        assert_eq!(checked, services::Checked::Refused(2));
        let composed = services::compose(sheet, &words, LARGEST_CERTIFICATE);
        assert_eq!(composed, Written::Refused(2));
    }
}

/// A question with its sum is answered as before, whatever 8l - 5 is.
#[test]
fn questions_with_their_sum() {
    let mut random = Random::new(98);
    for p in [11, 13, 19, 23, 101, 1009, LARGEST] {
        for l in [3, 5, 7, 25, 127, 255] {
            for _ in 0..20 {
                let question = generate::random_question(&mut random, p, l);
                let words = raised(&mut random, &question.words());
                let before = solve(&words, LARGEST_CERTIFICATE);
                assert_eq!(asked(&words), before);
            }
        }
    }
}
