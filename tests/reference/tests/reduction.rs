//! Request E2: values at and above p are taken modulo p on question and kernel
//! sheets, and nowhere else.

use std::collections::BTreeSet;

use reference::brute::{all_isogenies, all_pairs, is_curve};
use reference::call::{answered, Call, Put, Reply, INFINITY};
use reference::curve::Curve;
use reference::field::Field;
use reference::generate;
use reference::marked;
use reference::random::Random;
use reference::sheet::{self, kind, value, with_value, word};
use reference::sheet::{Certificate, KernelSheet, Question, Reading};
use reference::sheet::{A, A_T, B, B_T, END, G, L, P, RATIONAL, SIGMA, VALUE_LIMIT};
use reference::spoil::{self, Service};
use reference::unreduced::{alike, any, greatest, limits, places, raised, reduced};

const LARGEST: u64 = 268435399;

/// Over small primes, over primes of which two or three multiples fit a word, and
/// over the largest, where a value from p on is at most p + 56.
fn certificates() -> Vec<Certificate> {
    let mut random = Random::new(13);
    let mut list = vec![marked::first(), marked::not_cyclic(), marked::smallest()];
    for p in [11, 13, 23, 101, 1009, 65521, 134217689, 134217757, LARGEST] {
        let lawful = [3, 5, 9, 15].into_iter();
        let lawful: Vec<u64> = lawful
            .filter(|&l| sheet::ask_degree(l, p).is_ok())
            .collect();
        list.extend(generate::from_points(&mut random, p, &lawful, 3000));
    }
    list.extend(small_over_the_largest());
    list
}

/// Multiplications by 3 with small values: on (0, 1) g = x^4 + 4x and (A, B) goes to
/// (81 A, 729 B), so the second has codomain (1, 2).
fn small_over_the_largest() -> [Certificate; 2] {
    let k = Field::new(LARGEST);
    [(0, 1), (k.inv(81), k.div(2, 729))]
        .map(|(a, b)| generate::multiplication(&Curve::new(LARGEST, a, b), 3))
}

/// The place of the first word of a kind.
fn place(words: &[u32], wanted: u32) -> usize {
    let found = words.iter().position(|&w| kind(w) == wanted);
    found.expect("the sheet has a word of this kind")
}

/// All values alike, or if they are many the first, the last and some between.
fn many_alike(v: u64, p: u64) -> Vec<u64> {
    if VALUE_LIMIT / p < 5000 {
        return alike(v, p).collect();
    }
    let (first, last) = (alike(v, p).take(1000), alike(v, p).rev().take(1000));
    let between = alike(v, p).step_by((VALUE_LIMIT / p / 1000) as usize);
    first.chain(last).chain(between).collect()
}

#[test]
fn every_value_by_counting() {
    for p in [11, 134217689] {
        let mut residue = 0;
        for v in 0..VALUE_LIMIT {
            assert_eq!(Reading::Reduced.value(v, p, 5), Ok(residue), "{v}, {p}");
            residue = if residue + 1 == p { 0 } else { residue + 1 };
        }
    }
}

#[test]
fn alike_are_all_of_a_class() {
    for (v, p) in [(0, 65521), (65520, 65521), (70000, 65521), (56, LARGEST)] {
        let class: Vec<u64> = alike(v, p).collect();
        assert!(class.windows(2).all(|pair| pair[1] - pair[0] == p));
        assert_eq!((class[0], class.last()), (v % p, Some(&greatest(v, p))));
        assert!((VALUE_LIMIT - p..VALUE_LIMIT).contains(&greatest(v, p)));
    }
    assert_eq!(alike(57, LARGEST).count(), 1);
    assert_eq!(limits(LARGEST).len(), 4);
}

/// One place after the other: the certificate is that of the reduced sheet, to the
/// word.
#[test]
fn one_value_of_any_size() {
    for certificate in certificates() {
        let answer = Reply::written(certificate.words());
        for (put, words) in answered(&certificate) {
            for i in places(&words) {
                for new in many_alike(value(words[i]), certificate.question.p) {
                    assert_eq!(
                        put(&with_value(&words, i, new)).reply(),
                        answer,
                        "{new} at {i}"
                    );
                }
            }
        }
    }
}

#[test]
fn all_values_of_any_size() {
    let mut random = Random::new(14);
    for certificate in certificates() {
        let answer = Reply::written(certificate.words());
        for (put, words) in answered(&certificate) {
            for _ in 0..100 {
                assert_eq!(put(&raised(&mut random, &words)).reply(), answer);
            }
        }
    }
}

/// Over the largest prime every place of both sheets can have a value from p on.
#[test]
fn from_p_on_over_the_largest_prime() {
    let mut kinds = BTreeSet::new();
    for certificate in small_over_the_largest() {
        let answer = Reply::written(certificate.words());
        for (put, words) in answered(&certificate) {
            for i in places(&words) {
                let new = value(words[i]) + LARGEST;
                if new < VALUE_LIMIT {
                    assert_eq!(put(&with_value(&words, i, new)).reply(), answer);
                    kinds.insert(kind(words[i]));
                }
            }
        }
    }
    assert_eq!(kinds, BTreeSet::from([A, B, A_T, B_T, SIGMA, G]));
    let p = LARGEST;
    let sheet = KernelSheet {
        p,
        a: p,
        b: p + 1,
        l: 9,
        g: vec![p, p + 4, p, p, p + 1],
    };
    let [expected, _] = small_over_the_largest();
    let reply = Call::kernel(&sheet.words()).reply();
    assert_eq!(reply, Reply::written(expected.words()));
}

/// 2^10 is 1 modulo 11, so 2^28 - 1 is 2^8 - 1, which is 2.
#[test]
fn the_last_value_over_eleven() {
    let mut kinds = BTreeSet::new();
    for (a, b) in all_pairs(11).filter(|&(a, b)| is_curve(11, a, b)) {
        for certificate in all_isogenies(11, a, b, 3) {
            if !is_curve(11, certificate.question.a_t, certificate.question.b_t) {
                continue;
            }
            for (put, words) in answered(&certificate) {
                let twos = places(&words).into_iter();
                for i in twos.filter(|&i| value(words[i]) == 2) {
                    let reply = put(&with_value(&words, i, VALUE_LIMIT - 1)).reply();
                    assert_eq!(reply, Reply::written(certificate.words()));
                    kinds.insert(kind(words[i]));
                }
            }
        }
    }
    assert_eq!(kinds, BTreeSet::from([A, B, A_T, B_T, SIGMA, G]));
}

#[test]
fn leading_coefficients() {
    for certificate in certificates() {
        let words = certificate.kernel_sheet().words();
        let (p, leading) = (certificate.question.p, words.len() - 2);
        let reply = |new: u64| Call::kernel(&with_value(&words, leading, new)).reply();
        for new in many_alike(1, p) {
            assert_eq!(reply(new), Reply::written(certificate.words()), "{new}");
        }
        for new in [0, 2, p - 1].map(|v| many_alike(v, p)).concat() {
            assert_eq!(reply(new), Reply::refused(8), "{new}");
        }
    }
}

/// Curves that are singular only after reduction, as domain and as codomain.
#[test]
fn singular_after_reduction() {
    let mut random = Random::new(15);
    for p in [11, 1009, 65521, 67108859] {
        let k = Field::new(p);
        let mut curves = vec![(p, 0), (0, p), (p, p), (2 * p, p), (p, 3 * p)];
        for _ in 0..20 {
            let (a, b) = generate::singular(k, random.below(p));
            let mut any = |v: u64| any(&mut random, v, p);
            curves.extend([(a, any(b)), (any(a), b), (any(a), any(b))]);
        }
        for (a, b) in curves {
            let g = vec![p, p + 1];
            let calls = [
                Call::solve(&Question::of([p, a, b, 0, 1, 3, 0]).words()),
                Call::solve(&Question::of([p, 0, 1, a, b, 3, 0]).words()),
                Call::kernel(&KernelSheet { p, a, b, l: 3, g }.words()),
            ];
            for call in calls {
                assert_eq!(call.reply(), Reply::refused(7), "{call:?}");
            }
        }
    }
}

/// On a certificate the same values get 5 in the header and 6 behind it, and for the
/// count of rational abscissas, of which R2 is worked out first, 9.
#[test]
fn certificates_stay_strict() {
    for certificate in certificates() {
        let (p, words) = (certificate.question.p, certificate.words());
        for i in (1..words.len() - 1).filter(|&i| i != 5) {
            let (number, step) = match kind(words[i]) {
                RATIONAL => (9, 20),
                _ if i < 7 => (5, 1),
                _ => (6, 1),
            };
            let from_p = many_alike(value(words[i]), p).into_iter().step_by(step);
            for new in from_p.filter(|&v| v >= p).chain(limits(p)) {
                let changed = with_value(&words, i, new);
                for call in [Call::check(&changed), Call::push(&changed, INFINITY)] {
                    assert_eq!(call.reply(), call.refusal(number), "{new} at {i}");
                }
            }
        }
    }
}

#[test]
fn name_stays_strict() {
    for p in [11u32, 1009, 65521, LARGEST as u32] {
        for v in [0, 1, p - 1] {
            for large in (v..=u32::MAX).step_by(p as usize).skip(1).take(1000) {
                for (a, b) in [(large, 1), (1, large), (large, large)] {
                    assert_eq!(Call::Name { p, a, b }.reply(), Reply::refused(5));
                }
            }
        }
    }
}

/// Of l, p and the end what is lawful modulo p is not lawful.
#[test]
fn primes_degrees_and_ends_are_never_reduced() {
    for certificate in certificates() {
        let p = certificate.question.p;
        for (put, words) in answered(&certificate) {
            for (wanted, number) in [(P, 3), (L, 4), (END, 6)] {
                let i = place(&words, wanted);
                // Of p itself these are the multiples of p.
                let others = many_alike(value(words[i]), p).into_iter();
                for new in others.filter(|&v| v != value(words[i])) {
                    let reply = put(&with_value(&words, i, new)).reply();
                    assert_eq!(reply, Reply::refused(number), "{new} at {i}");
                }
            }
        }
    }
    let mut question = marked::smallest().question;
    question.l = 3 + 2 * 11;
    assert_eq!(Call::solve(&question.words()).reply(), Reply::refused(4));
}

/// A sheet and the same sheet reduced get the same answer: number and every word.
#[test]
fn judged_by_what_it_becomes() {
    let same = |put: Put, words: &[u32]| {
        let reply = put(words).reply();
        assert_eq!(reply, put(&reduced(words)).reply(), "{words:08x?}");
        reply
    };
    let mut random = Random::new(16);
    let (mut answers, mut none) = (0, 0);
    for certificate in certificates() {
        for (put, words) in answered(&certificate) {
            for _ in 0..2000 {
                let mut changed = raised(&mut random, &words);
                let i = *random.pick(&places(&words));
                changed[i] = word(kind(words[i]), random.below(VALUE_LIMIT));
                let reply = same(put, &changed);
                answers += usize::from(!reply.words.is_empty());
                none += usize::from(reply == Reply::refused(11));
            }
        }
    }
    assert!(answers > 1000 && none > 1000, "{answers}, {none}");
    for service in [Service::Solve, Service::Kernel] {
        for (call, _) in spoil::cases(service, &marked::not_cyclic()) {
            match call {
                Call::Solve { sheet, .. } => same(Call::solve, &sheet),
                Call::Kernel { sheet, .. } => same(Call::kernel, &sheet),
                _ => unreachable!("the service is solve or kernel"),
            };
        }
    }
}
