//! Limits that document 01 names: buffer sizes, degrees, names.

use reference::call::{Call, Reply};
use reference::field::Field;
use reference::generate::singular;
use reference::primes::{next_prime, sieve};
use reference::random::Random;
use reference::sheet::{bytes_of, word, KernelSheet, Question, A, L, P};

use crate::groups::certificates::LARGEST_PRIME;
use crate::groups::document;
use crate::judge::Judge;

/// Rooms around 393, with sheets that pass and sheets that do not.
pub fn rooms(judge: &mut Judge) {
    for certificate in document::samples() {
        let answer = Reply::written(certificate.words());
        let question = certificate.question.words();
        let kernel = certificate.kernel_sheet().words();
        for room in [0, 1, 15, 100, 391, 392, 393, 394, 1000, 8000] {
            let calls = |sheet: &[u32], other: &[u32]| {
                let (sheet, other) = (sheet.to_vec(), other.to_vec());
                [
                    Call::Solve { sheet, room },
                    Call::Kernel { sheet: other, room },
                ]
            };
            // Twice, for both ways to lay out the answer.
            for call in [calls(&question, &kernel), calls(&question, &kernel)].concat() {
                if room < 393 {
                    judge.refuses(&call, 1);
                } else {
                    judge.expect(&call, &answer);
                }
            }
            for (sheet, number) in [(&question[..6], 2), (&kernel[..3], 2), (&[][..], 2)] {
                for call in calls(sheet, sheet) {
                    let number = if room < 393 { 1 } else { number };
                    judge.refuses(&call, number);
                }
            }
        }
    }
}

/// Question 4 for every degree over every small prime. With a = p the next "no" is
/// 5 on a certificate; where values are reduced it is 6, for an end that is missing.
/// So 5 or 6 says that question 4 was passed.
pub fn degrees(judge: &mut Judge) {
    for p in sieve(600).into_iter().filter(|&p| p >= 11) {
        let p = u64::from(p);
        for l in (0..=260).chain([511, 65535, (1 << 28) - 1]) {
            let passes = l % 2 == 1 && (3..=255).contains(&l) && 2 * l - 1 < p;
            let number = |next: u32| if passes { next } else { 4 };
            let question = Question::of([p, p, 1, 0, 1, l, 0]).words();
            let sheet = KernelSheet {
                p,
                a: p,
                b: 1,
                l,
                g: vec![],
            };
            let kernel = sheet.words();
            judge.refuses(&Call::check(&question), number(5));
            for cut in [Call::solve(&question[..7]), Call::kernel(&kernel[..4])] {
                judge.refuses(&cut, number(6));
            }
        }
    }
    largest_degree(judge);
}

/// l = 255 is lawful over 521 and not over 509.
fn largest_degree(judge: &mut Judge) {
    let mut words = reference::marked::first().words();
    words[5] = word(L, 255);
    for (p, number) in [(509, 4), (521, 5)] {
        words[0] = word(P, p);
        words[1] = word(A, p);
        let bytes = bytes_of(&words);
        judge.refuses(&Call::Check { bytes }, number);
    }
}

/// Every curve over small primes, values at and above p, large primes.
pub fn names(judge: &mut Judge, quick: bool) {
    let limit = if quick { 24 } else { 80 };
    for p in sieve(limit).into_iter().filter(|&p| p >= 11) {
        for a in 0..p + 2 {
            for b in 0..p + 2 {
                judge.agrees(&Call::Name { p, a, b });
            }
        }
    }
    let mut random = Random::new(61);
    for _ in 0..if quick { 500 } else { 5000 } {
        let p = next_prime(random.below(LARGEST_PRIME - 1000) + 11) as u32;
        let mut value = || random.below(u64::from(p)) as u32;
        let (a, b) = (value(), value());
        for (a, b) in [(a, b), (0, b), (a, 0), (p - 1, b), (a, p), (a | 1 << 28, b)] {
            judge.agrees(&Call::Name { p, a, b });
        }
        let (a, b) = singular(Field::new(u64::from(p)), u64::from(a));
        let (a, b) = (a as u32, b as u32);
        judge.refuses(&Call::Name { p, a, b }, 7);
    }
}
