//! Sheets cut short at every byte, and sheets with more words than any form; those with
//! about as many words as the longest certificate, which has 393.

use reference::call::{Call, INFINITY};
use reference::field::Field;
use reference::generate;
use reference::marked;
use reference::poly::Poly;
use reference::random::Random;
use reference::rules;
use reference::sheet::{bytes_of, word, Certificate, Question, END, G, N};
use reference::sheet::{A, B_T, LARGEST_CERTIFICATE, P, RATIONAL};

use crate::groups::certificates::LARGEST_PRIME;
use crate::groups::document;
use crate::judge::Judge;

pub fn run(judge: &mut Judge, quick: bool) {
    let mut random = Random::new(80);
    let mut certificates = document::samples();
    certificates.push(marked::smallest());
    if !quick {
        let long = generate::from_points(&mut random, LARGEST_PRIME, &[63, 255], 20_000);
        certificates.extend(long);
    }
    for certificate in &certificates {
        cut(judge, certificate);
        longer(judge, &mut random, certificate);
    }
    longest(judge);
}

/// A certificate of 393 words that meets R1 and R2: degree 255, g = x^127, sigma 0. The
/// entries that take bytes have to see the 394th word, whatever it is.
fn longest(judge: &mut Judge) {
    let g = Poly::with_roots(Field::new(1009), &[0; 127]);
    let certificate = Certificate {
        question: Question::of([1009, 1, 3, 265, 877, 255, 0]),
        g: g.padded(128),
        n: rules::r2(1, 3, 255, 0, &g).padded(256),
        rational: 1,
    };
    let words = certificate.words();
    assert_eq!(words.len(), LARGEST_CERTIFICATE);
    both(judge, &words, 10);
    for count in [words.len() - 2, words.len() - 1] {
        both(judge, &words[..count], 6);
    }
    for more in 1..6 {
        for filler in [0, word(END, 0), word(RATIONAL, 1), word(N, 1), u32::MAX] {
            let mut long = words.clone();
            long.resize(words.len() + more, filler);
            both(judge, &long, 6);
            // The end where it would be with so many words more.
            long[words.len() - 1] = filler;
            *long.last_mut().expect("not empty") = word(END, 0);
            both(judge, &long, 6);
            // What comes first is asked first, however long the sheet is.
            for (place, other, number) in [
                (0, word(P, 1001), 3),
                (1, word(A, 1009), 5),
                (4, word(B_T + 1, 877), 2),
            ] {
                let mut spoiled = long.clone();
                spoiled[place] = other;
                both(judge, &spoiled, number);
            }
        }
    }
    let mut wrong = words.clone();
    wrong[words.len() - 2] = word(RATIONAL, 127);
    both(judge, &wrong, 9);
}

/// To check and to push.
fn both(judge: &mut Judge, words: &[u32], number: u32) {
    judge.refuses(&Call::check(words), number);
    judge.refuses(&Call::push(words, INFINITY), number);
}

fn cut(judge: &mut Judge, certificate: &Certificate) {
    let bytes = certificate.bytes();
    for count in 0..bytes.len() {
        let bytes = bytes[..count].to_vec();
        let point = INFINITY;
        judge.agrees(&Call::Check {
            bytes: bytes.clone(),
        });
        judge.agrees(&Call::Push { bytes, point });
    }
    for words in forms(certificate) {
        for count in 0..words.len() {
            judge.agrees(&Call::solve(&words[..count]));
            judge.agrees(&Call::kernel(&words[..count]));
            judge.agrees(&Call::check(&words[count..]));
        }
    }
}

/// The certificate, its question and its kernel sheet.
fn forms(certificate: &Certificate) -> [Vec<u32>; 3] {
    [
        certificate.words(),
        certificate.question.words(),
        certificate.kernel_sheet().words(),
    ]
}

fn longer(judge: &mut Judge, random: &mut Random, certificate: &Certificate) {
    for words in forms(certificate) {
        for extra in [1, 2, 3, 7, 100, 385, 393, 1000, 5000, 20_000] {
            let fill = [word(END, 0), 0, word(G, 1), word(N, 0), random.word()];
            for filler in fill {
                // After the end, and in the place of the end.
                for keep in [words.len(), words.len() - 1] {
                    let mut long = words[..keep].to_vec();
                    long.resize(words.len() + extra, filler);
                    put(judge, &long);
                    *long.last_mut().expect("not empty") = word(END, 0);
                    put(judge, &long);
                }
            }
        }
        for stray in 1..4 {
            let mut bytes = bytes_of(&words);
            bytes.extend(vec![0; stray]);
            judge.agrees(&Call::Check { bytes });
        }
    }
}

fn put(judge: &mut Judge, words: &[u32]) {
    judge.agrees(&Call::check(words));
    judge.agrees(&Call::solve(words));
    judge.agrees(&Call::kernel(words));
}
