//! Every question and every kernel sheet over small fields, held against
//! exhaustive search over all monic g and all codomains; over the smallest also with
//! values of any size, which request E2 reduces.

use std::collections::HashMap;

use reference::brute::{all_isogenies, all_monic, all_pairs, is_curve};
use reference::call::{Call, Reply};
use reference::field::Field;
use reference::random::Random;
use reference::sheet::{self, Certificate, KernelSheet, Question};
use reference::unreduced::raised;

use crate::judge::Judge;

/// Fields and degrees of which every question is put.
pub fn fields(quick: bool) -> Vec<(u64, u64)> {
    if quick {
        return vec![(11, 3), (11, 5)];
    }
    let primes = [11, 13, 17, 19, 23];
    primes.iter().flat_map(|&p| [(p, 3), (p, 5)]).collect()
}

/// Fields and degrees of which every question is also put with other values.
pub fn unreduced_fields(quick: bool) -> Vec<(u64, u64)> {
    if quick {
        vec![(11, 3)]
    } else {
        vec![(11, 3), (11, 5), (13, 3), (17, 5)]
    }
}

/// Each sheet with values of any size, all drawn.
pub fn unreduced(judge: &mut Judge, p: u64, l: u64) {
    let mut random = Random::new(55);
    whole(judge, p, l, |words| raised(&mut random, &words));
}

type Answers = HashMap<(u64, u64, u64), Certificate>;

/// What search finds for a domain, by codomain and sigma. Two g for one
/// question would contradict document 01's demand that solve have one answer.
fn answers(p: u64, a: u64, b: u64, l: u64) -> Answers {
    let mut answers = HashMap::new();
    for certificate in all_isogenies(p, a, b, l) {
        let q = &certificate.question;
        let key = (q.a_t, q.b_t, q.sigma);
        let second = answers.insert(key, certificate);
        assert!(second.is_none(), "two g for one question: {second:?}");
    }
    answers
}

/// Every question and kernel sheet of a field and a degree, each written as wanted.
pub fn whole(judge: &mut Judge, p: u64, l: u64, mut write: impl FnMut(Vec<u32>) -> Vec<u32>) {
    let mut solved = 0;
    for (a, b) in all_pairs(p) {
        let answers = if is_curve(p, a, b) {
            Some(answers(p, a, b, l))
        } else {
            None
        };
        for (a_t, b_t) in all_pairs(p) {
            let reaches_11 = is_curve(p, a_t, b_t);
            for sigma in 0..p {
                let question = Question::of([p, a, b, a_t, b_t, l, sigma]);
                let reply = match &answers {
                    Some(answers) if reaches_11 => solve_reply(answers, &question),
                    _ => Reply::refused(7),
                };
                solved += u64::from(!reply.words.is_empty());
                judge.expect(&Call::solve(&write(question.words())), &reply);
            }
        }
        kernels(judge, (p, a, b, l), answers.as_ref(), &mut write);
    }
    judge.note(format!("{solved} questions with an answer"));
}

fn solve_reply(answers: &Answers, question: &Question) -> Reply {
    let key = (question.a_t, question.b_t, question.sigma);
    match answers.get(&key) {
        Some(certificate) => Reply::written(certificate.words()),
        None => Reply::refused(11),
    }
}

/// Every kernel sheet with leading coefficient 1 on one curve.
fn kernels(
    judge: &mut Judge,
    (p, a, b, l): (u64, u64, u64, u64),
    answers: Option<&Answers>,
    write: &mut impl FnMut(Vec<u32>) -> Vec<u32>,
) {
    let mut by_g: HashMap<&[u64], &Certificate> = HashMap::new();
    for certificate in answers.iter().flat_map(|answers| answers.values()) {
        if is_curve(p, certificate.question.a_t, certificate.question.b_t) {
            let second = by_g.insert(&certificate.g, certificate);
            assert!(second.is_none(), "two codomains for one g: {second:?}");
        }
    }
    for g in all_monic(Field::new(p), sheet::half(l)) {
        let g = g.coefficients();
        let reply = match (answers, by_g.get(g)) {
            (None, _) => Reply::refused(7),
            (_, Some(certificate)) => Reply::written(certificate.words()),
            (_, None) => Reply::refused(11),
        };
        let g = g.to_vec();
        let sheet = KernelSheet { p, a, b, l, g };
        judge.expect(&Call::kernel(&write(sheet.words())), &reply);
    }
}

/// Fields of which only the questions beside an answer are put.
pub fn larger_fields(quick: bool) -> Vec<(u64, u64)> {
    if quick {
        return vec![(13, 5), (17, 3)];
    }
    let degree_3 = [29, 31, 37, 41].map(|p| (p, 3));
    [&[(17, 7), (19, 7)], &degree_3[..]].concat()
}

/// The questions that have an answer, those beside them, and all kernels.
pub fn near(judge: &mut Judge, p: u64, l: u64) {
    // With degree 7 search is long: two curves of each row.
    let row = if l == 7 { 2 } else { p };
    for (a, b) in all_pairs(p).filter(|&(a, b)| is_curve(p, a, b) && b < row) {
        let answers = answers(p, a, b, l);
        let questions = answers.values().map(|certificate| &certificate.question);
        for q in questions.flat_map(beside) {
            let reply = if is_curve(p, q.a_t, q.b_t) {
                solve_reply(&answers, &q)
            } else {
                Reply::refused(7)
            };
            judge.expect(&Call::solve(&q.words()), &reply);
        }
        kernels(judge, (p, a, b, l), Some(&answers), &mut |words| words);
    }
}

/// A question and those that differ from it by 1 in sigma or the codomain.
fn beside(q: &Question) -> Vec<Question> {
    let next = |value: u64| (value + 1) % q.p;
    let previous = |value: u64| (value + q.p - 1) % q.p;
    let mut list = vec![q.clone(); 7];
    list[1].sigma = next(q.sigma);
    list[2].sigma = previous(q.sigma);
    list[3].a_t = next(q.a_t);
    list[4].a_t = previous(q.a_t);
    list[5].b_t = next(q.b_t);
    list[6].b_t = previous(q.b_t);
    list
}
