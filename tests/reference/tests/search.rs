//! The services held against exhaustive search over tiny fields.

use std::collections::HashMap;

use reference::brute::{all_isogenies, all_monic, all_pairs, is_curve, TINY};
use reference::call::{Call, Reply};
use reference::field::Field;
use reference::random::Random;
use reference::rules::{self, R3};
use reference::services;
use reference::sheet::{self, Certificate, KernelSheet, Question};
use reference::unreduced::raised;

/// Solve on every question over p with this degree, as it stands and with values
/// of any size.
fn solve_agrees(p: u64, l: u64) {
    let mut random = Random::new(p);
    for (a, b) in all_pairs(p).filter(|&(a, b)| is_curve(p, a, b)) {
        let mut found: HashMap<(u64, u64, u64), Certificate> = HashMap::new();
        for c in all_isogenies(p, a, b, l) {
            let q = &c.question;
            let key = (q.a_t, q.b_t, q.sigma);
            assert!(found.insert(key, c).is_none(), "two g for one question");
        }
        for (a_t, b_t) in all_pairs(p).filter(|&(a_t, b_t)| is_curve(p, a_t, b_t)) {
            for sigma in 0..p {
                let question = Question::of([p, a, b, a_t, b_t, l, sigma]);
                let expected = found.get(&(a_t, b_t, sigma));
                assert_eq!(services::solution(&question).as_ref(), expected);
                let asked = Call::solve(&raised(&mut random, &question.words()));
                assert_eq!(asked.reply(), reply(expected));
            }
        }
    }
}

fn reply(expected: Option<&Certificate>) -> Reply {
    expected.map_or(Reply::refused(11), |c| Reply::written(c.words()))
}

/// Kernel on every monic g over p with this degree, as it stands and with values of
/// any size.
fn kernel_agrees(p: u64, l: u64) {
    let mut random = Random::new(p);
    let field = Field::new(p);
    for (a, b) in all_pairs(p).filter(|&(a, b)| is_curve(p, a, b)) {
        let mut found: HashMap<Vec<u64>, Certificate> = HashMap::new();
        for c in all_isogenies(p, a, b, l) {
            if is_curve(p, c.question.a_t, c.question.b_t) {
                let two = found.insert(c.g.clone(), c);
                assert!(two.is_none(), "two codomains for one g");
            }
        }
        for g in all_monic(field, sheet::half(l)) {
            let expected = found.get(g.coefficients());
            assert_eq!(services::from_kernel(p, a, b, l, &g).as_ref(), expected);
            codomain_agrees(a, b, l, &g);
            let g = g.coefficients().to_vec();
            let sheet = KernelSheet { p, a, b, l, g }.words();
            let asked = Call::kernel(&raised(&mut random, &sheet));
            assert_eq!(asked.reply(), reply(expected));
        }
    }
}

/// Velu's codomain is the one that the two highest coefficients of R3 want.
fn codomain_agrees(a: u64, b: u64, l: u64, g: &reference::poly::Poly) {
    let d = sheet::half(l);
    let n = rules::r2(a, b, l, rules::sigma(g, d), g);
    let equation = R3::new(a, b, g, &n);
    let field = g.field();
    let s = rules::power_sums(g, d, 4);
    let h1 = rules::h_from_power_sums(field, a, b, &s, 1);
    let h2 = rules::h_from_power_sums(field, a, b, &s, 2);
    let codomain = (
        field.sub(a, field.mul(field.of(5), h1)),
        field.sub(b, field.mul(field.of(7), h2)),
    );
    assert_eq!(equation.matching_codomain(), codomain);
}

#[test]
fn solve_over_tiny_fields() {
    for (p, l) in [(11, 3), (13, 3), (11, 5)] {
        solve_agrees(p, l);
    }
}

#[test]
fn kernel_over_tiny_fields() {
    for (p, l) in TINY {
        kernel_agrees(p, l);
    }
}
