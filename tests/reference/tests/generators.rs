//! What the generators make passes check, is solved, and reaches every degree.

use std::collections::BTreeSet;

use reference::curve::Curve;
use reference::generate;
use reference::random::Random;
use reference::services::{self, Checked, Pushed};
use reference::sheet::Certificate;

const LARGEST: u64 = 268435399;

fn is_valid(certificate: &Certificate) {
    let words = certificate.words();
    assert_eq!(services::check(&words), Checked::Passes);
    let solved = services::solution(&certificate.question);
    assert_eq!(solved.as_ref(), Some(certificate));
}

#[test]
fn every_odd_degree_over_the_largest_prime() {
    let mut random = Random::new(4);
    let wanted: Vec<u64> = (3..=255).step_by(2).collect();
    let found = generate::from_points(&mut random, LARGEST, &wanted, 20_000);
    let degrees: BTreeSet<u64> = found.iter().map(|c| c.question.l).collect();
    assert_eq!(degrees.len(), wanted.len());
    for certificate in found.iter().step_by(9) {
        is_valid(certificate);
    }
}

#[test]
fn multiplications_and_compositions() {
    let mut random = Random::new(5);
    for p in [521, 1009, LARGEST] {
        let base = generate::from_points(&mut random, p, &[3, 5, 7, 11], 5000);
        assert_eq!(base.len(), 4);
        for certificate in &base {
            generate::with_multiplications(certificate)
                .iter()
                .for_each(is_valid);
            is_valid(&generate::rescale(certificate, 2));
        }
    }
}

#[test]
fn chains_up_to_255() {
    let mut random = Random::new(6);
    for degrees in [&[3, 5, 17][..], &[3, 3, 3, 3, 3], &[15, 17], &[5, 7, 7]] {
        let composed = generate::chain(&mut random, LARGEST, degrees, 20_000);
        is_valid(&composed.expect("some curve allows these steps"));
    }
}

#[test]
fn composition_is_push_after_push() {
    let mut random = Random::new(7);
    let first = generate::from_points(&mut random, 1009, &[5], 5000).remove(0);
    let middle = Curve::new(1009, first.question.a_t, first.question.b_t);
    let second = generate::multiplication(&middle, 3);
    let both = generate::compose(&first, &second);
    let domain = Curve::new(1009, first.question.a, first.question.b);
    let image = |certificate: &Certificate, point| match services::push(
        &certificate.words(),
        Some(point),
    ) {
        Pushed::Image(image) => image,
        Pushed::Refused(number) => panic!("{number}"),
    };
    for point in domain.all_points() {
        let twice = image(&second, image(&first, point));
        assert_eq!(image(&both, point), twice);
    }
}

#[test]
fn duals_exist() {
    let mut random = Random::new(8);
    for p in [521, 65521, LARGEST] {
        let wanted = [3, 5, 7, 9, 11, 13, 15, 45, 101, 127];
        for certificate in generate::from_points(&mut random, p, &wanted, 20_000) {
            let question = generate::dual_question(&certificate);
            let dual = services::solution(&question).expect("every isogeny has a dual");
            is_valid(&dual);
        }
    }
}
