//! Push with every point of small curves, every pair of coordinates beside
//! them, and the limits of point numbers.

use reference::brute::all_pairs;
use reference::call::{point_number, Call, Reply, INFINITY};
use reference::curve::Curve;
use reference::generate;
use reference::marked;
use reference::random::Random;
use reference::services::{self, Point};
use reference::sheet::Certificate;

use crate::judge::Judge;

pub fn run(judge: &mut Judge) {
    let mut random = Random::new(70);
    let mut small = vec![marked::smallest()];
    for p in [11, 13, 17, 19, 23, 29] {
        small.extend(generate::from_points(&mut random, p, &[3, 5, 7, 9], 2000));
    }
    for certificate in &small {
        every_pair(judge, certificate);
    }
    for certificate in [marked::first(), marked::not_cyclic()] {
        every_point(judge, &certificate);
    }
    for certificate in small.iter().chain(&[marked::first()]) {
        limits(judge, certificate);
    }
}

/// The image is on the codomain; sums go to sums by the reference's tests.
fn every_point(judge: &mut Judge, certificate: &Certificate) {
    let q = &certificate.question;
    let words = certificate.words();
    for point in Curve::new(q.p, q.a, q.b).all_points() {
        let image = services::image(certificate, point).expect("a point of the domain");
        let reply = Reply::number(point_number(image));
        judge.expect(&Call::push(&words, point_number(point)), &reply);
    }
}

/// All coordinates from 0 to p, on the curve or not.
fn every_pair(judge: &mut Judge, certificate: &Certificate) {
    let words = certificate.words();
    for (u, v) in all_pairs(certificate.question.p + 1) {
        let point = point_number(Point::Affine(u, v));
        judge.agrees(&Call::push(&words, point));
    }
}

fn limits(judge: &mut Judge, certificate: &Certificate) {
    let words = certificate.words();
    let p = certificate.question.p;
    let value = (1 << 28) - 1;
    let points = [
        0,
        p,
        p << 28,
        (p << 28) + p,
        value,
        value << 28,
        INFINITY - 1,
        INFINITY,
        INFINITY + 1,
        INFINITY + 2,
        INFINITY | 1 << 28,
        2 * INFINITY,
        2 * INFINITY + 12,
        3 * INFINITY,
        1 << 63,
        u64::MAX - 1,
        u64::MAX,
    ];
    // The count, and the highest coefficient of N.
    let damaged = [2, 3].map(|from_end| {
        let mut damaged = words.clone();
        damaged[words.len() - from_end] ^= 2;
        damaged
    });
    for point in points {
        judge.agrees(&Call::push(&words, point));
        for words in &damaged {
            judge.agrees(&Call::push(words, point));
        }
        judge.agrees(&Call::push(&words[1..], point));
        judge.agrees(&Call::push(&[], point));
    }
}
