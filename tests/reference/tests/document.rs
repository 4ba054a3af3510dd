//! Document 01's own rows, printed output and order of questions.

use reference::call::{point_number, point_of, Call, Reply, INFINITY, REFUSED};
use reference::curve::Curve;
use reference::generate;
use reference::marked;
use reference::random::Random;
use reference::rules;
use reference::services::{self, Point, Pushed, Written};
use reference::sheet::{self, Certificate};
use reference::spoil::{self, Service};

#[test]
fn every_marked_row_and_neighbour() {
    for row in marked::rows() {
        assert_eq!(row.call.reply(), row.reply, "{}", row.name);
    }
}

#[test]
fn printed_answer() {
    let Written::Words(words) = services::solve(&marked::first().question.words(), 393) else {
        panic!("the first question has an answer");
    };
    let lines: Vec<String> = words.iter().map(|w| format!("{w:08x}")).collect();
    assert_eq!(lines, marked::PRINTED);
    assert_eq!(words.len(), 15);
}

#[test]
fn nine_though_r3_holds() {
    let row = marked::rows()
        .into_iter()
        .find(|row| row.name == "9 though R3 holds")
        .expect("document 01 has this row");
    let Call::Check { bytes } = row.call else {
        panic!("the row is a check");
    };
    let words = sheet::words_of(&bytes).expect("whole words");
    let certificate = Certificate::read(&words).expect("passes 2 to 7");
    let q = &certificate.question;
    assert!(rules::R3::of(&certificate).holds(q.a_t, q.b_t));
}

#[test]
fn point_numbers() {
    assert_eq!(point_of(INFINITY), Some(Point::Infinity));
    assert_eq!(point_of(INFINITY + 1), None);
    assert_eq!(point_of(u64::MAX), None);
    let point = Point::Affine(617, 44);
    assert_eq!(point_number(point), 617 + 44 * (1 << 28));
    assert_eq!(point_of(point_number(point)), Some(point));
    assert_eq!(Reply::refused(12).number, REFUSED + 12);
}

#[test]
fn first_no_decides() {
    let mut random = Random::new(2);
    let composed = generate::chain(&mut random, 65521, &[3, 5], 2000).expect("a chain");
    for certificate in [marked::first(), marked::not_cyclic(), composed] {
        for service in Service::ALL {
            for (call, number) in spoil::cases(service, &certificate) {
                assert_eq!(call.reply(), call.refusal(number), "{call:?}");
            }
        }
    }
}

#[test]
fn every_point_over_eleven() {
    let certificate = marked::smallest();
    let words = certificate.words();
    let (domain, codomain) = (Curve::new(11, 0, 1), Curve::new(11, 0, 6));
    let mut to_infinity = 0;
    for point in domain.all_points() {
        let Pushed::Image(image) = services::push(&words, Some(point)) else {
            panic!("a point of the domain is refused");
        };
        assert!(codomain.holds(image));
        to_infinity += u32::from(image == Point::Infinity);
    }
    // The two affine points of the kernel, (0, 1) and (0, 10).
    assert_eq!(to_infinity, 2);
    let infinity = services::push(&words, Some(Point::Infinity));
    assert_eq!(infinity, Pushed::Image(Point::Infinity));
}

#[test]
fn pushing_is_a_homomorphism() {
    let certificate = marked::not_cyclic();
    let words = certificate.words();
    let q = &certificate.question;
    let (domain, codomain) = (Curve::new(q.p, q.a, q.b), Curve::new(q.p, q.a_t, q.b_t));
    let image = |point| match services::push(&words, Some(point)) {
        Pushed::Image(image) => image,
        Pushed::Refused(number) => panic!("{number}"),
    };
    let mut random = Random::new(3);
    for _ in 0..200 {
        let (s, t) = (
            domain.random_point(&mut random),
            domain.random_point(&mut random),
        );
        let sum = codomain.add(image(s), image(t));
        assert_eq!(image(domain.add(s, t)), sum);
    }
}
