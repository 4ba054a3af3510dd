//! Libraries that work N out with a mistake in one of request E5's parts, and
//! checks that let such an N pass question 9 beside the right one.

use reference::call::{Call, Reply};
use reference::mistakes::{self, Mistake, Worked};
use reference::poly::Poly;
use reference::rules::{self, R3};
use reference::sheet::Certificate;

use super::{certificate, rational, refusal};

/// The N that a mistake gives for a certificate's values and g.
fn mistaken(certificate: &Certificate, mistake: Mistake) -> Vec<u64> {
    let (g, _) = certificate.polynomials();
    Worked::new(&certificate.question, &g).wrong(mistake)
}

/// The number after question 8, if question 9 wants this N.
fn number(certificate: &Certificate, wanted: &[u64]) -> u32 {
    let q = &certificate.question;
    if certificate.n != wanted || !rational::is_right(certificate) {
        9
    } else if R3::of(certificate).holds(q.a_t, q.b_t) {
        0
    } else {
        10
    }
}

// A wrong N everywhere.

/// Check and push compare with the N that is built, solve and kernel ask R3 of it
/// and write it.
fn builds(call: &Call, reply: Reply, build: impl Fn(&Certificate) -> Vec<u64>) -> Reply {
    if let Ok(mut answer) = Certificate::read(&reply.words) {
        let n = build(&answer);
        answer.n.clone_from(&n);
        return match number(&answer, &n) {
            0 => Reply::written(answer.words()),
            _ => Reply::refused(11),
        };
    }
    match certificate(call) {
        Some(c) if refusal(call, &reply) != 8 => match (call, number(&c, &build(&c))) {
            (Call::Push { .. }, 0) => reply,
            (_, number) => call.refusal(number),
        },
        _ => reply,
    }
}

pub fn second_plus(call: &Call, reply: Reply) -> Reply {
    builds(call, reply, |c| mistaken(c, mistakes::second_turned))
}

pub fn third_2_for_4(call: &Call, reply: Reply) -> Reply {
    builds(call, reply, |c| mistaken(c, mistakes::third_halved))
}

pub fn exchanged(call: &Call, reply: Reply) -> Reply {
    builds(call, reply, |c| mistaken(c, mistakes::exchanged))
}

pub fn third_moved(call: &Call, reply: Reply) -> Reply {
    builds(call, reply, |c| mistaken(c, mistakes::third_moved_down))
}

/// The sums in 4gg'' are of 64 bits: too few for the largest primes and degrees,
/// and there only if most coefficients of g are near p.
pub fn third_wraps(call: &Call, reply: Reply) -> Reply {
    builds(call, reply, |c| {
        let (q, (g, _)) = (&c.question, c.polynomials());
        let g1 = g.derivative();
        let [first, second, _] = rules::parts(q.a, q.b, q.l, q.sigma, &g);
        let bend = wrapped(&g, &g1.derivative()).sub(&g1.square().scale(4));
        let third = rules::cubic(q.field(), q.a, q.b).mul(&bend);
        first.add(&second).sub(&third).padded(c.n.len())
    })
}

/// Four times a product, modulo 2^64 before it is taken modulo p.
fn wrapped(a: &Poly, b: &Poly) -> Poly {
    let count = a.coefficients().len() + b.coefficients().len();
    let coefficient = |place: usize| {
        let products = (0..=place).map(|i| a.at(i) * b.at(place - i));
        4u64.wrapping_mul(products.sum()) % a.field().p()
    };
    Poly::new(a.field(), (0..count).map(coefficient).collect())
}

// A wrong N beside the right one. What the library writes is right.

fn passes(call: &Call, reply: Reply, mistake: Mistake) -> Reply {
    match (call, certificate(call)) {
        (Call::Check { .. }, Some(c)) if refusal(call, &reply) == 9 => {
            call.refusal(number(&c, &mistaken(&c, mistake)))
        }
        _ => reply,
    }
}

pub fn second_plus_passes(call: &Call, reply: Reply) -> Reply {
    passes(call, reply, mistakes::second_turned)
}

pub fn third_2_for_4_passes(call: &Call, reply: Reply) -> Reply {
    passes(call, reply, mistakes::third_halved)
}

pub fn exchanged_passes(call: &Call, reply: Reply) -> Reply {
    passes(call, reply, mistakes::exchanged)
}

pub fn third_moved_passes(call: &Call, reply: Reply) -> Reply {
    passes(call, reply, mistakes::third_moved_down)
}
