//! Libraries that let certificates pass, or write them, of which request E12 does not
//! hold: g has a repeated factor, or one in common with f or N. Each takes one way to be
//! wrong, where it is free to, and keeps the others. All are found twice: by what was
//! expected, and by the watch on certificates alone.

use reference::call::{point_number, point_of, Call, Reply};
use reference::curve::Curve;
use reference::generate;
use reference::poly::Poly;
use reference::rational::roots;
use reference::repetition::{common_factors, read_any_degree};
use reference::rules::{self, R3};
use reference::services;
use reference::sheet::{Certificate, KernelSheet, Question};

use super::{certificate, rational, refusal, with_answer, words};

/// Whether g has a repeated factor, one of f and one of N.
fn common(certificate: &Certificate) -> [bool; 3] {
    common_factors(certificate).map(|(_, gcd)| gcd.degree() > Some(0))
}

fn is_repeated(certificate: &Certificate) -> bool {
    common(certificate)[0]
}

/// A factor of f, and none that is repeated.
fn is_of_f(certificate: &Certificate) -> bool {
    common(certificate)[..2] == [false, true]
}

/// A factor of N alone.
fn is_of_n(certificate: &Certificate) -> bool {
    common(certificate) == [false, false, true]
}

// What passes. R3 is not asked, or with a factor of N not R2.

/// The certificate of check or push that got this number.
fn refused_with(call: &Call, reply: &Reply, number: u32) -> Option<Certificate> {
    certificate(call).filter(|_| refusal(call, reply) == number)
}

fn passes(call: &Call, reply: Reply, wrong: fn(&Certificate) -> bool) -> Reply {
    match (call, refused_with(call, &reply, 10)) {
        (Call::Check { .. }, Some(c)) if wrong(&c) => Reply::number(0),
        _ => reply,
    }
}

pub fn repeated_passes(call: &Call, reply: Reply) -> Reply {
    passes(call, reply, is_repeated)
}

pub fn of_f_passes(call: &Call, reply: Reply) -> Reply {
    passes(call, reply, is_of_f)
}

/// Document 01's first misreading.
pub fn of_n_passes(call: &Call, reply: Reply) -> Reply {
    match (call, refused_with(call, &reply, 9)) {
        (Call::Check { .. }, Some(c)) if is_of_n(&c) && rational::is_right(&c) => {
            let holds = R3::of(&c).holds(c.question.a_t, c.question.b_t);
            call.refusal(if holds { 0 } else { 10 })
        }
        _ => reply,
    }
}

pub fn repeated_pushes(call: &Call, reply: Reply) -> Reply {
    match (call, refused_with(call, &reply, 10)) {
        (Call::Push { point, .. }, Some(c)) if is_repeated(&c) => {
            match point_of(*point).map(|point| services::image(&c, point)) {
                Some(Ok(image)) => Reply::number(point_number(image)),
                _ => Reply::refused(12),
            }
        }
        _ => reply,
    }
}

/// Check lets l = p + 2 pass question 4, and a certificate that meets the rules.
pub fn beyond_4(call: &Call, reply: Reply) -> Reply {
    if !matches!(call, Call::Check { .. }) || refusal(call, &reply) != 4 {
        return reply;
    }
    let read = read_any_degree(&words(call)).ok();
    match read.filter(|c| c.question.l == c.question.p + 2) {
        Some(c) if meets_rules(&c) => Reply::number(0),
        _ => reply,
    }
}

fn meets_rules(certificate: &Certificate) -> bool {
    let (q, (g, n)) = (&certificate.question, certificate.polynomials());
    rules::r1(&g, q.d(), q.sigma)
        && n == rules::r2(q.a, q.b, q.l, q.sigma, &g)
        && rational::is_right(certificate)
        && R3::of(certificate).holds(q.a_t, q.b_t)
}

// What is written where there is no answer: R3 is not asked.

pub fn repeated_solved(call: &Call, reply: Reply) -> Reply {
    match call {
        Call::Solve { sheet, .. } if refusal(call, &reply) == 11 => {
            let question = Question::read(sheet).expect("11 comes after 2 to 7");
            let candidate = services::recurrence_candidate(&question);
            instead(candidate, reply, is_repeated)
        }
        _ => reply,
    }
}

fn kernel(call: &Call, reply: Reply, wrong: fn(&Certificate) -> bool) -> Reply {
    match call {
        Call::Kernel { sheet, .. } if refusal(call, &reply) == 11 => {
            let sheet = KernelSheet::read(sheet).expect("11 comes after 2 to 8");
            let curve = Curve::new(sheet.p, sheet.a, sheet.b);
            let g = Poly::new(curve.field, sheet.g);
            let candidate = generate::candidate(&curve, sheet.l, &g);
            instead(candidate, reply, wrong)
        }
        _ => reply,
    }
}

/// The candidate is written if it is wrong in this way.
fn instead(candidate: Certificate, reply: Reply, wrong: fn(&Certificate) -> bool) -> Reply {
    if wrong(&candidate) {
        Reply::written(candidate.words())
    } else {
        reply
    }
}

pub fn repeated_kernel(call: &Call, reply: Reply) -> Reply {
    kernel(call, reply, is_repeated)
}

pub fn of_f_kernel(call: &Call, reply: Reply) -> Reply {
    kernel(call, reply, is_of_f)
}

/// Over small fields the constant term of N is such that N has a root of g, if g has one.
pub fn of_n_written(_: &Call, reply: Reply) -> Reply {
    with_answer(reply, |reply| {
        let mut answer = Certificate::read(&reply.words).expect("what was written");
        let (g, n) = answer.polynomials();
        if answer.question.p < 100 {
            if let Some(&root) = roots(&g).first() {
                answer.n[0] = g.field().sub(answer.n[0], n.value(root));
                reply.words = answer.words();
            }
        }
    })
}
