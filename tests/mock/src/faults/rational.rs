//! Libraries that find another count of rational abscissas than request E6 wants, that
//! ask for it otherwise, or that read its word where it does not stand.

use reference::call::{point_number, point_of, Call, Reply};
use reference::miscounts::{self, Miscount};
use reference::rational;
use reference::rules::{self, R3};
use reference::services;
use reference::sheet::{kind, value, with_value, word, Certificate};
use reference::sheet::{L, N, RATIONAL, VALUE_LIMIT};

use super::{certificate, refusal, with_words};

/// The right count.
fn counted(certificate: &Certificate) -> u64 {
    let (g, _) = certificate.polynomials();
    rational::count(&g)
}

pub fn is_right(certificate: &Certificate) -> bool {
    certificate.rational == counted(certificate)
}

fn has_right_n(certificate: &Certificate) -> bool {
    let (q, (g, n)) = (&certificate.question, certificate.polynomials());
    n == rules::r2(q.a, q.b, q.l, q.sigma, &g)
}

fn meets_r3(certificate: &Certificate) -> bool {
    let q = &certificate.question;
    R3::of(certificate).holds(q.a_t, q.b_t)
}

/// What check and push answer to a certificate that has passed 2 to 8, if question 9
/// lets pass what is told here, and 10 asks for R3.
fn judged(call: &Call, certificate: &Certificate, passes_9: bool) -> Reply {
    if !passes_9 {
        call.refusal(9)
    } else if !meets_r3(certificate) {
        call.refusal(10)
    } else {
        passed(call, certificate)
    }
}

/// The same where nothing is left to ask but question 12.
fn passed(call: &Call, certificate: &Certificate) -> Reply {
    let Call::Push { point, .. } = call else {
        return Reply::number(0);
    };
    match point_of(*point).map(|point| services::image(certificate, point)) {
        Some(Ok(image)) => Reply::number(point_number(image)),
        _ => Reply::refused(12),
    }
}

/// The certificate of check or push, if it passes 2 to 8.
fn reaches_9(call: &Call, reply: &Reply) -> Option<Certificate> {
    certificate(call).filter(|_| refusal(call, reply) != 8)
}

// Another count, written and asked for.

fn counts(call: &Call, reply: Reply, miscount: Miscount) -> Reply {
    let counted = |certificate: &Certificate| {
        let (g, _) = certificate.polynomials();
        miscount(&g) % VALUE_LIMIT
    };
    if let Ok(mut answer) = Certificate::read(&reply.words) {
        answer.rational = counted(&answer);
        return Reply::written(answer.words());
    }
    match reaches_9(call, &reply) {
        Some(c) => judged(call, &c, has_right_n(&c) && c.rational == counted(&c)),
        None => reply,
    }
}

pub fn one_more(call: &Call, reply: Reply) -> Reply {
    counts(call, reply, miscounts::one_more)
}

pub fn one_less(call: &Call, reply: Reply) -> Reply {
    counts(call, reply, miscounts::one_less)
}

pub fn none(call: &Call, reply: Reply) -> Reply {
    counts(call, reply, miscounts::none)
}

pub fn all(call: &Call, reply: Reply) -> Reply {
    counts(call, reply, miscounts::all)
}

pub fn not_roots(call: &Call, reply: Reply) -> Reply {
    counts(call, reply, miscounts::not_roots)
}

pub fn without_zero(call: &Call, reply: Reply) -> Reply {
    counts(call, reply, miscounts::without_zero)
}

pub fn squares(call: &Call, reply: Reply) -> Reply {
    counts(call, reply, miscounts::squares)
}

pub fn square_values(call: &Call, reply: Reply) -> Reply {
    counts(call, reply, miscounts::square_values)
}

pub fn with_plus(call: &Call, reply: Reply) -> Reply {
    counts(call, reply, miscounts::with_plus)
}

pub fn half_power(call: &Call, reply: Reply) -> Reply {
    counts(call, reply, miscounts::half_power)
}

pub fn power_of_27_bits(call: &Call, reply: Reply) -> Reply {
    counts(call, reply, miscounts::power_of_27_bits)
}

pub fn power_less_1(call: &Call, reply: Reply) -> Reply {
    counts(call, reply, miscounts::power_less_1)
}

pub fn unreduced_start(call: &Call, reply: Reply) -> Reply {
    counts(call, reply, miscounts::unreduced_start)
}

pub fn stopped_at_constant(call: &Call, reply: Reply) -> Reply {
    counts(call, reply, miscounts::stopped_at_constant)
}

pub fn stopped_half_way(call: &Call, reply: Reply) -> Reply {
    counts(call, reply, miscounts::stopped_half_way)
}

/// Nothing that passes has a repeated factor, so only other sheets show it.
pub fn with_multiplicity(call: &Call, reply: Reply) -> Reply {
    counts(call, reply, miscounts::with_multiplicity)
}

/// Only a g of degree 40 is given one root more.
pub fn at_one_degree(call: &Call, reply: Reply) -> Reply {
    counts(call, reply, |g| {
        rational::count(g) + u64::from(g.degree() == Some(40))
    })
}

/// Over primes next to 2l a root is lost, unless g is short.
pub fn over_least_primes(call: &Call, reply: Reply) -> Reply {
    counts(call, reply, |g| {
        let (d, p) = (miscounts::all(g), g.field().p());
        let right = rational::count(g);
        right.saturating_sub(u64::from(d > 39 && p < 4 * d + 20))
    })
}

/// Check and push ask for the right count; solve and kernel write as if all abscissas
/// were rational.
pub fn written_wrong(_: &Call, mut reply: Reply) -> Reply {
    if let Ok(mut answer) = Certificate::read(&reply.words) {
        answer.rational = answer.question.d() as u64;
        reply.words = answer.words();
    }
    reply
}

// The right count, but what a sheet claims is held against it otherwise, or not at all.

/// Question 9 asks whether N is right, and of the count what is told here.
fn asks(call: &Call, reply: Reply, claim: impl Fn(&Certificate) -> bool) -> Reply {
    match reaches_9(call, &reply) {
        Some(c) => judged(call, &c, has_right_n(&c) && claim(&c)),
        None => reply,
    }
}

pub fn unasked(call: &Call, reply: Reply) -> Reply {
    asks(call, reply, |_| true)
}

pub fn bounded_by_p(call: &Call, reply: Reply) -> Reply {
    asks(call, reply, |c| c.rational < c.question.p)
}

pub fn bounded_by_d(call: &Call, reply: Reply) -> Reply {
    asks(call, reply, |c| c.rational <= c.question.d() as u64)
}

pub fn reduced(call: &Call, reply: Reply) -> Reply {
    asks(call, reply, |c| c.rational % c.question.p == counted(c))
}

pub fn in_8_bits(call: &Call, reply: Reply) -> Reply {
    asks(call, reply, |c| c.rational % 256 == counted(c))
}

pub fn in_16_bits(call: &Call, reply: Reply) -> Reply {
    asks(call, reply, |c| c.rational % 65536 == counted(c))
}

pub fn unasked_by_push(call: &Call, reply: Reply) -> Reply {
    match call {
        Call::Push { .. } => asks(call, reply, |_| true),
        _ => reply,
    }
}

/// Only one of both has to be right.
pub fn without_n(call: &Call, reply: Reply) -> Reply {
    match reaches_9(call, &reply) {
        Some(c) => judged(call, &c, has_right_n(&c) || is_right(&c)),
        None => reply,
    }
}

/// R3 is asked before the count.
pub fn after_10(call: &Call, reply: Reply) -> Reply {
    match reaches_9(call, &reply) {
        Some(c) if has_right_n(&c) && !meets_r3(&c) => call.refusal(10),
        _ => reply,
    }
}

/// R1 is asked after the count.
pub fn before_8(call: &Call, reply: Reply) -> Reply {
    match certificate(call) {
        Some(c) if refusal(call, &reply) == 8 && !is_right(&c) => call.refusal(9),
        _ => reply,
    }
}

/// Question 6 asks for the size of the count, as for that of a coefficient.
pub fn below_p(call: &Call, reply: Reply) -> Reply {
    match certificate(call) {
        Some(c) if c.rational >= c.question.p => call.refusal(6),
        _ => reply,
    }
}

/// A wrong count alone gets another number.
pub fn number_10(call: &Call, reply: Reply) -> Reply {
    match reaches_9(call, &reply) {
        Some(c) if has_right_n(&c) && !is_right(&c) => call.refusal(10),
        _ => reply,
    }
}

// The word is read where it does not stand. What is read otherwise is judged rightly.

/// The place of the word on a sheet that has a degree.
fn place(words: &[u32]) -> Option<usize> {
    let degree = words.get(5).filter(|&&w| kind(w) == L)?;
    Some(3 * (value(*degree) as usize / 2) + 10)
}

fn read_otherwise(call: Call, read: impl Fn(&mut Vec<u32>, usize)) -> Call {
    match call {
        Call::Check { .. } | Call::Push { .. } => with_words(call, |words| {
            if let Some(place) = place(words) {
                read(words, place);
            }
        }),
        _ => call,
    }
}

/// The form of before request E6 has no count to be wrong.
pub fn missing(call: Call) -> Call {
    read_otherwise(call, |words, place| {
        if words.len() == place + 1 && kind(words[place - 1]) == N {
            words.insert(place, word(RATIONAL, 0));
            if let Ok(certificate) = Certificate::read(words) {
                *words = with_value(words, place, counted(&certificate));
            }
        }
    })
}

pub fn twice(call: Call) -> Call {
    read_otherwise(call, |words, place| {
        let kinds = words.get(place..place + 2);
        if kinds.is_some_and(|pair| pair.iter().all(|&w| kind(w) == RATIONAL)) {
            words.remove(place);
        }
    })
}

pub fn before_n(call: Call) -> Call {
    read_otherwise(call, |words, place| {
        let first = words.iter().position(|&w| kind(w) == RATIONAL);
        if let Some(first) = first.filter(|&first| first < place && place < words.len()) {
            words[first..=place].rotate_left(1);
        }
    })
}

pub fn of_any_kind(call: Call) -> Call {
    read_otherwise(call, |words, place| {
        if let Some(w) = words.get_mut(place) {
            *w = word(RATIONAL, value(*w));
        }
    })
}

/// Solve and kernel write the form of before request E6.
pub fn not_written(_: &Call, mut reply: Reply) -> Reply {
    if let Some(place) = place(&reply.words) {
        reply.words.remove(place);
        reply.number -= 1;
    }
    reply
}
