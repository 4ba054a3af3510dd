//! Libraries that read a value at or above p otherwise than request E2 wants.

use reference::call::{Call, Reply};
use reference::sheet::{self, kind, value, with_value, word};
use reference::sheet::{A, A_T, B, B_T, END, G, L, N, P, SIGMA};
use reference::unreduced::{reduced, with_values};

use super::{first, refusal, with_words, Memory};

const HEAD: [u32; 5] = [A, B, A_T, B_T, SIGMA];

/// The sheet of solve or kernel.
fn asked(call: &Call) -> Option<&[u32]> {
    match call {
        Call::Solve { sheet, .. } | Call::Kernel { sheet, .. } => Some(sheet),
        _ => None,
    }
}

/// Whether a word of these kinds has a value from so many times p on.
fn has_large(sheet: &[u32], kinds: &[u32], times: u64) -> bool {
    let bound = times * value(sheet[0]);
    let mut words = sheet.iter();
    words.any(|&w| kinds.contains(&kind(w)) && value(w) >= bound)
}

/// A question that has no other "no" before it stops these question and kernel
/// sheets.
fn stops(call: &Call, reply: Reply, number: u32, fails: impl Fn(&[u32]) -> bool) -> Reply {
    let first = refusal(call, &reply);
    match asked(call) {
        Some(sheet) if (first == 0 || first > number) && fails(sheet) => call.refusal(number),
        _ => reply,
    }
}

// Not reduced, or not before the question that looks at it.

pub fn values_refused(call: &Call, reply: Reply) -> Reply {
    stops(call, reply, 5, |sheet| has_large(sheet, &HEAD, 1))
}

pub fn kernel_values_refused(call: &Call, reply: Reply) -> Reply {
    match call {
        Call::Kernel { .. } => values_refused(call, reply),
        _ => reply,
    }
}

pub fn sigma_refused(call: &Call, reply: Reply) -> Reply {
    stops(call, reply, 5, |sheet| has_large(sheet, &[SIGMA], 1))
}

/// R1 is asked of g and the sigma of the sheet.
pub fn sigma_compared(call: &Call, reply: Reply) -> Reply {
    stops(call, reply, 11, |sheet| has_large(sheet, &[SIGMA], 1))
}

pub fn coefficients_refused(call: &Call, reply: Reply) -> Reply {
    stops(call, reply, 6, |sheet| has_large(sheet, &[G], 1))
}

/// A curve is taken for singular only if both of its values are below p.
pub fn curves_as_they_stand(call: &Call, reply: Reply) -> Reply {
    let Some(sheet) = asked(call).filter(|_| refusal(call, &reply) == 7) else {
        return reply;
    };
    let p = value(sheet[0]);
    let seen = |kinds: [u32; 2]| {
        let [a, b] = kinds.map(|kind| first(call, kind));
        a < p && b < p && sheet::ask_curve(p, a, b).is_err()
    };
    let question = matches!(call, Call::Solve { .. });
    if seen([A, B]) || question && seen([A_T, B_T]) {
        return reply;
    }
    leading_as_it_stands(call, call.refusal(11))
}

pub fn leading_as_it_stands(call: &Call, reply: Reply) -> Reply {
    stops(call, reply, 8, |sheet| {
        let leading = sheet.iter().rfind(|&&w| kind(w) == G);
        leading.is_some_and(|&w| value(w) != 1)
    })
}

// Reduced where it must not be.

fn of_certificates(call: Call, change: impl Fn(&mut Vec<u32>)) -> Call {
    match call {
        Call::Check { .. } | Call::Push { .. } => with_words(call, change),
        _ => call,
    }
}

pub fn certificates_reduced(call: Call) -> Call {
    of_certificates(call, |words| *words = reduced(words))
}

/// Words of a kind modulo the sheet's p.
fn reduce(words: &mut [u32], wanted: u32) {
    let p = words.first().map_or(1, |&w| value(w).max(1));
    for w in words.iter_mut().filter(|w| kind(**w) == wanted) {
        *w = word(wanted, value(*w) % p);
    }
}

pub fn numerators_reduced(call: Call) -> Call {
    of_certificates(call, |words| reduce(words, N))
}

pub fn names_reduced(mut call: Call) -> Call {
    if let Call::Name { p: p @ 1.., a, b } = &mut call {
        *a %= *p;
        *b %= *p;
    }
    call
}

pub fn degrees_reduced(call: Call) -> Call {
    with_words(call, |words| reduce(words, L))
}

pub fn ends_reduced(call: Call) -> Call {
    with_words(call, |words| reduce(words, END))
}

/// Before question 3 is asked, so that p may be 0.
pub fn by_zero(call: &Call, reply: Reply) -> Reply {
    if asked(call).is_some() && refusal(call, &reply) == 3 && first(call, P) == 0 {
        std::process::abort();
    }
    reply
}

// Reduced, but not to what it should be.

/// What is still not below p after one subtraction is refused.
pub fn subtracted_once(call: &Call, reply: Reply) -> Reply {
    let reply = stops(call, reply, 5, |sheet| has_large(sheet, &HEAD, 2));
    stops(call, reply, 6, |sheet| has_large(sheet, &[G], 2))
}

/// The sheet's words of these kinds, changed, stand in the certificate; those of g
/// only if they are on the sheet.
fn written(call: &Call, mut reply: Reply, kinds: &[u32], other: fn(u64, u64) -> u64) -> Reply {
    let Some(sheet) = asked(call).filter(|_| !reply.words.is_empty()) else {
        return reply;
    };
    let changed = with_values(sheet, other);
    for &wanted in kinds {
        let source = changed.iter().filter(|&&w| kind(w) == wanted);
        let target = reply.words.iter_mut().filter(|w| kind(**w) == wanted);
        target.zip(source).for_each(|(w, &new)| *w = new);
    }
    reply
}

pub fn values_written(call: &Call, reply: Reply) -> Reply {
    written(call, reply, &HEAD, |v, _| v)
}

pub fn sigma_written(call: &Call, reply: Reply) -> Reply {
    written(call, reply, &[SIGMA], |v, _| v)
}

pub fn coefficients_written(call: &Call, reply: Reply) -> Reply {
    written(call, reply, &[G], |v, _| v)
}

/// By a product with 2^32/p, rounded down, in the place of a quotient: what is left
/// may be p or a little more.
pub fn uncorrected(call: &Call, reply: Reply) -> Reply {
    written(call, reply, &[A, B, A_T, B_T, SIGMA, G], |v, p| {
        v - ((v * ((1 << 32) / p)) >> 32) * p
    })
}

/// By a quotient of 24 bits, where 28 are needed.
pub fn by_floats(call: &Call, reply: Reply) -> Reply {
    written(call, reply, &[A, B, A_T, B_T, SIGMA, G], |v, p| {
        let quotient = (v as f32 / p as f32) as u64;
        v.wrapping_sub(quotient * p) % sheet::VALUE_LIMIT
    })
}

/// In the lent sheet, which is to stay as it was.
pub fn in_place(memory: &Memory) {
    if memory.answer.is_none() {
        return;
    }
    let words = memory.bytes / 4;
    // SAFETY: none for the writing, on purpose; the sheet is readable.
    unsafe {
        let start = memory.sheet.cast::<u32>();
        let sheet = std::slice::from_raw_parts(start, words).to_vec();
        for (i, &w) in reduced(&sheet).iter().enumerate() {
            start.cast_mut().add(i).write_volatile(w);
        }
    }
}

/// The last coefficient of g but the leading one is taken for 0 if it is p or more:
/// the codomain that kernel finds from it is another, or none.
pub fn sum_lost(mut call: Call) -> Call {
    if let Call::Kernel { sheet, .. } = &mut call {
        let p = sheet.first().map_or(0, |&w| value(w));
        let place = sheet.len().saturating_sub(3);
        if sheet.len() > 6 && kind(sheet[place]) == G && value(sheet[place]) >= p {
            *sheet = with_value(sheet, place, 0);
        }
    }
    call
}
