//! Libraries that compose two steps of prime degree as request E1 wants, or nearly so, and
//! go wrong where a sheet is itself composed: by request E7 they join chains otherwise from
//! the left than from the right, or refuse what they must join, or the other way round.

use std::cell::RefCell;

use reference::call::{Call, Reply};
use reference::composition::kernel;
use reference::generate::{factors, splits};
use reference::sheet::{self, Certificate};

use super::composition::{asks_14_of, passes_13, with_kernel, with_sigma, written};

fn is_composite(map: &Certificate) -> bool {
    !factors(map.question.l).is_empty()
}

/// The least factor of a degree, and the degree itself if it is a prime.
fn least_factor(l: u64) -> u64 {
    factors(l).first().map_or(l, |&(m, _)| m)
}

/// The first kernel polynomial is left out where the first map is a composed one.
pub fn first_composite(call: &Call, reply: Reply) -> Reply {
    written(call, reply, |both, [first, second]| {
        if is_composite(first) {
            let g = kernel(first, second).expect("a polynomial");
            let (g1, _) = first.polynomials();
            with_kernel(both, &g.exact_quotient(&g1).expect("a factor"));
        }
    })
}

/// The kernel polynomial of the second map followed by the first.
fn exchanged(both: &mut Certificate, [first, second]: &[Certificate; 2]) {
    let g = kernel(second, first).expect("a polynomial");
    with_kernel(both, &g);
}

pub fn second_composite(call: &Call, reply: Reply) -> Reply {
    written(call, reply, |both, maps| {
        if is_composite(&maps[1]) {
            exchanged(both, maps);
        }
    })
}

pub fn falling(call: &Call, reply: Reply) -> Reply {
    written(call, reply, |both, maps| {
        if maps[0].question.l > maps[1].question.l {
            exchanged(both, maps);
        }
    })
}

/// Wrong where the first map has three steps or more, and nowhere else.
pub fn of_four(call: &Call, reply: Reply) -> Reply {
    written(call, reply, |both, [first, _]| {
        if !splits(first.question.l, 3).is_empty() {
            both.g[0] = both.question.field().add(both.g[0], 1);
        }
    })
}

/// The first sum is taken as often as the second map's first step says, not its degree.
pub fn sigma_by_step(call: &Call, reply: Reply) -> Reply {
    written(call, reply, |both, [first, second]| {
        let (q1, q2) = (&first.question, &second.question);
        let (k, factor) = (q1.field(), least_factor(q2.l) % q1.p);
        with_sigma(both, k.add(q2.sigma, k.mul(factor, q1.sigma)));
    })
}

/// The sum of a composed first map is not reduced.
pub fn sigma_unreduced(call: &Call, reply: Reply) -> Reply {
    written(call, reply, |both, [first, second]| {
        let (q1, q2) = (&first.question, &second.question);
        if is_composite(first) {
            let sum = q2.sigma + q2.l * q1.sigma % q1.p;
            with_sigma(both, sum % sheet::VALUE_LIMIT);
        }
    })
}

/// Counts are added up where one of the maps is a composed one.
pub fn counted_added_up(call: &Call, reply: Reply) -> Reply {
    written(call, reply, |both, maps| {
        if maps.iter().any(is_composite) {
            both.rational = maps.iter().map(|map| map.rational).sum();
        }
    })
}

/// No more than two steps are joined.
pub fn two_steps(call: &Call, reply: Reply) -> Reply {
    asks_14_of(call, reply, |[first, second], lawful| {
        lawful && splits(first.question.l * second.question.l, 3).is_empty()
    })
}

/// B of the middle curve is not asked for where the second map is a composed one.
pub fn without_b(call: &Call, reply: Reply) -> Reply {
    passes_13(call, reply, |q1, q2| {
        (q1.p, q1.a_t) == (q2.p, q2.a) && !factors(q2.l).is_empty()
    })
}

/// The prime is not asked for where the first map is a composed one.
pub fn without_p(call: &Call, reply: Reply) -> Reply {
    asks_14_of(call, reply, |[first, second], lawful| {
        let product = first.question.l * second.question.l;
        lawful || is_composite(first) && product <= 255
    })
}

thread_local! {
    static LAST: RefCell<Vec<u32>> = const { RefCell::new(Vec::new()) };
}

/// A library with a memory: 14 is not asked where the first sheet is what it wrote last. No
/// two sheets that others made show that.
pub fn own_words_unasked(call: &Call, reply: Reply) -> Reply {
    let Call::Compose { first, .. } = call else {
        return reply;
    };
    let reply = match LAST.with_borrow(|last| last == first) {
        true => asks_14_of(call, reply, |_, _| true),
        false => reply,
    };
    if !reply.words.is_empty() {
        LAST.set(reply.words.clone());
    }
    reply
}
