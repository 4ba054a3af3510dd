//! Wrong tests of question 3, most of them by trial division as request E8 has
//! it: 2, then the odd primes up to 16381 in rising order.

use reference::call::{Call, Reply};
use reference::field::Field;
use reference::primes::{divisors, is_prime, passes_strong_test};
use reference::sheet::{P, VALUE_LIMIT};

use super::{first, refusal};

/// Question 3 gets a yes exactly if the test says so. What is then taken for a
/// prime gets the number of the question that comes next.
fn asks(call: &Call, reply: Reply, test: impl Fn(u64) -> bool) -> Reply {
    let (p, next) = match call {
        Call::Name { p, .. } => (u64::from(*p), 5),
        // Its second sheet has a p too.
        Call::Compose { .. } => return reply,
        _ => (first(call, P), 4),
    };
    match (refusal(call, &reply), test(p)) {
        (1 | 2, _) => reply,
        (3, true) => call.refusal(next),
        (_, true) => reply,
        (_, false) => call.refusal(3),
    }
}

/// The size that question 3 asks for.
fn in_range(p: u64) -> bool {
    (11..VALUE_LIMIT).contains(&p)
}

// Other tests and other ranges.

pub fn fermat(call: &Call, reply: Reply) -> Reply {
    asks(call, reply, |p| {
        in_range(p) && p % 2 == 1 && Field::new(p).pow(2, p - 1) == 1
    })
}

/// Right for nearly all numbers.
pub fn strong_test(call: &Call, reply: Reply) -> Reply {
    asks(call, reply, |p| {
        in_range(p) && p % 2 == 1 && [2, 3, 5].iter().all(|&base| passes_strong_test(p, base))
    })
}

pub fn of_low_bits(mut call: Call) -> Call {
    if let Call::Name { p, .. } = &mut call {
        *p %= VALUE_LIMIT as u32;
    }
    call
}

pub fn small_low_bits(call: &Call, reply: Reply) -> Reply {
    asks(call, reply, |p| {
        in_range(p) && is_prime(if p < 1 << 14 { p % (1 << 13) } else { p })
    })
}

pub fn from_7(call: &Call, reply: Reply) -> Reply {
    asks(call, reply, |p| p == 7 || in_range(p) && is_prime(p))
}

pub fn to_last_square(call: &Call, reply: Reply) -> Reply {
    asks(call, reply, |p| {
        in_range(p) && p < LAST * LAST && is_prime(p)
    })
}

pub fn unbounded(call: &Call, reply: Reply) -> Reply {
    asks(call, reply, |p| {
        p >= 11 && p % 2 == 1 && undivided(p, divisors())
    })
}

// Trial division.

/// The last divisor.
const LAST: u64 = 16381;

/// Whether none of these divides p, up to the first with a square above p.
fn undivided(p: u64, mut divisors: impl Iterator<Item = u64>) -> bool {
    let found = divisors.find(|&q| q * q > p || p.is_multiple_of(q));
    found.is_none_or(|q| q * q > p)
}

/// An odd p is tried with other divisors.
fn tries<D: Iterator<Item = u64>>(call: &Call, reply: Reply, divisors: fn(u64) -> D) -> Reply {
    asks(call, reply, |p| {
        in_range(p) && p % 2 == 1 && undivided(p, divisors(p))
    })
}

pub fn untried_2(call: &Call, reply: Reply) -> Reply {
    asks(call, reply, |p| in_range(p) && undivided(p, divisors()))
}

pub fn left_out(call: &Call, reply: Reply) -> Reply {
    tries(call, reply, |_| divisors().filter(|&q| q != 16363))
}

/// 10003 = 7 * 1429 in the place of 10007.
pub fn composite(call: &Call, reply: Reply) -> Reply {
    tries(call, reply, |_| {
        divisors().map(|q| if q == 10007 { 10003 } else { q })
    })
}

/// The search ends at 10009 before 10007 is tried.
pub fn swapped(call: &Call, reply: Reply) -> Reply {
    tries(call, reply, |_| {
        divisors().map(|q| match q {
            10007 => 10009,
            10009 => 10007,
            _ => q,
        })
    })
}

pub fn untried_last(call: &Call, reply: Reply) -> Reply {
    tries(call, reply, |_| divisors().filter(|&q| q != LAST))
}

/// The last divisor is taken for a multiple of itself.
pub fn refused_last(call: &Call, reply: Reply) -> Reply {
    asks(call, reply, |p| in_range(p) && p != LAST && is_prime(p))
}

/// The last divisors, which fill no block of sixteen, are not tried.
pub fn whole_blocks(call: &Call, reply: Reply) -> Reply {
    tries(call, reply, |_| {
        divisors().take(divisors().count() / 16 * 16)
    })
}

pub fn below_root(call: &Call, reply: Reply) -> Reply {
    tries(call, reply, |p| divisors().take_while(move |&q| q * q < p))
}

/// Squares are found, products of q and q + 2 are not.
pub fn root_less_1(call: &Call, reply: Reply) -> Reply {
    tries(call, reply, |p| {
        divisors().filter(move |&q| q * q == p || (q + 1) * (q + 1) <= p)
    })
}

/// Of the numbers below 2^28 the largest multiple of 16111, whose quotient is prime, is taken for one too.
pub fn bound_less_1(call: &Call, reply: Reply) -> Reply {
    tries(call, reply, |p| {
        divisors().filter(move |&q| q != 16111 || p / q < (VALUE_LIMIT - 1) / q)
    })
}

/// A product with the inverse of 8191 modulo 2^32 is taken for a quotient up to
/// twice the largest one: 8191 seems to divide p where it divides 2^32 + p.
pub fn bound_twice(call: &Call, reply: Reply) -> Reply {
    asks(call, reply, |p| {
        let q = 8191;
        let seems = q * q <= p && (p + (1 << 32)).is_multiple_of(q);
        in_range(p) && !seems && is_prime(p)
    })
}

/// Squares pass on sheets; name is right.
pub fn of_sheets(call: &Call, reply: Reply) -> Reply {
    match call {
        Call::Name { .. } => reply,
        _ => below_root(call, reply),
    }
}
