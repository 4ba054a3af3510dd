//! The count of rational abscissas: how many roots g has in the field, as the degree of the greatest common divisor of g and x^p - x. x^p modulo g comes by
//! squares, whose remainders by g are products with what is prepared once: for a small d with a table of x^d, x^(d+1), .., else with the inverse of g
//! backwards, for the quotient, and with -g. Here too sums take no remainder until all is added, and no index is tested.

// Room comes from outside.
#![allow(clippy::too_many_arguments)]

use std::hint::black_box;

use crate::rows::{self, Modulus};
use crate::rules::{at, coefficient, mul, neg, part, part_mut, put, sub};

/// The most words of a g whose powers go by the table, and the room for it: d rows and three of zeros, of d words each.
const MOST_BY_TABLE: usize = 16;
const TABLE: usize = 270;

/// Whether the powers modulo a g of degree d go by the table.
pub fn by_table(d: usize) -> bool {
    d < MOST_BY_TABLE
}

/// How many bits of p are behind the longest beginning that is below d: the squares that x^p takes, as the power of that beginning is there already.
pub fn squares(d: usize, p: u32) -> u32 {
    let bits = u32::BITS - p.leading_zeros();
    let long = |&i: &u32| d <= (p >> (i - 1)) as usize;
    (1..=bits).rev().find(long).unwrap_or(0)
}

/// x + c y
#[inline(always)]
fn plus_multiple(x: u32, c: u32, y: u32, m: Modulus) -> u32 {
    rows::remainder(u64::from(x) + mul(c, y), m)
}

#[inline(always)]
fn negated(a: &[u32], out: &mut [u32], p: u32) {
    for k in 0..out.len() {
        put(out, k, neg(at(a, k), p));
    }
}

#[inline(always)]
fn reverse(a: &[u32], out: &mut [u32]) {
    for k in 0..a.len() {
        put(out, k, at(a, a.len() - 1 - k));
    }
}

// ── the powers, by the table

/// r = x r modulo g, of which `low` is -g without its leading coefficient.
fn times_x(r: &mut [u32], low: &[u32], m: Modulus) {
    let top = at(r, r.len() - 1);
    let mut before = 0;
    for k in 0..r.len() {
        let here = at(r, k);
        put(r, k, before);
        before = here;
    }
    for k in 0..r.len() {
        put(r, k, plus_multiple(at(r, k), top, at(low, k), m));
    }
}

#[inline(always)]
fn widen(a: &[u32], out: &mut [u64]) {
    for k in 0..out.len() {
        put(out, k, u64::from(at(a, k)));
    }
}

/// Row i of the table is x^(d+i) modulo g.
fn fill_table(r: &mut [u32], low: &[u32], table: &mut [u64], m: Modulus) {
    let d = r.len();
    r.copy_from_slice(low);
    for i in 0..d {
        widen(r, part_mut(table, i * d..(i + 1) * d));
        times_x(r, low, m);
    }
}

/// r = x^bit r² modulo g: the sums above x^d are factors of the table's rows.
fn square_by_table(
    r: &mut [u32],
    bit: usize,
    table: &[u64],
    e: &mut [u64],
    acc: &mut [u64],
    q: &mut [u32],
    m: Modulus,
) {
    let d = r.len();
    put(acc, 0, 0);
    rows::sums(r, e, part_mut(acc, bit..));
    rows::remainders(part(acc, d..), q, m);
    let mut i = 0;
    while i < d {
        let row = |j: usize| part(table, (i + j) * d..);
        let low = part_mut(acc, ..d);
        rows::four(low, row(0), row(1), row(2), row(3), rows::factors(q, i));
        i += 4;
    }
    rows::remainders(acc, r, m);
}

fn power_by_table(
    g: &[u32],
    r: &mut [u32],
    table: &mut [u64],
    e: &mut [u64],
    acc: &mut [u64],
    low: &mut [u32],
    q: &mut [u32],
    m: Modulus,
) {
    negated(g, low, m.p);
    fill_table(r, low, table, m);
    power(r, m.p, |r, bit| {
        square_by_table(r, bit, table, e, acc, q, m)
    });
}

// ── the powers, by quotients

/// t = 1 / c as a power series, where c begins with 1.
fn invert(c: &[u32], t: &mut [u32], p: u32) {
    t.fill(0);
    put(t, 0, 1);
    for k in 1..t.len() {
        let sum = coefficient(0, c, t, k, p);
        put(t, k, neg(sum, p));
    }
}

/// t holds the inverse of g backwards, n holds -g; top and q are room.
fn prepare(g: &[u32], t: &mut [u64], n: &mut [u64], top: &mut [u32], q: &mut [u32], p: u32) {
    reverse(g, top);
    invert(top, q, p);
    rows::put_behind(q, t);
    negated(g, q, p);
    rows::put_behind(q, n);
}

/// The quotient by g of what has these coefficients from x^d on.
fn quotient(high: &[u32], t: &[u64], acc: &mut [u64], top: &mut [u32], q: &mut [u32], m: Modulus) {
    reverse(high, top);
    acc.fill(0);
    rows::add_product(acc, top, t);
    rows::remainders(acc, top, m);
    reverse(top, q);
}

/// r = x^bit r² modulo g, where t and n are prepared for g.
fn square_by_quotient(
    r: &mut [u32],
    bit: usize,
    t: &[u64],
    n: &[u64],
    e: &mut [u64],
    acc: &mut [u64],
    room: &mut [u32],
    top: &mut [u32],
    q: &mut [u32],
    m: Modulus,
) {
    let d = r.len();
    put(room, 0, 0);
    let sums = part_mut(acc, bit..);
    rows::sums(r, e, sums);
    rows::remainders(sums, part_mut(room, bit..), m);
    let acc = part_mut(acc, ..d + 1);
    quotient(part(room, d..), t, acc, top, q, m);
    widen(room, acc);
    rows::add_product(acc, q, n);
    rows::remainders(acc, r, m);
}

fn power_by_quotients(
    g: &[u32],
    r: &mut [u32],
    t: &mut [u64],
    n: &mut [u64],
    e: &mut [u64],
    acc: &mut [u64],
    room: &mut [u32],
    top: &mut [u32],
    q: &mut [u32],
    m: Modulus,
) {
    prepare(g, t, n, top, q, m.p);
    power(r, m.p, |r, bit| {
        square_by_quotient(r, bit, t, n, e, acc, room, top, q, m)
    });
}

/// r = x^p, by what squares r and multiplies it by a power of x.
#[inline(always)]
fn power(r: &mut [u32], p: u32, mut square: impl FnMut(&mut [u32], usize)) {
    let mut i = squares(r.len(), p);
    r.fill(0);
    put(r, (p >> i) as usize, 1);
    while 0 < i {
        i -= 1;
        square(r, (p >> i) as usize % 2);
    }
}

// ── the greatest common divisor, without an inverse, on words of 64 bits

/// How many words a has before the zeros at its end.
fn trimmed(a: &[u64]) -> usize {
    a.iter().rposition(|&c| c != 0).map_or(0, |i| i + 1)
}

#[inline(always)]
fn negative(x: u64, m: Modulus) -> u64 {
    u64::from(neg(x as u32, m.p))
}

#[inline(always)]
fn scale(out: &mut [u64], c: u64, m: Modulus) {
    for k in 0..out.len() {
        put(out, k, rows::short(rows::product(c, at(out, k)), m));
    }
}

/// out = c out + y before + z here, word by word.
#[inline(always)]
fn combine(out: &mut [u64], before: &[u64], here: &[u64], [c, y, z]: [u64; 3], m: Modulus) {
    for k in 0..out.len() {
        let sum = rows::product(c, at(out, k))
            + rows::product(y, at(before, k))
            + rows::product(z, at(here, k));
        put(out, k, rows::short(sum, m));
    }
}

/// a becomes a multiple of itself less one of b, whose two highest words are 0. It has more words than b, of which the last is not 0.
fn cancel_two(a: &mut [u64], b: &[u64], m: Modulus) {
    let (k, n) = (a.len() - 1, b.len());
    let s = k - n;
    let (b1, b0) = (at(b, n - 1), if 1 < n { at(b, n - 2) } else { 0 });
    let (a1, a0) = (at(a, k), at(a, k - 1));
    let c = rows::short(rows::product(b1, b1), m);
    let y = rows::short(rows::product(negative(a1, m), b1), m);
    let z = rows::short(
        rows::product(a1, b0) + rows::product(negative(a0, m), b1),
        m,
    );
    scale(part_mut(a, ..s), c, m);
    let first = rows::product(c, at(a, s)) + rows::product(z, at(b, 0));
    put(a, s, rows::short(first, m));
    let out = part_mut(a, s + 1..k);
    combine(out, part(b, ..n - 1), part(b, 1..), [c, y, z], m);
    put(a, k, 0);
}

/// The same for the highest word alone, where a has as many words as b.
fn cancel_one(a: &mut [u64], b: &[u64], m: Modulus) {
    let k = b.len() - 1;
    let a1 = negative(at(a, k), m);
    combine(a, b, b, [at(b, k), a1, 0], m);
}

/// a becomes a multiple of its remainder by b. The result is how many words it has then.
fn next(a: &mut [u64], b: &[u64], m: Modulus) -> usize {
    let n = b.len();
    let mut k = a.len();
    while n < k {
        cancel_two(part_mut(a, ..k), b, m);
        k -= 2;
    }
    if k == n {
        cancel_one(part_mut(a, ..k), b, m);
    }
    trimmed(a)
}

/// Both are room too: x and y are how many words they have.
fn gcd_degree(a: &mut [u64], b: &mut [u64], m: Modulus) -> usize {
    let mut x = a.len();
    let mut y = next(b, a, m);
    while 0 < y {
        x = next(part_mut(a, ..x), part(b, ..y), m);
        if x == 0 {
            return y - 1;
        }
        y = next(part_mut(b, ..y), part(a, ..x), m);
    }
    x - 1
}

// ── the count

/// From r = x^p modulo g; a and b are room.
fn degree_with(g: &[u32], r: &mut [u32], a: &mut [u64], b: &mut [u64], m: Modulus) -> usize {
    put(r, 1, sub(at(r, 1), 1, m.p));
    widen(g, a);
    widen(r, b);
    gcd_degree(a, b, m)
}

fn roots_by_table(g: &[u32], m: Modulus) -> usize {
    const ROOM: usize = 40;
    let k = g.len();
    let d = k - 1;
    let (mut low, mut r, mut q) = ([0u32; ROOM], [0u32; ROOM], [0u32; ROOM]);
    let (low, r, q) = (&mut low[..d], &mut r[..d], &mut q[..d]);
    let (mut e, mut acc) = ([0u64; ROOM], [0u64; ROOM]);
    let (e, acc) = (&mut e[..d + 6], &mut acc[..2 * d]);
    let mut table = [0u64; TABLE];
    power_by_table(g, r, &mut table[..d * (d + 3)], e, acc, low, q, m);
    degree_with(g, r, &mut acc[..k], &mut e[..d], m)
}

fn roots_by_quotients<const ROOM: usize>(g: &[u32], m: Modulus) -> usize {
    let k = g.len();
    let d = k - 1;
    let (mut top, mut r, mut q) = ([0u32; ROOM], [0u32; ROOM], [0u32; ROOM]);
    let (top, r, q) = (&mut top[..k], &mut r[..d], &mut q[..k]);
    let (mut t, mut n) = ([0u64; ROOM], [0u64; ROOM]);
    let (t, n) = (&mut t[..k + 6], &mut n[..k + 6]);
    let (mut e, mut acc, mut room) = ([0u64; ROOM], [0u64; ROOM], [0u32; ROOM]);
    let (e, acc, room) = (
        &mut e[..k + 6],
        &mut acc[..2 * k - 1],
        &mut room[..2 * k - 1],
    );
    power_by_quotients(g, r, t, n, e, acc, room, top, q, m);
    degree_with(g, r, &mut t[..k], &mut n[..d], m)
}

/// Of a monic g, which has at most 128 words. One function for all services, as in the library: what the compiler makes of copies of its own in each of them
/// differs by a third at l = 15.
#[inline(never)]
pub fn roots(g: &[u32], m: Modulus) -> u32 {
    let count = match g.len() {
        // x - u has one.
        ..=2 => 1,
        // Of rows that it knows to be short the compiler makes no vectors.
        3..=MOST_BY_TABLE => roots_by_table(black_box(g), m),
        17..=40 => roots_by_quotients::<88>(g, m),
        _ => roots_by_quotients::<264>(g, m),
    };
    count as u32
}

#[cfg(test)]
mod tests {
    use super::*;

    /// Tests are built with checks: an index or a sum that is too large ends the run.
    #[test]
    fn counts_as_the_independent_implementation_does() {
        for g in common::polynomials::all() {
            let words: Vec<u32> = g.coefficients().iter().map(|&c| c as u32).collect();
            let count = roots(&words, rows::modulus(g.field().p() as u32));
            assert_eq!(u64::from(count), reference::rational::count(&g), "{g:?}");
        }
    }
}
