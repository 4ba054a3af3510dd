//! N by R2, the power sums, the expansion, the recurrence that decides R3, and the polynomial that solving computes.
//! Residues are below p < 2^28; no index is tested.

use std::hint::black_box;
use std::slice::SliceIndex;

use crate::rows::{self, Modulus};
use crate::{last, Values};

#[inline(always)]
pub fn at<T: Copy>(a: &[T], i: usize) -> T {
    // SAFETY: the callers keep to the lengths of their slices.
    unsafe { *a.get_unchecked(i) }
}

#[inline(always)]
pub fn put<T>(a: &mut [T], i: usize, x: T) {
    // SAFETY: as for at.
    unsafe { *a.get_unchecked_mut(i) = x }
}

#[inline(always)]
pub fn part<T>(a: &[T], range: impl SliceIndex<[T], Output = [T]>) -> &[T] {
    // SAFETY: as for at.
    unsafe { a.get_unchecked(range) }
}

#[inline(always)]
pub fn part_mut<T>(a: &mut [T], range: impl SliceIndex<[T], Output = [T]>) -> &mut [T] {
    // SAFETY: as for at.
    unsafe { a.get_unchecked_mut(range) }
}

#[inline(always)]
pub fn mul(a: u32, b: u32) -> u64 {
    u64::from(a) * u64::from(b)
}

#[inline(always)]
pub fn rem(x: u64, p: u32) -> u32 {
    (x % u64::from(p)) as u32
}

#[inline(always)]
pub fn times(a: u32, b: u32, p: u32) -> u32 {
    rem(mul(a, b), p)
}

#[inline(always)]
pub fn add(a: u32, b: u32, p: u32) -> u32 {
    let s = a.wrapping_add(b);
    if s < p {
        s
    } else {
        s - p
    }
}

#[inline(always)]
pub fn sub(a: u32, b: u32, p: u32) -> u32 {
    if b <= a {
        a - b
    } else {
        a + (p - b)
    }
}

#[inline(always)]
pub fn neg(a: u32, p: u32) -> u32 {
    if a == 0 {
        0
    } else {
        p - a
    }
}

/// The sum of a[i] b[k - i], i from `from` up to `to`: at most 256 products.
#[inline(always)]
fn dot(a: &[u32], b: &[u32], from: usize, to: usize, k: usize) -> u64 {
    let mut s = 0u64;
    let mut i = from;
    while i < to {
        s = s.wrapping_add(mul(at(a, i), at(b, k - i)));
        i += 1;
    }
    s
}

/// The same sum after `start`, with a remainder before each `size` products.
#[inline(always)]
#[allow(clippy::too_many_arguments)]
fn span(
    start: u32,
    a: &[u32],
    b: &[u32],
    from: usize,
    to: usize,
    k: usize,
    size: usize,
    p: u32,
) -> u64 {
    let mut s = start;
    let mut i = from;
    while size < to - i {
        s = rem(u64::from(s) + dot(a, b, i, i + size, k), p);
        i += size;
    }
    u64::from(s) + dot(a, b, i, to, k)
}

/// `start` plus the coefficient k of a b.
#[inline(always)]
pub fn coefficient(start: u32, a: &[u32], b: &[u32], k: usize, p: u32) -> u32 {
    let from = (k + 1).saturating_sub(b.len());
    let to = from.max((k + 1).min(a.len()));
    rem(span(start, a, b, from, to, k, 256, p), p)
}

/// The coefficient k of a²: the terms before the middle one, twice, and the middle one.
#[inline(always)]
fn square_coefficient(a: &[u32], k: usize, p: u32) -> u32 {
    let from = (k + 1).saturating_sub(a.len());
    let to = from.max(k.div_ceil(2).min(a.len()));
    let half = span(0, a, a, from, to, k, 127, p);
    let m = if k.is_multiple_of(2) {
        word(a, k / 2)
    } else {
        0
    };
    rem(half + half + mul(m, m), p)
}

/// out = a²: few coefficients each by itself, more by rows.
pub fn square_of(a: &[u32], e: &mut [u64], acc: &mut [u64], out: &mut [u32], m: Modulus) {
    if out.len() < 8 {
        for k in 0..out.len() {
            put(out, k, square_coefficient(a, k, m.p));
        }
        return;
    }
    rows::square(a, e, acc, out, m);
}

/// The word at i, 0 past the end.
#[inline(always)]
pub fn word(a: &[u32], i: usize) -> u32 {
    if i < a.len() {
        at(a, i)
    } else {
        0
    }
}

/// The word j places before k, 0 where there is none.
#[inline(always)]
fn back(a: &[u32], j: usize, k: usize) -> u32 {
    if k < j {
        0
    } else {
        word(a, k - j)
    }
}

#[inline(always)]
fn derivative(a: &[u32], out: &mut [u32], p: u32) {
    for k in 0..out.len() {
        let x = if k + 1 < a.len() {
            times(k as u32 + 1, at(a, k + 1), p)
        } else {
            0
        };
        put(out, k, x);
    }
}

/// The parts of N in the order of formula (13): (lx - sigma) g², (3x² + A)(-2gg') and f (-4(gg'' - g'²)), each a sum before any remainder.
#[inline(always)]
fn linear_part(v: Values, square: &[u32], k: usize) -> u64 {
    mul(v.degree, back(square, 1, k)) + mul(neg(v.sigma, v.p), word(square, k))
}

#[inline(always)]
fn first_logarithmic_part(v: Values, slope: &[u32], k: usize) -> u64 {
    mul(3, back(slope, 2, k)) + mul(v.a, word(slope, k))
}

#[inline(always)]
fn second_logarithmic_part(v: Values, bend: &[u32], k: usize) -> u64 {
    u64::from(back(bend, 3, k)) + mul(v.a, back(bend, 1, k)) + mul(v.b, word(bend, k))
}

/// N as the sum of its parts, with one remainder for each coefficient, in room for l up to 21, up to 79, or for all.
pub fn numerator(v: Values, m: Modulus, g: &[u32], out: &mut [u32]) {
    match g.len() {
        ..=11 => numerator_in::<24>(v, m, g, out),
        12..=40 => numerator_in::<80>(v, m, g, out),
        _ => numerator_in::<256>(v, m, g, out),
    }
}

fn numerator_in<const ROOM: usize>(v: Values, m: Modulus, g: &[u32], out: &mut [u32]) {
    let p = v.p;
    let d = g.len() - 1;
    let (mut e, mut acc) = ([0u64; ROOM], [0u64; ROOM]);
    let (e, acc) = (&mut e[..d + 7], &mut acc[..2 * d + 1]);
    let (mut h, mut q) = ([0u32; ROOM], [0u32; ROOM]);
    let (h, q) = (&mut h[..d], &mut q[..2 * d + 1]);
    let (mut s, mut t, mut u) = ([0u32; ROOM], [0u32; ROOM], [0u32; ROOM]);
    let (square, slope, bend) = (&mut s[..2 * d + 1], &mut t[..2 * d], &mut u[..2 * d - 1]);
    square_of(g, e, acc, square, m);
    for k in 0..slope.len() {
        let less = neg(word(square, k + 1), p);
        put(slope, k, times(k as u32 + 1, less, p));
    }
    derivative(g, h, p);
    square_of(h, e, acc, q, m);
    for k in 0..bend.len() {
        let sum = mul(2 * (k as u32 + 1), word(slope, k + 1)) + mul(8, word(q, k));
        put(bend, k, rem(sum, p));
    }
    for k in 0..out.len() {
        let sum = linear_part(v, square, k)
            + (first_logarithmic_part(v, slope, k) + second_logarithmic_part(v, bend, k));
        put(out, k, rem(sum, p));
    }
}

/// The rows of the four power sums from i on, for those from `from` on.
#[inline(always)]
fn sums_rows(e: &[u64], d: usize, acc: &mut [u64], s: &[u32], i: usize, from: usize) {
    let skip = from - (i + 4);
    let len = (d - skip).min(acc.len() - from);
    // Of remainders the compiler knows too much, and takes products of 64 bits.
    let factors = [0, 1, 2, 3].map(|j| u64::from(black_box(at(s, i + j))));
    rows::add_rows(acc, from, len, &e[skip..], factors);
}

/// s_k = -2k c_k - (the sum of s_i c_(k - i), i from 1 to k - 1), where c is g reversed: four at a time, each of which waits for the one before, and then
/// their rows, for those that follow. Those up to `known` are there already. s and acc have 4n + 1 words, e has two more than g or any number.
pub fn power_sums(
    v: Values,
    g: &[u32],
    e: &mut [u64],
    acc: &mut [u64],
    s: &mut [u32],
    known: usize,
) {
    let p = v.p;
    let d = g.len() - 1;
    e.fill(0);
    for t in 0..d {
        put(e, t, u64::from(neg(at(g, d - 1 - t), p)));
    }
    acc.fill(0);
    for k in 1..acc.len().min(d + 1) {
        put(acc, k, rows::product(2 * k as u64, at(e, k - 1)));
    }
    put(s, 0, (v.degree - 1) % p);
    let from = known / 4 * 4 + 1;
    let mut i = 1;
    while i < from {
        sums_rows(e, d, acc, s, i, from);
        i += 4;
    }
    while i < s.len() {
        let due = |j: usize| at(acc, i + j);
        let c = |x: u32, t: usize| rows::product(u64::from(x), at(e, t));
        let w = rem(due(0), p);
        let x = rem(due(1) + c(w, 0), p);
        let y = rem(due(2) + c(w, 1) + c(x, 0), p);
        let z = rem(due(3) + c(w, 2) + c(x, 1) + c(y, 0), p);
        rows::put_four(s, i, [w, x, y, z]);
        sums_rows(e, d, acc, s, i, i + 4);
        i += 4;
    }
}

/// h_i = (2i + 1)s_(i+1) + (2i - 1)A s_(i-1) + (2i - 2)B s_(i-2), from `known` on; the multiples of A and B are added up.
pub fn expansion(v: Values, s: &[u32], h: &mut [u32], known: usize) {
    let p = v.p;
    let (twice_a, twice_b) = (add(v.a, v.a, p), add(v.b, v.b, p));
    put(h, 0, 0);
    let from = known.max(1);
    let n = from as u32;
    let (mut ka, mut kb) = (times(2 * n - 1, v.a, p), times(2 * n - 2, v.b, p));
    for i in from..h.len() {
        let sum = mul(2 * i as u32 + 1, at(s, i + 1))
            + mul(ka, at(s, i - 1))
            + mul(kb, at(s, i.saturating_sub(2)));
        put(h, i, rem(sum, p));
        ka = add(ka, twice_a, p);
        kb = add(kb, twice_b, p);
    }
}

/// The sum of h_i h_(k-1-i), i from 1 to k - 2.
#[inline(always)]
fn square_sum(h: &[u32], k: usize, p: u32) -> u32 {
    square_coefficient(part(h, 1..k - 1), k - 3, p)
}

/// (k - 2)((2k + 3)h_k + (2k - 3)A h_(k-2) + 2(k - 3)B h_(k-3)) = 3(the sum of h_i h_(k-1-i)), for k from `from`, 3 at least. All sums are those of
/// one square, for which acc and squares have three words less than h, and e five more.
pub fn recurs(
    v: Values,
    m: Modulus,
    h: &[u32],
    from: usize,
    e: &mut [u64],
    acc: &mut [u64],
    squares: &mut [u32],
) -> bool {
    let p = v.p;
    square_of(&h[1..], e, acc, squares, m);
    let (twice_a, twice_b) = (add(v.a, v.a, p), add(v.b, v.b, p));
    let n = from as u32;
    let (mut ka, mut kb) = (times(2 * n - 3, v.a, p), times(2 * n - 6, v.b, p));
    for k in from..h.len() {
        let n = k as u32;
        let u = rem(
            mul(2 * n + 3, at(h, k)) + mul(ka, at(h, k - 2)) + mul(kb, at(h, k - 3)),
            p,
        );
        let x = neg(at(squares, k - 3), p);
        if rem(mul(n - 2, u) + mul(3, x), p) != 0 {
            return false;
        }
        ka = add(ka, twice_a, p);
        kb = add(kb, twice_b, p);
    }
    true
}

/// How many power sums are taken where n are wanted: whole turns.
pub fn whole(n: usize) -> usize {
    (n + 2) / 4 * 4 + 1
}

/// R3, where 3l - 3 < p, in room for l up to 21, up to 79, or for all.
pub fn rule_three(v: Values, m: Modulus, g: &[u32]) -> bool {
    match v.degree {
        ..=21 => rule_three_in::<28>(v, m, g),
        22..=79 => rule_three_in::<88>(v, m, g),
        _ => rule_three_in::<264>(v, m, g),
    }
}

fn rule_three_in<const ROOM: usize>(v: Values, m: Modulus, g: &[u32]) -> bool {
    let n = last(v.degree as usize) + 1;
    let count = whole(n + 1);
    let (mut e, mut acc) = ([0u64; ROOM], [0u64; ROOM]);
    let (e, acc) = (&mut e[..n + 5], &mut acc[..count]);
    let (mut s, mut h, mut squares) = ([0u32; ROOM], [0u32; ROOM], [0u32; ROOM]);
    let (s, h, squares) = (&mut s[..count], &mut h[..n], &mut squares[..n - 3]);
    rule_three_from(v, m, g, e, acc, s, h, squares, 0)
}

/// The same in room from outside, where s up to `known` and h before it are there already and meet what R3 asks of them.
#[allow(clippy::too_many_arguments)]
pub fn rule_three_from(
    v: Values,
    m: Modulus,
    g: &[u32],
    e: &mut [u64],
    acc: &mut [u64],
    s: &mut [u32],
    h: &mut [u32],
    squares: &mut [u32],
    known: usize,
) -> bool {
    let p = v.p;
    power_sums(v, g, e, acc, s, known);
    expansion(v, s, h, known);
    if known < 3 {
        if times(5, at(h, 1), p) != sub(v.a, v.atilde, p) {
            return false;
        }
        if times(7, at(h, 2), p) != sub(v.b, v.btilde, p) {
            return false;
        }
    }
    recurs(v, m, h, known.max(3), e, &mut acc[..squares.len()], squares)
}

/// y / 2: the half of y or of y + p, whichever is even.
#[inline(always)]
fn halve(y: u32, p: u32) -> u32 {
    if y.is_multiple_of(2) {
        y / 2
    } else {
        y / 2 + p / 2 + 1
    }
}

/// The inverse of k, from 2 on, by those of smaller numbers.
#[inline(always)]
fn entry(table: &[u32], k: u32, p: u32) -> u32 {
    if k.is_multiple_of(2) {
        halve(at(table, (k / 2) as usize), p)
    } else {
        times(p - p / k, at(table, (p % k) as usize), p)
    }
}

/// The sum of s_i c_(k-i), i from 2 to k.
#[inline(always)]
fn far_sum(s: &[u32], c: &[u32], k: usize, p: u32) -> u32 {
    if k == 1 {
        return 0;
    }
    coefficient(0, &s[2..], &c[..k - 1], k - 2, p)
}

/// g from the codomain: the inverses, h by the recurrence, s from h, c by Newton's identities, and c reversed. The multiples of -A and -B are added up, and
/// of c's remainders only the last of a turn waits for the word before. The places that are used: 2d + 2 of the table, d of h, d + 1 of s and c.
pub fn candidate(
    v: Values,
    table: &mut [u32],
    h: &mut [u32],
    s: &mut [u32],
    c: &mut [u32],
    g: &mut [u32],
) {
    let p = v.p;
    let d = g.len() - 1;
    put(table, 0, 0);
    put(table, 1, 1);
    for k in 2..2 * d as u32 + 2 {
        let x = entry(table, k, p);
        put(table, k as usize, x);
    }
    let over = |y: u32, k: usize| times(at(table, k), y, p);
    put(h, 0, 0);
    let (a, b) = (neg(v.a, p), neg(v.b, p));
    let (twice_a, twice_b) = (add(a, a, p), add(b, b, p));
    for k in 1..d.min(3) {
        let x = if k == 1 {
            over(sub(v.a, v.atilde, p), 5)
        } else {
            over(sub(v.b, v.btilde, p), 7)
        };
        put(h, k, x);
    }
    let (mut ka, mut kb) = (add(twice_a, a, p), 0);
    for k in 3..d {
        let sum = mul(3 * at(table, k - 2), square_sum(h, k, p))
            + mul(ka, at(h, k - 2))
            + mul(kb, at(h, k - 3));
        put(h, k, over(rem(sum, p), 2 * k + 3));
        ka = add(ka, twice_a, p);
        kb = add(kb, twice_b, p);
    }
    put(s, 0, (v.degree - 1) % p);
    put(s, 1, v.sigma);
    let (mut ka, mut kb) = (a, 0);
    for i in 1..d {
        let sum = u64::from(at(h, i)) + mul(ka, at(s, i - 1)) + mul(kb, at(s, i.saturating_sub(2)));
        put(s, i + 1, over(rem(sum, p), 2 * i + 1));
        ka = add(ka, twice_a, p);
        kb = add(kb, twice_b, p);
    }
    put(c, 0, 1);
    for k in 1..=d {
        let t = neg(at(table, 2 * k), p);
        let u = times(at(s, 1), t, p);
        let sum = mul(far_sum(s, c, k, p), t) + mul(u, at(c, k - 1));
        put(c, k, rem(sum, p));
    }
    for i in 0..=d {
        put(g, i, at(c, d - i));
    }
}
