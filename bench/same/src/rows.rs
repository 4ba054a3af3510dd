//! Remainders by products and shifts for a p that is prepared once, and squares by rows: four words of one factor at a time, times all words of the other,
//! are added to sums of 64 bits, which take no remainder until all is added.

use crate::rules::{at, part, part_mut, put, word};

/// What the remainders by p need: P = p 2^shift with 2^27 <= P < 2^28, 2^36 mod P, and (2^59 - 1) / P rounded down.
#[derive(Clone, Copy)]
pub struct Modulus {
    pub p: u32,
    shift: u32,
    big: u64,
    fold: u64,
    inverse: u64,
}

pub fn modulus(p: u32) -> Modulus {
    let shift = p.leading_zeros() - 4;
    let big = u64::from(p) << shift;
    Modulus {
        p,
        shift,
        big,
        fold: (1 << 36) % big,
        inverse: ((1 << 59) - 1) / big,
    }
}

/// Of two words. The masks change nothing; they show the compiler that its vectors can multiply them.
#[inline(always)]
pub fn product(a: u64, b: u64) -> u64 {
    (a & 0xffff_ffff) * (b & 0xffff_ffff)
}

/// By P, for a number below 2^58: the quotient by multiplication is at most one too small, which a carry into bit 32 tells.
#[inline(always)]
fn low(y: u64, m: Modulus) -> u64 {
    let q = product(y >> 26, m.inverse) >> 33;
    let r = y - product(q, m.big);
    let carry = (r + (1 << 32) - m.big) >> 32;
    r - product(carry, m.big)
}

/// Of a sum, number and modulus being shifted alike: 2^36 is replaced by its remainder.
#[inline(always)]
pub fn remainder(x: u64, m: Modulus) -> u32 {
    let x = x << m.shift;
    let y = product(x >> 36, m.fold) + x % (1 << 36);
    (low(y, m) >> m.shift) as u32
}

/// Of at most three products of residues, which are short enough as they are.
#[inline(always)]
pub fn short(x: u64, m: Modulus) -> u64 {
    low(x << m.shift, m) >> m.shift
}

/// out = the remainders of the first numbers of xs.
#[inline(always)]
pub fn remainders(xs: &[u64], out: &mut [u32], m: Modulus) {
    for i in 0..out.len() {
        put(out, i, remainder(at(xs, i), m));
    }
}

/// out = out + w a + x b + y c + z d, word by word. A function of its own, since the compiler would keep the words of e from turn to turn where it sees that
/// the rows are of one slice, and take no vectors.
pub fn four(out: &mut [u64], a: &[u64], b: &[u64], c: &[u64], d: &[u64], factors: [u64; 4]) {
    let [w, x, y, z] = factors;
    for j in 0..out.len() {
        let sum = at(out, j)
            + product(w, at(a, j))
            + product(x, at(b, j))
            + product(y, at(c, j))
            + product(z, at(d, j));
        put(out, j, sum);
    }
}

/// The same for `len` words of acc, those from `from` on, and four rows of e: those from 3, 2, 1 and 0 on.
pub fn add_rows(acc: &mut [u64], from: usize, len: usize, e: &[u64], factors: [u64; 4]) {
    let row = |i: usize| part(e, i..);
    let out = part_mut(acc, from..from + len);
    four(out, row(3), row(2), row(1), e, factors);
}

/// Four words of a from i on.
#[inline(always)]
pub fn factors(a: &[u32], i: usize) -> [u64; 4] {
    [0, 1, 2, 3].map(|j| u64::from(word(a, i + j)))
}

#[inline(always)]
pub fn put_four<T: Copy>(out: &mut [T], from: usize, words: [T; 4]) {
    (0..4).for_each(|j| put(out, from + j, words[j]));
}

/// The sums of a², as many as acc has words: four words of a at a time, times themselves and twice what is above them. e holds that, behind three zeros and
/// before three, so that the rows have no ends of their own.
#[inline(always)]
pub fn sums(a: &[u32], e: &mut [u64], acc: &mut [u64]) {
    e.fill(0);
    for k in 0..a.len() {
        put(e, k + 3, 2 * u64::from(at(a, k)));
    }
    acc.fill(0);
    let mut i = 0;
    while i < a.len() && 2 * i < acc.len() {
        let factors = factors(a, i);
        put_four(e, i + 3, factors);
        let len = (a.len() - i + 3).min(acc.len() - 2 * i);
        add_rows(acc, 2 * i, len, part(e, i..), factors);
        put_four(e, i + 3, [0; 4]);
        i += 4;
    }
}

/// out = a². acc is room for the sums, as many words as out; e has six words more than a.
pub fn square(a: &[u32], e: &mut [u64], acc: &mut [u64], out: &mut [u32], m: Modulus) {
    sums(a, e, acc);
    remainders(acc, out, m);
}

/// e = a behind three zeros, and zeros after it.
pub fn put_behind(a: &[u32], e: &mut [u64]) {
    for k in 0..e.len() {
        let x = if k < 3 { 0 } else { word(a, k - 3) };
        put(e, k, u64::from(x));
    }
}

/// acc = acc + a b by rows, where e holds b: as many sums as acc has words.
pub fn add_product(acc: &mut [u64], a: &[u32], e: &[u64]) {
    let mut i = 0;
    while i < a.len() {
        add_rows(acc, i, acc.len() - i, e, factors(a, i));
        i += 4;
    }
}
