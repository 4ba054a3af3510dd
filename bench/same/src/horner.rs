//! The kernel polynomial of a composite: g1 times g2 at N/g1², cleared of denominators, by Horner's rule in the numerator and the denominator. Products are by
//! rows, and each of their coefficients takes one remainder.

// Room comes from outside.
#![allow(clippy::too_many_arguments)]

use crate::rows::{self, Modulus};
use crate::rules::{at, mul, part, part_mut, put, square_of, word};

/// h = acc + a h, where h is at first its front of `from` words.
fn add_times(h: &mut [u32], from: usize, a: &[u32], e: &mut [u64], acc: &mut [u64], m: Modulus) {
    rows::put_behind(part(h, ..from), e);
    rows::add_product(acc, a, e);
    rows::remainders(acc, h, m);
}

/// h = a h
fn multiply(h: &mut [u32], from: usize, a: &[u32], e: &mut [u64], acc: &mut [u64], m: Modulus) {
    acc.fill(0);
    add_times(h, from, a, e, acc, m);
}

/// h = c b + a h
fn multiply_add(
    h: &mut [u32],
    from: usize,
    a: &[u32],
    b: &[u32],
    c: u32,
    e: &mut [u64],
    acc: &mut [u64],
    m: Modulus,
) {
    for k in 0..acc.len() {
        put(acc, k, mul(c, word(b, k)));
    }
    add_times(h, from, a, e, acc, m);
}

fn copy(a: &[u32], out: &mut [u32]) {
    for k in 0..out.len() {
        put(out, k, word(a, k));
    }
}

/// g1 times g2 at n / g1², cleared by g1^(2 d2), where g2 has d2 + 1 words; all words of out.
pub fn composite(n: &[u32], g1: &[u32], g2: &[u32], out: &mut [u32], m: Modulus) {
    let (mut square, mut den) = ([0u32; 128], [0u32; 128]);
    let (mut e, mut acc) = ([0u64; 136], [0u64; 128]);
    let (e, acc) = (&mut e[..], &mut acc[..]);
    let l = n.len() - 1;
    let square = part_mut(&mut square, ..l);
    square_of(g1, e, part_mut(acc, ..l), square, m);
    // From the two topmost coefficients of g2 down.
    let d = g2.len() - 1;
    let (mut hl, mut dl) = (l + 1, l);
    let (whole, h) = (d * l + 1, &mut *out);
    copy(n, part_mut(h, ..whole));
    multiply_add(
        part_mut(h, ..hl),
        hl,
        part(g2, d..),
        square,
        at(g2, d - 1),
        part_mut(e, ..hl + 3),
        part_mut(acc, ..hl),
        m,
    );
    copy(square, &mut den);
    for i in (0..d - 1).rev() {
        let (k, next) = (hl + l, dl + l - 1);
        multiply(
            part_mut(&mut den, ..next),
            dl,
            square,
            part_mut(e, ..next + 3),
            part_mut(acc, ..next),
            m,
        );
        multiply_add(
            part_mut(h, ..k),
            hl,
            n,
            part(&den, ..next),
            at(g2, i),
            part_mut(e, ..k + 3),
            part_mut(acc, ..k),
            m,
        );
        (hl, dl) = (k, next);
    }
    let s = out.len();
    multiply(out, whole, g1, part_mut(e, ..s + 3), part_mut(acc, ..s), m);
}
