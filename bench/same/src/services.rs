//! Reading, the five questions of a sheet's form and content, and the services check, solve, kernel, push and compose.

use reference::sheet::LARGEST_CERTIFICATE as ROOM;

use crate::counting;
use crate::horner;
use crate::primes::question_three;
use crate::rows::{self, Modulus};
use crate::rules::{self, add, at, mul, neg, part, put, rem, sub, times};
use crate::{Values, INFINITY, REFUSED};

// ── questions 3 to 7

fn kind(w: u32) -> u32 {
    w >> 28
}

fn value(w: u32) -> u32 {
    w % (1 << 28)
}

fn nonsingular(a: u32, b: u32, p: u32) -> bool {
    let (square, other) = (times(a, a, p), times(b, b, p));
    rem(mul(4 * square, a) + mul(27, other), p) != 0
}

/// No word ends the loop.
fn section(ws: &[u32], from: usize, to: usize, k: u32, bound: u32) -> bool {
    (from..to).fold(true, |all, i| {
        all & (at(ws, i).wrapping_sub(k << 28) < bound)
    })
}

/// Nothing is divided where the value is below p already.
fn modulo(x: u32, p: u32) -> u32 {
    if x < p {
        x
    } else {
        x % p
    }
}

/// Questions 2 to 7 of a sheet whose header has these kinds, then g, then N and the count where it is a certificate. Elsewhere values may be of any size,
/// and those of the header come back modulo p.
fn read(ws: &[u32], kinds: &[u32], g: bool, certificate: bool) -> Result<Values, u32> {
    if ws.len() < kinds.len() || (0..kinds.len()).any(|i| kind(at(ws, i)) != at(kinds, i)) {
        return Err(2);
    }
    let mut v = Values::default();
    for (i, k) in kinds.iter().enumerate() {
        let x = value(at(ws, i));
        match k {
            1 => v.p = x,
            2 => v.a = x,
            3 => v.b = x,
            4 => v.atilde = x,
            5 => v.btilde = x,
            6 => v.degree = x,
            _ => v.sigma = x,
        }
    }
    let (p, l) = (v.p, v.degree);
    if !question_three(p) {
        return Err(3);
    }
    if l.is_multiple_of(2) || !(3..=255).contains(&l) || p < 2 * l {
        return Err(4);
    }
    if !certificate {
        for x in [
            &mut v.a,
            &mut v.b,
            &mut v.atilde,
            &mut v.btilde,
            &mut v.sigma,
        ] {
            *x = modulo(*x, p);
        }
    } else if p <= v.a || p <= v.b || p <= v.atilde || p <= v.btilde || p <= v.sigma {
        return Err(5);
    }
    let d = (l as usize - 1) / 2;
    let from = kinds.len();
    let middle = from + if g { d + 1 } else { 0 };
    let count = middle + if certificate { 2 * d + 2 } else { 0 };
    let end = count + usize::from(certificate);
    if ws.len() != end + 1 || at(ws, end) != 0xf000_0000 {
        return Err(6);
    }
    let bound = if certificate { p } else { 1 << 28 };
    if !section(ws, from, middle, 8, bound)
        || !section(ws, middle, count, 9, bound)
        || !section(ws, count, end, 10, 1 << 28)
    {
        return Err(6);
    }
    if !nonsingular(v.a, v.b, p) || (kinds.len() == 7 && !nonsingular(v.atilde, v.btilde, p)) {
        return Err(7);
    }
    Ok(v)
}

fn coefficients(ws: &[u32], from: usize, out: &mut [u32]) {
    for i in 0..out.len() {
        put(out, i, value(at(ws, from + i)));
    }
}

pub fn write(v: Values, g: &[u32], n: &[u32], abscissas: u32, out: &mut [u32]) -> u64 {
    let header = [v.p, v.a, v.b, v.atilde, v.btilde, v.degree, v.sigma];
    for (i, x) in header.iter().enumerate() {
        put(out, i, ((i as u32 + 1) << 28) + x);
    }
    for i in 0..g.len() {
        put(out, 7 + i, (8 << 28) + at(g, i));
    }
    for i in 0..n.len() {
        put(out, 7 + g.len() + i, (9 << 28) + at(n, i));
    }
    let count = 7 + g.len() + n.len();
    put(out, count, (10 << 28) + abscissas);
    let end = count + 1;
    put(out, end, 15 << 28);
    end as u64 + 1
}

// ── the services

const CERTIFICATE: [u32; 7] = [1, 2, 3, 4, 5, 6, 7];
const KERNEL: [u32; 4] = [1, 2, 3, 6];

fn judge(v: Values, g: &[u32], n: &[u32], abscissas: u32) -> u32 {
    let p = v.p;
    let m = rows::modulus(p);
    let d = g.len() - 1;
    if at(g, d) != 1 || neg(times(2, at(g, d - 1), p), p) != v.sigma {
        return 8;
    }
    let mut room = [0; 256];
    let room = &mut room[..2 * d + 2];
    rules::numerator(v, m, g, room);
    if n != room || counting::roots(g, m) != abscissas {
        return 9;
    }
    if rules::rule_three(v, m, g) {
        0
    } else {
        10
    }
}

/// The values, g and N of a certificate that passes.
fn passed(ws: &[u32], g: &mut [u32; 128], n: &mut [u32; 256]) -> Result<Values, u32> {
    let v = read(ws, &CERTIFICATE, true, true)?;
    let d = (v.degree as usize - 1) / 2;
    coefficients(ws, 7, &mut g[..d + 1]);
    coefficients(ws, d + 8, &mut n[..2 * d + 2]);
    let abscissas = value(at(ws, 3 * d + 10));
    match judge(v, &g[..d + 1], &n[..2 * d + 2], abscissas) {
        0 => Ok(v),
        k => Err(k),
    }
}

/// The same of bytes.
fn passed_bytes(bytes: &[u8], g: &mut [u32; 128], n: &mut [u32; 256]) -> Result<Values, u32> {
    if !bytes.len().is_multiple_of(4) {
        return Err(2);
    }
    let mut words = [0u32; ROOM + 1];
    let count = (bytes.len() / 4).min(words.len());
    for i in 0..count {
        // SAFETY: there are four bytes for each word.
        let word = unsafe { bytes.as_ptr().cast::<[u8; 4]>().add(i).read() };
        put(&mut words, i, u32::from_le_bytes(word));
    }
    passed(&words[..count], g, n)
}

pub fn check(bytes: &[u8]) -> u32 {
    let (mut g, mut n) = ([0; 128], [0; 256]);
    match passed_bytes(bytes, &mut g, &mut n) {
        Ok(_) => 0,
        Err(k) => k,
    }
}

/// By Euclid.
fn inverse(a: u32, p: u32) -> u32 {
    let (mut x, mut y, mut t, mut u, mut s) = (p, a, 0, 1, 1);
    while 1 < y {
        let q = x / y;
        (x, y, t, u) = (y, x % y, u, t + q * u);
        s = p - s;
    }
    times(s, u, p)
}

/// 1, x, x², .. and their derivatives, as many as the slices have words.
fn tables(x: u32, powers: &mut [u32], slopes: &mut [u32], p: u32) {
    for i in 0..powers.len() {
        let power = match i {
            0 => 1,
            1 => x,
            _ => times(at(powers, i / 2), at(powers, i - i / 2), p),
        };
        put(powers, i, power);
    }
    for i in 0..slopes.len() {
        let slope = if i == 0 {
            0
        } else {
            i as u32 * at(powers, i - 1)
        };
        put(slopes, i, slope);
    }
}

fn dot(a: &[u32], b: &[u32]) -> u64 {
    (0..a.len()).map(|i| mul(at(a, i), at(b, i))).sum()
}

/// a and its derivative at the point of the tables, by blocks of 16 coefficients.
fn evaluate(a: &[u32], powers: &[u32], slopes: &[u32], p: u32) -> (u32, u32) {
    let (mut value, mut slope) = (0, 0);
    let mut i = a.len();
    while 0 < i {
        let start = i.saturating_sub(16);
        let block = part(a, start..i);
        let m = i - start;
        let x = at(powers, m);
        let sum = dot(block, powers) + mul(x, value);
        let rise = dot(block, slopes) + mul(x, slope) + mul(at(slopes, m), value);
        (value, slope) = (rem(sum, p), rem(rise, p));
        i = start;
    }
    (value, slope)
}

pub fn push(bytes: &[u8], point: u64) -> u64 {
    let (mut g, mut n) = ([0; 128], [0; 256]);
    let v = match passed_bytes(bytes, &mut g, &mut n) {
        Ok(v) => v,
        Err(k) => return REFUSED + u64::from(k),
    };
    if INFINITY < point {
        return REFUSED + 12;
    }
    if point == INFINITY {
        return INFINITY;
    }
    let p = v.p;
    let (x, y) = ((point % (1 << 28)) as u32, (point >> 28) as u32);
    let cubic = |x| add(times(add(times(x, x, p), v.a, p), x, p), v.b, p);
    if p <= x || p <= y || times(y, y, p) != cubic(x) {
        return REFUSED + 12;
    }
    let d = (v.degree as usize - 1) / 2;
    let (g, n) = (&g[..d + 1], &n[..2 * d + 2]);
    let count = n.len().min(16) + 1;
    let (mut powers, mut slopes) = ([0; 17], [0; 17]);
    let (powers, slopes) = (&mut powers[..count], &mut slopes[..count]);
    tables(x, powers, slopes, p);
    let (gx, dg) = evaluate(g, powers, slopes, p);
    if gx == 0 {
        return INFINITY;
    }
    let (nx, dn) = evaluate(n, powers, slopes, p);
    let w = times(y, rem(mul(dn, gx) + mul(2 * (p - nx), dg), p), p);
    let i = inverse(gx, p);
    let square = times(i, i, p);
    let u = times(nx, square, p);
    let w = times(times(w, i, p), square, p);
    u64::from(u) + (u64::from(w) << 28)
}

/// The certificate of a g with R1 and its N if R3 holds too, else 11.
fn finish(v: Values, m: Modulus, g: &[u32], n: &[u32], holds: bool, answer: &mut [u32]) -> u64 {
    if !holds {
        return REFUSED + 11;
    }
    write(v, g, n, counting::roots(g, m), answer)
}

/// The same, with room for N.
fn certify(v: Values, g: &[u32], answer: &mut [u32]) -> u64 {
    let m = rows::modulus(v.p);
    let mut n = [0; 256];
    let n = &mut n[..2 * g.len()];
    rules::numerator(v, m, g, n);
    finish(v, m, g, n, rules::rule_three(v, m, g), answer)
}

pub fn solve(ws: &[u32], answer: &mut [u32]) -> u64 {
    if answer.len() < ROOM {
        return REFUSED + 1;
    }
    let v = match read(ws, &CERTIFICATE, false, false) {
        Ok(v) => v,
        Err(k) => return REFUSED + u64::from(k),
    };
    match v.degree {
        ..=21 => solve_in::<28>(v, answer),
        22..=79 => solve_in::<88>(v, answer),
        _ => solve_in::<264>(v, answer),
    }
}

/// Of the candidate half of what R3 asks is known. N's room serves for its coefficients before, the table's for R3's squares after.
fn solve_in<const ROOM: usize>(v: Values, answer: &mut [u32]) -> u64 {
    let l = v.degree as usize;
    let d = l / 2;
    let count = rules::whole(l + 2);
    let (mut e, mut acc) = ([0u64; ROOM], [0u64; ROOM]);
    let (e, acc) = (&mut e[..l + 6], &mut acc[..count]);
    let (mut s, mut h, mut table) = ([0u32; ROOM], [0u32; ROOM], [0u32; ROOM]);
    let (s, h, table) = (&mut s[..count], &mut h[..l + 1], &mut table[..l + 1]);
    let (mut n, mut g) = ([0u32; ROOM], [0u32; ROOM]);
    let (n, g) = (&mut n[..l + 1], &mut g[..d + 1]);
    rules::candidate(v, table, h, s, n, g);
    let m = rows::modulus(v.p);
    rules::numerator(v, m, g, n);
    let holds = rules::rule_three_from(v, m, g, e, acc, s, h, &mut table[..l - 2], d);
    finish(v, m, g, n, holds, answer)
}

pub fn kernel(ws: &[u32], answer: &mut [u32]) -> u64 {
    if answer.len() < ROOM {
        return REFUSED + 1;
    }
    let mut v = match read(ws, &KERNEL, true, false) {
        Ok(v) => v,
        Err(k) => return REFUSED + u64::from(k),
    };
    let p = v.p;
    let d = (v.degree as usize - 1) / 2;
    let mut g = [0; 128];
    let g = &mut g[..d + 1];
    coefficients(ws, 4, g);
    g.iter_mut().for_each(|c| *c = modulo(*c, p));
    if at(g, d) != 1 {
        return REFUSED + 8;
    }
    let (mut e, mut acc) = ([0; 130], [0; 5]);
    let (mut s, mut h) = ([0; 5], [0; 3]);
    rules::power_sums(v, g, &mut e, &mut acc, &mut s, 0);
    rules::expansion(v, &s, &mut h, 0);
    v.sigma = neg(times(2, at(g, d - 1), p), p);
    v.atilde = sub(v.a, times(5, h[1], p), p);
    v.btilde = sub(v.b, times(7, h[2], p), p);
    if !nonsingular(v.atilde, v.btilde, p) {
        return REFUSED + 11;
    }
    certify(v, g, answer)
}

/// R3 is not asked of the composite, since it holds.
pub fn compose(first: &[u32], second: &[u32], answer: &mut [u32]) -> u64 {
    if answer.len() < ROOM {
        return REFUSED + 1;
    }
    let (mut g1, mut n1) = ([0; 128], [0; 256]);
    let (mut g2, mut n2) = ([0; 128], [0; 256]);
    let v = match passed(first, &mut g1, &mut n1) {
        Ok(v) => v,
        Err(k) => return REFUSED + u64::from(k),
    };
    let w = match passed(second, &mut g2, &mut n2) {
        Ok(w) => w,
        Err(k) => return REFUSED + u64::from(k),
    };
    if v.p != w.p || v.atilde != w.a || v.btilde != w.b {
        return REFUSED + 13;
    }
    let degree = v.degree * w.degree;
    if 255 < degree || v.p < 2 * degree {
        return REFUSED + 14;
    }
    let sum = u64::from(w.sigma) + mul(w.degree, v.sigma);
    let u = Values {
        atilde: w.atilde,
        btilde: w.btilde,
        degree,
        sigma: rem(sum, v.p),
        ..v
    };
    let m = rows::modulus(u.p);
    let half = |degree: u32| (degree as usize - 1) / 2;
    let (d, d1, d2) = (half(degree), half(v.degree), half(w.degree));
    let (mut g, mut n) = ([0; 128], [0; 256]);
    let (g, n) = (&mut g[..d + 1], &mut n[..2 * d + 2]);
    horner::composite(&n1[..2 * d1 + 2], &g1[..d1 + 1], &g2[..d2 + 1], g, m);
    rules::numerator(u, m, g, n);
    finish(u, m, g, n, true, answer)
}
