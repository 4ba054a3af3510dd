//! Values at and above p. Request E2 takes them modulo p on question and kernel
//! sheets, so the same question can be written there in many ways.

use crate::random::Random;
use crate::sheet::{kind, value, word, A, A_T, B, B_T, G, SIGMA, VALUE_LIMIT};

/// The kinds that request E2 names.
const KINDS: [u32; 6] = [A, B, A_T, B_T, SIGMA, G];

/// The values of a word that are this one modulo p, from the least up.
pub fn alike(value: u64, p: u64) -> impl DoubleEndedIterator<Item = u64> {
    let least = value % p;
    (0..=(VALUE_LIMIT - 1 - least) / p).map(move |k| least + k * p)
}

/// The greatest of them.
pub fn greatest(value: u64, p: u64) -> u64 {
    alike(value, p).next_back().expect("the least is one")
}

/// Any of them.
pub fn any(random: &mut Random, value: u64, p: u64) -> u64 {
    let (least, greatest) = (value % p, greatest(value, p));
    least + random.below((greatest - least) / p + 1) * p
}

/// Values from p on at which a reduction most easily goes wrong: those next to a
/// multiple of p, small and great, and the last ones of all.
pub fn limits(p: u64) -> Vec<u64> {
    let (top, multiple) = (VALUE_LIMIT - 1, greatest(0, p));
    let beside = [p, 2 * p, 3 * p, multiple].map(|m| [m - 1, m, m + 1]);
    let mut values = beside.concat();
    values.extend([top - 1, top]);
    values.retain(|v| (p..VALUE_LIMIT).contains(v));
    values.sort_unstable();
    values.dedup();
    values
}

/// The places of a sheet whose values request E2 reduces.
pub fn places(words: &[u32]) -> Vec<usize> {
    let all = 0..words.len();
    all.filter(|&i| KINDS.contains(&kind(words[i]))).collect()
}

/// The sheet with other values in those places; its p must not be 0.
pub fn with_values(words: &[u32], mut other: impl FnMut(u64, u64) -> u64) -> Vec<u32> {
    let mut changed = words.to_vec();
    for i in places(words) {
        changed[i] = word(kind(words[i]), other(value(words[i]), value(words[0])));
    }
    changed
}

/// The sheet with its values reduced; unchanged if it has no p to reduce by.
pub fn reduced(words: &[u32]) -> Vec<u32> {
    match words.first() {
        Some(&first) if value(first) > 0 => with_values(words, |v, p| v % p),
        _ => words.to_vec(),
    }
}

/// The same sheet with values of any size.
pub fn raised(random: &mut Random, words: &[u32]) -> Vec<u32> {
    with_values(words, |v, p| any(random, v, p))
}

/// In half of the cases that, in the others the sheet as it is.
pub fn sometimes_raised(random: &mut Random, words: &[u32]) -> Vec<u32> {
    if random.once_in(2) {
        raised(random, words)
    } else {
        words.to_vec()
    }
}
