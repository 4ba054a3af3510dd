//! One damaged word in sheets that are otherwise valid, at every place.

use reference::call::{Call, INFINITY};
use reference::generate;
use reference::random::Random;
use reference::sheet::{kind, value, word, Certificate, VALUE_LIMIT};
use reference::unreduced::greatest;

use crate::groups::certificates::LARGEST_PRIME;
use crate::groups::document;
use crate::judge::Judge;

/// Other words in place of one.
pub fn damages(original: u32, p: u64) -> Vec<u32> {
    let (k, v) = (kind(original), value(original));
    let mut values = vec![
        (v + 1) % VALUE_LIMIT,
        (v + VALUE_LIMIT - 1) % VALUE_LIMIT,
        0,
        1,
        p % VALUE_LIMIT,
        (p + VALUE_LIMIT - 1) % VALUE_LIMIT,
        (v + p) % VALUE_LIMIT,
        VALUE_LIMIT - 1,
    ];
    if p != 0 {
        // The next and the opposite field element, and values that request E2 reduces.
        values.extend([(v + 1) % p, (2 * p - v % p) % p]);
        values.extend([(p + 1) % VALUE_LIMIT, greatest(v, p), greatest(0, p)]);
    }
    let mut words: Vec<u32> = values.iter().map(|&new| word(k, new)).collect();
    let other_kinds = [(k + 1) % 16, (k + 15) % 16, k ^ 8];
    words.extend(other_kinds.map(|other| word(other, v)));
    words.retain(|&new| new != original);
    words.sort_unstable();
    words.dedup();
    words
}

pub fn run(judge: &mut Judge, quick: bool) {
    let mut random = Random::new(40);
    let mut certificates = document::samples();
    let small = generate::from_points(&mut random, 11, &[3, 5], 5000);
    certificates.extend(small);
    let wanted: &[(u64, &[u64])] = if quick {
        &[(LARGEST_PRIME, &[7, 31])]
    } else {
        &[
            (1009, &[5, 7, 15, 33]),
            (521, &[63, 255]),
            (LARGEST_PRIME, &[3, 5, 7, 31, 101, 127, 255]),
        ]
    };
    for &(p, degrees) in wanted {
        certificates.extend(generate::from_points(&mut random, p, degrees, 20_000));
    }
    judge.note(format!("{} certificates", certificates.len()));
    for certificate in &certificates {
        damage_all(judge, certificate);
    }
}

fn damage_all(judge: &mut Judge, certificate: &Certificate) {
    let p = certificate.question.p;
    each_damage(&certificate.words(), p, |words, first| {
        judge.agrees(&Call::check(words));
        if first {
            judge.agrees(&Call::push(words, INFINITY));
        }
    });
    each_damage(&certificate.question.words(), p, |words, _| {
        judge.agrees(&Call::solve(words));
    });
    each_damage(&certificate.kernel_sheet().words(), p, |words, _| {
        judge.agrees(&Call::kernel(words));
    });
}

/// Calls with every damaged copy; the flag marks the first damage of a place.
pub fn each_damage(words: &[u32], p: u64, mut put: impl FnMut(&[u32], bool)) {
    let mut damaged = words.to_vec();
    for (i, &original) in words.iter().enumerate() {
        for (count, new) in damages(original, p).into_iter().enumerate() {
            damaged[i] = new;
            put(&damaged, count == 0);
        }
        damaged[i] = original;
    }
}
