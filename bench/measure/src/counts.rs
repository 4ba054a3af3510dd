//! Multiply-adds of the algorithms: products of two residues that are added up. Products with small numbers, with A and with B, those with the zeros at the
//! ends of rows and remainders are left out, so what follows from the counts is a lower bound.

/// The products of a square's coefficients, each pair counted once: n words, all 2n - 1 coefficients.
fn square(n: usize) -> usize {
    (0..2 * n - 1)
        .map(|k| {
            let from = (k + 1).saturating_sub(n);
            k.div_ceil(2) - from + usize::from(k % 2 == 0)
        })
        .sum()
}

/// N: the squares of g and of its derivative.
fn numerator(l: usize) -> usize {
    let d = (l - 1) / 2;
    square(d + 1) + square(d)
}

/// x^p modulo g: what is prepared for g, and then squares with their remainders. By the table these take a row for each word above x^d; by quotients the
/// words of the quotient and those of its product with g below x^d.
fn power(l: usize, p: u32) -> usize {
    let d = (l - 1) / 2;
    let below = d * (d - 1) / 2;
    let (prepared, remainder) = if same::counting::by_table(d) {
        (d * d, d * d)
    } else {
        (below, 2 * (below + d))
    };
    prepared + same::counting::squares(d, p) as usize * (square(d) + remainder)
}

/// Euclid's remainders where each has one word less than the one before: two words of one polynomial are cancelled by the words of the other.
fn remainders(l: usize) -> usize {
    let d = (l - 1) / 2;
    (1..=d).map(|n| 3 * (n - 1) + 2).sum()
}

/// The count for a g whose roots are all in the field, which divides x^p - x, so that no remainder follows.
pub fn all_rational(l: usize, p: u32) -> usize {
    // The one root of x - u needs no power.
    if l == 3 {
        0
    } else {
        power(l, p)
    }
}

/// The count for a g with no root in the field, and about that for a g with few.
pub fn few_rational(l: usize, p: u32) -> usize {
    if l == 3 {
        0
    } else {
        power(l, p) + remainders(l)
    }
}

/// R3 by the recurrence up to its last k, each pair counted once, and the power sums up to the one after it.
fn rule_three(l: usize) -> usize {
    let d = (l - 1) / 2;
    let last = same::last(l);
    let sums: usize = (1..=last + 1).map(|k| (k - 1).min(d)).sum();
    let recurrence: usize = (3..=last).map(|k| (k - 1) / 2).sum();
    sums + recurrence
}

/// Of a certificate from a point, as those that are measured.
pub fn check(l: usize, p: u32) -> usize {
    numerator(l) + all_rational(l, p) + rule_three(l)
}

/// Kernel adds five power sums, which is next to nothing.
pub fn kernel(l: usize, p: u32) -> usize {
    check(l, p)
}

/// Solve computes h up to d - 1, each pair counted once, and c up to d before, and takes no power sum up to d.
pub fn solve(l: usize, p: u32) -> usize {
    let d = (l - 1) / 2;
    let h: usize = (3..d).map(|k| (k - 1) / 2).sum();
    let c: usize = (1..=d).sum();
    let known: usize = (1..=d).map(|k| k - 1).sum();
    h + c + check(l, p) - known
}

/// Push evaluates g, N and their derivatives after a check.
pub fn push(l: usize, p: u32) -> usize {
    check(l, p) + 3 * (l + 1)
}
