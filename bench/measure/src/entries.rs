//! The C entries of the library, the check and the count with FLINT, and FLINT's and PARI's tests of a prime, each in a safe function.

common::entries!("");

// Compose is not one of the macro's, since bench/pair takes older libraries too.
extern "C" {
    fn sagepliers_compose(
        first: *const u32,
        first_words: usize,
        second: *const u32,
        second_words: usize,
        answer: *mut u32,
        room: usize,
    ) -> u64;
    fn sagepliers_name(p: u32, a: u32, b: u32) -> u64;
    fn flint_check(values: *const u32, g: *const u32, n: *const u32, count: u32) -> u32;
    fn flint_rules(values: *const u32, g: *const u32, n: *const u32) -> u32;
    fn flint_count(p: u32, g: *const u32, d: u32) -> u32;
    fn n_is_prime(n: u64) -> i32;
    fn pari_init_opts(stack: usize, prime: u64, options: u64);
    fn uisprime(n: u64) -> i32;
}

pub fn compose(first: &[u32], second: &[u32], answer: &mut [u32]) -> u64 {
    // SAFETY: the slices are readable, and the answer, which overlaps neither of the others, is writable.
    unsafe {
        sagepliers_compose(
            first.as_ptr(),
            first.len(),
            second.as_ptr(),
            second.len(),
            answer.as_mut_ptr(),
            answer.len(),
        )
    }
}

/// The lengths that the C functions read.
fn assert_lengths(values: &[u32; 7], g: &[u32], n: &[u32]) {
    let d = (values[5] as usize - 1) / 2;
    assert!(g.len() == d + 1 && n.len() == 2 * d + 2);
}

/// R1 to R3 and the count of a certificate that has been read: p, A, B, A~, B~, l, sigma, then g, N and the count.
pub fn check_with_flint(values: &[u32; 7], g: &[u32], n: &[u32], rational: u32) -> u32 {
    assert_lengths(values, g, n);
    // SAFETY: the three have the lengths that the function reads.
    unsafe { flint_check(values.as_ptr(), g.as_ptr(), n.as_ptr(), rational) }
}

/// R1 to R3 alone.
pub fn rules_with_flint(values: &[u32; 7], g: &[u32], n: &[u32]) -> u32 {
    assert_lengths(values, g, n);
    // SAFETY: as for check_with_flint.
    unsafe { flint_rules(values.as_ptr(), g.as_ptr(), n.as_ptr()) }
}

/// The count of a monic g.
pub fn count_with_flint(p: u32, g: &[u32]) -> u32 {
    let d = g.len() as u32 - 1;
    // SAFETY: g has the d + 1 words that the function reads.
    unsafe { flint_count(p, g.as_ptr(), d) }
}

/// Question 3, by the name of a curve with A = p: that is refused with 5, the next question, as soon as p has passed.
pub fn question_three(p: u32) -> bool {
    // SAFETY: the function takes every number.
    unsafe { sagepliers_name(p, p, 0) == same::REFUSED + 5 }
}

pub fn flint_is_prime(n: u32) -> bool {
    // SAFETY: as for question_three.
    unsafe { n_is_prime(u64::from(n)) != 0 }
}

/// Before anything else is asked of PARI; with its defaults (4), but without its handlers of signals and errors.
pub fn start_pari() {
    // SAFETY: the numbers are a size, a bound and a set of options.
    unsafe { pari_init_opts(1 << 20, 0, 4) }
}

/// What `isprime` calls for a number of one word.
pub fn pari_is_prime(n: u32) -> bool {
    // SAFETY: as for question_three.
    unsafe { uisprime(u64::from(n)) != 0 }
}
