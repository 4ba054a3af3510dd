//! Question 3: whether p is prime, with 11 <= p < 2^28. 2 is tried apart, then every odd prime below 2^14 in three runs, each by what is cheapest at its
//! size: a remainder, one product of 32 bits, three products of 16 bits. No run, and no block of the third, has a way out before its end, so
//! that the compiler tries several primes at once.

const COUNT: usize = 1899;
const LAST: usize = 16_381;
/// Where the second run begins, at 67, and the third, at 1031, which goes in blocks.
const SECOND: usize = 17;
const THIRD: usize = 171;
const BLOCK: usize = 432;

/// The odd primes from 3 to LAST, by a sieve.
static PRIMES: [u16; COUNT] = {
    let mut composite = [false; LAST + 1];
    let mut primes = [0; COUNT];
    let (mut count, mut n) = (0, 3);
    while n <= LAST {
        if !composite[n] {
            primes[count] = n as u16;
            count += 1;
            let mut multiple = n * n;
            while multiple <= LAST {
                composite[multiple] = true;
                multiple += n;
            }
        }
        n += 2;
    }
    primes
};

const _: () = assert!(
    PRIMES[SECOND] == 67
        && PRIMES[THIRD] == 1031
        && PRIMES[COUNT - 1] as usize == LAST
        && (COUNT - THIRD).is_multiple_of(BLOCK)
);

/// The inverse of an odd number modulo 2^32: the number itself is right in three bits, and each step doubles their count.
const fn inverse(q: u32) -> u32 {
    let mut i = q;
    let mut bits = 3;
    while bits < 32 {
        i = i.wrapping_mul(2u32.wrapping_sub(q.wrapping_mul(i)));
        bits *= 2;
    }
    i
}

/// The inverses of the second run modulo 2^32.
static INVERSES: [u32; THIRD - SECOND] = {
    let mut inverses = [0; THIRD - SECOND];
    let mut k = 0;
    while k < inverses.len() {
        inverses[k] = inverse(PRIMES[SECOND + k] as u32);
        k += 1;
    }
    inverses
};

/// The inverses of the third run modulo 2^16.
static SHORT_INVERSES: [u16; COUNT - THIRD] = {
    let mut inverses = [0; COUNT - THIRD];
    let mut k = 0;
    while k < inverses.len() {
        inverses[k] = inverse(PRIMES[THIRD + k] as u32) as u16;
        k += 1;
    }
    inverses
};

/// How many primes of the first run divide n and are not n.
fn small(n: u32) -> u32 {
    let divides = |&q: &u16| n.is_multiple_of(u32::from(q)) && n != u32::from(q);
    PRIMES[..SECOND].iter().map(|q| u32::from(divides(q))).sum()
}

/// How many primes of the second run divide n: n times the inverse is n / q, below 2^22, where q divides n, and not below it elsewhere.
fn middle(n: u32) -> u32 {
    let divides = |&i: &u32| n.wrapping_mul(i) < 1 << 22;
    INVERSES.iter().map(|i| u32::from(divides(i))).sum()
}

/// How many primes of a block of the third run divide n: n / q is below 2^18 where q divides n, and k is what stands above its 16 low bits.
fn large(n: u32, primes: &[u16], inverses: &[u16]) -> u16 {
    let (low, high) = (n as u16, (n >> 16) as u16);
    let divides = |(&q, &i): (&u16, &u16)| {
        let m = low.wrapping_mul(i);
        let t = ((u32::from(m) * u32::from(q)) >> 16) as u16;
        let k = high.wrapping_sub(t).wrapping_mul(i);
        k < 4
    };
    let pairs = primes.iter().zip(inverses);
    pairs.map(|pair| u16::from(divides(pair))).sum()
}

fn below_square(n: u32, q: u16) -> bool {
    n < u32::from(q) * u32::from(q)
}

fn is_prime(n: u32) -> bool {
    if n < 2 || n.is_multiple_of(2) {
        return n == 2;
    }
    if small(n) != 0 {
        return false;
    }
    if n < 1 << 12 {
        return true;
    }
    if middle(n) != 0 {
        return false;
    }
    if n < 1 << 20 {
        return true;
    }
    let primes = PRIMES[THIRD..].chunks_exact(BLOCK);
    for (primes, inverses) in primes.zip(SHORT_INVERSES.chunks_exact(BLOCK)) {
        if below_square(n, primes[0]) {
            return true;
        }
        if large(n, primes, inverses) != 0 {
            return false;
        }
    }
    true
}

pub fn question_three(p: u32) -> bool {
    (11..1 << 28).contains(&p) && is_prime(p)
}
