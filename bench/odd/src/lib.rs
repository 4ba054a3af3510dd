//! What document 02 wants question 3 measured against: primality by trying 2 and then every odd number up to the root.

/// For n below 2^32 - 2^17, so that the square of the first odd number above the root is a u32.
pub fn is_prime(n: u32) -> bool {
    if n < 2 || n.is_multiple_of(2) {
        return n == 2;
    }
    let mut d = 3;
    while d * d <= n {
        if n.is_multiple_of(d) {
            return false;
        }
        d += 2;
    }
    true
}

/// Question 3: is p prime, with 11 <= p < 2^28?
pub fn question_three(p: u32) -> bool {
    (11..1 << 28).contains(&p) && is_prime(p)
}
