//! The field of p elements. Elements are u64 from 0 to p - 1; p is a prime
//! below 2^32, so that a product of two elements fits a u64.

#[derive(Clone, Copy, Debug, PartialEq, Eq)]
pub struct Field {
    p: u64,
}

impl Field {
    pub fn new(p: u64) -> Field {
        assert!((2..1 << 32).contains(&p), "no such field: {p}");
        Field { p }
    }

    pub fn p(self) -> u64 {
        self.p
    }

    /// The element that an integer of any sign stands for.
    pub fn of(self, n: i64) -> u64 {
        n.rem_euclid(self.p as i64) as u64
    }

    pub fn add(self, a: u64, b: u64) -> u64 {
        (a + b) % self.p
    }

    pub fn sub(self, a: u64, b: u64) -> u64 {
        (a + self.p - b) % self.p
    }

    pub fn neg(self, a: u64) -> u64 {
        self.sub(0, a)
    }

    pub fn mul(self, a: u64, b: u64) -> u64 {
        a * b % self.p
    }

    pub fn pow(self, a: u64, exponent: u64) -> u64 {
        let mut result = 1;
        let mut square = a;
        let mut rest = exponent;
        while rest > 0 {
            if rest % 2 == 1 {
                result = self.mul(result, square);
            }
            square = self.mul(square, square);
            rest /= 2;
        }
        result
    }

    /// The inverse by the extended Euclidean algorithm; a is not 0.
    pub fn inv(self, a: u64) -> u64 {
        let (mut r0, mut r1) = (self.p as i64, a as i64);
        let (mut t0, mut t1) = (0i64, 1i64);
        while r1 != 0 {
            let q = r0 / r1;
            (r0, r1) = (r1, r0 - q * r1);
            (t0, t1) = (t1, t0 - q * t1);
        }
        assert_eq!(r0, 1, "{a} has no inverse modulo {}", self.p);
        self.of(t0)
    }

    pub fn div(self, a: u64, b: u64) -> u64 {
        self.mul(a, self.inv(b))
    }

    pub fn is_square(self, a: u64) -> bool {
        a == 0 || self.pow(a, (self.p - 1) / 2) == 1
    }

    /// A square root by Tonelli and Shanks, if there is one; p is odd.
    pub fn sqrt(self, a: u64) -> Option<u64> {
        if !self.is_square(a) {
            return None;
        }
        if a == 0 {
            return Some(0);
        }
        let twos = (self.p - 1).trailing_zeros();
        let odd = (self.p - 1) >> twos;
        let non_square = (2..self.p).find(|&z| !self.is_square(z))?;
        let mut z = self.pow(non_square, odd);
        let mut root = self.pow(a, odd.div_ceil(2));
        let mut rest = self.pow(a, odd);
        // root^2 = a * rest, and the order of rest divides 2^(bits - 1).
        let mut bits = twos;
        while rest != 1 {
            let mut order = 0;
            let mut power = rest;
            while power != 1 {
                power = self.mul(power, power);
                order += 1;
            }
            let step = self.pow(z, 1 << (bits - order - 1));
            root = self.mul(root, step);
            z = self.mul(step, step);
            rest = self.mul(rest, z);
            bits = order;
        }
        Some(root)
    }
}
