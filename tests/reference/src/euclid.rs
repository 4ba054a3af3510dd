//! Divisors of polynomials over a prime field: division with remainder, and what
//! Euclid's algorithm makes of it. Greatest common divisors are monic.

use crate::poly::Poly;

impl Poly {
    pub fn is_zero(&self) -> bool {
        self.degree().is_none()
    }

    /// The polynomial divided by its leading coefficient; 0 stays 0.
    pub fn monic(&self) -> Poly {
        match self.coefficients().last() {
            Some(&leading) => self.scale(self.field().inv(leading)),
            None => self.clone(),
        }
    }

    /// Quotient and remainder; the divisor is not 0, and the remainder has a lower
    /// degree.
    pub fn div_rem(&self, divisor: &Poly) -> (Poly, Poly) {
        let field = self.field();
        let (&leading, lower) = divisor.coefficients().split_last().expect("not by 0");
        let inverse = field.inv(leading);
        let mut rest = self.coefficients().to_vec();
        let mut quotient = vec![0; rest.len().saturating_sub(lower.len())];
        for (shift, place) in quotient.iter_mut().enumerate().rev() {
            // The highest term that is left is that of the quotient's at shift.
            let top = rest.pop().expect("longer than the lower terms");
            *place = field.mul(top, inverse);
            let minus = field.neg(*place);
            for (term, &c) in rest[shift..].iter_mut().zip(lower) {
                *term = field.add(*term, field.mul(minus, c));
            }
        }
        (Poly::new(field, quotient), Poly::new(field, rest))
    }

    /// The quotient, if there is no remainder.
    pub fn exact_quotient(&self, divisor: &Poly) -> Option<Poly> {
        let (quotient, remainder) = self.div_rem(divisor);
        remainder.is_zero().then_some(quotient)
    }

    /// Whether this polynomial, which is not 0, divides the other.
    pub fn divides(&self, other: &Poly) -> bool {
        other.exact_quotient(self).is_some()
    }

    /// The greatest common divisor; that of 0 and 0 is 0.
    pub fn gcd(&self, other: &Poly) -> Poly {
        let (mut a, mut b) = (self.clone(), other.clone());
        while !b.is_zero() {
            let (_, remainder) = a.div_rem(&b);
            (a, b) = (b, remainder);
        }
        a.monic()
    }

    /// u, v and the greatest common divisor u * self + v * other.
    pub fn bezout(&self, other: &Poly) -> [Poly; 3] {
        let field = self.field();
        let (one, zero) = (Poly::of(field, &[1]), Poly::of(field, &[]));
        // Each row has u, v and u * self + v * other.
        let mut row = [one.clone(), zero.clone(), self.clone()];
        let mut next = [zero, one, other.clone()];
        while !next[2].is_zero() {
            let (quotient, _) = row[2].div_rem(&next[2]);
            let after = std::array::from_fn(|i| row[i].sub(&quotient.mul(&next[i])));
            (row, next) = (next, after);
        }
        match row[2].coefficients().last() {
            Some(&leading) => row.map(|entry| entry.scale(field.inv(leading))),
            None => row,
        }
    }

    /// Whether no factor of degree 1 or more divides both.
    pub fn is_coprime_to(&self, other: &Poly) -> bool {
        self.gcd(other).degree() == Some(0)
    }

    /// Whether no square of a factor of degree 1 or more divides this polynomial.
    /// Over a prime field that is so exactly if it is prime to its derivative.
    pub fn is_square_free(&self) -> bool {
        self.is_coprime_to(&self.derivative())
    }
}
