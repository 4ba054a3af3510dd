//! Rational functions over a prime field, in lowest terms with a monic denominator, so
//! that equal functions are equal values; and what a polynomial or a rational function
//! becomes at another one. Request E1 asks for that.

use crate::poly::Poly;

#[derive(Clone, Debug, PartialEq, Eq)]
pub struct Fraction {
    numerator: Poly,
    denominator: Poly,
}

impl Fraction {
    /// In lowest terms; the denominator is not 0.
    pub fn new(numerator: &Poly, denominator: &Poly) -> Fraction {
        let common = numerator.gcd(denominator);
        let [top, bottom] = [numerator, denominator].map(|poly| divided(poly, &common));
        let &leading = bottom.coefficients().last().expect("the denominator is 0");
        let scale = bottom.field().inv(leading);
        Fraction {
            numerator: top.scale(scale),
            denominator: bottom.scale(scale),
        }
    }

    /// A polynomial.
    pub fn of(poly: &Poly) -> Fraction {
        Fraction {
            numerator: poly.clone(),
            denominator: Poly::of(poly.field(), &[1]),
        }
    }

    pub fn numerator(&self) -> &Poly {
        &self.numerator
    }

    pub fn denominator(&self) -> &Poly {
        &self.denominator
    }

    /// The polynomial that this is, if it is one.
    pub fn polynomial(&self) -> Option<Poly> {
        (self.denominator.degree() == Some(0)).then(|| self.numerator.clone())
    }

    /// Over the least common denominator, then reduced.
    pub fn add(&self, other: &Fraction) -> Fraction {
        let common = self.denominator.gcd(&other.denominator);
        let [mine, yours] = [self, other].map(|one| divided(&one.denominator, &common));
        let left = self.numerator.mul(&yours);
        let sum = left.add(&other.numerator.mul(&mine));
        Fraction::new(&sum, &self.denominator.mul(&yours))
    }

    pub fn mul(&self, other: &Fraction) -> Fraction {
        // Each is in lowest terms, so only crosswise something cancels.
        let first = Fraction::new(&self.numerator, &other.denominator);
        let second = Fraction::new(&other.numerator, &self.denominator);
        Fraction {
            numerator: first.numerator.mul(&second.numerator),
            denominator: first.denominator.mul(&second.denominator),
        }
    }

    /// One over this; it is not 0.
    pub fn inverse(&self) -> Fraction {
        Fraction::new(&self.denominator, &self.numerator)
    }

    /// What a polynomial becomes at this function: its terms, one after the other from the
    /// constant one up, each a multiple of a power of the function.
    pub fn put_into(&self, poly: &Poly) -> Fraction {
        let field = poly.field();
        let mut power = Fraction::of(&Poly::of(field, &[1]));
        let mut sum = Fraction::of(&Poly::of(field, &[]));
        for (i, &c) in poly.coefficients().iter().enumerate() {
            if i > 0 {
                power = power.mul(self);
            }
            let factor = Fraction::of(&Poly::new(field, vec![c]));
            sum = sum.add(&power.mul(&factor));
        }
        sum
    }

    /// What another function becomes at this one: this one first, then the other. The
    /// other's denominator does not become 0.
    pub fn then(&self, other: &Fraction) -> Fraction {
        let [top, bottom] = [&other.numerator, &other.denominator].map(|poly| self.put_into(poly));
        top.mul(&bottom.inverse())
    }

    /// The value at a field element, if the denominator is not 0 there.
    pub fn value(&self, u: u64) -> Option<u64> {
        let bottom = self.denominator.value(u);
        let field = self.numerator.field();
        (bottom != 0).then(|| field.div(self.numerator.value(u), bottom))
    }
}

/// The quotient by a divisor.
fn divided(poly: &Poly, divisor: &Poly) -> Poly {
    poly.exact_quotient(divisor).expect("it is a divisor")
}
