//! Polynomials over a prime field: coefficients from the constant term up,
//! without leading zeros, so that equal polynomials are equal values.

use crate::field::Field;

#[derive(Clone, Debug, PartialEq, Eq)]
pub struct Poly {
    field: Field,
    coefficients: Vec<u64>,
}

impl Poly {
    pub fn new(field: Field, mut coefficients: Vec<u64>) -> Poly {
        while coefficients.last() == Some(&0) {
            coefficients.pop();
        }
        Poly {
            field,
            coefficients,
        }
    }

    /// From integers of any sign.
    pub fn of(field: Field, coefficients: &[i64]) -> Poly {
        Poly::new(field, coefficients.iter().map(|&c| field.of(c)).collect())
    }

    /// The monic polynomial with these roots.
    pub fn with_roots(field: Field, roots: &[u64]) -> Poly {
        roots.iter().fold(Poly::of(field, &[1]), |product, &root| {
            product.mul(&Poly::new(field, vec![field.neg(root), 1]))
        })
    }

    /// The polynomial of lowest degree with these values at these places, which differ: by
    /// divided differences.
    pub fn through(field: Field, places: &[u64], values: &[u64]) -> Poly {
        let mut column = values.to_vec();
        for order in 1..places.len() {
            for i in (order..places.len()).rev() {
                let top = field.sub(column[i], column[i - 1]);
                column[i] = field.div(top, field.sub(places[i], places[i - order]));
            }
        }
        let zero = Poly::of(field, &[]);
        places.iter().zip(column).rev().fold(zero, |sum, (&u, c)| {
            let line = Poly::with_roots(field, &[u]);
            sum.mul(&line).add(&Poly::new(field, vec![c]))
        })
    }

    pub fn field(&self) -> Field {
        self.field
    }

    pub fn coefficients(&self) -> &[u64] {
        &self.coefficients
    }

    /// The coefficient of x^i, 0 past the degree.
    pub fn at(&self, i: usize) -> u64 {
        self.coefficients.get(i).copied().unwrap_or(0)
    }

    /// The coefficients of x^0 to x^(count - 1), which must be all of them.
    pub fn padded(&self, count: usize) -> Vec<u64> {
        assert!(self.coefficients.len() <= count);
        (0..count).map(|i| self.at(i)).collect()
    }

    /// The degree; None for the polynomial 0.
    pub fn degree(&self) -> Option<usize> {
        self.coefficients.len().checked_sub(1)
    }

    fn combine(&self, other: &Poly, op: fn(Field, u64, u64) -> u64) -> Poly {
        let count = self.coefficients.len().max(other.coefficients.len());
        Poly::new(
            self.field,
            (0..count)
                .map(|i| op(self.field, self.at(i), other.at(i)))
                .collect(),
        )
    }

    pub fn add(&self, other: &Poly) -> Poly {
        self.combine(other, Field::add)
    }

    pub fn sub(&self, other: &Poly) -> Poly {
        self.combine(other, Field::sub)
    }

    pub fn scale(&self, factor: u64) -> Poly {
        let scaled = self.coefficients.iter();
        Poly::new(
            self.field,
            scaled.map(|&c| self.field.mul(c, factor)).collect(),
        )
    }

    pub fn mul(&self, other: &Poly) -> Poly {
        let (a, b) = (&self.coefficients, &other.coefficients);
        if a.is_empty() || b.is_empty() {
            return Poly::new(self.field, Vec::new());
        }
        let mut sums = vec![0u128; a.len() + b.len() - 1];
        for (i, &x) in a.iter().enumerate() {
            for (sum, &y) in sums[i..].iter_mut().zip(b) {
                *sum += u128::from(x * y);
            }
        }
        let p = u128::from(self.field.p());
        Poly::new(
            self.field,
            sums.iter().map(|&sum| (sum % p) as u64).collect(),
        )
    }

    pub fn square(&self) -> Poly {
        self.mul(self)
    }

    pub fn derivative(&self) -> Poly {
        let field = self.field;
        let terms = self.coefficients.iter().enumerate().skip(1);
        Poly::new(
            field,
            terms
                .map(|(i, &c)| field.mul(field.of(i as i64), c))
                .collect(),
        )
    }

    /// The value at a field element.
    pub fn value(&self, x: u64) -> u64 {
        let from_top = self.coefficients.iter().rev();
        from_top.fold(0, |sum, &c| self.field.add(self.field.mul(sum, x), c))
    }

    /// den^degree * self(num / den) for a degree of self or more.
    pub fn substitute(&self, num: &Poly, den: &Poly, degree: usize) -> Poly {
        let one = Poly::of(self.field, &[1]);
        let zero = Poly::of(self.field, &[]);
        let (mut sum, mut den_power) = (zero, one);
        // Horner's rule: after the coefficient of x^i the sum is the wanted
        // value for the coefficients from i up, with den^(degree - i).
        for i in (0..=degree).rev() {
            sum = sum.mul(num).add(&den_power.scale(self.at(i)));
            den_power = den_power.mul(den);
        }
        sum
    }
}
