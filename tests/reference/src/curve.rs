//! Points of curves over a prime field: the group law by chords and tangents,
//! and points of a given odd order. Used to make kernels and points to push.

use std::collections::HashMap;

use crate::field::Field;
use crate::random::Random;
use crate::rules;
use crate::services::Point;

#[derive(Clone, Copy, Debug, PartialEq, Eq)]
pub struct Curve {
    pub field: Field,
    pub a: u64,
    pub b: u64,
}

impl Curve {
    pub fn new(p: u64, a: u64, b: u64) -> Curve {
        Curve {
            field: Field::new(p),
            a,
            b,
        }
    }

    /// x^3 + ax + b.
    pub fn cubic(&self, x: u64) -> u64 {
        rules::cubic(self.field, self.a, self.b).value(x)
    }

    pub fn holds(&self, point: Point) -> bool {
        match point {
            Point::Affine(u, v) => self.field.mul(v, v) == self.cubic(u),
            Point::Infinity => true,
        }
    }

    pub fn negative(&self, point: Point) -> Point {
        match point {
            Point::Affine(u, v) => Point::Affine(u, self.field.neg(v)),
            Point::Infinity => Point::Infinity,
        }
    }

    pub fn add(&self, first: Point, second: Point) -> Point {
        let (Point::Affine(u1, v1), Point::Affine(u2, v2)) = (first, second) else {
            return if first == Point::Infinity {
                second
            } else {
                first
            };
        };
        let k = self.field;
        let slope = if u1 != u2 {
            k.div(k.sub(v2, v1), k.sub(u2, u1))
        } else if v1 == v2 && v1 != 0 {
            let top = k.add(k.mul(k.of(3), k.mul(u1, u1)), self.a);
            k.div(top, k.add(v1, v1))
        } else {
            return Point::Infinity;
        };
        let u = k.sub(k.mul(slope, slope), k.add(u1, u2));
        Point::Affine(u, k.sub(k.mul(slope, k.sub(u1, u)), v1))
    }

    pub fn multiple(&self, point: Point, times: u64) -> Point {
        let mut sum = Point::Infinity;
        let mut doubled = point;
        let mut rest = times;
        while rest > 0 {
            if rest % 2 == 1 {
                sum = self.add(sum, doubled);
            }
            doubled = self.add(doubled, doubled);
            rest /= 2;
        }
        sum
    }

    pub fn random_point(&self, random: &mut Random) -> Point {
        loop {
            let u = random.below(self.field.p());
            if let Some(v) = self.field.sqrt(self.cubic(u)) {
                let point = Point::Affine(u, v);
                return if random.once_in(2) {
                    self.negative(point)
                } else {
                    point
                };
            }
        }
    }

    /// All affine points; for small fields.
    pub fn all_points(&self) -> Vec<Point> {
        let p = self.field.p();
        let all = crate::brute::all_pairs(p).map(|(u, v)| Point::Affine(u, v));
        all.filter(|&point| self.holds(point)).collect()
    }

    /// A number from Hasse's interval around p + 1 that takes the point to
    /// infinity, by baby steps and giant steps. One exists: the group's order.
    pub fn annihilator(&self, point: Point) -> u64 {
        let p = self.field.p();
        let reach = 2 * p.isqrt() + 2;
        let low = p + 1 - reach;
        let stride = (2 * reach).isqrt() + 1;
        let mut baby = HashMap::new();
        let mut step = Point::Infinity;
        for j in 0..stride {
            baby.entry(key(step)).or_insert(j);
            step = self.add(step, point);
        }
        let mut giant = self.multiple(point, low);
        for i in 0..=2 * reach / stride + 1 {
            if let Some(&j) = baby.get(&key(self.negative(giant))) {
                return low + i * stride + j;
            }
            giant = self.add(giant, step);
        }
        unreachable!("Hasse's interval holds the order of the group")
    }

    pub fn has_order(&self, point: Point, l: u64) -> bool {
        let proper = (1..l).filter(|q| l.is_multiple_of(*q));
        self.multiple(point, l) == Point::Infinity
            && proper
                .into_iter()
                .all(|q| self.multiple(point, q) != Point::Infinity)
    }

    /// The abscissas of P, 2P, .. dP for a point of order 2d + 1.
    pub fn abscissas(&self, point: Point, d: usize) -> Vec<u64> {
        let mut abscissas = Vec::new();
        let mut multiple = point;
        for _ in 0..d {
            let Point::Affine(u, _) = multiple else {
                panic!("the order of the point is too small");
            };
            abscissas.push(u);
            multiple = self.add(multiple, point);
        }
        abscissas
    }
}

fn key(point: Point) -> (u64, u64) {
    match point {
        Point::Affine(u, v) => (u, v),
        Point::Infinity => (u64::MAX, 0),
    }
}
