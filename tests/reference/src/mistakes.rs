//! N worked out with a mistake: a sheet may claim it, and a wrong library may build
//! it. Most are slips in one of request E5's three parts.

use crate::poly::Poly;
use crate::rules;
use crate::sheet::Question;

/// A question, a g, the parts of their N and what two of them are made of.
pub struct Worked<'a> {
    question: &'a Question,
    g: &'a Poly,
    parts: [Poly; 3],
    /// gg'
    with_first: Poly,
    /// gg''
    with_second: Poly,
    /// g'^2
    square: Poly,
}

pub type Mistake = fn(&Worked) -> Poly;

/// Each gives another N for most g; for some, such as g = x^d with A = 0, not all do.
pub const ALL: [Mistake; 29] = [
    |n| n.halves([-2, 2, 2]),
    second_turned,
    |n| n.halves([2, 2, -2]),
    |n| n.halves([-2, -2, -2]),
    |n| n.halves([0, 2, 2]),
    |n| n.halves([2, 0, 2]),
    |n| n.halves([2, 2, 0]),
    |n| n.halves([2, 0, 0]),
    |n| n.halves([2, 1, 2]),
    |n| n.halves([2, 4, 2]),
    third_halved,
    |n| n.halves([2, 2, 4]),
    |n| n.halves([2, 1, 1]),
    exchanged,
    |n| n.moved_up(0),
    |n| n.moved_up(1),
    |n| n.moved_up(2),
    |n| n.moved_down(0),
    |n| n.moved_down(1),
    third_moved_down,
    // The degree less 1, and sigma of each root once or with the other sign.
    |n| n.with_line(|q| (q.l - 1, q.sigma)),
    |n| n.with_line(|q| (q.l, q.field().div(q.sigma, 2))),
    |n| n.with_line(|q| (q.l, q.field().neg(q.sigma))),
    // A or B left out.
    |n| n.with_quadratic([0, 0, 3]),
    |n| n.with_cubic(0, n.question.b),
    |n| n.with_cubic(n.question.a, 0),
    // gg'' alone, g'^2 alone, and their sum in the place of the difference.
    |n| n.with_bend(&n.with_second),
    |n| n.with_bend(&n.square.scale(n.g.field().of(-1))),
    |n| n.with_bend(&n.with_second.add(&n.square)),
];

pub fn second_turned(n: &Worked) -> Poly {
    n.halves([2, -2, 2])
}

/// 2 in the place of 4.
pub fn third_halved(n: &Worked) -> Poly {
    n.halves([2, 2, 1])
}

/// f times gg', and 3x^2 + A times gg'' - g'^2.
pub fn exchanged(n: &Worked) -> Poly {
    let k = n.g.field();
    let quadratic = Poly::new(k, vec![n.question.a, 0, 3]);
    let second = n.cubic().mul(&n.with_first).scale(k.of(-2));
    let third = quadratic.mul(&n.bend()).scale(k.of(-4));
    n.parts[0].add(&second).add(&third)
}

/// The third part's constant term is lost, all others stand one place too low.
pub fn third_moved_down(n: &Worked) -> Poly {
    n.moved_down(2)
}

impl<'a> Worked<'a> {
    pub fn new(question: &'a Question, g: &'a Poly) -> Worked<'a> {
        let Question { a, b, l, sigma, .. } = *question;
        let g1 = g.derivative();
        Worked {
            question,
            g,
            parts: rules::parts(a, b, l, sigma, g),
            with_first: g.mul(&g1),
            with_second: g.mul(&g1.derivative()),
            square: g1.square(),
        }
    }

    /// The coefficients of the sum of the parts.
    pub fn right(&self) -> Vec<u64> {
        self.coefficients(&self.halves([2, 2, 2]))
    }

    /// The coefficients with a mistake. What has no place on a sheet is lost.
    pub fn wrong(&self, mistake: Mistake) -> Vec<u64> {
        self.coefficients(&mistake(self))
    }

    fn coefficients(&self, n: &Poly) -> Vec<u64> {
        (0..2 * self.question.d() + 2).map(|i| n.at(i)).collect()
    }

    /// So many halves of each part.
    fn halves(&self, halves: [i64; 3]) -> Poly {
        let k = self.g.field();
        let half = k.inv(2);
        let weighted = self.parts.iter().zip(halves);
        weighted.fold(Poly::of(k, &[]), |sum, (part, count)| {
            sum.add(&part.scale(k.mul(k.of(count), half)))
        })
    }

    /// Something else in the place of one part.
    fn replaced(&self, place: usize, other: &Poly) -> Poly {
        let sum = self.halves([2, 2, 2]);
        sum.sub(&self.parts[place]).add(other)
    }

    fn moved_up(&self, place: usize) -> Poly {
        let x = Poly::of(self.g.field(), &[0, 1]);
        self.replaced(place, &self.parts[place].mul(&x))
    }

    fn moved_down(&self, place: usize) -> Poly {
        let kept = self.parts[place].coefficients().iter().skip(1);
        let kept = Poly::new(self.g.field(), kept.copied().collect());
        self.replaced(place, &kept)
    }

    fn cubic(&self) -> Poly {
        rules::cubic(self.g.field(), self.question.a, self.question.b)
    }

    /// gg'' - g'^2.
    fn bend(&self) -> Poly {
        self.with_second.sub(&self.square)
    }

    /// The first part with another degree or sigma.
    fn with_line(&self, values: fn(&Question) -> (u64, u64)) -> Poly {
        let (l, sigma) = values(self.question);
        let k = self.g.field();
        let line = Poly::new(k, vec![k.neg(sigma), l % k.p()]);
        self.replaced(0, &line.mul(&self.g.square()))
    }

    /// The second part with another polynomial than 3x^2 + A.
    fn with_quadratic(&self, quadratic: [u64; 3]) -> Poly {
        let k = self.g.field();
        let quadratic = Poly::new(k, quadratic.to_vec());
        self.replaced(1, &quadratic.mul(&self.with_first).scale(k.of(-2)))
    }

    fn with_third(&self, cubic: &Poly, bend: &Poly) -> Poly {
        self.replaced(2, &cubic.mul(bend).scale(self.g.field().of(-4)))
    }

    /// The third part with the f of another curve.
    fn with_cubic(&self, a: u64, b: u64) -> Poly {
        self.with_third(&rules::cubic(self.g.field(), a, b), &self.bend())
    }

    /// The third part with another polynomial than gg'' - g'^2.
    fn with_bend(&self, bend: &Poly) -> Poly {
        self.with_third(&self.cubic(), bend)
    }
}
