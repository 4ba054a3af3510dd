//! Request E9: a question sheet may leave its word of kind 7 out. Its form, its questions,
//! and whether some sigma has a g, in two ways: by trying each sigma, which is what the
//! request says, and over larger fields by linear algebra.

use crate::field::Field;
use crate::poly::Poly;
use crate::rules;
use crate::services;
use crate::sheet::{self, Certificate, Question, Reading, Refusal};
use crate::sheet::{A, A_T, B, B_T, END, L, P};

/// The kinds before the end.
pub const HEAD: [u32; 6] = [P, A, B, A_T, B_T, L];

/// Over fields of fewer elements each sigma is tried.
pub const SEARCHED: u64 = 64;

/// Two curves over one prime and a degree.
#[derive(Clone, Debug, PartialEq, Eq, Hash)]
pub struct CurvePair {
    pub p: u64,
    pub a: u64,
    pub b: u64,
    pub a_t: u64,
    pub b_t: u64,
    pub l: u64,
}

/// Whether a question sheet is of this form: its seventh word has kind 15.
pub fn is_without_sum(words: &[u32]) -> bool {
    words.get(6).is_some_and(|&w| sheet::kind(w) == END)
}

/// Question 17, asked after 4.
pub fn ask_larger_prime(l: u64, p: u64) -> Result<(), Refusal> {
    if 8 * l - 5 < p {
        Ok(())
    } else {
        Err(17)
    }
}

impl CurvePair {
    /// From the values in the order of the sheet.
    pub fn of(values: [u64; 6]) -> CurvePair {
        let [p, a, b, a_t, b_t, l] = values;
        CurvePair {
            p,
            a,
            b,
            a_t,
            b_t,
            l,
        }
    }

    /// What a question asks, its sigma left out.
    pub fn from_question(q: &Question) -> CurvePair {
        CurvePair::of([q.p, q.a, q.b, q.a_t, q.b_t, q.l])
    }

    pub fn with(&self, sigma: u64) -> Question {
        Question::of([self.p, self.a, self.b, self.a_t, self.b_t, self.l, sigma])
    }

    pub fn words(&self) -> Vec<u32> {
        let values = [self.p, self.a, self.b, self.a_t, self.b_t, self.l];
        let head = HEAD.into_iter().zip(values);
        let mut words: Vec<u32> = head.map(|(k, v)| sheet::word(k, v)).collect();
        words.push(sheet::word(END, 0));
        words
    }

    /// Questions 2, 3, 4, 17, 6 and 7 of a sheet of this form. Values are reduced as
    /// request E2 has it, so that 5 gets no "no".
    pub fn read(words: &[u32]) -> Result<CurvePair, Refusal> {
        let [p, a, b, a_t, b_t, l] = sheet::ask_head(words, HEAD)?;
        sheet::ask_prime(p)?;
        sheet::ask_degree(l, p)?;
        ask_larger_prime(l, p)?;
        let reading = Reading::Reduced;
        let [a, b, a_t, b_t] = sheet::ask_values([a, b, a_t, b_t], p, reading)?;
        sheet::ask_rest(&words[HEAD.len()..], [], p, reading)?;
        sheet::ask_curve(p, a, b)?;
        sheet::ask_curve(p, a_t, b_t)?;
        Ok(CurvePair::of([p, a, b, a_t, b_t, l]))
    }

    pub fn field(&self) -> Field {
        Field::new(self.p)
    }
}

/// The certificate for whatever sigma works; the pair has passed all questions before 11.
pub fn solution(pair: &CurvePair) -> Option<Certificate> {
    if pair.p >= SEARCHED {
        return by_elimination(pair);
    }
    let mut found = by_search(pair);
    assert!(found.len() <= 1, "at most one sigma works: {pair:?}");
    found.pop()
}

/// The certificates of all sigma from 0 to p - 1 that have one. Question 17 is not needed.
pub fn by_search(pair: &CurvePair) -> Vec<Certificate> {
    let questions = (0..pair.p).map(|sigma| pair.with(sigma));
    questions.filter_map(|q| services::solution(&q)).collect()
}

/// If some sigma has a g, the denominator is g^2, and in g^2 the coefficient of x^(l - 2)
/// is -sigma, by R1. So this is the only sigma to ask.
pub fn by_elimination(pair: &CurvePair) -> Option<Certificate> {
    let denominator = denominator(pair)?;
    let sigma = pair.field().neg(denominator.at(pair.l as usize - 2));
    services::solution(&pair.with(sigma))
}

/// The monic D of degree n = l - 1, if there is just one, for which D times the expansion
/// h_1/x + h_2/x^2 + .. that the curves give has no terms in 1/x to 1/x^n: n equations in
/// the n coefficients below the leading one, solved by elimination.
///
/// N/g^2 = x + h_1/x + .. makes g^2 such a D. As g and N have no common factor (request
/// E12), the matrix of h_1 to h_(2n - 1) then has an inverse (Kronecker), and g^2 is the
/// only one. The recurrence reaches h_2n, as its divisors, up to 4n + 3 = 4l - 1, are not 0
/// with 8l - 5 < p.
pub fn denominator(pair: &CurvePair) -> Option<Poly> {
    let field = pair.field();
    let n = pair.l as usize - 1;
    let (domain, codomain) = ((pair.a, pair.b), (pair.a_t, pair.b_t));
    let h = rules::expansion(field, domain, codomain, 2 * n + 1);
    // At 1/x^j: the sum of D's coefficient of x^i times h_(i + j), i from 0 to n, is 0.
    let equation = |j: usize| {
        let mut row = h[j..=j + n].to_vec();
        row[n] = field.neg(row[n]);
        row
    };
    let mut coefficients = eliminate(field, (1..=n).map(equation).collect())?;
    coefficients.push(1);
    Some(Poly::new(field, coefficients))
}

/// The solution of n equations in n unknowns, each a row of n coefficients and the right
/// side; None if there is not just one.
pub fn eliminate(field: Field, mut rows: Vec<Vec<u64>>) -> Option<Vec<u64>> {
    let n = rows.len();
    for column in 0..n {
        let pivot = (column..n).find(|&i| rows[i][column] != 0)?;
        rows.swap(column, pivot);
        let (above, below) = rows.split_at_mut(column + 1);
        let pivot = &above[column][column..];
        let inverse = field.inv(pivot[0]);
        for row in below {
            let factor = field.mul(row[column], inverse);
            for (entry, &top) in row[column..].iter_mut().zip(pivot) {
                *entry = field.sub(*entry, field.mul(factor, top));
            }
        }
    }
    let mut unknowns = vec![0; n];
    for (i, row) in rows.iter().enumerate().rev() {
        let known = (i + 1..n).fold(0, |sum, j| field.add(sum, field.mul(row[j], unknowns[j])));
        unknowns[i] = field.div(field.sub(row[n], known), row[i]);
    }
    Some(unknowns)
}
