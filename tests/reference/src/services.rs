//! The five services of document 01 and request E1's. Each asks its questions in the
//! document's order and answers an enum; a refusal carries the number of the first "no".

use crate::composition;
use crate::field::Field;
use crate::poly::Poly;
use crate::rational;
use crate::rules::{self, R3};
use crate::sheet::{self, Certificate, KernelSheet, Question, Reading, Refusal};
use crate::without_sum::{self, CurvePair};

#[derive(Clone, Copy, Debug, PartialEq, Eq)]
pub enum Checked {
    Passes,
    Refused(Refusal),
}

/// The answer's words, or the refusal; a refused call writes nothing.
#[derive(Clone, Debug, PartialEq, Eq)]
pub enum Written {
    Words(Vec<u32>),
    Refused(Refusal),
}

#[derive(Clone, Copy, Debug, PartialEq, Eq)]
pub enum Point {
    Affine(u64, u64),
    Infinity,
}

#[derive(Clone, Copy, Debug, PartialEq, Eq)]
pub enum Pushed {
    Image(Point),
    Refused(Refusal),
}

#[derive(Clone, Copy, Debug, PartialEq, Eq)]
pub enum Named {
    Value(u64),
    Refused(Refusal),
}

/// Questions 2 to 7 read the certificate; 8, 9 and 10 are R1, R2 and R3, and since
/// request E6 question 9 asks for the count of rational abscissas as well.
pub fn read_valid(words: &[u32]) -> Result<Certificate, Refusal> {
    let certificate = Certificate::read(words)?;
    let q = &certificate.question;
    let (g, n) = certificate.polynomials();
    if !rules::r1(&g, q.d(), q.sigma) {
        return Err(8);
    }
    let numerator = rules::r2(q.a, q.b, q.l, q.sigma, &g);
    if n != numerator || certificate.rational != rational::count(&g) {
        return Err(9);
    }
    if !R3::of(&certificate).holds(q.a_t, q.b_t) {
        return Err(10);
    }
    Ok(certificate)
}

pub fn check(words: &[u32]) -> Checked {
    match read_valid(words) {
        Ok(_) => Checked::Passes,
        Err(number) => Checked::Refused(number),
    }
}

/// Push for a point that may be unreadable (None), which question 12 refuses.
pub fn push(words: &[u32], point: Option<Point>) -> Pushed {
    let image = read_valid(words).and_then(|certificate| image(&certificate, point.ok_or(12u32)?));
    match image {
        Ok(point) => Pushed::Image(point),
        Err(number) => Pushed::Refused(number),
    }
}

/// Question 12, then the image under a valid certificate.
pub fn image(certificate: &Certificate, point: Point) -> Result<Point, Refusal> {
    let q = &certificate.question;
    let field = q.field();
    let Point::Affine(u, v) = point else {
        return Ok(Point::Infinity);
    };
    let below = u < q.p && v < q.p;
    if !below || field.mul(v, v) != rules::cubic(field, q.a, q.b).value(u) {
        return Err(12);
    }
    let (g, n) = certificate.polynomials();
    let at_u = g.value(u);
    if at_u == 0 {
        return Ok(Point::Infinity);
    }
    let numerator = field.mul(v, rules::wronskian(&g, &n).value(u));
    Ok(Point::Affine(
        field.div(n.value(u), field.pow(at_u, 2)),
        field.div(numerator, field.pow(at_u, 3)),
    ))
}

fn written(result: Result<Certificate, Refusal>) -> Written {
    match result {
        Ok(certificate) => Written::Words(certificate.words()),
        Err(number) => Written::Refused(number),
    }
}

pub fn solve(words: &[u32], room: usize) -> Written {
    written(sheet::ask_room(room).and_then(|()| {
        let question = Question::read(words)?;
        solution(&question).ok_or(11)
    }))
}

/// Solve as request E9 has it, for question sheets with or without the word of kind 7. With
/// it the answer is that of solve, which knows no other form until the request has landed.
pub fn solve_with_or_without_sum(words: &[u32], room: usize) -> Written {
    if !without_sum::is_without_sum(words) {
        return solve(words, room);
    }
    written(sheet::ask_room(room).and_then(|()| {
        let pair = CurvePair::read(words)?;
        without_sum::solution(&pair).ok_or(11)
    }))
}

/// The g that the recurrence and Newton's identities give, if it meets R1 and
/// R3 with the N of R2. The question has passed 3, 4 and 7, its values are below p.
pub fn solution(q: &Question) -> Option<Certificate> {
    let candidate = recurrence_candidate(q);
    let (g, _) = candidate.polynomials();
    let meets = rules::r1(&g, q.d(), q.sigma) && R3::of(&candidate).holds(q.a_t, q.b_t);
    meets.then_some(candidate)
}

/// The only g that can answer a question, with the N of R2; R3 not asked.
pub fn recurrence_candidate(q: &Question) -> Certificate {
    let field = q.field();
    let h = rules::expansion(field, (q.a, q.b), (q.a_t, q.b_t), q.d());
    let s = rules::power_sums_from_h(field, q.a, q.b, q.l, q.sigma, &h);
    let g = rules::from_power_sums(field, q.d(), &s);
    let n = rules::r2(q.a, q.b, q.l, q.sigma, &g);
    certificate(q.clone(), &g, &n)
}

pub fn kernel(words: &[u32], room: usize) -> Written {
    written(sheet::ask_room(room).and_then(|()| {
        let KernelSheet { p, a, b, l, g } = KernelSheet::read(words)?;
        let g = Poly::new(Field::new(p), g);
        from_kernel(p, a, b, l, &g).ok_or(11)
    }))
}

/// The first certificate is asked 2 to 10 before anything of the second.
pub fn compose(first: &[u32], second: &[u32], room: usize) -> Written {
    written(sheet::ask_room(room).and_then(|()| {
        let first = read_valid(first)?;
        let second = read_valid(second)?;
        composition::composed(&first, &second)
    }))
}

/// The certificate of a monic g, if some codomain passes 7 and meets R3. The
/// codomain is Velu's: a_t = a - 5 h_1, b_t = b - 7 h_2.
pub fn from_kernel(p: u64, a: u64, b: u64, l: u64, g: &Poly) -> Option<Certificate> {
    let field = g.field();
    let d = sheet::half(l);
    let s = rules::power_sums(g, d, 4);
    let h1 = rules::h_from_power_sums(field, a, b, &s, 1);
    let h2 = rules::h_from_power_sums(field, a, b, &s, 2);
    let a_t = field.sub(a, field.mul(field.of(5), h1));
    let b_t = field.sub(b, field.mul(field.of(7), h2));
    let question = Question::of([p, a, b, a_t, b_t, l, rules::sigma(g, d)]);
    let n = rules::r2(a, b, l, question.sigma, g);
    let meets = sheet::ask_curve(p, a_t, b_t).is_ok() && R3::new(a, b, g, &n).holds(a_t, b_t);
    meets.then(|| certificate(question, g, &n))
}

/// The certificate of these values, this g and this N, with the count for g.
pub fn certificate(question: Question, g: &Poly, n: &Poly) -> Certificate {
    let d = question.d();
    Certificate {
        g: g.padded(d + 1),
        n: n.padded(2 * d + 2),
        rational: rational::count(g),
        question,
    }
}

pub fn name(p: u64, a: u64, b: u64) -> Named {
    match j_value(p, a, b) {
        Ok(value) => Named::Value(value),
        Err(number) => Named::Refused(number),
    }
}

fn j_value(p: u64, a: u64, b: u64) -> Result<u64, Refusal> {
    sheet::ask_prime(p)?;
    let [a, b] = sheet::ask_values([a, b], p, Reading::Strict)?;
    sheet::ask_curve(p, a, b)?;
    let field = Field::new(p);
    let four_cubes = field.mul(field.of(4), field.pow(a, 3));
    let top = field.mul(field.of(1728), four_cubes);
    Ok(field.div(top, sheet::discriminant(field, a, b)))
}
