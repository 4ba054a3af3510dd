//! Sheets of 32-bit words: their three forms, how they are written, and
//! questions 2 to 7 of document 01, each as one function, with the values of
//! question and kernel sheets read as request E2 wants, and the word that request E6
//! adds to certificates. A refusal is the number of the question that got the "no".

use crate::field::Field;
use crate::poly::Poly;
use crate::primes;

pub const P: u32 = 1;
pub const A: u32 = 2;
pub const B: u32 = 3;
pub const A_T: u32 = 4;
pub const B_T: u32 = 5;
pub const L: u32 = 6;
pub const SIGMA: u32 = 7;
pub const G: u32 = 8;
pub const N: u32 = 9;
pub const RATIONAL: u32 = 10;
pub const END: u32 = 15;

pub const VALUE_BITS: u32 = 28;
pub const VALUE_LIMIT: u64 = 1 << VALUE_BITS;
pub const LARGEST_CERTIFICATE: usize = 393;

/// The kinds before any coefficients, for questions and certificates.
pub const QUESTION_HEAD: [u32; 7] = [P, A, B, A_T, B_T, L, SIGMA];
/// The kinds before the coefficients of a kernel sheet.
pub const KERNEL_HEAD: [u32; 4] = [P, A, B, L];

pub type Refusal = u32;

pub fn word(kind: u32, value: u64) -> u32 {
    assert!(kind < 16 && value < VALUE_LIMIT);
    kind << VALUE_BITS | value as u32
}

pub fn kind(word: u32) -> u32 {
    word >> VALUE_BITS
}

pub fn value(word: u32) -> u64 {
    u64::from(word) % VALUE_LIMIT
}

/// The words with another value at one place.
pub fn with_value(words: &[u32], place: usize, new: u64) -> Vec<u32> {
    let mut changed = words.to_vec();
    changed[place] = word(kind(words[place]), new);
    changed
}

#[derive(Clone, Debug, PartialEq, Eq)]
pub struct Question {
    pub p: u64,
    pub a: u64,
    pub b: u64,
    pub a_t: u64,
    pub b_t: u64,
    pub l: u64,
    pub sigma: u64,
}

/// How a value that is to be a field element is read.
#[derive(Clone, Copy, Debug, PartialEq, Eq)]
pub enum Reading {
    /// As it stands; one that is not below p gets a "no". Certificates and name.
    Strict,
    /// Modulo p, whatever its size (request E2). Question and kernel sheets.
    Reduced,
}

impl Reading {
    /// The field element, or the number of the question that asks for its size.
    pub fn value(self, value: u64, p: u64, number: Refusal) -> Result<u64, Refusal> {
        match self {
            Reading::Strict if value >= p => Err(number),
            Reading::Strict => Ok(value),
            Reading::Reduced => Ok(value % p),
        }
    }
}

/// g has d + 1 coefficients, n has 2d + 2, both from the constant term up; rational is
/// the count that is claimed of the u from 0 to p - 1 with g(u) = 0 (request E6).
#[derive(Clone, Debug, PartialEq, Eq)]
pub struct Certificate {
    pub question: Question,
    pub g: Vec<u64>,
    pub n: Vec<u64>,
    pub rational: u64,
}

#[derive(Clone, Debug, PartialEq, Eq)]
pub struct KernelSheet {
    pub p: u64,
    pub a: u64,
    pub b: u64,
    pub l: u64,
    pub g: Vec<u64>,
}

fn no_unless(yes: bool, number: Refusal) -> Result<(), Refusal> {
    if yes {
        Ok(())
    } else {
        Err(number)
    }
}

/// Question 1.
pub fn ask_room(room: usize) -> Result<(), Refusal> {
    no_unless(room >= LARGEST_CERTIFICATE, 1)
}

/// Question 2 for bytes: the words, four bytes each, lowest first.
pub fn words_of(bytes: &[u8]) -> Result<Vec<u32>, Refusal> {
    no_unless(bytes.len().is_multiple_of(4), 2)?;
    let quads = bytes.chunks_exact(4);
    Ok(quads
        .map(|q| u32::from_le_bytes([q[0], q[1], q[2], q[3]]))
        .collect())
}

pub fn bytes_of(words: &[u32]) -> Vec<u8> {
    words.iter().flat_map(|w| w.to_le_bytes()).collect()
}

/// Question 2: the values of the words before any coefficients.
pub fn ask_head<const COUNT: usize>(
    words: &[u32],
    kinds: [u32; COUNT],
) -> Result<[u64; COUNT], Refusal> {
    let head = words.get(..COUNT).ok_or(2u32)?;
    let fits = head.iter().zip(kinds).all(|(&w, k)| kind(w) == k);
    no_unless(fits, 2)?;
    Ok(std::array::from_fn(|i| value(head[i])))
}

/// Question 3.
pub fn ask_prime(p: u64) -> Result<(), Refusal> {
    no_unless((11..VALUE_LIMIT).contains(&p) && primes::is_prime(p), 3)
}

/// Question 4.
pub fn ask_degree(l: u64, p: u64) -> Result<(), Refusal> {
    no_unless(l % 2 == 1 && (3..=255).contains(&l) && 2 * l - 1 < p, 4)
}

/// Question 5: the field elements. A reduced reading gets no "no".
pub fn ask_values<const COUNT: usize>(
    values: [u64; COUNT],
    p: u64,
    reading: Reading,
) -> Result<[u64; COUNT], Refusal> {
    let mut elements = values;
    for element in &mut elements {
        *element = reading.value(*element, p, 5)?;
    }
    Ok(elements)
}

/// Question 6: the runs of words (kind and count), then the end, whose value is 0
/// whatever the reading. A count is no coefficient, and may have any value.
pub fn ask_rest<const RUNS: usize>(
    rest: &[u32],
    runs: [(u32, usize); RUNS],
    p: u64,
    reading: Reading,
) -> Result<[Vec<u64>; RUNS], Refusal> {
    let total: usize = runs.iter().map(|&(_, count)| count).sum();
    no_unless(rest.len() == total + 1 && rest[total] == word(END, 0), 6)?;
    let mut start = 0;
    let mut values = [const { Vec::new() }; RUNS];
    for (list, (run_kind, count)) in values.iter_mut().zip(runs) {
        for &w in &rest[start..start + count] {
            no_unless(kind(w) == run_kind, 6)?;
            list.push(match run_kind {
                RATIONAL => value(w),
                _ => reading.value(value(w), p, 6)?,
            });
        }
        start += count;
    }
    Ok(values)
}

/// 4a^3 + 27b^2.
pub fn discriminant(field: Field, a: u64, b: u64) -> u64 {
    let cube = field.mul(a, field.mul(a, a));
    let square = field.mul(b, b);
    field.add(
        field.mul(field.of(4), cube),
        field.mul(field.of(27), square),
    )
}

/// Question 7 for one curve.
pub fn ask_curve(p: u64, a: u64, b: u64) -> Result<(), Refusal> {
    no_unless(discriminant(Field::new(p), a, b) != 0, 7)
}

/// Question 8 for a kernel sheet.
pub fn ask_leading_one(g: &[u64]) -> Result<(), Refusal> {
    no_unless(g.last() == Some(&1), 8)
}

impl Question {
    /// From the values in the order of the sheet.
    pub fn of(values: [u64; 7]) -> Question {
        let [p, a, b, a_t, b_t, l, sigma] = values;
        Question {
            p,
            a,
            b,
            a_t,
            b_t,
            l,
            sigma,
        }
    }

    fn head(&self) -> Vec<u32> {
        let values = [
            self.p, self.a, self.b, self.a_t, self.b_t, self.l, self.sigma,
        ];
        let kinds = QUESTION_HEAD.into_iter();
        kinds.zip(values).map(|(k, v)| word(k, v)).collect()
    }

    pub fn words(&self) -> Vec<u32> {
        let mut words = self.head();
        words.push(word(END, 0));
        words
    }

    /// Questions 2 to 5; p and l are never reduced.
    fn read_head(words: &[u32], reading: Reading) -> Result<Question, Refusal> {
        let [p, a, b, a_t, b_t, l, sigma] = ask_head(words, QUESTION_HEAD)?;
        ask_prime(p)?;
        ask_degree(l, p)?;
        let [a, b, a_t, b_t, sigma] = ask_values([a, b, a_t, b_t, sigma], p, reading)?;
        Ok(Question::of([p, a, b, a_t, b_t, l, sigma]))
    }

    fn ask_curves(&self) -> Result<(), Refusal> {
        ask_curve(self.p, self.a, self.b)?;
        ask_curve(self.p, self.a_t, self.b_t)
    }

    /// Questions 2 to 7.
    pub fn read(words: &[u32]) -> Result<Question, Refusal> {
        let reading = Reading::Reduced;
        let question = Question::read_head(words, reading)?;
        ask_rest(&words[QUESTION_HEAD.len()..], [], question.p, reading)?;
        question.ask_curves()?;
        Ok(question)
    }

    pub fn d(&self) -> usize {
        half(self.l)
    }

    pub fn field(&self) -> Field {
        Field::new(self.p)
    }
}

impl Certificate {
    pub fn words(&self) -> Vec<u32> {
        let mut words = self.question.head();
        words.extend(self.g.iter().map(|&c| word(G, c)));
        words.extend(self.n.iter().map(|&c| word(N, c)));
        words.extend([word(RATIONAL, self.rational), word(END, 0)]);
        words
    }

    pub fn bytes(&self) -> Vec<u8> {
        bytes_of(&self.words())
    }

    /// Questions 2 to 7.
    pub fn read(words: &[u32]) -> Result<Certificate, Refusal> {
        let reading = Reading::Strict;
        let question = Question::read_head(words, reading)?;
        let certificate = Certificate::read_rest(words, question, reading)?;
        certificate.question.ask_curves()?;
        Ok(certificate)
    }

    /// Question 6, of the words behind those of the question.
    pub fn read_rest(
        words: &[u32],
        question: Question,
        reading: Reading,
    ) -> Result<Certificate, Refusal> {
        let (d, rest) = (question.d(), &words[QUESTION_HEAD.len()..]);
        let runs = [(G, d + 1), (N, 2 * d + 2), (RATIONAL, 1)];
        let [g, n, counts] = ask_rest(rest, runs, question.p, reading)?;
        Ok(Certificate {
            question,
            g,
            n,
            rational: counts[0],
        })
    }

    /// g and N.
    pub fn polynomials(&self) -> (Poly, Poly) {
        let poly = |coefficients: &[u64]| Poly::new(self.question.field(), coefficients.to_vec());
        (poly(&self.g), poly(&self.n))
    }

    /// The kernel sheet that this certificate answers.
    pub fn kernel_sheet(&self) -> KernelSheet {
        let q = &self.question;
        KernelSheet {
            p: q.p,
            a: q.a,
            b: q.b,
            l: q.l,
            g: self.g.clone(),
        }
    }
}

impl KernelSheet {
    pub fn words(&self) -> Vec<u32> {
        let mut words: Vec<u32> = KERNEL_HEAD
            .iter()
            .zip([self.p, self.a, self.b, self.l])
            .map(|(&k, v)| word(k, v))
            .collect();
        words.extend(self.g.iter().map(|&c| word(G, c)));
        words.push(word(END, 0));
        words
    }

    /// Questions 2 to 8.
    pub fn read(words: &[u32]) -> Result<KernelSheet, Refusal> {
        let [p, a, b, l] = ask_head(words, KERNEL_HEAD)?;
        ask_prime(p)?;
        ask_degree(l, p)?;
        let reading = Reading::Reduced;
        let [a, b] = ask_values([a, b], p, reading)?;
        let rest = &words[KERNEL_HEAD.len()..];
        let [g] = ask_rest(rest, [(G, half(l) + 1)], p, reading)?;
        ask_curve(p, a, b)?;
        ask_leading_one(&g)?;
        Ok(KernelSheet { p, a, b, l, g })
    }
}

/// d for a degree l = 2d + 1.
pub fn half(l: u64) -> usize {
    (l as usize - 1) / 2
}
