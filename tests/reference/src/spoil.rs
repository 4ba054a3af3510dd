//! Calls that fail several questions at once, with the number of the first of
//! them: document 01's order of questions as cases. Each spoiler makes one
//! question fail and leaves those before it alone. Question 5, and question 6 for
//! the size of a coefficient, can fail on certificates only, as request E2 has it.

use crate::call::{Call, INFINITY};
use crate::sheet::{self, kind, value, word, Certificate, Refusal};
use crate::sheet::{A, A_T, B, B_T, END, G, L, N, P, RATIONAL, SIGMA};
use crate::unreduced;

#[derive(Clone, Copy, Debug, PartialEq, Eq)]
pub enum Service {
    Check,
    Push,
    Solve,
    Kernel,
}

/// A call in the making.
#[derive(Clone)]
pub struct Draft {
    service: Service,
    words: Vec<u32>,
    stray: Vec<u8>,
    room: usize,
    point: u64,
    p: u64,
}

#[derive(Clone, Copy)]
pub struct Spoiler {
    pub number: Refusal,
    spoil: fn(&mut Draft),
}

impl Service {
    pub const ALL: [Service; 4] = [
        Service::Check,
        Service::Push,
        Service::Solve,
        Service::Kernel,
    ];

    /// Whether the sheet is a certificate, whose values have to be below p.
    fn is_strict(self) -> bool {
        matches!(self, Service::Check | Service::Push)
    }
}

impl Draft {
    pub fn new(service: Service, certificate: &Certificate) -> Draft {
        let words = match service {
            Service::Check | Service::Push => certificate.words(),
            Service::Solve => certificate.question.words(),
            Service::Kernel => certificate.kernel_sheet().words(),
        };
        Draft {
            service,
            words,
            stray: Vec::new(),
            room: sheet::LARGEST_CERTIFICATE,
            point: INFINITY,
            p: certificate.question.p,
        }
    }

    fn position(&self, wanted: u32) -> usize {
        let found = self.words.iter().position(|&w| kind(w) == wanted);
        found.expect("the sheet has a word of this kind")
    }

    /// Puts a value into the first word of a kind.
    fn set(&mut self, wanted: u32, new: u64) {
        let i = self.position(wanted);
        self.words[i] = word(wanted, new);
    }

    /// Adds 1 to the first word of a kind, modulo p.
    fn next(&mut self, wanted: u32) {
        let i = self.position(wanted);
        self.set(wanted, (value(self.words[i]) + 1) % self.p);
    }

    /// The same sheet with values from p on, which E2 reduces.
    fn raised(&self) -> Draft {
        let words = unreduced::with_values(&self.words, |v, p| v + p);
        Draft {
            words,
            ..self.clone()
        }
    }

    /// Puts a value into the last word of a kind.
    fn set_last(&mut self, wanted: u32, new: u64) {
        let found = self.words.iter().rposition(|&w| kind(w) == wanted);
        self.words[found.expect("the sheet has such words")] = word(wanted, new);
    }

    fn head(&self) -> usize {
        if self.service == Service::Kernel {
            sheet::KERNEL_HEAD.len()
        } else {
            sheet::QUESTION_HEAD.len()
        }
    }

    pub fn call(&self) -> Call {
        let mut bytes = sheet::bytes_of(&self.words);
        bytes.extend(&self.stray);
        let (sheet, room) = (self.words.clone(), self.room);
        match self.service {
            Service::Check => Call::Check { bytes },
            Service::Push => Call::Push {
                bytes,
                point: self.point,
            },
            Service::Solve => Call::Solve { sheet, room },
            Service::Kernel => Call::Kernel { sheet, room },
        }
    }
}

fn list(number: Refusal, spoils: &[fn(&mut Draft)]) -> Vec<Spoiler> {
    let spoilers = spoils.iter();
    spoilers.map(|&spoil| Spoiler { number, spoil }).collect()
}

/// All spoilers for a service, by falling number of their question.
pub fn spoilers(service: Service) -> Vec<Spoiler> {
    let mut all = late(service);
    all.extend(common(service));
    all.extend(early(service));
    all
}

/// Questions 12 to 8.
fn late(service: Service) -> Vec<Spoiler> {
    let r1: [fn(&mut Draft); 2] = [|s| s.next(SIGMA), |s| s.set_last(G, 2)];
    let mut all = Vec::new();
    match service {
        Service::Push => all.extend(list(
            12,
            &[
                |s| s.point = INFINITY + 1,
                |s| s.point = 2 * INFINITY,
                |s| s.point = u64::MAX,
                |s| s.point = s.p,
                |s| s.point = s.p << 28,
            ],
        )),
        Service::Solve => all.extend(list(11, &[|s| s.next(B_T), |s| s.next(SIGMA)])),
        Service::Kernel => {
            all.extend(list(11, &[|s| s.next(G)]));
            all.extend(list(
                8,
                &[
                    |s| s.set_last(G, 2),
                    |s| s.set_last(G, 0),
                    |s| s.set_last(G, s.p),
                    |s| s.set_last(G, s.p + 2),
                ],
            ));
        }
        Service::Check => {}
    }
    if service.is_strict() {
        all.extend(list(10, &[|s| s.next(A_T), |s| s.next(B_T)]));
        all.extend(list(
            9,
            &[
                |s| s.next(N),
                |s| s.set_last(N, 0),
                |s| s.next(RATIONAL),
                |s| s.set(RATIONAL, sheet::VALUE_LIMIT - 1),
                |s| {
                    s.next(N);
                    s.set(RATIONAL, s.p);
                },
            ],
        ));
        all.extend(list(8, &r1));
    }
    all
}

/// Questions 7 to 3.
fn common(service: Service) -> Vec<Spoiler> {
    let zero_domain: fn(&mut Draft) = |s| {
        s.set(A, 0);
        s.set(B, 0);
    };
    let mut all = list(7, &[zero_domain]);
    if service != Service::Kernel {
        all.extend(list(
            7,
            &[|s| {
                s.set(A_T, 0);
                s.set(B_T, 0);
            }],
        ));
    }
    if !service.is_strict() {
        all.extend(list(
            7,
            &[|s| {
                s.set(A, s.p);
                s.set(B, 2 * s.p);
            }],
        ));
    }
    all.extend(list(
        6,
        &[
            |s| s.words.push(word(END, 0)),
            |s| s.words.extend([word(P, 11); 400]),
            |s| s.set_last(END, 1),
            |s| s.set_last(END, s.p),
            |s| s.words.truncate(s.words.len() - 1),
            |s| s.words.truncate(s.head()),
        ],
    ));
    if service != Service::Solve {
        all.extend(list(
            6,
            &[
                |s| {
                    let i = s.position(G);
                    s.words[i] = word(N, 1);
                },
                |s| {
                    let i = s.position(G);
                    s.words.remove(i);
                },
            ],
        ));
    }
    if service.is_strict() {
        all.extend(list(
            6,
            &[
                |s| s.set(G, s.p),
                |s| s.set_last(G, s.p + 1),
                |s| s.set(G, sheet::VALUE_LIMIT - 1),
                |s| s.set_last(N, s.p + 1),
                // The count's word is missing, is there twice, or stands before N.
                |s| {
                    let i = s.position(RATIONAL);
                    s.words.remove(i);
                },
                |s| s.words.insert(s.position(END), word(RATIONAL, 1)),
                |s| {
                    let count = s.words.remove(s.position(RATIONAL));
                    s.words.insert(s.position(N), count);
                },
            ],
        ));
        all.extend(list(
            5,
            &[
                |s| s.set(A, s.p),
                |s| s.set(B, s.p),
                |s| s.set(A_T, sheet::VALUE_LIMIT - 1),
                |s| s.set(B_T, s.p),
                |s| s.set(SIGMA, s.p),
            ],
        ));
    }
    all.extend(list(
        4,
        &[
            |s| s.set(L, 0),
            |s| s.set(L, 1),
            |s| s.set(L, 2),
            |s| s.set(L, 6),
            |s| s.set(L, 256),
            |s| s.set(L, 257),
            |s| s.set(L, sheet::VALUE_LIMIT - 1),
            // Lawful if it were reduced.
            |s| s.set(L, 3 + 2 * s.p),
        ],
    ));
    all.extend(list(
        3,
        &[
            |s| s.set(P, 1001),
            |s| s.set(P, 2 * s.p),
            |s| s.set(P, 0),
            |s| s.set(P, 1),
            |s| s.set(P, 7),
            |s| s.set(P, 9),
            |s| s.set(P, sheet::VALUE_LIMIT - 1),
        ],
    ));
    all
}

/// Questions 2 and 1.
fn early(service: Service) -> Vec<Spoiler> {
    let mut all = list(
        2,
        &[
            |s| s.words.truncate(s.head() - 1),
            |s| s.words.clear(),
            |s| s.words[0] ^= 1 << 28,
            |s| s.words[3] |= 15 << 28,
            |s| s.words.swap(1, 2),
        ],
    );
    if service.is_strict() {
        all.extend(list(
            2,
            &[|s| s.stray = vec![0], |s| s.stray = vec![1, 2, 3]],
        ));
    } else {
        all.extend(list(
            1,
            &[|s| s.room = 392, |s| s.room = 391, |s| s.room = 0],
        ));
    }
    all
}

/// Every choice of at most three spoilers with different numbers, and the
/// number that the call must get; for sheets whose values are reduced, also with
/// values from p on. Applied by falling number: a later one may undo an earlier
/// one, never the other way round.
pub fn cases(service: Service, certificate: &Certificate) -> Vec<(Call, Refusal)> {
    let all = spoilers(service);
    let draft = Draft::new(service, certificate);
    let mut cases = Vec::new();
    extend_cases(&draft, &all, 3, &mut cases);
    if !service.is_strict() {
        extend_cases(&draft.raised(), &all, 3, &mut cases);
    }
    cases
}

/// The words of a certificate that fails one question, with its number.
pub fn certificates(certificate: &Certificate) -> Vec<(Vec<u32>, Refusal)> {
    let draft = Draft::new(Service::Check, certificate);
    let spoiled = spoilers(Service::Check).into_iter().map(|spoiler| {
        let mut draft = draft.clone();
        (spoiler.spoil)(&mut draft);
        (draft, spoiler.number)
    });
    // Those with a byte too many are no words.
    let words = spoiled.filter(|(draft, _)| draft.stray.is_empty());
    words.map(|(draft, number)| (draft.words, number)).collect()
}

fn extend_cases(draft: &Draft, left: &[Spoiler], depth: usize, cases: &mut Vec<(Call, Refusal)>) {
    for (i, spoiler) in left.iter().enumerate() {
        let mut spoiled = draft.clone();
        (spoiler.spoil)(&mut spoiled);
        cases.push((spoiled.call(), spoiler.number));
        let lower = left[i..].iter().filter(|s| s.number < spoiler.number);
        if depth > 1 {
            let lower: Vec<Spoiler> = lower.copied().collect();
            extend_cases(&spoiled, &lower, depth - 1, cases);
        }
    }
}
