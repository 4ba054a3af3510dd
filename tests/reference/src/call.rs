//! Calls of the C entries as values, and the reply that the documents want of
//! each: the returned number in its 64-bit encoding, and the words at the start
//! of the answer buffer.

use crate::services::{self, Checked, Named, Point, Pushed, Written};
use crate::sheet::{self, Certificate, Refusal};

/// The number that stands for infinity; larger ones are no points.
pub const INFINITY: u64 = 1 << 56;
/// A refusal is this plus its number (for check the number alone).
pub const REFUSED: u64 = 1 << 57;

#[derive(Clone, Debug, PartialEq, Eq)]
pub enum Call {
    Check {
        bytes: Vec<u8>,
    },
    Push {
        bytes: Vec<u8>,
        point: u64,
    },
    Solve {
        sheet: Vec<u32>,
        room: usize,
    },
    Kernel {
        sheet: Vec<u32>,
        room: usize,
    },
    Name {
        p: u32,
        a: u32,
        b: u32,
    },
    Compose {
        first: Vec<u32>,
        second: Vec<u32>,
        room: usize,
    },
}

#[derive(Clone, Debug, PartialEq, Eq)]
pub struct Reply {
    pub number: u64,
    pub words: Vec<u32>,
}

impl Reply {
    pub fn number(number: u64) -> Reply {
        Reply {
            number,
            words: Vec::new(),
        }
    }

    pub fn refused(number: Refusal) -> Reply {
        Reply::number(REFUSED + u64::from(number))
    }

    pub fn written(words: Vec<u32>) -> Reply {
        Reply {
            number: words.len() as u64,
            words,
        }
    }
}

pub fn point_number(point: Point) -> u64 {
    match point {
        Point::Affine(u, v) => u + (v << sheet::VALUE_BITS),
        Point::Infinity => INFINITY,
    }
}

/// A call of solve or kernel with these words.
pub type Put = fn(&[u32]) -> Call;

/// The sheets that a certificate answers, each with its service.
pub fn answered(certificate: &Certificate) -> [(Put, Vec<u32>); 2] {
    [
        (Call::solve, certificate.question.words()),
        (Call::kernel, certificate.kernel_sheet().words()),
    ]
}

/// None for a number above 2^56.
pub fn point_of(number: u64) -> Option<Point> {
    if number < INFINITY {
        let (u, v) = (number % sheet::VALUE_LIMIT, number >> sheet::VALUE_BITS);
        Some(Point::Affine(u, v))
    } else {
        (number == INFINITY).then_some(Point::Infinity)
    }
}

impl Call {
    pub fn check(words: &[u32]) -> Call {
        Call::Check {
            bytes: sheet::bytes_of(words),
        }
    }

    pub fn push(words: &[u32], point: u64) -> Call {
        Call::Push {
            bytes: sheet::bytes_of(words),
            point,
        }
    }

    /// Solve with exactly the room that question 1 wants.
    pub fn solve(words: &[u32]) -> Call {
        Call::Solve {
            sheet: words.to_vec(),
            room: sheet::LARGEST_CERTIFICATE,
        }
    }

    /// Kernel with exactly the room that question 1 wants.
    pub fn kernel(words: &[u32]) -> Call {
        Call::Kernel {
            sheet: words.to_vec(),
            room: sheet::LARGEST_CERTIFICATE,
        }
    }

    /// Compose with exactly the room that question 1 wants.
    pub fn compose(first: &[u32], second: &[u32]) -> Call {
        Call::Compose {
            first: first.to_vec(),
            second: second.to_vec(),
            room: sheet::LARGEST_CERTIFICATE,
        }
    }

    pub fn reply(&self) -> Reply {
        match self {
            Call::Check { bytes } => Reply::number(u64::from(check_number(bytes))),
            Call::Push { bytes, point } => push_reply(bytes, *point),
            Call::Solve { sheet, room } => written_reply(services::solve(sheet, *room)),
            Call::Kernel { sheet, room } => written_reply(services::kernel(sheet, *room)),
            Call::Name { p, a, b } => {
                match services::name(u64::from(*p), u64::from(*a), u64::from(*b)) {
                    Named::Value(value) => Reply::number(value),
                    Named::Refused(number) => Reply::refused(number),
                }
            }
            Call::Compose {
                first,
                second,
                room,
            } => written_reply(services::compose(first, second, *room)),
        }
    }

    /// This call's reply if its first "no" is that number.
    pub fn refusal(&self, number: Refusal) -> Reply {
        match self {
            Call::Check { .. } => Reply::number(u64::from(number)),
            _ => Reply::refused(number),
        }
    }
}

fn check_number(bytes: &[u8]) -> Refusal {
    let checked = match sheet::words_of(bytes) {
        Ok(words) => services::check(&words),
        Err(number) => Checked::Refused(number),
    };
    match checked {
        Checked::Passes => 0,
        Checked::Refused(number) => number,
    }
}

fn push_reply(bytes: &[u8], point: u64) -> Reply {
    let pushed = match sheet::words_of(bytes) {
        Ok(words) => services::push(&words, point_of(point)),
        Err(number) => Pushed::Refused(number),
    };
    match pushed {
        Pushed::Image(image) => Reply::number(point_number(image)),
        Pushed::Refused(number) => Reply::refused(number),
    }
}

fn written_reply(written: Written) -> Reply {
    match written {
        Written::Words(words) => Reply::written(words),
        Written::Refused(number) => Reply::refused(number),
    }
}
