//! Question 3 by itself, for single numbers and for the primes of a list of sheets: the library beside a program that tries every odd number, FLINT, PARI
//! and the same algorithm in unchecked Rust; and the document's section on it.

use std::fmt::Write;
use std::hint::black_box;
use std::path::Path;

use common::clock::{self, column, Samples, Stat, Value};
use common::table::{spread, Table};
use reference::sheet;

use crate::{entries, ROUNDS, SAMPLE};

/// Primes of all sizes up to the largest permitted one, on both sides of 2^20, where the last run of divisors begins, then a multiple of 3 and the square of
/// the largest divisor that is ever tried.
const NUMBERS: [u32; 10] = [
    11,
    1009,
    65_521,
    1_048_573,
    1_048_583,
    16_777_213,
    67_108_859,
    268_435_399,
    268_435_455,
    16_381 * 16_381,
];

type Test = fn(u32) -> bool;

const TESTS: [(&str, Test); 5] = [
    ("library", entries::question_three),
    ("odd", odd::question_three),
    ("flint", entries::flint_is_prime),
    ("pari", entries::pari_is_prime),
    ("same", same::question_three),
];

pub struct Primes {
    numbers: Vec<Samples>,
    /// A call is the whole list.
    list: Samples,
    sheets: usize,
}

impl Primes {
    /// The samples of one of the numbers.
    fn number(&self, n: u32) -> &Samples {
        let place = NUMBERS.iter().position(|&m| m == n);
        &self.numbers[place.expect("one of the numbers")]
    }

    /// What the library takes for one of the numbers over what a peer takes.
    pub fn over(&self, n: u32, peer: &str) -> Stat {
        self.number(n).each(|t| t("library") / t(peer))
    }

    pub fn section(&self, out: &mut String) {
        out.push_str(
            "
## Question 3

Is p prime, with 11 ≤ p < 2^28? Nanoseconds a call; the last two numbers are no primes but 3 · 89478485 and 16381².

- question 3: `sagepliers_name(p, p, 0)`, which refuses with the number of the next question, 5, as soon as p has passed.
- call: the same of p - 1, which is even, so what of it is not trial division.
- odd numbers: a program in Rust that tries 2 and every odd number up to the root (`bench/odd`).
- FLINT: `n_is_prime`. PARI: `uisprime` of its library, which `isprime` calls for a number of one word.

",
        );
        self.show_numbers(Table(out));
        write!(
            out,
            "\nMicroseconds a sheet over the list of {} sheets: check of each, and question 3 of each one's p.\n\n",
            self.sheets
        )
        .expect("a string takes any text");
        self.show_list(Table(out));
    }

    fn show_numbers(&self, mut table: Table) {
        table.head(&[
            "p",
            "question 3",
            "call",
            "odd numbers",
            "FLINT",
            "PARI",
            "the same",
            "over odd numbers",
            "over FLINT",
            "over PARI",
            "over the same",
        ]);
        for n in NUMBERS {
            let time = |name| spread(self.number(n).each(|t| t(name) * 1000.0));
            let over = |peer| spread(self.over(n, peer));
            let cells = [
                n.to_string(),
                time("library"),
                time("call"),
                time("odd"),
                time("flint"),
                time("pari"),
                time("same"),
                over("odd"),
                over("flint"),
                over("pari"),
                over("same"),
            ];
            table.line(cells.into_iter());
        }
    }

    fn show_list(&self, mut table: Table) {
        table.head(&["", "a sheet", "over odd numbers", "over FLINT"]);
        let mut line = |what: &str, time: fn(Value) -> f64| {
            let over = |peer| spread(self.list.each(|t| time(t) / t(peer)));
            let cells = [
                what.to_string(),
                spread(self.list.each(|t| time(t) / self.sheets as f64)),
                over("odd"),
                over("flint"),
            ];
            table.line(cells.into_iter());
        };
        line("check", |t| t("check"));
        line("check, question 3 apart", |t| t("check") - t("library"));
        line("question 3", |t| t("library"));
        line("odd numbers", |t| t("odd"));
        line("FLINT", |t| t("flint"));
        line("PARI", |t| t("pari"));
        line("the same", |t| t("same"));
    }
}

fn single(n: u32) -> Samples {
    let prime = sheet::ask_prime(u64::from(n)).is_ok();
    let mut columns = Vec::new();
    for (name, test) in TESTS {
        assert_eq!(test(n), prime, "{name} of {n}");
        columns.push(column(name, move || test(black_box(n))));
    }
    // What remains without the question: an even number is refused at once.
    columns.push(column("call", move || {
        entries::question_three(black_box(n - 1))
    }));
    clock::run(columns, ROUNDS, SAMPLE)
}

fn listed(sheets: &[Vec<u8>]) -> Samples {
    let prime = |bytes: &Vec<u8>| list::prime_of(bytes).expect("a certificate");
    let primes: Vec<u32> = sheets.iter().map(prime).collect();
    let passing = || sheets.iter().filter(|bytes| entries::check(bytes) == 0);
    assert_eq!(passing().count(), sheets.len());
    let mut columns = vec![column("check", || passing().count())];
    for (name, test) in TESTS {
        let list = primes.clone();
        let passing = move || black_box(&list).iter().filter(|&&p| test(p)).count();
        assert_eq!(passing(), sheets.len(), "{name}");
        columns.push(column(name, passing));
    }
    clock::run(columns, ROUNDS, SAMPLE)
}

/// The numbers, and the list of sheets in a folder.
pub fn measure(folder: &Path) -> Primes {
    entries::start_pari();
    let read = list::read(folder).unwrap_or_else(|e| panic!("{}: {e}", folder.display()));
    let sheets: Vec<Vec<u8>> = read.into_iter().map(|(_, bytes)| bytes).collect();
    Primes {
        numbers: NUMBERS.map(single).into(),
        list: listed(&sheets),
        sheets: sheets.len(),
    }
}
