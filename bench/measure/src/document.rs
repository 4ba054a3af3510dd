//! The document: the bars with what was measured, then the tables. Everything in it comes from the samples of one run, but for the remarks.

use std::fmt::Write;

use common::clock::{Stat, Value};
use common::inputs;
use common::table::{short, spread, Table};

use crate::abscissas::{self, Abscissas};
use crate::composing::{self, Composing};
use crate::counts;
use crate::primes::Primes;
use crate::{multiply_add, over, Row, ROUNDS, WORDS};

const SERVICES: [&str; 4] = ["check", "solve", "kernel", "push"];
/// Degrees from here on count for the bars.
const FROM: usize = 31;

fn count(service: &str, l: usize, p: u64) -> usize {
    let of = match service {
        "check" => counts::check,
        "solve" => counts::solve,
        "kernel" => counts::kernel,
        _ => counts::push,
    };
    of(l, p as u32)
}

/// Question 3: a certificate of even degree is refused after it, one with an even p before.
fn question_three(t: Value) -> f64 {
    t("check 4") - t("check 3")
}

/// The count of rational abscissas: a certificate with another count is refused after it, one with another N before.
fn rational_abscissas(t: Value) -> f64 {
    t("check 9 for the count") - t("check 9 for N")
}

fn same_question_three(t: Value) -> f64 {
    t("same check 4") - t("same check 3")
}

impl Row {
    /// A service without question 3.
    fn apart(&self, service: &str) -> Stat {
        self.samples.each(|t| t(service) - question_three(t))
    }

    fn against_same(&self, service: &str) -> Stat {
        let same = format!("same {service}");
        self.samples.each(|t| t(service) / t(&same))
    }

    fn against_same_apart(&self, service: &str) -> Stat {
        let same = format!("same {service}");
        let quotient =
            |t: Value| (t(service) - question_three(t)) / (t(&same) - same_question_three(t));
        self.samples.each(quotient)
    }

    fn against_flint(&self) -> Stat {
        self.samples
            .each(|t| (t("check") - question_three(t)) / t("flint"))
    }

    /// Both without the count.
    fn rules_against_flint(&self) -> Stat {
        self.samples
            .each(|t| (t("check") - question_three(t) - rational_abscissas(t)) / t("flint rules"))
    }

    fn against_pari(&self, service: &str) -> Stat {
        self.samples.each(|t| t(service) / t("pari"))
    }

    fn against_pari_apart(&self) -> Stat {
        self.samples
            .each(|t| (t("kernel") - question_three(t)) / t("pari"))
    }

    /// Microseconds below which the multiply-adds of a service do not go.
    fn bound(&self, service: &str) -> f64 {
        let count = count(service, self.l, self.p);
        count as f64 * multiply_add(&self.samples).median / 1000.0
    }
}

/// The least-squares slope of log time over log l. Rows are measured one after the other, so that the machine's speed may change between them: each time
/// is taken in units of the same row's multiply-add.
fn exponent(rows: &[Row], p: u64, time: impl Fn(&Row) -> f64) -> f64 {
    let points: Vec<(f64, f64)> = over(rows, p)
        .filter(|row| FROM <= row.l)
        .map(|row| {
            (
                (row.l as f64).ln(),
                (time(row) / multiply_add(&row.samples).median).ln(),
            )
        })
        .collect();
    let n = points.len() as f64;
    let mean = |f: fn(&(f64, f64)) -> f64| points.iter().map(f).sum::<f64>() / n;
    let (x, y) = (mean(|q| q.0), mean(|q| q.1));
    let top: f64 = points.iter().map(|q| (q.0 - x) * (q.1 - y)).sum();
    let bottom: f64 = points.iter().map(|q| (q.0 - x) * (q.0 - x)).sum();
    top / bottom
}

/// The largest median of a ratio over the degrees that count, and where.
fn worst(
    rows: &[Row],
    counts: impl Fn(&Row) -> bool,
    ratio: impl Fn(&Row) -> f64,
) -> (f64, String) {
    let counted = rows.iter().filter(|row| counts(row));
    let row = counted
        .max_by(|x, y| ratio(x).total_cmp(&ratio(y)))
        .expect("some degree counts");
    (ratio(row), format!("p = {}, l = {}", row.p, row.l))
}

fn verdict(value: f64, bar: f64) -> String {
    if value <= bar {
        "pass".to_string()
    } else {
        format!("**miss** by {:.0} %", (value / bar - 1.0) * 100.0)
    }
}

/// The bar and the aim of check without the count over FLINT for each prime. FLINT packs small coefficients closer, so that it is faster over the small one.
const FLINT_BARS: [(u64, f64, f64); 2] = [
    (inputs::PRIMES[0], 0.16, 0.12),
    (inputs::PRIMES[1], 0.26, 0.2),
];

fn bars(
    out: &mut String,
    rows: &[Row],
    primes: &Primes,
    abscissas: &Abscissas,
    composing: &Composing,
) {
    let mut table = Table(out);
    table.head(&["bar", "at most", "worst measured", "where", "verdict"]);
    let mut bar = |what: String, most: f64, (value, place): (f64, String)| {
        let cells = [
            what,
            most.to_string(),
            short(value),
            place,
            verdict(value, most),
        ];
        table.line(cells.into_iter());
    };
    for (p, most, aim) in FLINT_BARS {
        let flint = worst(
            rows,
            |row| row.p == p && FROM <= row.l,
            |row| row.rules_against_flint().median,
        );
        bar(
            "check without the count, question 3 apart, over FLINT's R1 to R3, l ≥ 31".into(),
            most,
            flint.clone(),
        );
        bar("the same, aim".into(), aim, flint);
    }
    let every = worst(rows, |_| true, |row| row.rules_against_flint().median);
    bar("the same at every l".into(), 0.3, every);
    for (what, rows) in [
        ("kernels of points", &abscissas.points),
        ("random g", &abscissas.random),
    ] {
        let flint = worst(
            rows,
            |row| FROM <= row.l,
            |row| abscissas::over_flint(row).median,
        );
        bar(
            format!("count over FLINT's powmod and gcd, {what}, l ≥ 31"),
            0.45,
            flint,
        );
    }
    let whole = worst(rows, |row| FROM <= row.l, |row| row.against_flint().median);
    bar(
        "check, question 3 apart, over FLINT's R1 to R3 and count, l ≥ 31".into(),
        0.4,
        whole,
    );
    let pari = worst(
        rows,
        |row| FROM <= row.l,
        |row| row.against_pari("kernel").median,
    );
    bar("kernel over PARI's ellisogeny, l ≥ 31".into(), 0.25, pari);
    let apart = worst(
        rows,
        |row| FROM <= row.l,
        |row| row.against_pari_apart().median,
    );
    bar(
        "kernel, question 3 apart, over PARI's ellisogeny, l ≥ 31".into(),
        0.25,
        apart,
    );
    let largest = inputs::PRIMES[0];
    let small = worst(
        rows,
        |row| row.p == largest && row.l == 3,
        |row| row.against_pari("check").median,
    );
    bar("check over PARI's ellisogeny, l = 3".into(), 0.3, small);
    for (what, most, peer) in [
        ("a program that tries every odd number", 0.08, "odd"),
        ("FLINT's n_is_prime", 1.5, "flint"),
    ] {
        bar(
            format!("question 3 over {what}"),
            most,
            (
                primes.over(largest as u32, peer).median,
                format!("p = {largest}"),
            ),
        );
    }
    for service in SERVICES {
        let whole = worst(rows, |_| true, |row| row.against_same(service).median);
        bar(
            format!("{service} over the same algorithm in unchecked Rust"),
            1.1,
            whole,
        );
        let apart = worst(
            rows,
            |row| FROM <= row.l,
            |row| row.against_same_apart(service).median,
        );
        bar(
            format!("{service}, question 3 apart, over the same, l ≥ 31"),
            1.1,
            apart,
        );
    }
    bar(
        "compose less its two checks, over check of the composite, question 3 apart".into(),
        1.5,
        composing.worst(composing::over_check),
    );
    bar(
        "compose less its two checks, over PARI's ellisogenyapply".into(),
        0.1,
        composing.worst(composing::over_pari),
    );
    for p in inputs::PRIMES {
        let slope = exponent(rows, p, |row| row.apart("check").median);
        bar(
            "exponent of check's growth, question 3 apart, l ≥ 31".into(),
            2.1,
            (slope, format!("p = {p}")),
        );
    }
}

fn times(out: &mut String, rows: &[Row], p: u64) {
    let mut table = Table(out);
    table.head(&[
        "l",
        "check",
        "check, question 3 apart",
        "count",
        "solve",
        "kernel",
        "push",
        "FLINT",
        "FLINT, R1 to R3",
        "PARI",
        "independent Rust",
        "bound",
    ]);
    for row in over(rows, p) {
        let column = |name: &str| spread(row.samples.of(name));
        let cells = [
            row.l.to_string(),
            column("check"),
            spread(row.apart("check")),
            spread(row.samples.each(rational_abscissas)),
            column("solve"),
            column("kernel"),
            column("push"),
            column("flint"),
            column("flint rules"),
            column("pari"),
            column("reference"),
            short(row.bound("check")),
        ];
        table.line(cells.into_iter());
    }
}

fn ratios(out: &mut String, rows: &[Row], p: u64) {
    let mut table = Table(out);
    table.head(&[
        "l",
        "check / FLINT",
        "check / FLINT, without the count",
        "kernel / PARI",
        "check / independent Rust",
        "check / bound",
        "solve / bound",
        "kernel / bound",
    ]);
    for row in over(rows, p) {
        let bound = |service: &str| short(row.apart(service).median / row.bound(service));
        let independent = |t: Value| (t("check") - question_three(t)) / t("reference");
        let cells = [
            row.l.to_string(),
            spread(row.against_flint()),
            spread(row.rules_against_flint()),
            spread(row.against_pari("kernel")),
            spread(row.samples.each(|t| independent(t))),
            bound("check"),
            bound("solve"),
            bound("kernel"),
        ];
        table.line(cells.into_iter());
    }
}

fn unchecked(out: &mut String, rows: &[Row], p: u64) {
    let mut table = Table(out);
    let apart = SERVICES.map(|service| format!("{service}, apart"));
    let mut head = vec!["l"];
    head.extend(SERVICES);
    head.extend(apart.iter().map(String::as_str));
    table.head(&head);
    for row in over(rows, p) {
        let whole = SERVICES
            .iter()
            .map(|service| spread(row.against_same(service)));
        let apart = SERVICES
            .iter()
            .map(|service| spread(row.against_same_apart(service)));
        table.line([row.l.to_string()].into_iter().chain(whole).chain(apart));
    }
}

fn parts(out: &mut String, rows: &[Row], p: u64) {
    let mut table = Table(out);
    table.head(&[
        "l",
        "whole",
        "question 3",
        "reading",
        "R1",
        "R2",
        "count",
        "R3",
        "same: N",
        "same: count",
        "same: power sums",
        "same: expansion",
        "same: recurrence",
    ]);
    for row in over(rows, p) {
        let each = |formula: &dyn Fn(Value) -> f64| short(row.samples.each(|t| formula(t)).median);
        let cells = [
            row.l.to_string(),
            each(&|t| t("check")),
            each(&|t| question_three(t)),
            each(&|t| t("check 3") + t("check 7") - t("check 4")),
            each(&|t| t("check 8") - t("check 7")),
            each(&|t| t("check 9 for N") - t("check 8")),
            each(&|t| rational_abscissas(t)),
            each(&|t| t("check") - t("check 9 for the count")),
            each(&|t| t("same N")),
            each(&|t| t("same count")),
            each(&|t| t("same sums")),
            each(&|t| t("same expansion")),
            each(&|t| t("same recurrence")),
        ];
        table.line(cells.into_iter());
    }
}

fn growth(out: &mut String, rows: &[Row]) {
    let mut table = Table(out);
    table.head(&[
        "p",
        "check",
        "check without the count",
        "solve",
        "kernel",
        "push",
        "FLINT",
        "PARI",
        "multiply-adds of check",
    ]);
    for p in inputs::PRIMES {
        let service =
            |name: &str| format!("{:.2}", exponent(rows, p, |row| row.apart(name).median));
        let column = |name: &str| {
            format!(
                "{:.2}",
                exponent(rows, p, |row| row.samples.of(name).median)
            )
        };
        let without = |t: Value| t("check") - question_three(t) - rational_abscissas(t);
        let rules = format!(
            "{:.2}",
            exponent(rows, p, |row| row.samples.each(without).median)
        );
        let counted = format!("{:.2}", exponent(rows, p, |row| row.bound("check")));
        let cells = [
            p.to_string(),
            service("check"),
            rules,
            service("solve"),
            service("kernel"),
            service("push"),
            column("flint"),
            column("pari"),
            counted,
        ];
        table.line(cells.into_iter());
    }
}

fn counted(out: &mut String, rows: &[Row], p: u64) {
    let mut table = Table(out);
    table.head(&["l", "check", "solve", "kernel", "push", "the count in each"]);
    for row in over(rows, p) {
        let services = SERVICES.map(|service| count(service, row.l, p));
        let numbers = [row.l].into_iter().chain(services);
        let numbers = numbers.chain([counts::all_rational(row.l, p as u32)]);
        table.line(numbers.map(|n| n.to_string()));
    }
}

pub fn write(
    rows: &[Row],
    primes: &Primes,
    abscissas: &Abscissas,
    composing: &Composing,
    machine: &str,
    remarks: &str,
) -> String {
    let mut out = String::new();
    let multiply_add = multiply_add(&rows[0].samples);
    write!(
        out,
        "# Performance

Written by `bench/run`, which measures everything below in one run on one core; only the remarks are by hand.

{machine}
Each value is the median of {ROUNDS} rounds, with half the distance of the quartiles in percent of it. A round times every column twice, one after the
other and back; ratios and differences are taken within a round. Times are microseconds of the processor a call. Every answer is compared before it is
timed. The inputs are certificates of isogenies that `tests/reference` makes from points of order l.

- check, solve, kernel, push, compose: the C entries of `libsagepliers.a`.
- FLINT: R1 to R3 and the count of the same certificate with `nmod_poly` (`bench/flint/check.c`), from words that have been read, for a p that is known to
  be prime.
- PARI: `ellisogeny(E, g)` with the whole map, from the curve and the kernel polynomial as PARI's own objects. It does not ask whether g is one of an isogeny,
  and counts no roots.
- independent Rust: check of `tests/reference`, which knows its primes from a sieve.
- the same: the library's algorithms in unchecked Rust (`bench/same`), with the same reading and the same trial division.
- bound: the multiply-adds of the algorithm at {} nanoseconds each, the speed of four rows of {WORDS} words in the same run.
- question 3 apart: without the trial division that shows that p is prime, which is what refusing an even degree takes (question 4) less what refusing
  an even p takes (question 3).
- count: the count of rational abscissas, which is what refusing another count takes (question 9) less what refusing another N takes (question 9 too).

## Bars

",
        short(multiply_add.median)
    )
    .expect("a string takes any text");
    bars(&mut out, rows, primes, abscissas, composing);
    out.push_str("\n## Remarks\n\n");
    out.push_str(remarks.trim());
    out.push('\n');
    primes.section(&mut out);
    abscissas.section(&mut out);
    for p in inputs::PRIMES {
        write!(out, "\n## Times over p = {p}\n\n").expect("a string takes any text");
        times(&mut out, rows, p);
        write!(
            out,
            "\n## Ratios over p = {p}\n\nQuestion 3 apart, but in kernel / PARI.\n\n"
        )
        .expect("a string takes any text");
        ratios(&mut out, rows, p);
    }
    for p in inputs::PRIMES {
        write!(
            out,
            "\n## Beside the same algorithms in unchecked Rust, p = {p}\n\nWhole, then with question 3 taken off both.\n\n"
        )
        .expect("a string takes any text");
        unchecked(&mut out, rows, p);
    }
    out.push_str(
        "
## Where check's time goes

By differences of what the C entry takes: for a certificate refused with 3 (an even p), 4 (an even degree), 7 (a singular codomain), 8 (another σ), 9 for its
N (another leading coefficient), 9 for its count, and for one that passes. Question 3 is 4 less 3; reading, questions 2 and 4 to 7, is 3 and 7 less 4; R1, with
the copying of the coefficients, is 8 less 7; R2 is 9 for N less 8; the count is 9 for the count less 9 for N; R3 is the whole less 9 for the count. The
last five columns are parts of the same algorithm in unchecked Rust, each called by itself.
",
    );
    for p in inputs::PRIMES {
        write!(out, "\np = {p}:\n\n").expect("a string takes any text");
        parts(&mut out, rows, p);
    }
    composing.section(&mut out);
    out.push_str("\n## Growth\n\nThe exponent of l that fits best (least squares of the logarithms) for l ≥ 31, question 3 apart. Times are taken
in units of the multiply-add of the same row, since the machine's speed may change between rows.\n\n");
    growth(&mut out, rows);
    out.push_str("\n## Counts\n\nMultiply-adds of two residues; products with small numbers, A and B and remainders are not counted.\n");
    for p in inputs::PRIMES {
        write!(out, "\np = {p}:\n\n").expect("a string takes any text");
        counted(&mut out, rows, p);
    }
    out
}
