//! The count of rational abscissas by itself: the library beside FLINT and the same algorithm in unchecked Rust, for the kernels of points, whose roots are all
//! in the field, and for random g, of which few are; and the document's section on it.

use std::fmt::Write;
use std::hint::black_box;

use common::clock::{self, column, Stat, Value};
use common::inputs::{self, Counted, Input};
use common::polynomials;
use common::table::{short, spread, Table};

use crate::{counts, entries, multiply_add, over, rows_column, Row, ROUNDS, SAMPLE};

/// What a certificate takes that is refused for its count, less what one takes that is refused for its N.
fn library(t: Value) -> f64 {
    t("count") - t("N")
}

pub fn over_flint(row: &Row) -> Stat {
    row.samples.each(|t| library(t) / t("flint"))
}

/// Multiply-adds of the count, by degree and prime.
type Counts = fn(usize, u32) -> usize;

/// The rows of each kind of g.
pub struct Abscissas {
    pub points: Vec<Row>,
    pub random: Vec<Row>,
}

impl Abscissas {
    pub fn section(&self, out: &mut String) {
        out.push_str(
            "
## The count of rational abscissas

How many roots g has in the field: the degree of its greatest common divisor with x^p - x.

- count: by difference, what check takes for a certificate refused with 9 for its count less what it takes for one refused with 9 for its N.
- FLINT: `nmod_poly_powmod_x_ui_preinv` and `nmod_poly_gcd` on the same g, from words (`bench/flint/check.c`).
- the same: the algorithm in unchecked Rust, called by itself.

At l = 3, where g is x - u, the count is 1 without any work.

Kernels of points have all their roots in the field: g divides x^p - x, and Euclid's loop ends at once.
",
        );
        show(out, &self.points, counts::all_rational);
        out.push_str(
            "
A random monic g has one root in the field on average: Euclid's loop goes through all degrees. R1 and R2 hold on these sheets, R3 does not.
",
        );
        show(out, &self.random, counts::few_rational);
    }
}

fn show(out: &mut String, rows: &[Row], counts: Counts) {
    for p in inputs::PRIMES {
        write!(out, "\np = {p}:\n\n").expect("a string takes any text");
        let mut table = Table(out);
        table.head(&[
            "l",
            "count",
            "FLINT",
            "the same",
            "count / FLINT",
            "count / the same",
            "count / bound",
        ]);
        for row in over(rows, p) {
            let samples = &row.samples;
            let others = ["flint", "same"].map(|column| spread(samples.of(column)));
            // Where there is nothing to count the difference of two times says nothing.
            let (time, ratios) = match counts(row.l, p as u32) {
                0 => ("-".to_string(), ["-"; 3].map(String::from)),
                count => {
                    let bound = count as f64 * multiply_add(samples).median / 1000.0;
                    let ratios = [
                        spread(over_flint(row)),
                        spread(samples.each(|t| library(t) / t("same"))),
                        short(samples.each(library).median / bound),
                    ];
                    (spread(samples.each(library)), ratios)
                }
            };
            let front = [row.l.to_string(), time];
            table.line(front.into_iter().chain(others).chain(ratios));
        }
    }
}

/// FLINT, the same algorithm and the independent implementation must count alike, on polynomials of every degree.
fn compare_all() {
    for g in polynomials::all() {
        let p = g.field().p() as u32;
        let words: Vec<u32> = g.coefficients().iter().map(|&c| c as u32).collect();
        let count = reference::rational::count(&g) as u32;
        let same = same::counting::roots(&words, same::rows::modulus(p));
        let flint = entries::count_with_flint(p, &words);
        assert_eq!((same, flint), (count, count), "{g:?}");
    }
}

/// What is timed must answer alike. The sheet itself gets 0 or, where g is no kernel, 10: 9 is for what was changed.
fn compare(counted: &Counted, number: u32) {
    let Counted { p, g, rational, .. } = counted;
    assert_eq!(entries::count_with_flint(*p, g), *rational);
    assert_eq!(same::counting::roots(g, same::rows::modulus(*p)), *rational);
    let sheets = [
        &counted.bytes,
        &counted.another_numerator,
        &counted.another_count,
    ];
    let answers = sheets.map(|bytes| (entries::check(bytes), same::check(bytes)));
    assert_eq!(answers, [(number, number), (9, 9), (9, 9)]);
}

fn row(counted: &Counted, number: u32) -> Row {
    compare(counted, number);
    let &Counted { p, l, ref g, .. } = counted;
    let m = same::rows::modulus(p);
    let columns = vec![
        column("N", || {
            entries::check(black_box(&counted.another_numerator))
        }),
        column("count", || {
            entries::check(black_box(&counted.another_count))
        }),
        column("flint", || entries::count_with_flint(p, black_box(g))),
        column("same", || same::counting::roots(black_box(g), m)),
        rows_column(p),
    ];
    Row {
        p: u64::from(p),
        l: l as usize,
        samples: clock::run(columns, ROUNDS, SAMPLE),
    }
}

/// The kernels are those of the inputs.
pub fn measure(inputs: &[Input]) -> Abscissas {
    compare_all();
    let of_points = |input: &Input| row(&Counted::of(&input.certificate), 0);
    let random = inputs::PRIMES.into_iter().flat_map(inputs::any_g);
    Abscissas {
        points: inputs.iter().map(of_points).collect(),
        random: random.map(|counted| row(&counted, 10)).collect(),
    }
}
