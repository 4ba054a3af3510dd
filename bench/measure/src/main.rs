//! Times the services, question 3 and the count of rational abscissas through the C entries beside FLINT, PARI/GP, the independent implementation and the
//! same algorithms in unchecked Rust, prints the ratios and writes the document. Arguments: the document, a file with lines on the machine, the versions and
//! the list of sheets, a file with remarks, the folder of the list.

mod abscissas;
mod composing;
mod counts;
mod document;
mod entries;
mod pari;
mod primes;

use std::hint::black_box;
use std::path::Path;
use std::process::ExitCode;

use common::clock::{self, Column, Samples, Stat};
use common::inputs::{self, Input, Wrong};
use common::ROOM;
use pari::Pari;

pub const ROUNDS: usize = 41;
/// Microseconds of a sample.
const SAMPLE: f64 = 1_500.0;
/// The words of the rows that tell the speed of a multiply-add.
pub const WORDS: usize = 256;

/// The samples for one prime and one degree.
pub struct Row {
    pub p: u64,
    pub l: usize,
    pub samples: Samples,
}

pub fn over(rows: &[Row], p: u64) -> impl Iterator<Item = &Row> {
    rows.iter().filter(move |row| row.p == p)
}

/// What is timed must answer alike.
fn compare(input: &Input) {
    let (bytes, point, values) = (&input.bytes, input.point, &input.values);
    let (g, n, rational, words) = (&input.g, &input.n, input.rational, &input.words);
    assert_eq!((entries::check(bytes), same::check(bytes)), (0, 0));
    assert_eq!(entries::check_with_flint(values, g, n, rational), 0);
    assert_eq!(entries::check_with_flint(values, g, n, rational + 1), 9);
    let count = words.len() as u64;
    let mut answer = [0u32; ROOM];
    let holds = |number: u64, answer: &mut [u32; ROOM]| {
        assert_eq!(number, count);
        assert_eq!(&answer[..words.len()], words);
        answer.fill(0);
    };
    holds(entries::solve(&input.question, &mut answer), &mut answer);
    holds(same::solve(&input.question, &mut answer), &mut answer);
    holds(entries::kernel(&input.kernel, &mut answer), &mut answer);
    holds(same::kernel(&input.kernel, &mut answer), &mut answer);
    let on_domain = reference::call::point_of(point).expect("the number of a point");
    let image = reference::services::image(&input.certificate, on_domain);
    let image = reference::call::point_number(image.expect("a point of the domain"));
    assert_eq!(
        (entries::push(bytes, point), same::push(bytes, point)),
        (image, image)
    );
    for (wrong, bytes) in &input.refused {
        let number = wrong.number();
        assert_eq!(
            (entries::check(bytes), same::check(bytes)),
            (number, number)
        );
    }
    let [p, a, b, atilde, _, l, sigma] = *values;
    let other = [p, a, b, atilde, (values[4] + 1) % p, l, sigma];
    assert_eq!(entries::rules_with_flint(values, g, n), 0);
    assert_eq!(entries::rules_with_flint(&other, g, n), 10);
}

/// Four rows of residues, whose time tells the speed of a multiply-add.
pub fn rows_column(p: u32) -> Column<'static> {
    let residue = |i: usize| (i as u64 * 2_654_435_761) % u64::from(p);
    let row: Vec<u64> = (0..WORDS + 3).map(residue).collect();
    let factors = [1000, 1001, 1002, 1003].map(residue);
    let mut added = vec![0u64; WORDS];
    clock::column("rows", move || {
        let (added, row, factors) = (black_box(&mut added), black_box(&row), black_box(factors));
        same::rows::add_rows(added, 0, WORDS, row, factors)
    })
}

/// Nanoseconds a multiply-add.
pub fn multiply_add(samples: &Samples) -> Stat {
    samples.each(|t| t("rows") * 1000.0 / (4 * WORDS) as f64)
}

fn columns<'a>(input: &'a Input, pari: &'a mut Pari) -> Vec<Column<'a>> {
    let Input {
        bytes,
        question,
        kernel,
        words,
        point,
        values,
        g,
        n,
        rational,
        ..
    } = input;
    let mut columns: Vec<Column> = Vec::new();
    macro_rules! column {
        ($name:expr, $call:expr) => {
            columns.push(clock::column($name, move || $call));
        };
    }
    column!("check", entries::check(black_box(bytes)));
    // Side by side, since differences are taken between them.
    for (name, wrong) in [
        ("check 9 for the count", Wrong::Count),
        ("check 9 for N", Wrong::Numerator),
        ("check 8", Wrong::Sigma),
        ("check 7", Wrong::Codomain),
        ("check 4", Wrong::Degree),
        ("check 3", Wrong::Prime),
    ] {
        let refused = input.with(wrong);
        column!(name, entries::check(black_box(refused)));
    }
    column!("same check", same::check(black_box(bytes)));
    for (name, wrong) in [
        ("same check 4", Wrong::Degree),
        ("same check 3", Wrong::Prime),
    ] {
        let refused = input.with(wrong);
        column!(name, same::check(black_box(refused)));
    }
    column!(
        "flint",
        entries::check_with_flint(black_box(values), g, n, *rational)
    );
    column!(
        "flint rules",
        entries::rules_with_flint(black_box(values), g, n)
    );
    let mut answer = [0u32; ROOM];
    column!(
        "solve",
        entries::solve(black_box(question), black_box(&mut answer))
    );
    column!(
        "same solve",
        same::solve(black_box(question), black_box(&mut answer))
    );
    column!(
        "kernel",
        entries::kernel(black_box(kernel), black_box(&mut answer))
    );
    column!(
        "same kernel",
        same::kernel(black_box(kernel), black_box(&mut answer))
    );
    column!("push", entries::push(black_box(bytes), *point));
    column!("same push", same::push(black_box(bytes), *point));
    column!("reference", reference::services::check(black_box(words)));
    let [p, a, b, atilde, btilde, degree, sigma] = *values;
    let v = same::Values {
        p,
        a,
        b,
        atilde,
        btilde,
        degree,
        sigma,
    };
    let m = same::rows::modulus(p);
    let n = same::last(degree as usize) + 1;
    let count = same::rules::whole(n + 1);
    let (mut e, mut acc) = (vec![0u64; n + 5], vec![0u64; count]);
    let (mut s, mut h) = (vec![0u32; count], vec![0u32; n]);
    same::rules::power_sums(v, g, &mut e, &mut acc, &mut s, 0);
    same::rules::expansion(v, &s, &mut h, 0);
    let (sums, expanded) = (s.clone(), h.clone());
    let (mut room, mut due, mut squares) = (e.clone(), vec![0u64; n - 3], vec![0u32; n - 3]);
    let mut numerator = input.n.clone();
    column!(
        "same N",
        same::rules::numerator(v, m, black_box(g), black_box(&mut numerator))
    );
    column!("same count", same::counting::roots(black_box(g), m));
    column!(
        "same sums",
        same::rules::power_sums(v, black_box(g), &mut e, &mut acc, black_box(&mut s), 0)
    );
    column!(
        "same expansion",
        same::rules::expansion(v, black_box(&sums), black_box(&mut h), 0)
    );
    column!(
        "same recurrence",
        same::rules::recurs(
            v,
            m,
            black_box(&expanded),
            3,
            &mut room,
            &mut due,
            &mut squares
        )
    );
    columns.push(rows_column(p));
    columns.push(("pari", Box::new(move |times| pari.again(times))));
    columns
}

fn main() -> ExitCode {
    let arguments: Vec<String> = std::env::args().collect();
    let [_, document, machine, remarks, sheets] = &arguments[..] else {
        eprintln!("usage: measure DOCUMENT MACHINE REMARKS SHEETS");
        return ExitCode::from(2);
    };
    let read =
        |path: &String| std::fs::read_to_string(path).unwrap_or_else(|e| panic!("{path}: {e}"));
    let (machine, remarks) = (read(machine), read(remarks));
    eprintln!("question 3");
    let primes = primes::measure(Path::new(sheets));
    let inputs: Vec<Input> = inputs::PRIMES.into_iter().flat_map(inputs::all).collect();
    eprintln!("the count of rational abscissas");
    let abscissas = abscissas::measure(&inputs);
    let mut pari = Pari::start();
    let mut rows = Vec::new();
    for input in &inputs {
        let (p, l) = (u64::from(input.values[0]), input.values[5] as usize);
        eprintln!("p = {p}, l = {l}");
        compare(input);
        pari.set(&input.certificate);
        let samples = clock::run(columns(input, &mut pari), ROUNDS, SAMPLE);
        rows.push(Row { p, l, samples });
    }
    eprintln!("compose");
    let composing = composing::measure(&mut pari);
    let text = document::write(&rows, &primes, &abscissas, &composing, &machine, &remarks);
    print!("{text}");
    std::fs::write(document, text).unwrap_or_else(|e| panic!("{document}: {e}"));
    ExitCode::SUCCESS
}
