//! Compares the C entries of the library with an independent implementation of
//! documents 01 and 02 and with exhaustive search. See the README beside it.

mod coverage;
mod entries;
mod groups;
mod guarded;
mod judge;
mod report;
mod watch;

use std::process::ExitCode;
use std::sync::atomic::{AtomicUsize, Ordering};
use std::sync::Mutex;
use std::time::Instant;

use coverage::Coverage;
use groups::Group;
use judge::Judge;
use watch::Watch;

pub struct Options {
    pub quick: bool,
    /// Random cases of the hostile groups.
    pub count: u64,
    threads: usize,
    /// The run ends at so many differences.
    differences: u64,
    /// Nothing is compared; certificates are watched.
    watch_only: bool,
    /// Only groups whose name contains this.
    only: String,
}

#[derive(Default)]
struct Totals {
    cases: u64,
    coverage: Coverage,
    watch: Watch,
}

const USAGE: &str = "usage: compare [--quick] [--count N] [--threads N] [--differences N] \
    [--only TEXT] [--watch-only]";

fn parse(arguments: impl Iterator<Item = String>) -> Option<Options> {
    let mut arguments = arguments;
    let mut count = None;
    let mut options = Options {
        quick: false,
        count: 0,
        threads: 2,
        differences: 10,
        watch_only: false,
        only: String::new(),
    };
    while let Some(argument) = arguments.next() {
        match argument.as_str() {
            "--quick" => options.quick = true,
            "--count" => count = Some(arguments.next()?.parse().ok()?),
            "--threads" => options.threads = arguments.next()?.parse().ok()?,
            "--differences" => options.differences = arguments.next()?.parse().ok()?,
            "--only" => options.only = arguments.next()?,
            "--watch-only" => options.watch_only = true,
            _ => return None,
        }
    }
    let usual = if options.quick { 20_000 } else { 2_000_000 };
    options.count = count.unwrap_or(usual);
    Some(options)
}

/// Runs one group and prints its summary line.
fn run(group: &Group, totals: &Mutex<Totals>) {
    let start = Instant::now();
    let mut judge = Judge::new(group.name);
    (group.run)(&mut judge);
    let whole = start.elapsed().as_secs_f64();
    let inside = judge.inside().as_secs_f64();
    let (name, cases, notes) = (group.name, judge.cases(), judge.notes());
    println!("{name:27} {cases:>8} cases {whole:>6.1} s, library {inside:>6.1} s  {notes}");
    let mut totals = totals.lock().expect("no thread panics");
    totals.cases += cases;
    totals.coverage.merge(judge.coverage());
    totals.watch.merge(judge.into_watch());
}

/// Runs all groups. Several threads call the entries at once: they have no
/// state, so that must make no difference.
fn run_all(groups: &[Group], threads: usize) -> Totals {
    let totals = Mutex::new(Totals::default());
    let next = AtomicUsize::new(0);
    std::thread::scope(|scope| {
        for _ in 0..threads {
            scope.spawn(|| {
                while let Some(group) = groups.get(next.fetch_add(1, Ordering::SeqCst)) {
                    run(group, &totals);
                }
            });
        }
    });
    totals.into_inner().expect("no thread panics")
}

fn main() -> ExitCode {
    let Some(options) = parse(std::env::args().skip(1)) else {
        eprintln!("{USAGE}");
        return ExitCode::from(2);
    };
    judge::end_at(options.differences);
    if options.watch_only {
        judge::watch_only();
    }
    report::catch_faults();
    let start = Instant::now();
    let mut groups = groups::all(&options);
    groups.retain(|group| group.name.contains(&options.only));
    let totals = run_all(&groups, options.threads.max(1));
    let Totals {
        cases,
        coverage,
        watch,
    } = totals;
    for line in coverage.lines() {
        println!("{line}");
    }
    println!("{}", watch.line());
    let (differences, seconds) = (judge::differences(), start.elapsed().as_secs_f64());
    println!("total: {cases} cases, {differences} differences, {seconds:.1} s");
    let impossible = coverage.impossible().join(", ");
    if !impossible.is_empty() {
        eprintln!("expected, though no input may get it: {impossible}");
        return ExitCode::FAILURE;
    }
    let whole = options.only.is_empty();
    if whole && !coverage.is_complete() {
        eprintln!("some outcome of documents 01 and 02 never came up");
        return ExitCode::FAILURE;
    }
    if whole && !watch.is_complete(options.quick) {
        eprintln!("too few certificates came up: of an entry, of a degree, or with none, some or all abscissas rational");
        return ExitCode::FAILURE;
    }
    if differences == 0 {
        ExitCode::SUCCESS
    } else {
        ExitCode::FAILURE
    }
}
