//! Samples: each round runs every column, one after the other, so that a change of the machine's speed meets all of them, and quotients and
//! differences are taken within a round. What is measured is the time that the processor spent, not the time that passed, so that other work on the same
//! core counts little. Assumes 64-bit Linux.

use std::hint::black_box;

#[repr(C)]
struct Timespec {
    seconds: i64,
    nanoseconds: i64,
}

extern "C" {
    fn clock_gettime(clock: i32, time: *mut Timespec) -> i32;
}

const CLOCK_PROCESS_CPUTIME_ID: i32 = 2;

/// Microseconds that the processor spent on this process.
fn spent() -> f64 {
    let mut time = Timespec {
        seconds: 0,
        nanoseconds: 0,
    };
    // SAFETY: the structure is the one that the system writes.
    let done = unsafe { clock_gettime(CLOCK_PROCESS_CPUTIME_ID, &mut time) };
    assert_eq!(done, 0, "there is a clock of the process");
    time.seconds as f64 * 1e6 + time.nanoseconds as f64 / 1e3
}

/// Microseconds that a number of calls take.
fn timed(times: usize, mut call: impl FnMut()) -> f64 {
    let start = spent();
    for _ in 0..times {
        call();
    }
    spent() - start
}

/// Microseconds of one call, by column and round.
pub struct Samples {
    names: Vec<&'static str>,
    times: Vec<Vec<f64>>,
}

/// Median and quartiles.
#[derive(Clone, Copy)]
pub struct Stat {
    pub low: f64,
    pub median: f64,
    pub high: f64,
}

pub fn stat(mut values: Vec<f64>) -> Stat {
    values.sort_by(f64::total_cmp);
    let place = |part: usize| values[(values.len() - 1) * part / 4];
    Stat {
        low: place(1),
        median: place(2),
        high: place(3),
    }
}

/// A column: its name and the microseconds that so many calls take.
pub type Column<'a> = (&'static str, Box<dyn FnMut(usize) -> f64 + 'a>);

pub fn column<'a, T>(name: &'static str, mut call: impl FnMut() -> T + 'a) -> Column<'a> {
    let again = move |times| {
        timed(times, || {
            black_box(call());
        })
    };
    (name, Box::new(again))
}

/// How many calls of each column take about `sample` microseconds.
pub fn counts(columns: &mut [Column], sample: f64) -> Vec<usize> {
    // The first calls warm up, the next ones tell the time.
    let count = |(_, call): &mut Column| {
        call(8);
        (sample / call(8) * 8.0).ceil().clamp(1.0, 1e6) as usize
    };
    columns.iter_mut().map(count).collect()
}

/// Runs the columns in the order that they have and back, so that a steady change of the speed adds the same to all; each time for about `sample`
/// microseconds.
pub fn run(mut columns: Vec<Column>, rounds: usize, sample: f64) -> Samples {
    let counts = counts(&mut columns, sample);
    let forth: Vec<usize> = (0..columns.len()).collect();
    let back: Vec<usize> = forth.iter().rev().copied().collect();
    run_in_turns(columns, &counts, &[&forth, &back], rounds)
}

/// Runs the columns with so many calls each. A round takes the orders one after the other and adds up the time of each column.
pub fn run_in_turns(
    mut columns: Vec<Column>,
    counts: &[usize],
    orders: &[&[usize]],
    rounds: usize,
) -> Samples {
    let mut times = vec![Vec::new(); columns.len()];
    for _ in 0..rounds {
        let mut sums = vec![0.0; columns.len()];
        for &i in orders.iter().copied().flatten() {
            sums[i] += columns[i].1(counts[i]);
        }
        for (i, sum) in sums.into_iter().enumerate() {
            times[i].push(sum / (counts[i] * orders.len()) as f64);
        }
    }
    let names = columns.iter().map(|&(name, _)| name).collect();
    Samples { names, times }
}

/// A value of one round: the time of a column.
pub type Value<'a> = &'a dyn Fn(&str) -> f64;

impl Samples {
    fn column(&self, name: &str) -> &[f64] {
        let place = self.names.iter().position(|&n| n == name);
        &self.times[place.unwrap_or_else(|| panic!("no column {name}"))]
    }

    /// What a formula gives in each round, from the columns it asks for.
    pub fn each(&self, formula: impl Fn(Value) -> f64) -> Stat {
        let rounds = self.times[0].len();
        let value = |round: usize| formula(&|name: &str| self.column(name)[round]);
        stat((0..rounds).map(value).collect())
    }

    pub fn of(&self, name: &str) -> Stat {
        stat(self.column(name).to_vec())
    }
}
