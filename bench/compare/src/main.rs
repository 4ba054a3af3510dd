//! Times the services of two libraries in turns and prints the ratios of their times. A third library, the first one once more, shows what is noise. One
//! from before certificates had a count is given certificates without it.

use std::cell::RefCell;
use std::hint::black_box;
use std::process::ExitCode;

use common::clock::{self, Column};
use common::inputs::{self, Input};
use common::table::{spread, Table};
use common::ROOM;

mod before {
    common::entries!("before_");
}
mod after {
    common::entries!("after_");
}
mod control {
    common::entries!("control_");
}

const DEGREES: [u32; 5] = [3, 15, 31, 127, 255];
const ROUNDS: usize = 121;
/// How often a round takes all the orders.
const PASSES: usize = 4;
/// Microseconds of a turn: short, so that a change of the machine's speed meets all libraries.
const TURN: f64 = 200.0;
/// All orders of three: each library comes equally often at each place and after each other one, and before and after change places from one order to the
/// next.
const ORDERS: [&[usize]; 6] = [
    &[0, 1, 2],
    &[2, 1, 0],
    &[2, 0, 1],
    &[1, 0, 2],
    &[0, 2, 1],
    &[1, 2, 0],
];

/// Pointers to functions, so that the same loop times every library.
#[derive(Clone, Copy)]
struct Library {
    name: &'static str,
    check: fn(&[u8]) -> u32,
    solve: fn(&[u32], &mut [u32]) -> u64,
    kernel: fn(&[u32], &mut [u32]) -> u64,
    push: fn(&[u8], u64) -> u64,
}

macro_rules! library {
    ($name:ident) => {
        Library {
            name: stringify!($name),
            check: $name::check,
            solve: $name::solve,
            kernel: $name::kernel,
            push: $name::push,
        }
    };
}

const LIBRARIES: [Library; 3] = [library!(before), library!(after), library!(control)];

/// Where every library writes its answer: what is timed differs in the code alone, not in the place of the data.
type Answer = RefCell<[u32; ROOM]>;

type Service = for<'a> fn(Library, &'a Input, &'a Answer) -> Column<'a>;

const SERVICES: [(&str, Service); 4] = [
    ("check", |library, input, _| {
        clock::column(library.name, move || {
            (library.check)(black_box(&input.bytes))
        })
    }),
    ("solve", |library, input, answer| {
        clock::column(library.name, move || {
            (library.solve)(black_box(&input.question), &mut answer.borrow_mut()[..])
        })
    }),
    ("kernel", |library, input, answer| {
        clock::column(library.name, move || {
            (library.kernel)(black_box(&input.kernel), &mut answer.borrow_mut()[..])
        })
    }),
    ("push", |library, input, _| {
        clock::column(library.name, move || {
            (library.push)(black_box(&input.bytes), input.point)
        })
    }),
];

/// An input with the count, and as it was before.
struct Case {
    now: Input,
    before: Input,
}

impl Case {
    /// A library that does not know the count refuses a certificate with it for its form.
    fn counts(&self, library: Library) -> bool {
        (library.check)(&self.now.bytes) != 6
    }

    fn of(&self, library: Library) -> &Input {
        if self.counts(library) {
            &self.now
        } else {
            &self.before
        }
    }
}

type Answers = [Vec<u64>; 4];

/// What a library answers to the sheets of an input, by service; the one that is timed comes first. Of an answer in words all that there is room for
/// counts, since the words behind it are to stay as they were.
fn answers(library: Library, input: &Input) -> Answers {
    let written = |service: fn(&[u32], &mut [u32]) -> u64, sheet: &[u32]| {
        let mut answer = [u32::MAX; ROOM];
        let number = service(sheet, &mut answer);
        let words = answer.into_iter().map(u64::from);
        std::iter::once(number).chain(words).collect()
    };
    let refused = input.refused.iter().map(|(_, bytes)| bytes);
    let sheets = || std::iter::once(&input.bytes).chain(refused.clone());
    [
        sheets()
            .map(|bytes| u64::from((library.check)(bytes)))
            .collect(),
        written(library.solve, &input.question),
        written(library.kernel, &input.kernel),
        sheets()
            .map(|bytes| (library.push)(bytes, input.point))
            .collect(),
    ]
}

/// What a library that counts and one that does not answer alike: all but the sheet with another count, which is the last, and the word before the end of a
/// certificate, in place of which the one that does not count leaves a word more of the room as it was.
fn without_count(mut answers: Answers, counts: bool) -> Answers {
    let [check, solve, kernel, push] = &mut answers;
    if counts {
        check.pop();
        push.pop();
    }
    for written in [solve, kernel] {
        if counts {
            let last = written[0] as usize;
            written.remove(last - 1);
            written[0] -= 1;
        } else {
            written.pop();
        }
    }
    answers
}

/// The libraries must answer alike, and not by refusing what is timed.
fn compare(case: &Case) -> Result<(), String> {
    let [p, .., l, _] = case.now.values;
    let counting = LIBRARIES.map(|library| case.counts(library));
    let mixed = counting.contains(&true) && counting.contains(&false);
    let answer = |library: Library| {
        let input = case.of(library);
        let given = answers(library, input);
        let count = input.words.len() as u64;
        if [given[0][0], given[1][0], given[2][0]] != [0, count, count] {
            return Err(format!("p = {p}, l = {l}: {} has no answer", library.name));
        }
        Ok(if mixed {
            without_count(given, case.counts(library))
        } else {
            given
        })
    };
    let [first, others @ ..] = LIBRARIES;
    let expected = answer(first)?;
    for other in others {
        let given = answer(other)?;
        for (i, (service, _)) in SERVICES.iter().enumerate() {
            if given[i] != expected[i] {
                let names = format!("{} and {}", first.name, other.name);
                return Err(format!("p = {p}, l = {l}: {service} of {names} differs"));
            }
        }
    }
    Ok(())
}

fn measure(table: &mut Table, case: &Case) {
    let [p, .., l, _] = case.now.values;
    let answer = RefCell::new([0; ROOM]);
    for (service, column) in SERVICES {
        let mut columns = LIBRARIES.map(|library| column(library, case.of(library), &answer));
        // The same number of calls for all, so that the clock and the first calls of a turn weigh alike.
        let most = clock::counts(&mut columns, TURN).into_iter().max();
        let counts = LIBRARIES.map(|_| most.expect("there are libraries"));
        let samples = clock::run_in_turns(columns.into(), &counts, &ORDERS.repeat(PASSES), ROUNDS);
        let ratio = |name| spread(samples.each(|t| t(name) / t("before")));
        let cells = [
            p.to_string(),
            l.to_string(),
            service.to_string(),
            spread(samples.of("before")),
            spread(samples.of("after")),
            ratio("after"),
            ratio("control"),
        ];
        table.line(cells.into_iter());
    }
}

fn main() -> ExitCode {
    let made = inputs::PRIMES.into_iter().flat_map(inputs::all);
    let cases: Vec<Case> = made
        .filter(|input| DEGREES.contains(&input.values[5]))
        .map(|now| Case {
            before: now.without_count(),
            now,
        })
        .collect();
    if let Err(message) = cases.iter().try_for_each(compare) {
        eprintln!("bench/pair: {message}");
        return ExitCode::FAILURE;
    }
    let mut out = String::new();
    let mut table = Table(&mut out);
    table.head(&[
        "p",
        "l",
        "service",
        "before",
        "after",
        "after/before",
        "control",
    ]);
    for case in &cases {
        measure(&mut table, case);
    }
    print!("{out}");
    ExitCode::SUCCESS
}
