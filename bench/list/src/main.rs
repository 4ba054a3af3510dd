//! Writes the list of sheets into a new folder, which is the argument, and says in a line what it is.

use std::path::Path;
use std::process::ExitCode;

use list::{DEGREES, EACH, LEAST, MOST, SEED};

fn main() -> ExitCode {
    let arguments: Vec<String> = std::env::args().collect();
    let [_, folder] = &arguments[..] else {
        eprintln!("usage: list FOLDER");
        return ExitCode::from(2);
    };
    let certificates = list::certificates();
    if let Err(error) = list::write(Path::new(folder), &certificates) {
        eprintln!("{folder}: {error}");
        return ExitCode::from(2);
    }
    println!(
        "{} certificates of degree {} to {}, {EACH} over primes of each size from {LEAST} to {MOST} bits, seed {SEED}",
        certificates.len(),
        DEGREES[0],
        DEGREES[DEGREES.len() - 1]
    );
    ExitCode::SUCCESS
}
