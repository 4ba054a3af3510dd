//! Puts questions 2 and 3 to certificates, question 3 by trying every odd number. Arguments: files, and folders of them. Prints a line for each that
//! is refused, and at last how many pass.

use std::path::Path;
use std::process::ExitCode;

/// The number of the question that refuses the certificate.
fn judge(bytes: &[u8]) -> Result<(), u32> {
    if odd::question_three(list::prime_of(bytes)?) {
        Ok(())
    } else {
        Err(3)
    }
}

fn main() -> ExitCode {
    let (mut pass, mut refused) = (0, 0);
    for path in std::env::args().skip(1) {
        let sheets = match list::read(Path::new(&path)) {
            Ok(sheets) => sheets,
            Err(error) => {
                eprintln!("{path}: {error}");
                return ExitCode::from(2);
            }
        };
        for (name, bytes) in sheets {
            match judge(&bytes) {
                Ok(()) => pass += 1,
                Err(number) => {
                    refused += 1;
                    println!("{}: refused {number}", name.display());
                }
            }
        }
    }
    println!("{pass} pass, {refused} refused");
    ExitCode::from(u8::from(refused > 0))
}
