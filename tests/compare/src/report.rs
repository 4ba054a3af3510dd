//! What is printed about a case: its inputs in hexadecimal, and, when a call
//! faults on a guard page, the inputs of that call before the process ends.

use std::cell::Cell;
use std::ffi::c_void;
use std::fmt::{self, Write};

use reference::call::{Call, INFINITY, REFUSED};
use reference::chains::Way;

extern "C" {
    fn sigaction(signal: i32, new: *const Action, old: *mut Action) -> i32;
    fn write(file: i32, bytes: *const c_void, count: usize) -> isize;
    fn _exit(status: i32) -> !;
}

/// `struct sigaction` of 64-bit Linux.
#[repr(C)]
struct Action {
    handler: extern "C" fn(i32),
    mask: [u64; 16],
    flags: i32,
    restorer: usize,
}

const SA_ONSTACK: i32 = 0x0800_0000;
const FATAL: [i32; 5] = [4, 6, 7, 8, 11];

thread_local! {
    static CURRENT: Cell<Option<(*const Call, &'static str)>> = const { Cell::new(None) };
}

/// Names the call that runs next on this thread, for a report of a fault.
pub fn running(call: &Call, group: &'static str) {
    CURRENT.set(Some((call, group)));
}

/// No call is running on this thread.
pub fn finished() {
    CURRENT.set(None);
}

/// Standard error without buffer or lock, fit for a signal handler.
struct Raw;

impl Write for Raw {
    fn write_str(&mut self, text: &str) -> fmt::Result {
        // SAFETY: the bytes of a string slice.
        unsafe { write(2, text.as_ptr().cast(), text.len()) };
        Ok(())
    }
}

extern "C" fn on_signal(signal: i32) {
    let mut out = Raw;
    let _ = match CURRENT.get() {
        Some((call, group)) => {
            // SAFETY: set by the caller that is still inside this very call.
            let call = unsafe { &*call };
            writeln!(out, "DIFFERENCE: signal {signal} in group {group}")
                .and_then(|()| describe(&mut out, call))
        }
        None => writeln!(out, "signal {signal} outside the library"),
    };
    // SAFETY: ends the process at once; nothing is unwound.
    unsafe { _exit(1) }
}

/// From now on a fatal signal prints the running call and ends with status 1.
pub fn catch_faults() {
    let action = Action {
        handler: on_signal,
        mask: [0; 16],
        flags: SA_ONSTACK,
        restorer: 0,
    };
    for signal in FATAL {
        // SAFETY: a valid action; the handler uses only write and _exit.
        let done = unsafe { sigaction(signal, &action, std::ptr::null_mut()) };
        assert_eq!(done, 0, "sigaction failed");
    }
}

fn hex_words(out: &mut dyn Write, name: &str, words: &[u32]) -> fmt::Result {
    write!(out, "  {name} of {} words:", words.len())?;
    words
        .iter()
        .try_for_each(|word| write!(out, " {word:08x}"))?;
    writeln!(out)
}

fn hex_bytes(out: &mut dyn Write, bytes: &[u8]) -> fmt::Result {
    write!(out, "  sheet of {} bytes: ", bytes.len())?;
    bytes
        .iter()
        .try_for_each(|byte| write!(out, "{byte:02x}"))?;
    writeln!(out)
}

/// The entry and its inputs.
pub fn describe(out: &mut dyn Write, call: &Call) -> fmt::Result {
    match call {
        Call::Check { bytes } => {
            writeln!(out, "  entry: check")?;
            hex_bytes(out, bytes)
        }
        Call::Push { bytes, point } => {
            writeln!(out, "  entry: push, point {point:#x}")?;
            hex_bytes(out, bytes)
        }
        Call::Solve { sheet, room } => {
            writeln!(out, "  entry: solve, room {room}")?;
            hex_words(out, "sheet", sheet)
        }
        Call::Kernel { sheet, room } => {
            writeln!(out, "  entry: kernel, room {room}")?;
            hex_words(out, "sheet", sheet)
        }
        Call::Name { p, a, b } => {
            writeln!(out, "  entry: name, p {p:#x}, a {a:#x}, b {b:#x}")
        }
        Call::Compose {
            first,
            second,
            room,
        } => {
            writeln!(out, "  entry: compose, room {room}")?;
            hex_words(out, "first sheet", first)?;
            hex_words(out, "second sheet", second)
        }
    }
}

/// What became of a chain, way by way, and its sheets.
pub fn ways<'a>(
    sheets: &[Vec<u32>],
    ends: impl Iterator<Item = (&'a Way, &'a Result<Vec<u32>, u64>)>,
) -> String {
    let mut text = String::from("  the ways to join a chain do not agree\n");
    for (way, end) in ends {
        match end {
            Ok(words) => hex_words(&mut text, &way.to_string(), words),
            Err(number) => writeln!(text, "  {way}: {}", meaning(*number)),
        }
        .expect("a string takes any text");
    }
    for (i, words) in sheets.iter().enumerate() {
        hex_words(&mut text, &format!("sheet {}", i + 1), words).expect("a string takes any text");
    }
    text
}

/// A returned number in the words of document 01.
pub fn meaning(number: u64) -> String {
    match number {
        INFINITY => format!("{number:#x} (infinity)"),
        _ if number >= REFUSED => format!("{number:#x} (refused {})", number - REFUSED),
        _ => format!("{number:#x}"),
    }
}
