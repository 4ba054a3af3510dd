//! The C entries of the library over the reference, so that the comparison can
//! be tried without the library. With the environment variable
//! SAGEPLIERS_FAULT set, one deliberate fault is put in.

pub mod faults;

use faults::Memory;
use reference::call::Call;

/// # Safety
/// The bytes are readable for their count.
#[no_mangle]
pub unsafe extern "C" fn sagepliers_check(bytes: *const u8, count: usize) -> u32 {
    let call = Call::Check {
        bytes: slice(bytes, count),
    };
    answer_bytes(call, bytes, count) as u32
}

/// # Safety
/// The bytes are readable for their count.
#[no_mangle]
pub unsafe extern "C" fn sagepliers_push(bytes: *const u8, count: usize, point: u64) -> u64 {
    let call = Call::Push {
        bytes: slice(bytes, count),
        point,
    };
    answer_bytes(call, bytes, count)
}

/// # Safety
/// The sheet is readable for its words, the answer writable for its room.
#[no_mangle]
pub unsafe extern "C" fn sagepliers_solve(
    sheet: *const u32,
    words: usize,
    answer: *mut u32,
    room: usize,
) -> u64 {
    let call = Call::Solve {
        sheet: slice(sheet, words),
        room,
    };
    answer_words(call, &[(sheet, words)], (answer, room))
}

/// # Safety
/// As for solve.
#[no_mangle]
pub unsafe extern "C" fn sagepliers_kernel(
    sheet: *const u32,
    words: usize,
    answer: *mut u32,
    room: usize,
) -> u64 {
    let call = Call::Kernel {
        sheet: slice(sheet, words),
        room,
    };
    answer_words(call, &[(sheet, words)], (answer, room))
}

#[no_mangle]
pub extern "C" fn sagepliers_name(p: u32, a: u32, b: u32) -> u64 {
    faults::reply(Call::Name { p, a, b }).number
}

/// # Safety
/// Both sheets are readable for their words, the answer writable for its room.
#[no_mangle]
pub unsafe extern "C" fn sagepliers_compose(
    first: *const u32,
    first_words: usize,
    second: *const u32,
    second_words: usize,
    answer: *mut u32,
    room: usize,
) -> u64 {
    let call = Call::Compose {
        first: slice(first, first_words),
        second: slice(second, second_words),
        room,
    };
    let sheets = [(first, first_words), (second, second_words)];
    answer_words(call, &sheets, (answer, room))
}

/// # Safety
/// Readable for the count.
unsafe fn slice<T: Clone>(start: *const T, count: usize) -> Vec<T> {
    std::slice::from_raw_parts(start, count).to_vec()
}

fn answer_bytes(call: Call, bytes: *const u8, count: usize) -> u64 {
    let reply = faults::reply(call);
    faults::touch(&Memory {
        reply: &reply,
        sheet: bytes,
        bytes: count,
        second: None,
        answer: None,
    });
    reply.number
}

/// # Safety
/// The answer is writable for its room.
unsafe fn answer_words(
    call: Call,
    sheets: &[(*const u32, usize)],
    (answer, room): (*mut u32, usize),
) -> u64 {
    let reply = faults::reply(call);
    let bytes = |&(sheet, words): &(*const u32, usize)| (sheet.cast(), 4 * words);
    let (sheet, count) = bytes(&sheets[0]);
    for (i, &word) in reply.words.iter().enumerate().take(room) {
        answer.add(i).write(word);
    }
    faults::touch(&Memory {
        reply: &reply,
        sheet,
        bytes: count,
        second: sheets.get(1).map(bytes),
        answer: Some((answer, room)),
    });
    reply.number
}
