//! The C entries of the library, each wrapped in a safe function. The
//! declarations are those of the library's C header; nothing checks them but
//! the comparisons themselves.

extern "C" {
    fn sagepliers_check(bytes: *const u8, count: usize) -> u32;
    fn sagepliers_push(bytes: *const u8, count: usize, point: u64) -> u64;
    fn sagepliers_solve(sheet: *const u32, words: usize, answer: *mut u32, room: usize) -> u64;
    fn sagepliers_kernel(sheet: *const u32, words: usize, answer: *mut u32, room: usize) -> u64;
    fn sagepliers_name(p: u32, a: u32, b: u32) -> u64;
    fn sagepliers_compose(
        first: *const u32,
        first_words: usize,
        second: *const u32,
        second_words: usize,
        answer: *mut u32,
        room: usize,
    ) -> u64;
}

/// 0, or the number of the first "no".
pub fn check(bytes: &[u8]) -> u32 {
    // SAFETY: the slice is readable for its length and the entry only reads it.
    unsafe { sagepliers_check(bytes.as_ptr(), bytes.len()) }
}

/// The image's number, or 2^57 plus the number of the first "no".
pub fn push(bytes: &[u8], point: u64) -> u64 {
    // SAFETY: as for check.
    unsafe { sagepliers_push(bytes.as_ptr(), bytes.len(), point) }
}

/// The count of words written, or 2^57 plus the number of the first "no".
pub fn solve(sheet: &[u32], answer: &mut [u32]) -> u64 {
    let (words, room) = (sheet.len(), answer.len());
    // SAFETY: the two slices do not overlap, one is readable, one writable.
    unsafe { sagepliers_solve(sheet.as_ptr(), words, answer.as_mut_ptr(), room) }
}

/// As solve.
pub fn kernel(sheet: &[u32], answer: &mut [u32]) -> u64 {
    let (words, room) = (sheet.len(), answer.len());
    // SAFETY: as for solve.
    unsafe { sagepliers_kernel(sheet.as_ptr(), words, answer.as_mut_ptr(), room) }
}

/// The j-value, or 2^57 plus the number of the first "no".
pub fn name(p: u32, a: u32, b: u32) -> u64 {
    // SAFETY: numbers only.
    unsafe { sagepliers_name(p, a, b) }
}

/// The count of words written, or 2^57 plus the number of the first "no". The two sheets
/// may be one and the same.
pub fn compose(first: &[u32], second: &[u32], answer: &mut [u32]) -> u64 {
    let (room, start) = (answer.len(), answer.as_mut_ptr());
    // SAFETY: the answer overlaps neither sheet and is writable, the sheets are readable.
    unsafe {
        sagepliers_compose(
            first.as_ptr(),
            first.len(),
            second.as_ptr(),
            second.len(),
            start,
            room,
        )
    }
}
