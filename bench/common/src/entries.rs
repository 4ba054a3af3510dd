//! The C entries of the services, each in a safe function.

/// Declares the entries whose names begin with a prefix, which is empty for a library as it is, in the module where it stands: a macro, so that a program can
/// have several libraries, and calls each of them directly.
#[macro_export]
macro_rules! entries {
    ($prefix:literal) => {
        extern "C" {
            #[link_name = concat!($prefix, "sagepliers_check")]
            fn sagepliers_check(bytes: *const u8, count: usize) -> u32;
            #[link_name = concat!($prefix, "sagepliers_push")]
            fn sagepliers_push(bytes: *const u8, count: usize, point: u64) -> u64;
            #[link_name = concat!($prefix, "sagepliers_solve")]
            fn sagepliers_solve(
                sheet: *const u32,
                words: usize,
                answer: *mut u32,
                room: usize,
            ) -> u64;
            #[link_name = concat!($prefix, "sagepliers_kernel")]
            fn sagepliers_kernel(
                sheet: *const u32,
                words: usize,
                answer: *mut u32,
                room: usize,
            ) -> u64;
        }

        pub fn check(bytes: &[u8]) -> u32 {
            // SAFETY: the slice is readable for its length.
            unsafe { sagepliers_check(bytes.as_ptr(), bytes.len()) }
        }

        pub fn push(bytes: &[u8], point: u64) -> u64 {
            // SAFETY: as for check.
            unsafe { sagepliers_push(bytes.as_ptr(), bytes.len(), point) }
        }

        pub fn solve(sheet: &[u32], answer: &mut [u32]) -> u64 {
            // SAFETY: the two slices do not overlap, one is readable, one writable.
            unsafe {
                sagepliers_solve(
                    sheet.as_ptr(),
                    sheet.len(),
                    answer.as_mut_ptr(),
                    answer.len(),
                )
            }
        }

        pub fn kernel(sheet: &[u32], answer: &mut [u32]) -> u64 {
            // SAFETY: as for solve.
            unsafe {
                sagepliers_kernel(
                    sheet.as_ptr(),
                    sheet.len(),
                    answer.as_mut_ptr(),
                    answer.len(),
                )
            }
        }
    };
}
