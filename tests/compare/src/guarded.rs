//! Memory between two inaccessible pages. A slice that ends or starts flush
//! against such a page turns any access outside it into a fault.
//! Assumes Linux with pages of at most 64 KiB.

use std::ffi::c_void;

extern "C" {
    fn mmap(
        address: *mut c_void,
        length: usize,
        protection: i32,
        flags: i32,
        file: i32,
        offset: i64,
    ) -> *mut c_void;
    fn mprotect(address: *mut c_void, length: usize, protection: i32) -> i32;
    fn munmap(address: *mut c_void, length: usize) -> i32;
}

const PROT_NONE: i32 = 0;
const PROT_READ: i32 = 1;
const PROT_READ_WRITE: i32 = PROT_READ | 2;
const MAP_PRIVATE_ANONYMOUS: i32 = 0x02 | 0x20;

/// A multiple of every page size that is met in practice.
const GUARD: usize = 1 << 16;

/// Where in its memory a slice lies.
#[derive(Clone, Copy, Debug, PartialEq, Eq)]
pub enum Side {
    /// Its end meets the guard behind.
    End,
    /// Its start meets the guard in front.
    Start,
    /// So many bytes after the start, to test odd addresses.
    Offset(usize),
}

pub struct Guarded {
    base: *mut u8,
    size: usize,
}

impl Guarded {
    /// Room for at least so many bytes.
    pub fn new(bytes: usize) -> Guarded {
        let size = bytes.next_multiple_of(GUARD);
        let whole = size + 2 * GUARD;
        // SAFETY: a fresh mapping, of which only the middle becomes accessible.
        let base = unsafe {
            let start = mmap(
                std::ptr::null_mut(),
                whole,
                PROT_NONE,
                MAP_PRIVATE_ANONYMOUS,
                -1,
                0,
            );
            assert!(start as isize != -1, "mmap failed");
            start.cast::<u8>().add(GUARD)
        };
        let guarded = Guarded { base, size };
        guarded.protect(PROT_READ_WRITE);
        guarded
    }

    fn protect(&self, protection: i32) {
        // SAFETY: exactly the middle of the mapping, which stays readable from now on.
        let done = unsafe { mprotect(self.base.cast(), self.size, protection) };
        assert_eq!(done, 0, "mprotect failed");
    }

    /// Lends a sheet, and says whether it was changed. If it is frozen, nobody can write to
    /// it, so that a write faults even if what was there is put back.
    pub fn lend<T>(
        &mut self,
        (side, frozen): (Side, bool),
        sheet: &[u32],
        run: impl FnOnce(&[u32]) -> T,
    ) -> (T, bool) {
        self.words(side, sheet.len()).copy_from_slice(sheet);
        if frozen {
            self.protect(PROT_READ);
        }
        let result = run(self.words(side, sheet.len()));
        let changed = self.words(side, sheet.len()) != sheet;
        if frozen {
            self.protect(PROT_READ_WRITE);
        }
        (result, changed)
    }

    fn offset(&self, side: Side, count: usize) -> usize {
        let room = self.size.checked_sub(count).expect("slice too long");
        match side {
            Side::End => room,
            Side::Start => 0,
            Side::Offset(bytes) => bytes.min(room),
        }
    }

    pub fn bytes(&mut self, side: Side, count: usize) -> &mut [u8] {
        let offset = self.offset(side, count);
        // SAFETY: offset + count <= size, mapped and initialised to 0.
        unsafe { std::slice::from_raw_parts_mut(self.base.add(offset), count) }
    }

    /// Words; the side must be one that keeps them aligned.
    pub fn words(&mut self, side: Side, count: usize) -> &mut [u32] {
        let offset = self.offset(side, 4 * count);
        assert_eq!(offset % 4, 0);
        // SAFETY: as for bytes; base is page aligned and the offset is whole words.
        unsafe { std::slice::from_raw_parts_mut(self.base.add(offset).cast(), count) }
    }
}

impl Drop for Guarded {
    fn drop(&mut self) {
        // SAFETY: exactly the mapping made by new.
        unsafe {
            munmap(self.base.sub(GUARD).cast(), self.size + 2 * GUARD);
        }
    }
}
