//! Memory between two pages that nobody may touch, so that a read or a write
//! right before the begin of a lent file, or right behind its end, stops the
//! program at once, in code of any language and at full speed.
//!
//! For Linux on x86-64, as the archives are.

#![allow(unsafe_code)]

use crate::make::Row;
use std::cell::Cell;
use std::ffi::c_void;
use std::ptr;
use std::slice;

pub const PAGE: usize = 4_096;

extern "C" {
    fn mmap(
        address: *mut c_void,
        length: usize,
        protection: i32,
        flags: i32,
        file: i32,
        offset: i64,
    ) -> *mut c_void;
    fn mprotect(address: *mut c_void, length: usize, protection: i32) -> i32;
    fn munmap(address: *mut c_void, length: usize) -> i32;
    fn signal(number: i32, handler: usize) -> usize;
    fn write(file: i32, bytes: *const u8, length: usize) -> isize;
    fn _exit(status: i32) -> !;
}

const NOTHING: i32 = 0;
const READ_WRITE: i32 = 1 | 2;
const PRIVATE_ANONYMOUS: i32 = 0x02 | 0x20;
const FAILED: usize = usize::MAX;

/// Room for a file, with a page before and a page behind that may not be touched.
pub struct Guarded {
    mapping: *mut u8,
    room: usize,
}

impl Guarded {
    /// Room for at least so many bytes.
    pub fn new(least: usize) -> Guarded {
        let room = least.max(1).next_multiple_of(PAGE);
        let length = room + 2 * PAGE;
        // Safe: a fresh mapping, of which the inner part is made usable.
        unsafe {
            let mapping = mmap(ptr::null_mut(), length, NOTHING, PRIVATE_ANONYMOUS, -1, 0);
            assert!(mapping as usize != FAILED, "no memory");
            let mapping: *mut u8 = mapping.cast();
            let inner = mapping.add(PAGE).cast();
            assert_eq!(mprotect(inner, room, READ_WRITE), 0, "no memory");
            Guarded { mapping, room }
        }
    }

    /// The bytes from `start` of the room on.
    fn part(&mut self, start: usize, length: usize) -> &mut [u8] {
        assert!(start <= self.room && length <= self.room - start);
        // Safe: the part lies in the room, which lives as long as this and is lent once.
        unsafe { slice::from_raw_parts_mut(self.mapping.add(PAGE + start), length) }
    }

    /// A copy that ends right before the page behind. An empty one begins there.
    pub fn at_end(&mut self, file: &[u8]) -> &mut [u8] {
        let start = self.room - file.len();
        let copy = self.part(start, file.len());
        copy.copy_from_slice(file);
        copy
    }

    /// A copy that begins right behind the page before.
    pub fn at_begin(&mut self, file: &[u8]) -> &mut [u8] {
        let copy = self.part(0, file.len());
        copy.copy_from_slice(file);
        copy
    }

    /// The whole room.
    pub fn whole(&mut self) -> &mut [u8] {
        self.part(0, self.room)
    }

    /// Reads the byte right behind the room, or right before it, which stops the program.
    pub fn touch(&mut self, is_behind: bool) -> u8 {
        let at = match is_behind {
            true => PAGE + self.room,
            false => PAGE - 1,
        };
        // The one read of this file that is not safe: it is there to be stopped.
        unsafe { ptr::read_volatile(self.mapping.add(at)) }
    }
}

impl Drop for Guarded {
    fn drop(&mut self) {
        // Safe: the mapping of `new`, which nothing uses any more.
        unsafe { munmap(self.mapping.cast(), self.room + 2 * PAGE) };
    }
}

/// Bytes as records of a waiting list, which they have to be whole ones of.
pub fn as_rows(bytes: &mut [u8]) -> &mut [Row] {
    // Safe: any bytes are a record.
    let (before, rows, behind) = unsafe { bytes.align_to_mut() };
    assert!(before.is_empty() && behind.is_empty(), "no whole records");
    rows
}

thread_local! {
    /// What this thread tries, for the report of a touched page.
    static TRYING: Cell<(&'static str, u64)> = const { Cell::new(("nothing", 0)) };
}

const SEGMENTATION_FAULT: i32 = 11;

/// The exit status after a touched page.
pub const TOUCHED: i32 = 99;

/// From now on a touched page ends the program and says what was tried.
pub fn report_touched_pages() {
    let handler: extern "C" fn(i32) = touched;
    // Safe: the handler calls nothing but `write` and `_exit`.
    unsafe { signal(SEGMENTATION_FAULT, handler as *const () as usize) };
}

/// Says what this thread tries next.
pub fn trying(what: &'static str, case: u64) {
    TRYING.set((what, case));
}

extern "C" fn touched(_: i32) {
    let (what, mut case) = TRYING.get();
    let mut digits = *b"                     \n";
    let mut at = digits.len() - 1;
    loop {
        at -= 1;
        digits[at] = b'0' + (case % 10) as u8;
        case /= 10;
        if case == 0 {
            break;
        }
    }
    let texts: [&[u8]; 4] = [
        b"\na page beside a lent file was touched: ",
        what.as_bytes(),
        b" case ",
        &digits[at..],
    ];
    for text in texts {
        // Safe: may be called in a handler, and the text is whole.
        unsafe { write(2, text.as_ptr(), text.len()) };
    }
    // Safe: may be called in a handler.
    unsafe { _exit(TOUCHED) }
}
