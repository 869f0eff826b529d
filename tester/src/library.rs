//! The proved checker, linked from its archives, behind safe functions on bytes.
//!
//! All unsafe code of the tester is here, in `guarded`, `stack` and `cpu_time`.
//! Everything is lent mutably, even what the checker may only read: a checker
//! that wrote there would then be found by a comparison, and no promise made to
//! the compiler would be broken.
//!
//! `build.rs` finds the archives. Where one is not there, tests that need it
//! fail to build (`needs_checker!`, `needs_probe!`), and a program that calls
//! it says so and stops.

#![allow(unsafe_code)]

#[cfg(feature = "making")]
use crate::make::Row;

/// Fails the build of the test that says this if libhost_calls.a is not there.
#[macro_export]
macro_rules! needs_checker {
    () => {
        #[cfg(not(host_calls_archive))]
        compile_error!(concat!(
            "libhost_calls.a is not in ",
            env!("TZELMARUF_HOST_CALLS"),
            ": build it there first, or name its folder by TZELMARUF_LIBRARY"
        ));
    };
}

/// Fails the build of the test that says this if libprobe.a is not there.
#[macro_export]
macro_rules! needs_probe {
    () => {
        #[cfg(not(probe_archive))]
        compile_error!(concat!(
            "libprobe.a is not in ",
            env!("TZELMARUF_PROBE"),
            ": build it there first, or name its folder by TZELMARUF_LIBRARY"
        ));
    };
}

/// Declares the functions of an archive; without it, ones that only say what is missing.
macro_rules! functions_of {
    ($archive:literal in $folder:literal, $present:ident: $(
        fn $name:ident($($parameter:ident: $kind:ty),* $(,)?) -> $answer:ty;
    )*) => {
        #[cfg($present)]
        extern "C" {
            $(fn $name($($parameter: $kind),*) -> $answer;)*
        }
        $(
            #[cfg(not($present))]
            unsafe fn $name($(_: $kind),*) -> $answer {
                panic!("{} was not in {}", $archive, env!($folder))
            }
        )*
    };
}

functions_of! { "libhost_calls.a" in "TZELMARUF_HOST_CALLS", host_calls_archive:
    fn tzelmaruf_admit(table: *const u8, table_length: usize) -> u32;
    fn tzelmaruf_check_run(
        table: *const u8,
        table_length: usize,
        list: *const u8,
        list_length: usize,
    ) -> u32;
    fn tzelmaruf_check_regions(
        table: *const u8,
        table_length: usize,
        list: *const u8,
        list_length: usize,
    ) -> u32;
}

#[cfg(feature = "making")]
functions_of! { "libhost_calls.a" in "TZELMARUF_HOST_CALLS", host_calls_archive:
    fn tzelmaruf_make_list(
        table: *const u8,
        table_length: usize,
        buffer: *mut u8,
        buffer_length: usize,
        waiting: *mut Row,
        waiting_count: usize,
    ) -> u32;
}

#[cfg(feature = "following")]
functions_of! { "libprobe.a" in "TZELMARUF_PROBE", probe_archive:
    fn tzelmaruf_follow(
        table: *const u8,
        table_length: usize,
        row: *const u8,
        row_length: usize,
        number: u16,
        buffer: *mut u8,
        buffer_length: usize,
    ) -> u64;
}

// Why the calls below are safe: each pointer and length come from a slice that
// is borrowed for the whole call, the checker keeps no pointer, and any bytes
// and any rows are a legal input.

/// Admission: the packed answer.
pub fn admit(table: &mut [u8]) -> u32 {
    unsafe { tzelmaruf_admit(table.as_mut_ptr(), table.len()) }
}

/// The check of a run list: the packed answer.
pub fn check_run(table: &mut [u8], list: &mut [u8]) -> u32 {
    let (table_length, list_length) = (table.len(), list.len());
    unsafe {
        tzelmaruf_check_run(
            table.as_mut_ptr(),
            table_length,
            list.as_mut_ptr(),
            list_length,
        )
    }
}

/// The check of a region list: the packed answer.
pub fn check_regions(table: &mut [u8], list: &mut [u8]) -> u32 {
    let (table_length, list_length) = (table.len(), list.len());
    unsafe {
        tzelmaruf_check_regions(
            table.as_mut_ptr(),
            table_length,
            list.as_mut_ptr(),
            list_length,
        )
    }
}

/// Making a region list: the packed answer.
#[cfg(feature = "making")]
pub fn make_list(table: &mut [u8], buffer: &mut [u8], waiting: &mut [Row]) -> u32 {
    let (table_length, buffer_length) = (table.len(), buffer.len());
    let waiting_count = waiting.len();
    unsafe {
        tzelmaruf_make_list(
            table.as_mut_ptr(),
            table_length,
            buffer.as_mut_ptr(),
            buffer_length,
            waiting.as_mut_ptr(),
            waiting_count,
        )
    }
}

/// One of the functions of a host program. Admission takes the table alone and makes
/// nothing of a second file, and only making takes a waiting list.
#[derive(Clone, Copy, Debug, PartialEq, Eq)]
pub enum Function {
    Admit,
    CheckRun,
    CheckRegions,
    #[cfg(feature = "making")]
    MakeList,
}

impl Function {
    pub fn name(self) -> &'static str {
        match self {
            Function::Admit => "tzelmaruf_admit",
            Function::CheckRun => "tzelmaruf_check_run",
            Function::CheckRegions => "tzelmaruf_check_regions",
            #[cfg(feature = "making")]
            Function::MakeList => "tzelmaruf_make_list",
        }
    }

    /// Where it stands, for `stack`.
    pub(crate) fn address(self) -> usize {
        match self {
            Function::Admit => tzelmaruf_admit as *const () as usize,
            Function::CheckRun => tzelmaruf_check_run as *const () as usize,
            Function::CheckRegions => tzelmaruf_check_regions as *const () as usize,
            #[cfg(feature = "making")]
            Function::MakeList => tzelmaruf_make_list as *const () as usize,
        }
    }
}

/// Following: the count, or `REFUSED` with the packed refusal.
#[cfg(feature = "following")]
pub fn follow(table: &mut [u8], row: &mut [u8], number: u16, buffer: &mut [u8]) -> u64 {
    let (table_length, row_length, buffer_length) = (table.len(), row.len(), buffer.len());
    unsafe {
        tzelmaruf_follow(
            table.as_mut_ptr(),
            table_length,
            row.as_mut_ptr(),
            row_length,
            number,
            buffer.as_mut_ptr(),
            buffer_length,
        )
    }
}

/// The bit that marks a refusal in the answer of following, whose count may
/// need more bits than a packed answer has.
pub const REFUSED: u64 = 1 << 63;
