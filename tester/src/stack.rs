//! How much stack a call of the checker uses: it is made on a stack of its own,
//! filled with a pattern, with a page below that may not be touched. What the
//! pattern has lost afterwards is what was used.
//!
//! For x86-64, as the archives are.

#![allow(unsafe_code)]

use crate::guarded::Guarded;
use crate::library::Function;
use crate::make::Row;
use std::arch::asm;

const PATTERN: u8 = 0xC5;

/// A stack of its own.
pub struct Stack {
    room: Guarded,
}

impl Stack {
    /// A stack of at least so many bytes.
    pub fn new(least: usize) -> Stack {
        let mut room = Guarded::new(least);
        room.whole().fill(PATTERN);
        Stack { room }
    }

    /// The answer of a call on this stack, and the bytes that it used, its return address included.
    pub fn call(&mut self, function: Function, table: &mut [u8], list: &mut [u8]) -> (u32, usize) {
        self.call_with_waiting(function, table, list, &mut [])
    }

    /// The same with a waiting list, which the functions that take none do not look at.
    pub fn call_with_waiting(
        &mut self,
        function: Function,
        table: &mut [u8],
        list: &mut [u8],
        waiting: &mut [Row],
    ) -> (u32, usize) {
        let stack = self.room.whole();
        let top = stack.as_mut_ptr_range().end as usize;
        // Safe: the functions take these lengths and pointers, which are borrowed here, the top is
        // aligned as calls have it, and a stack that is too short stops the program.
        let answer = unsafe { call_on(top, function, table, list, waiting) };
        let untouched = stack.iter().take_while(|byte| **byte == PATTERN).count();
        stack[untouched..].fill(PATTERN);
        (answer, stack.len() - untouched)
    }
}

/// Calls with another stack pointer. `r12` is one of the registers that a call leaves as they were.
unsafe fn call_on(
    top: usize,
    function: Function,
    table: &mut [u8],
    list: &mut [u8],
    waiting: &mut [Row],
) -> u32 {
    let answer: u32;
    asm!(
        "mov r12, rsp",
        "mov rsp, {top}",
        "call {function}",
        "mov rsp, r12",
        top = in(reg) top,
        function = in(reg) function.address(),
        inout("rdi") table.as_mut_ptr() => _,
        inout("rsi") table.len() => _,
        inout("rdx") list.as_mut_ptr() => _,
        inout("rcx") list.len() => _,
        inout("r8") waiting.as_mut_ptr() => _,
        inout("r9") waiting.len() => _,
        out("eax") answer,
        out("r12") _,
        clobber_abi("C"),
    );
    answer
}
