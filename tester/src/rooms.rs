//! Calls of the checker with everything that it is lent beside pages that may
//! not be touched (`guarded`).

use crate::call::{Call, Input};
use crate::guarded::{as_rows, Guarded, PAGE};
use crate::library;
use crate::make::Row;
use std::hint::black_box;
use std::mem::size_of;

/// Room for the longest file of a random case.
const ROOM: usize = 1 << 17;

/// Where the lent bytes stand: from the begin of their room on, or up to its end.
#[derive(Clone, Copy, Debug, PartialEq, Eq)]
pub enum Side {
    Begin,
    End,
}

impl Side {
    pub const BOTH: [Side; 2] = [Side::Begin, Side::End];

    fn place<'room>(self, room: &'room mut Guarded, bytes: &[u8]) -> &'room mut [u8] {
        match self {
            Side::Begin => room.at_begin(bytes),
            Side::End => room.at_end(bytes),
        }
    }

    /// So many bytes of the room to be written to, and the bytes on their other side, a page of
    /// them or what there is: nothing stops a write to these, but it would be seen.
    fn place_with_fence(self, room: &mut Guarded, length: usize) -> (&mut [u8], Fence<'_>) {
        let whole = room.whole();
        let (lent, fence) = match self {
            Side::Begin => {
                let (lent, rest) = whole.split_at_mut(length);
                let end = rest.len().min(PAGE);
                (lent, &mut rest[..end])
            }
            Side::End => {
                let (rest, lent) = whole.split_at_mut(whole.len() - length);
                let start = rest.len().saturating_sub(PAGE);
                (lent, &mut rest[start..])
            }
        };
        fence.fill(FENCE);
        (lent, Fence(fence))
    }
}

const FENCE: u8 = 0x5A;

/// Bytes that have to stay.
struct Fence<'room>(&'room [u8]);

impl Fence<'_> {
    fn is_intact(&self) -> bool {
        // The compiler is not to take it for granted.
        black_box(self.0).iter().all(|byte| *byte == FENCE)
    }
}

/// A room for each thing that is lent.
pub struct Rooms {
    table: Guarded,
    second: Guarded,
    buffer: Guarded,
    waiting: Guarded,
}

/// What a call came to.
pub struct Outcome<'rooms> {
    /// The packed answer, or following's.
    pub answer: u64,
    /// No byte of a file has changed, nor one beside the buffer or the waiting list.
    pub is_intact: bool,
    /// The bytes of the buffer of following or making.
    pub buffer: &'rooms [u8],
    /// The records of making's waiting list.
    pub waiting: &'rooms [Row],
}

impl Default for Rooms {
    fn default() -> Self {
        let room = || Guarded::new(ROOM);
        Rooms {
            table: room(),
            second: room(),
            buffer: room(),
            waiting: room(),
        }
    }
}

impl Rooms {
    pub fn call(&mut self, side: Side, input: &Input) -> Outcome<'_> {
        let table = side.place(&mut self.table, &input.table);
        let second = side.place(&mut self.second, &input.second);
        let (buffer, beside_buffer) = side.place_with_fence(&mut self.buffer, input.buffer.len());
        buffer.copy_from_slice(&input.buffer);
        let length = input.waiting.records * size_of::<Row>();
        let (waiting, beside_waiting) = side.place_with_fence(&mut self.waiting, length);
        let waiting = as_rows(waiting);
        waiting.copy_from_slice(&input.waiting.rows());
        let answer = match input.call {
            Call::Admission => library::admit(table).into(),
            Call::Run => library::check_run(table, second).into(),
            Call::Regions => library::check_regions(table, second).into(),
            Call::Following => follow(table, second, input.number, buffer),
            Call::Making => make_list(table, buffer, waiting).into(),
        };
        let are_files_intact = *table == *input.table && *second == *input.second;
        Outcome {
            answer,
            is_intact: are_files_intact && beside_buffer.is_intact() && beside_waiting.is_intact(),
            buffer,
            waiting,
        }
    }
}

#[cfg(feature = "following")]
use library::follow;

#[cfg(not(feature = "following"))]
fn follow(_: &mut [u8], _: &mut [u8], _: u16, _: &mut [u8]) -> u64 {
    panic!("this tester was built without the feature following")
}

#[cfg(feature = "making")]
use library::make_list;

#[cfg(not(feature = "making"))]
fn make_list(_: &mut [u8], _: &mut [u8], _: &mut [Row]) -> u32 {
    panic!("this tester was built without the feature making")
}
