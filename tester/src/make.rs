//! Making a region list from a table alone, by a plain set of rows.
//!
//! The rows that are kept are the initial one and each next row, by waiting or by an edge, of a
//! kept row, but for those in final locations. A final location is entered if the initial row is
//! in one, or a next row of a kept row. Both are matters of the table alone, and whether there is
//! room for the rows is asked before whether a final location is entered.

use crate::admit::admitted;
use crate::answer::{number, Answer, Refusal};
use crate::automaton::{Automaton, Edge, Update, GREATEST_CLOCKS};
use crate::region::{row_length, Region};
use crate::region_list::GREATEST_ROWS;
use crate::successor::by_intervals::is_enabled;
use crate::successor::NextRows;
use std::collections::HashSet;
use std::hash::{BuildHasherDefault, Hasher};

/// A record of the list that is lent for the rows still waiting, as C has it: 14 bytes, of which
/// the one behind the location belongs to no field. Here it only ends all zero.
#[derive(Clone, Copy, Debug, Default, PartialEq, Eq)]
#[repr(C)]
pub struct Row {
    pub location: u8,
    pub intervals: [u16; GREATEST_CLOCKS],
    pub ranks: [u8; GREATEST_CLOCKS],
}

/// So many records the waiting list has to have.
pub const WAITING_RECORDS: usize = 4_096;

/// Bytes of a list's header.
pub const LIST_HEADER: usize = 4;

/// Writes the region list of a table into `buffer`: refusals 1 to 6, 20 and 21. The count is that
/// of the rows; later bytes stay. A refusal leaves the buffer all zero, and the waiting list is so
/// in the end whatever the answer.
pub fn make_list(table: &[u8], buffer: &mut [u8], waiting: &mut [Row]) -> Answer {
    let written = write_list(table, buffer, waiting.len());
    if written.is_err() {
        buffer.fill(0);
    }
    waiting.fill(Row::default());
    written.into()
}

/// The same without what a refusal does to the buffer, for a waiting list of so many records.
fn write_list(table: &[u8], buffer: &mut [u8], records: usize) -> Result<u32, Refusal> {
    let automaton = admitted(table)?;
    let clocks = automaton.clocks();
    let no_room = Refusal::new(number::NO_ROOM, 0);
    let most = greatest_count(clocks, buffer.len(), records).ok_or(no_room)?;
    let kept = kept_rows(&automaton, most).ok_or(no_room)?;
    if kept.enters_final {
        return Err(Refusal::new(number::FINAL_ENTERED, 0));
    }
    let count = kept.rows.len() as u16;
    let (header, rest) = buffer.split_at_mut(LIST_HEADER);
    header[..2].copy_from_slice(b"RL");
    header[2..].copy_from_slice(&count.to_be_bytes());
    let records = rest.chunks_exact_mut(row_length(clocks));
    for (row, record) in kept.rows.iter().zip(records) {
        row.write(clocks, record);
    }
    Ok(count.into())
}

/// How many rows there is room for, if there is for a list of none.
fn greatest_count(clocks: usize, length: usize, records: usize) -> Option<usize> {
    if records < WAITING_RECORDS {
        return None;
    }
    let of_rows = length.checked_sub(LIST_HEADER)?;
    let fitting = of_rows / row_length(clocks);
    Some(fitting.min(GREATEST_ROWS.into()))
}

/// Bytes of a list with so many rows.
pub fn list_length(clocks: usize, rows: usize) -> usize {
    LIST_HEADER + rows * row_length(clocks)
}

/// What a table comes to.
#[derive(Clone, Debug)]
pub struct Kept {
    /// The rows that are kept, ascending.
    pub rows: Vec<Region>,
    pub enters_final: bool,
}

/// The rows that are kept; none if they are more than `most`. That ends the search at once, as an
/// edge may lead to billions of rows. Entering a final location does not, since the rows may turn
/// out to be too many later on.
pub fn kept_rows(automaton: &Automaton, most: usize) -> Option<Kept> {
    let mut search = Search::new(automaton, most);
    if automaton.is_final(automaton.initial) {
        search.enters_final = true;
    } else {
        search.keep(Region::initial(automaton))?;
    }
    let leaving = automaton.leaving();
    let mut index = 0;
    while let Some(row) = search.rows.get(index) {
        let edges = &leaving[usize::from(row.location())];
        search.follow(*row, edges)?;
        index += 1;
    }
    search.rows.sort_unstable();
    Some(Kept {
        rows: search.rows,
        enters_final: search.enters_final,
    })
}

struct Search<'table> {
    automaton: &'table Automaton,
    most: usize,
    /// The kept rows as they were found. Those behind the one that is followed are still waiting.
    rows: Vec<Region>,
    seen: HashSet<Region, BuildHasherDefault<RowHasher>>,
    enters_final: bool,
    /// The edges that need not be followed from any other row.
    is_settled: Vec<bool>,
}

impl Search<'_> {
    fn new(automaton: &Automaton, most: usize) -> Search<'_> {
        Search {
            automaton,
            most,
            rows: Vec::new(),
            seen: HashSet::default(),
            enters_final: false,
            is_settled: vec![false; automaton.edges.len()],
        }
    }

    /// None if there is no room for one row more.
    fn keep(&mut self, row: Region) -> Option<()> {
        if self.seen.contains(&row) {
            return Some(());
        }
        if self.rows.len() == self.most {
            return None;
        }
        self.seen.insert(row);
        self.rows.push(row);
        Some(())
    }

    /// All next rows of a row that these edges leave from.
    fn follow(&mut self, row: Region, edges: &[usize]) -> Option<()> {
        if let Some(next) = row.time_successor(&self.automaton.bounds) {
            self.keep(next)?;
        }
        for number in edges {
            if !self.is_settled[*number] {
                self.follow_edge(*number, row)?;
            }
        }
        Some(())
    }

    fn follow_edge(&mut self, number: usize, row: Region) -> Option<()> {
        let edge = &self.automaton.edges[number];
        if !is_enabled(edge, row) {
            return Some(());
        }
        self.is_settled[number] = !reads_clocks(edge);
        let mut next_rows = NextRows::new(self.automaton, edge, row);
        if !self.automaton.is_final(edge.target) {
            return next_rows.try_for_each(|next| self.keep(next));
        }
        // Whether there is any row is all that counts here; there may be billions of them.
        self.enters_final |= next_rows.next().is_some();
        self.is_settled[number] |= self.enters_final;
        Some(())
    }
}

/// If it does not, an edge leads to the same rows from wherever it can be taken.
fn reads_clocks(edge: &Edge) -> bool {
    let is_constant = |update: &Update| matches!(update, Update::Constant { .. });
    !edge.updates.iter().all(is_constant)
}

/// A row is one number already, and a multiplication spreads it well enough.
#[derive(Default)]
struct RowHasher(u64);

impl Hasher for RowHasher {
    fn write(&mut self, bytes: &[u8]) {
        for byte in bytes {
            self.write_u64(u64::from(*byte));
        }
    }

    fn write_u64(&mut self, number: u64) {
        let mixed = (self.0 ^ number).wrapping_mul(0x9E37_79B9_7F4A_7C15);
        // A set looks at the upmost and at the lowest bits.
        self.0 = mixed ^ mixed >> 32;
    }

    fn finish(&self) -> u64 {
        self.0
    }
}
