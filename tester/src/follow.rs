//! Following one region by waiting or by one edge.

use crate::admit::admitted;
use crate::answer::{number, Answer, Refusal};
use crate::automaton::Automaton;
use crate::format::Reader;
use crate::region::{row_length, Region};
use crate::region_list::read_row;
use crate::successor::NextRows;

/// The number that stands for waiting.
pub const WAIT: u16 = 65_535;

/// Writes the next rows of `row` into `buffer`: refusals 1 to 9, 18 and 19. The
/// count is that of the rows written; a refusal leaves the buffer as it was.
pub fn follow(table: &[u8], row: &[u8], number: u16, buffer: &mut [u8]) -> Answer {
    written_rows(table, row, number, buffer).into()
}

fn written_rows(table: &[u8], row: &[u8], number: u16, buffer: &mut [u8]) -> Result<u32, Refusal> {
    let automaton = admitted(table)?;
    let mut reader = Reader::new(row);
    let region = read_row(&mut reader, &automaton)?;
    reader.end(number::LIST_LONG)?;
    if number != WAIT && usize::from(number) >= automaton.edges.len() {
        return Err(Refusal::new(number::NOT_A_NUMBER_TO_FOLLOW, 0));
    }
    let length = row_length(automaton.clocks());
    let capacity = buffer.len() / length;
    // Counting first keeps a refused buffer untouched; one row too many settles it.
    if next_rows(&automaton, region, number)
        .nth(capacity)
        .is_some()
    {
        return Err(Refusal::new(number::BUFFER_SHORT, 0));
    }
    let mut count = 0;
    for next in next_rows(&automaton, region, number) {
        let start = count * length;
        next.write(automaton.clocks(), &mut buffer[start..start + length]);
        count += 1;
    }
    Ok(count as u32)
}

/// The next rows by a number that is an edge's or `WAIT`, ascending.
pub fn next_rows(
    automaton: &Automaton,
    region: Region,
    number: u16,
) -> impl Iterator<Item = Region> {
    let edge = automaton.edges.get(usize::from(number));
    let by_edge = edge.map(|edge| NextRows::new(automaton, edge, region));
    let by_waiting = match edge {
        Some(_) => None,
        None => region.time_successor(&automaton.bounds),
    };
    by_waiting.into_iter().chain(by_edge.into_iter().flatten())
}
