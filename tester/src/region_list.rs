//! Region lists: their file, and whether a list is closed.

use crate::admit::admitted;
use crate::answer::{number, Answer, Refusal};
use crate::automaton::Automaton;
use crate::format::{two_bytes, Reader};
use crate::region::{is_row, row_length, Region};
use crate::successor::NextRows;

pub const GREATEST_ROWS: u16 = 4_096;

/// Checks a region list against a table: refusals 1 to 9 and 14 to 17. The
/// count is that of the rows.
pub fn check_regions(table: &[u8], list: &[u8]) -> Answer {
    closed_rows(table, list).into()
}

/// The number of rows of a closed list. Refusal 17 is at the first row that lacks a next row.
fn closed_rows(table: &[u8], list: &[u8]) -> Result<u32, Refusal> {
    let (automaton, rows) = listed_rows(table, list)?;
    let first = lacking_places(&automaton, &rows).next();
    match first {
        Some(place) => Err(Refusal::new(number::NEXT_ROW_MISSING, place)),
        None => Ok(rows.len() as u32),
    }
}

/// All but refusal 17.
fn listed_rows(table: &[u8], list: &[u8]) -> Result<(Automaton, Vec<Region>), Refusal> {
    let automaton = admitted(table)?;
    let rows = parse_regions(&automaton, list)?;
    if let Some(index) = rows.windows(2).position(|pair| pair[1] <= pair[0]) {
        // The second row of the pair is at fault; header and counting from 0 add two.
        return Err(Refusal::new(number::ROWS_NOT_ASCENDING, index as u16 + 2));
    }
    let is_final = |row: &Region| automaton.is_final(row.location());
    if let Some(index) = rows.iter().position(is_final) {
        return Err(Refusal::new(number::ROW_FINAL, index as u16 + 1));
    }
    if rows.binary_search(&Region::initial(&automaton)).is_err() {
        return Err(Refusal::new(number::INITIAL_ROW_MISSING, 0));
    }
    Ok((automaton, rows))
}

/// The places of the rows that lack a wait row or an edge row. The rows ascend, and each is looked
/// at only when it is asked for, so that whoever asks for the first place alone goes no further.
pub fn lacking_places<'list>(
    automaton: &'list Automaton,
    rows: &'list [Region],
) -> impl Iterator<Item = u16> + 'list {
    let leaving = automaton.leaving();
    let places = (1..).zip(rows).filter(move |(_, row)| {
        let edges = &leaving[usize::from(row.location())];
        lacks_next(automaton, edges, rows, **row)
    });
    places.map(|(place, _)| place)
}

fn lacks_next(automaton: &Automaton, edges: &[usize], rows: &[Region], row: Region) -> bool {
    let wait_missing = row
        .time_successor(&automaton.bounds)
        .is_some_and(|next| rows.binary_search(&next).is_err());
    wait_missing
        || edges.iter().any(|edge| {
            let next_rows = NextRows::new(automaton, &automaton.edges[*edge], row);
            !all_listed(rows, next_rows)
        })
}

/// Both sides ascend, so each row is sought only behind the one found before,
/// most often right there.
fn all_listed(rows: &[Region], next_rows: NextRows) -> bool {
    let mut rest = rows;
    for next in next_rows {
        let index = match rest.first() {
            Some(row) if *row >= next => 0,
            _ => rest.partition_point(|row| *row < next),
        };
        if rest.get(index) != Some(&next) {
            return false;
        }
        rest = &rest[index + 1..];
    }
    true
}

/// Reads a region list: refusals 7 to 9.
pub fn parse_regions(automaton: &Automaton, list: &[u8]) -> Result<Vec<Region>, Refusal> {
    let mut reader = Reader::new(list);
    let cut = reader.refusal(number::LIST_CUT);
    let count = two_bytes(reader.marked(b"RL", 2).ok_or(cut)?);
    if count > GREATEST_ROWS {
        return Err(reader.refusal(number::LIST_RANGE));
    }
    reader.record_done();
    let mut rows = Vec::with_capacity(usize::from(count));
    for _ in 0..count {
        rows.push(read_row(&mut reader, automaton)?);
    }
    reader.end(number::LIST_LONG)?;
    Ok(rows)
}

/// Reads one row record: refusals 7 and 8.
pub fn read_row(reader: &mut Reader, automaton: &Automaton) -> Result<Region, Refusal> {
    let clocks = automaton.clocks();
    let cut = reader.refusal(number::LIST_CUT);
    let fields = reader.marked(b"RW", row_length(clocks) - 2).ok_or(cut)?;
    let location = fields[0];
    let (intervals, ranks) = fields[1..].split_at(clocks);
    if !is_row(automaton, location, intervals, ranks) {
        return Err(reader.refusal(number::LIST_RANGE));
    }
    reader.record_done();
    Ok(Region::new(location, intervals, ranks))
}

/// The region list file of some rows, in the order given.
pub fn encode_regions(clocks: usize, rows: &[Region]) -> Vec<u8> {
    region_records(clocks, rows).concat()
}

/// The region list file record by record.
pub fn region_records(clocks: usize, rows: &[Region]) -> Vec<Vec<u8>> {
    let mut header = b"RL".to_vec();
    header.extend((rows.len() as u16).to_be_bytes());
    let mut records = vec![header];
    records.extend(rows.iter().map(|row| row.record(clocks)));
    records
}
