//! Records of a file, and the table file in both directions.

use crate::answer::{number, Refusal};
use crate::automaton::*;

/// A file read record by record. `place` is the number of the record being read.
pub struct Reader<'file> {
    rest: &'file [u8],
    place: u16,
}

impl<'file> Reader<'file> {
    pub fn new(file: &'file [u8]) -> Self {
        Reader {
            rest: file,
            place: 0,
        }
    }

    pub fn place(&self) -> u16 {
        self.place
    }

    /// The next bytes of the present record, if the file has all of them.
    pub fn due(&mut self, length: usize) -> Option<&'file [u8]> {
        if self.rest.len() < length {
            return None;
        }
        let (bytes, rest) = self.rest.split_at(length);
        self.rest = rest;
        Some(bytes)
    }

    /// The fields behind a mark; none if bytes are missing or the mark is another.
    pub fn marked(&mut self, mark: &[u8; 2], fields: usize) -> Option<&'file [u8]> {
        let bytes = self.due(2 + fields)?;
        bytes.strip_prefix(mark.as_slice())
    }

    pub fn record_done(&mut self) {
        self.place += 1;
    }

    pub fn refusal(&self, number: u8) -> Refusal {
        Refusal::new(number, self.place)
    }

    /// Refuses with `number` if bytes are left; the place is the count of records read.
    pub fn end(&self, number: u8) -> Result<(), Refusal> {
        if self.rest.is_empty() {
            Ok(())
        } else {
            Err(self.refusal(number))
        }
    }
}

pub fn two_bytes(bytes: &[u8]) -> u16 {
    u16::from_be_bytes([bytes[0], bytes[1]])
}

pub fn four_bytes(bytes: &[u8]) -> u32 {
    u32::from_be_bytes([bytes[0], bytes[1], bytes[2], bytes[3]])
}

/// Reads a table: refusals 1 to 4. The bound rules (5, 6) are `admit`'s.
pub fn parse_table(table: &[u8]) -> Result<Automaton, Refusal> {
    let mut reader = Reader::new(table);
    let header = read_header(&mut reader)?;
    let clocks = header.bounds.len();
    let mut automaton = Automaton {
        initial: header.initial,
        bounds: header.bounds,
        locations: Vec::with_capacity(header.locations),
        edges: Vec::with_capacity(header.edges),
    };
    for _ in 0..header.locations {
        automaton.locations.push(read_location(&mut reader)?);
    }
    for _ in 0..header.edges {
        let edge = read_edge(&mut reader, clocks, header.locations)?;
        automaton.edges.push(edge);
    }
    reader.end(number::TABLE_LONG)?;
    Ok(automaton)
}

struct Header {
    initial: u8,
    locations: usize,
    edges: usize,
    bounds: Vec<u8>,
}

fn read_header(reader: &mut Reader) -> Result<Header, Refusal> {
    let cut = reader.refusal(number::TABLE_CUT);
    let wrong = reader.refusal(number::HEADER_RANGE);
    let fields = reader.marked(b"TA", 5).ok_or(cut)?;
    let (clocks, locations, initial) = (fields[0], fields[1], fields[2]);
    let edges = usize::from(two_bytes(&fields[3..5]));
    let in_range = (1..=GREATEST_CLOCKS).contains(&usize::from(clocks))
        && (1..=GREATEST_LOCATIONS).contains(&usize::from(locations))
        && initial < locations
        && edges <= GREATEST_EDGES;
    if !in_range {
        return Err(wrong);
    }
    // Only now is the number of bounds known to be one, so only now are they due.
    let bounds = reader.due(usize::from(clocks)).ok_or(cut)?;
    if bounds.iter().any(|bound| *bound > GREATEST_BOUND) {
        return Err(wrong);
    }
    reader.record_done();
    Ok(Header {
        initial,
        locations: usize::from(locations),
        edges,
        bounds: bounds.to_vec(),
    })
}

fn read_location(reader: &mut Reader) -> Result<Location, Refusal> {
    let cut = reader.refusal(number::TABLE_CUT);
    let flags = reader.marked(b"LO", 1).ok_or(cut)?[0];
    if flags > 3 {
        return Err(reader.refusal(number::TABLE_RANGE));
    }
    reader.record_done();
    Ok(Location {
        is_final: flags & 1 != 0,
        is_brief: flags & 2 != 0,
    })
}

fn read_edge(reader: &mut Reader, clocks: usize, locations: usize) -> Result<Edge, Refusal> {
    let cut = reader.refusal(number::TABLE_CUT);
    let wrong = reader.refusal(number::TABLE_RANGE);
    let fields = reader.marked(b"ED", 3).ok_or(cut)?;
    let (source, target, count) = (fields[0], fields[1], usize::from(fields[2]));
    let located = usize::from(source) < locations && usize::from(target) < locations;
    if !located || count > GREATEST_GUARDS {
        return Err(wrong);
    }
    // Guards and updates fall due together, so a bad guard is not met while an
    // update behind it is cut.
    let rest = reader.due(3 * count + 5 * clocks).ok_or(cut)?;
    let (guard_bytes, update_bytes) = rest.split_at(3 * count);
    let guards: Option<Vec<Guard>> = guard_bytes
        .chunks_exact(3)
        .map(|bytes| guard_from(bytes, clocks))
        .collect();
    let updates: Option<Vec<Update>> = update_bytes
        .chunks_exact(5)
        .map(|bytes| update_from(bytes, clocks))
        .collect();
    let edge = Edge {
        source,
        target,
        guards: guards.ok_or(wrong)?,
        updates: updates.ok_or(wrong)?,
    };
    reader.record_done();
    Ok(edge)
}

fn guard_from(bytes: &[u8], clocks: usize) -> Option<Guard> {
    let comparison = Comparison::from_byte(bytes[1])?;
    let (clock, constant) = (bytes[0], bytes[2]);
    let in_range = usize::from(clock) < clocks && constant <= GREATEST_BOUND;
    in_range.then_some(Guard {
        clock,
        comparison,
        constant,
    })
}

fn update_from(bytes: &[u8], clocks: usize) -> Option<Update> {
    let clock = bytes[2];
    let offset = two_bytes(&bytes[3..5]) as i16;
    match bytes[0] {
        0 => bytes[1..]
            .iter()
            .all(|byte| *byte == 0)
            .then_some(Update::Keep),
        1 => {
            let comparison = Comparison::from_byte(bytes[1])?;
            (clock == 0 && (0..=127).contains(&offset)).then_some(Update::Constant {
                comparison,
                constant: offset as u8,
            })
        }
        2 => {
            let comparison = Comparison::from_byte(bytes[1])?;
            (usize::from(clock) < clocks && (-127..=127).contains(&offset)).then_some(
                Update::Clock {
                    comparison,
                    clock,
                    offset,
                },
            )
        }
        _ => None,
    }
}

/// The table file of an automaton.
pub fn encode_table(automaton: &Automaton) -> Vec<u8> {
    table_records(automaton).concat()
}

/// The table file record by record, for cases that spoil one record.
pub fn table_records(automaton: &Automaton) -> Vec<Vec<u8>> {
    let mut records = vec![header_record(automaton)];
    for location in &automaton.locations {
        let flags = u8::from(location.is_final) | u8::from(location.is_brief) << 1;
        records.push(vec![b'L', b'O', flags]);
    }
    records.extend(automaton.edges.iter().map(edge_record));
    records
}

fn header_record(automaton: &Automaton) -> Vec<u8> {
    let mut record = b"TA".to_vec();
    record.push(automaton.clocks() as u8);
    record.push(automaton.locations.len() as u8);
    record.push(automaton.initial);
    record.extend((automaton.edges.len() as u16).to_be_bytes());
    record.extend(&automaton.bounds);
    record
}

fn edge_record(edge: &Edge) -> Vec<u8> {
    let mut record = b"ED".to_vec();
    record.extend([edge.source, edge.target, edge.guards.len() as u8]);
    for guard in &edge.guards {
        record.extend([guard.clock, guard.comparison.byte(), guard.constant]);
    }
    for update in &edge.updates {
        record.extend(update_bytes(*update));
    }
    record
}

fn update_bytes(update: Update) -> [u8; 5] {
    match update {
        Update::Keep => [0; 5],
        Update::Constant {
            comparison,
            constant,
        } => [1, comparison.byte(), 0, 0, constant],
        Update::Clock {
            comparison,
            clock,
            offset,
        } => {
            let [high, low] = offset.to_be_bytes();
            [2, comparison.byte(), clock, high, low]
        }
    }
}
