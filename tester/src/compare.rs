//! One case to both sides: the answer of the linked checker beside that of the rules.
//!
//! The checker is lent copies in heap allocations of exactly their length, so
//! that a tool that watches the heap sees every read past an end. After the
//! call no byte of them may have changed.

use crate::answer::{hex, Answer};
use crate::library;
#[cfg(feature = "making")]
use crate::make::Row;
use crate::tally::{Position, Tally};
use crate::{check_regions, check_run};
use std::fmt;

/// An answer on which both sides agree; number 0 is acceptance with a count.
#[derive(Clone, Copy, Debug, PartialEq, Eq)]
pub struct Met {
    pub number: u8,
    /// The place of a refusal, else the count.
    pub place: u32,
    pub position: Position,
}

impl Met {
    /// The packed answer.
    pub fn packed(&self) -> u32 {
        u32::from(self.number) << 16 | self.place
    }
}

/// The answer, or the report of a case on which the sides differ.
pub type Compared = Result<Met, String>;

/// The files of a case; admission has no second one.
struct Files<'case> {
    table: &'case [u8],
    second: &'case [u8],
}

/// Copies to lend.
struct Lent {
    table: Box<[u8]>,
    second: Box<[u8]>,
}

impl Files<'_> {
    fn lend(&self) -> Lent {
        Lent {
            table: self.table.into(),
            second: self.second.into(),
        }
    }

    /// The agreed answer, or the report.
    fn judge(&self, lent: &Lent, packed: u32, rules: Answer) -> Compared {
        self.intact(lent)?;
        if packed != rules.packed() {
            let answer = Answer::unpacked(packed);
            return Err(format!(
                "{self}: the checker answers {answer:?} ({packed:#x}), the rules {rules:?}"
            ));
        }
        Ok(self.met(rules))
    }

    fn intact(&self, lent: &Lent) -> Result<(), String> {
        match *lent.table == *self.table && *lent.second == *self.second {
            true => Ok(()),
            false => Err(format!("{self}: the checker changed a lent file")),
        }
    }

    fn met(&self, answer: Answer) -> Met {
        let (number, place) = match answer {
            Answer::Accepted(count) => (0, count),
            Answer::Refused { number, place } => (number, place.into()),
        };
        Met {
            number,
            place,
            position: Position::of(number, place as u16, self.table, self.second),
        }
    }
}

/// Longer files are shown in part.
const SHOWN: usize = 1 << 16;

impl fmt::Display for Files<'_> {
    fn fmt(&self, out: &mut fmt::Formatter) -> fmt::Result {
        for (name, file) in [("table", self.table), ("second file", self.second)] {
            let shown = &file[..file.len().min(SHOWN)];
            write!(out, "{name} of {} bytes {} ", file.len(), hex(shown))?;
        }
        Ok(())
    }
}

/// Admission on both sides.
pub fn admit(table: &[u8]) -> Compared {
    let files = Files { table, second: &[] };
    let mut lent = files.lend();
    let packed = library::admit(&mut lent.table);
    files.judge(&lent, packed, crate::admit(table))
}

/// The check of a run list on both sides.
pub fn run(table: &[u8], list: &[u8]) -> Compared {
    let second = list;
    let files = Files { table, second };
    let mut lent = files.lend();
    let packed = library::check_run(&mut lent.table, &mut lent.second);
    files.judge(&lent, packed, check_run(table, list))
}

/// The check of a region list on both sides.
pub fn regions(table: &[u8], list: &[u8]) -> Compared {
    let second = list;
    let files = Files { table, second };
    let mut lent = files.lend();
    let packed = library::check_regions(&mut lent.table, &mut lent.second);
    files.judge(&lent, packed, check_regions(table, list))
}

/// Items before and behind what is lent.
#[cfg(any(feature = "following", feature = "making"))]
const FENCE: usize = 32;

/// A buffer, or a waiting list, to lend with others of its items before and behind it, to see
/// what is written outside.
#[cfg(any(feature = "following", feature = "making"))]
#[derive(Clone, Debug, PartialEq, Eq)]
pub struct Fenced<Item = u8>(Vec<Item>);

#[cfg(any(feature = "following", feature = "making"))]
impl Fenced {
    pub fn new(buffer: &[u8]) -> Self {
        Fenced([&[0x5A; FENCE], buffer, &[0xA5; FENCE]].concat())
    }
}

#[cfg(feature = "making")]
impl Fenced<Row> {
    pub fn of_rows(rows: &[Row]) -> Self {
        let row = |byte: u8| Row {
            location: byte,
            intervals: [u16::from_be_bytes([byte; 2]); 4],
            ranks: [byte; 4],
        };
        Fenced([&[row(0x5A); FENCE], rows, &[row(0xA5); FENCE]].concat())
    }
}

#[cfg(any(feature = "following", feature = "making"))]
impl<Item: PartialEq> Fenced<Item> {
    pub fn inside(&mut self) -> &mut [Item] {
        let end = self.0.len() - FENCE;
        &mut self.0[FENCE..end]
    }

    /// Where the two differ, counted from the begin of what is lent.
    fn difference(&self, other: &Fenced<Item>) -> Option<i64> {
        let at = self.0.iter().zip(&other.0).position(|(a, b)| a != b)?;
        Some(at as i64 - FENCE as i64)
    }
}

/// Following on both sides, from the same bytes in the buffer: the answer and
/// every byte of it afterwards.
#[cfg(feature = "following")]
pub fn follow(table: &[u8], row: &[u8], number: u16, buffer: &[u8]) -> Compared {
    let second = row;
    let files = Files { table, second };
    let mut lent = files.lend();
    let mut filled = Fenced::new(buffer);
    let (lent_table, lent_row) = (&mut lent.table, &mut lent.second);
    let answer = library::follow(lent_table, lent_row, number, filled.inside());
    let mut expected = Fenced::new(buffer);
    let rules = crate::follow(table, row, number, expected.inside());
    files.intact(&lent)?;
    let case = || format!("{files}number {number} buffer {}", hex(buffer));
    if answer != wide(rules) {
        return Err(format!(
            "{}: the checker answers {answer:#x}, the rules {rules:?} ({:#x})",
            case(),
            wide(rules)
        ));
    }
    match filled.difference(&expected) {
        None => Ok(files.met(rules)),
        Some(at) => Err(format!(
            "{}: both answer {rules:?}, but differ at byte {at}: the checker leaves {}, the rules {}",
            case(),
            hex(filled.inside()),
            hex(expected.inside())
        )),
    }
}

/// Making on both sides, from the same bytes in the buffer and the same waiting list: the answer,
/// and every byte and every record of them afterwards.
#[cfg(feature = "making")]
pub fn make(table: &[u8], buffer: &[u8], waiting: &[Row]) -> Compared {
    let files = Files { table, second: &[] };
    let mut lent = files.lend();
    let (mut filled, mut used) = (Fenced::new(buffer), Fenced::of_rows(waiting));
    let packed = library::make_list(&mut lent.table, filled.inside(), used.inside());
    let (mut expected, mut cleared) = (Fenced::new(buffer), Fenced::of_rows(waiting));
    let rules = crate::make_list(table, expected.inside(), cleared.inside());
    let met = files.judge(&lent, packed, rules);
    let (length, records) = (buffer.len(), waiting.len());
    let lent = format!("buffer of {length} bytes, {records} records");
    let met = met.map_err(|report| format!("{lent}: {report}"))?;
    if let Some(at) = filled.difference(&expected) {
        let (filled, expected) = (hex(filled.inside()), hex(expected.inside()));
        return Err(format!(
            "{files}{lent}: both answer {rules:?}, but the buffers differ at byte {at}: the checker leaves {filled}, the rules {expected}"
        ));
    }
    if let Some(at) = used.difference(&cleared) {
        let found = used.0.get((at + FENCE as i64) as usize);
        return Err(format!(
            "{files}{lent}: both answer {rules:?}, but of the waiting list the checker leaves at {at} {found:?}"
        ));
    }
    Ok(met)
}

/// The form of an answer that following has.
#[cfg(feature = "following")]
pub fn wide(answer: Answer) -> u64 {
    match answer {
        Answer::Accepted(count) => count.into(),
        refused => library::REFUSED | u64::from(refused.packed()),
    }
}

/// Compares case after case of one test and counts the answers; the first
/// difference ends the test.
pub struct Comparer {
    test: &'static str,
    pub tally: Tally,
}

impl Comparer {
    pub fn new(test: &'static str) -> Self {
        let tally = Tally::default();
        Comparer { test, tally }
    }

    pub fn admit(&mut self, case: fmt::Arguments, table: &[u8]) -> Met {
        self.note(case, admit(table))
    }

    pub fn run(&mut self, case: fmt::Arguments, table: &[u8], list: &[u8]) -> Met {
        self.note(case, run(table, list))
    }

    pub fn regions(&mut self, case: fmt::Arguments, table: &[u8], list: &[u8]) -> Met {
        self.note(case, regions(table, list))
    }

    #[cfg(feature = "following")]
    pub fn follow(
        &mut self,
        case: fmt::Arguments,
        table: &[u8],
        row: &[u8],
        number: u16,
        buffer: &[u8],
    ) -> Met {
        self.note(case, follow(table, row, number, buffer))
    }

    #[cfg(feature = "making")]
    pub fn make(
        &mut self,
        case: fmt::Arguments,
        table: &[u8],
        buffer: &[u8],
        waiting: &[Row],
    ) -> Met {
        self.note(case, make(table, buffer, waiting))
    }

    fn note(&mut self, case: fmt::Arguments, compared: Compared) -> Met {
        match compared {
            Ok(met) => {
                self.tally.count(met.number, met.position);
                met
            }
            Err(report) => panic!("{}: {case}: {report}", self.test),
        }
    }

    /// Prints the counts; each of the numbers has to have come.
    pub fn finish(&self, numbers: &[u8]) {
        println!("{}\n{}", self.test, self.tally);
        let missing = self.tally.missing(numbers);
        assert!(missing.is_empty(), "{}: never {missing:?}", self.test);
    }

    /// The same, and each of some numbers at the first, a middle and the last place.
    pub fn finish_with_positions(&self, numbers: &[u8], everywhere: &[u8]) {
        self.finish(numbers);
        for number in everywhere {
            for position in Position::ALL {
                let times = self.tally.of(*number, position);
                assert!(times > 0, "{}: {number} never {position:?}", self.test);
            }
        }
    }
}
