//! Counts of answers by refusal number and by where in its file a refusal stands.

use crate::format::two_bytes;
use std::fmt;

/// The numbers each call may answer; 0 stands for acceptance.
pub const OF_ADMISSION: &[u8] = &[0, 1, 2, 3, 4, 5, 6];
pub const OF_RUNS: &[u8] = &[0, 1, 2, 3, 4, 5, 6, 7, 8, 9, 10, 11, 12, 13];
pub const OF_REGIONS: &[u8] = &[0, 1, 2, 3, 4, 5, 6, 7, 8, 9, 14, 15, 16, 17];
pub const OF_FOLLOWING: &[u8] = &[0, 1, 2, 3, 4, 5, 6, 7, 8, 9, 18, 19];
pub const OF_MAKING: &[u8] = &[0, 1, 2, 3, 4, 5, 6, 20, 21];

/// Where a refusal stands among the places it can have in the file.
#[derive(Clone, Copy, Debug, PartialEq, Eq)]
pub enum Position {
    First,
    Middle,
    Last,
}

impl Position {
    pub const ALL: [Position; 3] = [Position::First, Position::Middle, Position::Last];

    /// The position of a refusal; one that can have a single place is first.
    pub fn of(number: u8, place: u16, table: &[u8], second: &[u8]) -> Position {
        let place = u32::from(place);
        let (first, last) = match places(number, table, second) {
            Some(places) => places,
            None => return Position::First,
        };
        if place <= first {
            Position::First
        } else if place < last {
            Position::Middle
        } else {
            Position::Last
        }
    }
}

/// The first and the last place of a refusal, as the headers of the files have
/// it; none for acceptance and for refusals that have but one.
fn places(number: u8, table: &[u8], second: &[u8]) -> Option<(u32, u32)> {
    let locations = table.get(3).map_or(0, |count| u32::from(*count));
    let edges = number_at(table, 5);
    let last_of_table = locations + edges;
    let last_of_second = match second.get(..2) {
        Some(b"RN") => number_at(second, 4),
        Some(b"RL") => number_at(second, 2),
        _ => 0,
    };
    match number {
        1 => Some((0, last_of_table)),
        3 => Some((1, last_of_table)),
        5 | 6 => Some((locations + 1, last_of_table)),
        7 | 8 => Some((0, last_of_second)),
        10..=12 | 15 | 17 => Some((1, last_of_second)),
        14 => Some((2, last_of_second)),
        _ => None,
    }
}

/// Two bytes of a header as a number, 0 if they are not there.
fn number_at(file: &[u8], at: usize) -> u32 {
    file.get(at..at + 2)
        .map_or(0, |bytes| u32::from(two_bytes(bytes)))
}

const NUMBERS: usize = 22;

/// A number as a word: a refusal's own, or acceptance.
fn name(number: u8) -> String {
    match number {
        0 => "accepted".into(),
        refusal => refusal.to_string(),
    }
}

/// How often each answer came.
#[derive(Clone, Debug, Default)]
pub struct Tally {
    /// By number, 0 for acceptance, and by position.
    counts: [[u64; 3]; NUMBERS],
}

impl Tally {
    pub fn count(&mut self, number: u8, position: Position) {
        self.counts[usize::from(number)][position as usize] += 1;
    }

    pub fn of(&self, number: u8, position: Position) -> u64 {
        self.counts[usize::from(number)][position as usize]
    }

    pub fn of_number(&self, number: u8) -> u64 {
        self.counts[usize::from(number)].iter().sum()
    }

    pub fn cases(&self) -> u64 {
        self.counts.iter().flatten().sum()
    }

    /// Those of the numbers that never came.
    pub fn missing(&self, numbers: &[u8]) -> Vec<u8> {
        let never = |number: &u8| self.of_number(*number) == 0;
        numbers.iter().copied().filter(never).collect()
    }

    /// What never came, in words: of the numbers any, of those with several
    /// places each at the first, a middle and the last.
    pub fn gaps(&self, numbers: &[u8], with_places: &[u8]) -> Vec<String> {
        let missing = self.missing(numbers);
        let mut gaps: Vec<String> = missing.iter().map(|number| name(*number)).collect();
        for number in with_places {
            for position in Position::ALL {
                if !missing.contains(number) && self.of(*number, position) == 0 {
                    gaps.push(format!("{number} at the {position:?} place").to_lowercase());
                }
            }
        }
        gaps
    }

    /// A table, in Markdown: a line for each number that came, with the places
    /// of those that can have several.
    pub fn table(&self, with_places: &[u8]) -> String {
        let head = ["refusal", "cases", "first", "middle", "last"];
        let mut lines = vec![line(head.map(String::from)), "|---:".repeat(5) + "|"];
        for number in (0..NUMBERS as u8).filter(|number| self.of_number(*number) > 0) {
            let places = match with_places.contains(&number) {
                true => Position::ALL.map(|position| grouped(self.of(number, position))),
                false => Default::default(),
            };
            let [first, middle, last] = places;
            let cases = grouped(self.of_number(number));
            lines.push(line([name(number), cases, first, middle, last]));
        }
        let [first, middle, last] = Default::default();
        let together = grouped(self.cases());
        lines.push(line(["together".into(), together, first, middle, last]));
        lines.join("\n")
    }
}

/// A line of a table.
fn line(cells: [String; 5]) -> String {
    let cells = cells.map(|cell| format!("| {cell:>10} "));
    cells.concat() + "|"
}

/// A number with a comma before each three digits.
pub fn grouped(number: u64) -> String {
    match number {
        0..=999 => number.to_string(),
        _ => format!("{},{:03}", grouped(number / 1_000), number % 1_000),
    }
}

/// The refusals that have several places in some file.
const WITH_PLACES: &[u8] = &[1, 3, 5, 6, 7, 8, 10, 11, 12, 14, 15, 17];

impl fmt::Display for Tally {
    fn fmt(&self, out: &mut fmt::Formatter) -> fmt::Result {
        out.write_str(&self.table(WITH_PLACES))
    }
}
