//! Tables of which a region list is made, for the benchmark. All have 256 edges, the most that a table
//! has.

mod odometer;

use super::families::worst;
use crate::answer::{number, Answer, Refusal};
use crate::automaton::Comparison::{AtLeast, AtMost, Equal, Greater, Less, NotEqual};
use crate::automaton::{Automaton, Comparison, Edge, Guard, Update};
use crate::automaton::{GREATEST_BOUND, GREATEST_EDGES, GREATEST_GUARDS};
use crate::generate::{tables, Random};

/// A table with the answer that making has to give for it, where the buffer is long enough.
#[derive(Clone, Copy, Debug)]
pub struct MadeList {
    pub name: &'static str,
    /// So many calls in a row make one time.
    pub calls: u32,
    pub expected: Answer,
    make: fn() -> Automaton,
}

impl MadeList {
    pub fn automaton(&self) -> Automaton {
        (self.make)()
    }
}

/// All of them, in the order in which they are timed.
pub fn made_lists() -> Vec<MadeList> {
    let mut lists = all_to_all();
    lists.extend(beside_final());
    lists.extend(full());
    lists.extend(reading_clocks());
    lists.extend(odometers());
    lists
}

fn accepted(name: &'static str, calls: u32, rows: u32, make: fn() -> Automaton) -> MadeList {
    let expected = Answer::Accepted(rows);
    MadeList {
        name,
        calls,
        expected,
        make,
    }
}

fn refused(name: &'static str, calls: u32, number: u8, make: fn() -> Automaton) -> MadeList {
    let expected = Refusal::new(number, 0).into();
    MadeList {
        name,
        calls,
        expected,
        make,
    }
}

/// Edges that set clocks freely, from every row to nearly every row of the only location.
fn all_to_all() -> Vec<MadeList> {
    vec![
        accepted("all to all, two clocks", 10, 3_954, all_to_all_of_two),
        accepted("all to all, four clocks", 10, 3_952, all_to_all_of_four),
        refused(
            "all to all, far too many rows",
            100,
            number::NO_ROOM,
            far_too_many,
        ),
        refused(
            "all to all, a final location entered at once",
            10,
            number::FINAL_ENTERED,
            entered_at_once,
        ),
    ]
}

/// Few rows more by each row, and edges that would lead to billions of rows of a final location.
fn beside_final() -> Vec<MadeList> {
    vec![
        accepted(
            "final location never entered, guards fail",
            10,
            4_096,
            final_behind_guards,
        ),
        accepted(
            "final location never entered, updates allow nothing",
            10,
            4_096,
            final_behind_updates,
        ),
        refused(
            "final location entered by the last row",
            10,
            number::FINAL_ENTERED,
            final_from_the_last_row,
        ),
    ]
}

/// As many rows as a list may have, and one more.
fn full() -> Vec<MadeList> {
    vec![
        accepted("exactly full", 10, 4_096, exactly_full),
        refused("one row too many", 10, number::NO_ROOM, one_too_many),
    ]
}

/// Edges to many rows each, not the same from each row.
fn reading_clocks() -> Vec<MadeList> {
    vec![
        accepted("wide edges that read clocks", 1, 1_292, reading_of_two),
        accepted("wide edges that read clocks", 1, 1_648, reading_of_four),
    ]
}

/// Slow growth: one state after the other.
fn odometers() -> Vec<MadeList> {
    vec![
        accepted("odometer, deterministic", 1, 3_988, odometer::alone),
        accepted(
            "odometer, wide edges beside it",
            1,
            4_051,
            odometer::beside_wide_edges,
        ),
        accepted(
            "odometer, each state leads further",
            1,
            4_051,
            odometer::leading_further,
        ),
    ]
}

fn all_to_all_of_two() -> Automaton {
    worst(&[25, 25])
}

fn all_to_all_of_four() -> Automaton {
    worst(&[3, 2, 2, 1])
}

/// Billions of next rows from the first row on.
fn far_too_many() -> Automaton {
    worst(&[GREATEST_BOUND; 4])
}

/// The last edge leads to a final location from every row; the list is made to its end all the same.
fn entered_at_once() -> Automaton {
    let mut automaton = all_to_all_of_two();
    let target = add_final(&mut automaton);
    automaton.edges[GREATEST_EDGES - 1].target = target;
    automaton
}

/// One more location, which is final; its number.
fn add_final(automaton: &mut Automaton) -> u8 {
    let number = automaton.locations.len() as u8;
    let mut location = automaton.locations[0];
    location.is_final = true;
    automaton.locations.push(location);
    number
}

/// The new value may be any.
const ANY: Update = Update::to_constant(AtLeast, 0);

fn guard(clock: usize, comparison: Comparison, constant: u8) -> Guard {
    Guard {
        clock: clock as u8,
        comparison,
        constant,
    }
}

fn edge(source: u8, target: u8, guards: Vec<Guard>, updates: Vec<Update>) -> Edge {
    Edge {
        source,
        target,
        guards,
        updates,
    }
}

/// 16 locations with four clocks that are always equal, so that each has the 256 rows that waiting
/// leads to, and 241 edges to a final location; `to_final` makes their guards and updates.
fn equal_clocks(to_final: impl Fn(usize) -> (Vec<Guard>, Vec<Update>)) -> Automaton {
    let kept = |source| edge(source, source + 1, vec![], vec![Update::Keep; 4]);
    let edges = (0..15).map(kept).collect();
    let mut automaton = Automaton::without_final(16, &[GREATEST_BOUND; 4], edges);
    let target = add_final(&mut automaton);
    for number in automaton.edges.len()..GREATEST_EDGES {
        let source = (number % 16) as u8;
        let (guards, updates) = to_final(number);
        automaton.edges.push(edge(source, target, guards, updates));
    }
    automaton
}

fn final_behind_guards() -> Automaton {
    equal_clocks(|number| (contradiction(number), vec![ANY; 4]))
}

/// The last two of eight guards never hold together, as the clocks are equal.
fn contradiction(number: usize) -> Vec<Guard> {
    let constant = (number / 2) as u8 % GREATEST_BOUND;
    let mut guards = vec![guard(0, AtLeast, 0); GREATEST_GUARDS - 2];
    guards.push(guard(0, AtMost, constant));
    guards.push(guard(1, Greater, constant));
    guards
}

/// Three clocks may become anything, and the last nothing: below 0, or below what it is where that is 0.
fn final_behind_updates() -> Automaton {
    equal_clocks(|number| match number % 2 {
        0 => {
            let below_zero = Update::to_constant(Less, 0);
            (vec![], vec![ANY, ANY, ANY, below_zero])
        }
        _ => {
            let below_itself = Update::to_clock(Less, 3, 0);
            let at_zero = vec![guard(3, Equal, 0)];
            (at_zero, vec![ANY, ANY, ANY, below_itself])
        }
    })
}

/// Guards that fail, but for one edge in the very last row.
fn final_from_the_last_row() -> Automaton {
    let last = GREATEST_EDGES - 1;
    equal_clocks(|number| match number == last {
        true => (vec![guard(0, Greater, GREATEST_BOUND)], vec![ANY; 4]),
        false => (contradiction(number), vec![ANY; 4]),
    })
}

const FULL_BOUNDS: [u8; 2] = [31, 0];

/// 32 locations of 128 rows each, all of which are reached: each location from the one before it, and
/// by edges between any two.
fn exactly_full() -> Automaton {
    let mut random = Random::new(30_901);
    let mut edges = vec![edge(0, 0, vec![], vec![ANY; 2])];
    edges.extend((0..31).map(|source| edge(source, source + 1, vec![], vec![ANY; 2])));
    while edges.len() < GREATEST_EDGES - 1 {
        let (source, target) = (random.below(32) as u8, random.below(32) as u8);
        let updates = wide_updates(&mut random, &FULL_BOUNDS);
        edges.push(edge(source, target, vec![], updates));
    }
    edges.push(from_the_last_row(31));
    Automaton::without_final(33, &FULL_BOUNDS, edges)
}

/// From the last of those rows, which it keeps.
fn from_the_last_row(target: u8) -> Edge {
    let guards = vec![guard(0, Greater, 31), guard(1, Greater, 0)];
    edge(31, target, guards, vec![Update::Keep; 2])
}

/// The last edge leads to a 33rd location, where it finds one row.
fn one_too_many() -> Automaton {
    let mut automaton = exactly_full();
    automaton.edges[GREATEST_EDGES - 1] = from_the_last_row(32);
    automaton
}

/// Updates that allow many values each and mostly read a clock.
fn wide_updates(random: &mut Random, bounds: &[u8]) -> Vec<Update> {
    let mut update = |own: usize| {
        let comparison = random.pick(&[Less, AtMost, AtLeast, Greater, NotEqual]);
        let clock = random.below(bounds.len());
        let least = tables::least_offset(bounds, own, clock);
        match random.once_in(4) {
            true => ANY,
            false => Update::to_clock(comparison, clock, least + random.below(2) as i16),
        }
    };
    (0..bounds.len()).map(&mut update).collect()
}

/// 255 edges with such updates, and one to every row, from one location to itself.
fn reading(bounds: &[u8]) -> Automaton {
    let mut random = Random::new(30_903);
    let mut edges = vec![edge(0, 0, vec![], vec![ANY; bounds.len()])];
    while edges.len() < GREATEST_EDGES {
        edges.push(edge(0, 0, vec![], wide_updates(&mut random, bounds)));
    }
    Automaton::without_final(1, bounds, edges)
}

fn reading_of_two() -> Automaton {
    reading(&[14, 14])
}

fn reading_of_four() -> Automaton {
    reading(&[2, 2, 1, 1])
}
