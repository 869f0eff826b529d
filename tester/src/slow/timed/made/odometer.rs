//! Odometers: tables whose rows are found one after the other.
//!
//! The digits are the clocks, the last one the least. An odometer counts down from all of them at the
//! top to all of them 0: the least digit that is not 0 goes down by one, and those behind it go to
//! the top. Whatever lets digits grow leads to rows that were there before, and so does waiting, but
//! for one row right after a state.

use super::{edge, guard, wide_updates, ANY};
use crate::automaton::Comparison::{AtLeast, Equal, Greater};
use crate::automaton::{Automaton, Edge, Guard, Update, GREATEST_BOUND, GREATEST_EDGES};
use crate::generate::Random;
use crate::slow::timed::families::set;

/// The location in which it counts. It is entered from location 0, where all waiting happens first.
const COUNTING: u8 = 1;

struct Odometer<'bounds> {
    bounds: &'bounds [u8],
}

impl Odometer<'_> {
    fn is_top(&self, digit: usize) -> Guard {
        guard(digit, Greater, self.bounds[digit])
    }

    fn are_tops(&self, digits: std::ops::Range<usize>) -> Vec<Guard> {
        digits.map(|digit| self.is_top(digit)).collect()
    }

    /// All that it needs to count.
    fn edges(&self) -> Vec<Edge> {
        let mut edges = vec![self.start()];
        for digit in 0..self.bounds.len() {
            let values = 1..=self.bounds[digit];
            edges.extend(values.map(|value| {
                let present = guard(digit, Equal, value);
                self.count_down(digit, vec![present], value - 1)
            }));
        }
        edges.extend(self.down_from_top());
        edges
    }

    /// Once all clocks are at the top.
    fn start(&self) -> Edge {
        let clocks = self.bounds.len();
        let guards = self.are_tops(0..clocks);
        edge(0, COUNTING, guards, vec![Update::Keep; clocks])
    }

    /// A digit that is at the top goes down to its bound, unless time has passed. Where a digit is a
    /// whole value, none has; and where all are at the top, it makes no difference.
    fn down_from_top(&self) -> Vec<Edge> {
        let clocks = self.bounds.len();
        let least = clocks - 1;
        let from_top = |digit: usize, guards| self.count_down(digit, guards, self.bounds[digit]);
        // Those behind are 0.
        let mut edges: Vec<Edge> = (0..least)
            .map(|digit| from_top(digit, vec![self.is_top(digit)]))
            .collect();
        // The least digit has none behind it, so that one before it has to tell.
        for digit in 0..least {
            for value in 0..=self.bounds[digit] {
                let mut guards = vec![guard(digit, Equal, value)];
                guards.extend(self.are_tops(digit + 1..clocks));
                edges.push(from_top(least, guards));
            }
        }
        edges.push(from_top(least, self.are_tops(0..clocks)));
        edges
    }

    /// A digit goes down to a value where those behind it are 0, and these go to the top.
    fn count_down(&self, digit: usize, mut guards: Vec<Guard>, value: u8) -> Edge {
        let clocks = self.bounds.len();
        guards.extend((digit + 1..clocks).map(|behind| guard(behind, Equal, 0)));
        let mut updates = vec![Update::Keep; clocks];
        updates[digit] = set(value);
        for (behind, update) in updates.iter_mut().enumerate().skip(digit + 1) {
            *update = Update::to_clock(Equal, behind, GREATEST_BOUND.into());
        }
        edge(COUNTING, COUNTING, guards, updates)
    }
}

/// 2,592 states, and beside them edges by which one digit grows.
pub fn alone() -> Automaton {
    let bounds = [10, 4, 4, 4];
    let mut edges = Odometer { bounds: &bounds }.edges();
    for number in 0..GREATEST_EDGES - edges.len() {
        let (digit, offset) = (number % 4, 1 + number as i16 / 4);
        let mut updates = vec![Update::Keep; 4];
        updates[digit] = Update::to_clock(Equal, digit, offset);
        edges.push(edge(COUNTING, COUNTING, vec![], updates));
    }
    Automaton::without_final(2, &bounds, edges)
}

const BOUNDS_OF_TWO: [u8; 2] = [22, 21];

/// 552 states, and behind the edges between them others to a third location.
fn with_third(mut to_third: impl FnMut(usize) -> Vec<Update>) -> Automaton {
    let bounds = BOUNDS_OF_TWO;
    let mut edges = Odometer { bounds: &bounds }.edges();
    for number in edges.len()..GREATEST_EDGES {
        edges.push(edge(COUNTING, 2, vec![], to_third(number)));
    }
    Automaton::without_final(3, &bounds, edges)
}

/// To many rows each, all of which the last edge finds at the very first.
pub fn beside_wide_edges() -> Automaton {
    let mut random = Random::new(30_902);
    let mut automaton = with_third(|_| wide_updates(&mut random, &BOUNDS_OF_TWO));
    automaton.edges[GREATEST_EDGES - 1] = edge(0, 2, vec![], vec![ANY; 2]);
    automaton
}

/// Clocks may go up, from most edges they have to, so that each state leads by the last edge to some
/// new rows among many that were there before, and by the others to none.
pub fn leading_further() -> Automaton {
    with_third(|number| {
        let up = (GREATEST_EDGES - 1 - number) as i16;
        let first = Update::to_clock(AtLeast, 0, up % 13);
        vec![first, Update::to_clock(AtLeast, 1, up / 13)]
    })
}
