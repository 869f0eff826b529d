//! How long the check of a candidate's list takes.
//!
//! A score is the processor time of the check with the edge, less that of the check of the
//! same list and the same table without it: what one edge costs. Reading the files, the
//! order of the rows and waiting are the rest, which does not grow with the edges.

use super::candidate::Candidate;
use super::pair::Pair;
use super::search::Judge;
use crate::answer::Answer;
use crate::cpu_time::{cpu_time, mean_seconds};
use crate::region::Region;
use crate::region_list::GREATEST_ROWS;

/// A call is made at least so often, and a short one again until all took so many seconds together,
/// or it was made so often.
const LEAST_CALLS: u32 = 2;
const ENOUGH_SECONDS: f64 = 0.05;
const MOST_CALLS: u32 = 8;

/// Processor seconds of one edge, and of all but the edges.
#[derive(Clone, Copy, Debug)]
pub struct Score {
    pub edge: f64,
    pub rest: f64,
}

impl Score {
    /// The whole check with so many such edges, reckoned.
    pub fn of_edges(&self, edges: usize) -> f64 {
        self.rest + edges as f64 * self.edge
    }

    /// Of a check with the edge and one without it.
    fn of(with: f64, rest: f64) -> Score {
        Score {
            edge: (with - rest).max(0.0),
            rest,
        }
    }
}

/// The best time of a call, of which the first took so long: other work on the machine can only
/// lengthen it.
fn best_seconds(first: f64, call: &mut dyn FnMut()) -> f64 {
    let (mut best, mut spent, mut calls) = (first, first, 1);
    while calls < LEAST_CALLS || (spent < ENOUGH_SECONDS && calls < MOST_CALLS) {
        let seconds = mean_seconds(1, call);
        best = best.min(seconds);
        spent += seconds;
        calls += 1;
    }
    best
}

fn seconds_of(call: &mut dyn FnMut()) -> f64 {
    best_seconds(mean_seconds(1, call), call)
}

/// A candidate's table and list with some copies of its edge.
pub fn pair_of(candidate: &Candidate, rows: &[Region], edges: usize) -> Pair {
    Pair::new(&candidate.automaton(edges), rows)
}

/// The checker's score. The list has to be accepted.
pub fn checker_score(candidate: &Candidate, rows: &[Region]) -> Score {
    let seconds = |edges| {
        let mut pair = pair_of(candidate, rows, edges);
        seconds_of(&mut || assert_eq!(pair.checker() as usize, rows.len(), "{candidate}"))
    };
    Score::of(seconds(1), seconds(0))
}

/// The same for the rules.
pub fn rules_score(candidate: &Candidate, rows: &[Region]) -> Score {
    let accepted = Answer::Accepted(rows.len() as u32);
    let seconds = |edges| {
        let pair = pair_of(candidate, rows, edges);
        seconds_of(&mut || assert_eq!(pair.rules(), accepted, "{candidate}"))
    };
    Score::of(seconds(1), seconds(0))
}

/// The list of a candidate, and the seconds of the checker's first check of it; none if it is too
/// long. The checker says whether the start is closed already: the rules go over all next rows for it.
pub(super) fn first_check(candidate: &Candidate) -> Option<(Vec<Region>, f64)> {
    let start = candidate.start();
    if start.len() > usize::from(GREATEST_ROWS) {
        return None;
    }
    let accepted = |rows: &[Region]| {
        let mut pair = pair_of(candidate, rows, 1);
        let mut answer = 0;
        let seconds = mean_seconds(1, &mut || answer = pair.checker());
        (answer as usize == rows.len()).then_some(seconds)
    };
    if let Some(seconds) = accepted(&start) {
        return Some((start, seconds));
    }
    let rows = candidate.closed_list()?;
    let seconds = accepted(&rows);
    let seconds = seconds.unwrap_or_else(|| panic!("a closed list is refused:\n{candidate}"));
    Some((rows, seconds))
}

/// Judges by the checker's time for one edge, until so much processor time is spent.
pub struct Stopwatch {
    pub limit: f64,
}

impl Stopwatch {
    /// Processor seconds since the program began.
    pub fn spent() -> f64 {
        cpu_time().as_secs_f64()
    }
}

impl Judge for Stopwatch {
    fn score_above(&mut self, floor: f64, candidate: &Candidate) -> Option<f64> {
        let (rows, first) = first_check(candidate)?;
        // More calls could only make it less.
        if first <= floor {
            return None;
        }
        let mut without = pair_of(candidate, &rows, 0);
        let rest = seconds_of(&mut || assert_eq!(without.checker() as usize, rows.len()));
        let mut pair = pair_of(candidate, &rows, 1);
        let with = best_seconds(first, &mut || {
            pair.checker();
        });
        let score = Score::of(with, rest).edge;
        (score > floor).then_some(score)
    }

    fn is_over(&self) -> bool {
        Stopwatch::spent() >= self.limit
    }
}
