//! The region graph from the initial row on: all rows that waiting and edges lead to.

use crate::automaton::Automaton;
use crate::concrete::ConcreteRun;
use crate::region::Region;
use crate::successor::NextRows;
use std::collections::HashSet;

/// How a row is left for the next one.
#[derive(Clone, Copy, Debug, PartialEq, Eq)]
pub enum Move {
    Wait,
    Edge(u16),
}

/// A move and the row it leads to.
#[derive(Clone, Copy, Debug, PartialEq, Eq)]
pub struct PathStep {
    pub by: Move,
    pub to: Region,
}

/// The rows found from some starting rows.
#[derive(Clone, Debug)]
pub struct Closure {
    /// All rows found, ascending; rows of final locations are among them.
    pub rows: Vec<Region>,
    /// The moves to the first row found in a final location, if one was found.
    pub path_to_final: Option<Vec<PathStep>>,
    /// More rows than the cap: the rows are then only some of them.
    pub is_capped: bool,
}

impl Closure {
    /// The closed list, if the search was whole and no final location is entered.
    pub fn closed_list(&self) -> Option<&[Region]> {
        (!self.is_capped && self.path_to_final.is_none()).then_some(&self.rows[..])
    }

    /// A concrete run to a final location, if one is entered.
    pub fn concrete_run(&self, automaton: &Automaton) -> Option<ConcreteRun> {
        let path = self.path_to_final.as_ref()?;
        Some(ConcreteRun::along(automaton, path))
    }
}

/// The closure of the initial row, of at most `cap` rows.
pub fn closure(automaton: &Automaton, cap: usize) -> Closure {
    closure_from(automaton, &[Region::initial(automaton)], cap)
}

/// The closure of some rows. With `cap` rows found, one more ends the search.
pub fn closure_from(automaton: &Automaton, starts: &[Region], cap: usize) -> Closure {
    let mut search = Search::new(cap);
    for start in starts {
        search.add(*start, None);
    }
    let leaving = automaton.leaving();
    let mut index = 0;
    while index < search.found.len() && !search.is_capped {
        search.expand(automaton, &leaving, index);
        index += 1;
    }
    let entered = search
        .found
        .iter()
        .position(|found| automaton.is_final(found.row.location()));
    let path_to_final = entered.map(|index| search.path_to(index));
    let mut rows: Vec<Region> = search.found.iter().map(|found| found.row).collect();
    rows.sort_unstable();
    Closure {
        rows,
        path_to_final,
        is_capped: search.is_capped,
    }
}

struct Found {
    row: Region,
    /// The index of the row it was first found from, and the move.
    from: Option<(usize, Move)>,
}

/// A breadth-first search, so that paths are short.
struct Search {
    found: Vec<Found>,
    seen: HashSet<Region>,
    cap: usize,
    is_capped: bool,
}

impl Search {
    fn new(cap: usize) -> Self {
        Search {
            found: Vec::new(),
            seen: HashSet::new(),
            cap,
            is_capped: false,
        }
    }

    fn add(&mut self, row: Region, from: Option<(usize, Move)>) {
        if self.seen.contains(&row) {
            return;
        }
        if self.found.len() == self.cap {
            self.is_capped = true;
            return;
        }
        self.seen.insert(row);
        self.found.push(Found { row, from });
    }

    fn expand(&mut self, automaton: &Automaton, leaving: &[Vec<usize>], index: usize) {
        let row = self.found[index].row;
        if let Some(next) = row.time_successor(&automaton.bounds) {
            self.add(next, Some((index, Move::Wait)));
        }
        for edge in &leaving[usize::from(row.location())] {
            for next in NextRows::new(automaton, &automaton.edges[*edge], row) {
                self.add(next, Some((index, Move::Edge(*edge as u16))));
                // An edge may lead to far more rows than the cap; do not walk them all.
                if self.is_capped {
                    return;
                }
            }
        }
    }

    fn path_to(&self, index: usize) -> Vec<PathStep> {
        let mut path = Vec::new();
        let mut at = index;
        while let Some((from, by)) = self.found[at].from {
            let to = self.found[at].row;
            path.push(PathStep { by, to });
            at = from;
        }
        path.reverse();
        path
    }
}
