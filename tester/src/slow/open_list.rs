//! A closed list, and the same without some of its rows, for one table.

use super::pair::Pair;
use crate::automaton::Automaton;
use crate::region::Region;

/// What the check of the open list costs is held against what that of the closed one costs.
#[derive(Clone, Debug)]
pub struct OpenList {
    pub automaton: Automaton,
    /// The closed list, which is accepted.
    pub closed: Vec<Region>,
    /// What is left of it.
    pub open: Vec<Region>,
}

impl OpenList {
    pub fn new(
        automaton: Automaton,
        closed: Vec<Region>,
        is_left_out: impl Fn(&Region) -> bool,
    ) -> OpenList {
        let mut open = closed.clone();
        open.retain(|row| !is_left_out(row));
        OpenList {
            automaton,
            closed,
            open,
        }
    }

    pub fn closed_pair(&self) -> Pair {
        Pair::new(&self.automaton, &self.closed)
    }

    pub fn open_pair(&self) -> Pair {
        Pair::new(&self.automaton, &self.open)
    }
}
