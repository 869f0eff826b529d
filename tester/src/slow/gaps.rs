//! Which rows a candidate's list lacks.

use crate::automaton::Automaton;
use crate::generate::{lists, Random};
use crate::region::Region;
use std::fmt;

/// Rows that are left out at random, always the same ones of a list.
#[derive(Clone, Copy, Debug, PartialEq, Eq)]
pub struct Gaps {
    /// Of the random numbers that choose them.
    seed: u64,
    /// A row is left out once in so many times.
    once_in: usize,
    /// Only rows that waiting leads to from no other are left out. Else a row that lacks the one it
    /// waits for mostly comes early, and what edges lead to from rows behind it makes no difference.
    is_for_edges: bool,
}

impl Gaps {
    pub fn random(random: &mut Random) -> Gaps {
        Gaps {
            seed: random.draw(),
            once_in: random.pick(&[1, 2, 8, 64, 512]),
            is_for_edges: !random.once_in(4),
        }
    }

    /// Other rows, more or fewer of them, or of the other kind.
    pub(super) fn change(&mut self, random: &mut Random) {
        match random.below(4) {
            0 | 1 => self.seed = random.draw(),
            2 => self.once_in = random.pick(&[self.once_in.div_ceil(2), 2 * self.once_in]),
            _ => self.is_for_edges ^= true,
        }
    }

    /// What is left of a list.
    pub fn open(&self, automaton: &Automaton, rows: &[Region]) -> Vec<Region> {
        let leave_out = match self.is_for_edges {
            true => lists::leave_out_for_edges,
            false => lists::leave_out,
        };
        leave_out(&mut Random::new(self.seed), automaton, rows, self.once_in)
    }
}

impl fmt::Display for Gaps {
    fn fmt(&self, out: &mut fmt::Formatter) -> fmt::Result {
        write!(out, "without one row in {}", self.once_in)?;
        match self.is_for_edges {
            true => write!(out, " of those that waiting leads to from no other"),
            false => Ok(()),
        }
    }
}
