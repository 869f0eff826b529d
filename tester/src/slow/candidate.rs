//! A table of one edge, and which rows its list begins with.
//!
//! A list is those rows, the initial row, and all that they lead to, so that it is
//! closed whatever the table; only its length may be too great. Where refusals are
//! sought, some of its rows are left out again.

use super::falling::falling_guards;
use super::gaps::Gaps;
use super::open_list::OpenList;
use super::rows::{count_rows, rows_of};
use crate::automaton::{Automaton, Edge, Update, GREATEST_BOUND, GREATEST_CLOCKS, GREATEST_GUARDS};
use crate::explore::closure_from;
use crate::generate::{rows, tables, Random};
use crate::region::{region_of, Region};
use crate::region_list::GREATEST_ROWS;
use crate::words;
use std::fmt;

/// More locations would only part the rows of a list further.
pub const MOST_LOCATIONS: usize = 4;

/// Points are whole counts of 1 / `SCALE`: enough for any order of four fractional parts.
const SCALE: i64 = 8;

/// What a list has of one location from the start.
#[derive(Clone, Debug, PartialEq, Eq)]
pub enum Share {
    /// No row, but for the initial one.
    Nothing,
    /// The row of one point. Clocks that are always equal have the value of the first of them.
    Row(Vec<i64>),
    /// The rows in which clocks that are always equal are so.
    Equal,
    /// All rows.
    All,
}

/// One table of one edge, with the beginning of its list.
#[derive(Clone, Debug, PartialEq, Eq)]
pub struct Candidate {
    pub initial: u8,
    pub bounds: Vec<u8>,
    pub edge: Edge,
    /// For each clock the first one that it always equals: itself, or one before it.
    pub twins: Vec<usize>,
    /// One for each location.
    pub shares: Vec<Share>,
    /// Which rows are left out, if any are to be.
    pub gaps: Option<Gaps>,
}

impl Candidate {
    /// Any candidate; most have one location and a list that is nearly full.
    pub fn random(random: &mut Random) -> Candidate {
        let clocks = random.pick(&[1, 2, 2, 3, 3, 3, 4, 4, 4]);
        let locations = match random.once_in(3) {
            true => 1 + random.below(MOST_LOCATIONS),
            false => 1,
        };
        let bounds: Vec<u8> = (0..clocks).map(|_| random_bound(random)).collect();
        let mut candidate = Candidate {
            initial: random.below(locations) as u8,
            twins: (0..clocks).collect(),
            edge: Edge {
                source: random.below(locations) as u8,
                target: random.below(locations) as u8,
                guards: vec![],
                updates: vec![Update::Keep; clocks],
            },
            shares: vec![Share::Nothing; locations],
            gaps: None,
            bounds,
        };
        if random.once_in(2) {
            candidate.pair_clocks(random);
        }
        for location in 0..locations {
            candidate.shares[location] = candidate.random_share(random);
        }
        candidate.settle(random, None);
        for own in 0..clocks {
            candidate.edge.updates[own] = random_update(random, &candidate.bounds, own);
        }
        candidate.keep_twins(random);
        if random.once_in(4) {
            let guard = tables::guard(random, &candidate.bounds);
            candidate.edge.guards.push(guard);
        }
        candidate
    }

    /// Any candidate with rows to be left out.
    pub fn random_open(random: &mut Random) -> Candidate {
        let gaps = Some(Gaps::random(random));
        Candidate {
            gaps,
            ..Candidate::random(random)
        }
    }

    pub fn clocks(&self) -> usize {
        self.bounds.len()
    }

    /// The table, with the edge so many times.
    pub fn automaton(&self, edges: usize) -> Automaton {
        let edges = vec![self.edge.clone(); edges];
        Automaton {
            initial: self.initial,
            ..Automaton::without_final(self.shares.len(), &self.bounds, edges)
        }
    }

    /// The table with the edge so many times, and besides with guards that fall from one to the next: by
    /// each of them an earlier row may lack a next row than by those before it.
    pub fn automaton_with_falling_guards(&self, edges: usize) -> Automaton {
        let room = GREATEST_GUARDS - self.edge.guards.len();
        let clocks: Vec<usize> = self.first_clocks().take(room).collect();
        let mut automaton = self.automaton(edges);
        let guards = falling_guards(&self.bounds, &clocks, edges);
        for (edge, guards) in automaton.edges.iter_mut().zip(guards) {
            edge.guards.extend(guards);
        }
        automaton
    }

    /// The closed list and what is left of it, for such a table; none if nothing is to be left out.
    pub fn open_list(&self, closed: Vec<Region>, edges: usize) -> Option<OpenList> {
        let automaton = self.automaton_with_falling_guards(edges);
        let open = self.gaps?.open(&automaton, &closed);
        Some(OpenList {
            automaton,
            closed,
            open,
        })
    }

    /// A clock is from now on always equal to one before it, or to none.
    pub(super) fn pair_clocks(&mut self, random: &mut Random) {
        let clock = random.below(self.clocks());
        let twin = random.below(clock + 1);
        if twin == clock {
            self.twins[clock] = clock;
            return;
        }
        let first = self.twins[twin];
        for other in clock..self.clocks() {
            if other == clock || self.twins[other] == clock {
                self.twins[other] = first;
            }
        }
    }

    /// Mostly keeps the clocks that are always equal: by few other updates would they stay so.
    pub(super) fn keep_twins(&mut self, random: &mut Random) {
        if random.once_in(4) {
            return;
        }
        for clock in 0..self.clocks() {
            let twin = self.twins[clock];
            if twin != clock {
                self.edge.updates[clock] = Update::Keep;
                self.edge.updates[twin] = Update::Keep;
            }
        }
    }

    /// Equal clocks more often than all rows; without such clocks it is the same.
    pub(super) fn random_share(&self, random: &mut Random) -> Share {
        match random.below(6) {
            0 => Share::Nothing,
            1 => Share::Row(rows::point(random, &self.bounds, SCALE)),
            2..=4 => Share::Equal,
            _ => Share::All,
        }
    }

    /// Makes it lawful again after a change: clocks that are always equal have the same
    /// bound, the list is not too long from the start, and the edge keeps the bound rules.
    /// A bound that was changed on purpose is lowered last.
    pub(super) fn settle(&mut self, random: &mut Random, spared: Option<usize>) {
        self.share_bounds();
        while self.start_count() > u64::from(GREATEST_ROWS) {
            let high = |clock: &usize| self.bounds[*clock] > 0 && self.twins[*clock] == *clock;
            let lowered: Vec<usize> = (0..self.clocks()).filter(high).collect();
            let others = lowered.iter().copied().filter(|z| Some(*z) != spared);
            let others: Vec<usize> = others.collect();
            let clock = random.pick(if others.is_empty() { &lowered } else { &others });
            // High bounds by a part, so that few steps are needed; low ones by one.
            self.bounds[clock] -= 1 + self.bounds[clock] / 16;
            self.share_bounds();
        }
        self.keep_bound_rules();
    }

    fn share_bounds(&mut self) {
        for clock in 0..self.clocks() {
            self.bounds[clock] = self.bounds[self.twins[clock]];
        }
    }

    fn keep_bound_rules(&mut self) {
        let bounds = &self.bounds;
        for guard in &mut self.edge.guards {
            guard.constant = guard.constant.min(bounds[usize::from(guard.clock)]);
        }
        for (own, update) in self.edge.updates.iter_mut().enumerate() {
            match update {
                Update::Keep => {}
                Update::Constant { constant, .. } => *constant = (*constant).min(bounds[own]),
                Update::Clock { clock, offset, .. } => {
                    let least = tables::least_offset(bounds, own, usize::from(*clock));
                    *offset = (*offset).max(least);
                }
            }
        }
    }

    /// How many rows the list has from the start, the initial one aside.
    fn start_count(&self) -> u64 {
        let counts = self.shares.iter().map(|share| match share {
            Share::Nothing => 0,
            Share::Row(_) => 1,
            Share::Equal => count_rows(&self.first_bounds()),
            Share::All => count_rows(&self.bounds),
        });
        counts.sum()
    }

    /// The clocks that equal none before them.
    fn first_clocks(&self) -> impl Iterator<Item = usize> + '_ {
        (0..self.clocks()).filter(|clock| self.twins[*clock] == *clock)
    }

    fn first_bounds(&self) -> Vec<u8> {
        self.first_clocks()
            .map(|clock| self.bounds[clock])
            .collect()
    }

    /// The rows that the list has from the start, ascending.
    pub fn start(&self) -> Vec<Region> {
        let mut start = vec![Region::initial(&self.automaton(0))];
        for (location, share) in (0..).zip(&self.shares) {
            match share {
                Share::Nothing => {}
                Share::Row(point) => start.push(self.row_of(location, point)),
                Share::Equal => start.extend(rows_of(location, &self.bounds, &self.twins)),
                Share::All => {
                    let all: Vec<usize> = (0..self.clocks()).collect();
                    start.extend(rows_of(location, &self.bounds, &all));
                }
            }
        }
        start.sort_unstable();
        start.dedup();
        start
    }

    fn row_of(&self, location: u8, point: &[i64]) -> Region {
        let values: Vec<i64> = self.twins.iter().map(|twin| point[*twin]).collect();
        region_of(location, &self.bounds, &values, SCALE)
    }

    /// The closed list, by the rules; none if it is too long.
    pub fn closed_list(&self) -> Option<Vec<Region>> {
        let found = closure_from(&self.automaton(1), &self.start(), GREATEST_ROWS.into());
        found.closed_list().map(<[Region]>::to_vec)
    }

    /// Whether all its parts go together, as `settle` leaves them.
    pub fn is_lawful(&self) -> bool {
        let clocks = self.clocks();
        let locations = self.shares.len();
        (1..=GREATEST_CLOCKS).contains(&clocks)
            && (1..=MOST_LOCATIONS).contains(&locations)
            && self.edge.updates.len() == clocks
            && self.twins.len() == clocks
            && (0..clocks).all(|z| self.twins[z] <= z && self.twins[self.twins[z]] == self.twins[z])
            && self.start_count() <= u64::from(GREATEST_ROWS)
    }
}

impl fmt::Display for Candidate {
    fn fmt(&self, out: &mut fmt::Formatter) -> fmt::Result {
        let (clocks, locations) = (self.clocks(), self.shares.len());
        let bounds = words::numbers(&self.bounds);
        writeln!(out, "clocks {clocks}, bounds {bounds}")?;
        writeln!(out, "locations {locations}, initial {}", self.initial)?;
        writeln!(out, "edge {}", words::edge(&self.edge))?;
        write!(out, "the list: the initial row")?;
        for (location, share) in (0..).zip(&self.shares) {
            match share {
                Share::Nothing => {}
                Share::Row(point) => {
                    write!(out, ", the row {:?}", self.row_of(location, point))?;
                }
                Share::Equal => write!(out, ", all rows of {location}{}", self.equalities())?,
                Share::All => write!(out, ", all rows of {location}")?,
            }
        }
        write!(out, ", and all that these lead to")?;
        match &self.gaps {
            Some(gaps) => write!(out, ", {gaps}"),
            None => Ok(()),
        }
    }
}

impl Candidate {
    fn equalities(&self) -> String {
        let equal = (0..self.clocks()).filter(|clock| self.twins[*clock] != *clock);
        let equal: Vec<String> = equal
            .map(|clock| format!("x{} = x{clock}", self.twins[clock]))
            .collect();
        match equal.is_empty() {
            true => String::new(),
            false => format!(" with {}", equal.join(" and ")),
        }
    }
}

/// Low ones more often: with few intervals of one clock there is room for more of another.
pub(super) fn random_bound(random: &mut Random) -> u8 {
    let most = random.pick(&[2, 6, 30, GREATEST_BOUND]);
    random.below(usize::from(most) + 1) as u8
}

/// A keep or any other update, all comparisons alike.
pub(super) fn random_update(random: &mut Random, bounds: &[u8], own: usize) -> Update {
    match random.once_in(4) {
        true => Update::Keep,
        false => {
            let comparison = tables::comparison(random);
            tables::changing_update(random, bounds, own).with_comparison(comparison)
        }
    }
}
