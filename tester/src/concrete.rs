//! Makes a path of regions concrete: edges, delays and clock values at one scale.
//!
//! Choosing numbers step by step would halve distances again and again and soon
//! need a scale beyond any limit. So the run is first built with points on a
//! circle, the fractional parts of absolute time, of which only the order is
//! known. A clock is a whole part and an origin, the point of the circle where
//! its fractional part was 0; its part grows as `now` moves on from the origin.
//! Once all is chosen, the points are spread evenly, and their number is the scale.

use crate::automaton::{Automaton, Comparison, Term, Update, GREATEST_CLOCKS};
use crate::explore::{Move, PathStep};
use crate::region::{is_whole, top, Region};
use crate::run::{Run, Step, GREATEST_SCALE, GREATEST_STEPS};
use crate::successor::by_intervals::Choices;

/// A point of the circle, by a name that stays when others come between.
type Point = usize;

/// The points in their order around the circle.
#[derive(Clone, Debug)]
struct Circle {
    order: Vec<Point>,
}

impl Circle {
    fn index(&self, point: Point) -> usize {
        let found = self.order.iter().position(|other| *other == point);
        found.expect("every point is on the circle")
    }

    fn insert_before(&mut self, point: Point) -> Point {
        self.insert_at(self.index(point))
    }

    fn insert_after(&mut self, point: Point) -> Point {
        self.insert_at(self.index(point) + 1)
    }

    fn insert_at(&mut self, index: usize) -> Point {
        let fresh = self.order.len();
        self.order.insert(index, fresh);
        fresh
    }

    /// How far forward it is from one point to another, in counts of 1/scale.
    fn distance(&self, from: Point, to: Point) -> usize {
        let scale = self.order.len();
        (self.index(to) + scale - self.index(from)) % scale
    }
}

#[derive(Clone, Copy, Debug)]
struct ClockValue {
    whole: i64,
    origin: Point,
}

/// An edge taken, with all that is needed to put numbers to it later.
#[derive(Clone, Debug)]
struct Taken {
    edge: u16,
    laps: i64,
    now: Point,
    values: Vec<ClockValue>,
}

/// The state while a path is followed.
struct Walker<'automaton> {
    automaton: &'automaton Automaton,
    circle: Circle,
    now: Point,
    /// Whole turns around the circle since the start.
    laps: i64,
    values: Vec<ClockValue>,
    row: Region,
}

impl Walker<'_> {
    /// One move of waiting, within or up to the border of the present row.
    fn wait(&mut self) {
        let clocks = self.automaton.clocks();
        let some_whole = (0..clocks).any(|clock| is_whole(self.row.interval(clock)));
        let before = self.now;
        let after = if some_whole {
            // A little later, before anything else happens.
            self.circle.insert_after(before)
        } else {
            let greatest = self.row.greatest_rank();
            let first = (0..clocks).find(|clock| self.row.rank(*clock) == greatest);
            self.values[first.expect("a row with a next row has a greatest rank")].origin
        };
        let passed = self.circle.distance(before, after);
        for value in &mut self.values {
            let reached = self.circle.distance(before, value.origin);
            value.whole += i64::from(0 < reached && reached <= passed);
        }
        self.laps += i64::from(self.circle.index(after) < self.circle.index(before));
        self.now = after;
    }

    /// Takes an edge into the row `to`, which has to be one of its next rows.
    fn take(&mut self, edge: u16, to: Region) -> Taken {
        let edge_taken = &self.automaton.edges[usize::from(edge)];
        let origins = self.origins_of_ranks(edge, to);
        let mut values = Vec::with_capacity(self.values.len());
        for (clock, update) in edge_taken.updates.iter().enumerate() {
            let interval = to.interval(clock);
            let whole = i64::from(interval / 2);
            values.push(if interval == top(self.automaton.bounds[clock]) {
                self.value_above_bound(clock, *update)
            } else {
                // Rank 0 is a whole value: its origin is now.
                let origin = origins[usize::from(to.rank(clock))];
                ClockValue { whole, origin }
            });
        }
        self.values = values.clone();
        Taken {
            edge,
            laps: self.laps,
            now: self.now,
            values,
        }
    }

    /// An origin for each rank of the next row; that of rank 0 is now.
    fn origins_of_ranks(&mut self, edge: u16, to: Region) -> [Point; GREATEST_CLOCKS + 1] {
        let edge_taken = &self.automaton.edges[usize::from(edge)];
        let choices = Choices::new(self.automaton, edge_taken, self.row);
        let choices = choices.expect("an edge of the path can be taken");
        let clocks = self.automaton.clocks();
        let ranking = (0..clocks).fold(0, |bits, clock| {
            bits | Region::rank_bits(clock, to.rank(clock))
        });
        let positions = choices.positions(ranking, choices.pinned(to));
        let positions = positions.expect("a row of the path is a next row");
        let mut origins = [self.now; GREATEST_CLOCKS + 1];
        for rank in 1..=usize::from(to.greatest_rank()) {
            let position = positions[rank];
            let old_rank = position.div_ceil(2);
            let stands_on_old = position % 2 == 1;
            let shares_gap = rank > 1 && positions[rank - 1] == position;
            let below = if shares_gap {
                origins[rank - 1]
            } else {
                self.origin_of_old(old_rank)
            };
            // A greater fractional part has its origin further back.
            origins[rank] = if stands_on_old {
                below
            } else {
                self.circle.insert_before(below)
            };
        }
        origins
    }

    /// The origin of the old clocks of a rank; that of rank 0 is now.
    fn origin_of_old(&self, rank: u8) -> Point {
        let mut clocks = 0..self.automaton.clocks();
        match clocks.find(|clock| rank > 0 && self.row.rank(*clock) == rank) {
            Some(clock) => self.values[clock].origin,
            None => self.now,
        }
    }

    /// A value above the bound of `own` that its update allows.
    fn value_above_bound(&mut self, own: usize, update: Update) -> ClockValue {
        let bound = i64::from(self.automaton.bounds[own]);
        let (comparison, term) = update.relation(own);
        let term = match term {
            Term::Constant(constant) => ClockValue {
                whole: i64::from(constant),
                origin: self.now,
            },
            Term::Clock { clock, offset } => ClockValue {
                whole: self.values[clock].whole + i64::from(offset),
                origin: self.values[clock].origin,
            },
        };
        match comparison {
            Comparison::Equal | Comparison::AtMost => term,
            Comparison::AtLeast | Comparison::Greater | Comparison::NotEqual => ClockValue {
                whole: bound.max(term.whole) + 2,
                origin: self.now,
            },
            // The term is above the bound, and nothing is closer above the
            // bound than a fresh point right before now.
            Comparison::Less => ClockValue {
                whole: bound,
                origin: self.circle.insert_before(self.now),
            },
        }
    }
}

/// A run whose scale may still be any number.
#[derive(Clone, Debug)]
pub struct ConcreteRun {
    pub scale: u64,
    pub steps: Vec<ConcreteStep>,
}

#[derive(Clone, Debug, PartialEq, Eq)]
pub struct ConcreteStep {
    pub edge: u16,
    pub delay: u64,
    pub values: Vec<u64>,
}

impl ConcreteRun {
    /// The run along a path from the initial row; waiting after the last edge is left out.
    pub fn along(automaton: &Automaton, path: &[PathStep]) -> ConcreteRun {
        let start = ClockValue {
            whole: 0,
            origin: 0,
        };
        let mut walker = Walker {
            automaton,
            circle: Circle { order: vec![0] },
            now: 0,
            laps: 0,
            values: vec![start; automaton.clocks()],
            row: Region::initial(automaton),
        };
        let mut taken = Vec::new();
        for step in path {
            match step.by {
                Move::Wait => walker.wait(),
                Move::Edge(edge) => taken.push(walker.take(edge, step.to)),
            }
            walker.row = step.to;
        }
        ConcreteRun::numbered(&walker.circle, &taken)
    }

    /// Spreads the points evenly and reads off delays and values.
    fn numbered(circle: &Circle, taken: &[Taken]) -> ConcreteRun {
        let scale = circle.order.len();
        let time = |laps: i64, now: Point| laps * scale as i64 + circle.index(now) as i64;
        let mut before = time(0, 0);
        let mut steps = Vec::with_capacity(taken.len());
        for step in taken {
            let after = time(step.laps, step.now);
            let value = |value: &ClockValue| {
                value.whole as u64 * scale as u64 + circle.distance(value.origin, step.now) as u64
            };
            steps.push(ConcreteStep {
                edge: step.edge,
                delay: (after - before) as u64,
                values: step.values.iter().map(value).collect(),
            });
            before = after;
        }
        ConcreteRun {
            scale: scale as u64,
            steps,
        }
    }

    /// The run list at `factor` times the scale, unless it would not fit in one.
    pub fn scaled(&self, factor: u64) -> Option<Run> {
        let scale = self.scale * factor;
        if scale > u64::from(GREATEST_SCALE) || self.steps.len() > usize::from(GREATEST_STEPS) {
            return None;
        }
        let narrow = |number: u64| u32::try_from(number * factor).ok();
        let step = |step: &ConcreteStep| {
            Some(Step {
                edge: step.edge,
                delay: narrow(step.delay)?,
                values: step
                    .values
                    .iter()
                    .map(|v| narrow(*v))
                    .collect::<Option<_>>()?,
            })
        };
        Some(Run {
            scale: scale as u16,
            steps: self.steps.iter().map(step).collect::<Option<_>>()?,
        })
    }
}
