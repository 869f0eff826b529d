//! One step of the search: a candidate with one thing changed.

use super::candidate::{random_bound, random_update, Candidate, Share, MOST_LOCATIONS};
use crate::automaton::{Update, GREATEST_BOUND, GREATEST_CLOCKS, GREATEST_GUARDS};
use crate::generate::{tables, Random};

/// A change that alters nothing is made again, so many times at most.
const TRIES: usize = 20;

impl Candidate {
    /// The same with one thing changed, and with what has to follow from it.
    pub fn changed(&self, random: &mut Random) -> Candidate {
        let mut next = self.clone();
        for _ in 0..TRIES {
            let spared = next.change(random);
            next.settle(random, spared);
            if next != *self {
                break;
            }
        }
        next
    }

    /// Changes one thing; the clock whose bound it was, if it was one.
    fn change(&mut self, random: &mut Random) -> Option<usize> {
        if let Some(gaps) = &mut self.gaps {
            if random.once_in(4) {
                gaps.change(random);
                return None;
            }
        }
        let clock = random.below(self.clocks());
        match random.below(16) {
            0..=2 => return Some(self.change_bound(random)),
            3 | 4 => self.edge.updates[clock] = random_update(random, &self.bounds, clock),
            5 | 6 => {
                let comparison = tables::comparison(random);
                self.edge.updates[clock] = self.edge.updates[clock].with_comparison(comparison);
            }
            7 | 8 => self.change_number(random, clock),
            9 => self.change_clock_read(random, clock),
            10 => self.change_guards(random),
            11 => self.change_locations(random),
            12 => {
                let location = random.below(self.shares.len());
                self.shares[location] = self.random_share(random);
            }
            13 => self.change_twins(random),
            14 => self.exchange_clocks(random),
            _ => self.change_clocks(random),
        }
        None
    }

    /// The bound of a clock, and of those that equal it: up or down by one, or any other.
    fn change_bound(&mut self, random: &mut Random) -> usize {
        let clock = self.twins[random.below(self.clocks())];
        let bound = self.bounds[clock];
        self.bounds[clock] = match random.below(4) {
            0 => bound.saturating_sub(1),
            1 => (bound + 1).min(GREATEST_BOUND),
            2 => (2 * bound + 1).min(GREATEST_BOUND),
            _ => random_bound(random),
        };
        clock
    }

    /// The constant or the offset of an update: by one, or to an end of its range.
    fn change_number(&mut self, random: &mut Random, own: usize) {
        let step = random.pick(&[-1, 1]);
        let end = random.below(4);
        match &mut self.edge.updates[own] {
            Update::Keep => {}
            Update::Constant { constant, .. } => {
                let moved = constant.saturating_add_signed(step);
                *constant = [0, self.bounds[own], moved, moved][end];
            }
            Update::Clock { clock, offset, .. } => {
                let least = tables::least_offset(&self.bounds, own, usize::from(*clock));
                let moved = (*offset + i16::from(step)).min(127);
                *offset = [least, 127, moved, moved][end];
            }
        }
    }

    /// An update reads another clock, with the least offset that is lawful there.
    fn change_clock_read(&mut self, random: &mut Random, own: usize) {
        let other = random.below(self.clocks());
        if let Update::Clock { clock, offset, .. } = &mut self.edge.updates[own] {
            *clock = other as u8;
            *offset = tables::least_offset(&self.bounds, own, other);
        }
    }

    /// One guard more, one fewer, or another in its place.
    fn change_guards(&mut self, random: &mut Random) {
        let guards = &mut self.edge.guards;
        let is_more = guards.is_empty() || random.once_in(3);
        if !is_more {
            guards.swap_remove(random.below(guards.len()));
        }
        if guards.len() < GREATEST_GUARDS && (is_more || random.once_in(2)) {
            guards.push(tables::guard(random, &self.bounds));
        }
    }

    /// The number of locations, or which of them the edge joins or runs begin in.
    fn change_locations(&mut self, random: &mut Random) {
        let any = random.below(self.shares.len()) as u8;
        match random.below(5) {
            0 => self.edge.source = any,
            1 => self.edge.target = any,
            2 => self.initial = any,
            3 if self.shares.len() < MOST_LOCATIONS => {
                let share = self.random_share(random);
                self.shares.push(share);
            }
            _ if self.shares.len() > 1 => self.drop_last_location(),
            _ => {}
        }
    }

    fn drop_last_location(&mut self) {
        self.shares.pop();
        let last = self.shares.len() as u8 - 1;
        for location in [
            &mut self.edge.source,
            &mut self.edge.target,
            &mut self.initial,
        ] {
            *location = last.min(*location);
        }
    }

    /// Which clocks are always equal. They are mostly kept then, and so are the rows with them.
    fn change_twins(&mut self, random: &mut Random) {
        self.pair_clocks(random);
        self.keep_twins(random);
        for share in &mut self.shares {
            if *share == Share::All {
                *share = Share::Equal;
            }
        }
    }

    /// Two clocks change places: the order of the rows is another then.
    fn exchange_clocks(&mut self, random: &mut Random) {
        let mut order: Vec<usize> = (0..self.clocks()).collect();
        order.swap(random.below(self.clocks()), random.below(self.clocks()));
        self.rearrange(&order);
    }

    /// A clock more, behind the others, or one fewer.
    fn change_clocks(&mut self, random: &mut Random) {
        let clocks = self.clocks();
        let is_more = clocks == 1 || random.once_in(2);
        if is_more && clocks < GREATEST_CLOCKS {
            self.add_clock(random);
        } else if clocks > 1 {
            let left_out = random.below(clocks);
            let order: Vec<usize> = (0..clocks).filter(|clock| *clock != left_out).collect();
            self.rearrange(&order);
        }
    }

    fn add_clock(&mut self, random: &mut Random) {
        let own = self.clocks();
        self.bounds.push(random.below(3) as u8);
        self.twins.push(own);
        let update = random_update(random, &self.bounds, own);
        self.edge.updates.push(update);
        for share in &mut self.shares {
            if let Share::Row(point) = share {
                point.push(0);
            }
        }
    }

    /// The clock at each place becomes the one that stood where `order` says; a clock that
    /// `order` leaves out is gone, with the guards on it, and what was read from it is kept.
    fn rearrange(&mut self, order: &[usize]) {
        let place = |clock: usize| order.iter().position(|old| *old == clock);
        let new_name = |clock: u8| place(usize::from(clock)).map(|new| new as u8);
        self.edge.guards.retain_mut(|guard| {
            let renamed = new_name(guard.clock);
            guard.clock = renamed.unwrap_or(0);
            renamed.is_some()
        });
        let renamed = |update: Update| match update {
            Update::Clock {
                comparison,
                clock,
                offset,
            } => new_name(clock).map_or(Update::Keep, |clock| Update::Clock {
                comparison,
                clock,
                offset,
            }),
            other => other,
        };
        let updates = &self.edge.updates;
        self.edge.updates = order.iter().map(|old| renamed(updates[*old])).collect();
        for share in &mut self.shares {
            if let Share::Row(point) = share {
                // A clock's own value may mean nothing so far, if it equals one before it.
                *point = order.iter().map(|old| point[self.twins[*old]]).collect();
            }
        }
        self.bounds = order.iter().map(|old| self.bounds[*old]).collect();
        let classes: Vec<usize> = order.iter().map(|old| self.twins[*old]).collect();
        let first = |class: &usize| classes.iter().position(|other| other == class);
        self.twins = classes.iter().filter_map(first).collect();
    }
}
