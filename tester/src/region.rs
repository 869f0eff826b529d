//! Regions: rows of location, intervals and ranks, and what waiting does to them.

use crate::automaton::{Automaton, GREATEST_CLOCKS};
use std::fmt;

/// One row, packed so that the order of the numbers is the order of the rows:
/// location, then intervals clock by clock, then ranks clock by clock. Clocks
/// that the automaton lacks stay 0. Four bits are enough for a rank (at most 4).
#[derive(Clone, Copy, PartialEq, Eq, PartialOrd, Ord, Hash)]
pub struct Region(u64);

const LOCATION_SHIFT: u32 = 48;

const fn interval_shift(clock: usize) -> u32 {
    40 - 8 * clock as u32
}

const fn rank_shift(clock: usize) -> u32 {
    12 - 4 * clock as u32
}

impl Region {
    /// Packs a row; its ranks have to be at most 4 (see `is_row`).
    pub fn new(location: u8, intervals: &[u8], ranks: &[u8]) -> Self {
        let mut bits = u64::from(location) << LOCATION_SHIFT;
        for (clock, interval) in intervals.iter().enumerate() {
            bits |= u64::from(*interval) << interval_shift(clock);
        }
        for (clock, rank) in ranks.iter().enumerate() {
            debug_assert!(usize::from(*rank) <= GREATEST_CLOCKS);
            bits |= u64::from(*rank) << rank_shift(clock);
        }
        Region(bits)
    }

    /// The row whose intervals and ranks are given in packed form.
    pub(crate) fn packed(location: u8, intervals: u64, ranks: u16) -> Self {
        Region(u64::from(location) << LOCATION_SHIFT | intervals | u64::from(ranks))
    }

    pub(crate) const fn interval_bits(clock: usize, interval: u8) -> u64 {
        (interval as u64) << interval_shift(clock)
    }

    pub(crate) const fn rank_bits(clock: usize, rank: u8) -> u16 {
        (rank as u16) << rank_shift(clock)
    }

    pub(crate) const fn rank_in(bits: u16, clock: usize) -> u8 {
        (bits >> rank_shift(clock)) as u8 & 15
    }

    /// The row every run starts in: initial location, then zeros.
    pub fn initial(automaton: &Automaton) -> Self {
        Region::new(automaton.initial, &[], &[])
    }

    pub fn location(self) -> u8 {
        (self.0 >> LOCATION_SHIFT) as u8
    }

    pub fn interval(self, clock: usize) -> u8 {
        (self.0 >> interval_shift(clock)) as u8
    }

    pub fn rank(self, clock: usize) -> u8 {
        (self.0 >> rank_shift(clock)) as u8 & 15
    }

    pub fn greatest_rank(self) -> u8 {
        (0..GREATEST_CLOCKS)
            .map(|clock| self.rank(clock))
            .max()
            .unwrap_or(0)
    }

    pub fn with_location(self, location: u8) -> Self {
        Region(self.0 & !(0xFF << LOCATION_SHIFT) | u64::from(location) << LOCATION_SHIFT)
    }

    fn with_clock(self, clock: usize, interval: u8, rank: u8) -> Self {
        let cleared = self.0 & !(0xFF << interval_shift(clock)) & !(0xF << rank_shift(clock));
        let interval = u64::from(interval) << interval_shift(clock);
        Region(cleared | interval | u64::from(rank) << rank_shift(clock))
    }

    /// Waiting: the row entered next as time passes, none if all clocks are at the top.
    pub fn time_successor(self, bounds: &[u8]) -> Option<Region> {
        let some_whole = (0..bounds.len()).any(|clock| is_whole(self.interval(clock)));
        if some_whole {
            Some(self.leave_whole_values(bounds))
        } else {
            self.reach_whole_values(bounds)
        }
    }

    /// The clocks at a whole value move on, and only those.
    fn leave_whole_values(self, bounds: &[u8]) -> Region {
        let enters_open = |clock: usize| {
            is_whole(self.interval(clock)) && self.interval(clock) < 2 * bounds[clock]
        };
        // A clock that just left a whole value has the least fractional part of all.
        let growth = u8::from((0..bounds.len()).any(enters_open));
        let mut next = self;
        for clock in 0..bounds.len() {
            let (interval, rank) = (self.interval(clock), self.rank(clock));
            if is_whole(interval) {
                next = next.with_clock(clock, interval + 1, u8::from(enters_open(clock)));
            } else if rank > 0 {
                next = next.with_clock(clock, interval, rank + growth);
            }
        }
        next
    }

    /// The clocks of the greatest fractional part get to the next whole value first.
    fn reach_whole_values(self, bounds: &[u8]) -> Option<Region> {
        let greatest = self.greatest_rank();
        if greatest == 0 {
            return None;
        }
        let mut next = self;
        for clock in 0..bounds.len() {
            if self.rank(clock) == greatest {
                next = next.with_clock(clock, self.interval(clock) + 1, 0);
            }
        }
        Some(next)
    }

    /// Whether the values, whole counts of 1/scale, lie in the row.
    pub fn contains(self, bounds: &[u8], values: &[i64], scale: i64) -> bool {
        let clocks = 0..bounds.len();
        let in_intervals = clocks.clone().all(|clock| {
            let interval = self.interval(clock);
            let floor = i64::from(interval / 2) * scale;
            let value = values[clock];
            if interval == top(bounds[clock]) {
                value > floor
            } else if is_whole(interval) {
                value == floor
            } else {
                floor < value && value < floor + scale
            }
        });
        let ranked: Vec<usize> = clocks.filter(|clock| self.rank(*clock) > 0).collect();
        let in_order = ranked.iter().all(|first| {
            ranked.iter().all(|second| {
                let fractions = (values[*first] % scale).cmp(&(values[*second] % scale));
                self.rank(*first).cmp(&self.rank(*second)) == fractions
            })
        });
        in_intervals && in_order
    }

    /// The row record.
    pub fn record(self, clocks: usize) -> Vec<u8> {
        let mut record = vec![0; row_length(clocks)];
        self.write(clocks, &mut record);
        record
    }

    /// Writes the row record into the first bytes of `bytes`.
    pub fn write(self, clocks: usize, bytes: &mut [u8]) {
        bytes[..2].copy_from_slice(b"RW");
        bytes[2] = self.location();
        for clock in 0..clocks {
            bytes[3 + clock] = self.interval(clock);
            bytes[3 + clocks + clock] = self.rank(clock);
        }
    }
}

impl fmt::Debug for Region {
    fn fmt(&self, out: &mut fmt::Formatter) -> fmt::Result {
        let intervals: Vec<u8> = (0..GREATEST_CLOCKS).map(|z| self.interval(z)).collect();
        let ranks: Vec<u8> = (0..GREATEST_CLOCKS).map(|z| self.rank(z)).collect();
        write!(out, "({} {:?} {:?})", self.location(), intervals, ranks)
    }
}

/// The interval of every value above the bound.
pub fn top(bound: u8) -> u8 {
    2 * bound + 1
}

/// Whether an interval is a single whole value.
pub fn is_whole(interval: u8) -> bool {
    interval & 1 == 0
}

/// Bytes of a row record.
pub fn row_length(clocks: usize) -> usize {
    3 + 2 * clocks
}

/// Whether raw fields are a row of the automaton.
pub fn is_row(automaton: &Automaton, location: u8, intervals: &[u8], ranks: &[u8]) -> bool {
    let located = usize::from(location) < automaton.locations.len();
    let intervals_exist = intervals
        .iter()
        .zip(&automaton.bounds)
        .all(|(interval, bound)| *interval <= top(*bound));
    located && intervals_exist && ranks_fit(&automaton.bounds, intervals, ranks)
}

/// Rank 0 exactly at whole values and at the top; of the others none missing.
fn ranks_fit(bounds: &[u8], intervals: &[u8], ranks: &[u8]) -> bool {
    let zero_where_due = (0..bounds.len()).all(|clock| {
        let unranked = is_whole(intervals[clock]) || intervals[clock] == top(bounds[clock]);
        (ranks[clock] == 0) == unranked
    });
    let greatest = ranks.iter().copied().max().unwrap_or(0);
    zero_where_due && (1..=greatest).all(|rank| ranks.contains(&rank))
}

/// The row that contains the values, whole counts of 1/scale.
pub fn region_of(location: u8, bounds: &[u8], values: &[i64], scale: i64) -> Region {
    let clocks = bounds.len();
    let mut intervals = [0; GREATEST_CLOCKS];
    let mut fractions = [0; GREATEST_CLOCKS];
    for clock in 0..clocks {
        let (value, bound) = (values[clock], bounds[clock]);
        if value > i64::from(bound) * scale {
            intervals[clock] = top(bound);
        } else {
            fractions[clock] = value % scale;
            intervals[clock] = 2 * (value / scale) as u8 + u8::from(fractions[clock] > 0);
        }
    }
    let ranks = ranks_of(&fractions);
    Region::new(location, &intervals[..clocks], &ranks[..clocks])
}

/// Rank of a positive fraction: how many different positive ones are not above it.
fn ranks_of(fractions: &[i64; GREATEST_CLOCKS]) -> [u8; GREATEST_CLOCKS] {
    let mut ascending = *fractions;
    ascending.sort_unstable();
    let mut ranks = [0; GREATEST_CLOCKS];
    let (mut rank, mut previous) = (0, 0);
    for fraction in ascending {
        if fraction > previous {
            rank += 1;
            previous = fraction;
        }
        for clock in 0..GREATEST_CLOCKS {
            if fraction > 0 && fractions[clock] == fraction {
                ranks[clock] = rank;
            }
        }
    }
    ranks
}

/// Every row of an automaton, ascending; none if there are more than `cap`.
pub fn all_rows(automaton: &Automaton, cap: usize) -> Option<Vec<Region>> {
    let mut rows = Vec::new();
    let clocks = automaton.clocks();
    for location in 0..automaton.locations.len() as u8 {
        let tops: Vec<u8> = automaton.bounds.iter().map(|bound| top(*bound)).collect();
        for intervals in Counter::new(&tops) {
            for ranks in Counter::new(&vec![clocks as u8; clocks]) {
                if is_row(automaton, location, &intervals, &ranks) {
                    rows.push(Region::new(location, &intervals, &ranks));
                }
            }
            if rows.len() > cap {
                return None;
            }
        }
    }
    Some(rows)
}

/// Counts through all vectors from zeros to the given last digits, ascending.
struct Counter<'last> {
    last: &'last [u8],
    next: Option<Vec<u8>>,
}

impl<'last> Counter<'last> {
    fn new(last: &'last [u8]) -> Self {
        Counter {
            last,
            next: Some(vec![0; last.len()]),
        }
    }
}

impl Iterator for Counter<'_> {
    type Item = Vec<u8>;

    fn next(&mut self) -> Option<Vec<u8>> {
        let digits = self.next.take()?;
        let mut after = digits.clone();
        for index in (0..after.len()).rev() {
            if after[index] < self.last[index] {
                after[index] += 1;
                self.next = Some(after);
                break;
            }
            after[index] = 0;
        }
        Some(digits)
    }
}
