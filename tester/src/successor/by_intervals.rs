//! Next rows of an edge by intervals and the order of fractional parts.
//!
//! An update permits a contiguous range of intervals, of which '≠' leaves out the
//! one its term is, if that is a whole value. Within the range it restricts the
//! fractional part only in the open interval its term lies in (the pivot). There
//! the new part stands below, at, above or beside an old one. The old parts cut
//! the stretch from 0 to 1 into positions: 0 is the gap below the first old part,
//! 1 is the first part itself, 2 the gap above it, and so on. Gaps (even) hold any
//! number of different new parts, an old part (odd) one. So the permitted
//! positions are a range too, of which '≠' leaves out an old part, never a gap.

use crate::automaton::{Automaton, Comparison, Edge, Guard, Term, Update, GREATEST_CLOCKS};
use crate::region::{is_whole, top, Region};
use std::cmp::Ordering;

/// Whether a guard holds in a row. Its constant is at most the bound, so the
/// interval 2 * constant is the constant itself, and others lie wholly beside it.
pub fn guard_holds(row: Region, guard: &Guard) -> bool {
    let interval = row.interval(usize::from(guard.clock));
    guard.comparison.holds(interval.cmp(&(2 * guard.constant)))
}

/// Whether the edge can be taken from the row, updates left aside.
pub fn is_enabled(edge: &Edge, row: Region) -> bool {
    edge.source == row.location() && edge.guards.iter().all(|guard| guard_holds(row, guard))
}

/// What one update permits.
#[derive(Clone, Copy, Debug, Default, PartialEq, Eq)]
pub struct Choice {
    intervals: Span,
    /// The top interval of the clock, where no fractional part counts.
    top: u8,
    /// The open interval in which the term lies, or `NO_PIVOT`.
    pivot: u8,
    /// At the pivot, the permitted positions.
    positions: Span,
}

/// An even number: a pivot is always odd.
const NO_PIVOT: u8 = 0;

/// The numbers from first to last, both included, but for the hole.
#[derive(Clone, Copy, Debug, Default, PartialEq, Eq)]
struct Span {
    first: u8,
    last: u8,
    hole: Option<u8>,
}

impl Span {
    /// The numbers from 0 to `last` that stand in the comparison to `middle`, if there are any;
    /// `middle` itself is one of them only if it is included.
    fn new(comparison: Comparison, middle: i32, is_included: bool, last: u8) -> Option<Span> {
        let step = i32::from(!is_included);
        let first = match comparison.holds(Ordering::Less) {
            true => 0,
            false => (middle + step).max(0),
        };
        let last = match comparison.holds(Ordering::Greater) {
            true => i32::from(last),
            false => middle - step,
        };
        let has_hole = !is_included && (first..=last).contains(&middle);
        (first <= last).then_some(Span {
            first: first as u8,
            last: last as u8,
            hole: has_hole.then_some(middle as u8),
        })
    }

    /// The number, or the next one if it is the hole. A hole is never last: behind a whole value
    /// there is the top, and behind an old part a gap.
    fn past_hole(&self, number: u8) -> u8 {
        number + u8::from(self.hole == Some(number))
    }
}

impl Choice {
    /// What the update of `own` permits from a row; none if it permits nothing.
    fn new(
        bounds: &[u8],
        row: Region,
        own: usize,
        update: Update,
        last_position: u8,
    ) -> Option<Choice> {
        let (comparison, term) = update.relation(own);
        let top = top(bounds[own]);
        let (interval, rank) = term_interval(bounds, row, term);
        // Beyond the bound of z there is one interval only. The bound rule puts
        // the term there whenever y is at the top.
        let interval = interval.min(i32::from(top));
        // An open interval (the top too) has values on both sides of the term.
        let is_open = interval % 2 != 0;
        let at = comparison.holds(Ordering::Equal);
        let intervals = Span::new(comparison, interval, at || is_open, top)?;
        let is_pinned = is_open && (0..i32::from(top)).contains(&interval);
        let (pivot, positions) = match is_pinned {
            true => {
                let position = 2 * i32::from(rank) - 1;
                let positions = Span::new(comparison, position, at, last_position)?;
                (interval as u8, positions)
            }
            false => (NO_PIVOT, Span::default()),
        };
        Some(Choice {
            intervals,
            top,
            pivot,
            positions,
        })
    }

    /// The least permitted interval.
    fn first(&self) -> u8 {
        self.intervals.past_hole(self.intervals.first)
    }

    /// The least permitted interval above a permitted one.
    fn after(&self, interval: u8) -> Option<u8> {
        (interval < self.intervals.last).then(|| self.intervals.past_hole(interval + 1))
    }

    fn is_open(&self, interval: u8) -> bool {
        !is_whole(interval) && interval != self.top
    }

    fn is_pinned(&self, interval: u8) -> bool {
        interval == self.pivot && self.pivot != NO_PIVOT
    }
}

/// The interval a term lies in, counted on without a top, and its rank.
fn term_interval(bounds: &[u8], row: Region, term: Term) -> (i32, u8) {
    match term {
        Term::Constant(constant) => (2 * i32::from(constant), 0),
        Term::Clock { clock, .. } if row.interval(clock) == top(bounds[clock]) => (i32::MAX, 0),
        Term::Clock { clock, offset } => (
            i32::from(row.interval(clock)) + 2 * i32::from(offset),
            row.rank(clock),
        ),
    }
}

/// What every update of an edge permits from a row.
#[derive(Clone, Debug)]
pub struct Choices {
    pub clocks: usize,
    pub each: [Choice; GREATEST_CLOCKS],
    /// The gap above the greatest old fractional part.
    last_position: u8,
}

impl Choices {
    /// None if the edge cannot be taken or some update permits nothing.
    pub fn new(automaton: &Automaton, edge: &Edge, row: Region) -> Option<Choices> {
        if !is_enabled(edge, row) {
            return None;
        }
        let last_position = 2 * row.greatest_rank();
        let mut each = [Choice::default(); GREATEST_CLOCKS];
        for (clock, update) in edge.updates.iter().enumerate() {
            each[clock] = Choice::new(&automaton.bounds, row, clock, *update, last_position)?;
        }
        Some(Choices {
            clocks: automaton.clocks(),
            each,
            last_position,
        })
    }

    /// A position for each rank of the new row, or none if the pinned clocks
    /// leave no room for this ranking. Taking the least position that is free
    /// each time never spoils a later one.
    pub fn positions(&self, ranking: u16, pinned: u8) -> Option<[u8; GREATEST_CLOCKS + 1]> {
        let mut positions = [0; GREATEST_CLOCKS + 1];
        let mut free = 0;
        for rank in 1..=GREATEST_CLOCKS as u8 {
            let spans = || {
                let of_rank = |clock: &usize| Region::rank_in(ranking, *clock) == rank;
                let clocks = self.members(pinned).filter(of_rank);
                clocks.map(|clock| self.each[clock].positions)
            };
            let low = spans().fold(free, |low, span| low.max(span.first));
            let high = spans().fold(self.last_position, |high, span| high.min(span.last));
            // Behind an old part there is a gap, which no hole takes.
            let low = low + u8::from(spans().any(|span| span.hole == Some(low)));
            if low > high {
                return None;
            }
            positions[usize::from(rank)] = low;
            // An old part is used up by one rank, a gap never is.
            free = low + low % 2;
        }
        Some(positions)
    }

    /// The rankings of the open clocks that the pinned ones among them permit.
    ///
    /// Two pinned clocks settle how they may stand to each other, and looking at
    /// two at a time is enough: the least position a rank can take is always
    /// the low end of some clock of that rank or the gap right above the low end
    /// of some clock of a lower one. A clock that is not pinned finds room anywhere.
    /// A hole asks for one more look: it counts only where a rank has no other
    /// position, as the gaps on both sides of it serve different ranks as well.
    fn rankings(&self, open: usize, pinned: u8) -> u128 {
        let mut rankings = (1 << RANKINGS.count[open]) - 1;
        // With one pinned clock or none there is nothing to look at.
        if pinned & pinned.wrapping_sub(1) == 0 {
            return rankings;
        }
        for second in 1..self.clocks {
            for first in 0..second {
                if pinned >> first & pinned >> second & 1 != 0 {
                    rankings &= self.rankings_of_two(open, first, second);
                }
            }
        }
        for clock in self.members(pinned) {
            if let Some(hole) = self.each[clock].positions.hole {
                rankings &= !self.rankings_in_hole(open, pinned, clock, hole);
            }
        }
        rankings
    }

    /// The rankings that leave a clock no position but its hole: level with it is
    /// one that may not be below the hole, and one that may not be above.
    fn rankings_in_hole(&self, open: usize, pinned: u8, clock: usize, hole: u8) -> u128 {
        let level_with = |is_end: fn(&Span, u8) -> bool| {
            self.members(pinned)
                .filter(|other| *other != clock && is_end(&self.each[*other].positions, hole))
                .fold(0, |rankings, other| rankings | level(open, clock, other))
        };
        level_with(|span, hole| span.first == hole) & level_with(|span, hole| span.last == hole)
    }

    fn rankings_of_two(&self, open: usize, first: usize, second: usize) -> u128 {
        let (a, b) = (&self.each[first].positions, &self.each[second].positions);
        let [below, level, above] = &RANKINGS.order[open][first][second];
        // Strictly above an old part begins the gap behind it.
        let strictly_above = |low: u8| low + low % 2;
        let if_so = |permitted: bool, rankings: &u128| if permitted { *rankings } else { 0 };
        if_so(strictly_above(a.first) <= b.last, below)
            | if_so(a.first <= b.last && b.first <= a.last, level)
            | if_so(strictly_above(b.first) <= a.last, above)
    }

    /// The clocks whose new interval lies at their pivot, one bit each.
    pub fn pinned(&self, row: Region) -> u8 {
        (0..self.clocks)
            .filter(|clock| self.each[*clock].is_pinned(row.interval(*clock)))
            .fold(0, |bits, clock| bits | 1 << clock)
    }

    /// The clocks of a set given by bits.
    fn members(&self, set: u8) -> impl Iterator<Item = usize> {
        (0..self.clocks).filter(move |clock| set >> clock & 1 != 0)
    }
}

const RANKING_CAP: usize = 75;

/// All rankings of a set of clocks, ascending: the clocks in the set have ranks
/// 1, 2, .. with none missing, the others 0. Sets are numbers, one bit a clock.
struct Rankings {
    count: [usize; 16],
    list: [[u16; RANKING_CAP]; 16],
    /// For a set and two clocks, the first one less in number: which of its
    /// rankings put the first below, level with and above the second.
    order: [[[[u128; 3]; GREATEST_CLOCKS]; GREATEST_CLOCKS]; 16],
}

static RANKINGS: Rankings = rankings();

/// The rankings of a set that put two of its clocks level.
fn level(set: usize, one: usize, other: usize) -> u128 {
    RANKINGS.order[set][one.min(other)][one.max(other)][1]
}

const fn rankings() -> Rankings {
    let mut all = Rankings {
        count: [0; 16],
        list: [[0; RANKING_CAP]; 16],
        order: [[[[0; 3]; GREATEST_CLOCKS]; GREATEST_CLOCKS]; 16],
    };
    // 5^4 vectors of ranks 0 to 4, in ascending order.
    let mut index = 0;
    while index < 625 {
        let ranks = [
            (index / 125) as u8,
            (index / 25 % 5) as u8,
            (index / 5 % 5) as u8,
            (index % 5) as u8,
        ];
        let (mut bits, mut set, mut used, mut clock) = (0, 0, 0_u32, 0);
        while clock < GREATEST_CLOCKS {
            bits |= Region::rank_bits(clock, ranks[clock]);
            set |= ((ranks[clock] > 0) as usize) << clock;
            used |= (1 << ranks[clock]) & !1;
            clock += 1;
        }
        // None missing: the used ranks are bits 1, 2, .. without a hole.
        if (used + 2) & used == 0 {
            let number = all.count[set];
            all.list[set][number] = bits;
            all.count[set] += 1;
            note_order(&mut all.order[set], &ranks, 1 << number);
        }
        index += 1;
    }
    all
}

/// Marks a ranking, given as a bit, under the order it gives each two clocks.
const fn note_order(
    order: &mut [[[u128; 3]; GREATEST_CLOCKS]; GREATEST_CLOCKS],
    ranks: &[u8; GREATEST_CLOCKS],
    bit: u128,
) {
    let mut second = 1;
    while second < GREATEST_CLOCKS {
        let mut first = 0;
        while first < second {
            let below = (ranks[first] < ranks[second]) as usize;
            let above = (ranks[first] > ranks[second]) as usize;
            order[first][second][1 + above - below] |= bit;
            first += 1;
        }
        second += 1;
    }
}

/// The next rows of an edge, ascending, none twice. Only permitted intervals
/// are visited, and each combination of them yields at least one row.
pub struct NextRows {
    choices: Option<Choices>,
    target: u8,
    intervals: [u8; GREATEST_CLOCKS],
    interval_bits: u64,
    /// The clocks that are open in the present combination, one bit each.
    open: usize,
    /// Which rankings of the open clocks are still to be yielded.
    waiting: u128,
}

impl NextRows {
    pub fn new(automaton: &Automaton, edge: &Edge, row: Region) -> Self {
        let mut next_rows = NextRows {
            choices: Choices::new(automaton, edge, row),
            target: edge.target,
            intervals: [0; GREATEST_CLOCKS],
            interval_bits: 0,
            open: 0,
            waiting: 0,
        };
        if let Some(choices) = &next_rows.choices {
            for clock in 0..choices.clocks {
                next_rows.intervals[clock] = choices.each[clock].first();
            }
            next_rows.settle();
        }
        next_rows
    }

    /// Moves to the next combination of intervals; false after the last.
    fn advance(&mut self) -> bool {
        let Some(choices) = &self.choices else {
            return false;
        };
        for clock in (0..choices.clocks).rev() {
            if let Some(interval) = choices.each[clock].after(self.intervals[clock]) {
                self.intervals[clock] = interval;
                self.settle();
                return true;
            }
            self.intervals[clock] = choices.each[clock].first();
        }
        self.choices = None;
        false
    }

    /// Finds the rankings for the present combination of intervals.
    fn settle(&mut self) {
        let Some(choices) = &self.choices else {
            return;
        };
        let (mut open, mut pinned, mut bits) = (0, 0, 0);
        for clock in 0..choices.clocks {
            let interval = self.intervals[clock];
            bits |= Region::interval_bits(clock, interval);
            open |= usize::from(choices.each[clock].is_open(interval)) << clock;
            pinned |= u8::from(choices.each[clock].is_pinned(interval)) << clock;
        }
        self.interval_bits = bits;
        self.open = open;
        self.waiting = choices.rankings(open, pinned);
    }
}

impl Iterator for NextRows {
    type Item = Region;

    fn next(&mut self) -> Option<Region> {
        while self.waiting == 0 {
            if !self.advance() {
                return None;
            }
        }
        let index = self.waiting.trailing_zeros() as usize;
        self.waiting &= self.waiting - 1;
        let ranking = RANKINGS.list[self.open][index];
        Some(Region::packed(self.target, self.interval_bits, ranking))
    }
}
