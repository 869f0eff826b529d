//! Lists that lack rows, each beside the closed list that it was made from: of the benchmark's plain
//! ones and of those that the search found. All have 256 edges, the most that a table has, and no
//! row that is left out is one that waiting leads to, so that only edges miss it.

use crate::answer::{number, Answer, Refusal};
use crate::automaton::Comparison::{AtLeast, AtMost, Equal, Greater, Less, NotEqual};
use crate::automaton::{Automaton, Edge, Guard, Update, GREATEST_EDGES};
use crate::explore::closure;
use crate::region::{top, Region};
use crate::region_list::GREATEST_ROWS;
use crate::slow::falling::falling_guards;
use crate::slow::rows::rows_of;
use crate::slow::OpenList;

/// A list that is refused by 17.
#[derive(Clone, Copy, Debug)]
pub struct RefusedList {
    pub name: &'static str,
    /// The least row that lacks a next row.
    pub place: u16,
    make: fn() -> OpenList,
}

impl RefusedList {
    /// The table and both lists.
    pub fn lists(&self) -> OpenList {
        (self.make)()
    }

    /// The answer that the list has to get.
    pub fn expected(&self) -> Answer {
        Refusal::new(number::NEXT_ROW_MISSING, self.place).into()
    }
}

/// All of them, in the order in which they are timed.
pub fn refused_lists() -> Vec<RefusedList> {
    let mut lists = last_edge_open();
    lists.extend(most_rows_open());
    lists.extend(opened_by_offsets());
    lists.extend(opened_by_guards());
    lists
}

fn list(name: &'static str, place: u16, make: fn() -> OpenList) -> RefusedList {
    RefusedList { name, place, make }
}

/// One row lacks a next row, the last one, and by the last edge alone.
fn last_edge_open() -> Vec<RefusedList> {
    vec![
        list("last edge open: two clocks kept", 3_799, last_of_two_kept),
        list(
            "last edge open: found by the search, ≠ the second clock",
            4_016,
            last_of_found,
        ),
    ]
}

/// By each edge nearly every row lacks a next row; in the last list it is five of six.
fn most_rows_open() -> Vec<RefusedList> {
    vec![
        list(
            "most rows open: one kept, one down",
            53,
            most_of_kept_and_down,
        ),
        list(
            "most rows open: found by the search, three clocks kept",
            35,
            most_of_three_kept,
        ),
        list(
            "most rows open: found by the search, ≠ the second clock",
            42,
            most_of_found,
        ),
    ]
}

/// By nearly each edge an earlier row lacks a next row than by those before it, and rows before that one
/// lack none, though the edge can be taken in them too.
fn opened_by_offsets() -> Vec<RefusedList> {
    vec![
        list(
            "each edge opens earlier: offsets, one kept",
            1,
            offsets_beside_kept,
        ),
        list(
            "each edge opens earlier: offsets, one down",
            1,
            offsets_beside_down,
        ),
        list(
            "each edge opens earlier: offsets, two ≠ the third",
            2,
            offsets_beside_not_equal,
        ),
        list(
            "each edge opens earlier: offsets to the middle, one down",
            1_793,
            halfway_beside_down,
        ),
        list(
            "each edge opens earlier: offsets to the middle, two ≠ the third",
            1_282,
            halfway_beside_not_equal,
        ),
    ]
}

/// The same by guards: the edge cannot be taken in the rows before.
fn opened_by_guards() -> Vec<RefusedList> {
    vec![
        list(
            "each edge opens earlier: guards, both down",
            11,
            guards_of_both_down,
        ),
        list(
            "each edge opens earlier: guards, deterministic",
            11,
            guards_of_deterministic,
        ),
        list(
            "each edge opens earlier: guards, no clock read",
            1,
            guards_of_constants,
        ),
        list(
            "each edge opens earlier: found by the search, three clocks kept",
            35,
            guards_of_three_kept,
        ),
        list(
            "each edge opens earlier: found by the search, ≠ the second clock",
            42,
            guards_of_found,
        ),
    ]
}

const KEPT: Update = Update::Keep;

const fn down(own: usize) -> Update {
    Update::to_clock(AtMost, own, 0)
}

/// An edge from the first location to itself.
fn looping(guards: Vec<Guard>, updates: &[Update]) -> Edge {
    Edge {
        source: 0,
        target: 0,
        guards,
        updates: updates.to_vec(),
    }
}

fn copies(bounds: &[u8], updates: &[Update]) -> Automaton {
    let edges = vec![looping(vec![], updates); GREATEST_EDGES];
    Automaton::without_final(1, bounds, edges)
}

/// The edge again and again, with guards on some clocks that fall.
fn with_falling_guards(bounds: &[u8], clocks: &[usize], updates: &[Update]) -> Automaton {
    let guards = falling_guards(bounds, clocks, GREATEST_EDGES);
    let edges = guards.into_iter().map(|guards| looping(guards, updates));
    Automaton::without_final(1, bounds, edges.collect())
}

/// All rows of the first location.
fn all_rows(bounds: &[u8]) -> Vec<Region> {
    let each: Vec<usize> = (0..bounds.len()).collect();
    rows_of(0, bounds, &each)
}

/// The rows that one edge leads to from the initial one.
fn reached(bounds: &[u8], updates: &[Update]) -> Vec<Region> {
    let one = Automaton::without_final(1, bounds, vec![looping(vec![], updates)]);
    closure(&one, GREATEST_ROWS.into()).rows
}

/// Copies of an edge, and last one more that can be taken in the last row alone and leads to the only
/// row of another location, which is left out.
fn open_by_last_edge(bounds: &[u8], updates: &[Update], mut rows: Vec<Region>) -> OpenList {
    let mut automaton = copies(bounds, updates);
    automaton.locations.push(automaton.locations[0]);
    let above = |(clock, bound): (u8, &u8)| Guard {
        clock,
        comparison: Greater,
        constant: *bound,
    };
    automaton.edges[GREATEST_EDGES - 1] = Edge {
        source: 0,
        target: 1,
        guards: (0..).zip(bounds).map(above).collect(),
        updates: (0..bounds.len())
            .map(|own| Update::to_clock(AtLeast, own, 0))
            .collect(),
    };
    let tops: Vec<u8> = bounds.iter().map(|bound| top(*bound)).collect();
    rows.push(Region::new(1, &tops, &[]));
    OpenList::new(automaton, rows, |row| row.location() == 1)
}

/// The benchmark's "two clocks kept".
fn last_of_two_kept() -> OpenList {
    let bounds = [7; 4];
    let up = |own| Update::to_clock(AtLeast, own, 0);
    let updates = [KEPT, KEPT, up(2), up(3)];
    open_by_last_edge(&bounds, &updates, reached(&bounds, &updates))
}

/// The benchmark's "≠ the second clock, one kept", which the search found, with the kept clock first.
const FOUND_BOUNDS: [u8; 4] = [34, 0, 1, 1];
const FOUND_UPDATES: [Update; 4] = {
    let second = Update::to_clock(NotEqual, 2, 0);
    [KEPT, second, second, second]
};

fn last_of_found() -> OpenList {
    open_by_last_edge(&FOUND_BOUNDS, &FOUND_UPDATES, all_rows(&FOUND_BOUNDS))
}

/// Whether all clocks but the first are 0, and that one is not: only an edge leads there.
fn is_first_alone(row: &Region) -> bool {
    row.interval(0) > 0 && (1..4).all(|clock| row.interval(clock) == 0)
}

/// Missed by all rows with the third clock above 0.
fn most_of_found() -> OpenList {
    let automaton = copies(&FOUND_BOUNDS, &FOUND_UPDATES);
    OpenList::new(automaton, all_rows(&FOUND_BOUNDS), is_first_alone)
}

fn guards_of_found() -> OpenList {
    let automaton = with_falling_guards(&FOUND_BOUNDS, &[0, 1, 2, 3], &FOUND_UPDATES);
    OpenList::new(automaton, all_rows(&FOUND_BOUNDS), is_first_alone)
}

/// The benchmark's "three clocks kept", which the search found, with the kept clocks first. They are
/// always equal in the rows that are reached.
const EQUAL_BOUNDS: [u8; 4] = [38, 39, 39, 16];
const EQUAL_UPDATES: [Update; 4] = [KEPT, KEPT, KEPT, Update::to_clock(NotEqual, 0, 127)];

/// Whether the last clock alone is 0: only an edge leads there, from all rows with the other clocks as
/// they are.
fn is_last_at_zero(row: &Region) -> bool {
    row.interval(0) > 0 && row.interval(3) == 0
}

fn most_of_three_kept() -> OpenList {
    let automaton = copies(&EQUAL_BOUNDS, &EQUAL_UPDATES);
    let rows = reached(&EQUAL_BOUNDS, &EQUAL_UPDATES);
    OpenList::new(automaton, rows, is_last_at_zero)
}

fn guards_of_three_kept() -> OpenList {
    let automaton = with_falling_guards(&EQUAL_BOUNDS, &[0, 3], &EQUAL_UPDATES);
    let rows = reached(&EQUAL_BOUNDS, &EQUAL_UPDATES);
    OpenList::new(automaton, rows, is_last_at_zero)
}

/// Whether the second clock alone is 0.
fn is_second_at_zero(row: &Region) -> bool {
    row.interval(0) > 0 && row.interval(1) == 0
}

const BROAD: [u8; 2] = [25, 25];
const LONG: [u8; 2] = [127, 4];

fn most_of_kept_and_down() -> OpenList {
    let automaton = copies(&BROAD, &[KEPT, down(1)]);
    OpenList::new(automaton, all_rows(&BROAD), is_second_at_zero)
}

/// The first clock becomes less than it was, at most that, less than that and 1, at most that and 1, and so
/// on: from step to step its bound is reached from one interval more, the one before.
fn growing_offset(step: usize) -> Update {
    let comparison = [Less, AtMost][step % 2];
    Update::to_clock(comparison, 0, step as i16 / 2)
}

/// All rows but the one with the first clock at its bound and the others at 0.
fn open_at_bound(bounds: &[u8], edges: impl Iterator<Item = Edge>) -> OpenList {
    let automaton = Automaton::without_final(1, bounds, edges.collect());
    let at_bound = Region::new(0, &[2 * bounds[0]], &[]);
    OpenList::new(automaton, all_rows(bounds), |row| *row == at_bound)
}

/// An edge for each step, so that the last is open from the first interval on.
fn with_growing_offsets(bounds: &[u8], others: &[Update]) -> OpenList {
    let edges = (0..GREATEST_EDGES)
        .map(|edge| looping(vec![], &[&[growing_offset(edge)], others].concat()));
    open_at_bound(bounds, edges)
}

/// Two edges for each step, the first of them for rows with the second clock above 0 alone. So half of
/// the rows are before the place that comes of it, and stay to be looked at for each edge.
fn with_growing_offsets_halfway(bounds: &[u8], others: &[Update]) -> OpenList {
    let above_0 = Guard {
        clock: 1,
        comparison: Greater,
        constant: 0,
    };
    let edges = (0..GREATEST_EDGES).map(|edge| {
        let guards = [vec![above_0], vec![]];
        let updates = [&[growing_offset(edge / 2)], others].concat();
        looping(guards[edge % 2].clone(), &updates)
    });
    open_at_bound(bounds, edges)
}

/// Missed by rows with the second clock at 0.
fn offsets_beside_kept() -> OpenList {
    with_growing_offsets(&LONG, &[KEPT])
}

/// Missed whatever the second clock is.
fn offsets_beside_down() -> OpenList {
    with_growing_offsets(&LONG, &[down(1)])
}

fn halfway_beside_down() -> OpenList {
    with_growing_offsets_halfway(&LONG, &[down(1)])
}

/// Two clocks by '≠', so that there are four choices of sides.
const SIDED: [u8; 3] = [127, 0, 1];
const BY_SIDES: [Update; 2] = [Update::to_clock(NotEqual, 2, 0); 2];

/// Missed by rows with the third clock above 0.
fn offsets_beside_not_equal() -> OpenList {
    with_growing_offsets(&SIDED, &BY_SIDES)
}

fn halfway_beside_not_equal() -> OpenList {
    with_growing_offsets_halfway(&SIDED, &BY_SIDES)
}

fn guards_of_both_down() -> OpenList {
    let automaton = with_falling_guards(&LONG, &[0, 1], &[down(0), down(1)]);
    OpenList::new(automaton, all_rows(&LONG), |row| {
        (row.interval(0), row.interval(1)) == (1, 0)
    })
}

fn guards_of_deterministic() -> OpenList {
    let reset = Update::to_constant(Equal, 0);
    let automaton = with_falling_guards(&LONG, &[0, 1], &[KEPT, reset]);
    OpenList::new(automaton, all_rows(&LONG), is_second_at_zero)
}

fn guards_of_constants() -> OpenList {
    let at_most_one = Update::to_constant(AtMost, 1);
    let automaton = with_falling_guards(&LONG, &[0, 1], &[at_most_one; 2]);
    OpenList::new(automaton, all_rows(&LONG), |row| {
        (row.interval(0), row.interval(1)) == (1, 0)
    })
}
