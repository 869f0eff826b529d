//! Tables that were found to be slow, by thought or by `slow_lists`: one location, and copies of one
//! edge without guards. They are fixed, so that times can be compared.

use super::{Rows, TimedList};
use crate::automaton::Comparison::{AtLeast, AtMost, Equal, Greater, Less, NotEqual};
use crate::automaton::{Automaton, Comparison, Edge, Guard, Update};
use crate::generate::{tables, Random};
use crate::region::Region;

/// So many copies of an edge, as in the other lists whose edges read clocks.
const COPIES: usize = 16;

const KEPT: Update = Update::Keep;

/// The clock against its own old value.
const fn itself(comparison: Comparison, own: usize) -> Update {
    Update::to_clock(comparison, own, 0)
}

fn copies(bounds: &[u8], updates: &[Update]) -> Automaton {
    let edge = Edge {
        source: 0,
        target: 0,
        guards: vec![],
        updates: updates.to_vec(),
    };
    Automaton::without_final(1, bounds, vec![edge; COPIES])
}

/// Two clocks go down and one, of bound 0, up: from whichever end rows are taken, those that come
/// first lead furthest by one kind of clock and least far by the other.
fn list_f1() -> TimedList {
    let updates = [itself(AtMost, 0), itself(AtMost, 1), itself(Greater, 2)];
    let automaton = copies(&[25, 25, 0], &updates);
    TimedList::new("F1", 1, automaton, Rows::Reached(vec![]))
}

/// A clock is read both ways, and two that are always equal are kept. All 4,952 rows in which these
/// are equal would be too many; the list has those that are reached from the initial row and from
/// x0 = 0, x1 = 51 with the others between 0 and 1.
fn list_a(name: &'static str) -> TimedList {
    let updates = [
        Update::to_clock(AtLeast, 1, -49),
        itself(AtMost, 1),
        KEPT,
        KEPT,
    ];
    let automaton = copies(&[2, 51, 1, 1], &updates);
    let further = Region::new(0, &[0, 102, 1, 1], &[0, 0, 1, 1]);
    TimedList::new(name, 1, automaton, Rows::Reached(vec![further]))
}

/// The same with a last edge that can be taken in the first row alone and makes the equal clocks differ.
fn list_a_open() -> TimedList {
    let zero = |clock| Guard {
        clock,
        comparison: Equal,
        constant: 0,
    };
    let opening = Edge {
        source: 0,
        target: 0,
        guards: vec![zero(0), zero(1), zero(2)],
        updates: vec![KEPT, KEPT, KEPT, Update::to_constant(Equal, 1)],
    };
    TimedList {
        opening: Some(opening),
        ..list_a("A open, 17 at row 1 by the last edge only")
    }
}

/// Edges of all kinds, each another.
fn mixed() -> TimedList {
    let mut random = Random::new(30_845);
    let bounds = [3, 1, 3, 1];
    let edges = (0..COPIES).map(|_| Edge {
        source: 0,
        target: 0,
        guards: vec![],
        updates: (0..bounds.len())
            .map(|own| match random.once_in(4) {
                true => Update::Keep,
                false => tables::changing_update(&mut random, &bounds, own),
            })
            .collect(),
    });
    let automaton = Automaton::without_final(1, &bounds, edges.collect());
    TimedList::new("mixed edges", 1, automaton, Rows::Reached(vec![]))
}

/// All rows of a table by its bounds and updates.
fn all(name: &'static str, bounds: &[u8], updates: &[Update]) -> TimedList {
    TimedList::new(name, 1, copies(bounds, updates), Rows::All)
}

const NARROW: [u8; 4] = [2, 2, 1, 1];
const BROAD: [u8; 2] = [25, 25];

/// Clocks that are bounded by one from above and from below, so that no order of the rows is one in
/// which the first leads furthest.
fn both_ways() -> Vec<TimedList> {
    let (up, down) = (Update::to_clock(AtLeast, 1, 0), itself(AtMost, 1));
    let four = [up, down, itself(AtLeast, 2), Update::to_clock(AtMost, 2, 0)];
    vec![
        all("read both ways", &BROAD, &[up, down]),
        all("read both ways", &NARROW, &four),
    ]
}

/// Updates that read clocks and yet forbid next to nothing, beside one that does.
fn useless() -> Vec<TimedList> {
    let beside_both_ways = [
        Update::to_clock(AtLeast, 1, -40),
        itself(AtMost, 1),
        Update::to_clock(Less, 2, 127),
    ];
    let beside_one = [
        Update::to_constant(AtLeast, 0),
        Update::to_clock(NotEqual, 2, 3),
        Update::to_clock(NotEqual, 1, 30),
        itself(NotEqual, 3),
    ];
    vec![
        all(
            "useless update, read both ways",
            &[2, 42, 1],
            &beside_both_ways,
        ),
        all("useless updates, ≠ itself", &[0, 3, 0, 43], &beside_one),
    ]
}

/// Clocks that are always equal are kept, so that of the rows with some intervals the list has a part,
/// beside others that do not stay as they were.
fn equal_kept() -> Vec<TimedList> {
    let equal = |name, bounds: &[u8], twins: &[usize], updates: &[Update]| {
        let rows = Rows::Equal(twins.to_vec());
        TimedList::new(name, 1, copies(bounds, updates), rows)
    };
    let (two, three) = (
        "two equal clocks kept, ≠ itself",
        "three equal clocks kept, ≠ itself plus 1",
    );
    let one = [KEPT, KEPT, itself(NotEqual, 2)];
    let both = [itself(NotEqual, 0), itself(NotEqual, 1), KEPT, KEPT];
    let later = [Update::to_clock(NotEqual, 0, 1), KEPT, KEPT, KEPT];
    vec![
        equal(two, &[25; 3], &[0, 0, 2], &one),
        equal(two, &[2, 42, 1, 1], &[0, 1, 2, 2], &both),
        equal(three, &[119, 5, 5, 5], &[0, 1, 1, 1], &later),
    ]
}

/// '≠' on one, two and four clocks, beside other updates.
fn not_equal() -> Vec<TimedList> {
    let changed = |own| itself(NotEqual, own);
    let (first, second) = (changed(0), changed(1));
    let both_ways = [first, second, itself(AtLeast, 2), itself(AtMost, 3)];
    let four = [first, second, changed(2), changed(3)];
    vec![
        all(
            "one ≠ itself, one free",
            &BROAD,
            &[first, Update::to_constant(AtLeast, 0)],
        ),
        all("one ≠ itself, one kept", &BROAD, &[first, KEPT]),
        all(
            "two ≠ itself, two kept",
            &NARROW,
            &[first, second, KEPT, KEPT],
        ),
        all("two ≠ itself, one up, one down", &NARROW, &both_ways),
        all("four ≠ itself", &NARROW, &four),
    ]
}

/// Lists that the search found to be the slowest, once or now.
fn searched() -> Vec<TimedList> {
    let kept = [Update::to_clock(NotEqual, 3, 127), KEPT, KEPT, KEPT];
    let second = Update::to_clock(NotEqual, 1, 0);
    let of_second = [second, second, second, KEPT];
    let first = itself(NotEqual, 0);
    let of_first = [
        first,
        itself(NotEqual, 1),
        Update::to_clock(NotEqual, 0, 0),
        KEPT,
    ];
    vec![
        TimedList::new(
            "found by the search, three clocks kept",
            1,
            copies(&[16, 38, 39, 39], &kept),
            Rows::Reached(vec![]),
        ),
        all(
            "found by the search, ≠ the second clock, one kept",
            &[0, 1, 1, 34],
            &of_second,
        ),
        all(
            "found by the search, ≠ the first clock or itself, one kept",
            &[3, 0, 3, 6],
            &of_first,
        ),
    ]
}

/// All of these.
pub fn lists() -> Vec<TimedList> {
    let mut lists = vec![list_f1(), list_a("A"), list_a_open(), mixed()];
    for more in [
        both_ways(),
        useless(),
        equal_kept(),
        not_equal(),
        searched(),
    ] {
        lists.extend(more);
    }
    lists
}
