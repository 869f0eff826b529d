//! The place of refusal 17 by the checker: the first row of a list that lacks a next row, whichever next
//! row that is and whatever leads to it, waiting or any of the edges in any order.

mod common;
use common::*;

use std::fmt;
use tzelmaruf_tester::automaton::{Automaton, Comparison, Edge, Guard, Update, GREATEST_EDGES};
use tzelmaruf_tester::compare::{Comparer, Met};
use tzelmaruf_tester::explore::closure_from;
use tzelmaruf_tester::generate::{lists, rows, seed, tables, Random, Shape};
use tzelmaruf_tester::needs_checker;
use tzelmaruf_tester::region::{all_rows, top, Region};
use tzelmaruf_tester::slow::timed::timed_lists;
use tzelmaruf_tester::successor::NextRows;
use tzelmaruf_tester::tally::Position;

needs_checker!();

// By hand.

/// The table of P1 with all eight rows of its list: x has bound 2, location 2 is final.
///
/// Rows 1 to 6 are those of location 0, by waiting one after the other. The edge leads from row 5 to
/// row 7 and from row 6 to row 8, and waiting from row 7 to row 8.
fn example() -> Closed {
    let edges = vec![
        edge(0, 1, &[guard(0, AtLeast, 2)], &[Update::Keep]),
        edge(1, 2, &[guard(0, Less, 2)], &[Update::Keep]),
    ];
    let automaton = automaton(&[2], &[false, false, true], edges);
    let rows = [
        (0, 0),
        (0, 1),
        (0, 2),
        (0, 3),
        (0, 4),
        (0, 5),
        (1, 4),
        (1, 5),
    ];
    Closed::new(automaton, rows.map(|(l, x)| at(l, x)).to_vec())
}

/// The row of one clock with bound 2.
fn at(location: u8, interval: u8) -> Region {
    let rank = u8::from([1, 3].contains(&interval));
    Region::new(location, &[interval], &[rank])
}

/// A list without the rows at some places gets an answer, by number and place.
fn assert_without(comparer: &mut Comparer, closed: &Closed, left_out: &[usize], due: (u8, u32)) {
    let places = (1..).zip(&closed.rows);
    let rows = places.filter(|(place, _)| !left_out.contains(place));
    let rows: Vec<Region> = rows.map(|(_, row)| *row).collect();
    let case = format_args!("without {left_out:?}");
    let met = closed.met(comparer, case, &rows);
    assert_eq!((met.number, met.place), due, "{case}");
}

#[test]
fn the_example_without_rows() {
    let mut comparer = Comparer::new("the example without rows");
    let closed = example();
    for (left_out, due) in [
        (&[][..], (0, 8)),
        (&[1], (16, 0)),
        (&[2], (17, 1)),
        (&[3], (17, 2)),
        (&[4], (17, 3)),
        (&[5], (17, 4)),
        // Row 5 lacks it by waiting alone.
        (&[6], (17, 5)),
        // Row 5 lacks it by the edge.
        (&[7], (17, 5)),
        // P2: row 6 by the edge, row 7 by waiting.
        (&[8], (17, 6)),
        // Rows 5 and 6, both by the edge.
        (&[7, 8], (17, 5)),
        // Row 5 by waiting, and so row 7, which is the sixth now.
        (&[6, 8], (17, 5)),
        (&[6, 7, 8], (17, 5)),
        // Row 4 by waiting, before row 6 by the edge, which is the fifth now.
        (&[5, 8], (17, 4)),
        (&[5, 6, 8], (17, 4)),
        (&[2, 7], (17, 1)),
        // All that is left are rows 1 and 2.
        (&[3, 4, 5, 6, 7, 8], (17, 2)),
        (&[5, 6, 7, 8], (17, 4)),
    ] {
        assert_without(&mut comparer, &closed, left_out, due);
    }
}

/// Rows 1 to 6 of location 0 and 7 to 12 of location 1, with one edge from one to the other.
fn two_chains(guards: &[Guard], update: Update) -> Closed {
    let automaton = automaton(&[2], &[false; 2], vec![edge(0, 1, guards, &[update])]);
    let rows = all_rows(&automaton, 12).unwrap();
    Closed::new(automaton, rows)
}

#[test]
fn waiting_before_an_edge_and_behind() {
    let mut comparer = Comparer::new("waiting before an edge and behind");
    let mut assert_each = |closed: &Closed, cases: &[(&[usize], u32)]| {
        for (left_out, place) in cases {
            assert_without(&mut comparer, closed, left_out, (17, *place));
        }
    };
    // The edge leads from row 3 to row 9 alone. Row 9 is missed by the edge, row 10 by waiting.
    let kept = two_chains(&[guard(0, Equal, 1)], Update::Keep);
    assert_each(&kept, &[(&[9], 3), (&[10], 9), (&[12], 11), (&[9, 12], 3)]);
    assert_each(&kept, &[(&[6, 9], 3), (&[5, 9], 3), (&[4, 9], 3)]);
    // Waiting comes first where row 2 or row 3 is left out.
    assert_each(&kept, &[(&[2, 9], 1), (&[3, 9], 2), (&[2, 3, 9], 1)]);
    // The same from row 5 to row 11.
    let kept = two_chains(&[guard(0, Equal, 2)], Update::Keep);
    assert_each(
        &kept,
        &[(&[11], 5), (&[4, 11], 3), (&[6, 11], 5), (&[3, 11], 2)],
    );
    // Any value but the old one: row 1 leads to 8 to 12, row 2 to all from 7 on, row 3 not to 9.
    let other = two_chains(&[], clock(NotEqual, 0, 0));
    assert_each(
        &other,
        &[(&[7], 2), (&[8], 1), (&[9], 1), (&[12], 1), (&[2, 7], 1)],
    );
    let other = two_chains(&[guard(0, AtLeast, 1)], clock(NotEqual, 0, 0));
    assert_each(
        &other,
        &[(&[9], 4), (&[7], 3), (&[11], 3), (&[4, 9], 3), (&[6, 9], 4)],
    );
    // Row 5 does not lead to 11, but row 6 does; without row 6 it is row 5 again, which waits for that.
    let other = two_chains(&[guard(0, AtLeast, 2)], clock(NotEqual, 0, 0));
    assert_each(&other, &[(&[11], 6), (&[6, 11], 5), (&[10], 5)]);
    // At most 1, whatever the clock was: rows 7 to 9, from rows 4 to 6.
    let constant_only = two_chains(&[guard(0, Greater, 1)], constant(AtMost, 1));
    assert_each(
        &constant_only,
        &[(&[7], 4), (&[9], 4), (&[10], 9), (&[4, 8], 3)],
    );
    // At most the old value and 1: row 1 leads to 7 to 9, row 2 to 10 too, and row 3 to 11.
    let up_by_one = two_chains(&[], clock(AtMost, 0, 1));
    assert_each(&up_by_one, &[(&[9], 1), (&[10], 2), (&[11], 3), (&[12], 4)]);
    assert_each(
        &up_by_one,
        &[(&[10, 12], 2), (&[11, 12], 3), (&[2, 12], 1), (&[3, 12], 2)],
    );
    // The old value at least, from row 2 on, which leads to all from row 8 on.
    let no_less = two_chains(&[guard(0, Greater, 0)], clock(AtLeast, 0, 0));
    assert_each(
        &no_less,
        &[(&[7, 8], 2), (&[9], 2), (&[12], 2), (&[2, 12], 1)],
    );
}

/// All orders of some numbers.
fn orders(count: usize) -> Vec<Vec<usize>> {
    (0..count).fold(vec![vec![]], |shorter, number| {
        let insert = |order: &Vec<usize>, place: usize| {
            let mut longer = order.clone();
            longer.insert(place, number);
            longer
        };
        let longer = shorter
            .iter()
            .flat_map(|order| (0..=order.len()).map(move |place| insert(order, place)));
        longer.collect()
    })
}

/// Three edges, from row 1 to location 1, from row 3 to location 2 and from row 5 to location 3, where
/// the clock is above its bound: each subset of these three rows left out, in each order of the edges.
#[test]
fn edges_in_every_order_by_hand() {
    let mut comparer = Comparer::new("edges in every order, by hand");
    for above in [
        constant(Greater, 2),
        clock(Equal, 0, 3),
        clock(AtLeast, 0, 3),
        clock(Greater, 0, 2),
    ] {
        let from = |value: u8| edge(0, value + 1, &[guard(0, Equal, value)], &[above]);
        for order in orders(3) {
            let edges = order.iter().map(|value| from(*value as u8)).collect();
            let automaton = automaton(&[2], &[false; 4], edges);
            let mut rows: Vec<Region> = (0..6).map(|interval| at(0, interval)).collect();
            rows.extend((1..4).map(|location| at(location, 5)));
            let closed = Closed::new(automaton, rows);
            for (left_out, place) in [
                (&[7][..], 1),
                (&[8], 3),
                (&[9], 5),
                (&[7, 8], 1),
                (&[7, 9], 1),
                (&[8, 9], 3),
                (&[7, 8, 9], 1),
            ] {
                assert_without(&mut comparer, &closed, left_out, (17, place));
            }
            assert_without(&mut comparer, &closed, &[], (0, 9));
        }
    }
}

/// The first row and the last row; the last of two edges and of 256.
#[test]
fn first_and_last_rows_and_edges() {
    let mut comparer = Comparer::new("first and last rows and edges");
    let idle = edge(0, 0, &[], &[Update::Keep]);
    for others in [0, 1, 2, GREATEST_EDGES - 2] {
        // From row 6 to row 7, and from there to row 8; without that row 7 is the last one.
        let to_seventh = edge(0, 1, &[guard(0, Greater, 2)], &[Update::Keep]);
        let to_eighth = edge(1, 2, &[guard(0, Greater, 2)], &[clock(AtLeast, 0, 0)]);
        let mut edges = vec![idle.clone(); others];
        edges.extend([to_seventh, to_eighth]);
        let automaton = automaton(&[2], &[false; 3], edges);
        let mut rows: Vec<Region> = (0..6).map(|interval| at(0, interval)).collect();
        rows.extend([at(1, 5), at(2, 5)]);
        let closed = Closed::new(automaton, rows);
        for (left_out, place) in [
            (&[8][..], 7),
            (&[7], 6),
            (&[7, 8], 6),
            (&[2, 8], 1),
            (&[6, 8], 5),
            (&[2, 3, 4, 5, 6, 7, 8], 1),
        ] {
            assert_without(&mut comparer, &closed, left_out, (17, place));
        }
    }
    // A single row that waits for another, and one that leads to another by its last edge alone.
    let single = |edges: Vec<Edge>, bound: u8| {
        let automaton = automaton(&[bound], &[false; 2], edges);
        Closed::new(automaton.clone(), vec![Region::initial(&automaton)])
    };
    assert_without(&mut comparer, &single(vec![], 0), &[], (17, 1));
    let leaving = edge(0, 1, &[], &[Update::Keep]);
    let mut edges = vec![idle; GREATEST_EDGES - 1];
    edges.push(leaving);
    assert_without(&mut comparer, &single(edges, 3), &[], (17, 1));
}

// Held against the rules.

/// The first rows of a list that lack a next row by waiting alone, and by each edge alone.
struct Firsts {
    waiting: Option<u32>,
    edges: Vec<Option<u32>>,
}

impl Firsts {
    fn new(automaton: &Automaton, rows: &[Region]) -> Firsts {
        let place = |lacks: &dyn Fn(Region) -> bool| {
            let index = rows.iter().position(|row| lacks(*row));
            index.map(|index| index as u32 + 1)
        };
        let is_missing = |row: Region| rows.binary_search(&row).is_err();
        let waiting = |row: Region| {
            row.time_successor(&automaton.bounds)
                .is_some_and(is_missing)
        };
        let by = |edge: &Edge| {
            place(&|row| {
                let is_source = row.location() == edge.source;
                is_source && NextRows::new(automaton, edge, row).any(is_missing)
            })
        };
        Firsts {
            waiting: place(&waiting),
            edges: automaton.edges.iter().map(by).collect(),
        }
    }

    fn by_edges(&self) -> Option<u32> {
        self.edges.iter().flatten().min().copied()
    }

    fn least(&self) -> Option<u32> {
        self.waiting.into_iter().chain(self.by_edges()).min()
    }
}

/// What the refused lists of a test were like: how often each came.
#[derive(Debug, Default)]
struct Seen {
    by_waiting_alone: usize,
    by_edges_alone: usize,
    waiting_before_edges: usize,
    edges_before_waiting: usize,
    both_at_one_row: usize,
    /// Edges lack rows from different places on, and the first of them in the table is not the least.
    edge_after_edge_earlier: usize,
    by_last_edge_alone: usize,
    at_first_row: usize,
    at_last_row: usize,
}

impl Seen {
    fn count(&mut self, firsts: &Firsts, rows: usize) {
        let counter = match (firsts.waiting, firsts.by_edges()) {
            (None, None) => return,
            (Some(_), None) => &mut self.by_waiting_alone,
            (None, Some(_)) => &mut self.by_edges_alone,
            (Some(waiting), Some(edges)) if waiting < edges => &mut self.waiting_before_edges,
            (Some(waiting), Some(edges)) if edges < waiting => &mut self.edges_before_waiting,
            _ => &mut self.both_at_one_row,
        };
        *counter += 1;
        let least = firsts.least();
        let by_edge: Vec<u32> = firsts.edges.iter().flatten().copied().collect();
        let is_later = by_edge.iter().min() < by_edge.first();
        self.edge_after_edge_earlier += usize::from(is_later);
        let is_last = firsts.edges.iter().position(|place| *place == least);
        let is_last = is_last.is_some_and(|edge| edge + 1 == firsts.edges.len() && edge > 0);
        self.by_last_edge_alone += usize::from(is_last && firsts.waiting != least);
        self.at_first_row += usize::from(least == Some(1));
        self.at_last_row += usize::from(least == Some(rows as u32));
    }

    /// Each kind of list came so often at least.
    fn assert_all(&self, least: usize) {
        println!("{self:?}");
        for times in [
            self.by_waiting_alone,
            self.by_edges_alone,
            self.waiting_before_edges,
            self.edges_before_waiting,
            self.both_at_one_row,
            self.edge_after_edge_earlier,
            self.by_last_edge_alone,
            self.at_first_row,
            self.at_last_row,
        ] {
            assert!(times >= least, "{self:?}");
        }
    }
}

/// Puts lists to both sides and to a plain search for the first row, edge by edge.
struct Finder {
    comparer: Comparer,
    seen: Seen,
}

impl Finder {
    fn new(test: &'static str) -> Finder {
        Finder {
            comparer: Comparer::new(test),
            seen: Seen::default(),
        }
    }

    /// Some rows of a closed list, the initial one among them: accepted, or refused at the first row that
    /// lacks a next row.
    fn find(&mut self, case: fmt::Arguments, closed: &Closed, rows: &[Region]) -> Met {
        let met = closed.met(&mut self.comparer, case, rows);
        let firsts = Firsts::new(&closed.automaton, rows);
        match firsts.least() {
            Some(place) => assert_eq!((met.number, met.place), (17, place), "{case}"),
            None => assert_eq!((met.number, met.place), (0, rows.len() as u32), "{case}"),
        }
        self.seen.count(&firsts, rows.len());
        met
    }

    /// Each row but the initial one left out, one at a time, in a long list every so many.
    fn without_each(&mut self, case: fmt::Arguments, closed: &Closed, step: usize) {
        let initial = Region::initial(&closed.automaton);
        for index in (0..closed.rows.len()).step_by(step) {
            if closed.rows[index] != initial {
                let case = format_args!("{case} without row {}", index + 1);
                self.find(case, closed, &closed.without(index));
            }
        }
    }

    /// Several rows left out: many or few, any rows or such as only edges lead to, all behind one, and
    /// all but a few.
    fn without_several(&mut self, random: &mut Random, case: fmt::Arguments, closed: &Closed) {
        let Closed {
            automaton, rows, ..
        } = closed;
        for once_in in [2, 5, 20, 100] {
            let left = lists::leave_out(random, automaton, rows, once_in);
            self.find(
                format_args!("{case} without one in {once_in}"),
                closed,
                &left,
            );
            let left = lists::leave_out_for_edges(random, automaton, rows, once_in);
            self.find(
                format_args!("{case} without one in {once_in} for edges"),
                closed,
                &left,
            );
        }
        let initial = Region::initial(automaton);
        let at = rows.binary_search(&initial).expect("the initial row");
        let behind = at + 1 + random.below(rows.len() - at);
        self.find(
            format_args!("{case} up to row {behind}"),
            closed,
            &rows[..behind],
        );
        let mut few = vec![initial];
        few.extend((0..3).map(|_| random.pick(rows)));
        few.sort_unstable();
        few.dedup();
        self.find(format_args!("{case} with {few:?} alone"), closed, &few);
    }
}

/// One clock with bound 1 and two locations, so eight rows: any edge, and every list with the initial row.
#[test]
fn every_list_of_eight_rows() {
    let mut finder = Finder::new("every list of eight rows");
    let guards = [
        vec![],
        vec![guard(0, AtLeast, 1)],
        vec![guard(0, NotEqual, 0)],
        vec![guard(0, Greater, 0), guard(0, Less, 1)],
    ];
    for (number, update) in all_updates(&[1], 0).into_iter().enumerate() {
        for (ends, (source, target)) in [(0, 0), (0, 1), (1, 0), (1, 1)].into_iter().enumerate() {
            let guards = &guards[(number + ends) % guards.len()];
            let edges = vec![edge(source, target, guards, &[update])];
            let automaton = automaton(&[1], &[false; 2], edges);
            let rows = all_rows(&automaton, 8).unwrap();
            let closed = Closed::new(automaton, rows);
            for subset in 0..1_u32 << 7 {
                let mut rows = closed.rows.clone();
                let mut bits = subset << 1 | 1;
                rows.retain(|_| {
                    let stays = bits & 1 == 1;
                    bits >>= 1;
                    stays
                });
                let case = format_args!("{update:?} {guards:?} {source} to {target} {rows:?}");
                finder.find(case, &closed, &rows);
            }
        }
    }
    println!("{:?}", finder.seen);
    finder.comparer.finish_with_positions(&[0, 17], &[17]);
}

/// Two clocks with bound 1: every pair of updates, and each row of the eighteen left out.
#[test]
fn every_update_of_two_clocks() {
    let seed = seed(31_001);
    println!("seed {seed}");
    let mut finder = Finder::new("every update of two clocks");
    let random = &mut Random::new(seed);
    let bounds = [1, 1];
    for first in all_updates(&bounds, 0) {
        for second in all_updates(&bounds, 1) {
            let edges = vec![edge(0, 0, &[], &[first, second])];
            let automaton = automaton(&bounds, &[false], edges);
            let rows = all_rows(&automaton, 18).unwrap();
            let closed = Closed::new(automaton, rows);
            let case = format_args!("seed {seed} {first:?} {second:?}");
            finder.without_each(case, &closed, 1);
            for _ in 0..3 {
                let left = lists::leave_out(random, &closed.automaton, &closed.rows, 4);
                finder.find(format_args!("{case} {left:?}"), &closed, &left);
            }
        }
    }
    println!("{:?}", finder.seen);
    finder.comparer.finish(&[0, 17]);
}

/// Makes an update of a clock of one kind.
type Kind = fn(&mut Random, &[u8], usize) -> Update;

const KINDS: [(&str, Kind); 7] = [
    ("deterministic", deterministic),
    ("no clock read", no_clock_read),
    ("one side", one_side),
    ("both sides", both_sides),
    ("many groups", many_groups),
    ("wide", wide),
    ("any", any),
];

fn some_constant(random: &mut Random, bounds: &[u8], own: usize) -> u8 {
    random.below(usize::from(bounds[own]) + 1) as u8
}

fn against_a_clock(random: &mut Random, bounds: &[u8], own: usize, with: Comparison) -> Update {
    let other = random.below(bounds.len());
    let offset = tables::least_offset(bounds, own, other) + random.below(3) as i16;
    clock(with, other as u8, offset)
}

fn deterministic(random: &mut Random, bounds: &[u8], own: usize) -> Update {
    match random.below(3) {
        0 => Update::Keep,
        1 => constant(Equal, some_constant(random, bounds, own)),
        _ => against_a_clock(random, bounds, own, Equal),
    }
}

fn no_clock_read(random: &mut Random, bounds: &[u8], own: usize) -> Update {
    let comparison = tables::comparison(random);
    constant(comparison, some_constant(random, bounds, own))
}

fn one_side(random: &mut Random, bounds: &[u8], own: usize) -> Update {
    let comparison = random.pick(&[Less, AtMost, AtLeast, Greater]);
    against_a_clock(random, bounds, own, comparison)
}

fn both_sides(random: &mut Random, bounds: &[u8], own: usize) -> Update {
    against_a_clock(random, bounds, own, NotEqual)
}

/// Clocks that are kept beside others, so that rows with other values of them have nothing in common.
fn many_groups(random: &mut Random, bounds: &[u8], own: usize) -> Update {
    match random.below(6) {
        0..=2 => Update::Keep,
        3 => constant(AtLeast, 0),
        4 => one_side(random, bounds, own),
        _ => both_sides(random, bounds, own),
    }
}

/// To nearly all rows.
fn wide(random: &mut Random, bounds: &[u8], own: usize) -> Update {
    match random.below(4) {
        0 => constant(AtLeast, 0),
        1 => constant(AtMost, bounds[own]),
        2 => clock(Less, own as u8, 127),
        _ => clock(NotEqual, own as u8, 0),
    }
}

fn any(random: &mut Random, bounds: &[u8], own: usize) -> Update {
    match random.once_in(4) {
        true => Update::Keep,
        false => tables::changing_update(random, bounds, own),
    }
}

/// Bounds of so many clocks with at most some hundred rows for a location.
const BOUNDS: [&[&[u8]]; 4] = [
    &[&[6], &[30]],
    &[&[2, 2], &[9, 1], &[1, 7]],
    &[&[1, 1, 1], &[4, 0, 1], &[0, 1, 3]],
    &[&[0, 1, 1, 1], &[3, 0, 1, 0], &[1, 1, 0, 1]],
];

fn edge_of_kind(random: &mut Random, kind: Kind, bounds: &[u8], locations: usize) -> Edge {
    let guards = match random.once_in(2) {
        true => vec![tables::guard(random, bounds)],
        false => vec![],
    };
    Edge {
        source: random.below(locations) as u8,
        target: random.below(locations) as u8,
        guards,
        updates: (0..bounds.len())
            .map(|own| kind(random, bounds, own))
            .collect(),
    }
}

/// A table with some edges of one kind, and all its rows or those that are reached from some.
fn closed_of_kind(random: &mut Random, kind: Kind, clocks: usize) -> Closed {
    let bounds = random.pick(BOUNDS[clocks - 1]);
    let locations = 1 + random.below(2);
    let edges = 1 + random.below(6);
    let edges = (0..edges).map(|_| edge_of_kind(random, kind, bounds, locations));
    let automaton = automaton(bounds, &vec![false; locations], edges.collect());
    let rows = match random.once_in(2) {
        true => all_rows(&automaton, 4_096).expect("few rows"),
        false => {
            let more = rows::row(random, &automaton);
            let starts = [Region::initial(&automaton), more];
            closure_from(&automaton, &starts, 4_096).rows
        }
    };
    Closed::new(automaton, rows)
}

/// The same table and list with one row more, the last one, in a location of its own, and one more edge,
/// from there to a location without rows. No row waits for another there.
fn open_at_last_row(random: &mut Random, kind: Kind, closed: &Closed) -> Closed {
    let mut automaton = closed.automaton.clone();
    let more = automaton.locations.len() as u8;
    let last = edge_of_kind(random, kind, &automaton.bounds, 1);
    automaton.locations.extend([automaton.locations[0]; 2]);
    automaton.edges.push(Edge {
        source: more,
        target: more + 1,
        ..last
    });
    let tops: Vec<u8> = automaton.bounds.iter().map(|bound| top(*bound)).collect();
    let mut rows = closed.rows.clone();
    rows.push(Region::new(more, &tops, &[]));
    Closed::new(automaton, rows)
}

#[test]
fn edges_of_every_kind() {
    let seed = seed(31_002);
    println!("seed {seed}: 30 tables for each kind and number of clocks");
    for (name, kind) in KINDS {
        let mut finder = Finder::new(name);
        for clocks in 1..=4 {
            for number in 0..30 {
                let random = &mut Random::of_case(seed, number);
                let closed = closed_of_kind(random, kind, clocks);
                let case = format_args!("seed {seed} {name} {clocks} clocks case {number}");
                closed.accepted(&mut finder.comparer, case, &closed.rows);
                let step = 1 + closed.rows.len() / 25;
                finder.without_each(case, &closed, step);
                for _ in 0..2 {
                    finder.without_several(random, case, &closed);
                }
                let open = open_at_last_row(random, kind, &closed);
                finder.find(format_args!("{case} last row"), &open, &open.rows);
            }
        }
        finder.comparer.finish_with_positions(&[0, 17], &[17]);
        finder.seen.assert_all(15);
    }
}

/// Tables whose final location is far or not reached, with edges of all kinds and places.
#[test]
fn closures_without_rows() {
    let seed = seed(31_003);
    println!("seed {seed}: 500 automata");
    let mut finder = Finder::new("closures without rows");
    for number in 0..500 {
        let random = &mut Random::of_case(seed, number);
        let closed = Closed::random(random, 300);
        let case = format_args!("seed {seed} case {number}");
        finder.without_each(case, &closed, 1 + closed.rows.len() / 30);
        finder.without_several(random, case, &closed);
    }
    finder.comparer.finish_with_positions(&[0, 17], &[17]);
    finder.seen.assert_all(100);
}

/// Four edges of any kinds in every order: the place is the same.
#[test]
fn edges_in_every_order() {
    let seed = seed(31_004);
    println!("seed {seed}: 150 tables, 24 orders");
    let mut finder = Finder::new("edges in every order");
    let orders = orders(4);
    assert_eq!(orders.len(), 24);
    for number in 0..150 {
        let random = &mut Random::of_case(seed, number);
        let clocks = 1 + random.below(4);
        let bounds = random.pick(BOUNDS[clocks - 1]);
        let edges: Vec<Edge> = (0..4)
            .map(|_| {
                let (_, kind) = random.pick(&KINDS);
                edge_of_kind(random, kind, bounds, 2)
            })
            .collect();
        let table = |order: &[usize]| {
            let edges = order.iter().map(|edge| edges[*edge].clone());
            automaton(bounds, &[false; 2], edges.collect())
        };
        let rows = all_rows(&table(&[]), 4_096).expect("few rows");
        let once_in = random.pick(&[2, 10, 50, 200]);
        let left = lists::leave_out_for_edges(random, &table(&[]), &rows, once_in);
        let mut answers = Vec::new();
        for order in &orders {
            let closed = Closed::new(table(order), rows.clone());
            let case = format_args!("seed {seed} case {number} order {order:?}");
            answers.push(finder.find(case, &closed, &left));
        }
        assert!(
            answers.iter().all(|met| *met == answers[0]),
            "case {number}"
        );
    }
    println!("{:?}", finder.seen);
    assert!(finder.seen.edge_after_edge_earlier > 500);
    assert!(finder.seen.by_last_edge_alone > 300);
    finder.comparer.finish(&[0, 17]);
}

/// The last of 256 edges is open, from each interval of the first clock on in turn, and the first of them
/// from the last interval on. No other edge is open.
#[test]
fn last_of_256_edges_at_each_row() {
    let mut comparer = Comparer::new("the last of 256 edges at each row");
    let bounds = [6, 2];
    let others = |edge_number: usize| match edge_number % 3 {
        0 => [Update::Keep, Update::Keep],
        1 => [clock(AtLeast, 0, 0), clock(NotEqual, 1, 0)],
        _ => [constant(Equal, 0), constant(AtMost, 1)],
    };
    for value in 0..=bounds[0] {
        for comparison in [AtLeast, Greater] {
            let above = [clock(AtLeast, 0, 127), clock(AtLeast, 1, 127)];
            let mut edges = vec![edge(0, 1, &[guard(0, Greater, bounds[0])], &above)];
            edges.extend((2..GREATEST_EDGES).map(|number| edge(0, 0, &[], &others(number))));
            edges.push(edge(0, 1, &[guard(0, comparison, value)], &above));
            assert_eq!(edges.len(), GREATEST_EDGES);
            let automaton = automaton(&bounds, &[false; 2], edges);
            let mut rows = all_rows(&automaton, 4_096).unwrap();
            rows.retain(|row| row.location() == 0);
            let least = 2 * value + u8::from(comparison == Greater);
            let before = rows.iter().filter(|row| row.interval(0) < least).count();
            let closed = Closed::new(automaton, rows);
            let case = format_args!("{comparison:?} {value}");
            let met = closed.met(&mut comparer, case, &closed.rows);
            assert_eq!((met.number, met.place), (17, before as u32 + 1), "{case}");
        }
    }
}

/// What is left of a long list in several ways: without many rows, or few, without one alone.
fn parts_of(random: &mut Random, closed: &Closed) -> Vec<Vec<Region>> {
    let Closed {
        automaton, rows, ..
    } = closed;
    let mut parts = vec![];
    for once_in in [2, 30, 1_000] {
        parts.push(lists::leave_out(random, automaton, rows, once_in));
        parts.push(lists::leave_out_for_edges(random, automaton, rows, once_in));
    }
    let last = rows.len() - 1;
    for index in [last, last / 2, 1 + random.below(last)] {
        parts.push(closed.without(index));
    }
    parts
}

/// Lists of thousands of rows: the benchmark's, with two edges each. From the first rows many of these
/// lead to nearly all others; so they are there once more with a guard.
#[test]
fn long_lists() {
    let seed = seed(31_005);
    println!("seed {seed}");
    let mut comparer = Comparer::new("long lists");
    for (number, mut timed) in timed_lists().into_iter().enumerate() {
        timed.automaton.edges.truncate(2);
        let random = &mut Random::of_case(seed, number as u64);
        let rows = timed.listed();
        let free = timed.table();
        let mut guarded = free.clone();
        let value = some_constant(random, &free.bounds, 0);
        for edge in &mut guarded.edges {
            edge.guards.push(guard(0, Greater, value));
        }
        for automaton in [free, guarded] {
            let closed = Closed::new(automaton, rows.clone());
            for part in parts_of(random, &closed) {
                let left_out = rows.len() - part.len();
                let case = format_args!("seed {seed} {} without {left_out} rows", timed.name);
                closed.met(&mut comparer, case, &part);
            }
        }
    }
    comparer.finish(&[0, 17]);
    assert!(comparer.tally.of(17, Position::Middle) > 100);
}

/// 4,096 rows in 64 locations with 256 edges, in turned order too, without some rows.
#[test]
fn longest_list() {
    let seed = seed(31_006);
    println!("seed {seed}");
    let mut comparer = Comparer::new("the longest list");
    let random = &mut Random::new(seed);
    let mut edges: Vec<Edge> = (0..=255_u8)
        .map(|number| {
            let update = match number % 4 {
                0 => constant(AtLeast, number % 32),
                1 => clock(NotEqual, 0, 0),
                2 => clock(AtMost, 0, 1),
                _ => clock(Equal, 0, 0),
            };
            edge(number % 64, number.wrapping_mul(7) % 64, &[], &[update])
        })
        .collect();
    for turned in [false, true] {
        if turned {
            edges.reverse();
        }
        let automaton = automaton(&[31], &[false; 64], edges.clone());
        let rows = all_rows(&automaton, 4_096).unwrap();
        assert_eq!(rows.len(), 4_096);
        let closed = Closed::new(automaton, rows);
        for index in (1..4_096).step_by(97).chain([4_095]) {
            let case = format_args!("turned {turned} without row {}", index + 1);
            closed.met(&mut comparer, case, &closed.without(index));
        }
        for once_in in [2, 10, 100, 1_000] {
            let left = lists::leave_out(random, &closed.automaton, &closed.rows, once_in);
            let case = format_args!("turned {turned} without one in {once_in}");
            closed.met(&mut comparer, case, &left);
        }
    }
    comparer.finish(&[17]);
}

/// Tables of any size, with as many rows as a list has, or some of these.
#[test]
fn tables_of_any_size() {
    let seed = seed(31_007);
    println!("seed {seed}: 150 automata");
    let mut comparer = Comparer::new("tables of any size");
    for number in 0..150 {
        let random = &mut Random::of_case(seed, number);
        let shape = Shape::any(random);
        let mut automaton = tables::admitted(random, shape);
        for location in &mut automaton.locations {
            location.is_final = false;
        }
        let initial = Region::initial(&automaton);
        let rows = closure_from(&automaton, &[initial], 4_096).rows;
        let closed = Closed::new(automaton, rows);
        let once_in = random.pick(&[3, 30, 300]);
        let left = lists::leave_out(random, &closed.automaton, &closed.rows, once_in);
        for rows in [&closed.rows, &left] {
            let case = format_args!("seed {seed} case {number} {} rows", rows.len());
            closed.met(&mut comparer, case, rows);
        }
    }
    comparer.finish(&[0, 17]);
}
