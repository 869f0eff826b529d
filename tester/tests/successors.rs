//! The next rows of an edge: the fast way against the way by points, and the
//! same comparison against spoiled ways, which it has to find out.

mod common;
use common::{all_updates, automaton, clock, comparisons_of_open_clocks, edge, hex};

use std::collections::BTreeSet;
use tzelmaruf_tester::automaton::{Automaton, Comparison, Edge, Update};
use tzelmaruf_tester::format::encode_table;
use tzelmaruf_tester::generate::{rows, seed, tables, Random, Shape};
use tzelmaruf_tester::region::{all_rows, region_of, Region};
use tzelmaruf_tester::run::{guards_hold, update_allows};
use tzelmaruf_tester::successor::by_points::{fine_scale, points_of};
use tzelmaruf_tester::successor::{by_points, NextRows};

type NextRowsOf = fn(&Automaton, &Edge, Region) -> Vec<Region>;

fn by_intervals(automaton: &Automaton, edge: &Edge, row: Region) -> Vec<Region> {
    NextRows::new(automaton, edge, row).collect()
}

/// An automaton of one location and one edge, and a row of it.
fn small_case(random: &mut Random, clocks: usize) -> (Automaton, Region) {
    let shape = Shape {
        clocks,
        locations: 1,
        edges: 1,
        greatest_bound: [0, 4, 3, 3, 1][clocks],
        greatest_guards: 1,
        comparisons: &Comparison::ALL,
    };
    let mut automaton = tables::admitted(random, shape);
    // Keep alone tells little; most updates are others.
    for (clock, update) in automaton.edges[0].updates.iter_mut().enumerate() {
        if *update == Update::Keep && !random.once_in(3) {
            *update = tables::changing_update(random, &automaton.bounds, clock);
        }
    }
    let row = rows::row_in(random, &automaton, 0);
    (automaton, row)
}

/// Compares a way with points on random small cases: the number of rows, or the failing case.
fn compare(way: NextRowsOf, seed: u64, clocks: usize, cases: usize) -> Result<usize, String> {
    let mut random = Random::new(seed);
    let mut total = 0;
    for _ in 0..cases {
        let (automaton, row) = small_case(&mut random, clocks);
        let edge = &automaton.edges[0];
        let expected: Vec<Region> = by_points(&automaton, edge, row).into_iter().collect();
        let found = way(&automaton, edge, row);
        if found != expected {
            let table = hex(&encode_table(&automaton));
            let record = hex(&row.record(clocks));
            return Err(format!(
                "table {table} row {record} found {found:?} points {expected:?}"
            ));
        }
        total += found.len();
    }
    Ok(total)
}

fn assert_equal_to_points(seed: u64, clocks: usize, cases: usize) {
    match compare(by_intervals, seed, clocks, cases) {
        Ok(rows) => println!("seed {seed}: {cases} edges of {clocks} clocks, {rows} rows"),
        Err(case) => panic!("seed {seed}: {case}"),
    }
}

#[test]
fn one_clock() {
    assert_equal_to_points(seed(20_101), 1, 60_000);
}

#[test]
fn two_clocks() {
    assert_equal_to_points(seed(20_102), 2, 60_000);
}

#[test]
fn three_clocks() {
    assert_equal_to_points(seed(20_103), 3, 12_000);
}

/// Low bounds only: with four clocks there are too many points for more.
#[test]
fn four_clocks() {
    assert_equal_to_points(seed(20_104), 4, 1_500);
}

fn assert_equal_from(automaton: &Automaton, row: Region) -> usize {
    let edge = &automaton.edges[0];
    let expected = by_points(automaton, edge, row);
    let found = by_intervals(automaton, edge, row);
    if !found.iter().eq(&expected) {
        let table = hex(&encode_table(automaton));
        let record = hex(&row.record(automaton.clocks()));
        panic!("table {table} row {record} found {found:?} points {expected:?}");
    }
    found.len()
}

/// Every pair of updates from every row, for some bounds.
#[test]
fn all_updates_of_two_clocks() {
    let (mut edges, mut rows) = (0, 0);
    for bounds in [
        [0, 0],
        [0, 1],
        [1, 0],
        [1, 1],
        [2, 1],
        [1, 2],
        [0, 2],
        [2, 2],
    ] {
        let mut automaton = automaton(&bounds, &[false], vec![edge(0, 0, &[], &[])]);
        let all = all_rows(&automaton, 100_000).unwrap();
        for first in all_updates(&bounds, 0) {
            for second in all_updates(&bounds, 1) {
                automaton.edges[0].updates = vec![first, second];
                for row in &all {
                    rows += assert_equal_from(&automaton, *row);
                    edges += 1;
                }
            }
        }
    }
    println!("no seed, all: {edges} edges of 2 clocks, {rows} rows");
}

#[test]
fn all_comparisons_of_three_open_clocks() {
    let (mut edges, mut rows) = (0, 0);
    comparisons_of_open_clocks(&mut |automaton, row| {
        rows += assert_equal_from(automaton, row);
        edges += 1;
    });
    println!("no seed, all: {edges} edges of 3 open clocks, {rows} rows");
}

/// Four clocks between 0 and 1, compared at random.
#[test]
fn comparisons_of_four_open_clocks() {
    let seed = seed(20_106);
    let mut random = Random::new(seed);
    let mut automaton = automaton(&[1, 1, 1, 1], &[false], vec![edge(0, 0, &[], &[])]);
    let all: Vec<Region> = all_rows(&automaton, 100_000)
        .unwrap()
        .into_iter()
        .filter(|row| (0..4).all(|clock| row.interval(clock) == 1))
        .collect();
    let (edges, mut rows) = (2_500, 0);
    println!("seed {seed}: {edges} edges of 4 open clocks");
    for _ in 0..edges {
        automaton.edges[0].updates = (0..4)
            .map(|_| clock(tables::comparison(&mut random), random.below(4) as u8, 0))
            .collect();
        rows += assert_equal_from(&automaton, random.pick(&all));
    }
    println!("{rows} rows");
}

/// Whether an update lets its clock take its new value: update, clock, old, new, scale.
type Allows = fn(Update, usize, &[i64], &[i64], i64) -> bool;

/// All pairs of points of two clocks that a rule allows, rows of the second ones.
fn pairs_of_points(automaton: &Automaton, edge: &Edge, row: Region, allows: Allows) -> Vec<Region> {
    let bounds = &automaton.bounds;
    let scale = fine_scale(bounds.len());
    let mut found = BTreeSet::new();
    for old in points_of(bounds, row, scale) {
        if !guards_hold(&edge.guards, &old, scale) {
            continue;
        }
        let candidates: Vec<Vec<i64>> = (0..2)
            .map(|clock| candidates(bounds[clock], edge.updates[clock], clock, &old, scale))
            .collect();
        for first in &candidates[0] {
            for second in &candidates[1] {
                let new = [*first, *second];
                if (0..2).all(|clock| allows(edge.updates[clock], clock, &old, &new, scale)) {
                    found.insert(region_of(edge.target, bounds, &new, scale));
                }
            }
        }
    }
    found.into_iter().collect()
}

/// All values a little beyond the bound, and those around the term.
fn candidates(bound: u8, update: Update, own: usize, old: &[i64], scale: i64) -> Vec<i64> {
    let term = update.relation(own).1.value(old, scale);
    let near = (i64::from(bound) + 1) * scale;
    let around = (term - 1..=term + 1).filter(|value| *value > near);
    (0..=near).chain(around).collect()
}

/// The right rule, to show that the pairs of points are enough of them.
fn unspoiled(automaton: &Automaton, edge: &Edge, row: Region) -> Vec<Region> {
    pairs_of_points(automaton, edge, row, |update, clock, old, new, scale| {
        update_allows(update, clock, old, new[clock], scale)
    })
}

/// Clips a negative term to 0.
fn clipping(automaton: &Automaton, edge: &Edge, row: Region) -> Vec<Region> {
    pairs_of_points(
        automaton,
        edge,
        row,
        |update, own, old, new, scale| match update {
            Update::Clock {
                comparison,
                clock,
                offset,
            } => {
                let term = old[usize::from(clock)] + i64::from(offset) * scale;
                comparison.holds(new[own].cmp(&term.max(0)))
            }
            _ => update_allows(update, own, old, new[own], scale),
        },
    )
}

/// Takes '≠' for a comparison that always holds.
fn leaving_nothing_out(automaton: &Automaton, edge: &Edge, row: Region) -> Vec<Region> {
    pairs_of_points(automaton, edge, row, |update, clock, old, new, scale| {
        let (comparison, _) = update.relation(clock);
        comparison == Comparison::NotEqual || update_allows(update, clock, old, new[clock], scale)
    })
}

/// Lets a later update read the result of an earlier one.
fn reading_results(automaton: &Automaton, edge: &Edge, row: Region) -> Vec<Region> {
    pairs_of_points(automaton, edge, row, |update, clock, old, new, scale| {
        let mixed = [&new[..clock], &old[clock..]].concat();
        update_allows(update, clock, &mixed, new[clock], scale)
    })
}

/// Takes every ranking for each combination of intervals: forgets the old clock
/// that orders two new ones.
fn forgetting_order(automaton: &Automaton, edge: &Edge, row: Region) -> Vec<Region> {
    let next = by_points(automaton, edge, row);
    let all = all_rows(automaton, 100_000).unwrap();
    let same_intervals = |a: &Region, b: &Region| (0..2).all(|z| a.interval(z) == b.interval(z));
    all.into_iter()
        .filter(|other| next.iter().any(|row| same_intervals(row, other)))
        .collect()
}

fn descending(automaton: &Automaton, edge: &Edge, row: Region) -> Vec<Region> {
    by_points(automaton, edge, row).into_iter().rev().collect()
}

fn without_the_last(automaton: &Automaton, edge: &Edge, row: Region) -> Vec<Region> {
    let mut rows: Vec<Region> = by_points(automaton, edge, row).into_iter().collect();
    rows.pop();
    rows
}

#[test]
fn spoiled_ways_are_found_out() {
    let seed = seed(20_105);
    if let Err(case) = compare(unspoiled, seed, 2, 2_000) {
        panic!("seed {seed}: {case}");
    }
    let ways: [(&str, NextRowsOf); 6] = [
        ("clipping", clipping),
        ("leaving nothing out", leaving_nothing_out),
        ("reading results", reading_results),
        ("forgetting order", forgetting_order),
        ("descending", descending),
        ("without the last", without_the_last),
    ];
    for (name, way) in ways {
        let found_out = compare(way, seed, 2, 2_000).is_err();
        assert!(found_out, "seed {seed}: {name} went unnoticed");
    }
    println!("seed {seed}: {} spoiled ways found out", ways.len());
}
