//! The rows of one location: how many there are, and those in which some clocks are equal.
//!
//! `region::all_rows` tries every vector of numbers, which takes too long for a search.

use crate::automaton::{Automaton, Comparison, Edge, Update, GREATEST_CLOCKS};
use crate::region::Region;
use crate::successor::NextRows;

/// How many ways there are to rank so many open clocks.
const RANKINGS: [u64; GREATEST_CLOCKS + 1] = [1, 1, 3, 13, 75];

/// The number of rows of one location.
pub fn count_rows(bounds: &[u8]) -> u64 {
    let of_open = |open: usize| -> u64 {
        let intervals = (0..bounds.len()).map(|clock| {
            let bound = u64::from(bounds[clock]);
            match open >> clock & 1 {
                1 => bound,
                // the whole values, and the top
                _ => bound + 2,
            }
        });
        RANKINGS[open.count_ones() as usize] * intervals.product::<u64>()
    };
    (0..1 << bounds.len()).map(of_open).sum()
}

/// The rows of one location in which each clock equals its twin, ascending.
///
/// They are those of the clocks that are their own twins, and an edge that allows all of
/// these leads to each of them.
pub fn rows_of(location: u8, bounds: &[u8], twins: &[usize]) -> Vec<Region> {
    let firsts: Vec<usize> = (0..twins.len()).filter(|z| twins[*z] == *z).collect();
    let first_bounds: Vec<u8> = firsts.iter().map(|clock| bounds[*clock]).collect();
    let place = |clock: usize| firsts.iter().position(|first| *first == twins[clock]);
    let places: Vec<usize> = (0..twins.len()).filter_map(place).collect();
    let free = free_edge(first_bounds.len());
    let automaton = Automaton::without_final(1, &first_bounds, vec![]);
    NextRows::new(&automaton, &free, Region::initial(&automaton))
        .map(|row| {
            let intervals: Vec<u8> = places.iter().map(|place| row.interval(*place)).collect();
            let ranks: Vec<u8> = places.iter().map(|place| row.rank(*place)).collect();
            Region::new(location, &intervals, &ranks)
        })
        .collect()
}

/// An edge after which the clocks have any values.
fn free_edge(clocks: usize) -> Edge {
    let any = Update::to_constant(Comparison::AtLeast, 0);
    Edge {
        source: 0,
        target: 0,
        guards: vec![],
        updates: vec![any; clocks],
    }
}
