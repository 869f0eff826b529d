//! Next rows of an edge by trying points. Slow, for small automata only, but
//! nothing in it is cleverer than the rule for runs.
//!
//! Why the scale 2n + 1 is fine enough: take any two points, old and new, of any
//! scale, that show a row to be a next row. Their 2n values have at most 2n
//! different positive fractional parts. Replace these, in their order, by 1, 2,
//! .. out of 2n + 1 and leave the whole parts. Intervals, ranks, guards and
//! updates compare only whole parts and the order of fractional parts, so the
//! replaced points lie in the same rows and are still allowed.
//!
//! Why values up to one above the bound are enough for an old clock y at the
//! top: put it at c(y) + 1. What is asked of a new clock z against y + d can
//! still be met in the same interval of z, because c(z) <= c(y) + d: a value up
//! to c(z) is below y + d before and after, and the top of z has values below
//! (c(z) + 1/scale), at and above c(y) + 1 + d. Each new value then needs to be
//! tried no further than one above its own bound and one above what it is
//! compared with.

use crate::automaton::{Automaton, Edge, Update};
use crate::region::{is_whole, region_of, top, Region};
use crate::run::{guards_hold, update_allows};
use std::collections::{BTreeSet, HashSet};

/// All rows of the edge's target that hold a point allowed from a point of `row`.
pub fn by_points(automaton: &Automaton, edge: &Edge, row: Region) -> BTreeSet<Region> {
    let mut found = BTreeSet::new();
    if edge.source != row.location() {
        return found;
    }
    let scale = fine_scale(automaton.clocks());
    let mut tried = HashSet::new();
    for old in points_of(&automaton.bounds, row, scale) {
        if !guards_hold(&edge.guards, &old, scale) {
            continue;
        }
        let allowed: Vec<Vec<i64>> = (0..automaton.clocks())
            .map(|clock| allowed_values(automaton, edge.updates[clock], clock, &old, scale))
            .collect();
        // The same lists of new values give the same rows again.
        if tried.insert(allowed.clone()) {
            each_combination(&allowed, &mut |new| {
                found.insert(region_of(edge.target, &automaton.bounds, new, scale));
            });
        }
    }
    found
}

/// Enough for 2n different positive fractional parts.
pub fn fine_scale(clocks: usize) -> i64 {
    2 * clocks as i64 + 1
}

/// The points of a row at a scale, clocks at the top no further than one above their bound.
pub fn points_of(bounds: &[u8], row: Region, scale: i64) -> Vec<Vec<i64>> {
    let candidates: Vec<Vec<i64>> = (0..bounds.len())
        .map(|clock| values_in(row.interval(clock), bounds[clock], scale))
        .collect();
    let mut points = Vec::new();
    each_combination(&candidates, &mut |values| {
        if row.contains(bounds, values, scale) {
            points.push(values.to_vec());
        }
    });
    points
}

fn values_in(interval: u8, bound: u8, scale: i64) -> Vec<i64> {
    let floor = i64::from(interval / 2) * scale;
    if interval == top(bound) {
        (floor + 1..=floor + scale).collect()
    } else if is_whole(interval) {
        vec![floor]
    } else {
        (floor + 1..floor + scale).collect()
    }
}

/// The new values the update allows; of those above the bound one stands for
/// all, as they are in one interval and have no rank.
fn allowed_values(
    automaton: &Automaton,
    update: Update,
    own: usize,
    old: &[i64],
    scale: i64,
) -> Vec<i64> {
    let bound = i64::from(automaton.bounds[own]) * scale;
    let compared = update.relation(own).1.value(old, scale);
    let last = bound.max(compared) + scale;
    let allowed = |new: &i64| update_allows(update, own, old, *new, scale);
    let mut values: Vec<i64> = (0..=bound).filter(allowed).collect();
    values.extend((bound + 1..=last).find(allowed));
    values
}

/// Calls `visit` with each way of taking one value from each list.
fn each_combination(lists: &[Vec<i64>], visit: &mut dyn FnMut(&[i64])) {
    fn extend(lists: &[Vec<i64>], taken: &mut Vec<i64>, visit: &mut dyn FnMut(&[i64])) {
        match lists.get(taken.len()) {
            None => visit(taken),
            Some(list) => {
                for value in list {
                    taken.push(*value);
                    extend(lists, taken, visit);
                    taken.pop();
                }
            }
        }
    }
    extend(lists, &mut Vec::new(), visit);
}
