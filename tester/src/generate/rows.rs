//! Random rows and points.

use super::random::Random;
use crate::automaton::{Automaton, GREATEST_CLOCKS};
use crate::region::{region_of, top, Region};

/// Any row of the automaton in a given location.
pub fn row_in(random: &mut Random, automaton: &Automaton, location: u8) -> Region {
    let scale = 1 + random.between(1, 2 * GREATEST_CLOCKS as i64);
    let values = point(random, &automaton.bounds, scale);
    region_of(location, &automaton.bounds, &values, scale)
}

/// Any row of the automaton.
pub fn row(random: &mut Random, automaton: &Automaton) -> Region {
    let location = random.below(automaton.locations.len()) as u8;
    row_in(random, automaton, location)
}

/// Values around and up to the bounds, whole ones and equal parts among them.
pub fn point(random: &mut Random, bounds: &[u8], scale: i64) -> Vec<i64> {
    let shared = random.between(0, scale - 1);
    bounds
        .iter()
        .map(|bound| {
            let bound = i64::from(*bound);
            let whole = random.between(0, bound) * scale;
            match random.below(6) {
                0 => whole,
                1 | 2 => whole + shared,
                3 => bound * scale + random.between(1, scale),
                _ => whole + random.between(0, scale - 1),
            }
        })
        .collect()
}

/// A row record whose fields may be out of range by a little.
pub fn loose_record(random: &mut Random, automaton: &Automaton) -> Vec<u8> {
    let clocks = automaton.clocks();
    let mut record = row(random, automaton).record(clocks);
    let clock = random.below(clocks);
    match random.below(4) {
        0 => record[2] = automaton.locations.len() as u8 + random.below(2) as u8,
        1 => record[3 + clock] = top(automaton.bounds[clock]).saturating_add(random.below(2) as u8),
        2 => record[3 + clock] ^= 1,
        _ => record[3 + clocks + clock] = random.below(GREATEST_CLOCKS + 2) as u8,
    }
    record
}
