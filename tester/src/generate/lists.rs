//! Random runs and region lists that come close to being right.

use super::random::Random;
use super::rows;
use crate::automaton::{Automaton, Comparison, Edge, Update};
use crate::explore::closure_from;
use crate::region::Region;
use crate::run::{guards_hold, Run, Step, GREATEST_SCALE};
use std::collections::HashSet;

/// A run with at most `steps` steps that obeys the rules, and the location it
/// ends in. It ends early where no edge can be taken.
pub fn sound_run(random: &mut Random, automaton: &Automaton, steps: usize) -> (Run, u8) {
    let scale = match random.below(8) {
        0 => random.between(1, i64::from(GREATEST_SCALE)),
        1 => 1,
        _ => random.between(1, 9),
    };
    let leaving = automaton.leaving();
    let mut location = automaton.initial;
    let mut values = vec![0; automaton.clocks()];
    let mut run = Run {
        scale: scale as u16,
        steps: Vec::new(),
    };
    for _ in 0..steps {
        let edges = &leaving[usize::from(location)];
        let Some((number, delay, new)) = sound_step(random, automaton, edges, &values, scale)
        else {
            break;
        };
        run.steps.push(Step {
            edge: number as u16,
            delay: delay as u32,
            values: new.iter().map(|value| *value as u32).collect(),
        });
        location = automaton.edges[number].target;
        values = new;
    }
    (run, location)
}

/// Some tries at an edge, a delay and values that are allowed.
fn sound_step(
    random: &mut Random,
    automaton: &Automaton,
    edges: &[usize],
    values: &[i64],
    scale: i64,
) -> Option<(usize, i64, Vec<i64>)> {
    if edges.is_empty() {
        return None;
    }
    (0..6).find_map(|_| {
        let number = random.pick(edges);
        let edge = &automaton.edges[number];
        let delay = delay(random, edge, values, scale);
        let waited: Vec<i64> = values.iter().map(|value| value + delay).collect();
        if !guards_hold(&edge.guards, &waited, scale) {
            return None;
        }
        let new: Option<Vec<i64>> = (0..waited.len())
            .map(|clock| allowed_value(random, edge.updates[clock], clock, &waited, scale))
            .collect();
        Some((number, delay, new?))
    })
}

/// Often a delay that brings a guarded clock to its constant or near it.
fn delay(random: &mut Random, edge: &Edge, values: &[i64], scale: i64) -> i64 {
    if edge.guards.is_empty() || random.once_in(3) {
        return random.between(0, 2 * scale);
    }
    let guard = random.pick(&edge.guards);
    let constant = i64::from(guard.constant) * scale;
    let near = constant - values[usize::from(guard.clock)] + random.between(-1, 1);
    near.max(0)
}

/// A value that the update allows, if there is one.
pub fn allowed_value(
    random: &mut Random,
    update: Update,
    own: usize,
    old: &[i64],
    scale: i64,
) -> Option<i64> {
    let (comparison, term) = update.relation(own);
    let term = term.value(old, scale);
    let far = term.max(0) + 3 * scale;
    let (least, most) = match comparison {
        Comparison::Less => (0, term - 1),
        Comparison::AtMost => (0, term),
        Comparison::Equal => (term, term),
        Comparison::AtLeast => (term, far),
        Comparison::Greater => (term + 1, far),
        Comparison::NotEqual => (0, far),
    };
    let least = least.max(0);
    // Four bytes are all a run list has for a value.
    let most = most.min(i64::from(u32::MAX) / 2);
    if least > most {
        return None;
    }
    let value = random.between(least, most);
    // Only '≠' leaves out a value between the two ends.
    Some(value + i64::from(!comparison.holds(value.cmp(&term))))
}

/// Spoils a run in one field, or puts a clock where '≠' and '=' differ.
pub fn spoil_run(random: &mut Random, automaton: &Automaton, run: &mut Run) {
    if run.steps.is_empty() {
        return;
    }
    let index = random.below(run.steps.len());
    if random.once_in(4) {
        return put_to_the_term(random, automaton, run, index);
    }
    let edges = automaton.edges.len();
    let scale = u32::from(run.scale);
    let step = &mut run.steps[index];
    match random.below(6) {
        0 => step.edge = random.below(edges + 1) as u16,
        1 => step.delay = random.below(3 * scale as usize + 1) as u32,
        2 => step.delay = step.delay.wrapping_add(random.pick(&[1, u32::MAX, scale])),
        3 => run.scale = random.pick(&[0, 1, 2, 9_999, 10_000, 10_001]),
        _ => {
            let clock = random.below(step.values.len());
            let value = &mut step.values[clock];
            *value = match random.below(3) {
                0 => value.wrapping_add(random.pick(&[1, u32::MAX])),
                1 => random.below(3 * scale as usize + 1) as u32,
                _ => random.draw() as u32,
            };
        }
    }
}

/// Brings a clock of a step just to what a guard or its update compares it with.
fn put_to_the_term(random: &mut Random, automaton: &Automaton, run: &mut Run, index: usize) {
    let scale = i64::from(run.scale);
    let values = |step: &Step| step.values.iter().map(|value| i64::from(*value)).collect();
    let old: Vec<i64> = match index {
        0 => vec![0; automaton.clocks()],
        _ => values(&run.steps[index - 1]),
    };
    let step = &mut run.steps[index];
    let edge = &automaton.edges[usize::from(step.edge)];
    if !edge.guards.is_empty() && random.once_in(2) {
        let guard = random.pick(&edge.guards);
        let missing = i64::from(guard.constant) * scale - old[usize::from(guard.clock)];
        step.delay = missing.max(0) as u32;
    } else {
        let clock = random.below(old.len());
        let waited: Vec<i64> = old.iter().map(|v| v + i64::from(step.delay)).collect();
        let term = edge.updates[clock].relation(clock).1.value(&waited, scale);
        step.values[clock] = term.max(0) as u32;
    }
}

/// Rows that come close to a closed list: a closure, or part of one, or more.
/// Locations that the closure enters lose their final mark now and then.
pub fn rows_near_closed(random: &mut Random, automaton: &mut Automaton, cap: usize) -> Vec<Region> {
    let mut starts = vec![Region::initial(automaton)];
    if random.once_in(4) {
        starts.push(rows::row(random, automaton));
    }
    let mut rows = closure_from(automaton, &starts, cap).rows;
    match random.below(4) {
        0 => {}
        1 => rows.retain(|row| !automaton.is_final(row.location())),
        _ => {
            for row in &rows {
                automaton.locations[usize::from(row.location())].is_final = false;
            }
        }
    }
    rows
}

/// What is left of a list if each row but the initial one is left out once in so many times.
pub fn leave_out(
    random: &mut Random,
    automaton: &Automaton,
    rows: &[Region],
    once_in: usize,
) -> Vec<Region> {
    let initial = Region::initial(automaton);
    let stays = |row: &&Region| **row == initial || !random.once_in(once_in);
    rows.iter().filter(stays).copied().collect()
}

/// The same, but rows that waiting leads to from other rows stay too, so that only edges miss those
/// that are left out.
pub fn leave_out_for_edges(
    random: &mut Random,
    automaton: &Automaton,
    rows: &[Region],
    once_in: usize,
) -> Vec<Region> {
    let waits = rows
        .iter()
        .filter_map(|row| row.time_successor(&automaton.bounds));
    let waits: HashSet<Region> = waits.collect();
    let initial = Region::initial(automaton);
    let has_to_stay = |row: &Region| *row == initial || waits.contains(row);
    let stays = |row: &&Region| has_to_stay(row) || !random.once_in(once_in);
    rows.iter().filter(stays).copied().collect()
}

/// Spoils a list of rows: one or several missing, one more, two exchanged, one twice.
pub fn spoil_rows(random: &mut Random, automaton: &Automaton, rows: &mut Vec<Region>) {
    if rows.is_empty() {
        return;
    }
    let index = random.below(rows.len());
    match random.below(7) {
        0 | 1 => {
            rows.remove(index);
        }
        2 => {
            let once_in = random.pick(&[2, 4, 16]);
            *rows = leave_out(random, automaton, rows, once_in);
        }
        3 => {
            rows.push(rows::row(random, automaton));
            rows.sort_unstable();
            rows.dedup();
        }
        4 => rows.insert(random.below(rows.len() + 1), rows::row(random, automaton)),
        5 => {
            let other = random.below(rows.len());
            rows.swap(index, other);
        }
        _ => rows.insert(index, rows[index]),
    }
}
