//! Runs: their list file, and what a step may do.

use crate::admit::admitted;
use crate::answer::{number, Answer, Refusal};
use crate::automaton::{Automaton, Guard, Update};
use crate::format::{four_bytes, two_bytes, Reader};

pub const GREATEST_SCALE: u16 = 10_000;
pub const GREATEST_STEPS: u16 = 2_048;

/// A run list: time and clock values are whole counts of 1/scale.
#[derive(Clone, Debug, PartialEq, Eq)]
pub struct Run {
    pub scale: u16,
    pub steps: Vec<Step>,
}

#[derive(Clone, Debug, PartialEq, Eq)]
pub struct Step {
    pub edge: u16,
    pub delay: u32,
    /// The clocks after the update.
    pub values: Vec<u32>,
}

/// Checks a run list against a table: refusals 1 to 13. The count is that of the steps.
pub fn check_run(table: &[u8], list: &[u8]) -> Answer {
    run_steps(table, list).into()
}

fn run_steps(table: &[u8], list: &[u8]) -> Result<u32, Refusal> {
    let automaton = admitted(table)?;
    let run = parse_run(&automaton, list)?;
    let end = walk(&automaton, &run)?;
    let count = run.steps.len();
    if !automaton.is_final(end) {
        return Err(Refusal::new(number::END_NOT_FINAL, count as u16));
    }
    Ok(count as u32)
}

/// Takes the steps in order: refusals 10 to 12. Hands back the last location.
pub fn walk(automaton: &Automaton, run: &Run) -> Result<u8, Refusal> {
    let scale = i64::from(run.scale);
    let mut location = automaton.initial;
    let mut values = vec![0_i64; automaton.clocks()];
    for (index, step) in run.steps.iter().enumerate() {
        let place = index as u16 + 1;
        let edge = &automaton.edges[usize::from(step.edge)];
        if edge.source != location {
            return Err(Refusal::new(number::EDGE_FROM_ELSEWHERE, place));
        }
        // 64 bits: a value and a delay of four bytes each may pass 32 together.
        for value in &mut values {
            *value += i64::from(step.delay);
        }
        if !guards_hold(&edge.guards, &values, scale) {
            return Err(Refusal::new(number::GUARD_FAILS, place));
        }
        let new: Vec<i64> = step.values.iter().map(|value| i64::from(*value)).collect();
        if !updates_allow(&edge.updates, &values, &new, scale) {
            return Err(Refusal::new(number::VALUE_NOT_ALLOWED, place));
        }
        location = edge.target;
        values = new;
    }
    Ok(location)
}

pub fn guards_hold(guards: &[Guard], values: &[i64], scale: i64) -> bool {
    guards.iter().all(|guard| {
        let constant = i64::from(guard.constant) * scale;
        guard
            .comparison
            .holds(values[usize::from(guard.clock)].cmp(&constant))
    })
}

/// Every new value against the old ones; no new value is ever read as an old one.
pub fn updates_allow(updates: &[Update], old: &[i64], new: &[i64], scale: i64) -> bool {
    (0..updates.len()).all(|clock| update_allows(updates[clock], clock, old, new[clock], scale))
}

/// Whether the update of `own` lets it take the value `new`. Values are never
/// negative, so a negative term leaves nothing to '=', '<' and '≤' by itself.
pub fn update_allows(update: Update, own: usize, old: &[i64], new: i64, scale: i64) -> bool {
    match update {
        Update::Keep => new == old[own],
        Update::Constant {
            comparison,
            constant,
        } => comparison.holds(new.cmp(&(i64::from(constant) * scale))),
        Update::Clock {
            comparison,
            clock,
            offset,
        } => comparison.holds(new.cmp(&(old[usize::from(clock)] + i64::from(offset) * scale))),
    }
}

/// Reads a run list: refusals 7 to 9.
pub fn parse_run(automaton: &Automaton, list: &[u8]) -> Result<Run, Refusal> {
    let mut reader = Reader::new(list);
    let cut = reader.refusal(number::LIST_CUT);
    let fields = reader.marked(b"RN", 4).ok_or(cut)?;
    let (scale, count) = (two_bytes(&fields[0..2]), two_bytes(&fields[2..4]));
    if !(1..=GREATEST_SCALE).contains(&scale) || count > GREATEST_STEPS {
        return Err(reader.refusal(number::LIST_RANGE));
    }
    reader.record_done();
    let mut steps = Vec::with_capacity(usize::from(count));
    for _ in 0..count {
        steps.push(read_step(&mut reader, automaton)?);
    }
    reader.end(number::LIST_LONG)?;
    Ok(Run { scale, steps })
}

fn read_step(reader: &mut Reader, automaton: &Automaton) -> Result<Step, Refusal> {
    let cut = reader.refusal(number::LIST_CUT);
    let fields = reader
        .marked(b"ST", 6 + 4 * automaton.clocks())
        .ok_or(cut)?;
    let edge = two_bytes(&fields[0..2]);
    if usize::from(edge) >= automaton.edges.len() {
        return Err(reader.refusal(number::LIST_RANGE));
    }
    reader.record_done();
    Ok(Step {
        edge,
        delay: four_bytes(&fields[2..6]),
        values: fields[6..].chunks_exact(4).map(four_bytes).collect(),
    })
}

/// The run list file of a run.
pub fn encode_run(run: &Run) -> Vec<u8> {
    run_records(run).concat()
}

/// The run list file record by record.
pub fn run_records(run: &Run) -> Vec<Vec<u8>> {
    let mut header = b"RN".to_vec();
    header.extend(run.scale.to_be_bytes());
    header.extend((run.steps.len() as u16).to_be_bytes());
    let mut records = vec![header];
    for step in &run.steps {
        let mut record = b"ST".to_vec();
        record.extend(step.edge.to_be_bytes());
        record.extend(step.delay.to_be_bytes());
        for value in &step.values {
            record.extend(value.to_be_bytes());
        }
        records.push(record);
    }
    records
}
