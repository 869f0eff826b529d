//! Admission of a table: refusals 1 to 6.

use crate::answer::{number, Answer, Refusal};
use crate::automaton::{Automaton, Edge, Update};
use crate::format::parse_table;

/// Admits a table, or says why not. The count is that of its records.
pub fn admit(table: &[u8]) -> Answer {
    admitted(table)
        .map(|automaton| automaton.records() as u32)
        .into()
}

/// The automaton of an admitted table; every other call begins with this one.
pub fn admitted(table: &[u8]) -> Result<Automaton, Refusal> {
    let automaton = parse_table(table)?;
    for (edge_number, edge) in automaton.edges.iter().enumerate() {
        let place = automaton.edge_place(edge_number);
        if exceeds_bound(edge, &automaton.bounds) {
            return Err(Refusal::new(number::CONSTANT_ABOVE_BOUND, place));
        }
        if breaks_bound_rule(edge, &automaton.bounds) {
            return Err(Refusal::new(number::CLOCK_BREAKS_BOUND, place));
        }
    }
    Ok(automaton)
}

/// A guard constant or constant update above its clock's bound.
fn exceeds_bound(edge: &Edge, bounds: &[u8]) -> bool {
    let guard_exceeds = edge
        .guards
        .iter()
        .any(|guard| guard.constant > bounds[usize::from(guard.clock)]);
    let update_exceeds = edge.updates.iter().zip(bounds).any(
        |(update, bound)| matches!(update, Update::Constant { constant, .. } if constant > bound),
    );
    guard_exceeds || update_exceeds
}

/// An update of z from y with offset d where c(z) is above c(y) + d.
fn breaks_bound_rule(edge: &Edge, bounds: &[u8]) -> bool {
    edge.updates
        .iter()
        .zip(bounds)
        .any(|(update, own)| match update {
            Update::Clock { clock, offset, .. } => {
                i16::from(*own) > i16::from(bounds[usize::from(*clock)]) + offset
            }
            _ => false,
        })
}
