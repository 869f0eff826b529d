//! Guards, updates and edges in words, as a person writes them: `x0 :≥ x1 − 49`.

use crate::automaton::{Edge, Guard, Update};

/// One guard, as `x0 ≤ 3`.
pub fn guard(guard: &Guard) -> String {
    let sign = guard.comparison.sign();
    format!("x{} {sign} {}", guard.clock, guard.constant)
}

/// The update of the clock `own`, as `x0 :≥ x1 − 49`.
pub fn update(own: usize, update: Update) -> String {
    match update {
        Update::Keep => format!("x{own} kept"),
        Update::Constant {
            comparison,
            constant,
        } => format!("x{own} :{} {constant}", comparison.sign()),
        Update::Clock {
            comparison,
            clock,
            offset,
        } => format!("x{own} :{} x{clock}{}", comparison.sign(), added(offset)),
    }
}

/// What stands behind the clock's name: nothing for 0, and a true minus sign below it.
fn added(offset: i16) -> String {
    match offset {
        0 => String::new(),
        1.. => format!(" + {offset}"),
        _ => format!(" − {}", -offset),
    }
}

/// One edge, as `from 0 to 1 if x0 = 0 and x1 < 2: x0 kept, x1 := 0`.
pub fn edge(edge: &Edge) -> String {
    let guards: Vec<String> = edge.guards.iter().map(guard).collect();
    let condition = match guards.is_empty() {
        true => String::new(),
        false => format!(" if {}", guards.join(" and ")),
    };
    let updates: Vec<String> = (0..)
        .zip(&edge.updates)
        .map(|(own, each)| update(own, *each))
        .collect();
    format!(
        "from {} to {}{condition}: {}",
        edge.source,
        edge.target,
        updates.join(", ")
    )
}

/// Numbers with commas between them.
pub fn numbers(numbers: &[u8]) -> String {
    let words: Vec<String> = numbers.iter().map(u8::to_string).collect();
    words.join(", ")
}
