//! Random automata, admitted or with a bound rule broken.

use super::random::Random;
use crate::automaton::*;

/// The size of one automaton to be made.
#[derive(Clone, Copy, Debug)]
pub struct Shape {
    pub clocks: usize,
    pub locations: usize,
    pub edges: usize,
    pub greatest_bound: u8,
    pub greatest_guards: usize,
    /// The comparisons that its guards and updates have.
    pub comparisons: &'static [Comparison],
}

impl Shape {
    /// A few clocks, locations and edges, and low bounds.
    pub fn small(random: &mut Random) -> Shape {
        let locations = 1 + random.below(4);
        Shape {
            clocks: 1 + random.below(3),
            locations,
            edges: random.below(3 * locations + 2),
            greatest_bound: random.below(4) as u8,
            greatest_guards: 2,
            comparisons: &Comparison::ALL,
        }
    }

    /// Any size the format has.
    pub fn any(random: &mut Random) -> Shape {
        Shape {
            clocks: 1 + random.below(GREATEST_CLOCKS),
            locations: 1 + random.below(GREATEST_LOCATIONS),
            edges: random.below(GREATEST_EDGES + 1),
            greatest_bound: random.below(usize::from(GREATEST_BOUND) + 1) as u8,
            greatest_guards: GREATEST_GUARDS,
            comparisons: &Comparison::ALL,
        }
    }

    /// The greatest size the format has.
    pub fn greatest() -> Shape {
        Shape {
            clocks: GREATEST_CLOCKS,
            locations: GREATEST_LOCATIONS,
            edges: GREATEST_EDGES,
            greatest_bound: GREATEST_BOUND,
            greatest_guards: GREATEST_GUARDS,
            comparisons: &Comparison::ALL,
        }
    }

    /// Small, but once in `large_once_in` cases of any size.
    pub fn biased(random: &mut Random, large_once_in: usize) -> Shape {
        if random.once_in(large_once_in) {
            Shape::any(random)
        } else {
            Shape::small(random)
        }
    }
}

/// An automaton whose table is admitted.
pub fn admitted(random: &mut Random, shape: Shape) -> Automaton {
    let bounds: Vec<u8> = (0..shape.clocks)
        .map(|_| random.below(usize::from(shape.greatest_bound) + 1) as u8)
        .collect();
    let locations: Vec<Location> = (0..shape.locations)
        .map(|_| Location {
            is_final: random.once_in(5),
            is_brief: random.once_in(4),
        })
        .collect();
    let edges: Vec<Edge> = (0..shape.edges)
        .map(|_| edge(random, shape, &bounds))
        .collect();
    // Mostly a location that some edge leaves, so that runs have steps.
    let initial = match edges.is_empty() || random.once_in(6) {
        true => random.below(shape.locations) as u8,
        false => edges[random.below(edges.len())].source,
    };
    Automaton {
        initial,
        bounds,
        locations,
        edges,
    }
}

fn edge(random: &mut Random, shape: Shape, bounds: &[u8]) -> Edge {
    // Half the edges have no guard, so that enough of them can be taken.
    let guards = match random.once_in(2) {
        true => 0,
        false => random.below(shape.greatest_guards + 1),
    };
    Edge {
        source: random.below(shape.locations) as u8,
        target: random.below(shape.locations) as u8,
        guards: (0..guards)
            .map(|_| guard_among(random, bounds, shape.comparisons))
            .collect(),
        updates: (0..bounds.len())
            .map(|own| update(random, bounds, own, shape.comparisons))
            .collect(),
    }
}

pub fn comparison(random: &mut Random) -> Comparison {
    random.pick(&Comparison::ALL)
}

pub fn guard(random: &mut Random, bounds: &[u8]) -> Guard {
    guard_among(random, bounds, &Comparison::ALL)
}

/// A guard with one of the comparisons.
pub fn guard_among(random: &mut Random, bounds: &[u8], comparisons: &[Comparison]) -> Guard {
    let clock = random.below(bounds.len());
    Guard {
        clock: clock as u8,
        comparison: random.pick(comparisons),
        constant: random.below(usize::from(bounds[clock]) + 1) as u8,
    }
}

/// An update of `own` that keeps the bound rule.
fn update(random: &mut Random, bounds: &[u8], own: usize, comparisons: &[Comparison]) -> Update {
    match random.below(5) {
        0 | 1 => Update::Keep,
        _ => changing_update_among(random, bounds, own, comparisons),
    }
}

/// An update other than keep.
pub fn changing_update(random: &mut Random, bounds: &[u8], own: usize) -> Update {
    changing_update_among(random, bounds, own, &Comparison::ALL)
}

/// An update with one of the comparisons, or with '='.
pub fn changing_update_among(
    random: &mut Random,
    bounds: &[u8],
    own: usize,
    comparisons: &[Comparison],
) -> Update {
    match random.below(2) {
        0 => Update::Constant {
            comparison: update_comparison(random, comparisons),
            constant: random.below(usize::from(bounds[own]) + 1) as u8,
        },
        _ => {
            let clock = random.below(bounds.len());
            let least = i64::from(least_offset(bounds, own, clock));
            // Offsets close to the least are the telling ones: further up all
            // that is compared lies above the bound.
            let most = match random.once_in(6) {
                true => 127,
                false => (least + 2).min(127),
            };
            Update::Clock {
                comparison: update_comparison(random, comparisons),
                clock: clock as u8,
                offset: random.between(least, most) as i16,
            }
        }
    }
}

/// The least offset that the bound rule permits for an update of `own` from `clock`.
pub fn least_offset(bounds: &[u8], own: usize, clock: usize) -> i16 {
    i16::from(bounds[own]) - i16::from(bounds[clock])
}

/// '=' more often than the others, as it keeps the number of next rows low.
fn update_comparison(random: &mut Random, comparisons: &[Comparison]) -> Comparison {
    match random.once_in(3) {
        true => Comparison::Equal,
        false => random.pick(comparisons),
    }
}

/// An automaton with every field in range, but with bound rules broken in one or
/// more edges, if it has any.
pub fn nearly_admitted(random: &mut Random, shape: Shape) -> Automaton {
    let mut automaton = admitted(random, shape);
    break_bound_rules(random, &mut automaton);
    automaton
}

/// Breaks bound rules in one or more edges.
pub fn break_bound_rules(random: &mut Random, automaton: &mut Automaton) {
    if automaton.edges.is_empty() {
        return;
    }
    for _ in 0..1 + random.below(3) {
        let index = random.below(automaton.edges.len());
        break_edge(random, &mut automaton.edges[index], &automaton.bounds);
    }
}

fn break_edge(random: &mut Random, edge: &mut Edge, bounds: &[u8]) {
    let clock = random.below(bounds.len());
    let above = |random: &mut Random| {
        // Just above the bound, or anywhere above, as far as the format goes.
        let least = (i64::from(bounds[clock]) + 1).min(127);
        let most = if random.once_in(2) { least } else { 127 };
        random.between(least, most) as u8
    };
    match random.below(3) {
        0 if edge.guards.len() < GREATEST_GUARDS => edge.guards.push(Guard {
            clock: clock as u8,
            comparison: comparison(random),
            constant: above(random),
        }),
        0 | 1 => {
            edge.updates[clock] = Update::Constant {
                comparison: comparison(random),
                constant: above(random),
            }
        }
        _ => {
            let other = random.below(bounds.len());
            let least = i64::from(least_offset(bounds, clock, other));
            let most = (least - 1).max(-127);
            edge.updates[clock] = Update::Clock {
                comparison: comparison(random),
                clock: other as u8,
                offset: random.between((most - 2).max(-127), most) as i16,
            }
        }
    }
}
