//! Tables whose edges are made by one thought, with bounds to choose: some as suppliers write
//! them, some from every row to nearly every row, some that read clocks.

use crate::automaton::*;
use crate::generate::{tables, Random};

/// The comparisons of the tables that were timed before there was '≠', so that they stay as
/// they were.
pub const BEFORE_NOT_EQUAL: &[Comparison] = &[
    Comparison::Less,
    Comparison::AtMost,
    Comparison::Equal,
    Comparison::AtLeast,
    Comparison::Greater,
];

/// 64 locations and 256 edges that mostly keep or reset two clocks.
pub fn typical() -> Automaton {
    let mut random = Random::new(30_601);
    let bounds = [5, 2];
    let edges = (0..256).map(|number| Edge {
        source: (number % 64) as u8,
        target: random.below(64) as u8,
        guards: (0..random.below(3))
            .map(|_| tables::guard_among(&mut random, &bounds, BEFORE_NOT_EQUAL))
            .collect(),
        updates: (0..2)
            .map(|own| match random.below(8) {
                0..=2 => Update::Keep,
                3..=6 => set(0),
                _ => tables::changing_update_among(&mut random, &bounds, own, BEFORE_NOT_EQUAL),
            })
            .collect(),
    });
    let edges = edges.collect();
    Automaton::without_final(64, &bounds, edges)
}

pub fn set(constant: u8) -> Update {
    Update::to_constant(Comparison::Equal, constant)
}

/// 256 edges from one location to itself that keep, set or copy four clocks.
pub fn deterministic() -> Automaton {
    let mut random = Random::new(30_602);
    let bounds = [3, 2, 2, 1];
    let mut update = |own: usize| match random.below(3) {
        0 => Update::Keep,
        1 => set(random.below(2) as u8),
        _ => {
            let clock = random.below(4);
            let least = tables::least_offset(&bounds, own, clock);
            Update::to_clock(Comparison::Equal, clock, least + random.below(2) as i16)
        }
    };
    let edges = (0..256).map(|_| Edge {
        source: 0,
        target: 0,
        guards: vec![],
        updates: (0..4).map(&mut update).collect(),
    });
    let edges = edges.collect();
    Automaton::without_final(1, &bounds, edges)
}

/// 256 edges from one location to itself, each from every row to nearly every row.
pub fn worst(bounds: &[u8]) -> Automaton {
    let mut random = Random::new(30_603);
    let mut update = |own: usize| {
        let (comparison, constant) = random.pick(&[
            (Comparison::AtLeast, 0),
            (Comparison::Greater, 0),
            (Comparison::AtMost, bounds[own]),
        ]);
        Update::to_constant(comparison, constant)
    };
    let edges = (0..256).map(|_| Edge {
        source: 0,
        target: 0,
        guards: vec![],
        updates: (0..bounds.len()).map(&mut update).collect(),
    });
    let edges = edges.collect();
    Automaton::without_final(1, bounds, edges)
}

/// The first 16 of those edges, each with other updates.
fn altered(bounds: &[u8], alter: impl Fn(usize, &mut Update)) -> Automaton {
    let mut automaton = worst(bounds);
    automaton.edges.truncate(16);
    for edge in &mut automaton.edges {
        for (own, update) in edge.updates.iter_mut().enumerate() {
            alter(own, update);
        }
    }
    automaton
}

/// The last clock is kept, so that what an edge leads to differs from each row to the next.
pub fn last_kept(bounds: &[u8]) -> Automaton {
    altered(bounds, |own, update| {
        if own + 1 == bounds.len() {
            *update = Update::Keep;
        }
    })
}

/// No clock may go down, so that an edge reads all clocks and leads to many rows from each.
pub fn none_down(bounds: &[u8]) -> Automaton {
    altered(bounds, |own, update| {
        *update = Update::to_clock(Comparison::AtLeast, own, 0)
    })
}

/// No clock may go up by more than one: as before, and from later rows to more of them.
pub fn up_by_one(bounds: &[u8]) -> Automaton {
    altered(bounds, |own, update| {
        *update = Update::to_clock(Comparison::AtMost, own, 1)
    })
}

/// All clocks are read, but nothing that is read makes a difference.
pub fn read_in_vain(bounds: &[u8]) -> Automaton {
    altered(bounds, |own, update| {
        *update = Update::to_clock(Comparison::Less, own, 127)
    })
}

/// The first two clocks are kept and the others may not go down, so that an edge leads to many rows from each, but not to all that
/// have the same intervals.
pub fn two_kept(bounds: &[u8]) -> Automaton {
    altered(bounds, |own, update| {
        *update = match own {
            0 | 1 => Update::Keep,
            _ => Update::to_clock(Comparison::AtLeast, own, 0),
        }
    })
}

/// Clocks against constants and against themselves, always by '≠': an edge leads from each row to nearly
/// all rows.
pub fn all_but_one(bounds: &[u8]) -> Automaton {
    altered(bounds, |own, update| {
        *update = match *update {
            Update::Constant {
                comparison: Comparison::AtLeast,
                ..
            } => Update::to_clock(Comparison::NotEqual, own, 0),
            other => other.with_comparison(Comparison::NotEqual),
        }
    })
}

/// No clock stays as it was: an edge leads from each row to nearly all rows, and never only to such as
/// it leads to from another row, whatever the order in which rows are taken.
pub fn all_changed(bounds: &[u8]) -> Automaton {
    altered(bounds, |own, update| {
        *update = Update::to_clock(Comparison::NotEqual, own, 0)
    })
}

/// No clock becomes what the next one was: as before, and fractional parts are compared with those of
/// other clocks.
pub fn none_alike(bounds: &[u8]) -> Automaton {
    altered(bounds, |own, update| {
        let next = (own + 1) % bounds.len();
        let offset = tables::least_offset(bounds, own, next);
        *update = Update::to_clock(Comparison::NotEqual, next, offset);
    })
}
