//! The timed automaton a table file describes.

use std::cmp::Ordering;

pub const GREATEST_CLOCKS: usize = 4;
pub const GREATEST_LOCATIONS: usize = 64;
pub const GREATEST_EDGES: usize = 256;
pub const GREATEST_BOUND: u8 = 127;
pub const GREATEST_GUARDS: usize = 8;

/// The six comparisons, in the order of their file numbers.
#[derive(Clone, Copy, Debug, PartialEq, Eq, Hash)]
pub enum Comparison {
    Less,
    AtMost,
    Equal,
    AtLeast,
    Greater,
    NotEqual,
}

impl Comparison {
    pub const ALL: [Comparison; 6] = [
        Comparison::Less,
        Comparison::AtMost,
        Comparison::Equal,
        Comparison::AtLeast,
        Comparison::Greater,
        Comparison::NotEqual,
    ];

    pub fn from_byte(byte: u8) -> Option<Self> {
        Self::ALL.get(usize::from(byte)).copied()
    }

    pub fn byte(self) -> u8 {
        self as u8
    }

    /// As a person writes it.
    pub fn sign(self) -> &'static str {
        match self {
            Comparison::Less => "<",
            Comparison::AtMost => "≤",
            Comparison::Equal => "=",
            Comparison::AtLeast => "≥",
            Comparison::Greater => ">",
            Comparison::NotEqual => "≠",
        }
    }

    /// Whether a value that stands so to the other side is in the comparison.
    pub fn holds(self, ordering: Ordering) -> bool {
        match self {
            Comparison::Less => ordering == Ordering::Less,
            Comparison::AtMost => ordering != Ordering::Greater,
            Comparison::Equal => ordering == Ordering::Equal,
            Comparison::AtLeast => ordering != Ordering::Less,
            Comparison::Greater => ordering == Ordering::Greater,
            Comparison::NotEqual => ordering != Ordering::Equal,
        }
    }
}

/// Clock against constant.
#[derive(Clone, Copy, Debug, PartialEq, Eq)]
pub struct Guard {
    pub clock: u8,
    pub comparison: Comparison,
    pub constant: u8,
}

/// What an edge asks of one clock's new value.
#[derive(Clone, Copy, Debug, PartialEq, Eq)]
pub enum Update {
    Keep,
    Constant {
        comparison: Comparison,
        constant: u8,
    },
    Clock {
        comparison: Comparison,
        clock: u8,
        offset: i16,
    },
}

/// The right side of an update, once keep is read as "equals the old self plus 0".
#[derive(Clone, Copy, Debug, PartialEq, Eq)]
pub enum Term {
    Constant(u8),
    Clock { clock: usize, offset: i16 },
}

impl Term {
    /// What a new value is compared with, in counts of 1/scale as the old values are; it may be below 0.
    pub fn value(self, old: &[i64], scale: i64) -> i64 {
        match self {
            Term::Constant(constant) => i64::from(constant) * scale,
            Term::Clock { clock, offset } => old[clock] + i64::from(offset) * scale,
        }
    }
}

impl Update {
    /// The new value stands in the comparison to a constant.
    pub const fn to_constant(comparison: Comparison, constant: u8) -> Update {
        Update::Constant {
            comparison,
            constant,
        }
    }

    /// The new value stands in the comparison to the clock's old one plus the offset.
    pub const fn to_clock(comparison: Comparison, clock: usize, offset: i16) -> Update {
        Update::Clock {
            comparison,
            clock: clock as u8,
            offset,
        }
    }

    /// None for keep, which has no comparison in the file.
    pub fn comparison(self) -> Option<Comparison> {
        match self {
            Update::Keep => None,
            Update::Constant { comparison, .. } | Update::Clock { comparison, .. } => {
                Some(comparison)
            }
        }
    }

    /// The same with another comparison; keep, which has none, stays as it is.
    pub fn with_comparison(self, comparison: Comparison) -> Update {
        match self {
            Update::Keep => Update::Keep,
            Update::Constant { constant, .. } => Update::Constant {
                comparison,
                constant,
            },
            Update::Clock { clock, offset, .. } => Update::Clock {
                comparison,
                clock,
                offset,
            },
        }
    }

    /// The update of `own` as a comparison to a term.
    pub fn relation(self, own: usize) -> (Comparison, Term) {
        match self {
            Update::Keep => (
                Comparison::Equal,
                Term::Clock {
                    clock: own,
                    offset: 0,
                },
            ),
            Update::Constant {
                comparison,
                constant,
            } => (comparison, Term::Constant(constant)),
            Update::Clock {
                comparison,
                clock,
                offset,
            } => (
                comparison,
                Term::Clock {
                    clock: usize::from(clock),
                    offset,
                },
            ),
        }
    }
}

#[derive(Clone, Debug, PartialEq, Eq)]
pub struct Edge {
    pub source: u8,
    pub target: u8,
    pub guards: Vec<Guard>,
    /// One for each clock, in the order of the clocks.
    pub updates: Vec<Update>,
}

impl Edge {
    /// Whether a guard or an update has the comparison.
    pub fn has(&self, comparison: Comparison) -> bool {
        let mut guards = self.guards.iter();
        let mut updates = self.updates.iter();
        guards.any(|guard| guard.comparison == comparison)
            || updates.any(|update| update.comparison() == Some(comparison))
    }
}

#[derive(Clone, Copy, Debug, PartialEq, Eq)]
pub struct Location {
    pub is_final: bool,
    /// For the pump's screen only; runs and regions never look at it.
    pub is_brief: bool,
}

#[derive(Clone, Debug, PartialEq, Eq)]
pub struct Automaton {
    pub initial: u8,
    /// One for each clock; their number is the number of clocks.
    pub bounds: Vec<u8>,
    pub locations: Vec<Location>,
    pub edges: Vec<Edge>,
}

impl Automaton {
    /// An automaton that begins in its location 0 and has no final one.
    pub fn without_final(locations: usize, bounds: &[u8], edges: Vec<Edge>) -> Automaton {
        let location = Location {
            is_final: false,
            is_brief: false,
        };
        Automaton {
            initial: 0,
            bounds: bounds.to_vec(),
            locations: vec![location; locations],
            edges,
        }
    }

    pub fn clocks(&self) -> usize {
        self.bounds.len()
    }

    pub fn is_final(&self, location: u8) -> bool {
        self.locations[usize::from(location)].is_final
    }

    /// Whether some edge has the comparison.
    pub fn has(&self, comparison: Comparison) -> bool {
        self.edges.iter().any(|edge| edge.has(comparison))
    }

    /// The number of records its file has: header, locations, edges.
    pub fn records(&self) -> usize {
        1 + self.locations.len() + self.edges.len()
    }

    /// The record number of an edge in the file.
    pub fn edge_place(&self, edge: usize) -> u16 {
        (1 + self.locations.len() + edge) as u16
    }

    /// Edge numbers by source location, so that a walk over many rows does not
    /// look at edges that leave from elsewhere.
    pub fn leaving(&self) -> Vec<Vec<usize>> {
        let mut leaving = vec![Vec::new(); self.locations.len()];
        for (number, edge) in self.edges.iter().enumerate() {
            leaving[usize::from(edge.source)].push(number);
        }
        leaving
    }
}
