//! Short forms for hand-made automata and files, and random ones several tests share.
#![allow(dead_code, unused_imports)]

mod closed;
pub use closed::Closed;

use tzelmaruf_tester::answer::Answer;
use tzelmaruf_tester::automaton::*;
use tzelmaruf_tester::explore::{Move, PathStep};
use tzelmaruf_tester::generate::{rows, tables, Random, Shape};
use tzelmaruf_tester::region::{region_of, Region};
use tzelmaruf_tester::successor::NextRows;

pub use tzelmaruf_tester::answer::hex;
pub use tzelmaruf_tester::automaton::Comparison::{
    AtLeast, AtMost, Equal, Greater, Less, NotEqual,
};

pub fn automaton(bounds: &[u8], finals: &[bool], edges: Vec<Edge>) -> Automaton {
    let locations = finals.iter().map(|is_final| Location {
        is_final: *is_final,
        is_brief: false,
    });
    Automaton {
        initial: 0,
        bounds: bounds.to_vec(),
        locations: locations.collect(),
        edges,
    }
}

pub fn edge(source: u8, target: u8, guards: &[Guard], updates: &[Update]) -> Edge {
    Edge {
        source,
        target,
        guards: guards.to_vec(),
        updates: updates.to_vec(),
    }
}

pub fn guard(clock: u8, comparison: Comparison, constant: u8) -> Guard {
    Guard {
        clock,
        comparison,
        constant,
    }
}

pub fn constant(comparison: Comparison, constant: u8) -> Update {
    Update::Constant {
        comparison,
        constant,
    }
}

pub fn clock(comparison: Comparison, clock: u8, offset: i16) -> Update {
    Update::Clock {
        comparison,
        clock,
        offset,
    }
}

/// A row of location 0.
pub fn row(intervals: &[u8], ranks: &[u8]) -> Region {
    Region::new(0, intervals, ranks)
}

pub fn refused(number: u8, place: u16) -> Answer {
    Answer::Refused { number, place }
}

/// Bytes from hex with blanks.
pub fn bytes(text: &str) -> Vec<u8> {
    let digits: Vec<u8> = text.bytes().filter(u8::is_ascii_hexdigit).collect();
    digits
        .chunks(2)
        .map(|pair| u8::from_str_radix(std::str::from_utf8(pair).unwrap(), 16).unwrap())
        .collect()
}

/// The table of P1 and the rows of its list.
pub const P1_TABLE: &str = "54 41 01 03 00 00 02 02, 4C 4F 00, 4C 4F 00, 4C 4F 01, \
    45 44 00 01 01 00 03 02 00 00 00 00 00, 45 44 01 02 01 00 00 02 00 00 00 00 00";
pub const P1_ROWS: [&str; 8] = [
    "000000", "000101", "000200", "000301", "000400", "000500", "010400", "010500",
];

/// The file of such rows.
pub fn p1_list(count: u8, rows: &[&str]) -> Vec<u8> {
    let mut list = bytes(&format!("52 4C 00 {count:02X}"));
    for row in rows {
        list.extend(bytes("52 57"));
        list.extend(bytes(row));
    }
    list
}

/// A buffer in which neighbours differ and no mark of a row stands.
pub fn patterned(length: usize) -> Vec<u8> {
    (0..length)
        .map(|index| (index * 37 % 61) as u8 + 0x80)
        .collect()
}

/// All updates of a clock that the bound rule permits, offsets up to two above the least.
pub fn all_updates(bounds: &[u8], own: usize) -> Vec<Update> {
    let mut updates = vec![Update::Keep];
    for comparison in Comparison::ALL {
        updates.extend((0..=bounds[own]).map(|constant| Update::Constant {
            comparison,
            constant,
        }));
        for clock in 0..bounds.len() {
            let least = tables::least_offset(bounds, own, clock);
            updates.extend((least..=least + 2).map(|offset| Update::Clock {
                comparison,
                clock: clock as u8,
                offset,
            }));
        }
    }
    updates
}

/// Bounds for tables of one to four clocks that have choices in the middle, and yet so few rows that
/// all of them can be gone through.
const BOUNDS_BY_CLOCKS: [&[&[u8]]; 4] = [
    &[&[6], &[3], &[0]],
    &[&[3, 3], &[4, 1], &[1, 4]],
    &[&[2, 1, 1], &[1, 2, 1], &[1, 1, 2], &[2, 2, 2]],
    &[&[1, 1, 1, 1], &[2, 1, 1, 1], &[1, 1, 1, 2], &[1, 0, 2, 1]],
];

/// An update that leaves out a whole value or a part in the middle, or one of any kind.
fn leaving_out(random: &mut Random, bounds: &[u8], own: usize) -> Update {
    match random.below(5) {
        0 => Update::Keep,
        1 => constant(NotEqual, random.below(usize::from(bounds[own]) + 1) as u8),
        2 => {
            let other = random.below(bounds.len());
            let offset = tables::least_offset(bounds, own, other);
            clock(NotEqual, other as u8, offset)
        }
        _ => tables::changing_update(random, bounds, own),
    }
}

/// An edge from location 0, and a row from which a walk over its next rows has to leave out choices:
/// intervals, or, in half the cases, ranks, as all clocks are between 0 and 1, and each one is
/// kept or compared with one of them.
pub fn edge_that_leaves_out(random: &mut Random, clocks: usize, target: u8) -> (Automaton, Region) {
    let is_by_parts = random.once_in(2);
    let ones = vec![1; clocks];
    let bounds = match is_by_parts {
        true => &ones,
        false => random.pick(BOUNDS_BY_CLOCKS[clocks - 1]),
    };
    let updates = (0..clocks).map(|own| match is_by_parts {
        true if random.once_in(3) => Update::Keep,
        true => clock(tables::comparison(random), random.below(clocks) as u8, 0),
        false => leaving_out(random, bounds, own),
    });
    let updates: Vec<Update> = updates.collect();
    let finals = vec![false; usize::from(target) + 1];
    let automaton = automaton(bounds, &finals, vec![edge(0, target, &[], &updates)]);
    let row = match is_by_parts {
        true => {
            let values: Vec<i64> = (0..clocks).map(|_| random.between(1, 5)).collect();
            region_of(0, bounds, &values, 6)
        }
        false => rows::row_in(random, &automaton, 0),
    };
    (automaton, row)
}

/// Three clocks between 0 and 1 in every order, each compared in every way with
/// any of the three: here the old order bears most on the new one. Which clock
/// has which rank makes no difference, so ascending ranks stand for all.
pub fn comparisons_of_open_clocks(visit: &mut dyn FnMut(&Automaton, Region)) {
    let mut automaton = automaton(&[1, 1, 1], &[false], vec![edge(0, 0, &[], &[])]);
    let updates: Vec<Update> = Comparison::ALL
        .into_iter()
        .flat_map(|comparison| (0..3).map(move |other| clock(comparison, other, 0)))
        .collect();
    let count = updates.len();
    for index in 0..count.pow(3) {
        let chosen = [index % count, index / count % count, index / count.pow(2)];
        automaton.edges[0].updates = chosen.iter().map(|each| updates[*each]).collect();
        for ranks in [[1, 1, 1], [1, 1, 2], [1, 2, 2], [1, 2, 3]] {
            visit(&automaton, Region::new(0, &[1, 1, 1], &ranks));
        }
    }
}

/// One final location, and in half the cases a chain of guarded edges as the
/// only way to it, so that some runs are long.
pub fn far_automaton(random: &mut Random) -> Automaton {
    let locations = 1 + random.below(6);
    let shape = Shape {
        locations,
        edges: locations + random.below(locations + 2),
        greatest_guards: 3,
        ..Shape::small(random)
    };
    let mut automaton = tables::admitted(random, shape);
    let is_chain = random.once_in(2);
    let last = match is_chain {
        true => locations - 1,
        false => random.below(locations),
    };
    for (number, location) in automaton.locations.iter_mut().enumerate() {
        location.is_final = number == last;
    }
    if is_chain {
        automaton.initial = 0;
        for (number, edge) in automaton.edges.iter_mut().enumerate() {
            let step = number % locations;
            edge.source = step as u8;
            edge.target = match number < locations {
                true => (step + 1).min(last) as u8,
                false => random.below(step + 1) as u8,
            };
            edge.guards.push(tables::guard(random, &automaton.bounds));
        }
    }
    automaton
}

/// Random moves from the initial row that end with an edge, and its target.
pub fn long_path(random: &mut Random, automaton: &Automaton, moves: usize) -> (Vec<PathStep>, u8) {
    let mut row = Region::initial(automaton);
    let mut path: Vec<PathStep> = Vec::new();
    for _ in 0..moves {
        let number = random.below(automaton.edges.len());
        let edge = &automaton.edges[number];
        let next: Vec<Region> = NextRows::new(automaton, edge, row).take(200).collect();
        let step = if next.is_empty() {
            let by = Move::Wait;
            row.time_successor(&automaton.bounds)
                .map(|to| PathStep { by, to })
        } else {
            let by = Move::Edge(number as u16);
            let to = random.pick(&next);
            Some(PathStep { by, to })
        };
        if let Some(step) = step {
            row = step.to;
            path.push(step);
        }
    }
    while path.last().is_some_and(|step| step.by == Move::Wait) {
        path.pop();
    }
    let end = path
        .last()
        .map_or(automaton.initial, |step| step.to.location());
    (path, end)
}
