//! Whole inputs of the five calls.

use super::damage::damage;
use super::random::Random;
use super::tables::{self, Shape};
use super::waiting::WaitingList;
use super::{lists, rows};
use crate::automaton::{Automaton, Guard, Update, GREATEST_GUARDS};
use crate::explore::closure;
use crate::follow::{next_rows, WAIT};
use crate::format::encode_table;
use crate::make::{kept_rows, list_length, WAITING_RECORDS};
use crate::region::row_length;
use crate::region_list::{encode_regions, GREATEST_ROWS};
use crate::run::{encode_run, GREATEST_STEPS};
use crate::successor::by_intervals::is_enabled;
use crate::Region;

/// A table and a second file.
#[derive(Clone, Debug)]
pub struct PairCase {
    pub table: Vec<u8>,
    pub list: Vec<u8>,
}

/// The input of following; the buffer is filled with random bytes.
#[derive(Clone, Debug)]
pub struct FollowCase {
    pub table: Vec<u8>,
    pub row: Vec<u8>,
    pub number: u16,
    pub buffer: Vec<u8>,
}

/// The input of making; the buffer is filled with random bytes.
#[derive(Clone, Debug)]
pub struct MakeCase {
    pub table: Vec<u8>,
    pub buffer: Vec<u8>,
    pub waiting: WaitingList,
}

/// A table: admitted, nearly so, or damaged. Once in `large_once_in` cases it
/// may be of any size.
pub fn admit_case(random: &mut Random, large_once_in: usize) -> Vec<u8> {
    let shape = Shape::biased(random, large_once_in);
    let kind = random.below(4);
    let automaton = match kind {
        0 => tables::nearly_admitted(random, shape),
        _ => tables::admitted(random, shape),
    };
    let table = encode_table(&automaton);
    match kind {
        1 | 2 => damage_table(random, &table),
        _ => table,
    }
}

/// Damage that may mix in a file of any kind.
fn damage_table(random: &mut Random, table: &[u8]) -> Vec<u8> {
    let shape = Shape::small(random);
    let automaton = tables::admitted(random, shape);
    let other = match random.below(4) {
        0 => encode_run(&lists::sound_run(random, &automaton, 3).0),
        1 => encode_regions(automaton.clocks(), &[rows::row(random, &automaton)]),
        _ => encode_table(&automaton),
    };
    damage(random, table, &other)
}

/// A fault of the table in few cases, so that the second file mostly counts.
fn table_of(random: &mut Random, automaton: &Automaton) -> Vec<u8> {
    match random.below(48) {
        0 => {
            let mut broken = automaton.clone();
            tables::break_bound_rules(random, &mut broken);
            encode_table(&broken)
        }
        1 | 2 => damage_table(random, &encode_table(automaton)),
        _ => encode_table(automaton),
    }
}

/// A table and a run list.
pub fn run_case(random: &mut Random, large_once_in: usize) -> PairCase {
    let shape = Shape::biased(random, large_once_in);
    let mut automaton = tables::admitted(random, shape);
    if !random.once_in(8) {
        // Else many a run would be over before its first step.
        automaton.locations[usize::from(automaton.initial)].is_final = false;
    }
    let mut run = None;
    if random.once_in(3) {
        let concrete = closure(&automaton, 64).concrete_run(&automaton);
        let factor = random.pick(&[1, 1, 2, 7, 100]);
        run = concrete.and_then(|concrete| concrete.scaled(factor));
    }
    let mut run = run.unwrap_or_else(|| {
        let steps = match random.below(40) {
            0 if random.once_in(20) => usize::from(GREATEST_STEPS),
            0 => 300,
            1 => 0,
            _ => 1 + random.below(8),
        };
        let (run, end) = lists::sound_run(random, &automaton, steps);
        if !random.once_in(4) {
            automaton.locations[usize::from(end)].is_final = true;
        }
        run
    });
    if random.once_in(2) {
        lists::spoil_run(random, &automaton, &mut run);
    }
    let list = encode_run(&run);
    finish_pair(random, &automaton, list)
}

/// A table and a region list.
pub fn regions_case(random: &mut Random, large_once_in: usize) -> PairCase {
    let shape = Shape::biased(random, large_once_in);
    let mut automaton = tables::admitted(random, shape);
    let cap = if random.once_in(200) { 4_096 } else { 96 };
    let mut rows = lists::rows_near_closed(random, &mut automaton, cap);
    if random.once_in(2) {
        lists::spoil_rows(random, &automaton, &mut rows);
    }
    let list = match random.once_in(20) {
        true => list_with_loose_row(random, &automaton, &rows),
        false => encode_regions(automaton.clocks(), &rows),
    };
    finish_pair(random, &automaton, list)
}

/// One row record replaced by one whose fields may be out of range.
fn list_with_loose_row(random: &mut Random, automaton: &Automaton, rows: &[Region]) -> Vec<u8> {
    let clocks = automaton.clocks();
    let mut list = encode_regions(clocks, rows);
    if !rows.is_empty() {
        let length = row_length(clocks);
        let start = 4 + length * random.below(rows.len());
        let record = rows::loose_record(random, automaton);
        list[start..start + length].copy_from_slice(&record);
    }
    list
}

fn finish_pair(random: &mut Random, automaton: &Automaton, list: Vec<u8>) -> PairCase {
    let table = table_of(random, automaton);
    let list = match random.once_in(6) {
        true => damage(random, &list, &table),
        false => list,
    };
    PairCase { table, list }
}

/// Counting rows for the size of a buffer goes no further than this.
const BUFFER_ROWS: usize = 600;

/// A table, a row, a number and a buffer that is often just long enough or not.
pub fn follow_case(random: &mut Random, large_once_in: usize) -> FollowCase {
    let mut shape = Shape::biased(random, large_once_in);
    let is_telling = random.once_in(2);
    if is_telling {
        // Between the low bounds of small tables few rows have fractional parts.
        shape.clocks = shape.clocks.max(2 + random.below(2));
        shape.greatest_bound = shape.greatest_bound.max(6);
    }
    let mut automaton = tables::admitted(random, shape);
    let (row, number) = row_and_number(random, &automaton);
    if is_telling {
        make_telling(random, &mut automaton, row, number);
    }
    let length = row_length(automaton.clocks());
    let count = next_rows(&automaton, row, number).take(BUFFER_ROWS).count();
    let exact = count * length;
    let size = match random.below(4) {
        0 => exact,
        1 => exact.saturating_sub(1 + random.below(length)),
        2 => exact + random.below(2 * length),
        _ => random.below(BUFFER_ROWS),
    };
    let mut record = row.record(automaton.clocks());
    if random.once_in(12) {
        record = rows::loose_record(random, &automaton);
    }
    let table = table_of(random, &automaton);
    if random.once_in(12) {
        record = damage(random, &record, &table);
    }
    FollowCase {
        table,
        row: record,
        number,
        buffer: (0..size).map(|_| random.byte()).collect(),
    }
}

/// Takes keep out of the edge that is followed, for a more telling choice of rows, and now and
/// then adds a guard.
fn make_telling(random: &mut Random, automaton: &mut Automaton, row: Region, number: u16) {
    let bounds = &automaton.bounds;
    let Some(edge) = automaton.edges.get_mut(usize::from(number)) else {
        return;
    };
    for (own, update) in edge.updates.iter_mut().enumerate() {
        *update = telling_update(random, bounds, own);
    }
    if edge.guards.len() < GREATEST_GUARDS && random.once_in(6) {
        edge.guards.push(telling_guard(random, bounds, row));
    }
}

/// Often with the least offset: what is compared then lies below the bound, or below 0.
fn telling_update(random: &mut Random, bounds: &[u8], own: usize) -> Update {
    match tables::changing_update(random, bounds, own) {
        Update::Clock { clock, .. } if random.once_in(2) => Update::Clock {
            comparison: tables::comparison(random),
            clock,
            offset: tables::least_offset(bounds, own, usize::from(clock)),
        },
        update => update,
    }
}

/// A clock against the whole value that it has in the row, or that is the last below.
fn telling_guard(random: &mut Random, bounds: &[u8], row: Region) -> Guard {
    let clock = random.below(bounds.len());
    Guard {
        clock: clock as u8,
        comparison: tables::comparison(random),
        constant: row.interval(clock) / 2,
    }
}

/// Mostly an edge that can be taken, or waiting; else any number.
fn row_and_number(random: &mut Random, automaton: &Automaton) -> (Region, u16) {
    let edges = automaton.edges.len();
    let row = rows::row(random, automaton);
    if edges == 0 || random.once_in(5) {
        return (row, WAIT);
    }
    if random.once_in(10) {
        let numbers = [edges as u16, 256, 257, WAIT - 1, 0, random.draw() as u16];
        return (row, random.pick(&numbers));
    }
    let number = random.below(edges);
    let edge = &automaton.edges[number];
    let taken = (0..6)
        .map(|_| rows::row_in(random, automaton, edge.source))
        .find(|row| is_enabled(edge, *row));
    (taken.unwrap_or(row), number as u16)
}

/// A table, a buffer that is often just long enough or not, and mostly a waiting list that is.
pub fn make_case(random: &mut Random, large_once_in: usize) -> MakeCase {
    let shape = Shape::biased(random, large_once_in);
    let mut automaton = tables::admitted(random, shape);
    let most = match random.once_in(100) {
        true => GREATEST_ROWS.into(),
        false => 200,
    };
    if random.once_in(2) {
        // Else a final location would be entered in most cases.
        for row in closure(&automaton, most).rows {
            automaton.locations[usize::from(row.location())].is_final = false;
        }
    }
    let kept = kept_rows(&automaton, most).map_or(most, |kept| kept.rows.len());
    let exact = list_length(automaton.clocks(), kept);
    let longest = list_length(automaton.clocks(), GREATEST_ROWS.into());
    let size = match random.below(16) {
        0..=3 => exact,
        4..=6 => exact + random.below(64),
        7 | 8 => exact - 1 - random.below(exact.min(row_length(automaton.clocks()))),
        9 => random.below(exact),
        10 => random.below(12),
        11 => longest + random.below(100),
        _ => exact + random.below(4_000),
    };
    MakeCase {
        table: match random.once_in(6) {
            true => admit_case(random, large_once_in),
            false => table_of(random, &automaton),
        },
        buffer: (0..size).map(|_| random.byte()).collect(),
        waiting: waiting_list(random),
    }
}

/// Mostly of the least length that will do.
fn waiting_list(random: &mut Random) -> WaitingList {
    let records = match random.below(24) {
        0 => random.pick(&[0, 1, WAITING_RECORDS - 1]),
        1 => random.below(WAITING_RECORDS),
        2 | 3 => WAITING_RECORDS + random.below(904),
        _ => WAITING_RECORDS,
    };
    WaitingList {
        records,
        seed: random.draw(),
    }
}
