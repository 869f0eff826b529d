//! The worked examples of the description, P1 to P10 and the numbers beside them.

mod common;
use common::*;

use tzelmaruf_tester::answer::Answer;
use tzelmaruf_tester::automaton::{Automaton, Update};
use tzelmaruf_tester::format::{encode_table, parse_table};
use tzelmaruf_tester::region::{row_length, Region};
use tzelmaruf_tester::region_list::{encode_regions, lacking_places, parse_regions};
use tzelmaruf_tester::run::{encode_run, Run, Step};
use tzelmaruf_tester::successor::{by_points, NextRows};
use tzelmaruf_tester::{admit, check_regions, check_run, follow, verdict};

#[test]
fn p1_closed_list() {
    let table = bytes(P1_TABLE);
    let list = p1_list(8, &P1_ROWS);
    assert_eq!(admit(&table), Answer::Accepted(6));
    assert_eq!(check_regions(&table, &list), Answer::Accepted(8));
    assert_eq!(verdict::line(&table, &list), "EMPTY 8");
}

#[test]
fn p1_table_by_its_parts() {
    let built = automaton(
        &[2],
        &[false, false, true],
        vec![
            edge(0, 1, &[guard(0, AtLeast, 2)], &[Update::Keep]),
            edge(1, 2, &[guard(0, Less, 2)], &[Update::Keep]),
        ],
    );
    assert_eq!(parse_table(&bytes(P1_TABLE)), Ok(built.clone()));
    assert_eq!(hex(&encode_table(&built)), hex(&bytes(P1_TABLE)));
}

/// Rows 6 and 7 lack the last row, one by an edge and one by waiting; 6 is the least.
#[test]
fn p2_last_row_missing() {
    let table = bytes(P1_TABLE);
    let list = p1_list(7, &P1_ROWS[..7]);
    let automaton = parse_table(&table).unwrap();
    let rows = parse_regions(&automaton, &list).unwrap();
    let places: Vec<u16> = lacking_places(&automaton, &rows).collect();
    assert_eq!(places, [6, 7]);
    assert_eq!(check_regions(&table, &list), refused(17, 6));
    assert_eq!(verdict::line(&table, &list), "REFUSED 17 6");
}

#[test]
fn p3_no_rows() {
    let answer = check_regions(&bytes(P1_TABLE), &p1_list(0, &[]));
    assert_eq!(answer, refused(16, 0));
    assert_eq!(answer.packed(), 16 << 16);
}

#[test]
fn p4_run() {
    let table = bytes(P1_TABLE);
    let step = |edge, delay| Step {
        edge,
        delay,
        values: vec![2],
    };
    let list = encode_run(&Run {
        scale: 1,
        steps: vec![step(0, 2), step(1, 0)],
    });
    let by_hand =
        bytes("52 4E 0001 0002, 53 54 0000 00000002 00000002, 53 54 0001 00000000 00000002");
    assert_eq!(list, by_hand);
    assert_eq!(check_run(&table, &list), refused(11, 2));
    assert_eq!(check_run(&table, &list).packed(), 11 << 16 | 2);
    assert_eq!(verdict::line(&table, &list), "REFUSED 11 2");
    let mut relaxed = table;
    let comparison = relaxed.len() - 7;
    assert_eq!(relaxed[comparison], 0);
    relaxed[comparison] = 1;
    assert_eq!(verdict::line(&relaxed, &list), "REACHED 2");
    assert_eq!(check_run(&relaxed, &list), Answer::Accepted(2));
}

/// One location, one edge on it, one row: the rows followed, in all three ways.
fn next_by_edge(bounds: &[u8], updates: &[Update], from: Region) -> Vec<Region> {
    let automaton = automaton(bounds, &[false], vec![edge(0, 0, &[], updates)]);
    let rows: Vec<Region> = NextRows::new(&automaton, &automaton.edges[0], from).collect();
    let points: Vec<Region> = by_points(&automaton, &automaton.edges[0], from)
        .into_iter()
        .collect();
    assert_eq!(rows, points);
    assert_followed(&automaton, from, 0, &rows);
    rows
}

/// Following writes exactly these rows and leaves the bytes behind them.
fn assert_followed(automaton: &Automaton, from: Region, number: u16, rows: &[Region]) {
    let clocks = automaton.clocks();
    let table = encode_table(automaton);
    let length = rows.len() * row_length(clocks);
    let mut buffer = vec![0xAA; length + 5];
    let answer = follow(&table, &from.record(clocks), number, &mut buffer);
    assert_eq!(answer, Answer::Accepted(rows.len() as u32));
    assert_eq!(buffer[..length], encode_regions(clocks, rows)[4..]);
    assert_eq!(buffer[length..], [0xAA; 5]);
}

#[test]
fn p5_clock_above_another() {
    let next = next_by_edge(
        &[3, 2],
        &[clock(Greater, 1, 2), Update::Keep],
        row(&[3, 1], &[1, 2]),
    );
    assert_eq!(
        next,
        [
            row(&[5, 1], &[2, 1]),
            row(&[6, 1], &[0, 1]),
            row(&[7, 1], &[0, 1])
        ]
    );
}

#[test]
fn p6_waiting() {
    let automaton = automaton(&[3, 2], &[false], vec![]);
    let from = row(&[3, 1], &[1, 2]);
    let next = row(&[3, 2], &[1, 0]);
    assert_eq!(from.time_successor(&[3, 2]), Some(next));
    assert_followed(&automaton, from, 65_535, &[next]);
}

#[test]
fn p7_two_clocks_swapped() {
    let next = next_by_edge(
        &[2, 2],
        &[clock(Equal, 1, 0), clock(Equal, 0, 0)],
        row(&[1, 3], &[1, 2]),
    );
    assert_eq!(next, [row(&[3, 1], &[2, 1])]);
}

#[test]
fn p8_an_old_clock_orders_two_new_ones() {
    let next = next_by_edge(
        &[1, 1, 1],
        &[clock(Greater, 1, 0), constant(Equal, 0), clock(Less, 1, 0)],
        row(&[1, 1, 1], &[1, 1, 1]),
    );
    assert_eq!(next.len(), 6);
    let with_1_0_1: Vec<Region> = next
        .into_iter()
        .filter(|next| (0..3).map(|z| next.interval(z)).eq([1, 0, 1]))
        .collect();
    assert_eq!(with_1_0_1, [row(&[1, 0, 1], &[2, 0, 1])]);
}

#[test]
fn p9_below_the_bound_rule() {
    for bound in [0, 1, 2, 127] {
        let edges = vec![edge(0, 0, &[], &[clock(Equal, 0, -1)])];
        let table = encode_table(&automaton(&[bound], &[false], edges));
        assert_eq!(admit(&table), refused(6, 2));
    }
}

#[test]
fn p10_above_the_bound() {
    let next = next_by_edge(&[1], &[clock(Equal, 0, 1)], row(&[1], &[1]));
    assert_eq!(next, [row(&[3], &[0])]);
}

#[test]
fn mistakes_near_at_hand() {
    // A negative result is not clipped to 0: x = 0, y := x - 1 leads nowhere.
    let minus_one = [Update::Keep, clock(Equal, 0, -1)];
    assert_eq!(next_by_edge(&[2, 1], &minus_one, row(&[0, 0], &[0, 0])), []);
    // The same for '<' and '≤'; '≥', '>' and '≠' allow every value.
    for (comparison, count) in [
        (Less, 0),
        (AtMost, 0),
        (AtLeast, 4),
        (Greater, 4),
        (NotEqual, 4),
    ] {
        let updates = [Update::Keep, clock(comparison, 0, -1)];
        let next = next_by_edge(&[2, 1], &updates, row(&[0, 0], &[0, 0]));
        assert_eq!(next.len(), count, "{comparison:?}");
    }
    // A later update reads the old value of an earlier clock.
    let chain = [constant(Equal, 0), clock(Equal, 0, 0)];
    let next = next_by_edge(&[1, 1], &chain, row(&[2, 0], &[0, 0]));
    assert_eq!(next, [row(&[0, 2], &[0, 0])]);
    // One wait does not move both whole and greatest clocks.
    let waited = row(&[2, 1], &[0, 1]).time_successor(&[3, 2]);
    assert_eq!(waited, Some(row(&[3, 1], &[1, 2])));
}

#[test]
fn missing_files_count_as_empty() {
    assert_eq!(verdict::line(&[], &[]), "REFUSED 1 0");
    assert_eq!(verdict::line(&bytes(P1_TABLE), &[]), "REFUSED 7 0");
}
