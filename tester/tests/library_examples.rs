//! The worked examples P1 to P10 put to the checker's archives: the answers and,
//! of following, every byte of the buffer, beside the values that the description
//! has. `examples.rs` puts them to the rules.

mod common;
use common::*;

use std::collections::BTreeSet;
use std::iter::successors;
use tzelmaruf_tester::answer::Answer;
use tzelmaruf_tester::automaton::{Automaton, Update};
use tzelmaruf_tester::compare::{wide, Fenced};
use tzelmaruf_tester::follow::WAIT;
use tzelmaruf_tester::format::encode_table;
use tzelmaruf_tester::region::Region;
use tzelmaruf_tester::region_list::encode_regions;
use tzelmaruf_tester::{library, needs_checker, needs_probe};

needs_checker!();
needs_probe!();

const P1_LIST: &str = "52 4C 00 08, 52 57 000000, 52 57 000101, 52 57 000200, 52 57 000301, \
    52 57 000400, 52 57 000500, 52 57 010400, 52 57 010500";
const P2_LIST: &str = "52 4C 00 07, 52 57 000000, 52 57 000101, 52 57 000200, 52 57 000301, \
    52 57 000400, 52 57 000500, 52 57 010400";
const P3_LIST: &str = "52 4C 00 00";
const P4_LIST: &str = "52 4E 0001 0002, 53 54 0000 00000002 00000002, \
    53 54 0001 00000000 00000002";

/// The table of P1, with another comparison in its second guard where P4 has one.
fn p1_table(second_guard: &str) -> Vec<u8> {
    bytes(&format!(
        "54 41 01 03 00 00 02 02, 4C 4F 00, 4C 4F 00, 4C 4F 01, \
         45 44 00 01 01 00 03 02 00 00 00 00 00, 45 44 01 02 01 00 {second_guard} 02 00 00 00 00 00"
    ))
}

const LESS: &str = "00";
const AT_MOST: &str = "01";

/// What the checker's functions answer; the lent files come back as they were.
fn admitted(table: &[u8]) -> Answer {
    let mut lent = table.to_vec();
    let packed = library::admit(&mut lent);
    assert_eq!(lent, table);
    Answer::unpacked(packed)
}

fn checked(function: fn(&mut [u8], &mut [u8]) -> u32, table: &[u8], list: &str) -> Answer {
    let list = bytes(list);
    let (mut lent_table, mut lent_list) = (table.to_vec(), list.clone());
    let packed = function(&mut lent_table, &mut lent_list);
    assert_eq!((lent_table, lent_list), (table.to_vec(), list));
    Answer::unpacked(packed)
}

#[test]
fn p1_closed_list() {
    let table = p1_table(LESS);
    assert_eq!(admitted(&table), Answer::Accepted(6));
    let answer = checked(library::check_regions, &table, P1_LIST);
    assert_eq!(answer, Answer::Accepted(8));
}

#[test]
fn p2_last_row_missing() {
    let answer = checked(library::check_regions, &p1_table(LESS), P2_LIST);
    assert_eq!(answer, refused(17, 6));
}

#[test]
fn p3_no_rows() {
    let answer = checked(library::check_regions, &p1_table(LESS), P3_LIST);
    assert_eq!(answer, refused(16, 0));
}

#[test]
fn p4_run() {
    let answer = checked(library::check_run, &p1_table(LESS), P4_LIST);
    assert_eq!(answer, refused(11, 2));
    let answer = checked(library::check_run, &p1_table(AT_MOST), P4_LIST);
    assert_eq!(answer, Answer::Accepted(2));
}

/// One location, and at most one edge on it.
fn one_location(bounds: &[u8], updates: &[Update]) -> Automaton {
    let edges = match updates {
        [] => vec![],
        _ => vec![edge(0, 0, &[], updates)],
    };
    automaton(bounds, &[false], edges)
}

/// Following writes exactly these rows, in hex, wherever they fit, and leaves the
/// bytes behind them; where they do not fit it leaves all bytes.
fn assert_followed(automaton: &Automaton, from: Region, number: u16, rows: &[&str]) {
    let table = encode_table(automaton);
    let record = from.record(automaton.clocks());
    let written: Vec<u8> = rows.iter().flat_map(|row| bytes(row)).collect();
    let exact = written.len();
    for length in [0, 1, exact - 1, exact, exact + 1, 100] {
        let mut left = vec![0xEE; length];
        let answer = match left.get_mut(..exact) {
            None => refused(19, 0),
            Some(front) => {
                front.copy_from_slice(&written);
                Answer::Accepted(rows.len() as u32)
            }
        };
        let (mut lent_table, mut lent_row) = (table.clone(), record.clone());
        let mut buffer = Fenced::new(&vec![0xEE; length]);
        let got = library::follow(&mut lent_table, &mut lent_row, number, buffer.inside());
        assert_eq!(got, wide(answer), "{length} bytes: {got:#x}");
        assert_eq!(hex(buffer.inside()), hex(&left), "{length} bytes");
        assert_eq!(buffer, Fenced::new(&left), "{length} bytes");
        assert_eq!((lent_table, lent_row), (table.clone(), record.clone()));
    }
}

#[test]
fn p5_clock_above_another() {
    let automaton = one_location(&[3, 2], &[clock(Greater, 1, 2), Update::Keep]);
    let next = [
        "52 57 00 05 01 02 01",
        "52 57 00 06 01 00 01",
        "52 57 00 07 01 00 01",
    ];
    assert_followed(&automaton, row(&[3, 1], &[1, 2]), 0, &next);
}

#[test]
fn p6_waiting() {
    let automaton = one_location(&[3, 2], &[]);
    let next = ["52 57 00 03 02 01 00"];
    assert_followed(&automaton, row(&[3, 1], &[1, 2]), WAIT, &next);
}

#[test]
fn p7_two_clocks_swapped() {
    let automaton = one_location(&[2, 2], &[clock(Equal, 1, 0), clock(Equal, 0, 0)]);
    let next = ["52 57 00 03 01 02 01"];
    assert_followed(&automaton, row(&[1, 3], &[1, 2]), 0, &next);
}

/// Of the six rows the description has the number, and the only one with the
/// intervals 1 0 1: a is above the old b, and that above c, so their ranks are 2
/// and 1. The others follow from a in 1, 2 or 3 and c in 0 or 1.
#[test]
fn p8_an_old_clock_orders_two_new_ones() {
    let updates = [clock(Greater, 1, 0), constant(Equal, 0), clock(Less, 1, 0)];
    let automaton = one_location(&[1, 1, 1], &updates);
    let next = [
        "52 57 00 01 00 00 01 00 00",
        "52 57 00 01 00 01 02 00 01",
        "52 57 00 02 00 00 00 00 00",
        "52 57 00 02 00 01 00 00 01",
        "52 57 00 03 00 00 00 00 00",
        "52 57 00 03 00 01 00 00 01",
    ];
    assert_followed(&automaton, row(&[1, 1, 1], &[1, 1, 1]), 0, &next);
}

/// All rows that come by waiting from some rows, and these, ascending.
fn by_waiting(starts: &[Region], bounds: &[u8]) -> Vec<Region> {
    let mut rows = BTreeSet::new();
    for start in starts {
        rows.extend(successors(Some(*start), |row| row.time_successor(bounds)));
    }
    rows.into_iter().collect()
}

/// The same as a region list, which the checker looks through in another way:
/// the edge of P8 from the row of P8 alone, which is the second one, to another
/// location. With the six rows the list is closed; it lacks each of them, and no
/// other way to rank 1 0 1 stands for 2 0 1. Waiting leads to none of them.
#[test]
fn p8_in_a_list() {
    let bounds = [1, 1, 1];
    let guards = [guard(0, Greater, 0), guard(0, Less, 1)];
    let updates = [clock(Greater, 1, 0), constant(Equal, 0), clock(Less, 1, 0)];
    let edges = vec![edge(0, 1, &guards, &updates)];
    let table = encode_table(&automaton(&bounds, &[false, false], edges));
    let there = |intervals: [u8; 3], ranks: [u8; 3]| Region::new(1, &intervals, &ranks);
    let six = [
        there([1, 0, 0], [1, 0, 0]),
        there([1, 0, 1], [2, 0, 1]),
        there([2, 0, 0], [0, 0, 0]),
        there([2, 0, 1], [0, 0, 1]),
        there([3, 0, 0], [0, 0, 0]),
        there([3, 0, 1], [0, 0, 1]),
    ];
    let ranked_otherwise = [there([1, 0, 1], [1, 0, 1]), there([1, 0, 1], [1, 0, 2])];
    let start = row(&[0, 0, 0], &[0, 0, 0]);
    let answer_to = |rows: &[Region]| {
        let list = hex(&encode_regions(3, rows));
        checked(library::check_regions, &table, &list)
    };
    for targets in [six.to_vec(), [&six[..], &ranked_otherwise].concat()] {
        let rows = by_waiting(&[&[start], &targets[..]].concat(), &bounds);
        assert_eq!(answer_to(&rows), Answer::Accepted(rows.len() as u32));
        for left_out in six {
            let rest: Vec<Region> = rows
                .iter()
                .copied()
                .filter(|row| *row != left_out)
                .collect();
            assert_eq!(rest.len(), rows.len() - 1);
            assert_eq!(answer_to(&rest), refused(17, 2), "without {left_out:?}");
        }
    }
}

#[test]
fn p9_below_the_bound_rule() {
    for bound in [0, 1, 2, 127] {
        let table = encode_table(&one_location(&[bound], &[clock(Equal, 0, -1)]));
        assert_eq!(admitted(&table), refused(6, 2), "bound {bound}");
    }
}

#[test]
fn p10_above_the_bound() {
    let automaton = one_location(&[1], &[clock(Equal, 0, 1)]);
    assert_followed(&automaton, row(&[1], &[1]), 0, &["52 57 00 03 00"]);
}
