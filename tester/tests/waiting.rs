//! Waiting: the rule for the next row against points that wait, and rows
//! against points in general.

mod common;
use common::{automaton, hex};

use tzelmaruf_tester::automaton::Automaton;
use tzelmaruf_tester::format::encode_table;
use tzelmaruf_tester::generate::{rows, seed, Random};
use tzelmaruf_tester::region::{all_rows, is_row, is_whole, region_of, Region};
use tzelmaruf_tester::successor::by_points::points_of;

type Wait = fn(Region, &[u8]) -> Option<Region>;

/// Lets every point of every row wait, and compares the first other row it enters.
/// Points at a scale of n + 1 show every order of n fractional parts. Delays
/// go by half that step, so no row between two moments is overlooked.
fn compare(wait: Wait, automaton: &Automaton) -> Result<usize, String> {
    let bounds = &automaton.bounds;
    let scale = 2 * (bounds.len() as i64 + 1);
    let mut points = 0;
    for row in all_rows(automaton, 1_000_000).unwrap() {
        let next = wait(row, bounds);
        for halves in points_of(bounds, row, scale / 2) {
            let point: Vec<i64> = halves.iter().map(|value| 2 * value).collect();
            let entered = first_other_row(row, bounds, &point, scale);
            if entered != next {
                let table = hex(&encode_table(automaton));
                let record = hex(&row.record(bounds.len()));
                return Err(format!(
                    "table {table} row {record} point {point:?} of {scale}: {entered:?}, not {next:?}"
                ));
            }
            points += 1;
        }
    }
    Ok(points)
}

/// The first row other than `row` that a point enters as it waits; after two
/// units without one every clock is above its bound for good.
fn first_other_row(row: Region, bounds: &[u8], point: &[i64], scale: i64) -> Option<Region> {
    (1..=2 * scale).find_map(|delay| {
        let waited: Vec<i64> = point.iter().map(|value| value + delay).collect();
        let entered = region_of(row.location(), bounds, &waited, scale);
        (entered != row).then_some(entered)
    })
}

fn all_small_bounds() -> Vec<Vec<u8>> {
    let mut all: Vec<Vec<u8>> = (0..5).map(|a| vec![a]).collect();
    for a in 0..4 {
        all.extend((0..4).map(|b| vec![a, b]));
        for b in 0..3 {
            all.extend((0..3).map(|c| vec![a.min(2), b, c]));
        }
    }
    all.extend([vec![1, 1, 1, 1], vec![2, 1, 0, 1], vec![0, 0, 0, 0]]);
    all
}

fn compare_all(wait: Wait) -> Result<usize, String> {
    all_small_bounds()
        .iter()
        .map(|bounds| compare(wait, &automaton(bounds, &[false], vec![])))
        .sum()
}

#[test]
fn every_point_enters_the_next_row_first() {
    match compare_all(Region::time_successor) {
        Ok(points) => println!("no seed, all rows: {points} points"),
        Err(case) => panic!("{case}"),
    }
}

/// Moves the whole clocks and the greatest ones in one wait.
fn moving_both(row: Region, bounds: &[u8]) -> Option<Region> {
    let next = row.time_successor(bounds)?;
    let clocks = bounds.len();
    let greatest = row.greatest_rank();
    let some_whole = (0..clocks).any(|clock| is_whole(row.interval(clock)));
    if !some_whole || greatest == 0 {
        return Some(next);
    }
    let moves = |clock: usize| u8::from(row.rank(clock) == greatest);
    let intervals: Vec<u8> = (0..clocks).map(|z| next.interval(z) + moves(z)).collect();
    let ranks: Vec<u8> = (0..clocks).map(|z| next.rank(z) * (1 - moves(z))).collect();
    Some(Region::new(row.location(), &intervals, &ranks))
}

/// Lets the ranks grow even if all whole clocks went to the top.
fn growing_always(row: Region, bounds: &[u8]) -> Option<Region> {
    let next = row.time_successor(bounds)?;
    let clocks = bounds.len();
    let none_enters = (0..clocks).all(|z| next.rank(z) == row.rank(z));
    let growth = u8::from(none_enters);
    let intervals: Vec<u8> = (0..clocks).map(|z| next.interval(z)).collect();
    let ranks: Vec<u8> = (0..clocks)
        .map(|z| next.rank(z) + growth * u8::from(next.rank(z) > 0))
        .collect();
    Some(Region::new(row.location(), &intervals, &ranks))
}

#[test]
fn spoiled_waits_are_found_out() {
    assert!(compare_all(moving_both).is_err());
    assert!(compare_all(growing_always).is_err());
    assert!(compare_all(|_, _| None).is_err());
    assert!(compare_all(|row, _| Some(row)).is_err());
}

/// Every point lies in exactly one of all rows, the one that `region_of` names.
#[test]
fn every_point_is_in_exactly_one_row() {
    let seed = seed(20_301);
    let mut random = Random::new(seed);
    let mut points = 0;
    for bounds in all_small_bounds() {
        let automaton = automaton(&bounds, &[false], vec![]);
        let all = all_rows(&automaton, 1_000_000).unwrap();
        assert!(all.windows(2).all(|pair| pair[0] < pair[1]));
        for _ in 0..40 {
            let scale = random.between(1, 12);
            let point = rows::point(&mut random, &bounds, scale);
            let containing: Vec<Region> = all
                .iter()
                .copied()
                .filter(|row| row.contains(&bounds, &point, scale))
                .collect();
            let named = region_of(0, &bounds, &point, scale);
            assert_eq!(
                containing,
                [named],
                "seed {seed}: bounds {} point {point:?} of {scale}",
                hex(&bounds)
            );
            points += 1;
        }
    }
    println!("seed {seed}: {points} points");
}

/// The packed order is that of location, intervals, ranks as written in the file.
#[test]
fn rows_are_ordered_as_their_records() {
    let seed = seed(20_302);
    let mut random = Random::new(seed);
    let automaton = automaton(&[3, 1, 2], &[false, false, false], vec![]);
    for _ in 0..100_000 {
        let first = rows::row(&mut random, &automaton);
        let second = rows::row(&mut random, &automaton);
        let records = first.record(3).cmp(&second.record(3));
        assert_eq!(
            first.cmp(&second),
            records,
            "seed {seed}: {first:?} {second:?}"
        );
    }
    println!("seed {seed}: 100000 pairs");
}

/// The validity of rows by hand: every vector of a small automaton is told right.
#[test]
fn valid_rows_by_hand() {
    let automaton = automaton(&[1, 0], &[false, true], vec![]);
    // Clock 0: 0, between, 1, above; clock 1: 0, above.
    for location in 0..4 {
        for first in 0..6 {
            for second in 0..4 {
                for ranks in [[0, 0], [1, 0], [0, 1], [2, 0], [1, 1], [255, 0]] {
                    let due = [u8::from(first == 1), 0];
                    let expected = location < 2 && first < 4 && second < 2 && ranks == due;
                    let found = is_row(&automaton, location, &[first, second], &ranks);
                    assert_eq!(found, expected, "{location} {first} {second} {ranks:?}");
                }
            }
        }
    }
}
