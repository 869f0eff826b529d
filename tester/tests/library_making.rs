//! The checker's making of region lists against the rules: the answer, every byte of the buffer, every
//! record of the waiting list, and what stands around them.

mod common;
use common::*;

use std::fmt;
use tzelmaruf_tester::automaton::{Automaton, Comparison, Update, GREATEST_BOUND, GREATEST_EDGES};
use tzelmaruf_tester::compare::{Comparer, Met};
use tzelmaruf_tester::format::{encode_table, table_records};
use tzelmaruf_tester::generate::systematic::*;
use tzelmaruf_tester::generate::{make_case, run_case, seed, tables, Random, Shape, WaitingList};
use tzelmaruf_tester::make::{kept_rows, list_length, Row, WAITING_RECORDS};
use tzelmaruf_tester::region::Region;
use tzelmaruf_tester::region_list::{encode_regions, parse_regions};
use tzelmaruf_tester::slow::timed::made::made_lists;
use tzelmaruf_tester::slow::timed::timed_lists;
use tzelmaruf_tester::tally::OF_MAKING;
use tzelmaruf_tester::{library, make_list, needs_checker};

needs_checker!();

const CASES: u64 = 60_000;
const LARGE_ONCE_IN: usize = 50;
const MOST: usize = 4_096;

/// The lengths of waiting lists that are tried everywhere.
const RECORDS: [usize; 5] = [0, 1, 4_095, 4_096, 5_000];

/// A comparison of many inputs. Buffers and waiting lists are full of rubbish before each call.
struct Making {
    comparer: Comparer,
}

impl Making {
    fn new(test: &'static str) -> Making {
        let comparer = Comparer::new(test);
        Making { comparer }
    }

    /// The answer to a table with a buffer and a waiting list of these lengths, on which both sides
    /// agree.
    fn met(&mut self, case: fmt::Arguments, table: &[u8], length: usize, records: usize) -> Met {
        let seed = 1 + length as u64;
        let waiting = WaitingList { records, seed }.rows();
        let case = format_args!("{case}, {length} bytes, {records} records");
        self.comparer
            .make(case, table, &patterned(length), &waiting)
    }

    /// The same, where the answer is known.
    fn hold(
        &mut self,
        case: fmt::Arguments,
        table: &[u8],
        length: usize,
        records: usize,
        due: (u8, u32),
    ) {
        let met = self.met(case, table, length, records);
        let found = (met.number, met.place);
        assert_eq!(found, due, "{case}, {length} bytes, {records} records");
    }

    /// With room for every list.
    fn with_room(&mut self, case: fmt::Arguments, automaton: &Automaton) -> Met {
        let length = list_length(automaton.clocks(), MOST);
        self.met(case, &encode_table(automaton), length, WAITING_RECORDS)
    }
}

/// The list that the checker makes, if it accepts the table.
fn made_by_checker(automaton: &Automaton) -> Option<Vec<u8>> {
    let mut table = encode_table(automaton);
    let mut buffer = patterned(list_length(automaton.clocks(), MOST));
    let mut waiting = vec![Row::default(); WAITING_RECORDS];
    let count = library::make_list(&mut table, &mut buffer, &mut waiting);
    buffer.truncate(list_length(automaton.clocks(), count as usize));
    (count < 1 << 16).then_some(buffer)
}

#[test]
fn random_tables() {
    let seed = seed(30_911);
    println!("seed {seed}: {CASES} cases");
    let mut comparer = Comparer::new("random tables to make a list of");
    for case in 0..CASES {
        let input = make_case(&mut Random::of_case(seed, case), LARGE_ONCE_IN);
        let waiting = input.waiting.rows();
        let text = format_args!("seed {seed} case {case}");
        comparer.make(text, &input.table, &input.buffer, &waiting);
    }
    comparer.finish_with_positions(OF_MAKING, &[1, 3, 5, 6]);
}

/// The bytes of P1's list, and what stands behind them.
#[test]
fn p1_makes_its_list() {
    let (table, list) = (bytes(P1_TABLE), p1_list(8, &P1_ROWS));
    let mut lent = table.clone();
    let mut buffer = vec![0xEE; 50];
    let mut waiting = WaitingList {
        records: 4_100,
        seed: 1,
    }
    .rows();
    let answer = library::make_list(&mut lent, &mut buffer, &mut waiting);
    assert_eq!((answer, &lent), (8, &table));
    assert_eq!(buffer, [&list[..], &[0xEE; 6]].concat());
    assert_eq!(waiting, vec![Row::default(); 4_100]);
    let answer = library::make_list(&mut lent, &mut buffer[..43], &mut waiting);
    assert_eq!(answer, 20 << 16);
    assert_eq!(buffer, [&[0; 43][..], &list[43..], &[0xEE; 6]].concat());
    // P4: the second guard lets a run into the final location.
    let comparison = lent.len() - 7;
    lent[comparison] = 1;
    let answer = library::make_list(&mut lent, &mut buffer, &mut waiting);
    assert_eq!((answer, buffer), (21 << 16, vec![0; 50]));
}

/// All lengths that tell: up to some rows, and around that of the finished list.
fn telling_lengths(exact: usize) -> Vec<usize> {
    let mut lengths: Vec<usize> = (0..28).collect();
    lengths.extend(exact.saturating_sub(24)..exact + 24);
    lengths.extend([exact + 5_000, 200_000]);
    lengths.sort_unstable();
    lengths.dedup();
    lengths
}

/// Every telling buffer with every telling waiting list, for lists that are made and that are not.
#[test]
fn buffers_and_waiting_lists_of_every_length() {
    let seed = seed(30_912);
    println!("seed {seed}");
    let mut making = Making::new("buffers and waiting lists of every length");
    for number in 0..120 {
        let mut random = Random::of_case(seed, number);
        let automaton = far_automaton(&mut random);
        let table = encode_table(&automaton);
        let Some(kept) = kept_rows(&automaton, 300) else {
            continue;
        };
        let case = format_args!("seed {seed} case {number}");
        let exact = list_length(automaton.clocks(), kept.rows.len());
        for length in telling_lengths(exact) {
            for records in RECORDS {
                let due = if length < exact || records < WAITING_RECORDS {
                    (20, 0)
                } else if kept.enters_final {
                    (21, 0)
                } else {
                    (0, kept.rows.len() as u32)
                };
                making.hold(case, &table, length, records, due);
            }
        }
    }
    making.comparer.finish(&[0, 20, 21]);
}

/// What is made is accepted by both checks, and without any of its rows refused by both.
#[test]
fn what_is_made_is_accepted() {
    let seed = seed(30_913);
    println!("seed {seed}");
    let mut comparer = Comparer::new("lists that were made");
    let (mut lists, mut longest) = (0, 0);
    for number in 0..2_500 {
        let mut random = Random::of_case(seed, number);
        let automaton = match number % 25 {
            0 => {
                let shape = Shape::any(&mut random);
                tables::admitted(&mut random, shape)
            }
            _ => far_automaton(&mut random),
        };
        let Some(list) = made_by_checker(&automaton) else {
            continue;
        };
        let case = format_args!("seed {seed} case {number}");
        let table = encode_table(&automaton);
        let rows = parse_regions(&automaton, &list).expect("a made list can be read");
        let met = comparer.regions(case, &table, &list);
        assert_eq!((met.number, met.place), (0, rows.len() as u32), "{case}");
        for index in (0..rows.len()).step_by(1 + rows.len() / 12) {
            let mut fewer = rows.clone();
            let is_initial = fewer.remove(index) == Region::initial(&automaton);
            let list = encode_regions(automaton.clocks(), &fewer);
            let met = comparer.regions(format_args!("{case} without {index}"), &table, &list);
            let due = if is_initial { 16 } else { 17 };
            assert_eq!(met.number, due, "{case} without {index}");
        }
        lists += 1;
        longest = longest.max(rows.len());
    }
    println!("{lists} lists, the longest of {longest} rows");
    assert!(lists > 500 && longest > 200);
    comparer.finish(&[0, 16, 17]);
}

/// Tables with every kind of damage, with all that is lent long enough, and with nothing lent.
#[test]
fn damaged_tables() {
    let seed = seed(30_914);
    println!("seed {seed}");
    let mut making = Making::new("damaged tables");
    for number in 0..12 {
        let mut random = Random::of_case(seed, number);
        let shape = Shape::small(&mut random);
        let automaton = match number % 3 {
            0 => tables::nearly_admitted(&mut random, shape),
            _ => tables::admitted(&mut random, shape),
        };
        let (length, records) = match number % 4 {
            0 => (random.below(100), random.pick(&RECORDS)),
            _ => (5_000, WAITING_RECORDS),
        };
        each_spoiled(&table_records(&automaton), &mut |change, table| {
            let case = format_args!("seed {seed} case {number} {change}");
            making.met(case, table, length, records);
        });
    }
    let other = run_case(&mut Random::new(seed), 1_000).list;
    each_odd_file(&bytes(P1_TABLE), &mut |change, table| {
        making.met(format_args!("{change}"), table, 100, WAITING_RECORDS);
    });
    making.met(format_args!("a run list"), &other, 100, 4_096);
    making.met(format_args!("a region list"), &p1_list(8, &P1_ROWS), 100, 0);
    making.comparer.finish(OF_MAKING);
}

/// No row is kept, so that a header alone has to fit.
#[test]
fn a_final_initial_location() {
    let mut making = Making::new("a final initial location");
    let free = constant(AtLeast, 0);
    let edges = vec![edge(0, 1, &[], &[free]), edge(1, 0, &[], &[free])];
    for edges in [vec![], edges] {
        let table = encode_table(&automaton(&[3], &[true, false], edges));
        let case = format_args!("final at once");
        for records in RECORDS {
            for length in [0, 1, 2, 3] {
                making.hold(case, &table, length, records, (20, 0));
            }
            let number = if records < WAITING_RECORDS { 20 } else { 21 };
            for length in [4, 5, 8, 45_060, 100_000] {
                making.hold(case, &table, length, records, (number, 0));
            }
        }
    }
}

/// Too many rows are found before a final location is entered, and after.
#[test]
fn no_room_comes_before_an_entered_final_location() {
    let mut making = Making::new("20 before 21");
    let free = [constant(AtLeast, 0); 4];
    let kept = [Update::Keep; 4];
    let finals = [false, true, false];
    let many = edge(0, 2, &[], &free);
    let to_final = edge(0, 1, &[], &kept);
    let late = edge(2, 1, &[], &kept);
    for (number, edges) in [
        (20, vec![to_final.clone(), many.clone()]),
        (20, vec![many.clone(), to_final.clone()]),
        (20, vec![many, late]),
        (21, vec![to_final; GREATEST_EDGES]),
    ] {
        let automaton = automaton(&[GREATEST_BOUND; 4], &finals, edges);
        let met = making.with_room(format_args!("wide edges"), &automaton);
        assert_eq!((met.number, met.place), (number, 0));
    }
    making.comparer.finish(&[20, 21]);
}

/// An edge to billions of rows of a final location is not walked, whether it can be taken or not.
#[test]
fn wide_edges_into_final_locations() {
    let mut making = Making::new("wide edges into final locations");
    let free = [constant(AtLeast, 0); 4];
    let nothing = [free[0], free[0], free[0], constant(Less, 0)];
    let read = [free[0], free[0], free[0], clock(Less, 3, 0)];
    let never = [guard(0, Less, 5), guard(0, Greater, 5)];
    let at_zero = [guard(3, Equal, 0)];
    let at_top = [guard(3, Greater, GREATEST_BOUND)];
    for (guards, updates, is_entered) in [
        (&[][..], &free, true),
        (&never, &free, false),
        (&at_top, &free, true),
        (&[], &nothing, false),
        (&at_zero, &read, false),
        (&at_top, &read, true),
    ] {
        let edges = vec![edge(0, 1, guards, updates); GREATEST_EDGES];
        let automaton = automaton(&[GREATEST_BOUND; 4], &[false, true], edges);
        let met = making.with_room(format_args!("{guards:?} {updates:?}"), &automaton);
        let due = if is_entered { (21, 0) } else { (0, 256) };
        assert_eq!((met.number, met.place), due, "{guards:?} {updates:?}");
    }
}

/// One edge with every update of one clock and of two, with a second edge that leads on or to a final
/// location, and guards of every comparison.
#[test]
fn every_update() {
    let mut making = Making::new("every update");
    for bounds in [&[2][..], &[1, 1], &[0, 2], &[2, 1]] {
        let all: Vec<Vec<Update>> = (0..bounds.len())
            .map(|own| all_updates(bounds, own))
            .collect();
        let count: usize = all.iter().map(Vec::len).product();
        for index in 0..count {
            let mut rest = index;
            let mut updates = Vec::new();
            for each in &all {
                updates.push(each[rest % each.len()]);
                rest /= each.len();
            }
            let comparison = Comparison::ALL[index % 6];
            let clock = index / 6 % bounds.len();
            let constant = (index / 12) as u8 % (bounds[clock] + 1);
            let guards = [guard(clock as u8, comparison, constant)];
            let kept = vec![Update::Keep; bounds.len()];
            let edges = vec![
                edge(0, 1, &[], &updates),
                edge(1, 2, &guards, &kept),
                edge(2, 0, &guards, &updates),
            ];
            let finals = [false, false, index % 3 == 0];
            let automaton = automaton(bounds, &finals, edges);
            making.with_room(format_args!("{bounds:?} update {index}"), &automaton);
        }
    }
    making.comparer.finish(&[0, 21]);
}

/// Edges of one to four clocks that leave choices out in the middle, from the rows of a first location
/// to a second one, and back again.
#[test]
fn edges_that_leave_choices_out() {
    let seed = seed(30_915);
    println!("seed {seed}");
    let mut making = Making::new("edges that leave choices out");
    for number in 0..3_000 {
        let mut random = Random::of_case(seed, number);
        let clocks = 1 + number as usize % 4;
        let (mut automaton, _) = edge_that_leaves_out(&mut random, clocks, 1);
        let back =
            (0..clocks).map(|own| tables::changing_update(&mut random, &automaton.bounds, own));
        let back: Vec<Update> = back.collect();
        automaton.edges.push(edge(1, 0, &[], &back));
        making.with_room(format_args!("seed {seed} case {number}"), &automaton);
    }
    making.comparer.finish(&[0]);
}

/// The tables of the benchmark: lists of thousands of rows, exactly 4,096 and one more, slow growth.
#[test]
fn timed_tables() {
    let mut making = Making::new("the benchmark's tables");
    for timed in made_lists() {
        let met = making.with_room(format_args!("{}", timed.name), &timed.automaton());
        assert_eq!(met.packed(), timed.expected.packed(), "{}", timed.name);
    }
    // With one of their edges each, since copies of an edge and edges of one kind lead nowhere else.
    for timed in timed_lists() {
        let mut automaton = timed.table();
        automaton.edges.truncate(1);
        making.with_room(format_args!("{}", timed.name), &automaton);
    }
    making.comparer.finish(&[0, 20, 21]);
}

/// Just as many rows as a list may have, in buffers that end at it or around it.
#[test]
fn full_lists() {
    let mut making = Making::new("full lists");
    for timed in made_lists() {
        let automaton = timed.automaton();
        if timed.name != "one row too many" && timed.expected.packed() != 4_096 {
            continue;
        }
        let (table, exact) = (
            encode_table(&automaton),
            list_length(automaton.clocks(), MOST),
        );
        for length in [exact - 1, exact, exact + 1, exact + 20] {
            let due = match length < exact {
                true => (20, 0),
                false => (
                    timed.expected.packed() >> 16,
                    timed.expected.packed() & 0xFFFF,
                ),
            };
            let case = format_args!("{}", timed.name);
            making.hold(case, &table, length, 4_096, (due.0 as u8, due.1));
            making.hold(case, &table, length, 4_095, (20, 0));
        }
    }
    making.comparer.finish(&[0, 20]);
}

/// Much more is lent than there is any need of.
#[test]
fn long_buffers_and_waiting_lists() {
    let mut making = Making::new("long buffers and waiting lists");
    let table = bytes(P1_TABLE);
    for (length, records) in [(3_000_000, 4_096), (100, 300_000), (3_000_000, 300_000)] {
        let case = format_args!("P1");
        making.hold(case, &table, length, records, (0, 8));
        making.hold(case, &table[1..], length, records, (1, 0));
        making.hold(case, &[], length, records, (1, 0));
    }
}

/// Nothing is kept between calls: the same again in what the call before has left, and after calls
/// with other tables.
#[test]
fn calls_one_after_another() {
    let seed = seed(30_916);
    println!("seed {seed}");
    let length = list_length(4, MOST);
    let (mut buffer, mut waiting) = (vec![0; length], vec![Row::default(); WAITING_RECORDS]);
    let mut expected = buffer.clone();
    for case in 0..2_000 {
        let mut random = Random::of_case(seed, case);
        let automaton = far_automaton(&mut random);
        let mut table = encode_table(&automaton);
        for _ in 0..1 + case % 2 {
            let answer = library::make_list(&mut table, &mut buffer, &mut waiting);
            let mut same = vec![Row::default(); WAITING_RECORDS];
            let due = make_list(&table, &mut expected, &mut same);
            assert_eq!(answer, due.packed(), "seed {seed} case {case}");
            assert_eq!(buffer, expected, "seed {seed} case {case}");
            assert_eq!(waiting, same, "seed {seed} case {case}");
        }
    }
}
