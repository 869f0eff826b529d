//! The making of region lists by the rules: what is kept, when a list is refused, and what is left in
//! the buffer and in the waiting list.

mod common;
use common::*;

use std::collections::BTreeSet;
use tzelmaruf_tester::answer::Answer;
use tzelmaruf_tester::automaton::{Automaton, Update, GREATEST_BOUND, GREATEST_EDGES};
use tzelmaruf_tester::explore::closure;
use tzelmaruf_tester::follow::{next_rows, WAIT};
use tzelmaruf_tester::format::{encode_table, table_records};
use tzelmaruf_tester::generate::systematic::each_spoiled;
use tzelmaruf_tester::generate::{make_case, seed, tables, Random, Shape, WaitingList};
use tzelmaruf_tester::make::{kept_rows, list_length, Row, WAITING_RECORDS};
use tzelmaruf_tester::region::{row_length, Region};
use tzelmaruf_tester::region_list::{encode_regions, parse_regions};
use tzelmaruf_tester::run::encode_run;
use tzelmaruf_tester::slow::timed::made::{made_lists, MadeList};
use tzelmaruf_tester::successor::by_points;
use tzelmaruf_tester::{admit, check_regions, check_run, make_list};

const MOST: usize = 4_096;

/// The answer to a table with a buffer and a waiting list of these lengths, and the buffer afterwards.
/// Whatever the answer, the waiting list is all zero then.
fn made(table: &[u8], length: usize, records: usize) -> (Answer, Vec<u8>) {
    let mut buffer = patterned(length);
    let seed = length as u64;
    let mut waiting = WaitingList { records, seed }.rows();
    assert!(waiting.iter().all(|row| *row != Row::default()));
    let answer = make_list(table, &mut buffer, &mut waiting);
    assert_eq!(waiting, vec![Row::default(); records]);
    (answer, buffer)
}

/// With all the room that there is need of.
fn made_with_room(automaton: &Automaton) -> (Answer, Vec<u8>) {
    let length = list_length(automaton.clocks(), MOST);
    made(&encode_table(automaton), length, WAITING_RECORDS)
}

/// Refused so, and the buffer all zero.
fn hold_refused(table: &[u8], length: usize, records: usize, number: u8, place: u16) {
    let expected = (refused(number, place), vec![0; length]);
    let case = format!("table {} length {length}, {records}", hex(table));
    assert_eq!(made(table, length, records), expected, "{case}");
}

/// Accepted with this list, and the bytes behind it as they were.
fn hold_accepted(table: &[u8], length: usize, records: usize, count: u32, list: &[u8]) {
    let mut expected = patterned(length);
    expected[..list.len()].copy_from_slice(list);
    let case = format!("table {} length {length}, {records}", hex(table));
    let expected = (Answer::Accepted(count), expected);
    assert_eq!(made(table, length, records), expected, "{case}");
}

#[test]
fn p1_makes_its_list() {
    let (table, list) = (bytes(P1_TABLE), p1_list(8, &P1_ROWS));
    assert_eq!(list.len(), 44);
    for length in [44, 45, 1_000, 45_060] {
        hold_accepted(&table, length, WAITING_RECORDS, 8, &list);
    }
    hold_refused(&table, 43, WAITING_RECORDS, 20, 0);
}

/// With ≤ in the second guard a run gets to the final location (P4).
#[test]
fn p4_is_entered() {
    let mut table = bytes(P1_TABLE);
    let comparison = table.len() - 7;
    table[comparison] = 1;
    // The same rows are kept, so that there has to be room for them.
    hold_refused(&table, 44, WAITING_RECORDS, 21, 0);
    hold_refused(&table, 1_000, WAITING_RECORDS, 21, 0);
    hold_refused(&table, 43, WAITING_RECORDS, 20, 0);
}

/// Its record is that of a host program in C.
#[test]
fn a_record_has_14_bytes() {
    assert_eq!((size_of::<Row>(), align_of::<Row>()), (14, 2));
    let row = WaitingList {
        records: 1,
        seed: 1,
    }
    .rows()[0];
    let offset = |field: usize| field - &raw const row as usize;
    assert_eq!(offset(&raw const row.location as usize), 0);
    assert_eq!(offset(&raw const row.intervals as usize), 2);
    assert_eq!(offset(&raw const row.ranks as usize), 10);
}

/// By repetition until nothing is new: each next row of each row so far. An edge into a final location
/// counts for nothing but that it leads somewhere.
fn kept_by_repetition(automaton: &Automaton, numbers: &[u16]) -> (BTreeSet<Region>, bool) {
    let initial = Region::initial(automaton);
    if automaton.is_final(initial.location()) {
        return (BTreeSet::new(), true);
    }
    let mut kept = BTreeSet::from([initial]);
    let mut is_entered = false;
    loop {
        let mut next = kept.clone();
        for row in &kept {
            for number in numbers {
                for next_row in next_rows(automaton, *row, *number) {
                    match automaton.is_final(next_row.location()) {
                        true => is_entered = true,
                        false => _ = next.insert(next_row),
                    }
                }
            }
        }
        if next == kept {
            return (kept, is_entered);
        }
        kept = next;
    }
}

#[test]
fn kept_rows_are_those_of_the_definition() {
    let seed = seed(20_701);
    println!("seed {seed}");
    let (mut compared, mut entered) = (0, 0);
    for case in 0..6_000 {
        let mut random = Random::of_case(seed, case);
        let shape = Shape::small(&mut random);
        let automaton = tables::admitted(&mut random, shape);
        let Some(kept) = kept_rows(&automaton, 120) else {
            continue;
        };
        let numbers: Vec<u16> = (0..automaton.edges.len() as u16).chain([WAIT]).collect();
        let (rows, is_entered) = kept_by_repetition(&automaton, &numbers);
        let text = format!("seed {seed} case {case}: {automaton:?}");
        assert_eq!(kept.rows, rows.into_iter().collect::<Vec<_>>(), "{text}");
        assert_eq!(kept.enters_final, is_entered, "{text}");
        compared += 1;
        entered += usize::from(is_entered);
    }
    println!("{compared} tables, {entered} enter a final location");
    assert!(compared > 4_000 && entered > 1_000 && compared - entered > 1_000);
}

/// The same by points, which share no rule with intervals.
#[test]
fn kept_rows_by_points() {
    let seed = seed(20_702);
    println!("seed {seed}");
    let mut compared = 0;
    for case in 0..700 {
        let mut random = Random::of_case(seed, case);
        let shape = Shape {
            clocks: 1 + random.below(2),
            ..Shape::small(&mut random)
        };
        let automaton = tables::admitted(&mut random, shape);
        let Some(kept) = kept_rows(&automaton, 60) else {
            continue;
        };
        let is_kept = |row: &Region| kept.rows.binary_search(row).is_ok();
        let is_final = |row: &Region| automaton.is_final(row.location());
        let mut reached = BTreeSet::from([Region::initial(&automaton)]);
        for row in &kept.rows {
            reached.extend(row.time_successor(&automaton.bounds));
            for edge in &automaton.edges {
                reached.extend(by_points(&automaton, edge, *row));
            }
        }
        let text = format!("seed {seed} case {case}: {automaton:?}");
        assert!(
            reached.iter().all(|row| is_kept(row) != is_final(row)),
            "{text}"
        );
        assert_eq!(reached.iter().any(is_final), kept.enters_final, "{text}");
        // None is kept but for a reason.
        assert!(kept.rows.iter().all(|row| reached.contains(row)), "{text}");
        compared += 1;
    }
    println!("{compared} tables");
    assert!(compared > 300);
}

#[derive(Default, Debug)]
struct Tally {
    entered: usize,
    runs: usize,
    closed: usize,
    shortened: usize,
    no_room: usize,
}

/// Either a list is made, which is closed and none of whose rows can be spared, or a run enters a final
/// location, or the rows are too many.
#[test]
fn a_list_is_made_or_a_run_enters_a_final_location() {
    let seed = seed(20_703);
    println!("seed {seed}");
    let mut tally = Tally::default();
    for case in 0..6_000 {
        let mut random = Random::of_case(seed, case);
        let automaton = match case % 30 {
            0 => {
                let shape = Shape::any(&mut random);
                tables::admitted(&mut random, shape)
            }
            _ => far_automaton(&mut random),
        };
        let text = format!("seed {seed} case {case}: {automaton:?}");
        let (answer, buffer) = made_with_room(&automaton);
        match answer {
            Answer::Accepted(count) => {
                let list = &buffer[..list_length(automaton.clocks(), count as usize)];
                hold_least(&automaton, list, &mut tally);
                assert!(closure(&automaton, MOST).closed_list().is_some(), "{text}");
            }
            Answer::Refused { number: 21, .. } => hold_entered(&automaton, &mut tally),
            Answer::Refused { number: 20, .. } => {
                // All rows are at least as many as those that are kept.
                assert!(closure(&automaton, MOST).is_capped, "{text}");
                tally.no_room += 1;
            }
            other => panic!("{text}: {other:?}"),
        }
    }
    println!("{tally:?}");
    assert!(tally.entered > 1_000 && tally.runs > 1_000);
    assert!(tally.closed > 1_000 && tally.shortened > 10_000 && tally.no_room > 50);
}

/// The check accepts the list, and refuses it without any of its rows, or some of a long one.
fn hold_least(automaton: &Automaton, list: &[u8], tally: &mut Tally) {
    let table = encode_table(automaton);
    let rows = parse_regions(automaton, list).expect("a made list can be read");
    let expected = Answer::Accepted(rows.len() as u32);
    assert_eq!(check_regions(&table, list), expected, "{automaton:?}");
    tally.closed += 1;
    let step = 1 + rows.len() / 24;
    for index in (0..rows.len()).step_by(step) {
        let mut fewer = rows.clone();
        let initial = fewer.remove(index) == Region::initial(automaton);
        let answer = check_regions(&table, &encode_regions(automaton.clocks(), &fewer));
        let due = if initial { 16 } else { 17 };
        let is_due = matches!(answer, Answer::Refused { number, .. } if number == due);
        assert!(is_due, "{automaton:?} without row {index}: {answer:?}");
        tally.shortened += 1;
    }
}

/// A run enters a final location, as the search of the region graph finds it.
fn hold_entered(automaton: &Automaton, tally: &mut Tally) {
    let found = closure(automaton, 4 * MOST);
    let run = found.concrete_run(automaton);
    assert!(run.is_some() || found.is_capped, "{automaton:?}");
    tally.entered += 1;
    let Some(run) = run.and_then(|run| run.scaled(1)) else {
        return;
    };
    let steps = run.steps.len() as u32;
    let answer = check_run(&encode_table(automaton), &encode_run(&run));
    assert_eq!(answer, Answer::Accepted(steps), "{automaton:?}");
    tally.runs += 1;
}

/// The buffer's length decides between 20 and the list, byte by byte.
#[test]
fn buffers_of_every_length() {
    let seed = seed(20_704);
    println!("seed {seed}");
    let (mut accepted, mut entered) = (0, 0);
    for case in 0..300 {
        let mut random = Random::of_case(seed, case);
        let automaton = far_automaton(&mut random);
        let table = encode_table(&automaton);
        let Some(kept) = kept_rows(&automaton, 60) else {
            continue;
        };
        let list = encode_regions(automaton.clocks(), &kept.rows);
        let exact = list.len();
        assert_eq!(exact, list_length(automaton.clocks(), kept.rows.len()));
        let around = exact.saturating_sub(24)..exact + 24;
        for length in (0..20).chain(around).chain([exact + 5_000]) {
            if length < exact {
                hold_refused(&table, length, WAITING_RECORDS, 20, 0);
            } else if kept.enters_final {
                hold_refused(&table, length, WAITING_RECORDS, 21, 0);
            } else {
                let count = kept.rows.len() as u32;
                hold_accepted(&table, length, WAITING_RECORDS, count, &list);
            }
        }
        accepted += usize::from(!kept.enters_final);
        entered += usize::from(kept.enters_final);
    }
    println!("{accepted} accepted, {entered} entered");
    assert!(accepted > 50 && entered > 50);
}

/// No row is kept, so that a header alone has to fit.
#[test]
fn a_final_initial_location() {
    let free = constant(AtLeast, 0);
    let edges = vec![edge(0, 1, &[], &[free]), edge(0, 0, &[], &[free])];
    for edges in [vec![], edges] {
        let table = encode_table(&automaton(&[3], &[true, false], edges));
        for length in [0, 1, 3] {
            hold_refused(&table, length, WAITING_RECORDS, 20, 0);
        }
        for length in [4, 5, 100] {
            hold_refused(&table, length, WAITING_RECORDS, 21, 0);
            hold_refused(&table, length, WAITING_RECORDS - 1, 20, 0);
        }
    }
}

/// With fewer records than 4,096 the answer is that of a short buffer.
#[test]
fn waiting_lists_of_every_telling_length() {
    let table = bytes(P1_TABLE);
    let list = p1_list(8, &P1_ROWS);
    let mut entered = table.clone();
    let comparison = entered.len() - 7;
    entered[comparison] = 1;
    for records in [0, 1, 8, 4_094, 4_095] {
        hold_refused(&table, 100, records, 20, 0);
        hold_refused(&entered, 100, records, 20, 0);
        hold_refused(&table[1..], 100, records, 1, 0);
    }
    for records in [4_096, 4_097, 5_000] {
        hold_accepted(&table, 100, records, 8, &list);
        hold_refused(&entered, 100, records, 21, 0);
        hold_refused(&table[1..], 100, records, 1, 0);
    }
}

/// The table's own refusals come first, with their numbers and places.
#[test]
fn refused_tables() {
    let seed = seed(20_705);
    println!("seed {seed}");
    let mut refusals = 0;
    for case in 0..60 {
        let mut random = Random::of_case(seed, case);
        let shape = Shape::small(&mut random);
        let automaton = match case % 2 {
            0 => tables::nearly_admitted(&mut random, shape),
            _ => tables::admitted(&mut random, shape),
        };
        let length = random.below(100);
        let records = random.pick(&[0, 10, 4_096]);
        each_spoiled(&table_records(&automaton), &mut |_, table| {
            if let Answer::Refused { number, place } = admit(table) {
                hold_refused(table, length, records, number, place);
                refusals += 1;
            }
        });
    }
    println!("{refusals} refusals");
    assert!(refusals > 10_000);
}

/// Too many rows, found after a final location is entered, and before.
#[test]
fn no_room_comes_before_an_entered_final_location() {
    let free = [constant(AtLeast, 0); 4];
    let kept = [Update::Keep; 4];
    let finals = [false, true, false];
    let many = edge(0, 2, &[], &free);
    let to_final = edge(0, 1, &[], &kept);
    let late = edge(2, 1, &[], &kept);
    for edges in [
        vec![to_final.clone(), many.clone()],
        vec![many.clone(), to_final.clone()],
        vec![many, late],
    ] {
        let automaton = automaton(&[GREATEST_BOUND; 4], &finals, edges);
        assert_eq!(made_with_room(&automaton).0, refused(20, 0));
    }
    let automaton = automaton(&[GREATEST_BOUND; 4], &finals, vec![to_final]);
    assert_eq!(made_with_room(&automaton).0, refused(21, 0));
    // Its 256 rows have to fit all the same.
    let exact = list_length(4, 256);
    hold_refused(&encode_table(&automaton), exact, 4_096, 21, 0);
    hold_refused(&encode_table(&automaton), exact - 1, 4_096, 20, 0);
}

/// An edge to billions of rows of a final location is not walked, whether it can be taken or not.
#[test]
fn wide_edges_into_final_locations() {
    let free = [constant(AtLeast, 0); 4];
    let nothing = [free[0], free[0], free[0], constant(Less, 0)];
    let never = [guard(0, Less, 5), guard(0, Greater, 5)];
    let bounds = [GREATEST_BOUND; 4];
    for (guards, updates, is_entered) in [
        (&[][..], &free, true),
        (&never, &free, false),
        (&[guard(3, Greater, GREATEST_BOUND)], &free, true),
        (&[], &nothing, false),
    ] {
        let edges = vec![edge(0, 1, guards, updates); GREATEST_EDGES];
        let (answer, _) = made_with_room(&automaton(&bounds, &[false, true], edges));
        let due = match is_entered {
            true => refused(21, 0),
            false => Answer::Accepted(256),
        };
        assert_eq!(answer, due);
    }
}

/// 64 locations of 64 rows each are 4,096; with a clock more, of bound 0, they are twice as many.
#[test]
fn just_as_many_rows_as_a_list_has() {
    let locations = 64;
    for (bounds, is_final, due) in [
        (&[31][..], false, Answer::Accepted(4_096)),
        (&[31], true, refused(21, 0)),
        (&[31, 0], false, refused(20, 0)),
        (&[31, 0], true, refused(20, 0)),
    ] {
        let free = vec![constant(AtLeast, 0); bounds.len()];
        let mut edges: Vec<_> = (0..locations - 1)
            .map(|location| edge(location, location + 1, &[], &free))
            .collect();
        let finals: Vec<bool> = (0..locations).map(|_| false).collect();
        let mut automaton = automaton(bounds, &finals, vec![]);
        if is_final {
            // From the last location back to the first but one, which is final now, and one row less.
            automaton.locations[1].is_final = true;
            edges[0].target = 2;
            edges.push(edge(63, 1, &[], &free));
        }
        automaton.edges = edges;
        let (answer, buffer) = made_with_room(&automaton);
        assert_eq!(answer, due, "{bounds:?} {is_final}");
        if answer.is_accepted() {
            assert_eq!(
                check_regions(&encode_table(&automaton), &buffer[..4 + 4_096 * 5]),
                due
            );
        }
    }
}

/// Random inputs of any size: what is accepted is accepted by the check, and whatever is refused
/// leaves the buffer all zero.
#[test]
fn random_inputs() {
    let seed = seed(20_706);
    println!("seed {seed}");
    let (mut accepted, mut numbers) = (0, BTreeSet::new());
    for case in 0..4_000 {
        let input = make_case(&mut Random::of_case(seed, case), 50);
        let mut buffer = input.buffer.clone();
        let mut waiting = input.waiting.rows();
        let answer = make_list(&input.table, &mut buffer, &mut waiting);
        assert!(waiting.iter().all(|row| *row == Row::default()));
        match answer {
            Answer::Accepted(count) => {
                let clocks = usize::from(input.table[2]);
                let exact = 4 + count as usize * row_length(clocks);
                assert_eq!(check_regions(&input.table, &buffer[..exact]), answer);
                assert_eq!(buffer[exact..], input.buffer[exact..]);
                accepted += 1;
            }
            Answer::Refused { number, .. } => {
                assert!(buffer.iter().all(|byte| *byte == 0));
                _ = numbers.insert(number);
            }
        }
    }
    println!("{accepted} accepted");
    assert!(accepted > 800);
    assert_eq!(numbers, BTreeSet::from([1, 2, 3, 4, 5, 6, 20, 21]));
}

/// The benchmark's tables get the answers that they are known for, and their lists are accepted: with a
/// few of their edges, as the check would take long with all.
#[test]
fn timed_tables_get_their_answers() {
    for timed in made_lists() {
        let automaton = timed.automaton();
        assert_eq!(automaton.edges.len(), GREATEST_EDGES, "{}", timed.name);
        let (answer, buffer) = made_with_room(&automaton);
        assert_eq!(answer, timed.expected, "{}", timed.name);
        let Answer::Accepted(count) = answer else {
            continue;
        };
        let mut fewer = automaton.clone();
        fewer.edges = automaton.edges.into_iter().step_by(64).collect();
        let list = &buffer[..list_length(fewer.clocks(), count as usize)];
        let answer = check_regions(&encode_table(&fewer), list);
        assert_eq!(answer, timed.expected, "{}", timed.name);
    }
}

/// The rows of an odometer are found one after the other: between two states no more than a few.
#[test]
fn odometers_grow_slowly() {
    let named = |name: &str| -> MadeList {
        let mut lists = made_lists().into_iter();
        lists.find(|list| list.name.starts_with(name)).expect(name)
    };
    for (name, states) in [
        ("odometer, deterministic", 2_592),
        ("odometer, wide", 552),
        ("odometer, each", 552),
    ] {
        let mut automaton = named(name).automaton();
        // The wide edges lead to a third location.
        automaton.edges.retain(|edge| edge.target < 2);
        let generations = generations(&automaton);
        println!("{name}: {} generations", generations.len());
        assert!(generations.len() >= states, "{name}");
        let few = |new: &&usize| **new <= 2;
        assert!(
            generations.iter().filter(few).count() >= states - 2,
            "{name}"
        );
    }
}

/// How many rows are new after one more edge and any waiting.
fn generations(automaton: &Automaton) -> Vec<usize> {
    let mut kept = BTreeSet::new();
    let mut waiting = vec![Region::initial(automaton)];
    let mut generations = Vec::new();
    while !waiting.is_empty() {
        let mut new = Vec::new();
        for start in waiting {
            let mut next = Some(start);
            while let Some(row) = next.filter(|row| kept.insert(*row)) {
                new.push(row);
                next = row.time_successor(&automaton.bounds);
            }
        }
        let leads_to = |row: &Region| -> Vec<Region> {
            let edges = 0..automaton.edges.len() as u16;
            let rows = edges.flat_map(|edge| next_rows(automaton, *row, edge));
            rows.filter(|row| !kept.contains(row)).collect()
        };
        waiting = new.iter().flat_map(leads_to).collect();
        generations.push(new.len());
    }
    generations
}
