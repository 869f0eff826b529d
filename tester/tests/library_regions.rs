//! The checker's check of region lists against the rules.

mod common;
use common::*;

use std::collections::BTreeSet;
use std::fmt;
use tzelmaruf_tester::automaton::{Comparison, Update};
use tzelmaruf_tester::compare::Comparer;
use tzelmaruf_tester::explore::{closure, closure_from};
use tzelmaruf_tester::format::{encode_table, table_records};
use tzelmaruf_tester::generate::systematic::*;
use tzelmaruf_tester::generate::{regions_case, rows, run_case, seed, tables, Random, Shape};
use tzelmaruf_tester::region::{all_rows, is_row, Region};
use tzelmaruf_tester::region_list::{encode_regions, region_records};
use tzelmaruf_tester::successor::NextRows;
use tzelmaruf_tester::tally::OF_REGIONS;
use tzelmaruf_tester::{library, needs_checker};

needs_checker!();

const CASES: u64 = 200_000;
const LARGE_ONCE_IN: usize = 50;

#[test]
fn random_lists() {
    let seed = seed(30_301);
    println!("seed {seed}: {CASES} cases");
    let mut comparer = Comparer::new("random region lists");
    for case in 0..CASES {
        let pair = regions_case(&mut Random::of_case(seed, case), LARGE_ONCE_IN);
        comparer.regions(
            format_args!("seed {seed} case {case}"),
            &pair.table,
            &pair.list,
        );
    }
    comparer.finish_with_positions(OF_REGIONS, &[1, 3, 5, 6, 7, 8, 14, 15, 17]);
}

/// Each row left out, there twice, exchanged with the next, and put in the
/// place of the one before.
fn spoil_rows(comparer: &mut Comparer, case: fmt::Arguments, closed: &Closed) {
    let initial = Region::initial(&closed.automaton);
    for index in 0..closed.rows.len() {
        let mut see = |change: &str, due: &[u8], rows: &[Region]| {
            let case = format_args!("{case} row {} {change}", index + 1);
            let met = comparer.regions(case, &closed.table, &closed.list(rows));
            assert!(due.contains(&met.number), "{case}: {met:?}");
        };
        let row = closed.rows[index];
        let due = [if row == initial { 16 } else { 0 }, 17];
        see("left out", &due, &closed.without(index));
        let mut twice = closed.rows.clone();
        twice.insert(index, row);
        see("twice", &[14], &twice);
        let mut exchanged = closed.rows.clone();
        exchanged.swap(index, (index + 1) % closed.rows.len());
        let due = if closed.rows.len() == 1 { 0 } else { 14 };
        see("exchanged", &[due], &exchanged);
        let mut replaced = closed.rows.clone();
        replaced[index.saturating_sub(1)] = row;
        let due = if index == 0 { 0 } else { 14 };
        see("for the one before", &[due], &replaced);
    }
}

/// Each byte of each row changed to a few values.
fn spoil_bytes(comparer: &mut Comparer, case: fmt::Arguments, closed: &Closed) {
    let list = closed.list(&closed.rows);
    each_change(&list, &mut |change, spoiled| {
        comparer.regions(format_args!("{case} {change}"), &closed.table, spoiled);
    });
}

/// Least closed lists and closed supersets, whole and with every row spoiled.
#[test]
fn closures_and_supersets() {
    let seed = seed(30_302);
    println!("seed {seed}: 1500 automata");
    let mut comparer = Comparer::new("closures and supersets");
    let mut supersets = 0;
    for number in 0..1_500 {
        let mut random = Random::of_case(seed, number);
        let cap = if number % 50 == 0 { 4_096 } else { 150 };
        let least = Closed::random(&mut random, cap);
        let case = format_args!("seed {seed} case {number}");
        least.accepted(&mut comparer, case, &least.rows);
        let more = rows::row(&mut random, &least.automaton);
        let starts = [&least.rows[..], &[more]].concat();
        let extended = closure_from(&least.automaton, &starts, 4_096);
        if let Some(rows) = extended.closed_list() {
            least.accepted(&mut comparer, case, rows);
            supersets += usize::from(rows.len() > least.rows.len());
        }
        if number < 250 && least.rows.len() <= 150 {
            spoil_rows(&mut comparer, case, &least);
        }
        if number < 50 && least.rows.len() <= 150 {
            spoil_bytes(&mut comparer, case, &least);
        }
    }
    println!("{supersets} supersets");
    assert!(supersets > 300);
    comparer.finish_with_positions(&[0, 7, 8, 9, 14, 15, 16, 17], &[7, 8, 14, 17]);
}

/// Each row of the least list left out of a superset, where some rows can be spared.
#[test]
fn rows_left_out_of_supersets() {
    let seed = seed(30_303);
    println!("seed {seed}: 400 automata");
    let mut comparer = Comparer::new("rows left out of supersets");
    for number in 0..400 {
        let mut random = Random::of_case(seed, number);
        let least = Closed::random(&mut random, 100);
        let not_final = |row: &Region| !least.automaton.is_final(row.location());
        let Some(mut rows) = all_rows(&least.automaton, 250) else {
            continue;
        };
        rows.retain(not_final);
        for index in 0..rows.len() {
            let mut without = rows.clone();
            without.remove(index);
            let case = format_args!("seed {seed} case {number} without {index}");
            comparer.regions(case, &least.table, &least.list(&without));
        }
    }
    comparer.finish_with_positions(&[0, 16, 17], &[17]);
}

/// Final rows: every location of a closed list made final, and rows of final
/// locations added, in their place in the order or behind all others.
#[test]
fn final_rows() {
    let seed = seed(30_304);
    println!("seed {seed}: 600 automata");
    let mut comparer = Comparer::new("final rows");
    for number in 0..600 {
        let mut random = Random::of_case(seed, number);
        let closed = Closed::random(&mut random, 150);
        let case = format_args!("seed {seed} case {number}");
        for location in 0..closed.automaton.locations.len() as u8 {
            let mut changed = closed.automaton.clone();
            changed.locations[usize::from(location)].is_final ^= true;
            let list = closed.list(&closed.rows);
            comparer.regions(case, &encode_table(&changed), &list);
            let row = rows::row_in(&mut random, &closed.automaton, location);
            let mut sorted = [&closed.rows[..], &[row]].concat();
            sorted.sort_unstable();
            comparer.regions(case, &closed.table, &closed.list(&sorted));
            let behind = [&closed.rows[..], &[row]].concat();
            comparer.regions(case, &closed.table, &closed.list(&behind));
        }
    }
    comparer.finish_with_positions(&[0, 14, 15, 17], &[15]);
}

/// No rows, all but the initial row, and tables with another initial location.
#[test]
fn initial_row_missing() {
    let seed = seed(30_305);
    println!("seed {seed}: 600 automata");
    let mut comparer = Comparer::new("initial row missing");
    for number in 0..600 {
        let closed = Closed::random(&mut Random::of_case(seed, number), 300);
        let case = format_args!("seed {seed} case {number}");
        let initial = Region::initial(&closed.automaton);
        let mut without = closed.rows.clone();
        without.retain(|row| *row != initial);
        for rows in [&[][..], &without] {
            let met = comparer.regions(case, &closed.table, &closed.list(rows));
            assert_eq!((met.number, met.place), (16, 0), "{case}");
        }
        for location in 0..closed.automaton.locations.len() as u8 {
            let mut changed = closed.automaton.clone();
            changed.initial = location;
            let list = closed.list(&closed.rows);
            comparer.regions(case, &encode_table(&changed), &list);
        }
    }
    comparer.finish(&[0, 16]);
}

/// 64 locations of 64 intervals, joined by 256 edges: 4,096 rows, all closed.
fn longest() -> Closed {
    let edges: Vec<_> = (0..=255_u8)
        .map(|number| {
            let updates = [constant(AtLeast, number % 32)];
            edge(number % 64, number.wrapping_mul(7) % 64, &[], &updates)
        })
        .collect();
    let automaton = automaton(&[31], &[false; 64], edges);
    let rows = all_rows(&automaton, 4_096).unwrap();
    Closed::new(automaton, rows)
}

#[test]
fn longest_lists() {
    let mut comparer = Comparer::new("longest lists");
    let closed = longest();
    closed.accepted(&mut comparer, format_args!("whole"), &closed.rows);
    let records = region_records(1, &closed.rows);
    // A row more, counted or not; the count alone one more or one less.
    let mut twice = closed.rows.clone();
    twice.push(closed.rows[4_095]);
    let longer = closed.list(&twice);
    let mut see = |case: &str, list: &[u8], number: u8, place: u32| {
        let met = comparer.regions(format_args!("{case}"), &closed.table, list);
        assert_eq!((met.number, met.place), (number, place), "{case}");
    };
    see("4,097 rows", &longer, 8, 0);
    let counted = |count: u16| [&b"RL"[..], &count.to_be_bytes()].concat();
    let rows = records[1..].concat();
    see("4,097", &[&counted(4_097)[..], &rows].concat(), 8, 0);
    see("4,095", &[&counted(4_095)[..], &rows].concat(), 9, 4_096);
    see(
        "4,096 of 4,097",
        &[&counted(4_096)[..], &longer[4..]].concat(),
        9,
        4_097,
    );
    see("65,535", &[&counted(65_535)[..], &rows].concat(), 8, 0);
    let whole = records.concat();
    see("one byte short", &whole[..whole.len() - 1], 7, 4_096);
    see("one byte more", &[&whole[..], b"R"].concat(), 9, 4_097);
    for index in (1..4_096).step_by(61).chain([4_095]) {
        let case = format_args!("without {index}");
        closed.met(&mut comparer, case, &closed.without(index));
        let mut exchanged = closed.rows.clone();
        exchanged.swap(index - 1, index);
        let list = closed.list(&exchanged);
        comparer.regions(format_args!("exchanged {index}"), &closed.table, &list);
    }
    comparer.finish_with_positions(&[0, 7, 8, 9, 14, 17], &[14]);
}

/// Every vector of ranks from 0 to 5 on rows with whole, open and top intervals,
/// alone and between the first and the last row: ranks with a gap, ranks where
/// none is due, none where one is due.
#[test]
fn every_rank() {
    let mut comparer = Comparer::new("every vector of ranks");
    for (clocks, intervals) in [
        (1, &[0, 1, 3, 4, 5][..]),
        (2, &[0, 1, 3, 4, 5]),
        (3, &[1, 4, 5]),
        (4, &[1, 5]),
    ] {
        let automaton = automaton(&vec![2; clocks], &[false], vec![]);
        let table = encode_table(&automaton);
        let first = Region::initial(&automaton).record(clocks);
        let last = Region::new(0, &vec![5; clocks], &vec![0; clocks]).record(clocks);
        for intervals in vectors(clocks, intervals) {
            for ranks in vectors(clocks, &[0, 1, 2, 3, 4, 5]) {
                let row = [&b"RW\0"[..], &intervals, &ranks].concat();
                let case = format_args!("intervals {intervals:?} ranks {ranks:?}");
                let alone = [b"RL\0\x01", &row[..]].concat();
                let met = comparer.regions(case, &table, &alone);
                let is_row = is_row(&automaton, 0, &intervals, &ranks);
                assert_eq!(met.number == 8, !is_row, "{case}");
                let between = [b"RL\0\x03", &first[..], &row, &last].concat();
                comparer.regions(case, &table, &between);
            }
        }
    }
    comparer.finish(&[8, 14, 16, 17]);
}

/// Every vector of some digits.
fn vectors(length: usize, digits: &[u8]) -> Vec<Vec<u8>> {
    (0..length).fold(vec![vec![]], |shorter, _| {
        let longer = |vector: &Vec<u8>| {
            let vector = vector.clone();
            digits
                .iter()
                .map(move |digit| [&vector[..], &[*digit]].concat())
        };
        shorter.iter().flat_map(longer).collect()
    })
}

/// Every list against every table of a few.
#[test]
fn lists_for_another_table() {
    let seed = seed(30_306);
    println!("seed {seed}: 70 automata");
    let mut comparer = Comparer::new("lists for another table");
    let mut random = Random::new(seed);
    let closed: Vec<Closed> = (0..70).map(|_| Closed::random(&mut random, 400)).collect();
    for (first, one) in closed.iter().enumerate() {
        for (second, other) in closed.iter().enumerate() {
            let case = format_args!("seed {seed} table {first} list {second}");
            comparer.regions(case, &one.table, &other.list(&other.rows));
        }
    }
    comparer.finish(&[0, 7, 8, 15, 16, 17]);
}

/// Edges that lead from every row to nearly every row, and each row left out.
#[test]
fn edges_to_nearly_all_rows() {
    let seed = seed(30_307);
    println!("seed {seed}");
    let mut comparer = Comparer::new("edges to nearly all rows");
    let mut random = Random::new(seed);
    for bounds in [&[5][..], &[2, 1], &[1, 1, 1], &[1, 0, 1, 0], &[1, 1, 1, 1]] {
        let updates = |random: &mut Random| -> Vec<Update> {
            (0..bounds.len())
                .map(|own| match random.below(6) {
                    0 => constant(AtLeast, 0),
                    1 => constant(AtMost, bounds[own]),
                    2 => constant(NotEqual, bounds[own]),
                    3 => clock(AtLeast, own as u8, 0),
                    4 => clock(Greater, own as u8, 0),
                    _ => clock(NotEqual, own as u8, 0),
                })
                .collect()
        };
        let edges = (0..12).map(|_| edge(0, 0, &[], &updates(&mut random)));
        let automaton = automaton(bounds, &[false], edges.collect());
        let rows = all_rows(&automaton, 4_096).unwrap();
        let closed = Closed::new(automaton, rows);
        let case = format_args!("seed {seed} bounds {bounds:?}");
        closed.accepted(&mut comparer, case, &closed.rows);
        for index in 0..closed.rows.len() {
            let case = format_args!("{case} without {index}");
            closed.met(&mut comparer, case, &closed.without(index));
        }
    }
    comparer.finish(&[0, 16, 17]);
}

/// An update that keeps the clock or compares it with some clock by any comparison.
fn comparing(random: &mut Random, bounds: &[u8], own: usize) -> Update {
    if random.once_in(3) {
        return Update::Keep;
    }
    let other = random.below(bounds.len());
    let offset = tables::least_offset(bounds, own, other) + random.below(3) as i16;
    clock(random.pick(&Comparison::ALL), other as u8, offset)
}

/// Edges that compare clocks with clocks, so that they lead further from some rows
/// than from others, and each row left out.
#[test]
fn edges_that_compare_clocks() {
    let seed = seed(30_309);
    println!("seed {seed}: 600 automata");
    let mut comparer = Comparer::new("edges that compare clocks");
    for number in 0..600 {
        let mut random = Random::of_case(seed, number);
        let bounds = random.pick(&[&[5][..], &[2, 1], &[3, 3], &[1, 1, 1], &[1, 0, 1, 1]]);
        let edges = (0..1 + random.below(3)).map(|_| {
            let updates = (0..bounds.len()).map(|own| comparing(&mut random, bounds, own));
            edge(0, 0, &[], &updates.collect::<Vec<_>>())
        });
        let automaton = automaton(bounds, &[false], edges.collect());
        let starts = [
            Region::initial(&automaton),
            rows::row(&mut random, &automaton),
        ];
        let found = closure_from(&automaton, &starts, 300);
        let Some(rows) = found.closed_list() else {
            continue;
        };
        let closed = Closed::new(automaton.clone(), rows.to_vec());
        let case = format_args!("seed {seed} case {number}");
        closed.accepted(&mut comparer, case, &closed.rows);
        for index in 0..closed.rows.len() {
            let case = format_args!("seed {seed} case {number} without {index}");
            closed.met(&mut comparer, case, &closed.without(index));
        }
    }
    comparer.finish_with_positions(&[0, 16, 17], &[17]);
}

/// Location 0 with the rows that waiting leads to from the initial row and from another, an edge
/// from there that leaves choices out, and location 1 with all of its rows: a closed list, of which
/// the edge asks for some rows, and for others between them it does not.
fn all_rows_behind_an_edge(random: &mut Random, clocks: usize) -> Closed {
    let (automaton, row) = edge_that_leaves_out(random, clocks, 1);
    let starts = [Region::initial(&automaton), row];
    let mut rows = closure_from(&automaton, &starts, 20_000).rows;
    rows.retain(|row| row.location() == 0);
    let all = all_rows(&automaton, 20_000).unwrap();
    rows.extend(all.iter().filter(|row| row.location() == 1));
    Closed::new(automaton, rows)
}

/// What came of lists that lack rows of the target.
#[derive(Debug, Default)]
struct Missed {
    one: usize,
    several: usize,
    none: usize,
}

/// Each row of the target left out, in large lists fewer of them, and all rows with it from which
/// waiting leads to it. So no row is missed by waiting: the list is refused just where the edge
/// leads to one that is left out, and at a row of its source.
fn leave_out_each(comparer: &mut Comparer, case: fmt::Arguments, closed: &Closed) -> Missed {
    let automaton = &closed.automaton;
    let first = closed.rows.partition_point(|row| row.location() == 0);
    let (sources, targets) = closed.rows.split_at(first);
    let next_of = |row: &Region| NextRows::new(automaton, &automaton.edges[0], *row);
    let led_to: BTreeSet<Region> = sources.iter().flat_map(next_of).collect();
    let wait_of = |row: &Region| Some((*row, row.time_successor(&automaton.bounds)?));
    let waits: Vec<(Region, Region)> = targets.iter().filter_map(wait_of).collect();
    let mut missed = Missed::default();
    for (index, row) in targets.iter().enumerate() {
        let once_in = if led_to.contains(row) { 2 } else { 8 };
        if targets.len() > 150 && index % once_in > 0 {
            continue;
        }
        let left_out = all_waiting_for(*row, &waits);
        let without = closed.rows.iter().filter(|row| !left_out.contains(row));
        let without: Vec<Region> = without.copied().collect();
        let case = format_args!("{case} without {left_out:?}");
        let met = comparer.regions(case, &closed.table, &closed.list(&without));
        match led_to.intersection(&left_out).count() {
            0 => {
                missed.none += 1;
                assert_eq!((met.number, met.place), (0, without.len() as u32), "{case}");
            }
            count => {
                missed.one += usize::from(count == 1);
                missed.several += usize::from(count > 1);
                let is_source = (1..=sources.len() as u32).contains(&met.place);
                assert!(met.number == 17 && is_source, "{case}: {met:?}");
            }
        }
    }
    missed
}

/// A row, and all rows from which waiting leads to it in the end, by pairs of a row and the next.
fn all_waiting_for(row: Region, waits: &[(Region, Region)]) -> BTreeSet<Region> {
    let mut found = BTreeSet::from([row]);
    loop {
        let before = found.len();
        for (row, next) in waits {
            if found.contains(next) {
                found.insert(*row);
            }
        }
        if found.len() == before {
            return found;
        }
    }
}

#[test]
fn edges_that_leave_choices_out() {
    let seed = seed(30_312);
    println!("seed {seed}: 50 automata for each number of clocks");
    let mut comparer = Comparer::new("edges that leave choices out");
    for clocks in 1..=4 {
        let mut total = Missed::default();
        for number in 0..50 {
            let closed = all_rows_behind_an_edge(&mut Random::of_case(seed, number), clocks);
            let case = format_args!("seed {seed} case {number} of {clocks} clocks");
            closed.accepted(&mut comparer, case, &closed.rows);
            let missed = leave_out_each(&mut comparer, case, &closed);
            total.one += missed.one;
            total.several += missed.several;
            total.none += missed.none;
        }
        println!("{clocks} clocks: {total:?}");
        assert!(total.one > 10 && total.several > 10 && total.none > 10);
    }
    comparer.finish(&[0, 17]);
}

/// Every spoiled form of the list with the table whole, and the other way round.
#[test]
fn every_spoiled_form() {
    let seed = seed(30_308);
    println!("seed {seed}");
    let mut comparer = Comparer::new("every spoiled form of region lists");
    for number in 0..24 {
        let closed = Closed::random(&mut Random::of_case(seed, number), 60);
        let table = table_records(&closed.automaton);
        let list = region_records(closed.automaton.clocks(), &closed.rows);
        let (whole_table, whole_list) = (table.concat(), list.concat());
        each_spoiled(&list, &mut |change, spoiled| {
            let case = format_args!("seed {seed} case {number} list {change}");
            comparer.regions(case, &whole_table, spoiled);
        });
        each_spoiled(&table, &mut |change, spoiled| {
            let case = format_args!("seed {seed} case {number} table {change}");
            comparer.regions(case, spoiled, &whole_list);
        });
    }
    comparer.finish_with_positions(OF_REGIONS, &[1, 3, 5, 6, 7, 8, 14, 17]);
}

/// Empty files, files exchanged or of another kind, files of a megabyte.
#[test]
fn odd_files() {
    let seed = seed(30_309);
    println!("seed {seed}");
    let mut comparer = Comparer::new("odd files as region lists");
    let closed = Closed::random(&mut Random::new(seed), 200);
    let (table, list) = (&closed.table, closed.list(&closed.rows));
    each_odd_file(&list, &mut |change, file| {
        comparer.regions(format_args!("list: {change}"), table, file);
        comparer.regions(format_args!("both: {change}"), file, file);
    });
    each_odd_file(table, &mut |change, file| {
        comparer.regions(format_args!("table: {change}"), file, &list);
    });
    for case in 0..2_000 {
        let mut random = Random::of_case(seed, case);
        let pair = regions_case(&mut random, LARGE_ONCE_IN);
        let other = regions_case(&mut random, LARGE_ONCE_IN);
        let run = run_case(&mut random, LARGE_ONCE_IN);
        let text = format_args!("seed {seed} case {case}");
        comparer.regions(text, &pair.list, &pair.table);
        comparer.regions(text, &pair.table, &pair.table);
        comparer.regions(text, &pair.table, &other.list);
        comparer.regions(text, &run.table, &run.list);
    }
    comparer.finish(&[1, 4, 7, 8, 9, 14, 15, 16, 17]);
}

/// The rest of a list lies right behind each cut; it makes no difference.
#[test]
fn nothing_behind_the_end_is_read() {
    let seed = seed(30_310);
    println!("seed {seed}");
    for case in 0..200 {
        let mut pair = regions_case(&mut Random::of_case(seed, case), 1_000);
        for length in 0..pair.list.len().min(400) {
            let rules = tzelmaruf_tester::check_regions(&pair.table, &pair.list[..length]);
            let answer = library::check_regions(&mut pair.table, &mut pair.list[..length]);
            assert_eq!(
                answer,
                rules.packed(),
                "seed {seed} case {case} cut at {length}: {answer:#x} {rules:?} {} {}",
                hex(&pair.table),
                hex(&pair.list)
            );
        }
    }
}

/// Large automata of every size, with lists that are too short to be closed.
#[test]
fn tables_of_any_size() {
    let seed = seed(30_311);
    println!("seed {seed}: 400 automata");
    let mut comparer = Comparer::new("tables of any size");
    for number in 0..400 {
        let mut random = Random::of_case(seed, number);
        let shape = Shape::any(&mut random);
        let mut automaton = tables::admitted(&mut random, shape);
        automaton
            .locations
            .iter_mut()
            .for_each(|l| l.is_final = false);
        let found = closure(&automaton, 4_096).rows;
        let list = encode_regions(automaton.clocks(), &found);
        let case = format_args!("seed {seed} case {number}");
        comparer.regions(case, &encode_table(&automaton), &list);
    }
    comparer.finish(&[0, 17]);
}
