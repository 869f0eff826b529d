//! The checker's admission of tables against the rules.

mod common;
use common::*;

use tzelmaruf_tester::automaton::{Automaton, Comparison, Update};
use tzelmaruf_tester::compare::Comparer;
use tzelmaruf_tester::format::{encode_table, table_records};
use tzelmaruf_tester::generate::damage::damage;
use tzelmaruf_tester::generate::systematic::*;
use tzelmaruf_tester::generate::{admit_case, regions_case, run_case, seed, tables, Random, Shape};
use tzelmaruf_tester::tally::OF_ADMISSION;
use tzelmaruf_tester::{library, needs_checker};

needs_checker!();

const CASES: u64 = 200_000;
const LARGE_ONCE_IN: usize = 50;

/// The least table, one with everything in it, and some random ones.
fn some_tables(random: &mut Random, count: usize) -> Vec<Automaton> {
    let mut automata = vec![automaton(&[0], &[false], vec![]), with_everything()];
    automata.extend((0..count).map(|_| {
        let shape = Shape::small(random);
        tables::admitted(random, shape)
    }));
    automata
}

/// Four clocks, every kind of update, from no guard to eight.
fn with_everything() -> Automaton {
    let guards: Vec<_> = (0..8)
        .map(|index| {
            guard(
                index % 4,
                Comparison::ALL[usize::from(index) % Comparison::ALL.len()],
                index % 3,
            )
        })
        .collect();
    let updates = [
        Update::Keep,
        constant(AtMost, 2),
        clock(Greater, 0, -1),
        clock(Equal, 3, 0),
    ];
    let edges = vec![
        edge(0, 1, &guards, &updates),
        edge(2, 2, &[], &[Update::Keep; 4]),
        edge(
            1,
            0,
            &guards[..1],
            &[clock(Less, 1, 1), updates[1], updates[2], updates[0]],
        ),
    ];
    automaton(&[3, 2, 2, 2], &[false, true, false], edges)
}

#[test]
fn random_tables() {
    let seed = seed(30_101);
    println!("seed {seed}: {CASES} cases");
    let mut comparer = Comparer::new("random tables");
    for case in 0..CASES {
        let table = admit_case(&mut Random::of_case(seed, case), LARGE_ONCE_IN);
        comparer.admit(format_args!("seed {seed} case {case}"), &table);
    }
    comparer.finish_with_positions(OF_ADMISSION, &[1, 3, 5, 6]);
}

/// Two faults in one table: the order of the refusals decides.
#[test]
fn two_faults() {
    let seed = seed(30_102);
    println!("seed {seed}: 60000 cases");
    let mut comparer = Comparer::new("two faults");
    for case in 0..60_000 {
        let mut random = Random::of_case(seed, case);
        let shape = Shape::small(&mut random);
        let first = tables::nearly_admitted(&mut random, shape);
        let table = encode_table(&first);
        let mut spoiled = damage(&mut random, &table, &table);
        if random.once_in(2) {
            spoiled = damage(&mut random, &spoiled, &table);
        }
        comparer.admit(format_args!("seed {seed} case {case}"), &spoiled);
    }
    comparer.finish_with_positions(OF_ADMISSION, &[1, 3, 5, 6]);
}

#[test]
fn every_spoiled_form() {
    let seed = seed(30_103);
    println!("seed {seed}");
    let mut comparer = Comparer::new("every spoiled form of tables");
    let mut random = Random::new(seed);
    for (index, automaton) in some_tables(&mut random, 30).iter().enumerate() {
        let records = table_records(automaton);
        comparer.admit(format_args!("table {index}"), &records.concat());
        each_spoiled(&records, &mut |change, spoiled| {
            comparer.admit(format_args!("seed {seed} table {index} {change}"), spoiled);
        });
    }
    comparer.finish_with_positions(OF_ADMISSION, &[1, 3, 5, 6]);
}

#[test]
fn every_value_of_every_byte() {
    let mut comparer = Comparer::new("every value of every byte of tables");
    let table = encode_table(&with_everything());
    each_value(&table, &mut |change, spoiled| {
        comparer.admit(change, spoiled);
    });
    comparer.finish(&[0, 1, 2, 3, 4, 5, 6]);
}

/// 64 locations, 256 edges of eight guards and four clocks: every cut and change.
#[test]
fn largest_table() {
    let seed = seed(30_104);
    println!("seed {seed}");
    let mut comparer = Comparer::new("largest table");
    let mut random = Random::new(seed);
    let mut largest = tables::admitted(&mut random, Shape::greatest());
    for edge in &mut largest.edges {
        while edge.guards.len() < 8 {
            edge.guards
                .push(tables::guard(&mut random, &largest.bounds));
        }
    }
    let table = encode_table(&largest);
    let met = comparer.admit(format_args!("whole"), &table);
    assert_eq!((met.number, met.place), (0, 321));
    let mut see = |change: std::fmt::Arguments, spoiled: &[u8]| {
        comparer.admit(format_args!("seed {seed} {change}"), spoiled);
    };
    each_cut(&table, &mut see);
    each_change(&table, &mut see);
    each_excess(&table, &mut see);
    comparer.finish_with_positions(OF_ADMISSION, &[1, 3, 5, 6]);
}

/// Guards, constants and offsets right at the bounds and one beyond, in range or not, by every
/// comparison.
#[test]
fn bound_rules_at_their_limits() {
    let mut comparer = Comparer::new("bound rules");
    let bounds = [0, 1, 2, 63, 64, 126, 127];
    for own in bounds {
        for other in bounds {
            for comparison in Comparison::ALL {
                bound_rules_of(&mut comparer, comparison, own, other);
            }
        }
    }
    comparer.finish(&[0, 3, 5, 6]);
}

fn bound_rules_of(comparer: &mut Comparer, comparison: Comparison, own: u8, other: u8) {
    let with = |guards: &[_], update| {
        let edges = vec![edge(0, 0, guards, &[update, Update::Keep])];
        encode_table(&automaton(&[own, other], &[false], edges))
    };
    for constant_value in [0, own.saturating_sub(1), own, own + 1, 127, 128, 255] {
        let case = format_args!("{comparison:?} bound {own} constant {constant_value}");
        let guards = [guard(0, comparison, constant_value)];
        comparer.admit(case, &with(&guards, Update::Keep));
        comparer.admit(case, &with(&[], constant(comparison, constant_value)));
    }
    let least = tables::least_offset(&[own, other], 0, 1);
    let offsets = [least - 1, least, least + 1, -128, -127, 0, 127, 128];
    for offset in offsets.into_iter().chain([i16::MIN, i16::MAX]) {
        let case = format_args!("{comparison:?} bounds {own} {other} offset {offset}");
        comparer.admit(case, &with(&[], clock(comparison, 1, offset)));
        comparer.admit(case, &with(&[], clock(comparison, 0, offset)));
    }
}

/// Empty files, files of another kind, files of a megabyte.
#[test]
fn odd_files() {
    let seed = seed(30_105);
    println!("seed {seed}");
    let mut comparer = Comparer::new("odd files as tables");
    let mut random = Random::new(seed);
    for automaton in some_tables(&mut random, 2) {
        let table = encode_table(&automaton);
        each_odd_file(&table, &mut |change, file| {
            comparer.admit(format_args!("seed {seed} {change}"), file);
        });
    }
    for case in 0..2_000 {
        let mut random = Random::of_case(seed, case);
        let run = run_case(&mut random, LARGE_ONCE_IN).list;
        let regions = regions_case(&mut random, LARGE_ONCE_IN).list;
        comparer.admit(format_args!("seed {seed} run list {case}"), &run);
        comparer.admit(format_args!("seed {seed} region list {case}"), &regions);
    }
    comparer.finish(&[1, 4]);
}

/// The rest of a table lies right behind each cut; it makes no difference.
#[test]
fn nothing_behind_the_end_is_read() {
    let seed = seed(30_106);
    println!("seed {seed}");
    let mut random = Random::new(seed);
    for automaton in some_tables(&mut random, 100) {
        let mut table = encode_table(&automaton);
        for length in 0..table.len() {
            let rules = tzelmaruf_tester::admit(&table[..length]).packed();
            let answer = library::admit(&mut table[..length]);
            assert_eq!(
                answer,
                rules,
                "seed {seed}: {} cut at {length}",
                hex(&table)
            );
        }
    }
}
