//! Long paths of regions made concrete, and the largest files the format has.

mod common;
use common::*;

use tzelmaruf_tester::answer::Answer;
use tzelmaruf_tester::automaton::{Comparison, Update};
use tzelmaruf_tester::concrete::ConcreteRun;
use tzelmaruf_tester::explore::closure;
use tzelmaruf_tester::format::encode_table;
use tzelmaruf_tester::generate::{seed, tables, Random, Shape};
use tzelmaruf_tester::region::{all_rows, Region};
use tzelmaruf_tester::region_list::encode_regions;
use tzelmaruf_tester::run::encode_run;
use tzelmaruf_tester::{check_regions, check_run};

#[test]
fn long_paths_become_accepted_runs() {
    let seed = seed(20_601);
    let mut random = Random::new(seed);
    let (mut runs, mut steps, mut longest, mut greatest_scale) = (0, 0, 0, 0);
    for _ in 0..800 {
        let shape = Shape {
            clocks: 1 + random.below(4),
            locations: 1 + random.below(2),
            edges: 2 + random.below(10),
            greatest_bound: 1 + random.below(12) as u8,
            greatest_guards: 1,
            comparisons: &Comparison::ALL,
        };
        let mut automaton = tables::admitted(&mut random, shape);
        let (path, end) = long_path(&mut random, &automaton, 600);
        let run = ConcreteRun::along(&automaton, &path);
        automaton.locations[usize::from(end)].is_final = true;
        let Some(list) = run.scaled(1) else { continue };
        let table = encode_table(&automaton);
        let file = encode_run(&list);
        let answer = check_run(&table, &file);
        let expected = Answer::Accepted(list.steps.len() as u32);
        let case = format!("table {} list {}", hex(&table), hex(&file));
        assert_eq!(answer, expected, "seed {seed}: {case}");
        runs += 1;
        steps += list.steps.len();
        longest = longest.max(list.steps.len());
        greatest_scale = greatest_scale.max(list.scale);
    }
    println!("seed {seed}: {runs} runs, {steps} steps, longest {longest}, scale {greatest_scale}");
    assert!(runs > 500 && longest > 300 && greatest_scale > 200);
}

/// 2,048 steps at scale 10,000, and one more.
#[test]
fn longest_run() {
    let looping = edge(0, 0, &[guard(0, Less, 1)], &[constant(Less, 1); 4]);
    let table = encode_table(&automaton(&[1; 4], &[true], vec![looping]));
    let steps = |count: usize| {
        let step = tzelmaruf_tester::run::Step {
            edge: 0,
            delay: 3,
            values: vec![9_996, 0, 1, 9_999],
        };
        let scale = 10_000;
        let steps = vec![step; count];
        encode_run(&tzelmaruf_tester::run::Run { scale, steps })
    };
    assert_eq!(check_run(&table, &steps(2_048)), Answer::Accepted(2_048));
    assert_eq!(check_run(&table, &steps(2_049)), refused(8, 0));
    let mut list = steps(2_048);
    let last_value = list.len() - 16;
    list[last_value + 3] += 5;
    assert_eq!(check_run(&table, &list), refused(12, 2_048));
}

/// 4,096 rows, the most a list has: 64 locations of 64 intervals, joined by 256 edges.
#[test]
fn longest_list() {
    let edges: Vec<_> = (0..=255_u8)
        .map(|number| {
            let updates = [constant(AtLeast, number % 32)];
            edge(number % 64, number.wrapping_mul(7) % 64, &[], &updates)
        })
        .collect();
    let automaton = automaton(&[31], &[false; 64], edges);
    let table = encode_table(&automaton);
    let rows = all_rows(&automaton, 4_096).unwrap();
    assert_eq!(rows.len(), 4_096);
    let answer = check_regions(&table, &encode_regions(1, &rows));
    assert_eq!(answer, Answer::Accepted(4_096));
    // All that lead to the last row: its neighbour by waiting, and location 9 by edges 9, 73, ..
    let shorter = check_regions(&table, &encode_regions(1, &rows[..4_095]));
    assert_eq!(shorter, refused(17, 9 * 64 + 1));
}

/// All rows of four clocks in one location, and 256 edges that keep or set them.
#[test]
fn many_edges_on_many_rows() {
    let seed = seed(20_602);
    let mut random = Random::new(seed);
    println!("seed {seed}");
    let edges: Vec<_> = (0..256)
        .map(|_| {
            let updates: Vec<Update> = (0..4)
                .map(|own| match random.below(3) {
                    0 => Update::Keep,
                    1 => constant(Equal, random.below(2) as u8),
                    _ => clock(
                        Equal,
                        random.below(4) as u8,
                        random.below(2) as i16 + (own == 0) as i16,
                    ),
                })
                .collect();
            edge(0, 0, &[], &updates)
        })
        .collect();
    let automaton = automaton(&[2, 1, 1, 1], &[false], edges);
    let table = encode_table(&automaton);
    let rows = all_rows(&automaton, 4_096).unwrap();
    println!(
        "{} rows, closure {}",
        rows.len(),
        closure(&automaton, 4_096).rows.len()
    );
    let answer = check_regions(&table, &encode_regions(4, &rows));
    assert_eq!(answer, Answer::Accepted(rows.len() as u32), "seed {seed}");
}

/// An edge with some forty thousand million next rows: a count of them all
/// would not end, so the test ends only if counting stops at the first row too many.
#[test]
fn counting_stops_early() {
    let wide = edge(0, 0, &[], &[constant(AtLeast, 0); 4]);
    let automaton = automaton(&[127; 4], &[false], vec![wide]);
    let table = encode_table(&automaton);
    let row = Region::initial(&automaton).record(4);
    let mut buffer = vec![0xAA; 11 * 4_096];
    let answer = tzelmaruf_tester::follow(&table, &row, 0, &mut buffer);
    assert_eq!(answer, refused(19, 0));
    assert!(buffer.iter().all(|byte| *byte == 0xAA));
    let list = encode_regions(4, &[Region::initial(&automaton)]);
    assert_eq!(check_regions(&table, &list), refused(17, 1));
}
