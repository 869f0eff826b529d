//! The checker's check of run lists against the rules.

mod common;
use common::*;

use std::fmt;
use tzelmaruf_tester::automaton::{Automaton, Comparison, Update};
use tzelmaruf_tester::compare::Comparer;
use tzelmaruf_tester::concrete::ConcreteRun;
use tzelmaruf_tester::explore::closure;
use tzelmaruf_tester::format::{encode_table, table_records};
use tzelmaruf_tester::generate::lists::{allowed_value, sound_run};
use tzelmaruf_tester::generate::systematic::*;
use tzelmaruf_tester::generate::{regions_case, run_case, seed, tables, Random, Shape};
use tzelmaruf_tester::run::{encode_run, run_records, Run, Step};
use tzelmaruf_tester::tally::OF_RUNS;
use tzelmaruf_tester::{library, needs_checker};

needs_checker!();

const CASES: u64 = 200_000;
const LARGE_ONCE_IN: usize = 50;

#[test]
fn random_runs() {
    let seed = seed(30_201);
    println!("seed {seed}: {CASES} cases");
    let mut comparer = Comparer::new("random runs");
    for case in 0..CASES {
        let pair = run_case(&mut Random::of_case(seed, case), LARGE_ONCE_IN);
        comparer.run(
            format_args!("seed {seed} case {case}"),
            &pair.table,
            &pair.list,
        );
    }
    comparer.finish_with_positions(OF_RUNS, &[1, 3, 5, 6, 7, 8, 10, 11, 12]);
}

/// Sees what was done to a step, the refusal due at it (0 where others may
/// come too), and the list.
type See<'see> = dyn FnMut(&str, u8, &[u8]) + 'see;

/// Every fault of one field of one step, and files that end around it.
fn spoil_step(automaton: &Automaton, run: &Run, index: usize, see: &mut See) {
    let edges = automaton.edges.len() as u16;
    let scale = u32::from(run.scale);
    let mut with = |name: &str, due: u8, change: &dyn Fn(&mut Step)| {
        let mut spoiled = run.clone();
        change(&mut spoiled.steps[index]);
        see(name, due, &encode_run(&spoiled));
    };
    for number in 0..edges.min(8) {
        with("another edge", 0, &|step| step.edge = number);
    }
    for number in [edges, 256, u16::MAX] {
        with("no edge", 8, &|step| step.edge = number);
    }
    for addend in [1, u32::MAX, scale, scale.wrapping_neg(), 1 << 31] {
        with("delay", 0, &|step| {
            step.delay = step.delay.wrapping_add(addend)
        });
        for clock in 0..automaton.clocks() {
            let changed = |step: &mut Step| {
                step.values[clock] = step.values[clock].wrapping_add(addend);
            };
            with("value", 0, &changed);
        }
    }
    for value in [0, u32::MAX] {
        with("delay", 0, &|step| step.delay = value);
        with("values", 0, &|step| step.values.fill(value));
    }
    let mut shorter = run.clone();
    shorter.steps.truncate(index + 1);
    see("ends behind the step", 0, &encode_run(&shorter));
    spoil_record(run, index + 1, see);
}

/// The record cut at every length, with a wrong mark, left out and there twice.
fn spoil_record(run: &Run, place: usize, see: &mut See) {
    let records = run_records(run);
    let before = records[..place].concat();
    let behind = records[place + 1..].concat();
    for length in 0..records[place].len() {
        let cut = [&before[..], &records[place][..length]].concat();
        see("cut inside the step", 7, &cut);
    }
    for mark in [b"RW", b"SU", b"TS", b"st"] {
        let marked = [&before[..], mark, &records[place][2..], &behind].concat();
        see("another mark", 7, &marked);
    }
    see("step left out", 0, &[&before[..], &behind].concat());
    let twice = [&before[..], &records[place], &records[place], &behind].concat();
    see("step twice", 0, &twice);
}

/// Spoils the first, a middle and the last step of a run that is accepted.
fn spoil_run(comparer: &mut Comparer, case: fmt::Arguments, automaton: &Automaton, run: &Run) {
    let table = encode_table(automaton);
    let met = comparer.run(case, &table, &encode_run(run));
    let count = run.steps.len();
    assert_eq!((met.number, met.place), (0, count as u32), "{case}");
    let mut places = vec![1, count.div_ceil(2), count];
    places.dedup();
    for place in places.into_iter().filter(|_| count > 0) {
        spoil_step(automaton, run, place - 1, &mut |change, due, list| {
            let case = format_args!("{case} step {place} {change}");
            let met = comparer.run(case, &table, list);
            if due != 0 {
                assert_eq!((met.number, met.place), (due, place as u32), "{case}");
            }
        });
    }
}

/// Runs found by a search of the regions, at the least and at the greatest scale.
#[test]
fn runs_found_by_search() {
    let seed = seed(30_202);
    println!("seed {seed}: 4000 automata");
    let mut comparer = Comparer::new("runs found by search");
    let mut at_greatest_scale = 0;
    for case in 0..4_000 {
        let mut random = Random::of_case(seed, case);
        let automaton = far_automaton(&mut random);
        let Some(found) = closure(&automaton, 2_000).concrete_run(&automaton) else {
            continue;
        };
        for factor in [1, 2, 10_000 / found.scale] {
            let Some(run) = found.scaled(factor) else {
                continue;
            };
            at_greatest_scale += usize::from(run.scale == 10_000);
            let case = format_args!("seed {seed} case {case} factor {factor}");
            spoil_run(&mut comparer, case, &automaton, &run);
        }
    }
    println!("{at_greatest_scale} runs at scale 10000");
    assert!(at_greatest_scale > 200);
    comparer.finish_with_positions(&[0, 7, 8, 9, 10, 11, 12, 13], &[10, 11, 12]);
}

/// 63 locations in a ring and a final one. Every edge needs a wait (y > 0), and
/// less than 1 may pass in all (z < 1); one edge of the ring adds 1 to x. The
/// way out is open in location 31 after 32 laps: 32 * 63 + 31 edges and one more.
fn long_ring() -> Automaton {
    let guards = [guard(1, Greater, 0), guard(2, Less, 1)];
    let mut edges: Vec<_> = (0..63)
        .map(|source| {
            let lap = match source {
                62 => clock(Equal, 0, 1),
                _ => Update::Keep,
            };
            let updates = [lap, constant(Equal, 0), Update::Keep];
            edge(source, (source + 1) % 63, &guards, &updates)
        })
        .collect();
    let way_out = [guards[0], guards[1], guard(0, Greater, 32)];
    edges.push(edge(31, 63, &way_out, &[Update::Keep; 3]));
    let finals: Vec<bool> = (0..64).map(|location| location == 63).collect();
    automaton(&[33, 0, 1], &finals, edges)
}

#[test]
fn longest_run_found_by_search() {
    let mut comparer = Comparer::new("longest run found by search");
    let automaton = long_ring();
    let closure = closure(&automaton, 200_000);
    assert!(!closure.is_capped);
    let found = closure.concrete_run(&automaton).unwrap();
    assert_eq!(found.steps.len(), 2_048);
    println!("{} rows, scale {}", closure.rows.len(), found.scale);
    for factor in [1, 10_000 / found.scale] {
        let run = found.scaled(factor).unwrap();
        let case = format_args!("factor {factor}");
        spoil_run(&mut comparer, case, &automaton, &run);
        let mut longer = run.clone();
        longer.steps.push(run.steps[0].clone());
        let met = comparer.run(case, &encode_table(&automaton), &encode_run(&longer));
        assert_eq!((met.number, met.place), (8, 0));
    }
    comparer.finish_with_positions(&[0, 7, 8, 9, 10, 11, 12, 13], &[10, 11, 12]);
}

/// A ring of three locations with a way out of each, and every kind of update.
fn short_ring() -> Automaton {
    let guards = [guard(0, AtLeast, 1), guard(0, AtMost, 2)];
    let updates = [
        constant(AtMost, 1),
        Update::Keep,
        clock(Greater, 0, -1),
        clock(Equal, 1, 3),
    ];
    let edges = (0..6).map(|number| {
        let target = if number < 3 { (number + 1) % 3 } else { 3 };
        edge(number % 3, target, &guards, &updates)
    });
    let finals = [false, false, false, true];
    automaton(&[2, 1, 1, 4], &finals, edges.collect())
}

/// A run of the short ring that goes out with its last step.
fn ring_run(random: &mut Random, automaton: &Automaton, scale: u16, count: usize) -> Run {
    let unit = i64::from(scale);
    let mut values = vec![0_i64; 4];
    let mut steps = Vec::with_capacity(count);
    for index in 0..count {
        let number = index % 3 + if index + 1 == count { 3 } else { 0 };
        let delay = random.between(unit, 2 * unit) - values[0];
        let waited: Vec<i64> = values.iter().map(|value| value + delay).collect();
        let updates = &automaton.edges[number].updates;
        values = (0..4)
            .map(|z| allowed_value(random, updates[z], z, &waited, unit).unwrap())
            .collect();
        steps.push(Step {
            edge: number as u16,
            delay: delay as u32,
            values: values.iter().map(|value| *value as u32).collect(),
        });
    }
    Run { scale, steps }
}

/// Every refusal from 7 to 13 at the first, a middle and the last step of short
/// runs and of the longest.
#[test]
fn every_refusal_at_every_step() {
    let seed = seed(30_203);
    println!("seed {seed}");
    let mut comparer = Comparer::new("every refusal at every step");
    let mut random = Random::new(seed);
    let automaton = short_ring();
    let table = encode_table(&automaton);
    for (scale, count) in [
        (1, 1),
        (3, 2),
        (7, 3),
        (10_000, 9),
        (1, 2_048),
        (10_000, 2_048),
    ] {
        let run = ring_run(&mut random, &automaton, scale, count);
        let case = format_args!("seed {seed} scale {scale} steps {count}");
        spoil_run(&mut comparer, case, &automaton, &run);
        let mut without_end = automaton.clone();
        without_end.locations[3].is_final = false;
        let met = comparer.run(case, &encode_table(&without_end), &encode_run(&run));
        assert_eq!((met.number, met.place), (13, count as u32));
        each_excess(&encode_run(&run), &mut |change, list| {
            let met = comparer.run(format_args!("{case} {change}"), &table, list);
            assert_eq!((met.number, met.place), (9, count as u32 + 1));
        });
    }
    comparer.finish_with_positions(&[0, 7, 8, 9, 10, 11, 12, 13], &[10, 11, 12]);
}

/// Long random paths of regions, made concrete.
#[test]
fn long_paths() {
    let seed = seed(30_204);
    println!("seed {seed}");
    let mut comparer = Comparer::new("long paths");
    for case in 0..150 {
        let mut random = Random::of_case(seed, case);
        let shape = Shape {
            clocks: 1 + random.below(4),
            locations: 1 + random.below(3),
            edges: 2 + random.below(10),
            greatest_bound: 1 + random.below(12) as u8,
            greatest_guards: 1,
            comparisons: &Comparison::ALL,
        };
        let mut automaton = tables::admitted(&mut random, shape);
        let (path, end) = long_path(&mut random, &automaton, 500);
        automaton.locations[usize::from(end)].is_final = true;
        if let Some(run) = ConcreteRun::along(&automaton, &path).scaled(1) {
            let case = format_args!("seed {seed} case {case}");
            spoil_run(&mut comparer, case, &automaton, &run);
        }
    }
    comparer.finish_with_positions(&[0, 7, 8, 9, 10, 11, 12, 13], &[10, 11, 12]);
}

/// The run with one clock more, which every edge lets grow. It gets as far as
/// it must, from the first step on so high that it ends `excess` above the
/// greatest value there is; upper bits are lost.
fn with_great_clock(automaton: &Automaton, run: &Run, excess: u32) -> (Automaton, Run) {
    let own = automaton.clocks() as u8;
    let mut automaton = automaton.clone();
    automaton.bounds.push(0);
    for edge in &mut automaton.edges {
        edge.updates.push(clock(AtLeast, own, 0));
    }
    let mut run = run.clone();
    let delays = run.steps.iter().skip(1).map(|step| step.delay);
    let later = delays.fold(0, u32::wrapping_add);
    let mut value = u32::MAX.wrapping_sub(later).wrapping_add(excess);
    for (index, step) in run.steps.iter_mut().enumerate() {
        if index > 0 {
            value = value.wrapping_add(step.delay);
        }
        step.values.push(value);
    }
    (automaton, run)
}

#[test]
fn great_values_in_runs_found_by_search() {
    let seed = seed(30_209);
    println!("seed {seed}: 4000 automata");
    let mut comparer = Comparer::new("runs found by search, with a value near 2^32");
    for case in 0..4_000 {
        let mut random = Random::of_case(seed, case);
        let automaton = far_automaton(&mut random);
        let closure = closure(&automaton, 2_000);
        let Some(found) = closure.concrete_run(&automaton) else {
            continue;
        };
        for factor in [1, 10_000 / found.scale] {
            let run = found.scaled(factor).filter(|run| !run.steps.is_empty());
            let Some(run) = run else { continue };
            for excess in [0, 1, u32::MAX, u32::from(run.scale)] {
                let (automaton, run) = with_great_clock(&automaton, &run, excess);
                let case = format_args!("seed {seed} case {case} excess {excess}");
                let met = comparer.run(case, &encode_table(&automaton), &encode_run(&run));
                let is_great = excess != 0 && excess != u32::MAX;
                assert!(is_great || met.number == 0, "{case}: {met:?}");
            }
        }
    }
    comparer.finish_with_positions(&[0, 12], &[12]);
}

/// Steps whose delays and values come close to 2^32 and whose sums pass it. A
/// value that would pass it is written without its upper bits.
fn great_run(random: &mut Random, automaton: &Automaton) -> (Run, u8) {
    let scale = random.pick(&[1, 2, 9_999, 10_000]);
    let leaving = automaton.leaving();
    let mut location = automaton.initial;
    let mut values = vec![0_i64; automaton.clocks()];
    let mut steps = Vec::new();
    for _ in 0..1 + random.below(5) {
        let edges = &leaving[usize::from(location)];
        if edges.is_empty() {
            break;
        }
        let number = random.pick(edges);
        let rest = u32::MAX - values.iter().copied().max().unwrap_or(0) as u32;
        let near = rest.wrapping_add(random.between(-2, 2) as u32);
        let delay = random.pick(&[0, 1, rest, near, u32::MAX, u32::from(scale)]);
        let waited: Vec<i64> = values.iter().map(|v| v + i64::from(delay)).collect();
        let updates = &automaton.edges[number].updates;
        let new: Vec<u32> = (0..waited.len())
            .map(|z| great_value(random, updates[z], z, &waited, i64::from(scale)))
            .collect();
        location = automaton.edges[number].target;
        values = new.iter().map(|value| i64::from(*value)).collect();
        let edge = number as u16;
        steps.push(Step {
            edge,
            delay,
            values: new,
        });
    }
    (Run { scale, steps }, location)
}

/// The allowed value closest to 2^32, or the one closest to what is compared
/// with; seldom one beside it.
fn great_value(random: &mut Random, update: Update, own: usize, old: &[i64], scale: i64) -> u32 {
    let (comparison, term) = update.relation(own);
    let term = term.value(old, scale);
    let greatest = i64::from(u32::MAX);
    let value = match comparison {
        Comparison::Less => (term - 1).min(greatest),
        Comparison::AtMost => term.min(greatest),
        Comparison::Equal => term,
        Comparison::AtLeast => random.pick(&[term, greatest, greatest - 1]),
        Comparison::Greater => random.pick(&[term + 1, greatest, greatest - 1]),
        Comparison::NotEqual => random.pick(&[term - 1, term + 1, greatest]),
    };
    match random.once_in(12) {
        true => (value + random.between(-1, 1)) as u32,
        false => value as u32,
    }
}

#[test]
fn great_values() {
    let seed = seed(30_205);
    println!("seed {seed}: 60000 cases");
    let mut comparer = Comparer::new("values near 2^32");
    for case in 0..60_000 {
        let mut random = Random::of_case(seed, case);
        let shape = Shape {
            greatest_guards: 1,
            greatest_bound: random.pick(&[0, 2, 127]),
            ..Shape::small(&mut random)
        };
        let mut automaton = tables::admitted(&mut random, shape);
        let (run, end) = great_run(&mut random, &automaton);
        automaton.locations[usize::from(end)].is_final = true;
        let case = format_args!("seed {seed} case {case}");
        comparer.run(case, &encode_table(&automaton), &encode_run(&run));
    }
    comparer.finish_with_positions(&[0, 11, 12], &[11, 12]);
}

/// Every spoiled form of the list with the table whole, and the other way round.
#[test]
fn every_spoiled_form() {
    let seed = seed(30_206);
    println!("seed {seed}");
    let mut comparer = Comparer::new("every spoiled form of run lists");
    for case in 0..24 {
        let mut random = Random::of_case(seed, case);
        let shape = Shape::small(&mut random);
        let mut automaton = tables::admitted(&mut random, shape);
        let (run, end) = sound_run(&mut random, &automaton, 8);
        automaton.locations[usize::from(end)].is_final = true;
        let (table, list) = (table_records(&automaton), run_records(&run));
        let (whole_table, whole_list) = (table.concat(), list.concat());
        each_spoiled(&list, &mut |change, spoiled| {
            let case = format_args!("seed {seed} case {case} list {change}");
            comparer.run(case, &whole_table, spoiled);
        });
        each_spoiled(&table, &mut |change, spoiled| {
            let case = format_args!("seed {seed} case {case} table {change}");
            comparer.run(case, spoiled, &whole_list);
        });
    }
    comparer.finish_with_positions(OF_RUNS, &[1, 3, 5, 6, 7, 8, 10, 11, 12]);
}

/// Empty files, files exchanged or of another kind, files of a megabyte.
#[test]
fn odd_files() {
    let seed = seed(30_207);
    println!("seed {seed}");
    let mut comparer = Comparer::new("odd files as run lists");
    let automaton = short_ring();
    let run = ring_run(&mut Random::new(seed), &automaton, 10, 5);
    let (table, list) = (encode_table(&automaton), encode_run(&run));
    each_odd_file(&list, &mut |change, file| {
        comparer.run(format_args!("list: {change}"), &table, file);
        comparer.run(format_args!("both: {change}"), file, file);
    });
    each_odd_file(&table, &mut |change, file| {
        comparer.run(format_args!("table: {change}"), file, &list);
    });
    for case in 0..2_000 {
        let mut random = Random::of_case(seed, case);
        let pair = run_case(&mut random, LARGE_ONCE_IN);
        let other = run_case(&mut random, LARGE_ONCE_IN);
        let regions = regions_case(&mut random, LARGE_ONCE_IN);
        let text = format_args!("seed {seed} case {case}");
        comparer.run(text, &pair.list, &pair.table);
        comparer.run(text, &pair.table, &pair.table);
        comparer.run(text, &pair.table, &other.list);
        comparer.run(text, &regions.table, &regions.list);
    }
    comparer.finish(&[1, 4, 7, 8, 9, 10, 11, 12, 13]);
}

/// The rest of a list lies right behind each cut; it makes no difference.
#[test]
fn nothing_behind_the_end_is_read() {
    let seed = seed(30_208);
    println!("seed {seed}");
    for case in 0..300 {
        let mut pair = run_case(&mut Random::of_case(seed, case), 1_000);
        for length in 0..pair.list.len().min(400) {
            let rules = tzelmaruf_tester::check_run(&pair.table, &pair.list[..length]).packed();
            let answer = library::check_run(&mut pair.table, &mut pair.list[..length]);
            assert_eq!(
                answer,
                rules,
                "seed {seed} case {case} cut at {length}: {} {}",
                hex(&pair.table),
                hex(&pair.list)
            );
        }
    }
}
