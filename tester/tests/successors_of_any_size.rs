//! The next rows of an edge for all sizes of the format, against numbers: each
//! row found is reached by a run, and each point a run reaches is in a row found.

mod common;
use common::hex;

use tzelmaruf_tester::automaton::Automaton;
use tzelmaruf_tester::concrete::ConcreteRun;
use tzelmaruf_tester::explore::{Move, PathStep};
use tzelmaruf_tester::format::encode_table;
use tzelmaruf_tester::generate::{lists, rows, seed, tables, Random, Shape};
use tzelmaruf_tester::region::{region_of, Region};
use tzelmaruf_tester::run::{guards_hold, updates_allow};
use tzelmaruf_tester::successor::NextRows;

fn describe(automaton: &Automaton, row: Region) -> String {
    let table = encode_table(automaton);
    let record = row.record(automaton.clocks());
    format!("table {} row {}", hex(&table), hex(&record))
}

/// Few locations, so that edges follow on each other; else any size once in two.
fn shape(random: &mut Random) -> Shape {
    let locations = 1 + random.below(3);
    let edges = 1 + random.below(8);
    Shape {
        locations,
        edges,
        ..Shape::biased(random, 2)
    }
}

#[test]
fn each_row_found_is_reached() {
    let seed = seed(20_201);
    let mut random = Random::new(seed);
    let (mut edges, mut rows) = (0, 0);
    for _ in 0..6_000 {
        let shape = shape(&mut random);
        let automaton = tables::admitted(&mut random, shape);
        let (path, row) = random_path(&mut random, &automaton);
        for (number, edge) in automaton.edges.iter().enumerate() {
            let next: Vec<Region> = NextRows::new(&automaton, edge, row).take(3_000).collect();
            let case = format!("seed {seed}: edge {number} {}", describe(&automaton, row));
            let ascending = next.windows(2).all(|pair| pair[0] < pair[1]);
            assert!(ascending, "{case}");
            edges += 1;
            for _ in 0..next.len().min(4) {
                let to = random.pick(&next);
                assert_reached(&automaton, &path, number as u16, to, &case);
                rows += 1;
            }
        }
    }
    assert!(rows > 10_000, "seed {seed}: only {rows} rows");
    println!("seed {seed}: {edges} edges, {rows} rows reached");
}

/// A few random moves from the initial row, edges where one can be taken.
fn random_path(random: &mut Random, automaton: &Automaton) -> (Vec<PathStep>, Region) {
    let mut row = Region::initial(automaton);
    let mut path = Vec::new();
    for _ in 0..random.below(20) {
        let number = random.below(2 * automaton.edges.len());
        let by_edge = automaton.edges.get(number).and_then(|edge| {
            let next: Vec<Region> = NextRows::new(automaton, edge, row).take(500).collect();
            let by = Move::Edge(number as u16);
            (!next.is_empty()).then(|| PathStep {
                by,
                to: random.pick(&next),
            })
        });
        let by = Move::Wait;
        let by_waiting = row.time_successor(&automaton.bounds);
        let by_waiting = by_waiting.map(|to| PathStep { by, to });
        if let Some(step) = by_edge.or(by_waiting) {
            row = step.to;
            path.push(step);
        }
    }
    (path, row)
}

/// Makes the path and one more edge concrete and holds it against the rule for runs.
fn assert_reached(automaton: &Automaton, path: &[PathStep], edge: u16, to: Region, case: &str) {
    let by = Move::Edge(edge);
    let path = [path, &[PathStep { by, to }]].concat();
    let run = ConcreteRun::along(automaton, &path);
    let taken = path.iter().filter(|step| step.by != Move::Wait);
    let scale = run.scale as i64;
    let mut values = vec![0_i64; automaton.clocks()];
    let mut steps = 0;
    for (step, expected) in run.steps.iter().zip(taken) {
        let edge = &automaton.edges[usize::from(step.edge)];
        let waited: Vec<i64> = values.iter().map(|v| v + step.delay as i64).collect();
        let new: Vec<i64> = step.values.iter().map(|v| *v as i64).collect();
        assert!(guards_hold(&edge.guards, &waited, scale), "{case}");
        assert!(updates_allow(&edge.updates, &waited, &new, scale), "{case}");
        let contained = expected.to.contains(&automaton.bounds, &new, scale);
        assert!(contained, "{case} to {:?} values {new:?}", expected.to);
        values = new;
        steps += 1;
    }
    assert!(steps > 0, "{case}");
}

#[test]
fn each_point_reached_is_in_a_row_found() {
    const MOST: usize = 20_000;
    let seed = seed(20_202);
    let mut random = Random::new(seed);
    let mut points = 0;
    for _ in 0..6_000 {
        let shape = Shape {
            edges: 1,
            locations: 1,
            greatest_guards: 0,
            ..Shape::biased(&mut random, 2)
        };
        let automaton = tables::admitted(&mut random, shape);
        let edge = &automaton.edges[0];
        let scale = random.between(1, 40);
        let old = rows::point(&mut random, &automaton.bounds, scale);
        let row = region_of(0, &automaton.bounds, &old, scale);
        let next: Vec<Region> = NextRows::new(&automaton, edge, row)
            .take(MOST + 1)
            .collect();
        for _ in 0..6 {
            let new: Option<Vec<i64>> = (0..old.len())
                .map(|z| lists::allowed_value(&mut random, edge.updates[z], z, &old, scale))
                .collect();
            let Some(new) = new else { break };
            let reached = region_of(0, &automaton.bounds, &new, scale);
            // Rows beyond those collected cannot be told.
            let beyond = next.len() > MOST && reached > next[MOST];
            let found = next.binary_search(&reached).is_ok();
            let case = describe(&automaton, row);
            assert!(
                beyond || found,
                "seed {seed}: {case} values {new:?} scale {scale}"
            );
            points += usize::from(!beyond);
        }
    }
    assert!(points > 10_000, "seed {seed}: only {points} points");
    println!("seed {seed}: {points} points");
}
