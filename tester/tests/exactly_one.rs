//! Of a run into a final location and a closed list a table has exactly one.

mod common;
use common::{far_automaton, hex, refused};

use tzelmaruf_tester::answer::Answer;
use tzelmaruf_tester::explore::{closure, closure_from, Closure};
use tzelmaruf_tester::format::encode_table;
use tzelmaruf_tester::generate::{lists, rows, seed, Random};
use tzelmaruf_tester::region::{all_rows, region_of, Region};
use tzelmaruf_tester::region_list::{encode_regions, lacking_places};
use tzelmaruf_tester::run::{encode_run, Run};
use tzelmaruf_tester::{check_regions, check_run, Automaton};

const CAP: usize = 4_096;

#[derive(Default, Debug)]
struct Tally {
    runs: usize,
    runs_of_three_steps: usize,
    most_steps: usize,
    scaled_runs: usize,
    closed_lists: usize,
    shortened_lists: usize,
    extended_lists: usize,
    sound_runs: usize,
    capped: usize,
}

/// An automaton, its files and its closure, with the text for a failure.
struct Subject {
    automaton: Automaton,
    table: Vec<u8>,
    closure: Closure,
    case: String,
}

impl Subject {
    fn new(random: &mut Random, seed: u64) -> Subject {
        let automaton = far_automaton(random);
        let table = encode_table(&automaton);
        let closure = closure(&automaton, CAP);
        let case = format!("seed {seed}: table {}", hex(&table));
        Subject {
            automaton,
            table,
            closure,
            case,
        }
    }

    fn check_rows(&self, rows: &[Region]) -> Answer {
        check_regions(&self.table, &encode_regions(self.automaton.clocks(), rows))
    }
}

#[test]
fn a_run_or_a_closed_list() {
    let seed = seed(20_401);
    let mut random = Random::new(seed);
    let mut tally = Tally::default();
    for _ in 0..24_000 {
        let subject = Subject::new(&mut random, seed);
        if subject.closure.is_capped {
            tally.capped += 1;
        } else if subject.closure.path_to_final.is_some() {
            has_a_run(&mut random, &subject, &mut tally);
        } else {
            has_a_closed_list(&mut random, &subject, &mut tally);
        }
    }
    println!("seed {seed}: {tally:?}");
    assert!(tally.runs > 5_000 && tally.closed_lists > 5_000);
    assert!(tally.runs_of_three_steps > 400);
    assert!(tally.shortened_lists > 40_000 && tally.extended_lists > 5_000);
    assert!(tally.sound_runs > 10_000 && tally.scaled_runs > 10_000);
}

/// The concrete run is accepted at several scales, and no list is.
fn has_a_run(random: &mut Random, subject: &Subject, tally: &mut Tally) {
    let case = &subject.case;
    let concrete = subject.closure.concrete_run(&subject.automaton).unwrap();
    let most = 10_000 / concrete.scale;
    for factor in [1, 2, most, 1 + random.below(most as usize) as u64] {
        let Some(run) = concrete.scaled(factor) else {
            continue;
        };
        let steps = run.steps.len() as u32;
        let list = encode_run(&run);
        let answer = check_run(&subject.table, &list);
        assert_eq!(
            answer,
            Answer::Accepted(steps),
            "{case} list {}",
            hex(&list)
        );
        tally.scaled_runs += 1;
    }
    let steps = concrete.steps.len();
    tally.runs += 1;
    tally.runs_of_three_steps += usize::from(steps >= 3);
    tally.most_steps = tally.most_steps.max(steps);
    no_list_is_closed(subject);
}

/// A closed list would have every row of the closure and no final one. Neither
/// the closure, nor it without final rows, nor all rows that aren't final will do.
fn no_list_is_closed(subject: &Subject) {
    let Subject {
        automaton, case, ..
    } = subject;
    let not_final = |row: &Region| !automaton.is_final(row.location());
    let closure = &subject.closure.rows;
    let first_final = closure.iter().position(|row| !not_final(row)).unwrap();
    let whole = subject.check_rows(closure);
    assert_eq!(whole, refused(15, first_final as u16 + 1), "{case}");
    let mut lists = vec![closure.clone()];
    lists.extend(all_rows(automaton, 2_000));
    for mut list in lists {
        list.retain(not_final);
        let answer = subject.check_rows(&list);
        let initial_is_final = automaton.is_final(automaton.initial);
        match answer {
            Answer::Refused { number: 16, .. } => assert!(initial_is_final, "{case}"),
            Answer::Refused { number: 17, .. } => assert!(!initial_is_final, "{case}"),
            other => panic!("{case}: {other:?} for {list:?}"),
        }
    }
}

/// The closure is accepted, no row of it can be spared, closed supersets are
/// accepted, and no sound run gets out of it.
fn has_a_closed_list(random: &mut Random, subject: &Subject, tally: &mut Tally) {
    let rows = subject.closure.closed_list().unwrap();
    let answer = subject.check_rows(rows);
    let expected = Answer::Accepted(rows.len() as u32);
    assert_eq!(answer, expected, "{}", subject.case);
    tally.closed_lists += 1;
    no_row_can_be_spared(random, subject, rows, tally);
    for _ in 0..2 {
        extend_list(random, subject, rows, tally);
    }
    for _ in 0..4 {
        run_inside(random, subject, rows, tally);
    }
}

fn no_row_can_be_spared(
    random: &mut Random,
    subject: &Subject,
    rows: &[Region],
    tally: &mut Tally,
) {
    let initial = Region::initial(&subject.automaton);
    // All rows of a short list, some of a long one.
    let tries = rows.len().min(24);
    for index in 0..tries {
        let spared = match rows.len() == tries {
            true => index,
            false => random.below(rows.len()),
        };
        let mut list = rows.to_vec();
        let removed = list.remove(spared);
        let number = if removed == initial { 16 } else { 17 };
        let answer = subject.check_rows(&list);
        let refused = matches!(answer, Answer::Refused { number: n, .. } if n == number);
        assert!(refused, "{} without {removed:?}: {answer:?}", subject.case);
        tally.shortened_lists += 1;
    }
}

fn extend_list(random: &mut Random, subject: &Subject, rows: &[Region], tally: &mut Tally) {
    let automaton = &subject.automaton;
    let starts = [rows, &[rows::row(random, automaton)]].concat();
    let extended = closure_from(automaton, &starts, CAP);
    if extended.is_capped {
        return;
    }
    let answer = subject.check_rows(&extended.rows);
    let expected = match extended.closed_list() {
        Some(list) => Answer::Accepted(list.len() as u32),
        None => {
            let is_final = |row: &Region| automaton.is_final(row.location());
            let first = extended.rows.iter().position(is_final).unwrap();
            refused(15, first as u16 + 1)
        }
    };
    assert_eq!(
        answer,
        expected,
        "{} with {:?}",
        subject.case,
        starts.last()
    );
    tally.extended_lists += usize::from(extended.rows.len() > rows.len());
}

/// A random sound run is refused only for its end, and every point of it is in a listed row.
fn run_inside(random: &mut Random, subject: &Subject, rows: &[Region], tally: &mut Tally) {
    let automaton = &subject.automaton;
    let (run, _) = lists::sound_run(random, automaton, 12);
    let steps = run.steps.len() as u16;
    let list = encode_run(&run);
    let answer = check_run(&subject.table, &list);
    let case = format!("{} list {}", subject.case, hex(&list));
    assert_eq!(answer, refused(13, steps), "{case}");
    for (location, point) in points_of_run(automaton, &run) {
        let row = region_of(location, &automaton.bounds, &point, i64::from(run.scale));
        assert!(rows.binary_search(&row).is_ok(), "{case} {row:?}");
    }
    tally.sound_runs += usize::from(steps > 0);
}

/// Location and clocks before each wait, within it, and after it, and at the end.
fn points_of_run(automaton: &Automaton, run: &Run) -> Vec<(u8, Vec<i64>)> {
    let mut points = Vec::new();
    let mut location = automaton.initial;
    let mut values = vec![0_i64; automaton.clocks()];
    for step in &run.steps {
        let delay = i64::from(step.delay);
        for part in [0, delay / 3, delay / 2, delay] {
            points.push((location, values.iter().map(|value| value + part).collect()));
        }
        location = automaton.edges[usize::from(step.edge)].target;
        values = step.values.iter().map(|value| i64::from(*value)).collect();
    }
    points.push((location, values));
    points
}

/// The rows that lack a next row are exactly those that lead to the one that was taken out, and
/// refusal 17 is at the first of them.
#[test]
fn places_of_a_missing_row() {
    let seed = seed(20_402);
    let mut random = Random::new(seed);
    let mut tried = 0;
    for _ in 0..1_500 {
        let subject = Subject::new(&mut random, seed);
        let Some(rows) = subject.closure.closed_list() else {
            continue;
        };
        let mut list = rows.to_vec();
        let removed = list.remove(random.below(list.len()));
        if removed == Region::initial(&subject.automaton) || list.len() > 300 {
            continue;
        }
        let expected: Vec<u16> = (1..)
            .zip(&list)
            .filter(|(_, row)| leads_to(&subject.automaton, **row, removed))
            .map(|(place, _)| place)
            .collect();
        let places: Vec<u16> = lacking_places(&subject.automaton, &list).collect();
        let case = format!("{} without {removed:?}", subject.case);
        assert_eq!(places, expected, "{case}");
        assert_eq!(
            subject.check_rows(&list),
            refused(17, expected[0]),
            "{case}"
        );
        tried += 1;
    }
    assert!(tried > 300, "seed {seed}: only {tried}");
    println!("seed {seed}: {tried} lists");
}

/// By points, not by the way the check uses.
fn leads_to(automaton: &Automaton, row: Region, next: Region) -> bool {
    let by_edge = automaton.edges.iter().any(|edge| {
        edge.target == next.location()
            && tzelmaruf_tester::successor::by_points(automaton, edge, row).contains(&next)
    });
    by_edge || row.time_successor(&automaton.bounds) == Some(next)
}
