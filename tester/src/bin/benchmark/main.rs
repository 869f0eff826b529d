//! The checker's time beside that of the rules, on the same input in the same
//! run: `benchmark [REPETITIONS [PART [WORD..]]]`, to be built for release. The parts
//! are admission, run, lists, followings, refusals and, with its feature, making; without one it
//! is all of them. Words choose among the cases of a part: those that have all of them in their name.
//!
//! The two sides take turns, and the best processor time of each counts, so that
//! other work on the machine disturbs the ratio as little as it can. Refused lists take
//! turns besides with the accepted lists that they were made from.

#[cfg(feature = "making")]
mod making;

use std::cell::Cell;
use std::hint::black_box;
use std::process::ExitCode;
use tzelmaruf_tester::answer::Answer;
use tzelmaruf_tester::automaton::*;
use tzelmaruf_tester::compare::wide;
use tzelmaruf_tester::cpu_time::mean_seconds;
use tzelmaruf_tester::follow;
use tzelmaruf_tester::format::encode_table;
use tzelmaruf_tester::generate::{tables, Random, Shape};
use tzelmaruf_tester::region::Region;
use tzelmaruf_tester::run::{encode_run, Run, Step};
use tzelmaruf_tester::slow::timed::families::{set, BEFORE_NOT_EQUAL};
use tzelmaruf_tester::slow::timed::refused::{refused_lists, RefusedList};
use tzelmaruf_tester::slow::timed::{timed_lists, TimedList};
use tzelmaruf_tester::slow::Pair;
use tzelmaruf_tester::{admit, check_run, library};

/// Best seconds of a call on either side.
struct Times {
    checker: f64,
    rules: f64,
}

/// Seconds of one call, as the mean of `calls` in a row. The answer has to be `expected`.
fn seconds(calls: u32, expected: u64, call: &mut dyn FnMut() -> u64) -> f64 {
    mean_seconds(calls, &mut || assert_eq!(black_box(call()), expected))
}

/// What is asked for: how often each side is timed, and which cases.
struct Plan {
    repetitions: u32,
    words: Vec<String>,
    /// How many cases were asked for so far.
    chosen: Cell<u32>,
    /// How many of them the checker answered otherwise than the rules.
    wrong: Cell<u32>,
}

impl Plan {
    /// The effort for a case, if it is asked for.
    fn effort(&self, name: &str, calls: u32) -> Option<Effort> {
        let is_blank = |letter: char| letter.is_whitespace() || ",:".contains(letter);
        let named: Vec<&str> = name.split(is_blank).collect();
        let is_chosen = self.words.iter().all(|word| named.contains(&word.as_str()));
        self.chosen.set(self.chosen.get() + u32::from(is_chosen));
        is_chosen.then_some(Effort {
            repetitions: self.repetitions,
            calls,
        })
    }
}

/// How often each side is timed, and how many short calls make one time.
struct Effort {
    repetitions: u32,
    calls: u32,
}

fn compete(
    effort: &Effort,
    expected: u64,
    checker: &mut dyn FnMut() -> u64,
    rules: &mut dyn FnMut() -> u64,
) -> Times {
    let mut best = Times {
        checker: f64::INFINITY,
        rules: f64::INFINITY,
    };
    for _ in 0..effort.repetitions {
        best.checker = best.checker.min(seconds(effort.calls, expected, checker));
        best.rules = best.rules.min(seconds(effort.calls, expected, rules));
    }
    best
}

/// The width of the names, so that all columns stand below each other.
const WIDTH: usize = 96;

fn print(name: &str, times: &Times) {
    let Times { checker, rules } = times;
    let ratio = checker / rules;
    println!("| {name:<WIDTH$} | {checker:>11.7} | {rules:>11.7} | {ratio:>6.2} |");
}

/// The check of a list, on both sides; the answers have to be those that the list is known to get.
fn time_list(effort: &Effort, timed: &TimedList) {
    let (automaton, rows) = (timed.table(), timed.listed());
    let expected = timed.expected(&rows);
    let mut pair = Pair::new(&automaton, &rows);
    let same = pair.clone();
    let times = compete(
        effort,
        expected.packed().into(),
        &mut || pair.checker().into(),
        &mut || same.rules().packed().into(),
    );
    print(&described(timed.name, &automaton, rows.len()), &times);
}

/// A list with its size.
fn described(name: &str, automaton: &Automaton, rows: usize) -> String {
    let (clocks, edges) = (automaton.clocks(), automaton.edges.len());
    format!("{name}: {rows} rows, {clocks} clocks, {edges} edges")
}

fn time_lists(plan: &Plan) {
    for timed in timed_lists() {
        if let Some(effort) = plan.effort(timed.name, timed.calls) {
            time_list(&effort, &timed);
        }
    }
}

/// Best seconds for a refused list: the checker's, beside those for the closed list that it was made
/// from, and the rules'.
struct RefusalTimes {
    accepted: f64,
    refused: f64,
    rules: f64,
}

/// The refusal of a list beside the acceptance of the one that it was made from, in turn, and beside the
/// rules. An answer of the checker that is not due is shown, and its time all the same, so that
/// libraries can be compared that name another row.
fn time_refusal(plan: &Plan, effort: &Effort, timed: &RefusedList) {
    let lists = timed.lists();
    let (mut closed, mut open) = (lists.closed_pair(), lists.open_pair());
    let same = open.clone();
    let due = timed.expected();
    let mut answer = 0;
    let mut best = RefusalTimes {
        accepted: f64::INFINITY,
        refused: f64::INFINITY,
        rules: f64::INFINITY,
    };
    for _ in 0..effort.repetitions {
        let accepted = seconds(1, lists.closed.len() as u64, &mut || {
            closed.checker().into()
        });
        let refused = mean_seconds(effort.calls, &mut || answer = open.checker());
        let rules = seconds(1, due.packed().into(), &mut || same.rules().packed().into());
        best.accepted = best.accepted.min(accepted);
        best.refused = best.refused.min(refused);
        best.rules = best.rules.min(rules);
    }
    let mut text = described(timed.name, &lists.automaton, lists.open.len());
    text += &format!(", 17 at {}", timed.place);
    if answer != due.packed() {
        plan.wrong.set(plan.wrong.get() + 1);
        text += &format!(", answered {} at {}", answer >> 16, answer as u16);
    }
    print_refusal(&text, &best);
}

fn print_refusal(name: &str, times: &RefusalTimes) {
    let RefusalTimes {
        accepted,
        refused,
        rules,
    } = times;
    println!(
        "| {name:<WIDTH$} | {accepted:>11.7} | {refused:>11.7} | {:>6.2} | {rules:>11.7} | {:>8.2} |",
        refused / accepted,
        refused / rules
    );
}

fn time_refusals(plan: &Plan) {
    for timed in refused_lists() {
        if let Some(effort) = plan.effort(timed.name, 1) {
            time_refusal(plan, &effort, &timed);
        }
    }
}

/// The largest table there is.
fn time_admission(plan: &Plan) {
    let name = "admission of the largest table";
    let Some(effort) = plan.effort(name, 500) else {
        return;
    };
    let mut random = Random::new(30_604);
    let shape = Shape {
        comparisons: BEFORE_NOT_EQUAL,
        ..Shape::greatest()
    };
    let mut largest = tables::admitted(&mut random, shape);
    for edge in &mut largest.edges {
        while edge.guards.len() < GREATEST_GUARDS {
            let guard = tables::guard_among(&mut random, &largest.bounds, BEFORE_NOT_EQUAL);
            edge.guards.push(guard);
        }
    }
    let mut table = encode_table(&largest);
    let same = table.clone();
    let times = compete(
        &effort,
        largest.records() as u64,
        &mut || library::admit(black_box(&mut table)).into(),
        &mut || admit(black_box(&same)).packed().into(),
    );
    print(&format!("{name}, {} bytes", same.len()), &times);
}

/// An edge with eight guards and four free updates, so many times, of which the last is taken 2,048
/// times.
fn longest_run(edges: u16) -> (Automaton, Run) {
    let guard = Guard {
        clock: 0,
        comparison: Comparison::Less,
        constant: 1,
    };
    let below_one = Update::to_constant(Comparison::Less, 1);
    let looping = Edge {
        source: 0,
        target: 0,
        guards: vec![guard; GREATEST_GUARDS],
        updates: vec![below_one; 4],
    };
    let edges = vec![looping; edges.into()];
    let step = Step {
        edge: edges.len() as u16 - 1,
        delay: 3,
        values: vec![9_996, 0, 1, 9_999],
    };
    let mut automaton = Automaton::without_final(1, &[1; 4], edges);
    automaton.locations[0].is_final = true;
    let (scale, steps) = (10_000, vec![step; 2_048]);
    (automaton, Run { scale, steps })
}

fn time_run(name: &str, effort: &Effort, automaton: &Automaton, run: &Run) {
    let (mut table, mut list) = (encode_table(automaton), encode_run(run));
    let (same_table, same_list) = (table.clone(), list.clone());
    let times = compete(
        effort,
        run.steps.len() as u64,
        &mut || library::check_run(black_box(&mut table), black_box(&mut list)).into(),
        &mut || {
            let answer = check_run(black_box(&same_table), black_box(&same_list));
            answer.packed().into()
        },
    );
    print(name, &times);
}

fn time_runs(plan: &Plan) {
    for (name, edges) in [
        ("run of 2,048 steps", 1),
        ("run of 2,048 steps, always the last of 256 edges", 256),
    ] {
        if let Some(effort) = plan.effort(name, 200) {
            let (automaton, run) = longest_run(edges);
            time_run(name, &effort, &automaton, &run);
        }
    }
}

/// Following the only edge of a table from one row into one buffer, on both sides. Both sides count
/// the next rows and then go over them again to write them; the buffers are there before, and in the
/// end every byte of them has to be the same.
fn time_following(name: &str, effort: &Effort, automaton: &Automaton, row: Region, room: usize) {
    let (mut table, mut record) = (encode_table(automaton), row.record(automaton.clocks()));
    let (same_table, same_record) = (table.clone(), record.clone());
    let mut filled = vec![0xA5; room];
    let mut expected = filled.clone();
    let answer = follow(&table, &record, 0, &mut expected);
    let times = compete(
        effort,
        wide(answer),
        &mut || {
            let (table, record) = (black_box(&mut table), black_box(&mut record));
            library::follow(table, record, 0, black_box(&mut filled))
        },
        &mut || {
            let (table, record) = (black_box(&same_table), black_box(&same_record));
            wide(follow(table, record, 0, black_box(&mut expected)))
        },
    );
    assert!(filled == expected, "{name}: the buffers differ");
    let outcome = match answer {
        Answer::Accepted(count) => format!("next rows {count}"),
        Answer::Refused { number, .. } => format!("refused by {number}"),
    };
    print(&format!("following, {name}: {outcome}"), &times);
}

/// A table of four clocks with one edge, given by the update of each clock.
fn of_one_edge(bounds: [u8; 4], update: impl Fn(usize) -> Update) -> Automaton {
    let edge = Edge {
        source: 0,
        target: 0,
        guards: vec![],
        updates: (0..4).map(update).collect(),
    };
    Automaton::without_final(1, &bounds, vec![edge])
}

/// The clock's new value is not below the old one of the clock after it, plus the least offset.
fn at_least_the_next(bounds: [u8; 4]) -> Automaton {
    of_one_edge(bounds, |own| {
        let next = (own + 1) % 4;
        let offset = tables::least_offset(&bounds, own, next);
        Update::to_clock(Comparison::AtLeast, next, offset)
    })
}

/// Two clocks that are kept and two of which an edge makes anything: how the kept ones rank
/// among the others is left out in many choices.
fn two_kept_of_four(bounds: [u8; 4]) -> Automaton {
    of_one_edge(bounds, |own| match own {
        0 | 1 => Update::Keep,
        _ => Update::to_constant(Comparison::AtLeast, 0),
    })
}

/// Keeps, a copy and a reset: one next row.
fn one_next(bounds: [u8; 4]) -> Automaton {
    of_one_edge(bounds, |own| match own {
        1 => Update::to_clock(Comparison::Equal, 0, tables::least_offset(&bounds, 1, 0)),
        2 => set(0),
        _ => Update::Keep,
    })
}

/// Buffers of ten and of a hundred million bytes, filled nearly or in good part, and too short for the
/// rows; last, many calls with a short one.
fn time_followings(plan: &Plan) {
    const LONG: usize = 10_000_000;
    const LONGEST: usize = 100_000_000;
    let free = |bounds| of_one_edge(bounds, |_| Update::to_constant(Comparison::AtLeast, 0));
    let all_but = |bounds| of_one_edge(bounds, |_| Update::to_constant(Comparison::NotEqual, 4));
    // 905,392 rows of eleven bytes, and 8,329,126
    let (bounds, greater) = ([10, 8, 8, 8], [15; 4]);
    let too_many = [127; 4];
    let long = |name, automaton| (name, 1, LONG, automaton);
    let longest = |name, automaton| (name, 1, LONGEST, automaton);
    let parted = Region::new(0, &[1, 3, 1, 3], &[2, 1, 3, 2]);
    for (name, calls, room, automaton) in [
        long("every row, and they do not fit", free(too_many)),
        long("every row", free(bounds)),
        long("≠ a constant", all_but(bounds)),
        long("≥ another clock", at_least_the_next(bounds)),
        long("two clocks kept", two_kept_of_four([9, 9, 127, 127])),
        longest(
            "long buffer, every row, and they do not fit",
            free(too_many),
        ),
        longest("long buffer, every row", free(greater)),
        ("deterministic", 100_000, 100, one_next([9; 4])),
    ] {
        if let Some(effort) = plan.effort(name, calls) {
            time_following(name, &effort, &automaton, parted, room);
        }
    }
}

/// A part of the benchmark.
struct Part {
    name: &'static str,
    columns: Columns,
    /// Times those of its cases that are asked for.
    time: fn(&Plan),
}

/// What stands above the numbers, each with its width.
type Columns = &'static [(&'static str, usize)];

const OF_SIDES: Columns = &[("checker", 11), ("rules", 11), ("ratio", 6)];
const OF_REFUSALS: Columns = &[
    ("accepted", 11),
    ("refused", 11),
    ("ratio", 6),
    ("rules", 11),
    ("to rules", 8),
];

const fn part(name: &'static str, columns: Columns, time: fn(&Plan)) -> Part {
    Part {
        name,
        columns,
        time,
    }
}

const PARTS: &[Part] = &[
    part("admission", OF_SIDES, time_admission),
    part("run", OF_SIDES, time_runs),
    part("lists", OF_SIDES, time_lists),
    part("followings", OF_SIDES, time_followings),
    part("refusals", OF_REFUSALS, time_refusals),
    #[cfg(feature = "making")]
    part("making", making::COLUMNS, making::time_making),
];

/// The first lines of a table with such columns.
fn print_head(columns: Columns) {
    let cell = |(name, width): &(&str, usize)| format!(" {name:>width$} |");
    let cells: String = columns.iter().map(cell).collect();
    println!("\n| {:<WIDTH$} |{cells}", "");
    println!("|---|{}", "---:|".repeat(columns.len()));
}

const USAGE: &str = "usage: benchmark [REPETITIONS [PART [WORD..]]]";

/// The plan and the part, if one is named, or what is wrong with the words.
fn parse(words: &[String]) -> Result<(Plan, Option<&str>), String> {
    let repetitions = match words.first().map(|text| (text, text.parse())) {
        None => 3,
        Some((_, Ok(repetitions @ 1..))) => repetitions,
        Some((text, _)) => return Err(format!("'{text}' is no number of repetitions")),
    };
    let part = words.get(1).map(String::as_str);
    let names: Vec<&str> = PARTS.iter().map(|part| part.name).collect();
    match part {
        Some(part) if !names.contains(&part) => {
            Err(format!("no part '{part}'; there are {}", names.join(", ")))
        }
        _ => {
            let plan = Plan {
                repetitions,
                words: words.iter().skip(2).cloned().collect(),
                chosen: Cell::new(0),
                wrong: Cell::new(0),
            };
            Ok((plan, part))
        }
    }
}

fn main() -> ExitCode {
    let given: Vec<String> = std::env::args().skip(1).collect();
    let (plan, only) = match parse(&given) {
        Ok(parsed) => parsed,
        Err(wrong) => {
            eprintln!("benchmark: {wrong}\n{USAGE}");
            return ExitCode::from(2);
        }
    };
    let repetitions = plan.repetitions;
    println!("best of {repetitions}, seconds of processor time; ratio: checker to rules, refused to accepted");
    let mut columns: Columns = &[];
    let is_asked_for = |part: &&Part| only.is_none_or(|only| only == part.name);
    for part in PARTS.iter().filter(is_asked_for) {
        if part.columns != columns {
            columns = part.columns;
            print_head(columns);
        }
        (part.time)(&plan);
    }
    if plan.chosen.get() == 0 {
        eprintln!("benchmark: no case has all of the words in its name");
        return ExitCode::from(2);
    }
    match plan.wrong.get() {
        0 => ExitCode::SUCCESS,
        wrong => {
            eprintln!("benchmark: the checker answered {wrong} cases otherwise than the rules");
            ExitCode::FAILURE
        }
    }
}
