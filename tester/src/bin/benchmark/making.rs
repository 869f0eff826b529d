//! Lists that are made: the checker's time beside that of the rules, and beside its own for the check
//! of the same list.

use super::{described, seconds, Columns, Effort, Plan, WIDTH};
use std::hint::black_box;
use tzelmaruf_tester::answer::Answer;
use tzelmaruf_tester::automaton::Automaton;
use tzelmaruf_tester::cpu_time::mean_seconds;
use tzelmaruf_tester::format::encode_table;
use tzelmaruf_tester::make::{list_length, Row, WAITING_RECORDS};
use tzelmaruf_tester::region_list::GREATEST_ROWS;
use tzelmaruf_tester::slow::timed::made::made_lists;
use tzelmaruf_tester::slow::timed::timed_lists;
use tzelmaruf_tester::slow::Pair;
use tzelmaruf_tester::{library, make_list};

pub const COLUMNS: Columns = &[
    ("checker", 11),
    ("rules", 11),
    ("ratio", 6),
    ("check", 11),
    ("to check", 8),
];

/// Best seconds for a table; those of the check only if there is a list.
struct Times {
    checker: f64,
    rules: f64,
    check: Option<f64>,
}

/// What is lent to one side, long enough for any list.
struct Lent {
    table: Vec<u8>,
    buffer: Vec<u8>,
    waiting: Vec<Row>,
}

impl Lent {
    fn new(automaton: &Automaton) -> Lent {
        let length = list_length(automaton.clocks(), GREATEST_ROWS.into());
        Lent {
            table: encode_table(automaton),
            buffer: vec![0xA5; length],
            waiting: vec![Row::default(); WAITING_RECORDS],
        }
    }

    fn checker(&mut self) -> u32 {
        let buffer = black_box(&mut self.buffer);
        library::make_list(&mut self.table, buffer, black_box(&mut self.waiting))
    }

    fn rules(&mut self) -> Answer {
        let buffer = black_box(&mut self.buffer);
        make_list(&self.table, buffer, black_box(&mut self.waiting))
    }
}

/// The two sides and the check in turn. Answers and buffers have to be the same; where they are not, that
/// is said, and the time is printed all the same.
fn time_table(plan: &Plan, effort: &Effort, name: &str, automaton: &Automaton) {
    let (mut by_checker, mut by_rules) = (Lent::new(automaton), Lent::new(automaton));
    let due = by_rules.rules();
    let mut made = match due {
        Answer::Accepted(count) => Some(Pair {
            table: by_rules.table.clone(),
            list: by_rules.buffer[..list_length(automaton.clocks(), count as usize)].to_vec(),
        }),
        Answer::Refused { .. } => None,
    };
    let mut answer = 0;
    let mut best = Times {
        checker: f64::INFINITY,
        rules: f64::INFINITY,
        check: None,
    };
    for _ in 0..effort.repetitions {
        let checker = mean_seconds(effort.calls, &mut || answer = by_checker.checker());
        let rules = seconds(effort.calls, due.packed().into(), &mut || {
            by_rules.rules().packed().into()
        });
        best.checker = best.checker.min(checker);
        best.rules = best.rules.min(rules);
        if let Some(pair) = &mut made {
            let check = seconds(effort.calls, due.packed().into(), &mut || {
                pair.checker().into()
            });
            best.check = Some(best.check.map_or(check, |least| least.min(check)));
        }
    }
    let is_same = answer == due.packed() && by_checker.buffer == by_rules.buffer;
    print(&text(plan, name, automaton, due, answer, is_same), &best);
}

fn text(
    plan: &Plan,
    name: &str,
    automaton: &Automaton,
    due: Answer,
    answer: u32,
    is_same: bool,
) -> String {
    let mut text = match due {
        Answer::Accepted(count) => described(name, automaton, count as usize),
        Answer::Refused { number, .. } => {
            let (clocks, edges) = (automaton.clocks(), automaton.edges.len());
            format!("{name}: refused by {number}, {clocks} clocks, {edges} edges")
        }
    };
    if !is_same {
        plan.wrong.set(plan.wrong.get() + 1);
        let answer = Answer::unpacked(answer);
        text += &format!(", answered {answer:?}, another buffer");
    }
    text
}

fn print(name: &str, times: &Times) {
    let Times {
        checker,
        rules,
        check,
    } = times;
    let ratio = checker / rules;
    let of_check = match check {
        Some(check) => format!("{check:>11.7} | {:>8.2}", checker / check),
        None => format!("{:>11} | {:>8}", "", ""),
    };
    println!("| {name:<WIDTH$} | {checker:>11.7} | {rules:>11.7} | {ratio:>6.2} | {of_check} |");
}

/// The tables that are there for this, and then those of the lists that are checked.
pub fn time_making(plan: &Plan) {
    for timed in made_lists() {
        if let Some(effort) = plan.effort(timed.name, timed.calls) {
            time_table(plan, &effort, timed.name, &timed.automaton());
        }
    }
    // One with an edge more leads to the same rows.
    for timed in timed_lists().iter().filter(|timed| timed.opening.is_none()) {
        if let Some(effort) = plan.effort(timed.name, timed.calls) {
            time_table(plan, &effort, timed.name, &timed.automaton);
        }
    }
}
