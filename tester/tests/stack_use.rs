//! The stack that the C functions use, measured on many files, against
//! what the compiled code can use at most (`tests/stack.sh` beside this folder).

mod common;
use common::*;

use std::collections::HashMap;
use std::process::Command;
use tzelmaruf_tester::automaton::Update;
use tzelmaruf_tester::call::{Call, Input};
use tzelmaruf_tester::explore::closure;
use tzelmaruf_tester::format::encode_table;
use tzelmaruf_tester::generate::{seed, Random};
use tzelmaruf_tester::library::Function;
use tzelmaruf_tester::needs_checker;
use tzelmaruf_tester::region_list::encode_regions;
use tzelmaruf_tester::stack::Stack;

needs_checker!();

const CASES: u64 = 20_000;

/// Twice the limit that the documents name.
const ROOM: usize = 1 << 15;

/// The bounds by name, as the script prints them.
fn bounds() -> HashMap<String, usize> {
    let script = concat!(env!("CARGO_MANIFEST_DIR"), "/../tests/stack.sh");
    let library = concat!(env!("TZELMARUF_HOST_CALLS"), "/libhost_calls.a");
    let output = Command::new("bash").args([script, library]).output();
    let output = output.expect("bash runs tests/stack.sh");
    let errors = String::from_utf8_lossy(&output.stderr).into_owned();
    assert!(output.status.success(), "{errors}");
    let lines = String::from_utf8(output.stdout).unwrap();
    let pair = |line: &str| {
        let (name, bytes) = line.split_once(' ').unwrap();
        (name.to_string(), bytes.parse().unwrap())
    };
    lines.lines().map(pair).collect()
}

/// The most that a function used on random inputs of its call.
fn used_at_random(function: Function, call: Call, seed: u64) -> usize {
    let mut stack = Stack::new(ROOM);
    let used = (0..CASES).map(|case| {
        let mut input = Input::random(call, &mut Random::of_case(seed, case));
        let mut waiting = input.waiting.rows();
        let second = match call {
            Call::Making => &mut input.buffer,
            _ => &mut input.second,
        };
        let used = stack.call_with_waiting(function, &mut input.table, second, &mut waiting);
        used.1
    });
    used.max().unwrap()
}

/// Two clocks that are kept and two that an edge makes anything of, and all rows that are
/// reached: the kept ones are always equal, so that the visit chooses all intervals and all
/// ranks, eight numbers, and not the intervals alone.
fn used_by_the_visit_of_most_choices() -> usize {
    let free = constant(AtLeast, 0);
    let updates = [Update::Keep, Update::Keep, free, free];
    let automaton = automaton(&[1, 1, 1, 1], &[false], vec![edge(0, 0, &[], &updates)]);
    let found = closure(&automaton, 4_096);
    let rows = found.closed_list().expect("the closure fits in a list");
    let mut table = encode_table(&automaton);
    let mut list = encode_regions(4, rows);
    let mut stack = Stack::new(ROOM);
    let (answer, used) = stack.call(Function::CheckRegions, &mut table, &mut list);
    assert_eq!(answer, rows.len() as u32);
    used
}

/// The most that making uses on the benchmark's tables, which have rows and edges of all kinds.
#[cfg(feature = "making")]
fn used_by_making() -> usize {
    use tzelmaruf_tester::make::{list_length, Row, WAITING_RECORDS};
    use tzelmaruf_tester::slow::timed::made::made_lists;
    let mut stack = Stack::new(ROOM);
    let used = made_lists().into_iter().map(|timed| {
        let automaton = timed.automaton();
        let mut table = encode_table(&automaton);
        let mut buffer = vec![0xA5; list_length(automaton.clocks(), 4_096)];
        let mut waiting = vec![Row::default(); WAITING_RECORDS];
        let made = Function::MakeList;
        let (answer, used) = stack.call_with_waiting(made, &mut table, &mut buffer, &mut waiting);
        assert_eq!(answer, timed.expected.packed(), "{}", timed.name);
        used
    });
    used.max().unwrap()
}

#[test]
fn the_stack_used_is_within_the_bounds() {
    let seed = seed(30_801);
    println!("seed {seed}: {CASES} cases of each call");
    let bounds = bounds();
    let calls = [
        (Function::Admit, Call::Admission),
        (Function::CheckRun, Call::Run),
        (Function::CheckRegions, Call::Regions),
        #[cfg(feature = "making")]
        (Function::MakeList, Call::Making),
    ];
    for (function, call) in calls {
        let mut used = used_at_random(function, call, seed);
        if function == Function::CheckRegions {
            used = used.max(used_by_the_visit_of_most_choices());
        }
        #[cfg(feature = "making")]
        if function == Function::MakeList {
            used = used.max(used_by_making());
        }
        let bound = bounds[function.name()];
        println!("{}: {used} bytes used, bound {bound}", function.name());
        assert!(used > 0 && used <= bound, "{}", function.name());
    }
}
