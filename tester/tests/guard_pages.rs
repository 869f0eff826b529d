//! The checker on files that end right before a page which may not be touched,
//! and on files that begin right behind one: a read or a write of a single byte
//! outside would stop the test.

use std::process::Command;
use tzelmaruf_tester::call::{Call, Input};
use tzelmaruf_tester::compare::wide;
use tzelmaruf_tester::generate::{seed, Random};
use tzelmaruf_tester::guarded::{report_touched_pages, trying, Guarded, TOUCHED};
use tzelmaruf_tester::make::Row;
use tzelmaruf_tester::rooms::{Rooms, Side};
use tzelmaruf_tester::{admit, check_regions, check_run, follow, make_list};
use tzelmaruf_tester::{needs_checker, needs_probe};

needs_checker!();
needs_probe!();

/// One input on one side of the rooms: answered as by the rules, and nothing written
/// but what following or making has to write, nor beside it.
fn is_right(rooms: &mut Rooms, side: Side, input: &Input) -> bool {
    let (table, second) = (&input.table, &input.second);
    let mut expected = input.buffer.clone();
    let outcome = rooms.call(side, input);
    let answer = outcome.answer;
    let is_answered = match input.call {
        Call::Admission => answer == admit(table).packed().into(),
        Call::Run => answer == check_run(table, second).packed().into(),
        Call::Regions => answer == check_regions(table, second).packed().into(),
        Call::Following => answer == wide(follow(table, second, input.number, &mut expected)),
        Call::Making => {
            let mut waiting = input.waiting.rows();
            answer
                == make_list(table, &mut expected, &mut waiting)
                    .packed()
                    .into()
        }
    };
    let is_cleared = outcome.waiting.iter().all(|row| *row == Row::default());
    is_answered && outcome.is_intact && *outcome.buffer == *expected && is_cleared
}

fn try_call(call: Call, usual_seed: u64, cases: u64) {
    let seed = seed(usual_seed);
    println!("{} seed {seed}: {cases} cases on both sides", call.name());
    report_touched_pages();
    let mut rooms = Rooms::default();
    for case in 0..cases {
        trying(call.name(), case);
        let input = Input::random(call, &mut Random::of_case(seed, case));
        for side in Side::BOTH {
            let is_right = is_right(&mut rooms, side, &input);
            assert!(is_right, "case {case} {side:?}:\n{}", input.text());
        }
    }
}

#[test]
fn admission() {
    try_call(Call::Admission, 30_701, 50_000);
}

#[test]
fn run_lists() {
    try_call(Call::Run, 30_702, 25_000);
}

#[test]
fn region_lists() {
    try_call(Call::Regions, 30_703, 25_000);
}

#[test]
fn following() {
    try_call(Call::Following, 30_704, 25_000);
}

#[cfg(feature = "making")]
#[test]
fn making() {
    try_call(Call::Making, 30_706, 12_000);
}

/// Buffers and waiting lists of every telling length, for a list that is made and one that is not.
#[cfg(feature = "making")]
#[test]
fn making_in_rooms_of_every_length() {
    use tzelmaruf_tester::generate::WaitingList;
    report_touched_pages();
    let mut rooms = Rooms::default();
    let seed = seed(30_707);
    for case in 0..60 {
        trying(Call::Making.name(), case);
        let usual = Input::random(Call::Making, &mut Random::of_case(seed, case));
        let mut longest = vec![0xA5; 45_100];
        make_list(&usual.table, &mut longest, &mut vec![Row::default(); 4_096]);
        let behind = longest.iter().rev().take_while(|byte| **byte == 0xA5);
        let exact = longest.len() - behind.count();
        let around = exact.saturating_sub(13)..(exact + 13).min(longest.len());
        for length in (0..13).chain(around) {
            for records in [0, 1, 4_095, 4_096, 5_000] {
                let input = Input {
                    buffer: vec![0xA5; length],
                    waiting: WaitingList { records, seed },
                    ..usual.clone()
                };
                for side in Side::BOTH {
                    let is_right = is_right(&mut rooms, side, &input);
                    assert!(is_right, "case {case} {side:?}:\n{}", input.text());
                }
            }
        }
    }
}

/// Every cut of a table and of a list, so that the end falls on every field.
#[test]
fn every_cut() {
    report_touched_pages();
    let mut rooms = Rooms::default();
    let seed = seed(30_705);
    for case in 0..200 {
        let call = Call::ALL[case as usize % Call::ALL.len()];
        trying(call.name(), case);
        let input = Input::random(call, &mut Random::of_case(seed, case));
        for length in 0..input.table.len().min(300) {
            let table = input.table[..length].to_vec();
            let cut = Input {
                table,
                ..input.clone()
            };
            assert!(is_right(&mut rooms, Side::End, &cut), "{}", cut.text());
        }
        for length in 0..input.second.len().min(300) {
            let second = input.second[..length].to_vec();
            let cut = Input {
                second,
                ..input.clone()
            };
            assert!(is_right(&mut rooms, Side::End, &cut), "{}", cut.text());
        }
    }
}

const VARIABLE: &str = "TZELMARUF_TOUCH";

/// The pages are there: a child that reads one byte before or behind is stopped.
#[test]
fn touched_pages_stop_the_test() {
    if let Ok(side) = std::env::var(VARIABLE) {
        report_touched_pages();
        trying("a read on purpose", 17);
        let mut room = Guarded::new(1);
        room.touch(side == "end");
        return;
    }
    for side in ["begin", "end"] {
        let mut child = Command::new(std::env::current_exe().unwrap());
        child.args(["--exact", "touched_pages_stop_the_test", "--nocapture"]);
        let output = child.env(VARIABLE, side).output().unwrap();
        assert_eq!(output.status.code(), Some(TOUCHED), "{side}");
        let text = String::from_utf8_lossy(&output.stderr).into_owned();
        assert!(text.contains("a read on purpose case 17\n"), "{text}");
    }
}
