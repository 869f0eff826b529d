//! A long run of random and damaged files through every call of the checker,
//! held against the rules, and once more beside pages that may not be touched:
//!
//!     long_run [CASES [CALL]]    so many cases of each call, or of one
//!     long_run keep CALL CASE    writes one case to a file
//!     long_run replay FILE       one case again, from its file
//!
//! It prints the answers by number and by place, and writes each of the first
//! cases on which the two sides differ to a file. Its exit status is 0 only if
//! no case differs and every number came at every place it can have, and every
//! number but 1 to 4 with '≠' in the table too.
//! `TZELMARUF_SEED` sets another seed.

use std::path::PathBuf;
use std::process::ExitCode;
use std::time::Instant;
use tzelmaruf_tester::call::{Call, Input};
use tzelmaruf_tester::generate::{seed, Random};
use tzelmaruf_tester::guarded::{report_touched_pages, trying};
use tzelmaruf_tester::rooms::{Rooms, Side};
use tzelmaruf_tester::tally::{grouped, Tally};

const USUAL_CASES: u64 = 2_000_000;
const USUAL_SEED: u64 = 30_501;

/// No more differences of a call than these are shown and written.
const SHOWN: u64 = 5;

/// A line of progress after so many cases, so that a case without end can be found.
const PROGRESS: u64 = 250_000;

/// Where the cases that differ are written, from the folder it is run in.
const FOLDER: &str = "target/differences";

/// How this program is run from the tester's folder.
const COMMAND: &str = "cargo run --offline --release --bin long_run --";

const AGREED: u8 = 0;
const DIFFERENT: u8 = 1;
const USAGE: u8 = 2;
const INCOMPLETE: u8 = 3;

fn input_of(call: Call, seed: u64, case: u64) -> Input {
    Input::random(call, &mut Random::of_case(seed, case))
}

/// What came of the cases of one call so far.
struct Outcome {
    tally: Tally,
    /// The answers where the table has '≠' in it.
    tally_of_not_equal: Tally,
    differences: u64,
    longest_table: usize,
    longest_second: usize,
    longest_buffer: usize,
    greatest_count: u32,
    start: Instant,
}

impl Outcome {
    fn new() -> Outcome {
        Outcome {
            tally: Tally::default(),
            tally_of_not_equal: Tally::default(),
            differences: 0,
            longest_table: 0,
            longest_second: 0,
            longest_buffer: 0,
            greatest_count: 0,
            start: Instant::now(),
        }
    }

    /// Puts one case to both sides, beside the pages on either side in turn.
    fn try_case(&mut self, rooms: &mut Rooms, call: Call, seed: u64, case: u64) {
        trying(call.name(), case);
        let input = input_of(call, seed, case);
        self.longest_table = self.longest_table.max(input.table.len());
        self.longest_second = self.longest_second.max(input.second.len());
        self.longest_buffer = self.longest_buffer.max(input.buffer.len());
        let side = Side::BOTH[case as usize % 2];
        match input.compare_in(rooms, side) {
            Ok(met) => {
                self.tally.count(met.number, met.position);
                if met.number == 0 {
                    self.greatest_count = self.greatest_count.max(met.place);
                }
                if input.has_not_equal() {
                    self.tally_of_not_equal.count(met.number, met.position);
                }
            }
            Err(report) => {
                self.differences += 1;
                if self.differences <= SHOWN {
                    println!("{} seed {seed} case {case}: {report}", call.name());
                    keep(&input, seed, case);
                }
            }
        }
    }

    fn report(&self, call: Call) {
        println!("{}", self.tally.table(call.with_places()));
        let accepted = self.tally_of_not_equal.of_number(0);
        println!(
            "with '≠' in the table: {} cases, {} of them accepted",
            grouped(self.tally_of_not_equal.cases()),
            grouped(accepted)
        );
        println!(
            "longest table {} bytes, paper or row {} bytes, buffer {} bytes; greatest count {}",
            self.longest_table,
            self.longest_second,
            self.longest_buffer,
            grouped(self.greatest_count.into())
        );
        let seconds = self.start.elapsed().as_secs();
        println!("differences: {}; {seconds} seconds", self.differences);
    }
}

/// Runs one call through its cases and reports.
fn run_call(call: Call, seed: u64, cases: u64) -> Outcome {
    let mut rooms = Rooms::default();
    let mut outcome = Outcome::new();
    for case in 0..cases {
        outcome.try_case(&mut rooms, call, seed, case);
        let done = case + 1;
        if done % PROGRESS == 0 {
            let seconds = outcome.start.elapsed().as_secs();
            let differences = outcome.differences;
            let name = call.name();
            eprintln!(
                "{name}: {done} of {cases} cases, {differences} differences, {seconds} seconds"
            );
        }
    }
    println!("{}: {cases} cases", call.name());
    outcome.report(call);
    outcome
}

/// Writes a case to a file and says how to see it again.
fn keep(input: &Input, seed: u64, case: u64) {
    let name = format!("{}-{seed}-{case}.case", input.call.name());
    let file = PathBuf::from(FOLDER).join(name);
    let written =
        std::fs::create_dir_all(FOLDER).and_then(|()| std::fs::write(&file, input.text()));
    let file = file.display();
    match written {
        Ok(()) => println!("kept; to see it again: {COMMAND} replay {file}"),
        Err(error) => println!("cannot write {file}: {error}"),
    }
}

/// What never came of a call's numbers and places, or never with '≠' in the table; 0 if nothing is
/// missing. Refusals 1 to 4 come before a table is read, so that nobody knows its comparisons.
fn missing(call: Call, outcome: &Outcome) -> usize {
    let mut gaps = outcome.tally.gaps(call.numbers(), call.with_places());
    let readable = call.numbers().iter().copied();
    let readable: Vec<u8> = readable
        .filter(|number| !(1..=4).contains(number))
        .collect();
    let never = outcome.tally_of_not_equal.gaps(&readable, &[]);
    gaps.extend(never.iter().map(|gap| format!("{gap} with '≠'")));
    for gap in &gaps {
        println!("{}: never {gap}", call.name());
    }
    gaps.len()
}

fn long_run(calls: &[Call], cases: u64) -> u8 {
    let seed = seed(USUAL_SEED);
    println!("seed {seed}: {cases} cases of each call\n");
    report_touched_pages();
    let (mut differences, mut gaps) = (0, 0);
    for call in calls {
        let outcome = run_call(*call, seed, cases);
        differences += outcome.differences;
        gaps += missing(*call, &outcome);
        println!();
    }
    println!("{differences} differences, {gaps} numbers or places that never came");
    match (differences, gaps) {
        (0, 0) => AGREED,
        (0, _) => INCOMPLETE,
        _ => DIFFERENT,
    }
}

fn replay(file: &str) -> u8 {
    let text = std::fs::read_to_string(file).map_err(|error| error.to_string());
    let input = match text.and_then(|text| Input::from_text(&text)) {
        Ok(input) => input,
        Err(wrong) => {
            eprintln!("long_run: {file}: {wrong}");
            return USAGE;
        }
    };
    let mut rooms = Rooms::default();
    let name = input.call.name();
    for side in Side::BOTH {
        match input.compare_in(&mut rooms, side) {
            Ok(met) => println!("{name}: both sides agree: {met:?}"),
            Err(report) => {
                println!("{name}: {report}");
                return DIFFERENT;
            }
        }
    }
    AGREED
}

fn usage() -> u8 {
    let names: Vec<&str> = Call::ALL.iter().map(|call| call.name()).collect();
    let names = names.join(", ");
    eprintln!("usage: long_run [CASES [CALL]]    (as 2000000; the calls: {names})");
    eprintln!("       long_run keep CALL CASE");
    eprintln!("       long_run replay FILE");
    USAGE
}

fn main() -> ExitCode {
    let words: Vec<String> = std::env::args().skip(1).collect();
    let words: Vec<&str> = words.iter().map(String::as_str).collect();
    let number = |word: &str| word.parse::<u64>().ok();
    ExitCode::from(match words[..] {
        [] => long_run(Call::ALL, USUAL_CASES),
        ["replay", file] => replay(file),
        ["keep", call, case] => match (Call::named(call), number(case)) {
            (Some(call), Some(case)) => {
                let seed = seed(USUAL_SEED);
                keep(&input_of(call, seed, case), seed, case);
                AGREED
            }
            _ => usage(),
        },
        [cases] => number(cases).map_or_else(usage, |cases| long_run(Call::ALL, cases)),
        [cases, call] => match (number(cases), Call::named(call)) {
            (Some(cases), Some(call)) => long_run(&[call], cases),
            _ => usage(),
        },
        _ => usage(),
    })
}
