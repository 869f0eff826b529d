//! The lists that the benchmark times and those that the search makes, put to the checker and the rules:
//! both give the answer that is counted on. Nothing here is timed.

use std::path::PathBuf;
use std::process::{Command, Output};
use tzelmaruf_tester::answer::Answer;
use tzelmaruf_tester::compare::{self, Comparer, Met};
use tzelmaruf_tester::generate::{seed, Random};
use tzelmaruf_tester::slow::arguments::USAGE;
use tzelmaruf_tester::slow::timed::refused::refused_lists;
use tzelmaruf_tester::slow::timed::timed_lists;
use tzelmaruf_tester::slow::{Candidate, Pair};

tzelmaruf_tester::needs_checker!();

/// With one of its edges each, since copies of an edge and edges of one kind lead nowhere else.
#[test]
fn timed_lists_get_their_answers() {
    for mut timed in timed_lists() {
        timed.automaton.edges.truncate(1);
        let rows = timed.listed();
        let expected = timed.expected(&rows);
        let pair = Pair::new(&timed.table(), &rows);
        assert_eq!(pair.rules(), expected, "{}", timed.name);
        let met = compare::regions(&pair.table, &pair.list).expect(timed.name);
        assert_eq!(met.packed(), expected.packed(), "{}: {met:?}", timed.name);
    }
}

/// The lists of candidates are accepted, with the edge once and twice.
#[test]
fn lists_of_candidates_are_accepted() {
    let seed = seed(30_721);
    println!("seed {seed}");
    let mut accepted = 0;
    for case in 0..40 {
        let random = &mut Random::of_case(seed, case);
        let candidate = Candidate::random(random).changed(random);
        let Some(rows) = candidate.closed_list() else {
            continue;
        };
        accepted += 1;
        let expected = Answer::Accepted(rows.len() as u32);
        for edges in [0, 1, 2] {
            let mut pair = Pair::new(&candidate.automaton(edges), &rows);
            assert_eq!(pair.rules(), expected, "{candidate}");
            assert_eq!(pair.checker(), expected.packed(), "{candidate}");
        }
    }
    println!("{accepted} lists");
    assert!(accepted >= 10);
}

/// With each 15th of their edges, the last one among them, which decides the place: the refused lists, and
/// the closed ones that they were made from.
#[test]
fn refused_lists_get_their_answers() {
    for timed in refused_lists() {
        let mut lists = timed.lists();
        lists.automaton.edges = lists.automaton.edges.into_iter().step_by(15).collect();
        let accepted = lists.closed_pair().checker() as usize;
        assert_eq!(accepted, lists.closed.len(), "{}", timed.name);
        let mut open = lists.open_pair();
        assert_eq!(open.rules(), timed.expected(), "{}", timed.name);
        let answer = Answer::unpacked(open.checker());
        assert_eq!(answer, timed.expected(), "{}", timed.name);
    }
}

/// What is left of the lists of candidates, with falling guards, is answered alike.
#[test]
fn lists_with_gaps_are_answered_alike() {
    let seed = seed(30_722);
    println!("seed {seed}");
    let mut comparer = Comparer::new("lists with gaps");
    for case in 0..300 {
        let random = &mut Random::of_case(seed, case);
        let candidate = Candidate::random_open(random).changed(random);
        let Some(closed) = candidate.closed_list().filter(|rows| rows.len() < 1_500) else {
            continue;
        };
        let lists = candidate.open_list(closed, 6).expect("it has gaps");
        let open = lists.open_pair();
        let case = format_args!("seed {seed} case {case}");
        comparer.regions(case, &open.table, &open.list);
    }
    comparer.finish(&[0, 17]);
}

fn slow_lists(words: &[&str]) -> Output {
    let mut program = Command::new(env!("CARGO_BIN_EXE_slow_lists"));
    program.args(words).output().expect("the program starts")
}

#[test]
fn wrong_usage_has_a_status_of_its_own() {
    for words in [&["--edges", "257"][..], &["--seed"], &["lists"]] {
        let output = slow_lists(words);
        assert_eq!(output.status.code(), Some(2), "{words:?}");
        let said = String::from_utf8_lossy(&output.stderr);
        assert!(said.contains(USAGE), "{words:?}: {said}");
        assert!(output.stdout.is_empty());
    }
    assert_eq!(slow_lists(&["--help"]).status.code(), Some(0));
}

/// What a search of one second writes to a folder, and both sides answer.
fn found(folder: &str, words: &[&str]) -> Met {
    let folder = PathBuf::from(env!("CARGO_TARGET_TMPDIR")).join(folder);
    let name = folder.to_str().expect("a plain name");
    let usual = ["--seconds", "1", "--edges", "2", "--folder", name];
    let output = slow_lists(&[words, &usual].concat());
    let said = String::from_utf8_lossy(&output.stdout);
    assert_eq!(output.status.code(), Some(0), "{output:?}");
    assert!(said.contains("the worst found:"), "{said}");
    let read = |name: &str| std::fs::read(folder.join(name)).expect(name);
    compare::regions(&read("table.tab"), &read("proof.prf")).expect("both sides agree")
}

/// However short the search, what it writes is a list that both sides accept.
#[test]
fn what_is_found_is_written_and_accepted() {
    assert_eq!(found("slow_lists", &[]).number, 0);
}

/// Or one that both refuse, at the same row.
#[test]
fn what_is_found_among_refused_lists_is_refused() {
    assert_eq!(found("slow_refusals", &["--refused"]).number, 17);
}
