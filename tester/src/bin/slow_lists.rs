//! A search for region lists that keep the checker busy:
//!
//!     slow_lists [--refused] [--seed N] [--seconds N] [--edges K] [--folder DIR]
//!
//! Lists of tables with one edge are made at random and then changed one thing at a
//! time; what is slower is gone on from. Only lists that are accepted count, or, with
//! `--refused`, lists with rows left out that are refused. The worst one is printed at the
//! end, with the time of the rules for the same, and written with copies of its edge as
//! table.tab and proof.prf.
//!
//! Times are processor seconds. That of an edge is the time of the whole check with this
//! one edge, less the time of the check of the same list without it. A refused list is
//! the worse the longer its check takes beside that of the list with all its rows.

use std::path::Path;
use std::process::ExitCode;
use tzelmaruf_tester::answer::Answer;
use tzelmaruf_tester::cpu_time::mean_seconds;
use tzelmaruf_tester::region::Region;
use tzelmaruf_tester::slow::arguments::USAGE;
use tzelmaruf_tester::slow::refusal_score::RefusalWatch;
use tzelmaruf_tester::slow::score::{checker_score, pair_of, rules_score, Stopwatch};
use tzelmaruf_tester::slow::search::Found;
use tzelmaruf_tester::slow::{Arguments, Candidate, Judge, OpenList, Pair, RefusalScore};
use tzelmaruf_tester::slow::{Score, Search};

const FOUND: u8 = 0;
const FAILED: u8 = 1;
const WRONG_USAGE: u8 = 2;

/// A line of progress at least after so many processor seconds.
const PROGRESS: f64 = 30.0;

/// So many of the worst are timed once more in the end, each at its best, so that none is taken for the
/// worst only because other work on the machine had lengthened its time.
const TIMED_AGAIN: usize = 5;

/// The copies are checked as well if that is reckoned to take no more seconds than this.
const AFFORDABLE: f64 = 60.0;

fn report_progress(search: &Search, arguments: &Arguments) {
    let best = search.best.as_ref().map_or(0.0, |found| found.score);
    let (spent, climbs, tried) = (Stopwatch::spent(), search.climbs, search.tried);
    let worst = match arguments.refused {
        true => format!("{best:.2} times as long as accepted"),
        false => {
            let edges = arguments.edges;
            let together = best * edges as f64;
            format!("{best:.6} s for one edge, {together:.3} s times {edges}")
        }
    };
    println!("{spent:6.0} s: climb {climbs}, {tried} lists tried, worst so far {worst}");
}

/// The best of all climbs within the time.
fn search(arguments: &Arguments) -> Vec<Found> {
    let limit = arguments.seconds as f64;
    let (mut stopwatch, mut refusals) = (Stopwatch { limit }, RefusalWatch { limit });
    let judge: &mut dyn Judge = match arguments.refused {
        true => &mut refusals,
        false => &mut stopwatch,
    };
    let make = match arguments.refused {
        true => Candidate::random_open,
        false => Candidate::random,
    };
    let mut search = Search::new(judge, make, arguments.seed);
    let mut reported = 0.0;
    search.run(&mut |search, is_best| {
        if is_best || Stopwatch::spent() >= reported + PROGRESS {
            report_progress(search, arguments);
            reported = Stopwatch::spent();
        }
    });
    report_progress(&search, arguments);
    let mut summits = search.summits;
    summits.sort_by(|one, other| other.score.total_cmp(&one.score));
    summits.truncate(TIMED_AGAIN);
    summits
}

/// A candidate with its list and the checker's times for it.
struct Worst {
    candidate: Candidate,
    rows: Vec<Region>,
    checker: Score,
}

impl Worst {
    fn new(found: Found) -> Option<Worst> {
        let candidate = found.candidate;
        let rows = candidate.closed_list()?;
        let checker = checker_score(&candidate, &rows);
        Some(Worst {
            candidate,
            rows,
            checker,
        })
    }

    /// The slowest of the best, timed once more.
    fn of(summits: Vec<Found>) -> Option<Worst> {
        let timed = summits.into_iter().filter_map(Worst::new);
        timed.max_by(|one, other| one.checker.edge.total_cmp(&other.checker.edge))
    }

    fn report(&self, edges: usize, pair: &mut Pair) {
        let Worst {
            candidate,
            rows,
            checker,
        } = self;
        println!("\nthe worst found:\n{candidate}: {} rows\n", rows.len());
        let rules = rules_score(candidate, rows);
        println!("| seconds                |     checker |       rules |  ratio |");
        println!("|---|---:|---:|---:|");
        print_times("one edge", checker.edge, rules.edge);
        print_times("all but the edges", checker.rest, rules.rest);
        let (copies, how) = copies_seconds(pair, checker, edges);
        let name = format!("{edges} edges and the rest");
        print_times(&name, copies, rules.of_edges(edges));
        println!("\nThe last line: checker {how}, rules reckoned.");
    }
}

/// A candidate with its closed list, what is left of it, and the checker's times for both.
struct WorstRefusal {
    candidate: Candidate,
    lists: OpenList,
    checker: RefusalScore,
}

impl WorstRefusal {
    fn new(found: Found, edges: usize) -> Option<WorstRefusal> {
        let candidate = found.candidate;
        let lists = candidate.open_list(candidate.closed_list()?, edges)?;
        let checker = RefusalScore::of(&lists)?;
        Some(WorstRefusal {
            candidate,
            lists,
            checker,
        })
    }

    /// Of the best that which takes longest beside its closed list, timed once more with all edges.
    fn of(summits: Vec<Found>, edges: usize) -> Option<WorstRefusal> {
        let timed = summits.into_iter();
        let timed = timed.filter_map(|found| WorstRefusal::new(found, edges));
        timed.max_by(|one, other| one.checker.ratio().total_cmp(&other.checker.ratio()))
    }

    /// The place has to be the one that the rules find.
    fn report(&self, pair: &mut Pair) {
        let WorstRefusal {
            candidate,
            lists,
            checker,
        } = self;
        println!("\nthe worst found:\n{candidate}");
        println!(
            "{} rows, {} of them left\n",
            lists.closed.len(),
            lists.open.len()
        );
        let mut due = Answer::Accepted(0);
        let rules = mean_seconds(1, &mut || due = pair.rules());
        let RefusalScore { accepted, refused } = checker;
        println!("| accepted    | refused     |  ratio |       rules |  ratio |");
        println!("|---:|---:|---:|---:|---:|");
        println!(
            "| {accepted:>11.6} | {refused:>11.6} | {:>6.2} | {rules:>11.6} | {:>6.2} |\n",
            checker.ratio(),
            refused / rules
        );
        println!("The rules: {due:?}.");
        assert_eq!(Answer::unpacked(pair.checker()), due, "{candidate}");
    }
}

/// The checker's time for the copies, if it can be afforded; else it is reckoned.
fn copies_seconds(pair: &mut Pair, score: &Score, edges: usize) -> (f64, &'static str) {
    let reckoned = score.of_edges(edges);
    if reckoned > AFFORDABLE {
        return (reckoned, "reckoned");
    }
    let mut check = || {
        pair.checker();
    };
    (mean_seconds(1, &mut check), "measured")
}

fn print_times(name: &str, checker: f64, rules: f64) {
    let ratio = checker / rules;
    println!("| {name:<22} | {checker:>11.6} | {rules:>11.6} | {ratio:>6.2} |");
}

fn write(folder: &Path, pair: &Pair) -> std::io::Result<()> {
    std::fs::write(folder.join("table.tab"), &pair.table)?;
    std::fs::write(folder.join("proof.prf"), &pair.list)
}

fn run(arguments: &Arguments) -> Result<(), String> {
    let folder = arguments.folder.display();
    let cannot = |error| format!("cannot write to {folder}: {error}");
    // Known before the search, not after it.
    std::fs::create_dir_all(&arguments.folder).map_err(cannot)?;
    println!(
        "seed {}, {} seconds of processor time",
        arguments.seed, arguments.seconds
    );
    let (summits, edges) = (search(arguments), arguments.edges);
    let none = "the time was too short for a list";
    if arguments.refused {
        let worst = WorstRefusal::of(summits, edges).ok_or(none)?;
        let mut pair = worst.lists.open_pair();
        write(&arguments.folder, &pair).map_err(cannot)?;
        worst.report(&mut pair);
    } else {
        let worst = Worst::of(summits).ok_or(none)?;
        let mut pair = pair_of(&worst.candidate, &worst.rows, edges);
        write(&arguments.folder, &pair).map_err(cannot)?;
        worst.report(edges, &mut pair);
    }
    println!("Written with {edges} edges to {folder}.");
    Ok(())
}

fn main() -> ExitCode {
    let words: Vec<String> = std::env::args().skip(1).collect();
    if words == ["--help"] {
        println!("{USAGE}");
        return ExitCode::from(FOUND);
    }
    let arguments = match Arguments::parse(&words) {
        Ok(arguments) => arguments,
        Err(wrong) => {
            eprintln!("slow_lists: {wrong}\n{USAGE}");
            return ExitCode::from(WRONG_USAGE);
        }
    };
    match run(&arguments) {
        Ok(()) => ExitCode::from(FOUND),
        Err(wrong) => {
            eprintln!("slow_lists: {wrong}");
            ExitCode::from(FAILED)
        }
    }
}
