//! The search for slow lists, apart from time: its arguments, candidates and their changes, the
//! climbing itself by a judge that goes by something else, and tables in words.

mod common;
use common::{
    automaton, clock, constant, edge, guard, AtLeast, AtMost, Equal, Greater, Less, NotEqual,
};

use tzelmaruf_tester::answer::Answer;
use tzelmaruf_tester::automaton::{Automaton, Edge, Update, GREATEST_CLOCKS, GREATEST_EDGES};
use tzelmaruf_tester::format::encode_table;
use tzelmaruf_tester::generate::{seed, Random};
use tzelmaruf_tester::region::{all_rows, is_row, Region};
use tzelmaruf_tester::region_list::{lacking_places, GREATEST_ROWS};
use tzelmaruf_tester::slow::arguments::USAGE;
use tzelmaruf_tester::slow::falling::falling_guards;
use tzelmaruf_tester::slow::rows::{count_rows, rows_of};
use tzelmaruf_tester::slow::timed::refused::refused_lists;
use tzelmaruf_tester::slow::timed::timed_lists;
use tzelmaruf_tester::slow::{Arguments, Candidate, Judge, OpenList, Search, Share};
use tzelmaruf_tester::{admit, words};

fn parse(line: &str) -> Result<Arguments, String> {
    let words: Vec<String> = line.split(' ').map(str::to_string).collect();
    Arguments::parse(&words)
}

#[test]
fn arguments_are_read() {
    assert_eq!(Arguments::parse(&[]), Ok(Arguments::default()));
    let given = parse("--edges 7 --folder some/where --refused --seconds 5 --seed 9");
    let expected = Arguments {
        refused: true,
        seed: 9,
        seconds: 5,
        edges: 7,
        folder: "some/where".into(),
    };
    assert_eq!(given, Ok(expected));
    assert!(parse("--edges 1 --seconds 1 --seed 0").is_ok());
    assert!(parse("--edges 256").is_ok_and(|given| !given.refused));
}

#[test]
fn usage_tells_what_is_usual() {
    let usual = Arguments::default();
    let folder = usual.folder.display();
    for text in [
        format!("another seed ({})", usual.seed),
        format!("in seconds ({})", usual.seconds),
        format!("({})", usual.edges),
        format!("({folder})"),
    ] {
        assert!(USAGE.contains(&text), "{text}");
    }
}

/// Each with a message that names what is at fault.
#[test]
fn wrong_arguments_are_named() {
    for (line, named) in [
        ("--edges", "--edges"),
        ("--edges 0", "'0'"),
        ("--edges 257", "'257'"),
        ("--edges -1", "'-1'"),
        ("--seconds 0", "'0'"),
        ("--seconds long", "'long'"),
        ("--seed 1.5", "'1.5'"),
        ("--seed 18446744073709551616", "--seed"),
        ("--folder ", "--folder"),
        ("--seed 1 --seed 2", "twice"),
        ("--refused --refused", "twice"),
        ("--refused yes", "'yes'"),
        ("--sead 1", "--sead"),
        ("7", "'7'"),
    ] {
        let wrong = parse(line).expect_err(line);
        assert!(wrong.contains(named), "{line}: {wrong}");
    }
}

/// A candidate's table is admitted with any number of copies of its edge, and its list begins with
/// rows that ascend.
fn hold_lawful(candidate: &Candidate) {
    assert!(candidate.is_lawful(), "{candidate:?}");
    for edges in [0, 1, GREATEST_EDGES] {
        let automaton = candidate.automaton(edges);
        let expected = Answer::Accepted(automaton.records() as u32);
        assert_eq!(admit(&encode_table(&automaton)), expected, "{candidate}");
    }
    let (automaton, start) = (candidate.automaton(1), candidate.start());
    // one more at most: the initial row, where the location has no share of it
    assert!(
        start.len() <= 1 + usize::from(GREATEST_ROWS),
        "{candidate}: {}",
        start.len()
    );
    assert!(start.windows(2).all(|pair| pair[0] < pair[1]));
    assert!(start.contains(&Region::initial(&automaton)));
    let clocks = candidate.clocks();
    for row in start {
        let record = row.record(clocks);
        let (intervals, ranks) = record[3..].split_at(clocks);
        assert!(
            is_row(&automaton, row.location(), intervals, ranks),
            "{row:?}"
        );
    }
}

#[test]
fn candidates_stay_lawful() {
    let seed = seed(30_711);
    println!("seed {seed}");
    for case in 0..60 {
        let random = &mut Random::of_case(seed, case);
        let mut candidate = match case % 3 {
            0 => Candidate::random_open(random),
            _ => Candidate::random(random),
        };
        hold_lawful(&candidate);
        for _ in 0..30 {
            candidate = candidate.changed(random);
            hold_lawful(&candidate);
        }
    }
}

/// What is left of a list is some of its rows, the initial one among them, always the same, and not
/// always all; the table with falling guards is admitted and closed by the same list.
#[test]
fn open_candidates_lack_rows() {
    let seed = seed(30_715);
    println!("seed {seed}");
    let (mut all, mut fewer) = (0, 0);
    for case in 0..60 {
        let random = &mut Random::of_case(seed, case);
        let candidate = Candidate::random_open(random).changed(random);
        let Some(closed) = candidate.closed_list().filter(|rows| rows.len() < 500) else {
            continue;
        };
        let lists = candidate
            .open_list(closed.clone(), 12)
            .expect("it has gaps");
        let records = lists.automaton.records() as u32;
        let table = encode_table(&lists.automaton);
        assert_eq!(admit(&table), Answer::Accepted(records), "{candidate}");
        assert_eq!(lacking_places(&lists.automaton, &closed).next(), None);
        assert!(lists.open.contains(&Region::initial(&lists.automaton)));
        assert!(lists.open.iter().all(|row| closed.contains(row)));
        let again = candidate.open_list(closed.clone(), 12).expect("as before");
        assert_eq!(again.open, lists.open);
        match lists.open.len() == closed.len() {
            true => all += 1,
            false => fewer += 1,
        }
    }
    println!("{fewer} lists lack rows, {all} lack none");
    assert!(fewer > 10 && fewer > all);
    assert!(Candidate::random(&mut Random::new(seed)).gaps.is_none());
}

/// From the tops down to nothing, in the order of the rows.
#[test]
fn guards_fall() {
    let over = |clock, constant| guard(clock, Greater, constant);
    let least = |clock, constant| guard(clock, AtLeast, constant);
    let one_clock = falling_guards(&[1], &[0], 4);
    let expected = [
        vec![over(0, 1)],
        vec![least(0, 1)],
        vec![over(0, 0)],
        vec![],
    ];
    assert_eq!(one_clock, expected);
    // Intervals 2 and 1 of the first clock, of the last one 1 and 0, and the clock between them left out.
    let two_clocks = falling_guards(&[1, 9, 0], &[0, 2], 8);
    assert_eq!(
        two_clocks[2..4],
        [vec![over(2, 0), least(0, 1)], vec![least(0, 1)]]
    );
    assert_eq!(
        two_clocks[4..6],
        [vec![over(2, 0), over(0, 0)], vec![over(0, 0)]]
    );
    // With more edges than intervals some are alike, with one there is nothing to fall to.
    let many = falling_guards(&[0], &[0], 5);
    assert_eq!(many[0], [over(0, 0)]);
    assert_eq!(many[4], []);
    assert_eq!(falling_guards(&[3], &[0], 1), [vec![over(0, 3)]]);
}

/// Every kind of list, update and comparison is tried, with any number of clocks and locations.
#[test]
fn candidates_are_of_all_kinds() {
    let random = &mut Random::new(30_712);
    let candidates: Vec<Candidate> = (0..400)
        .map(|_| Candidate::random(random).changed(random))
        .collect();
    let some = |has: &dyn Fn(&Candidate) -> bool| candidates.iter().any(has);
    for clocks in 1..=GREATEST_CLOCKS {
        assert!(some(&|each| each.clocks() == clocks));
    }
    for locations in 1..=4 {
        assert!(some(&|each| each.shares.len() == locations));
    }
    for comparison in [Less, AtMost, Equal, AtLeast, Greater, NotEqual] {
        assert!(some(&|each| each.edge.has(comparison)));
    }
    let updates = |is: fn(&Update) -> bool| some(&|each| each.edge.updates.iter().any(is));
    assert!(updates(|update| *update == Update::Keep));
    assert!(updates(|update| matches!(update, Update::Constant { .. })));
    assert!(updates(
        |update| matches!(update, Update::Clock { offset, .. } if *offset < 0)
    ));
    let shares = |is: fn(&Share) -> bool| some(&|each| each.shares.iter().any(is));
    assert!(shares(|share| *share == Share::Nothing));
    assert!(shares(|share| *share == Share::Equal));
    assert!(shares(|share| *share == Share::All));
    assert!(shares(|share| matches!(share, Share::Row(_))));
    assert!(some(&|each| !each.edge.guards.is_empty()));
    assert!(some(
        &|each| (0..each.clocks()).any(|clock| each.twins[clock] != clock)
    ));
}

/// No step of a climb is taken in vain.
#[test]
fn a_change_alters_something() {
    let random = &mut Random::new(30_713);
    for _ in 0..500 {
        let candidate = Candidate::random(random);
        assert_ne!(candidate.changed(random), candidate);
    }
}

/// Rows are counted and made as by going over all numbers.
#[test]
fn rows_of_a_location() {
    for (bounds, twins) in [
        (&[3][..], &[0][..]),
        (&[2, 3], &[0, 1]),
        (&[2, 2], &[0, 0]),
        (&[1, 2, 1], &[0, 1, 0]),
        (&[2, 1, 1, 2], &[0, 1, 1, 0]),
        (&[1, 0, 2, 1], &[0, 1, 2, 3]),
        (&[1, 1, 1, 1], &[0, 0, 0, 0]),
    ] {
        let automaton = automaton(bounds, &[false, false], vec![]);
        let all = all_rows(&automaton, 100_000).expect("few rows");
        assert_eq!(count_rows(bounds) * 2, all.len() as u64);
        let is_equal = |row: &Region, clock: usize| {
            let twin = twins[clock];
            (row.interval(clock), row.rank(clock)) == (row.interval(twin), row.rank(twin))
        };
        let expected: Vec<Region> = all
            .into_iter()
            .filter(|row| row.location() == 1 && (0..twins.len()).all(|z| is_equal(row, z)))
            .collect();
        assert_eq!(rows_of(1, bounds, twins), expected);
    }
}

/// Judges by the number of rows, and ends after some candidates.
struct Counting {
    left: u64,
}

impl Judge for Counting {
    fn score_above(&mut self, floor: f64, candidate: &Candidate) -> Option<f64> {
        self.left -= 1;
        let score = candidate.start().len() as f64;
        (score > floor).then_some(score)
    }

    fn is_over(&self) -> bool {
        self.left == 0
    }
}

/// The best scores that a search goes through, and what it finds in the end.
fn climbed(seed: u64, candidates: u64) -> (Vec<f64>, Candidate) {
    let mut judge = Counting { left: candidates };
    let mut search = Search::new(&mut judge, Candidate::random, seed);
    let mut scores = Vec::new();
    search.run(&mut |search, is_best| {
        let best = search.best.as_ref().map(|found| found.score);
        scores.extend(best.filter(|_| is_best));
    });
    assert_eq!(search.tried, candidates);
    let best = search.best.expect("something was found");
    assert_eq!(scores.last(), Some(&best.score));
    (scores, best.candidate)
}

#[test]
fn a_search_climbs_and_can_be_repeated() {
    let (scores, best) = climbed(30_714, 900);
    assert!(scores.windows(2).all(|pair| pair[0] < pair[1]));
    assert!(best.start().len() > 4_000, "{best}");
    assert_eq!(climbed(30_714, 900), (scores, best));
}

/// The benchmark's tables are admitted, and the lists that have been timed before are as long as they were.
#[test]
fn timed_lists_are_fixed() {
    let lists = timed_lists();
    for timed in &lists {
        let table = timed.table();
        let expected = Answer::Accepted(table.records() as u32);
        assert_eq!(admit(&encode_table(&table)), expected, "{}", timed.name);
    }
    let length = |name: &str| {
        let timed = lists.iter().find(|timed| timed.name == name);
        timed.expect(name).listed().len()
    };
    assert_eq!(length("typical list"), 3_814);
    assert_eq!(length("deterministic updates"), 3_952);
    assert_eq!(length("F1"), 3_955);
    assert_eq!(length("A"), 4_046);
    assert_eq!(length("mixed edges"), 2_414);
}

/// The table with these edges alone.
fn with_edges(lists: &OpenList, edges: &[&Edge]) -> Automaton {
    Automaton {
        edges: edges.iter().map(|edge| (*edge).clone()).collect(),
        ..lists.automaton.clone()
    }
}

/// The first row that lacks a next row by waiting or by one edge.
fn first_open_by(lists: &OpenList, edge: &Edge) -> Option<u16> {
    let automaton = with_edges(lists, &[edge]);
    let mut places = lacking_places(&automaton, &lists.open);
    places.next()
}

/// Of the edges that are looked at each lowers the place, from near the end of the list on and by a few
/// rows for each edge.
fn opens_earlier_by_each(name: &str, lists: &OpenList) {
    const STEP: usize = 15;
    let last = lists.open.len() as u16;
    let places = lists.automaton.edges.iter().step_by(STEP);
    let places: Vec<u16> = places
        .map(|edge| first_open_by(lists, edge).expect(name))
        .collect();
    assert!(last - places[0] < 100, "{name}: {places:?}");
    for pair in places.windows(2) {
        let lowered = i32::from(pair[0]) - i32::from(pair[1]);
        assert!(
            (1..20 * STEP as i32).contains(&lowered),
            "{name}: {places:?}"
        );
    }
}

/// The refused lists have 256 edges and thousands of rows, and lack rows that only edges lead to.
#[test]
fn refused_lists_are_open_by_edges_alone() {
    for timed in refused_lists() {
        let lists = timed.lists();
        let table = encode_table(&lists.automaton);
        let records = lists.automaton.records() as u32;
        assert_eq!(admit(&table), Answer::Accepted(records), "{}", timed.name);
        assert_eq!(lists.automaton.edges.len(), GREATEST_EDGES);
        assert!((2_000..=usize::from(GREATEST_ROWS)).contains(&lists.closed.len()));
        assert!(lists.open.len() < lists.closed.len());
        let without_edges = with_edges(&lists, &[]);
        let waiting = lacking_places(&without_edges, &lists.open).next();
        assert_eq!(waiting, None, "{}", timed.name);
    }
}

/// By which edges the rows are open, as the names say.
#[test]
fn refused_lists_are_as_named() {
    for timed in refused_lists() {
        let (name, lists) = (timed.name, timed.lists());
        let edges = &lists.automaton.edges;
        let (last, others) = edges.split_last().expect("256 edges");
        assert_eq!(first_open_by(&lists, last), Some(timed.place), "{name}");
        if name.starts_with("last edge open") {
            assert!(others.iter().all(|edge| *edge == others[0]), "{name}");
            assert_eq!(first_open_by(&lists, &others[0]), None, "{name}");
        } else if name.starts_with("most rows open") {
            assert!(others.iter().all(|edge| edge == last), "{name}");
            let open = lacking_places(&with_edges(&lists, &[last]), &lists.open).count();
            assert!(6 * open > 5 * lists.open.len(), "{name}: {open}");
        } else {
            assert!(name.starts_with("each edge opens earlier"), "{name}");
            opens_earlier_by_each(name, &lists);
        }
    }
}

#[test]
fn edges_are_put_in_words() {
    let updates = [
        Update::Keep,
        constant(Equal, 0),
        clock(AtLeast, 1, -49),
        clock(NotEqual, 2, 0),
    ];
    let free = edge(0, 1, &[], &updates);
    let text = "from 0 to 1: x0 kept, x1 := 0, x2 :≥ x1 − 49, x3 :≠ x2";
    assert_eq!(words::edge(&free), text);
    let guards = [guard(0, Less, 3), guard(1, AtMost, 0)];
    let guarded = edge(2, 2, &guards, &[clock(Greater, 0, 127)]);
    let text = "from 2 to 2 if x0 < 3 and x1 ≤ 0: x0 :> x0 + 127";
    assert_eq!(words::edge(&guarded), text);
    assert_eq!(words::numbers(&[2, 51, 1]), "2, 51, 1");
}
