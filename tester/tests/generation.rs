//! The generated cases: files read back as written, every refusal number met,
//! answers that hold together.

mod common;
use common::{constant, hex, AtLeast, NotEqual};

use std::collections::BTreeMap;
use tzelmaruf_tester::admit::admitted;
use tzelmaruf_tester::answer::Answer;
use tzelmaruf_tester::automaton::{Automaton, Edge, Update};
use tzelmaruf_tester::format::{encode_table, parse_table, Reader};
use tzelmaruf_tester::generate::{
    admit_case, follow_case, regions_case, run_case, seed, tables, Random, Shape,
};
use tzelmaruf_tester::region::{is_whole, row_length, top, Region};
use tzelmaruf_tester::region_list::{encode_regions, parse_regions, read_row};
use tzelmaruf_tester::run::{encode_run, parse_run};
use tzelmaruf_tester::successor::by_intervals::{guard_holds, is_enabled};
use tzelmaruf_tester::{admit, check_regions, check_run, follow};

/// How often each refusal number came (0 stands for acceptance), and each
/// accepted count; those from 8 on are counted together.
#[derive(Default)]
struct Tally {
    numbers: BTreeMap<u8, usize>,
    counts: BTreeMap<u32, usize>,
}

impl Tally {
    fn count(&mut self, answer: Answer) {
        let number = match answer {
            Answer::Accepted(count) => {
                *self.counts.entry(count.min(8)).or_default() += 1;
                0
            }
            Answer::Refused { number, .. } => number,
        };
        *self.numbers.entry(number).or_default() += 1;
    }

    /// Each number comes, none comes that the call doesn't have.
    fn assert_numbers(&self, call: &str, least: usize, numbers: &[u8]) {
        println!("{call}: numbers {:?}", self.numbers);
        println!("{call}: counts {:?}", self.counts);
        for number in numbers {
            let times = self.numbers.get(number).copied().unwrap_or(0);
            assert!(times >= least, "{call}: {number} came {times} times");
        }
        let known = self.numbers.keys().all(|number| numbers.contains(number));
        assert!(known, "{call}");
    }
}

const CASES: usize = 60_000;
const LARGE_ONCE_IN: usize = 50;

#[test]
fn admit_cases() {
    let seed = seed(20_501);
    println!("seed {seed}: {CASES} cases");
    let mut tally = Tally::default();
    for case in 0..CASES as u64 {
        let mut random = Random::of_case(seed, case);
        let table = admit_case(&mut random, LARGE_ONCE_IN);
        let answer = admit(&table);
        tally.count(answer);
        if let Ok(automaton) = parse_table(&table) {
            assert_eq!(encode_table(&automaton), table, "{}", hex(&table));
        }
    }
    tally.assert_numbers("admit", 100, &[0, 1, 2, 3, 4, 5, 6]);
}

#[test]
fn run_cases() {
    let seed = seed(20_502);
    println!("seed {seed}: {CASES} cases");
    let mut tally = Tally::default();
    for case in 0..CASES as u64 {
        let mut random = Random::of_case(seed, case);
        let pair = run_case(&mut random, LARGE_ONCE_IN);
        tally.count(check_run(&pair.table, &pair.list));
        let automaton = parse_table(&pair.table);
        if let Some(run) = automaton.ok().and_then(|a| parse_run(&a, &pair.list).ok()) {
            assert_eq!(encode_run(&run), pair.list, "{}", hex(&pair.list));
        }
    }
    tally.assert_numbers(
        "check run",
        20,
        &[0, 1, 2, 3, 4, 5, 6, 7, 8, 9, 10, 11, 12, 13],
    );
}

#[test]
fn regions_cases() {
    let seed = seed(20_503);
    println!("seed {seed}: {CASES} cases");
    let mut tally = Tally::default();
    for case in 0..CASES as u64 {
        let mut random = Random::of_case(seed, case);
        let pair = regions_case(&mut random, LARGE_ONCE_IN);
        let answer = check_regions(&pair.table, &pair.list);
        tally.count(answer);
        let Ok(automaton) = parse_table(&pair.table) else {
            continue;
        };
        if let Ok(rows) = parse_regions(&automaton, &pair.list) {
            let list = encode_regions(automaton.clocks(), &rows);
            assert_eq!(list, pair.list, "{}", hex(&pair.list));
        }
    }
    tally.assert_numbers(
        "check regions",
        20,
        &[0, 1, 2, 3, 4, 5, 6, 7, 8, 9, 14, 15, 16, 17],
    );
}

#[test]
fn follow_cases() {
    let seed = seed(20_504);
    println!("seed {seed}: {CASES} cases");
    let mut tally = Tally::default();
    for case in 0..CASES as u64 {
        let mut random = Random::of_case(seed, case);
        let input = follow_case(&mut random, LARGE_ONCE_IN);
        let mut buffer = input.buffer.clone();
        let answer = follow(&input.table, &input.row, input.number, &mut buffer);
        tally.count(answer);
        let written = written_bytes(&input.table, answer, &buffer);
        let text = || format!("{} row {}", hex(&input.table), hex(&input.row));
        assert_eq!(buffer[written..], input.buffer[written..], "{}", text());
    }
    tally.assert_numbers("follow", 20, &[0, 1, 2, 3, 4, 5, 6, 7, 8, 9, 18, 19]);
}

/// The length of the rows written, which are rows of the table and ascend strictly.
fn written_bytes(table: &[u8], answer: Answer, buffer: &[u8]) -> usize {
    let Answer::Accepted(count) = answer else {
        return 0;
    };
    let automaton = parse_table(table).unwrap();
    let written = count as usize * row_length(automaton.clocks());
    let mut reader = Reader::new(&buffer[..written]);
    let rows: Vec<Region> = (0..count)
        .map(|_| read_row(&mut reader, &automaton).unwrap())
        .collect();
    let ascending = rows.windows(2).all(|pair| pair[0] < pair[1]);
    assert!(ascending, "{}", hex(table));
    written
}

/// Tables of every size are admitted, and spoiled ones are refused by 5 or 6 alone.
#[test]
fn tables_of_every_size() {
    let seed = seed(20_505);
    let mut random = Random::new(seed);
    let mut tally = Tally::default();
    for index in 0..3_000 {
        let shape = match index % 10 {
            0 => Shape::greatest(),
            1..=4 => Shape::any(&mut random),
            _ => Shape::small(&mut random),
        };
        let automaton = tables::admitted(&mut random, shape);
        let table = encode_table(&automaton);
        let expected = Answer::Accepted(automaton.records() as u32);
        assert_eq!(admit(&table), expected, "seed {seed}: {}", hex(&table));
        assert_eq!(parse_table(&table), Ok(automaton), "seed {seed}");
        let spoiled = tables::nearly_admitted(&mut random, shape);
        tally.count(admit(&encode_table(&spoiled)));
    }
    println!("seed {seed}: 3000 tables");
    tally.assert_numbers("nearly admitted", 100, &[0, 5, 6]);
}

/// Where '≠' stands in the edges that are followed, and how often.
type Uses = BTreeMap<&'static str, usize>;

/// What the '≠' of an edge have to do with a row of its source.
fn uses_from(automaton: &Automaton, edge: &Edge, row: Region) -> Vec<&'static str> {
    let guards = edge.guards.iter();
    let guards = guards.filter(|guard| guard.comparison == NotEqual);
    let mut uses: Vec<_> = guards
        .map(|guard| match guard_holds(row, guard) {
            true => "guard that holds",
            false => "guard that fails",
        })
        .collect();
    if is_enabled(edge, row) {
        let updates = edge.updates.iter().enumerate();
        let updates = updates.filter(|(_, update)| update.comparison() == Some(NotEqual));
        uses.extend(updates.flat_map(|(own, update)| uses_of_update(automaton, row, own, *update)));
    }
    uses
}

fn uses_of_update(
    automaton: &Automaton,
    row: Region,
    own: usize,
    update: Update,
) -> Vec<&'static str> {
    let Update::Clock { clock, offset, .. } = update else {
        return vec!["constant"];
    };
    let y = usize::from(clock);
    let (interval, rank) = (row.interval(y), row.rank(y));
    let term = i16::from(interval) + 2 * offset;
    if interval == top(automaton.bounds[y]) {
        vec!["clock at the top"]
    } else if term < 0 {
        vec!["clock plus offset below 0"]
    } else if term >= i16::from(top(automaton.bounds[own])) {
        vec!["clock plus offset above the bound"]
    } else if is_whole(interval) {
        vec!["clock at a whole value"]
    } else {
        let is_shared = (0..automaton.clocks()).any(|z| z != y && row.rank(z) == rank);
        let mut uses = vec!["clock between whole values"];
        uses.extend(is_shared.then_some("clock with the same part as another"));
        uses
    }
}

/// '≠' comes in all places and from rows that tell its cases apart.
#[test]
fn not_equal_comes_everywhere() {
    let seed = seed(20_506);
    println!("seed {seed}: {CASES} cases");
    let mut uses = Uses::new();
    for case in 0..CASES as u64 {
        let input = follow_case(&mut Random::of_case(seed, case), LARGE_ONCE_IN);
        let Ok(automaton) = admitted(&input.table) else {
            continue;
        };
        let Ok(row) = read_row(&mut Reader::new(&input.row), &automaton) else {
            continue;
        };
        let edge = automaton.edges.get(usize::from(input.number));
        if let Some(edge) = edge.filter(|edge| edge.source == row.location()) {
            for each in uses_from(&automaton, edge, row) {
                *uses.entry(each).or_default() += 1;
            }
        }
    }
    println!("{uses:?}");
    for each in [
        "guard that holds",
        "guard that fails",
        "constant",
        "clock at the top",
        "clock plus offset below 0",
        "clock plus offset above the bound",
        "clock at a whole value",
        "clock between whole values",
        "clock with the same part as another",
    ] {
        let times = uses.get(each).copied().unwrap_or(0);
        assert!(times >= 100, "seed {seed}: {each} came {times} times");
    }
}

/// A name, and what makes some of an edge's '≠' hold always.
type Freeing = (&'static str, fn(&mut Edge));

/// Those of guards, of constant or of clock updates.
const FREEING: [Freeing; 3] = [
    ("guard", |edge| {
        edge.guards.retain(|guard| guard.comparison != NotEqual)
    }),
    ("constant", |edge| {
        free_updates(edge, |update| matches!(update, Update::Constant { .. }))
    }),
    ("clock", |edge| {
        free_updates(edge, |update| matches!(update, Update::Clock { .. }))
    }),
];

fn free_updates(edge: &mut Edge, is_meant: fn(&Update) -> bool) {
    for update in &mut edge.updates {
        if update.comparison() == Some(NotEqual) && is_meant(update) {
            *update = constant(AtLeast, 0);
        }
    }
}

/// How often an answer would be another if '≠' always held, by call and by where it stands.
type Decided = BTreeMap<(&'static str, &'static str), usize>;

fn count_decided<A: PartialEq>(
    decided: &mut Decided,
    call: &'static str,
    automaton: &Automaton,
    answer: impl Fn(&[u8]) -> A,
) {
    let given = answer(&encode_table(automaton));
    for (place, free) in FREEING {
        let mut freed = automaton.clone();
        freed.edges.iter_mut().for_each(free);
        let is_decided = answer(&encode_table(&freed)) != given;
        *decided.entry((call, place)).or_default() += usize::from(is_decided);
    }
}

/// In each call there are answers that '≠' decides, in guards, constant updates and clock updates.
#[test]
fn not_equal_decides_answers() {
    let seed = seed(20_507);
    println!("seed {seed}: {CASES} cases");
    let mut decided = Decided::new();
    for case in 0..CASES as u64 {
        let mut random = Random::of_case(seed, case);
        let table = admit_case(&mut random, LARGE_ONCE_IN);
        if let Ok(automaton) = parse_table(&table) {
            count_decided(&mut decided, "admission", &automaton, admit);
        }
        // The other calls are asked only about tables that they look at the paper for.
        let pair = run_case(&mut random, LARGE_ONCE_IN);
        if let Ok(automaton) = admitted(&pair.table) {
            let checked = |table: &[u8]| check_run(table, &pair.list);
            count_decided(&mut decided, "run", &automaton, checked);
        }
        let pair = regions_case(&mut random, LARGE_ONCE_IN);
        if let Ok(automaton) = admitted(&pair.table) {
            let checked = |table: &[u8]| check_regions(table, &pair.list);
            count_decided(&mut decided, "region list", &automaton, checked);
        }
        let input = follow_case(&mut random, LARGE_ONCE_IN);
        if let Ok(automaton) = admitted(&input.table) {
            let followed = |table: &[u8]| {
                let mut buffer = input.buffer.clone();
                let answer = follow(table, &input.row, input.number, &mut buffer);
                (answer, buffer)
            };
            count_decided(&mut decided, "following", &automaton, followed);
        }
    }
    println!("{decided:?}");
    let least = decided.values().min();
    assert!(least >= Some(&40), "seed {seed}: {decided:?}");
}
