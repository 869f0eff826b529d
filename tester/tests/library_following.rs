//! The checker's following of a row against the rules: the answer, every byte of
//! the buffer, and the bytes around it.

mod common;
use common::*;

use std::fmt;
use tzelmaruf_tester::automaton::Automaton;
use tzelmaruf_tester::compare::{wide, Comparer, Fenced};
use tzelmaruf_tester::follow::{next_rows, WAIT};
use tzelmaruf_tester::format::{encode_table, table_records};
use tzelmaruf_tester::generate::systematic::*;
use tzelmaruf_tester::generate::{follow_case, rows, run_case, seed, tables, Random, Shape};
use tzelmaruf_tester::region::{all_rows, row_length, top, Region};
use tzelmaruf_tester::successor::by_intervals::is_enabled;
use tzelmaruf_tester::tally::OF_FOLLOWING;
use tzelmaruf_tester::{library, needs_probe};

needs_probe!();

const CASES: u64 = 100_000;
const LARGE_ONCE_IN: usize = 50;

#[test]
fn random_rows() {
    let seed = seed(30_401);
    println!("seed {seed}: {CASES} cases");
    let mut comparer = Comparer::new("random rows to follow");
    for case in 0..CASES {
        let input = follow_case(&mut Random::of_case(seed, case), LARGE_ONCE_IN);
        let text = format_args!("seed {seed} case {case}");
        let (table, row) = (&input.table, &input.row);
        comparer.follow(text, table, row, input.number, &input.buffer);
    }
    comparer.finish_with_positions(OF_FOLLOWING, &[1, 3, 5, 6]);
}

/// One row and one number with buffers of every telling size: empty, a byte,
/// one row, one byte too short, just long enough, longer by a byte and by rows.
fn follow_into_all(
    comparer: &mut Comparer,
    case: fmt::Arguments,
    automaton: &Automaton,
    row: Region,
    number: u16,
) {
    let table = encode_table(automaton);
    let record = row.record(automaton.clocks());
    let length = row_length(automaton.clocks());
    let count = next_rows(automaton, row, number).count();
    let exact = count * length;
    let mut sizes = vec![0, 1, length - 1, length, exact.saturating_sub(length)];
    sizes.extend([
        exact.saturating_sub(1),
        exact,
        exact + 1,
        exact + 2 * length + 3,
    ]);
    sizes.sort_unstable();
    sizes.dedup();
    for size in sizes {
        let case = format_args!("{case} row {row:?} number {number} size {size}");
        let met = comparer.follow(case, &table, &record, number, &patterned(size));
        let due = match size < exact {
            true => (19, 0),
            false => (0, count as u32),
        };
        assert_eq!((met.number, met.place), due, "{case}");
    }
}

/// How often an edge was taken, left from elsewhere, or failed a guard.
#[derive(Debug, Default)]
struct Followed {
    taken: usize,
    elsewhere: usize,
    guard_fails: usize,
    to_no_rows: usize,
    waits: usize,
}

/// Every edge and waiting from many rows of small automata, into every buffer.
#[test]
fn every_edge_and_waiting() {
    let seed = seed(30_402);
    println!("seed {seed}: 300 automata");
    let mut comparer = Comparer::new("every edge and waiting");
    let mut followed = Followed::default();
    for number in 0..300 {
        let mut random = Random::of_case(seed, number);
        let shape = Shape::small(&mut random);
        let automaton = tables::admitted(&mut random, shape);
        let case = format_args!("seed {seed} case {number}");
        for _ in 0..4 {
            let row = rows::row(&mut random, &automaton);
            follow_into_all(&mut comparer, case, &automaton, row, WAIT);
            followed.waits += 1;
            for (number, edge) in automaton.edges.iter().enumerate() {
                follow_into_all(&mut comparer, case, &automaton, row, number as u16);
                let is_elsewhere = edge.source != row.location();
                let fails = !is_elsewhere && !is_enabled(edge, row);
                let leads_on = next_rows(&automaton, row, number as u16).next().is_some();
                followed.elsewhere += usize::from(is_elsewhere);
                followed.guard_fails += usize::from(fails);
                followed.taken += usize::from(leads_on);
                followed.to_no_rows += usize::from(!is_elsewhere && !fails && !leads_on);
            }
        }
    }
    println!("{followed:?}");
    assert!(followed.taken > 500 && followed.elsewhere > 500 && followed.guard_fails > 100);
    assert!(followed.to_no_rows > 10);
    comparer.finish(&[0, 19]);
}

/// How a walk that goes from each next row to the one after it steps: which of a row's numbers,
/// intervals and then ranks, is the first to change, so that those behind it had come to their
/// ends, and where it changes by more than one, so that a choice in the middle is left out.
#[derive(Debug)]
struct Walked {
    clocks: usize,
    changed: Vec<usize>,
    left_out: Vec<usize>,
    rows: usize,
    most_rows: usize,
    from_the_top: usize,
}

impl Walked {
    fn new(clocks: usize) -> Walked {
        Walked {
            clocks,
            changed: vec![0; 2 * clocks],
            left_out: vec![0; 2 * clocks],
            rows: 0,
            most_rows: 0,
            from_the_top: 0,
        }
    }

    fn count(&mut self, automaton: &Automaton, row: Region) {
        let numbers = |row: &Region| row.record(self.clocks)[3..].to_vec();
        let rows: Vec<_> = next_rows(automaton, row, 0)
            .map(|row| numbers(&row))
            .collect();
        for pair in rows.windows(2) {
            let (one, next) = (&pair[0], &pair[1]);
            let first = (0..one.len()).find(|at| one[*at] != next[*at]).unwrap();
            self.changed[first] += 1;
            self.left_out[first] += usize::from(next[first] - one[first] > 1);
        }
        let mut bounds = automaton.bounds.iter().enumerate();
        let is_at_the_top = bounds.any(|(clock, bound)| row.interval(clock) == top(*bound));
        self.rows += rows.len();
        self.most_rows = self.most_rows.max(rows.len());
        self.from_the_top += usize::from(is_at_the_top);
    }

    /// Each number was the first to change, the rank of an only clock aside, and by more than one
    /// each interval and, from three clocks on, some rank.
    fn finish(&self) {
        println!("{self:?}");
        let clocks = self.clocks;
        let numbers = if clocks == 1 { 1 } else { 2 * clocks };
        assert!(self.changed[..numbers].iter().all(|times| *times > 20));
        assert!(self.left_out[..clocks].iter().all(|times| *times > 20));
        assert!(clocks < 3 || self.left_out[clocks..].iter().sum::<usize>() > 20);
        assert!(self.from_the_top > 20);
    }
}

/// Edges that update one to four clocks in every way, mostly so that choices are left out, into
/// every buffer: each next row, also where a walk has to step back over all other numbers.
#[test]
fn choices_left_out() {
    let seed = seed(30_406);
    println!("seed {seed}: 2,000 edges for each number of clocks");
    let mut comparer = Comparer::new("choices left out");
    for clocks in 1..=4 {
        let mut walked = Walked::new(clocks);
        for number in 0..2_000 {
            let mut random = Random::of_case(seed, number);
            let (automaton, row) = edge_that_leaves_out(&mut random, clocks, 0);
            let case = format_args!("seed {seed} case {number} of {clocks} clocks");
            follow_into_all(&mut comparer, case, &automaton, row, 0);
            walked.count(&automaton, row);
        }
        walked.finish();
    }
    comparer.finish(&[0, 19]);
}

/// By hand: the first clock takes any value but 1, the second any but 0. So the interval 2 of the
/// first is left out in the middle, and the interval 0 of the second where it begins; behind the
/// last interval and the last ranks the walk steps back to the first clock.
#[test]
fn choices_left_out_by_hand() {
    let updates = [constant(NotEqual, 1), constant(NotEqual, 0)];
    let automaton = automaton(&[1, 1], &[false], vec![edge(0, 0, &[], &updates)]);
    let numbers = [
        [0, 1, 0, 1],
        [0, 2, 0, 0],
        [0, 3, 0, 0],
        [1, 1, 1, 1],
        [1, 1, 1, 2],
        [1, 1, 2, 1],
        [1, 2, 1, 0],
        [1, 3, 1, 0],
        [3, 1, 0, 1],
        [3, 2, 0, 0],
        [3, 3, 0, 0],
    ];
    let due: Vec<u8> = numbers
        .iter()
        .flat_map(|numbers| [b"RW\0", &numbers[..]].concat())
        .collect();
    let (mut table, mut row) = (
        encode_table(&automaton),
        Region::initial(&automaton).record(2),
    );
    let mut buffer = patterned(due.len() + 10);
    let answer = library::follow(&mut table, &mut row, 0, &mut buffer);
    assert_eq!(answer, 11);
    assert_eq!(buffer[..due.len()], due);
    assert_eq!(buffer[due.len()..], patterned(due.len() + 10)[due.len()..]);
    let mut short = patterned(due.len() - 1);
    let answer = library::follow(&mut table, &mut row, 0, &mut short);
    assert_eq!(answer, wide(refused(19, 0)));
    assert_eq!(short, patterned(due.len() - 1));
}

/// Waiting and two edges from all rows of one table.
#[test]
fn every_row() {
    let mut comparer = Comparer::new("every row");
    let guards = [guard(0, Less, 1)];
    let updates = [
        clock(Greater, 1, 1),
        clock(AtMost, 2, 0),
        clock(Equal, 0, 0),
    ];
    let edges = vec![
        edge(0, 0, &guards, &updates),
        edge(
            0,
            0,
            &[],
            &[
                clock(Less, 0, 0),
                constant(AtLeast, 1),
                clock(AtLeast, 1, 0),
            ],
        ),
    ];
    let automaton = automaton(&[2, 1, 1], &[false], edges);
    let rows = all_rows(&automaton, 4_096).unwrap();
    println!("{} rows", rows.len());
    for row in rows {
        for number in [0, 1, WAIT] {
            let case = format_args!("every row");
            follow_into_all(&mut comparer, case, &automaton, row, number);
        }
    }
    comparer.finish(&[0, 19]);
}

/// Numbers that are no edge's, up to 65,534, with buffers long and short.
#[test]
fn numbers_that_are_no_edge() {
    let seed = seed(30_403);
    println!("seed {seed}: 200 automata");
    let mut comparer = Comparer::new("numbers that are no edge");
    for case in 0..200 {
        let mut random = Random::of_case(seed, case);
        let shape = Shape::biased(&mut random, 4);
        let automaton = tables::admitted(&mut random, shape);
        let edges = automaton.edges.len() as u16;
        let table = encode_table(&automaton);
        let row = rows::row(&mut random, &automaton).record(automaton.clocks());
        for number in [edges, edges + 1, 256, 257, 32_768, 65_279, WAIT - 1] {
            for size in [0, 6, 400] {
                let text = format_args!("seed {seed} case {case}");
                let met = comparer.follow(text, &table, &row, number, &patterned(size));
                let is_edge = number < edges;
                assert!(is_edge || (met.number, met.place) == (18, 0), "{text}");
            }
        }
    }
    comparer.finish(&[18]);
}

/// The automaton the damage below is done to; its edge 1 can be taken from the row.
fn subject() -> (Automaton, Region) {
    let edges = vec![
        edge(
            0,
            1,
            &[guard(0, Equal, 2)],
            &[constant(Equal, 0), clock(Equal, 1, 0), clock(Less, 0, 1)],
        ),
        edge(
            1,
            0,
            &[guard(1, Less, 1)],
            &[
                clock(Greater, 1, 1),
                constant(AtMost, 1),
                clock(Equal, 2, 0),
            ],
        ),
    ];
    let automaton = automaton(&[2, 1, 3], &[false, true], edges);
    let row = Region::new(1, &[1, 1, 3], &[2, 1, 1]);
    (automaton, row)
}

/// All numbers and a long and a short buffer for one pair of files.
fn follow_all(comparer: &mut Comparer, case: fmt::Arguments, table: &[u8], row: &[u8]) {
    for number in [0, 1, 2, WAIT - 1, WAIT] {
        for size in [0, 9, 500] {
            let case = format_args!("{case} number {number}");
            comparer.follow(case, table, row, number, &patterned(size));
        }
    }
}

/// Every value of every byte of the row record, every cut, and bytes behind it.
#[test]
fn damage_to_the_row() {
    let mut comparer = Comparer::new("damage to the row");
    let (automaton, row) = subject();
    let table = encode_table(&automaton);
    let record = row.record(3);
    let mut see = |change: fmt::Arguments, spoiled: &[u8]| {
        follow_all(&mut comparer, change, &table, spoiled);
    };
    each_value(&record, &mut see);
    each_spoiled(std::slice::from_ref(&record), &mut see);
    for ranks in 0..216_u8 {
        let ranks = [ranks / 36, ranks / 6 % 6, ranks % 6];
        let spoiled = [&record[..6], &ranks].concat();
        see(format_args!("ranks {ranks:?}"), &spoiled);
    }
    comparer.finish(&[0, 7, 8, 9, 18, 19]);
}

/// Every spoiled form of the table; the row and the number may be wrong as well.
#[test]
fn damage_to_the_table() {
    let mut comparer = Comparer::new("damage to the table");
    let (automaton, row) = subject();
    let records = table_records(&automaton);
    let record = row.record(3);
    each_spoiled(&records, &mut |change, spoiled| {
        let longer = [&record[..], b"R"].concat();
        for row in [&record[..], &record[1..], &longer] {
            follow_all(&mut comparer, change, spoiled, row);
        }
    });
    comparer.finish_with_positions(OF_FOLLOWING, &[1, 3]);
}

/// Empty files, files exchanged or of another kind, files of a megabyte.
#[test]
fn odd_files() {
    let seed = seed(30_404);
    println!("seed {seed}");
    let mut comparer = Comparer::new("odd files to follow");
    let (automaton, row) = subject();
    let (table, record) = (encode_table(&automaton), row.record(3));
    let buffer = patterned(300);
    each_odd_file(&record, &mut |change, file| {
        comparer.follow(change, &table, file, 1, &buffer);
        comparer.follow(change, file, file, 1, &buffer);
    });
    each_odd_file(&table, &mut |change, file| {
        comparer.follow(change, file, &record, WAIT, &buffer);
    });
    for case in 0..1_000 {
        let mut random = Random::of_case(seed, case);
        let input = follow_case(&mut random, LARGE_ONCE_IN);
        let run = run_case(&mut random, LARGE_ONCE_IN);
        let text = format_args!("seed {seed} case {case}");
        comparer.follow(text, &input.row, &input.table, input.number, &buffer);
        comparer.follow(text, &run.table, &run.list, input.number, &buffer);
        comparer.follow(text, &run.table, &input.row, input.number, &buffer);
    }
    comparer.finish(&[0, 1, 7, 9]);
}

/// Edges to more rows than sixteen bits count, into a buffer that just holds
/// them, one that doesn't, and one that is longer.
#[test]
fn very_many_rows() {
    let mut comparer = Comparer::new("very many rows");
    let free = constant(AtLeast, 0);
    let left_out = [constant(NotEqual, 3), free, clock(NotEqual, 0, 0), free];
    for (bounds, updates) in [(&[127; 2][..], &[free; 2][..]), (&[5; 4], &left_out)] {
        let automaton = automaton(bounds, &[false], vec![edge(0, 0, &[], updates)]);
        let row = Region::initial(&automaton);
        let count = next_rows(&automaton, row, 0).count();
        assert!(count > 65_536);
        println!("{count} rows");
        follow_into_all(
            &mut comparer,
            format_args!("{bounds:?}"),
            &automaton,
            row,
            0,
        );
    }
    comparer.finish(&[0, 19]);
}

/// Clocks of the greatest bound that go to the last intervals, 253 to 255, and in turn one of them
/// that leaves out one interval of all, 254, or a part in 253.
#[test]
fn greatest_bounds() {
    let mut comparer = Comparer::new("greatest bounds");
    for clocks in 1..=4 {
        for own in 0..clocks {
            let mut updates = vec![constant(Greater, 126); clocks];
            updates[own] = clock(NotEqual, own as u8, 0);
            let bounds = vec![127; clocks];
            let automaton = automaton(&bounds, &[false], vec![edge(0, 0, &[], &updates)]);
            for interval in [253, 254] {
                let ranks = vec![u8::from(interval == 253); clocks];
                let row = row(&vec![interval; clocks], &ranks);
                let case = format_args!("{clocks} clocks, {own} not equal");
                follow_into_all(&mut comparer, case, &automaton, row, 0);
            }
        }
    }
    comparer.finish(&[0, 19]);
}

/// A row's last bytes lie right behind each cut; they make no difference.
#[test]
fn nothing_behind_the_end_is_read() {
    let seed = seed(30_405);
    println!("seed {seed}");
    for case in 0..1_000 {
        let mut input = follow_case(&mut Random::of_case(seed, case), 1_000);
        for length in 0..input.row.len() {
            let row = &mut input.row[..length];
            let (table, number) = (&mut input.table, input.number);
            let mut expected = Fenced::new(&input.buffer);
            let rules = tzelmaruf_tester::follow(table, row, number, expected.inside());
            let mut filled = Fenced::new(&input.buffer);
            let answer = library::follow(table, row, number, filled.inside());
            let case = format_args!("seed {seed} case {case} cut at {length}");
            assert_eq!(answer, wide(rules), "{case}: {rules:?}");
            assert_eq!(filled, expected, "{case}");
        }
    }
}
