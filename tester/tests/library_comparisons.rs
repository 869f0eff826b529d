//! Every comparison in every place of an edge, by hand: what it makes of a table's
//! verdict, which next rows it leads to, which bytes stand for it. The checker,
//! the rules and, for next rows, concrete points have to agree.

mod common;
use common::*;

use std::fmt;
use tzelmaruf_tester::answer::Answer;
use tzelmaruf_tester::automaton::{Automaton, Comparison, Guard, Update};
use tzelmaruf_tester::compare::{wide, Comparer, Met};
use tzelmaruf_tester::explore::closure;
use tzelmaruf_tester::format::{encode_table, table_records};
use tzelmaruf_tester::generate::tables;
use tzelmaruf_tester::region::{all_rows, row_length, top, Region};
use tzelmaruf_tester::region_list::encode_regions;
use tzelmaruf_tester::run::encode_run;
use tzelmaruf_tester::successor::{by_points, NextRows};
use tzelmaruf_tester::{library, needs_checker, needs_probe, verdict};

needs_checker!();
needs_probe!();

/// Whether a comparison holds below, at and above what it compares with.
const HOLDS: [(Comparison, [bool; 3]); 6] = [
    (Less, [true, false, false]),
    (AtMost, [true, true, false]),
    (Equal, [false, true, false]),
    (AtLeast, [false, true, true]),
    (Greater, [false, false, true]),
    (NotEqual, [true, false, true]),
];

/// Below, at and above as comparisons.
const ORDERS: [Comparison; 3] = [Less, Equal, Greater];

/// A table with a comparison in some place, whose final location is entered just
/// if the comparison holds in one order.
type Place = fn(Comparison, usize) -> Automaton;

/// One step: the clock is below, at or above 1.
fn in_a_guard(comparison: Comparison, order: usize) -> Automaton {
    let guards = [guard(0, comparison, 1), guard(0, ORDERS[order], 1)];
    let step = edge(0, 1, &guards, &[Update::Keep]);
    automaton(&[1], &[false, true], vec![step])
}

/// Two steps: the first one updates clock 0, and without any time between, which
/// the last clock tells, the second one asks whether it is below, at or above 1.
fn in_an_update(bounds: &[u8], guards: &[Guard], update: Update, order: usize) -> Automaton {
    let last = bounds.len() - 1;
    let mut updates = vec![Update::Keep; bounds.len()];
    updates[0] = update;
    updates[last] = constant(Equal, 0);
    let asked = [guard(last as u8, Equal, 0), guard(0, ORDERS[order], 1)];
    let keep = vec![Update::Keep; bounds.len()];
    let steps = vec![edge(0, 1, guards, &updates), edge(1, 2, &asked, &keep)];
    automaton(bounds, &[false, false, true], steps)
}

fn in_a_constant_update(comparison: Comparison, order: usize) -> Automaton {
    in_an_update(&[1, 0], &[], constant(comparison, 1), order)
}

/// Clock 1 plus the offset is 1.
fn in_a_clock_update(comparison: Comparison, offset: i16, order: usize) -> Automaton {
    let value = (1 - offset) as u8;
    let guards = [guard(1, Equal, value)];
    let update = clock(comparison, 1, offset);
    in_an_update(&[1, value, 0], &guards, update, order)
}

fn with_an_offset_above_0(comparison: Comparison, order: usize) -> Automaton {
    in_a_clock_update(comparison, 1, order)
}

fn with_offset_0(comparison: Comparison, order: usize) -> Automaton {
    in_a_clock_update(comparison, 0, order)
}

fn with_an_offset_below_0(comparison: Comparison, order: usize) -> Automaton {
    in_a_clock_update(comparison, -1, order)
}

/// Clock 1 is between 0 and 1, and so the order of two fractional parts decides.
/// Which one is greater shows when one of the clocks gets to 1.
fn in_parts(comparison: Comparison, order: usize) -> Automaton {
    let between = [guard(1, Greater, 0), guard(1, Less, 1)];
    let asked = match ORDERS[order] {
        Less => [guard(0, Less, 1), guard(1, Equal, 1)],
        Equal => [guard(0, Equal, 1), guard(1, Equal, 1)],
        _ => [guard(0, Equal, 1), guard(1, Less, 1)],
    };
    let updates = [clock(comparison, 1, 0), Update::Keep];
    let steps = vec![
        edge(0, 1, &between, &updates),
        edge(1, 2, &asked, &[Update::Keep; 2]),
    ];
    automaton(&[1, 1], &[false, false, true], steps)
}

/// Each place, and the refusal of a step that a comparison there forbids.
const PLACES: [(&str, Place, u8); 6] = [
    ("guard", in_a_guard, 11),
    ("constant update", in_a_constant_update, 12),
    ("clock plus 1", with_an_offset_above_0, 12),
    ("clock", with_offset_0, 12),
    ("clock minus 1", with_an_offset_below_0, 12),
    ("parts", in_parts, 12),
];

/// A table and the paper that its verdict rests on: a run or a closed list.
struct Verdict {
    automaton: Automaton,
    table: Vec<u8>,
    is_reached: bool,
    paper: Vec<u8>,
}

impl Verdict {
    /// By exploring the table; both sides take the paper, and the line is as it should be.
    fn new(comparer: &mut Comparer, case: fmt::Arguments, automaton: Automaton) -> Verdict {
        let table = encode_table(&automaton);
        let found = closure(&automaton, 4_096);
        assert!(!found.is_capped, "{case}");
        let run = found.concrete_run(&automaton);
        let is_reached = run.is_some();
        let (paper, met, line) = match run.and_then(|run| run.scaled(1)) {
            Some(run) => {
                let (paper, steps) = (encode_run(&run), run.steps.len());
                let met = comparer.run(case, &table, &paper);
                (paper, met, format!("REACHED {steps}"))
            }
            None => {
                let paper = encode_regions(automaton.clocks(), &found.rows);
                let met = comparer.regions(case, &table, &paper);
                (paper, met, format!("EMPTY {}", found.rows.len()))
            }
        };
        assert_eq!(met.number, 0, "{case}");
        assert_eq!(verdict::line(&table, &paper), line, "{case}");
        Verdict {
            automaton,
            table,
            is_reached,
            paper,
        }
    }

    /// A table that is reached has no closed list: not its rows, nor those outside final locations.
    fn has_no_list(&self, comparer: &mut Comparer, case: fmt::Arguments) {
        let mut rows = closure(&self.automaton, 4_096).rows;
        let clocks = self.automaton.clocks();
        let met = comparer.regions(case, &self.table, &encode_regions(clocks, &rows));
        assert_eq!(met.number, 15, "{case}");
        rows.retain(|row| !self.automaton.is_final(row.location()));
        let met = comparer.regions(case, &self.table, &encode_regions(clocks, &rows));
        assert_eq!(met.number, 17, "{case}");
    }
}

/// The paper of a table that is reached is refused for one that is empty, at the step where the
/// comparison stands, and the other way round.
fn exchange_papers(
    comparer: &mut Comparer,
    case: fmt::Arguments,
    reached: &Verdict,
    empty: &Verdict,
    number: u8,
) {
    let met = comparer.run(case, &empty.table, &reached.paper);
    assert_eq!((met.number, met.place), (number, 1), "{case}");
    let met = comparer.regions(case, &reached.table, &empty.paper);
    assert_eq!(met.number, 17, "{case}");
}

/// Each place and order: reached with the comparisons that hold there, empty with the others. So
/// '≠' is empty at, where '≤' is reached, and reached above, where '≤' is empty.
#[test]
fn verdicts() {
    let mut comparer = Comparer::new("verdicts");
    for (name, place, number) in PLACES {
        for order in 0..ORDERS.len() {
            let verdicts = HOLDS.map(|(comparison, holds)| {
                let case = format_args!("{name} {comparison:?} asked {:?}", ORDERS[order]);
                let verdict = Verdict::new(&mut comparer, case, place(comparison, order));
                assert_eq!(verdict.is_reached, holds[order], "{case}");
                verdict
            });
            let (reached, empty): (Vec<_>, Vec<_>) =
                verdicts.iter().partition(|verdict| verdict.is_reached);
            let case = format_args!("{name} asked {:?}", ORDERS[order]);
            for one in &reached {
                one.has_no_list(&mut comparer, case);
                for other in &empty {
                    exchange_papers(&mut comparer, case, one, other, number);
                }
            }
        }
    }
    comparer.finish(&[0, 11, 12, 15, 17]);
}

/// Clock 1 minus 1 is below 0, so that every value from 0 on is above it: '≥', '>' and '≠' allow
/// all of them, 0 too, and the others none.
#[test]
fn verdicts_below_0() {
    let mut comparer = Comparer::new("verdicts below 0");
    for (comparison, [_, _, above]) in HOLDS {
        for asked in [(AtMost, 0), (Less, 1), (Equal, 1), (Greater, 1)] {
            let guards = [guard(1, Equal, 0)];
            let update = clock(comparison, 1, -1);
            let mut automaton = in_an_update(&[1, 2, 0], &guards, update, 0);
            automaton.edges[1].guards[1] = guard(0, asked.0, asked.1);
            let case = format_args!("{comparison:?} asked {asked:?}");
            let verdict = Verdict::new(&mut comparer, case, automaton);
            assert_eq!(verdict.is_reached, above, "{case}");
        }
    }
    comparer.finish(&[0]);
}

/// The next rows by the only edge, on which the checker and the rules agree.
fn followed(comparer: &mut Comparer, automaton: &Automaton, row: Region) -> Vec<Region> {
    let rows: Vec<Region> = NextRows::new(automaton, &automaton.edges[0], row).collect();
    let table = encode_table(automaton);
    let record = row.record(automaton.clocks());
    let buffer = vec![0xEE; rows.len() * row_length(automaton.clocks()) + 5];
    let case = format_args!("rows");
    let met = comparer.follow(case, &table, &record, 0, &buffer);
    assert_eq!((met.number, met.place as usize), (0, rows.len()));
    rows
}

/// The same, and concrete points agree too.
fn followed_by_points(comparer: &mut Comparer, automaton: &Automaton, row: Region) {
    let rows = followed(comparer, automaton, row);
    let points = by_points(automaton, &automaton.edges[0], row);
    let table = hex(&encode_table(automaton));
    assert!(rows.iter().eq(&points), "table {table} row {row:?}");
}

/// One location and one edge without guards, from it to itself.
fn one_edge(bounds: &[u8], updates: &[Update]) -> Automaton {
    automaton(bounds, &[false], vec![edge(0, 0, &[], updates)])
}

/// Each comparison as each of eight guards, the others holding, from every row.
#[test]
fn next_rows_with_guards() {
    let mut comparer = Comparer::new("next rows with guards");
    let bounds = [2, 1];
    let mut automaton = one_edge(&bounds, &[Update::Keep, constant(AtMost, 1)]);
    let rows = all_rows(&automaton, 4_096).unwrap();
    for (position, own) in (0..8).flat_map(|position| [(position, 0), (position, 1)]) {
        for constant in 0..=bounds[own] {
            for comparison in Comparison::ALL {
                let mut guards = [guard(1, AtLeast, 0); 8];
                guards[position] = guard(own as u8, comparison, constant);
                automaton.edges[0].guards = guards.to_vec();
                for row in &rows {
                    followed_by_points(&mut comparer, &automaton, *row);
                }
            }
        }
    }
    comparer.finish(&[0]);
}

/// Each update of each clock, by each comparison, the other clocks kept, from every row: constants,
/// and clocks with offsets from the least on, also where clock plus offset is below 0.
fn each_update(bounds: &[u8], visit: &mut dyn FnMut(&Automaton, Region)) {
    for own in 0..bounds.len() {
        for update in all_updates(bounds, own) {
            let mut updates = vec![Update::Keep; bounds.len()];
            updates[own] = update;
            let automaton = one_edge(bounds, &updates);
            for row in all_rows(&automaton, 4_096).unwrap() {
                visit(&automaton, row);
            }
        }
    }
}

#[test]
fn next_rows_with_one_update() {
    let mut comparer = Comparer::new("next rows with one update");
    for bounds in [&[3][..], &[2, 1], &[0, 2], &[1, 2, 0], &[1, 1, 1]] {
        each_update(bounds, &mut |automaton, row| {
            followed_by_points(&mut comparer, automaton, row);
        });
    }
    comparer.finish(&[0]);
}

/// Four clocks have too many points to try.
#[test]
fn next_rows_with_one_update_of_four() {
    let mut comparer = Comparer::new("next rows with one update of four");
    for bounds in [[1, 2, 0, 1], [1, 1, 1, 1]] {
        each_update(&bounds, &mut |automaton, row| {
            followed(&mut comparer, automaton, row);
        });
    }
    comparer.finish(&[0]);
}

/// Two updates that are both compared, from every row. `successors.rs` holds the rules for these
/// against points.
#[test]
fn next_rows_with_two_updates() {
    let mut comparer = Comparer::new("next rows with two updates");
    for bounds in [[1, 1], [2, 1]] {
        let rows = all_rows(&one_edge(&bounds, &[]), 4_096).unwrap();
        for first in all_updates(&bounds, 0) {
            for second in all_updates(&bounds, 1) {
                let automaton = one_edge(&bounds, &[first, second]);
                for row in &rows {
                    followed(&mut comparer, &automaton, *row);
                }
            }
        }
    }
    comparer.finish(&[0]);
}

/// Here three updates together may leave no room that any two of them leave.
#[test]
fn next_rows_of_three_open_clocks() {
    let mut comparer = Comparer::new("next rows of three open clocks");
    comparisons_of_open_clocks(&mut |automaton, row| {
        followed(&mut comparer, automaton, row);
    });
    comparer.finish(&[0]);
}

/// In an open interval '≠' takes all positions but the one of the old part.
#[test]
fn not_equal_by_parts() {
    let mut comparer = Comparer::new("not equal by parts");
    let beside = one_edge(&[1, 1], &[clock(NotEqual, 1, 0), Update::Keep]);
    let next = followed(&mut comparer, &beside, row(&[1, 1], &[1, 1]));
    let due = [
        row(&[0, 1], &[0, 1]),
        row(&[1, 1], &[1, 2]),
        row(&[1, 1], &[2, 1]),
        row(&[2, 1], &[0, 1]),
        row(&[3, 1], &[0, 1]),
    ];
    assert_eq!(next, due);
    // It may take its own old part if that is another one, and may not if it is compared with it.
    let changed = one_edge(&[1, 1], &[clock(NotEqual, 0, 0), clock(Equal, 0, 0)]);
    let next = followed(&mut comparer, &changed, row(&[1, 1], &[2, 1]));
    assert_eq!(next, due);
    comparer.finish(&[0]);
}

/// a may not be below the old part, c not above it, and b not at it. Any two of the three may be
/// level, all three may not.
#[test]
fn not_equal_between_two_others() {
    let mut comparer = Comparer::new("not equal between two others");
    let updates = [
        clock(AtLeast, 1, 0),
        clock(NotEqual, 1, 0),
        clock(AtMost, 1, 0),
    ];
    let automaton = one_edge(&[1, 1, 1], &updates);
    let mut next = followed(&mut comparer, &automaton, row(&[1; 3], &[1; 3]));
    next.retain(|row| (0..3).all(|clock| row.interval(clock) == 1));
    let ranks = [
        [1, 2, 1],
        [2, 1, 1],
        [2, 1, 2],
        [2, 2, 1],
        [2, 3, 1],
        [3, 1, 2],
        [3, 2, 1],
    ];
    assert_eq!(next, ranks.map(|ranks| row(&[1; 3], &ranks)));
    comparer.finish(&[0]);
}

/// Where clock plus offset is above the bound, or below 0, '≠' leaves all values free.
#[test]
fn not_equal_is_free_at_the_top_and_below_0() {
    let mut comparer = Comparer::new("not equal at the top and below 0");
    let (mut at_the_top, mut above, mut below) = (0, 0, 0);
    for bounds in [[1, 3], [2, 1], [0, 2], [2, 2]] {
        let free = one_edge(&bounds, &[constant(AtLeast, 0), Update::Keep]);
        let least = tables::least_offset(&bounds, 0, 1);
        for offset in least..=least + 2 {
            let automaton = one_edge(&bounds, &[clock(NotEqual, 1, offset), Update::Keep]);
            for row in all_rows(&automaton, 4_096).unwrap() {
                let term = i16::from(row.interval(1)) + 2 * offset;
                let is_at_the_top = row.interval(1) == top(bounds[1]);
                let is_above = !is_at_the_top && term >= i16::from(top(bounds[0]));
                at_the_top += usize::from(is_at_the_top);
                above += usize::from(is_above);
                below += usize::from(term < 0);
                let is_free = is_at_the_top || is_above || term < 0;
                let next = followed(&mut comparer, &automaton, row);
                let all = followed(&mut comparer, &free, row);
                assert_eq!(next == all, is_free, "{bounds:?} {offset} {row:?}");
            }
        }
    }
    println!("{at_the_top} rows at the top, {above} above the bound, {below} below 0");
    assert!(at_the_top > 0 && above > 0 && below > 0);
    comparer.finish(&[0]);
}

/// Three edges, each with a guard, a constant update, a clock update and a kept clock.
fn with_all_kinds() -> Automaton {
    let updates = [constant(Less, 1), clock(Greater, 0, 1), Update::Keep];
    let step = edge(0, 1, &[guard(0, Less, 1)], &updates);
    automaton(&[1, 1, 1], &[false, false], vec![step; 3])
}

/// Where in such an edge a comparison stands, and the greatest byte that may stand there.
const COMPARISON_BYTES: [(usize, u8); 4] = [(6, 5), (9, 5), (14, 5), (19, 0)];

/// Every call of the checker and of the rules refuses the table alike.
fn assert_refused(comparer: &mut Comparer, case: fmt::Arguments, table: &[u8], due: Answer) {
    let same = |met: Met| assert_eq!(met.packed(), due.packed(), "{case}");
    same(comparer.admit(case, table));
    same(comparer.run(case, table, b"RN\0\x01\0\0"));
    same(comparer.regions(case, table, b"RL\0\0"));
    let mut row = *b"RW\0\0\0\0\0\0\0";
    let mut buffer = [0xEE; 40];
    let answer = library::follow(&mut table.to_vec(), &mut row, 0, &mut buffer);
    assert_eq!((answer, buffer), (wide(due), [0xEE; 40]), "{case}");
}

/// 0 to 5 are comparisons, all above meet refusal 3 at the edge's record; in a kept clock's update
/// only 0 may stand there.
#[test]
fn bytes_of_a_comparison() {
    let mut comparer = Comparer::new("bytes of a comparison");
    let records = table_records(&with_all_kinds());
    for (place, record) in records.iter().enumerate().skip(3) {
        for (at, greatest) in COMPARISON_BYTES {
            assert!(record[at] <= greatest);
            for byte in 0..=255 {
                let mut spoiled = records.clone();
                spoiled[place][at] = byte;
                let table = spoiled.concat();
                let case = format_args!("record {place} byte {at} is {byte}");
                if byte <= greatest {
                    let met = comparer.admit(case, &table);
                    assert_eq!((met.number, met.place), (0, 6), "{case}");
                } else {
                    assert_refused(&mut comparer, case, &table, refused(3, place as u16));
                }
            }
        }
    }
    comparer.finish(&[0, 3]);
}
