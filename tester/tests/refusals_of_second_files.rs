//! Refusals 7 to 19: each at the first, a middle and the last place it can be
//! at, and pairs of faults where the order decides.

mod common;
use common::*;

use tzelmaruf_tester::answer::Answer;
use tzelmaruf_tester::automaton::{Automaton, Update};
use tzelmaruf_tester::explore::closure;
use tzelmaruf_tester::format::encode_table;
use tzelmaruf_tester::region::Region;
use tzelmaruf_tester::region_list::{encode_regions, region_records};
use tzelmaruf_tester::run::{encode_run, run_records, Run, Step};
use tzelmaruf_tester::{check_regions, check_run, follow};

/// x with bound 2, y with bound 1; three locations, the last one final.
/// Edge 0: 0 to 1 if x ≥ 1, y := 0. Edge 1: 1 to 1 if y < 1, x ≤ 2, y > x - 1.
/// Edge 2: 1 to 2 if x = 2, keep.
fn sound() -> Automaton {
    automaton(
        &[2, 1],
        &[false, false, true],
        vec![
            edge(
                0,
                1,
                &[guard(0, AtLeast, 1)],
                &[Update::Keep, constant(Equal, 0)],
            ),
            edge(
                1,
                1,
                &[guard(1, Less, 1)],
                &[constant(AtMost, 2), clock(Greater, 0, -1)],
            ),
            edge(1, 2, &[guard(0, Equal, 2)], &[Update::Keep, Update::Keep]),
        ],
    )
}

fn step(edge: u16, delay: u32, x: u32, y: u32) -> Step {
    let values = vec![x, y];
    Step {
        edge,
        delay,
        values,
    }
}

/// Scale 4. x 5, y 0; x 8, y 4; x 8, y 4.
fn sound_steps() -> Vec<Step> {
    vec![step(0, 5, 5, 0), step(1, 2, 8, 4), step(2, 0, 8, 4)]
}

fn run_answer(automaton: &Automaton, list: &[u8]) -> Answer {
    check_run(&encode_table(automaton), list)
}

fn assert_list(list: &[u8], expected: Answer) {
    assert_eq!(run_answer(&sound(), list), expected, "{}", hex(list));
}

fn assert_steps(steps: &[Step], expected: Answer) {
    let steps = steps.to_vec();
    assert_list(&encode_run(&Run { scale: 4, steps }), expected);
}

/// The sound steps with one of them replaced.
fn assert_replaced(replaced: &[(usize, Step)], expected: Answer) {
    let mut steps = sound_steps();
    for (index, step) in replaced {
        steps[*index] = step.clone();
    }
    assert_steps(&steps, expected);
}

fn sound_run() -> Run {
    let steps = sound_steps();
    Run { scale: 4, steps }
}

#[test]
fn runs_accepted() {
    assert_steps(&sound_steps(), Answer::Accepted(3));
    let mut at_once = sound();
    at_once.initial = 2;
    let steps = vec![];
    let empty = encode_run(&Run { scale: 1, steps });
    assert_eq!(run_answer(&at_once, &empty), Answer::Accepted(0));
    assert_list(&empty, refused(13, 0));
}

#[test]
fn runs_7_every_cut_and_mark() {
    let records = run_records(&sound_run());
    let whole = records.concat();
    let mut start = 0;
    for (place, record) in records.iter().enumerate() {
        for length in start..start + record.len() {
            assert_list(&whole[..length], refused(7, place as u16));
        }
        for letter in 0..2 {
            let mut list = whole.clone();
            list[start + letter] ^= 1;
            assert_list(&list, refused(7, place as u16));
        }
        start += record.len();
    }
    assert_list(b"RL\0\0", refused(7, 0));
    assert_list(b"RL\0\0\0\0", refused(7, 0));
    assert_list(&encode_table(&sound()), refused(7, 0));
}

#[test]
fn runs_8_fields() {
    let header = |scale: u16, steps: u16| {
        let fields = [scale.to_be_bytes(), steps.to_be_bytes()].concat();
        [&b"RN"[..], &fields].concat()
    };
    for (scale, steps) in [(0, 0), (10_001, 0), (65_535, 0), (1, 2_049), (1, 65_535)] {
        assert_list(&header(scale, steps), refused(8, 0));
    }
    assert_list(&header(10_000, 0), refused(13, 0));
    assert_list(&header(10_000, 2_048), refused(7, 1));
    // The header has to be there as a whole before its fields are tested.
    assert_list(&header(0, 0)[..5], refused(7, 0));
    for index in 0..3 {
        for edge in [3, 256, 65_535] {
            let place = index as u16 + 1;
            assert_replaced(&[(index, step(edge, 0, 0, 0))], refused(8, place));
        }
    }
}

#[test]
fn runs_9_and_order_of_reading() {
    let mut list = encode_run(&sound_run());
    list.push(0);
    assert_list(&list, refused(9, 4));
    assert_list(b"RN\0\x01\0\0ST", refused(9, 1));
    // Of 7 and 8 the one met first in the file.
    let mut records = run_records(&sound_run());
    records[1][2] = 1;
    records[2][0] = 0;
    assert_list(&records.concat(), refused(8, 1));
    let mut records = run_records(&sound_run());
    records[1][0] = 0;
    records[2][2] = 1;
    assert_list(&records.concat(), refused(7, 1));
    // A step's bytes are all there before its edge is tested; the mark comes first.
    let mut records = run_records(&sound_run());
    records[3][2] = 1;
    let cut = records.concat();
    assert_list(&cut[..cut.len() - 1], refused(7, 3));
    records[3][1] = 0;
    assert_list(&records.concat(), refused(7, 3));
    // 8 before 9; 9 before 10 to 13.
    let mut records = run_records(&sound_run());
    records[3][2] = 1;
    assert_list(&[&records.concat()[..], b"?"].concat(), refused(8, 3));
    let steps = vec![step(1, 0, 0, 0)];
    let elsewhere = encode_run(&Run { scale: 4, steps });
    assert_list(&elsewhere, refused(10, 1));
    assert_list(&[&elsewhere[..], b"?"].concat(), refused(9, 2));
}

#[test]
fn runs_10_to_12_at_each_step() {
    assert_replaced(&[(0, step(1, 5, 5, 0))], refused(10, 1));
    assert_replaced(&[(1, step(0, 2, 8, 4))], refused(10, 2));
    assert_replaced(&[(2, step(0, 0, 8, 4))], refused(10, 3));
    assert_replaced(&[(0, step(0, 3, 3, 0))], refused(11, 1));
    assert_replaced(&[(1, step(1, 4, 8, 4))], refused(11, 2));
    assert_replaced(&[(2, step(2, 1, 9, 5))], refused(11, 3));
    assert_replaced(&[(0, step(0, 5, 5, 1))], refused(12, 1));
    assert_replaced(&[(0, step(0, 5, 4, 0))], refused(12, 1));
    assert_replaced(&[(1, step(1, 2, 9, 4))], refused(12, 2));
    assert_replaced(&[(1, step(1, 2, 8, 3))], refused(12, 2));
    assert_replaced(&[(2, step(2, 0, 8, 5))], refused(12, 3));
}

#[test]
fn runs_order_of_10_to_13() {
    // In one step 10, then 11, then 12.
    assert_replaced(&[(0, step(1, 9, 9, 9))], refused(10, 1));
    assert_replaced(&[(1, step(0, 9, 99, 99))], refused(10, 2));
    assert_replaced(&[(1, step(1, 9, 99, 99))], refused(11, 2));
    // The earlier step first, whichever the number.
    let faults = [(0, step(0, 5, 5, 1)), (1, step(0, 0, 0, 0))];
    assert_replaced(&faults, refused(12, 1));
    let faults = [(1, step(1, 9, 8, 4)), (2, step(0, 0, 0, 0))];
    assert_replaced(&faults, refused(11, 2));
    // 13 last, with the count of steps.
    assert_steps(&sound_steps()[..2], refused(13, 2));
    assert_steps(&sound_steps()[..1], refused(13, 1));
    assert_steps(&[], refused(13, 0));
    let faults = [step(0, 5, 5, 0), step(1, 2, 9, 4)];
    assert_steps(&faults, refused(12, 2));
}

#[test]
fn runs_with_great_values() {
    // Four bytes each: a value and a delay may pass 32 bits together.
    let mut wide = sound();
    wide.edges[0] = edge(0, 0, &[], &[Update::Keep, constant(AtLeast, 0)]);
    wide.edges[1] = edge(0, 2, &[], &[constant(Greater, 1), clock(Equal, 1, 0)]);
    let great = u32::MAX;
    let steps = |second| {
        let steps = vec![step(0, great, great, great), second];
        encode_run(&Run { scale: 1, steps })
    };
    let exact = steps(step(1, 0, 2, great));
    assert_eq!(run_answer(&wide, &exact), Answer::Accepted(2));
    let wrapped = steps(step(1, 1, 2, 0));
    assert_eq!(run_answer(&wide, &wrapped), refused(12, 2));
}

#[test]
fn runs_with_negative_terms() {
    for (comparison, allowed) in [
        (Less, false),
        (AtMost, false),
        (Equal, false),
        (AtLeast, true),
        (Greater, true),
    ] {
        let mut below = sound();
        below.edges[0] = edge(0, 2, &[], &[Update::Keep, clock(comparison, 0, -1)]);
        let steps = vec![step(0, 3, 3, 0)];
        let list = encode_run(&Run { scale: 4, steps });
        let expected = match allowed {
            true => Answer::Accepted(1),
            false => refused(12, 1),
        };
        assert_eq!(run_answer(&below, &list), expected, "{comparison:?}");
    }
}

#[test]
fn runs_read_old_values_only() {
    let mut swap = sound();
    swap.bounds = vec![2, 2];
    swap.edges[1] = edge(1, 2, &[], &[clock(Equal, 1, 0), clock(Equal, 0, 0)]);
    let swapped = |x, y| {
        let steps = vec![step(0, 5, 5, 0), step(1, 1, x, y)];
        encode_run(&Run { scale: 4, steps })
    };
    assert_eq!(run_answer(&swap, &swapped(1, 6)), Answer::Accepted(2));
    assert_eq!(run_answer(&swap, &swapped(1, 1)), refused(12, 2));
}

/// The sound automaton without its last edge: the final location is not entered.
fn closed() -> (Automaton, Vec<Region>) {
    let mut automaton = sound();
    automaton.edges.pop();
    let rows = closure(&automaton, 4_096).closed_list().unwrap().to_vec();
    (automaton, rows)
}

fn assert_regions(list: &[u8], expected: Answer) {
    let answer = check_regions(&encode_table(&closed().0), list);
    assert_eq!(answer, expected, "{}", hex(list));
}

fn assert_rows(rows: &[Region], expected: Answer) {
    assert_regions(&encode_regions(2, rows), expected);
}

#[test]
fn regions_accepted() {
    let (_, rows) = closed();
    assert!(rows.len() > 30);
    assert_rows(&rows, Answer::Accepted(rows.len() as u32));
}

#[test]
fn regions_7_every_cut_and_mark() {
    let records = region_records(2, &closed().1);
    let whole = records.concat();
    let mut start = 0;
    for (place, record) in records.iter().enumerate() {
        for length in start..start + record.len() {
            assert_regions(&whole[..length], refused(7, place as u16));
        }
        for letter in 0..2 {
            let mut list = whole.clone();
            list[start + letter] ^= 1;
            assert_regions(&list, refused(7, place as u16));
        }
        start += record.len();
    }
    assert_regions(b"RN\0\x01\0\0", refused(7, 0));
    assert_regions(b"RL\x10", refused(7, 0));
}

#[test]
fn regions_8_fields() {
    assert_regions(b"RL\x10\x01", refused(8, 0));
    assert_regions(b"RL\xFF\xFF", refused(8, 0));
    assert_regions(b"RL\x10\x00", refused(7, 1));
    let (_, rows) = closed();
    let last = rows.len();
    // Location, interval x, interval y, rank x, rank y; bounds 2 and 1.
    let wrong: [[u8; 5]; 12] = [
        [3, 0, 0, 0, 0],
        [255, 0, 0, 0, 0],
        [0, 6, 0, 0, 0],
        [0, 0, 4, 0, 0],
        [0, 255, 0, 0, 0],
        [0, 1, 0, 0, 0],
        [0, 0, 0, 1, 0],
        [0, 5, 0, 1, 0],
        [0, 0, 3, 0, 1],
        [0, 1, 0, 2, 0],
        [0, 1, 1, 1, 3],
        [0, 1, 1, 2, 2],
    ];
    for place in [1, 2, last / 2, last] {
        for fields in wrong {
            let mut records = region_records(2, &rows);
            records[place] = [&b"RW"[..], &fields].concat();
            assert_regions(&records.concat(), refused(8, place as u16));
        }
    }
}

#[test]
fn regions_9_and_order_of_reading() {
    let (_, rows) = closed();
    let records = region_records(2, &rows);
    let count = records.len();
    let excess = [&records.concat()[..], b"R"].concat();
    assert_regions(&excess, refused(9, count as u16));
    assert_regions(b"RL\0\0RW", refused(9, 1));
    // Of 7 and 8 the one met first in the file.
    let mut spoiled = records.clone();
    spoiled[2][2] = 9;
    spoiled[3][0] = 0;
    assert_regions(&spoiled.concat(), refused(8, 2));
    spoiled[1][1] = 0;
    assert_regions(&spoiled.concat(), refused(7, 1));
    // A row is there as a whole before its fields are tested; the mark comes first.
    let mut spoiled = records.clone();
    spoiled[count - 1][2] = 9;
    let cut = spoiled.concat();
    assert_regions(&cut[..cut.len() - 1], refused(7, count as u16 - 1));
    spoiled[count - 1][0] = 0;
    assert_regions(&spoiled.concat(), refused(7, count as u16 - 1));
    // 8 before 9, 9 before 14.
    let mut spoiled = records.clone();
    spoiled[count - 1][2] = 9;
    let excess = [&spoiled.concat()[..], b"?"].concat();
    assert_regions(&excess, refused(8, count as u16 - 1));
    let mut swapped = records.clone();
    swapped.swap(1, 2);
    assert_regions(&swapped.concat(), refused(14, 2));
    let excess = [&swapped.concat()[..], b"?"].concat();
    assert_regions(&excess, refused(9, count as u16));
}

#[test]
fn regions_14_at_each_place() {
    let (_, rows) = closed();
    let last = rows.len() - 1;
    for index in [1, 2, last / 2, last] {
        let mut swapped = rows.clone();
        swapped.swap(index - 1, index);
        assert_rows(&swapped, refused(14, index as u16 + 1));
        let mut twice = rows.clone();
        twice.insert(index, rows[index]);
        assert_rows(&twice, refused(14, index as u16 + 2));
    }
    // The least place of two.
    let mut swapped = rows.clone();
    swapped.swap(1, 2);
    swapped.swap(last - 1, last);
    assert_rows(&swapped, refused(14, 3));
    // Ranks count last in the order.
    let pair = [
        Region::new(0, &[1, 1], &[2, 1]),
        Region::new(0, &[1, 1], &[1, 2]),
    ];
    assert_rows(&pair, refused(14, 2));
}

#[test]
fn regions_15_and_16() {
    let (_, rows) = closed();
    let in_final = |row: Region| row.with_location(2);
    // Rows of location 2 stand last in a list, and may stand alone.
    let mut with_final = rows.clone();
    with_final.push(in_final(rows[0]));
    assert_rows(&with_final, refused(15, rows.len() as u16 + 1));
    with_final.push(in_final(rows[1]));
    assert_rows(&with_final, refused(15, rows.len() as u16 + 1));
    assert_rows(&with_final[rows.len()..], refused(15, 1));
    let ends = [rows[1], in_final(rows[0])];
    assert_rows(&ends, refused(15, 2));
    assert_rows(&rows[1..], refused(16, 0));
    assert_rows(&rows[1..2], refused(16, 0));
    assert_rows(&[], refused(16, 0));
}

#[test]
fn regions_order_of_14_to_17() {
    let (_, rows) = closed();
    let final_row = rows[0].with_location(2);
    // 14 before 15, though its place is greater.
    assert_rows(&[final_row, rows[0]], refused(14, 2));
    // 15 before 16 and 17.
    assert_rows(&[rows[2], final_row], refused(15, 2));
    assert_rows(&[rows[0], final_row], refused(15, 2));
    // 16 before 17.
    assert_rows(&[rows[2]], refused(16, 0));
    assert_rows(&rows[..1], refused(17, 1));
}

#[test]
fn regions_17_at_each_place() {
    // Waiting alone: a chain of rows, of which each lacks only the next.
    let chain = automaton(&[2], &[false], vec![]);
    let table = encode_table(&chain);
    let rows = closure(&chain, 100).rows;
    assert_eq!(rows.len(), 6);
    for missing in 1..6 {
        let mut list = rows.clone();
        list.remove(missing);
        let answer = check_regions(&table, &encode_regions(1, &list));
        assert_eq!(answer, refused(17, missing as u16));
        // The least place of two.
        for other in missing + 1..6 {
            let mut shorter = rows.clone();
            shorter.retain(|row| ![rows[missing], rows[other]].contains(row));
            let answer = check_regions(&table, &encode_regions(1, &shorter));
            assert_eq!(answer, refused(17, missing as u16));
        }
    }
}

fn followed(row: &[u8], number: u16, size: usize) -> (Answer, Vec<u8>) {
    let mut buffer = vec![0xAA; size];
    let answer = follow(&encode_table(&sound()), row, number, &mut buffer);
    (answer, buffer)
}

fn assert_untouched(row: &[u8], number: u16, size: usize, expected: Answer) {
    let (answer, buffer) = followed(row, number, size);
    assert_eq!(answer, expected, "{} {number} {size}", hex(row));
    assert_eq!(buffer, vec![0xAA; size]);
}

/// Location 1, x in 0 to 1, y 0: edge 1 leads to many rows.
const ROW: &[u8] = b"RW\x01\x01\x00\x01\x00";

#[test]
fn follow_7_to_9() {
    for length in 0..ROW.len() {
        assert_untouched(&ROW[..length], 1, 999, refused(7, 0));
    }
    assert_untouched(b"RX\x01\x01\x00\x01\x00", 1, 999, refused(7, 0));
    assert_untouched(b"RX\x09\x01\x00\x01\x00", 1, 999, refused(7, 0));
    assert_untouched(b"RW\x03\x01\x00\x01\x00", 1, 999, refused(8, 0));
    assert_untouched(b"RW\x01\x06\x00\x00\x00", 1, 999, refused(8, 0));
    assert_untouched(b"RW\x01\x01\x00\x00\x00", 1, 999, refused(8, 0));
    let longer = [ROW, b"\0"].concat();
    assert_untouched(&longer, 1, 999, refused(9, 1));
    // 8 before 9, 9 before 18.
    let mut wrong = longer.clone();
    wrong[2] = 3;
    assert_untouched(&wrong, 1, 999, refused(8, 0));
    assert_untouched(&longer, 3, 999, refused(9, 1));
}

#[test]
fn follow_18_and_19() {
    for number in [3, 4, 256, 65_534] {
        assert_untouched(ROW, number, 999, refused(18, 0));
        assert_untouched(ROW, number, 0, refused(18, 0));
    }
    let (answer, _) = followed(ROW, 1, 9_999);
    let Answer::Accepted(count) = answer else {
        panic!("{answer:?}");
    };
    assert!(count > 10);
    let exact = 7 * count as usize;
    for size in [0, 1, 6, 7, exact / 2, exact - 7, exact - 1] {
        assert_untouched(ROW, 1, size, refused(19, 0));
    }
    assert_eq!(followed(ROW, 1, exact).0, answer);
    let (_, buffer) = followed(ROW, 1, exact + 9);
    assert_eq!(buffer[exact..], [0xAA; 9]);
    assert!(buffer[..exact].chunks(7).all(|row| row[..3] == *b"RW\x01"));
    // Waiting needs one row's bytes.
    assert_untouched(ROW, 65_535, 6, refused(19, 0));
    let (answer, buffer) = followed(ROW, 65_535, 8);
    assert_eq!(answer, Answer::Accepted(1));
    assert_eq!(buffer, b"RW\x01\x01\x01\x02\x01\xAA");
}

#[test]
fn follow_to_no_rows() {
    // From another location, with a failed guard, and waiting with all at the top.
    assert_untouched(ROW, 0, 0, Answer::Accepted(0));
    assert_untouched(ROW, 2, 0, Answer::Accepted(0));
    assert_untouched(b"RW\x01\x05\x03\x00\x00", 65_535, 0, Answer::Accepted(0));
    assert_untouched(b"RW\x01\x05\x03\x00\x00", 65_535, 50, Answer::Accepted(0));
    // A final location is followed like any other.
    let (answer, _) = followed(b"RW\x02\x00\x00\x00\x00", 65_535, 7);
    assert_eq!(answer, Answer::Accepted(1));
}
