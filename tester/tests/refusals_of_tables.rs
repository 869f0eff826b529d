//! Refusals 1 to 6: each at the first, a middle and the last record it can be
//! at, and pairs of faults where the order decides.

mod common;
use common::*;

use tzelmaruf_tester::answer::Answer;
use tzelmaruf_tester::automaton::{Automaton, Comparison, Update};
use tzelmaruf_tester::format::{encode_table, table_records};
use tzelmaruf_tester::{admit, check_regions, check_run, follow};

/// Two clocks, three locations, three edges; header 0, locations 1 to 3, edges 4 to 6.
fn sound() -> Automaton {
    let guards = [guard(0, AtLeast, 3), guard(1, Less, 2)];
    automaton(
        &[3, 2],
        &[false, false, true],
        vec![
            edge(0, 1, &guards, &[constant(Equal, 3), Update::Keep]),
            edge(1, 0, &[], &[clock(Less, 1, 1), clock(Greater, 0, -1)]),
            edge(1, 2, &guards[..1], &[Update::Keep, constant(AtMost, 0)]),
        ],
    )
}

const EDGES: [usize; 3] = [4, 5, 6];
const RECORDS: usize = 7;
/// Where the first update of each edge begins in its record.
const UPDATES: [usize; 3] = [11, 5, 8];

/// A change to one byte of one record.
type Change = (usize, usize, u8);

/// The table with some bytes of some records changed.
fn changed(changes: &[Change]) -> Vec<u8> {
    let mut records = table_records(&sound());
    for (record, at, value) in changes {
        records[*record][*at] = *value;
    }
    records.concat()
}

/// All calls answer the same to a refused table, whatever else they are given.
fn assert_answer(table: &[u8], expected: Answer) {
    let case = hex(table);
    assert_eq!(admit(table), expected, "{case}");
    if expected.is_accepted() {
        return;
    }
    for second in [&b""[..], b"RN", b"RL\0\0", b"RN\0\x01\0\0", b"RW\0\0\0\0\0"] {
        assert_eq!(check_run(table, second), expected, "{case}");
        assert_eq!(check_regions(table, second), expected, "{case}");
        let mut buffer = [0xAA; 16];
        let followed = follow(table, second, 9, &mut buffer);
        assert_eq!(followed, expected, "{case}");
        assert_eq!(buffer, [0xAA; 16], "{case}");
    }
}

fn assert_changed(changes: &[Change], number: u8, place: u16) {
    assert_answer(&changed(changes), refused(number, place));
}

#[test]
fn accepted() {
    assert_answer(&encode_table(&sound()), Answer::Accepted(7));
    let least = automaton(&[0], &[false], vec![]);
    assert_answer(&encode_table(&least), Answer::Accepted(2));
    let mut greatest = sound();
    greatest.bounds = vec![127; 4];
    greatest.locations = vec![greatest.locations[2]; 64];
    let guards = [guard(3, Greater, 127); 8];
    let updates = [
        Update::Keep,
        constant(Less, 127),
        clock(Equal, 3, 0),
        clock(AtMost, 0, 127),
    ];
    greatest.edges = vec![edge(63, 63, &guards, &updates); 256];
    greatest.initial = 63;
    assert_answer(&encode_table(&greatest), Answer::Accepted(321));
    greatest.edges.push(greatest.edges[0].clone());
    assert_answer(&encode_table(&greatest), refused(2, 0));
}

#[test]
fn refusal_1_every_cut() {
    let records = table_records(&sound());
    let whole = records.concat();
    let mut start = 0;
    for (place, record) in records.iter().enumerate() {
        for length in start..start + record.len() {
            assert_answer(&whole[..length], refused(1, place as u16));
        }
        start += record.len();
    }
}

#[test]
fn refusal_1_every_mark() {
    for place in 0..RECORDS {
        for letter in 0..2 {
            for value in [0, b'A', b'o', 0xFF] {
                if table_records(&sound())[place][letter] != value {
                    assert_changed(&[(place, letter, value)], 1, place as u16);
                }
            }
        }
    }
    // A mark of another kind, and a record too few or too many.
    let mut records = table_records(&sound());
    records.swap(3, 4);
    assert_answer(&records.concat(), refused(1, 3));
    records.swap(3, 4);
    records.remove(2);
    assert_answer(&records.concat(), refused(1, 3));
}

#[test]
fn refusal_2_header_fields() {
    // Clocks, locations, initial location, edges (high byte), bounds.
    let wrong = [
        (2, [0, 5, 255]),
        (3, [0, 65, 255]),
        (4, [3, 4, 255]),
        (5, [2, 128, 255]),
        (7, [128, 129, 255]),
        (8, [128, 129, 255]),
    ];
    for (at, values) in wrong {
        for value in values {
            assert_changed(&[(0, at, value)], 2, 0);
        }
    }
    // 257 edges are too many; 256 are not, but the fourth one is missing.
    assert_changed(&[(0, 5, 1), (0, 6, 1)], 2, 0);
    assert_changed(&[(0, 5, 1), (0, 6, 0)], 1, 7);
}

#[test]
fn refusal_3_location_fields() {
    for place in 1..=3 {
        for flags in [4, 5, 8, 128, 255] {
            assert_changed(&[(place, 2, flags)], 3, place as u16);
        }
    }
    for flags in 0..4 {
        assert_answer(&changed(&[(2, 2, flags)]), Answer::Accepted(7));
    }
}

#[test]
fn refusal_3_edge_fields() {
    for place in EDGES {
        for (at, value) in [(2, 3), (2, 255), (3, 3), (4, 9), (4, 255)] {
            assert_changed(&[(place, at, value)], 3, place as u16);
        }
    }
    for (place, first) in [(4, 5), (4, 8), (6, 5)] {
        for (field, value) in [(0, 2), (0, 255), (1, 6), (2, 128), (2, 255)] {
            assert_changed(&[(place, first + field, value)], 3, place as u16);
        }
    }
}

#[test]
fn refusal_3_updates() {
    // Kind, comparison, clock, offset high, offset low.
    let wrong: [[u8; 5]; 18] = [
        [0, 1, 0, 0, 0],
        [0, 2, 0, 0, 0],
        [0, 0, 1, 0, 0],
        [0, 0, 0, 1, 0],
        [0, 0, 0, 0, 1],
        [1, 6, 0, 0, 0],
        [1, 2, 1, 0, 0],
        [1, 2, 0, 0, 128],
        [1, 2, 0, 1, 0],
        [1, 2, 0, 0xFF, 0xFF],
        [2, 6, 0, 0, 3],
        [2, 2, 2, 0, 3],
        [2, 2, 0, 0, 128],
        [2, 2, 0, 0xFF, 128],
        [2, 2, 0, 0xFF, 0],
        [2, 2, 0, 0x80, 0],
        [3, 0, 0, 0, 0],
        [255, 0, 0, 0, 0],
    ];
    for (place, first) in EDGES.into_iter().zip(UPDATES) {
        for clock in 0..2 {
            for update in wrong {
                let start = first + 5 * clock;
                let changes: Vec<Change> =
                    (0..5).map(|at| (place, start + at, update[at])).collect();
                assert_changed(&changes, 3, place as u16);
            }
        }
    }
}

#[test]
fn offsets_at_their_limits() {
    let with = |bounds: &[u8; 2], update| {
        let edges = vec![edge(0, 0, &[], &[update, Update::Keep])];
        encode_table(&automaton(bounds, &[false], edges))
    };
    assert_answer(&with(&[0, 127], clock(Equal, 1, -127)), Answer::Accepted(3));
    assert_answer(&with(&[127, 0], clock(Equal, 1, 127)), Answer::Accepted(3));
    assert_answer(&with(&[127, 0], clock(Equal, 1, 126)), refused(6, 2));
    assert_answer(&with(&[1, 127], clock(Equal, 1, -127)), refused(6, 2));
    assert_answer(&with(&[127, 0], constant(Less, 127)), Answer::Accepted(3));
}

#[test]
fn refusal_4_bytes_behind() {
    for excess in [&b"\0"[..], b"ED", b"LO\0", b"TA"] {
        let table = [&encode_table(&sound())[..], excess].concat();
        assert_answer(&table, refused(4, 7));
    }
    let least = encode_table(&automaton(&[0], &[false], vec![]));
    assert_answer(&[&least[..], b"x"].concat(), refused(4, 2));
}

/// The sound table with one edge's guard or update replaced.
fn with_fault(edge: usize, fault: u8) -> Automaton {
    with_fault_by(Less, edge, fault, 0)
}

/// The same by any comparison; a relief of 1 takes it right to the bound, where it is no fault.
fn with_fault_by(comparison: Comparison, edge: usize, fault: u8, relief: u8) -> Automaton {
    let mut faulty = sound();
    let edge = &mut faulty.edges[edge];
    match fault {
        0 => edge.guards.push(guard(1, comparison, 3 - relief)),
        1 => edge.updates[1] = constant(comparison, 3 - relief),
        _ => edge.updates[0] = clock(comparison, 1, i16::from(relief)),
    }
    faulty
}

#[test]
fn refusals_5_and_6_at_each_edge() {
    for comparison in Comparison::ALL {
        for (edge, place) in [(0, 4), (1, 5), (2, 6)] {
            for (fault, number) in [(0, 5), (1, 5), (2, 6)] {
                let faulty = with_fault_by(comparison, edge, fault, 0);
                assert_answer(&encode_table(&faulty), refused(number, place));
                let at_the_bound = with_fault_by(comparison, edge, fault, 1);
                assert_answer(&encode_table(&at_the_bound), Answer::Accepted(7));
            }
        }
    }
}

#[test]
fn refusals_5_and_6_edge_by_edge() {
    // The earlier edge first, whichever the number.
    let mut faulty = with_fault(1, 2);
    faulty.edges[2] = with_fault(2, 0).edges[2].clone();
    assert_answer(&encode_table(&faulty), refused(6, 5));
    let mut faulty = with_fault(1, 1);
    faulty.edges[0] = with_fault(0, 2).edges[0].clone();
    assert_answer(&encode_table(&faulty), refused(6, 4));
    let mut faulty = with_fault(2, 2);
    faulty.edges[1] = with_fault(1, 0).edges[1].clone();
    assert_answer(&encode_table(&faulty), refused(5, 5));
    // In one edge 5 comes first, even from an update behind the other fault.
    let mut faulty = with_fault(1, 2);
    faulty.edges[1].updates[1] = constant(Less, 3);
    assert_answer(&encode_table(&faulty), refused(5, 5));
    let mut faulty = with_fault(1, 2);
    faulty.edges[1].guards.push(guard(0, Less, 4));
    assert_answer(&encode_table(&faulty), refused(5, 5));
}

#[test]
fn header_order() {
    let header = |bytes: &[u8], expected| assert_answer(bytes, expected);
    // Seven bytes are due before any field is tested.
    header(b"TA\x05\x03\0\0", refused(1, 0));
    header(b"TA\x05\x03\0\0\x03", refused(2, 0));
    // Bounds are due only after the other fields pass.
    header(b"TA\x02\x03\x03\0\x03", refused(2, 0));
    header(b"TA\x02\x03\0\0\x03", refused(1, 0));
    header(b"TA\x02\x03\0\0\x03\xFF", refused(1, 0));
    header(b"TA\x02\x03\0\0\x03\xFF\0", refused(2, 0));
    header(b"TA\x02\x03\0\0\x03\x03\x02", refused(1, 1));
    // The mark comes before the fields.
    header(b"TB\x05\x03\0\0\x03", refused(1, 0));
    assert_changed(&[(0, 0, 0), (0, 2, 9)], 1, 0);
    // The header comes before all that follows.
    assert_changed(&[(0, 8, 128), (1, 0, 0), (4, 2, 9)], 2, 0);
}

#[test]
fn edge_order() {
    let records = table_records(&sound());
    let head = records[..4].concat();
    let cut = |edge: &[u8], number| assert_answer(&[&head, edge].concat(), refused(number, 4));
    // Five bytes are due before any field is tested.
    cut(b"ED\x03\x01", 1);
    cut(b"ED\x03\x01\x00", 3);
    // Guards and updates are due only after source, target and count pass.
    cut(b"ED\x00\x03\x02", 3);
    cut(b"ED\x00\x01\x09", 3);
    cut(b"ED\x00\x01\x02", 1);
    // They are due all together: a bad guard is not met while an update is cut.
    let mut bad_guard = records[4].clone();
    bad_guard[6] = 6;
    cut(&bad_guard[..bad_guard.len() - 1], 1);
    cut(&bad_guard[..8], 1);
    cut(&bad_guard, 3);
    // The mark comes before the fields.
    cut(b"EE\x03\x01\x00", 1);
}

#[test]
fn earlier_record_first() {
    assert_changed(&[(1, 2, 4), (2, 0, 0)], 3, 1);
    assert_changed(&[(2, 0, 0), (3, 2, 4)], 1, 2);
    assert_changed(&[(3, 2, 4), (4, 1, 0)], 3, 3);
    assert_changed(&[(4, 1, 0), (5, 2, 9)], 1, 4);
    assert_changed(&[(5, 2, 9), (6, 1, 0)], 3, 5);
    assert_changed(&[(6, 2, 9), (3, 1, 0)], 1, 3);
}

#[test]
fn later_checks_in_number_order() {
    // 3 before 4, 4 before 5 and 6, whatever the place.
    let behind = |table: Vec<u8>| [&table[..], b"?"].concat();
    assert_answer(&behind(changed(&[(6, 2, 9)])), refused(3, 6));
    assert_answer(&behind(encode_table(&with_fault(0, 0))), refused(4, 7));
    assert_answer(&behind(encode_table(&with_fault(0, 2))), refused(4, 7));
    // 1 and 3 in the last edge before 5 and 6 in the first.
    let faulty = encode_table(&with_fault(0, 0));
    assert_answer(&faulty[..faulty.len() - 1], refused(1, 6));
    let mut faulty = table_records(&with_fault(0, 2));
    faulty[6][2] = 9;
    assert_answer(&faulty.concat(), refused(3, 6));
}
