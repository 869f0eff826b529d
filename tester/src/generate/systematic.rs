//! Every spoiled form of a file of the plain kinds, one after another.

use super::damage::MARKS;
use std::fmt;

/// Sees what was done to a file, and the spoiled file.
pub type Visit<'visit> = dyn FnMut(fmt::Arguments, &[u8]) + 'visit;

/// All of the kinds below for the file with these records.
pub fn each_spoiled(records: &[Vec<u8>], visit: &mut Visit) {
    let file = records.concat();
    each_cut(&file, visit);
    each_change(&file, visit);
    each_excess(&file, visit);
    each_mark(records, visit);
    each_record_moved(records, visit);
}

/// The file without its end, from nothing on.
pub fn each_cut(file: &[u8], visit: &mut Visit) {
    for length in 0..file.len() {
        visit(format_args!("cut at {length}"), &file[..length]);
    }
}

/// One byte changed, at every offset, to a few telling values.
pub fn each_change(file: &[u8], visit: &mut Visit) {
    let mut spoiled = file.to_vec();
    for at in 0..file.len() {
        let byte = file[at];
        let mut values = [
            byte.wrapping_add(1),
            byte.wrapping_sub(1),
            byte ^ 0x80,
            byte ^ 0x20,
            0,
            255,
        ];
        values.sort_unstable();
        for index in 0..values.len() {
            let value = values[index];
            if value != byte && (index == 0 || values[index - 1] != value) {
                spoiled[at] = value;
                visit(format_args!("byte {at} is {value}"), &spoiled);
            }
        }
        spoiled[at] = byte;
    }
}

/// One byte changed to every value, at every offset.
pub fn each_value(file: &[u8], visit: &mut Visit) {
    let mut spoiled = file.to_vec();
    for at in 0..file.len() {
        for value in 0..=255 {
            spoiled[at] = value;
            visit(format_args!("byte {at} is {value}"), &spoiled);
        }
        spoiled[at] = file[at];
    }
}

/// Bytes behind the end: a few, a mark, the file once more.
pub fn each_excess(file: &[u8], visit: &mut Visit) {
    let mut tails: Vec<&[u8]> = vec![b"\0", b"\xFF", b"\0\0\0\0\0\0\0\0\0\0\0\0", file];
    tails.extend(MARKS.iter().map(|mark| mark.as_slice()));
    for tail in tails {
        let shown = &tail[..tail.len().min(12)];
        let spoiled = [file, tail].concat();
        visit(format_args!("{shown:?} behind the end"), &spoiled);
    }
}

/// Another mark in the place of each record's, and marks with a letter spoiled.
pub fn each_mark(records: &[Vec<u8>], visit: &mut Visit) {
    let mut spoiled = records.concat();
    let mut start = 0;
    for (place, record) in records.iter().enumerate() {
        let mark = [record[0], record[1]];
        let mut others = vec![[mark[1], mark[0]], [mark[0], 0], [0, mark[1]]];
        others.push(mark.map(|letter| letter.to_ascii_lowercase()));
        others.extend(MARKS.iter().map(|other| **other));
        for other in others.into_iter().filter(|other| *other != mark) {
            spoiled[start..start + 2].copy_from_slice(&other);
            visit(format_args!("mark {other:?} at record {place}"), &spoiled);
        }
        spoiled[start..start + 2].copy_from_slice(&mark);
        start += record.len();
    }
}

/// Each record left out, there twice, or exchanged with the one behind it.
pub fn each_record_moved(records: &[Vec<u8>], visit: &mut Visit) {
    for place in 0..records.len() {
        let (before, behind) = (records[..place].concat(), records[place + 1..].concat());
        let record = &records[place];
        let without = [&before[..], &behind].concat();
        visit(format_args!("record {place} left out"), &without);
        let twice = [&before[..], record, record, &behind].concat();
        visit(format_args!("record {place} twice"), &twice);
        if let Some(next) = records.get(place + 1) {
            let rest = &behind[next.len()..];
            let exchanged = [&before[..], next, record, rest].concat();
            visit(format_args!("record {place} exchanged"), &exchanged);
        }
    }
}

const MEGABYTE: usize = 1 << 20;

/// Files that are no file of the format, or a megabyte long, or both.
pub fn each_odd_file(file: &[u8], visit: &mut Visit) {
    visit(format_args!("empty"), &[]);
    for mark in MARKS {
        visit(format_args!("only the mark {mark:?}"), mark);
        let repeated = mark.repeat(MEGABYTE / 2);
        visit(format_args!("a megabyte of {mark:?}"), &repeated);
    }
    for byte in [0, 1, b'R', b'T', 255] {
        visit(format_args!("only the byte {byte}"), &[byte]);
        let long = vec![byte; MEGABYTE];
        visit(format_args!("a megabyte of {byte}"), &long);
        let behind = [file, &long].concat();
        visit(format_args!("a megabyte of {byte} behind it"), &behind);
    }
    let repeated = file.repeat(MEGABYTE / file.len().max(1) + 1);
    visit(format_args!("a megabyte of copies"), &repeated);
}
