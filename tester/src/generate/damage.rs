//! Damage to files.

use super::random::Random;

pub const MARKS: [&[u8; 2]; 7] = [b"TA", b"LO", b"ED", b"RN", b"ST", b"RL", b"RW"];

/// Spoils a file in one random way; `other` is a file to mix in.
pub fn damage(random: &mut Random, file: &[u8], other: &[u8]) -> Vec<u8> {
    let mut spoiled = file.to_vec();
    let at = random.below(file.len() + 1);
    match random.below(9) {
        0 => spoiled.truncate(at),
        1 => spoiled.truncate(file.len().saturating_sub(1 + random.below(12))),
        2 | 3 => change_byte(random, &mut spoiled),
        4 => spoiled.extend((0..1 + random.below(12)).map(|_| random.byte())),
        5 => change_mark(random, &mut spoiled),
        6 => {
            let value = random.byte();
            spoiled.insert(at, if random.once_in(2) { 0 } else { value });
        }
        7 => {
            if at < spoiled.len() {
                spoiled.remove(at);
            }
        }
        _ => spoiled = mix(random, file, other),
    }
    spoiled
}

/// A change by one, of one bit, or to any value; early bytes (headers) more often.
fn change_byte(random: &mut Random, file: &mut [u8]) {
    if file.is_empty() {
        return;
    }
    let reach = match random.once_in(2) {
        true => file.len().min(24),
        false => file.len(),
    };
    let byte = &mut file[random.below(reach)];
    *byte = match random.below(4) {
        0 => byte.wrapping_add(1),
        1 => byte.wrapping_sub(1),
        2 => *byte ^ 1 << random.below(8),
        _ => random.byte(),
    };
}

/// Puts another mark in the place of one, or spoils one of its letters.
fn change_mark(random: &mut Random, file: &mut [u8]) {
    let starts: Vec<usize> = (0..file.len().saturating_sub(1))
        .filter(|at| MARKS.iter().any(|mark| file[*at..*at + 2] == **mark))
        .collect();
    if starts.is_empty() {
        return;
    }
    let start = random.pick(&starts);
    if random.once_in(2) {
        let mark: &[u8; 2] = random.pick(&MARKS);
        file[start..start + 2].copy_from_slice(mark);
    } else {
        file[start + random.below(2)] ^= 0x20;
    }
}

/// The head of one file before the tail of another, or the other one whole.
fn mix(random: &mut Random, file: &[u8], other: &[u8]) -> Vec<u8> {
    if random.once_in(4) {
        return other.to_vec();
    }
    let head = random.below(file.len() + 1);
    let tail = random.below(other.len() + 1);
    [&file[..head], &other[tail..]].concat()
}
