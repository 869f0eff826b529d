//! The one line printed for a table and a proof.

use crate::answer::Answer;
use crate::region_list::check_regions;
use crate::run::check_run;

/// The line for a table and a paper. A file that can't be opened counts as empty.
pub fn line(table: &[u8], proof: &[u8]) -> String {
    match proof.starts_with(b"RN") {
        true => line_of("REACHED", check_run(table, proof)),
        false => line_of("EMPTY", check_regions(table, proof)),
    }
}

fn line_of(verdict: &str, answer: Answer) -> String {
    match answer {
        Answer::Accepted(count) => format!("{verdict} {count}"),
        Answer::Refused { number, place } => format!("REFUSED {number} {place}"),
    }
}
