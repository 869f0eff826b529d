//! A table and a region list as files, for both sides.

use crate::answer::Answer;
use crate::automaton::Automaton;
use crate::format::encode_table;
use crate::region::Region;
use crate::region_list::encode_regions;
use crate::{check_regions, library};
use std::hint::black_box;

/// The two files of one check.
#[derive(Clone, Debug)]
pub struct Pair {
    pub table: Vec<u8>,
    pub list: Vec<u8>,
}

impl Pair {
    pub fn new(automaton: &Automaton, rows: &[Region]) -> Pair {
        Pair {
            table: encode_table(automaton),
            list: encode_regions(automaton.clocks(), rows),
        }
    }

    /// The checker's packed answer. Files are lent mutably, as everywhere (see `library`).
    pub fn checker(&mut self) -> u32 {
        library::check_regions(black_box(&mut self.table), black_box(&mut self.list))
    }

    /// The answer of the rules.
    pub fn rules(&self) -> Answer {
        check_regions(black_box(&self.table), black_box(&self.list))
    }
}
