//! Closed lists with their tables, to be put to both sides whole or without some rows.

use super::far_automaton;
use std::fmt;
use tzelmaruf_tester::automaton::Automaton;
use tzelmaruf_tester::compare::{Comparer, Met};
use tzelmaruf_tester::explore::closure;
use tzelmaruf_tester::format::encode_table;
use tzelmaruf_tester::generate::Random;
use tzelmaruf_tester::region::Region;
use tzelmaruf_tester::region_list::encode_regions;

/// An automaton and rows that are a closed list for it.
pub struct Closed {
    pub automaton: Automaton,
    pub table: Vec<u8>,
    pub rows: Vec<Region>,
}

impl Closed {
    pub fn new(automaton: Automaton, rows: Vec<Region>) -> Closed {
        let table = encode_table(&automaton);
        Closed {
            automaton,
            table,
            rows,
        }
    }

    /// A random automaton whose closure is closed, of at most `cap` rows.
    pub fn random(random: &mut Random, cap: usize) -> Closed {
        loop {
            let automaton = far_automaton(random);
            let closure = closure(&automaton, cap);
            if let Some(rows) = closure.closed_list() {
                let rows = rows.to_vec();
                return Closed::new(automaton, rows);
            }
        }
    }

    pub fn list(&self, rows: &[Region]) -> Vec<u8> {
        encode_regions(self.automaton.clocks(), rows)
    }

    /// The answer to the table with any rows, on which both sides agree.
    pub fn met(&self, comparer: &mut Comparer, case: fmt::Arguments, rows: &[Region]) -> Met {
        comparer.regions(case, &self.table, &self.list(rows))
    }

    pub fn accepted(&self, comparer: &mut Comparer, case: fmt::Arguments, rows: &[Region]) {
        let met = self.met(comparer, case, rows);
        assert_eq!((met.number, met.place), (0, rows.len() as u32), "{case}");
    }

    /// The rows without the one at an index.
    pub fn without(&self, index: usize) -> Vec<Region> {
        let mut rows = self.rows.clone();
        rows.remove(index);
        rows
    }
}
