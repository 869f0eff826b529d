//! Waiting lists full of rubbish.

use super::random::Random;
use crate::automaton::GREATEST_CLOCKS;
use crate::make::Row;

/// A list for the rows still waiting as it is before a call: so many records, with rubbish in
/// them that a seed decides.
#[derive(Clone, Copy, Debug, Default, PartialEq, Eq)]
pub struct WaitingList {
    pub records: usize,
    pub seed: u64,
}

/// After so many records the rubbish begins again.
const DIFFERENT: usize = 61;

impl WaitingList {
    /// The records. No field of one is zero.
    pub fn rows(&self) -> Vec<Row> {
        let mut random = Random::new(self.seed);
        let different = self.records.min(DIFFERENT);
        let some: Vec<Row> = (0..different).map(|_| rubbish(&mut random)).collect();
        some.iter().copied().cycle().take(self.records).collect()
    }
}

fn rubbish(random: &mut Random) -> Row {
    let intervals = [0; GREATEST_CLOCKS].map(|_| random.draw() as u16 | 1);
    let ranks = [0; GREATEST_CLOCKS].map(|_| random.byte() | 1);
    Row {
        location: random.byte() | 1,
        intervals,
        ranks,
    }
}
