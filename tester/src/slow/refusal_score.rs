//! How long a refusal takes beside the acceptance of the closed list that the refused one was made from.

use super::candidate::Candidate;
use super::open_list::OpenList;
use super::score::{first_check, Stopwatch};
use super::search::Judge;
use crate::answer::{number, Answer};
use crate::cpu_time::mean_seconds;

/// So many edges make both times, each with guards of its own.
const EDGES: usize = 8;

/// Both lists are checked by turns, so often or until that took so many seconds, and at least twice.
const MOST_TURNS: u32 = 8;
const LEAST_TURNS: u32 = 2;
const ENOUGH_SECONDS: f64 = 0.1;

/// What is accepted in less time than this does not count: a few rows more or less would decide.
const LEAST_SECONDS: f64 = 0.0002;

/// Best processor seconds of the checker for both lists.
#[derive(Clone, Copy, Debug)]
pub struct RefusalScore {
    pub accepted: f64,
    pub refused: f64,
}

impl RefusalScore {
    /// None if the open list is not refused by 17. The closed one has to be accepted.
    pub fn of(lists: &OpenList) -> Option<RefusalScore> {
        let (mut closed, mut open) = (lists.closed_pair(), lists.open_pair());
        let mut best = RefusalScore {
            accepted: f64::INFINITY,
            refused: f64::INFINITY,
        };
        let mut spent = 0.0;
        let mut answer = 0;
        for turn in 0..MOST_TURNS {
            let accept = &mut || {
                let rows = lists.closed.len();
                assert_eq!(closed.checker() as usize, rows, "{:?}", lists.automaton);
            };
            let accepted = mean_seconds(1, accept);
            let refused = mean_seconds(1, &mut || answer = open.checker());
            if !is_refused(answer) {
                return None;
            }
            best.accepted = best.accepted.min(accepted);
            best.refused = best.refused.min(refused);
            spent += accepted + refused;
            if turn + 1 >= LEAST_TURNS && spent >= ENOUGH_SECONDS {
                break;
            }
        }
        Some(best)
    }

    pub fn ratio(&self) -> f64 {
        self.refused / self.accepted
    }
}

fn is_refused(packed: u32) -> bool {
    let lacking = number::NEXT_ROW_MISSING;
    matches!(Answer::unpacked(packed), Answer::Refused { number, .. } if number == lacking)
}

/// Judges by the ratio of both times, until so much processor time is spent.
pub struct RefusalWatch {
    pub limit: f64,
}

impl Judge for RefusalWatch {
    fn score_above(&mut self, floor: f64, candidate: &Candidate) -> Option<f64> {
        let (closed, _) = first_check(candidate)?;
        let score = RefusalScore::of(&candidate.open_list(closed, EDGES)?)?;
        let counts = score.accepted >= LEAST_SECONDS && score.ratio() > floor;
        counts.then_some(score.ratio())
    }

    fn is_over(&self) -> bool {
        Stopwatch::spent() >= self.limit
    }
}
