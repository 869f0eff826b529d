//! Hill climbing: from a random candidate to slower and slower ones, and anew when stuck. Every
//! other climb begins near the slowest candidate so far, with some changes at once.

use super::candidate::Candidate;
use crate::generate::Random;

/// A climb begins with the slowest of so many random candidates.
const BEGINNINGS: usize = 40;

/// Or it begins with the best so far, changed so many times at once.
const LEAPS: usize = 4;

/// So many changes in a row that lead no higher end a climb.
const PATIENCE: usize = 100;

/// A score is higher only if it is so by this factor: times differ by a little from call to call.
const HIGHER: f64 = 1.03;

/// What is lower by no more than this factor is gone on from too, so that a climb gets past
/// changes that make no difference.
const LEVEL: f64 = 0.97;

/// Says how slow a candidate is, and when to stop.
pub trait Judge {
    /// The score; none if it is not above the floor, or there is no list that fits.
    fn score_above(&mut self, floor: f64, candidate: &Candidate) -> Option<f64>;

    fn is_over(&self) -> bool;
}

/// A candidate with its score.
#[derive(Clone, Debug)]
pub struct Found {
    pub candidate: Candidate,
    pub score: f64,
}

/// A search, with what it found so far. Where scores are times, a best one may have been lengthened by
/// other work on the machine, so those of all climbs are kept to be timed again.
pub struct Search<'judge> {
    judge: &'judge mut dyn Judge,
    make: fn(&mut Random) -> Candidate,
    seed: u64,
    pub best: Option<Found>,
    /// The best of each climb.
    pub summits: Vec<Found>,
    pub climbs: u64,
    pub tried: u64,
}

/// Sees the search after each candidate that was tried, and whether it is the best so far.
pub type Watch<'watch> = dyn FnMut(&Search, bool) + 'watch;

impl<'judge> Search<'judge> {
    /// A search among the candidates that `make` makes.
    pub fn new(
        judge: &'judge mut dyn Judge,
        make: fn(&mut Random) -> Candidate,
        seed: u64,
    ) -> Self {
        Search {
            judge,
            make,
            seed,
            best: None,
            summits: Vec::new(),
            climbs: 0,
            tried: 0,
        }
    }

    /// Climbs again and again until the judge ends it. Each climb has random numbers of its own.
    pub fn run(&mut self, watch: &mut Watch) {
        while !self.judge.is_over() {
            let mut random = Random::of_case(self.seed, self.climbs);
            self.climbs += 1;
            let beginning = match &self.best {
                Some(best) if self.climbs.is_multiple_of(2) => {
                    let near = leap(&best.candidate, &mut random);
                    self.attempt(near, 0.0, watch)
                }
                _ => self.beginning(&mut random, watch),
            };
            if let Some(beginning) = beginning {
                self.climb(beginning, &mut random, watch);
            }
        }
    }

    fn climb(&mut self, beginning: Found, random: &mut Random, watch: &mut Watch) {
        let mut at = beginning.clone();
        let mut summit = beginning;
        let mut failures = 0;
        while failures < PATIENCE && !self.judge.is_over() {
            let next = at.candidate.changed(random);
            failures += 1;
            if let Some(found) = self.attempt(next, summit.score * LEVEL, watch) {
                if found.score > summit.score * HIGHER {
                    summit = found.clone();
                    failures = 0;
                }
                at = found;
            }
        }
        self.summits.push(summit);
    }

    /// The slowest of some random candidates.
    fn beginning(&mut self, random: &mut Random, watch: &mut Watch) -> Option<Found> {
        let mut slowest: Option<Found> = None;
        for _ in 0..BEGINNINGS {
            if self.judge.is_over() {
                break;
            }
            let floor = slowest.as_ref().map_or(0.0, |found| found.score);
            let found = self.attempt((self.make)(random), floor, watch);
            slowest = found.or(slowest);
        }
        slowest
    }

    /// Has one candidate judged, and keeps it if it is the slowest of all.
    fn attempt(&mut self, candidate: Candidate, floor: f64, watch: &mut Watch) -> Option<Found> {
        self.tried += 1;
        let score = self.judge.score_above(floor, &candidate);
        let found = score.map(|score| Found { candidate, score });
        let best = self.best.as_ref().map_or(0.0, |best| best.score);
        let is_best = found.as_ref().is_some_and(|found| found.score > best);
        if is_best {
            self.best.clone_from(&found);
        }
        watch(self, is_best);
        found
    }
}

/// Some changes at once.
fn leap(from: &Candidate, random: &mut Random) -> Candidate {
    let mut candidate = from.clone();
    for _ in 0..LEAPS {
        candidate = candidate.changed(random);
    }
    candidate
}
