//! Guards that fall from edge to edge, so that each edge can be taken in a few more rows of a list than
//! the one before it, and earlier ones.

use crate::automaton::{Comparison, Guard};
use crate::region::{is_whole, top};

/// Guards for so many edges: they ask each of some clocks for no less than an interval. These
/// intervals fall from all tops to all zeros, clock by clock as in the order of the rows, in even steps.
pub fn falling_guards(bounds: &[u8], clocks: &[usize], edges: usize) -> Vec<Vec<Guard>> {
    let size = |clock: &usize| u64::from(top(bounds[*clock])) + 1;
    let greatest = clocks.iter().map(size).product::<u64>() - 1;
    let steps = edges.saturating_sub(1).max(1) as u64;
    (0..edges as u64)
        .map(|edge| {
            let mut rest = greatest * steps.saturating_sub(edge) / steps;
            let mut guards = Vec::new();
            for clock in clocks.iter().rev() {
                guards.extend(no_less(*clock, (rest % size(clock)) as u8));
                rest /= size(clock);
            }
            guards
        })
        .collect()
}

/// The guard that holds from an interval of the clock on; for the first one there is no need of any.
fn no_less(clock: usize, interval: u8) -> Option<Guard> {
    let comparison = match is_whole(interval) {
        true => Comparison::AtLeast,
        false => Comparison::Greater,
    };
    (interval > 0).then_some(Guard {
        clock: clock as u8,
        comparison,
        constant: interval / 2,
    })
}
