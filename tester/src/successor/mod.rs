//! The rows an edge leads to, found in two ways that share no rule:
//! `by_points` tries concrete values, `by_intervals` reckons with intervals
//! and the order of fractional parts.

pub mod by_intervals;
pub mod by_points;

pub use by_intervals::NextRows;
pub use by_points::by_points;
