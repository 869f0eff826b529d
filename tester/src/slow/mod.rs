//! Region lists that may keep the checker busy: fixed ones for the benchmark, and
//! a search for others.
//!
//! A *candidate* is a table of one edge and what its list begins with; `change`
//! alters one thing of it, `score` times it, `search` climbs from one candidate to
//! slower ones, and `timed` has the lists that are timed again and again. Where refusals
//! are sought, a candidate has `gaps`, and `refusal_score` times it.

pub mod arguments;
pub mod candidate;
pub mod change;
pub mod falling;
pub mod gaps;
pub mod open_list;
pub mod pair;
pub mod refusal_score;
pub mod rows;
pub mod score;
pub mod search;
pub mod timed;

pub use arguments::Arguments;
pub use candidate::{Candidate, Share};
pub use open_list::OpenList;
pub use pair::Pair;
pub use refusal_score::RefusalScore;
pub use score::Score;
pub use search::{Judge, Search};
