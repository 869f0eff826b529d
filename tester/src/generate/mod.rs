//! Random cases: tables, rows, runs, region lists, and damage to their files.
//!
//! Most cases are small, so that many fit in a short time; one in a chosen
//! number is of any size the format has. `cases` puts whole inputs of the five
//! calls together.

pub mod cases;
pub mod damage;
pub mod lists;
pub mod random;
pub mod rows;
pub mod systematic;
pub mod tables;
pub mod waiting;

pub use cases::{admit_case, follow_case, make_case, regions_case, run_case};
pub use cases::{FollowCase, MakeCase, PairCase};
pub use random::{seed, Random};
pub use tables::Shape;
pub use waiting::WaitingList;
