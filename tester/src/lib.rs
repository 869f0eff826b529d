//! An independent reading of the Tzelmaruf rules: admission of timing tables,
//! checks of run lists and region lists, the following of one region, and the
//! making of a region list.
//!
//! It shares no code with the checker it is compared with. Wherever a rule can
//! be put in two ways, the plain way (by points) is kept beside the fast one
//! (by intervals and ranks), and the tests hold one against the other.
//!
//! `library` calls the checker itself, and `compare` holds it against all this.

pub mod admit;
pub mod answer;
pub mod automaton;
pub mod call;
pub mod compare;
pub mod concrete;
pub mod cpu_time;
pub mod explore;
pub mod follow;
pub mod format;
pub mod generate;
pub mod guarded;
pub mod library;
pub mod make;
pub mod region;
pub mod region_list;
pub mod rooms;
pub mod run;
pub mod slow;
pub mod stack;
pub mod successor;
pub mod tally;
pub mod verdict;
pub mod words;

pub use admit::admit;
pub use answer::{Answer, Refusal};
pub use automaton::Automaton;
pub use follow::follow;
pub use make::make_list;
pub use region::Region;
pub use region_list::check_regions;
pub use run::check_run;
