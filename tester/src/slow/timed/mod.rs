//! The lists that the benchmark times: fixed tables, and which rows stand in their lists.

pub mod families;
pub mod found;
pub mod made;
pub mod refused;

use crate::answer::{number, Answer, Refusal};
use crate::automaton::{Automaton, Edge};
use crate::explore::closure_from;
use crate::region::{all_rows, Region};
use crate::region_list::GREATEST_ROWS;
use crate::slow::rows::rows_of;

/// Which rows a list has.
#[derive(Clone, Debug)]
pub enum Rows {
    /// All rows of the table.
    All,
    /// Those of the only location in which each clock equals the one that is named for it.
    Equal(Vec<usize>),
    /// The initial row, these, and all that they lead to.
    Reached(Vec<Region>),
}

/// A table with its list.
#[derive(Clone, Debug)]
pub struct TimedList {
    pub name: &'static str,
    /// So many checks in a row make one time.
    pub calls: u32,
    pub automaton: Automaton,
    pub rows: Rows,
    /// An edge that comes last and by which just the first row lacks a next row, if there is one;
    /// the list is that of the table without it.
    pub opening: Option<Edge>,
}

impl TimedList {
    fn new(name: &'static str, calls: u32, automaton: Automaton, rows: Rows) -> TimedList {
        TimedList {
            name,
            calls,
            automaton,
            rows,
            opening: None,
        }
    }

    /// The rows of the list, ascending.
    pub fn listed(&self) -> Vec<Region> {
        let most = usize::from(GREATEST_ROWS);
        let rows = match &self.rows {
            Rows::All => all_rows(&self.automaton, most),
            Rows::Equal(twins) => {
                let rows = rows_of(0, &self.automaton.bounds, twins);
                (rows.len() <= most).then_some(rows)
            }
            Rows::Reached(further) => {
                let mut starts = vec![Region::initial(&self.automaton)];
                starts.extend(further);
                let found = closure_from(&self.automaton, &starts, most);
                found.closed_list().map(<[Region]>::to_vec)
            }
        };
        rows.unwrap_or_else(|| panic!("{}: the rows do not fit in a list", self.name))
    }

    /// The whole table.
    pub fn table(&self) -> Automaton {
        let mut automaton = self.automaton.clone();
        automaton.edges.extend(self.opening.clone());
        automaton
    }

    /// The answer that the list has to get.
    pub fn expected(&self, rows: &[Region]) -> Answer {
        match self.opening {
            None => Answer::Accepted(rows.len() as u32),
            Some(_) => Refusal::new(number::NEXT_ROW_MISSING, 1).into(),
        }
    }
}

/// All of them, in the order in which they are timed.
pub fn timed_lists() -> Vec<TimedList> {
    let mut lists = families_timed();
    lists.extend(found::lists());
    lists
}

fn families_timed() -> Vec<TimedList> {
    use families::*;
    let reached =
        |name, calls, automaton| TimedList::new(name, calls, automaton, Rows::Reached(vec![]));
    let all = |name, calls, automaton| TimedList::new(name, calls, automaton, Rows::All);
    let (narrow, broad) = ([2, 2, 1, 1], [25, 25]);
    vec![
        reached("typical list", 50, typical()),
        all("deterministic updates", 2, deterministic()),
        all("worst list", 1, worst(&[18, 18])),
        all("worst list", 1, worst(&narrow)),
        all("last clock kept", 1, last_kept(&narrow)),
        all("no clock goes down", 1, none_down(&narrow)),
        all("no clock goes down", 1, none_down(&broad)),
        all("up by one at most", 1, up_by_one(&broad)),
        all("read in vain", 1, read_in_vain(&broad)),
        all("≠ constants and clocks", 1, all_but_one(&narrow)),
        all("≠ constants and clocks", 1, all_but_one(&broad)),
        all("≠ itself", 1, all_changed(&broad)),
        all("≠ another clock", 1, none_alike(&narrow)),
        reached("two clocks kept", 1, two_kept(&[7, 7, 7, 7])),
        reached("two clocks kept", 1, two_kept(&[1, 1, 50, 2])),
    ]
}
