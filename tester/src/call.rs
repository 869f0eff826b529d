//! The five calls, and one input of a call: made at random, put to both sides,
//! written to a file and read back.

use crate::answer::hex;
use crate::automaton::Comparison;
use crate::compare::{self, Compared};
use crate::format::parse_table;
use crate::generate::damage::damage;
use crate::generate::{admit_case, follow_case, make_case, regions_case, run_case};
use crate::generate::{PairCase, Random, WaitingList};
use crate::library::REFUSED;
use crate::make::Row;
use crate::rooms::{Outcome, Rooms, Side};
use crate::tally::{OF_ADMISSION, OF_FOLLOWING, OF_MAKING, OF_REGIONS, OF_RUNS};
use std::str::FromStr;

#[derive(Clone, Copy, Debug, PartialEq, Eq)]
pub enum Call {
    Admission,
    Run,
    Regions,
    Following,
    Making,
}

impl Call {
    /// Those that can be compared; making is one of them with its feature alone.
    pub const ALL: &'static [Call] = &[
        Call::Admission,
        Call::Run,
        Call::Regions,
        Call::Following,
        #[cfg(feature = "making")]
        Call::Making,
    ];

    pub fn name(self) -> &'static str {
        match self {
            Call::Admission => "admission",
            Call::Run => "run-list",
            Call::Regions => "region-list",
            Call::Following => "following",
            Call::Making => "making",
        }
    }

    pub fn named(name: &str) -> Option<Call> {
        let mut all = Call::ALL.iter().copied();
        all.find(|call| call.name() == name)
    }

    /// The numbers it may answer; 0 stands for acceptance.
    pub fn numbers(self) -> &'static [u8] {
        match self {
            Call::Admission => OF_ADMISSION,
            Call::Run => OF_RUNS,
            Call::Regions => OF_REGIONS,
            Call::Following => OF_FOLLOWING,
            Call::Making => OF_MAKING,
        }
    }

    /// Those of them that can have several places in one file.
    pub fn with_places(self) -> &'static [u8] {
        match self {
            // A row to follow is record 0, so its refusals have one place, as making's own have.
            Call::Admission | Call::Following | Call::Making => &[1, 3, 5, 6],
            Call::Run => &[1, 3, 5, 6, 7, 8, 10, 11, 12],
            Call::Regions => &[1, 3, 5, 6, 7, 8, 14, 15, 17],
        }
    }
}

/// What is given to a call. Admission and making have no second file, only following
/// has a number, only following and making have a buffer, and only making a waiting list.
#[derive(Clone, Debug, PartialEq, Eq)]
pub struct Input {
    pub call: Call,
    pub table: Vec<u8>,
    pub second: Vec<u8>,
    pub number: u16,
    pub buffer: Vec<u8>,
    pub waiting: WaitingList,
}

/// One table in so many may be of any size.
const LARGE_ONCE_IN: usize = 50;

impl Input {
    fn of_files(call: Call, table: Vec<u8>, second: Vec<u8>) -> Input {
        Input {
            call,
            table,
            second,
            number: 0,
            buffer: vec![],
            waiting: WaitingList::default(),
        }
    }

    /// A random input: sound, nearly so, or damaged once or several times.
    pub fn random(call: Call, random: &mut Random) -> Input {
        match call {
            Call::Admission => {
                let mut table = admit_case(random, LARGE_ONCE_IN);
                if random.once_in(2) {
                    table = damage(random, &table, &table);
                }
                Input::of_files(call, table, vec![])
            }
            Call::Run => Input::of_pair(call, random, run_case),
            Call::Regions => Input::of_pair(call, random, regions_case),
            Call::Following => Input::to_follow(random),
            Call::Making => Input::to_make(random),
        }
    }

    fn of_pair(call: Call, random: &mut Random, make: fn(&mut Random, usize) -> PairCase) -> Input {
        let PairCase { table, list } = make(random, LARGE_ONCE_IN);
        let mut input = Input::of_files(call, table, list);
        input.damage(random);
        input
    }

    fn to_follow(random: &mut Random) -> Input {
        let case = follow_case(random, LARGE_ONCE_IN);
        let mut input = Input {
            number: case.number,
            buffer: case.buffer,
            ..Input::of_files(Call::Following, case.table, case.row)
        };
        if random.once_in(2) {
            input.damage(random);
        }
        input
    }

    fn to_make(random: &mut Random) -> Input {
        let case = make_case(random, LARGE_ONCE_IN);
        let table = match random.once_in(12) {
            true => damage(random, &case.table, &case.buffer),
            false => case.table,
        };
        Input {
            buffer: case.buffer,
            waiting: case.waiting,
            ..Input::of_files(Call::Making, table, vec![])
        }
    }

    /// In half the cases one more damage, seldom to the table, as its refusals hide all others.
    fn damage(&mut self, random: &mut Random) {
        match random.below(12) {
            0..=4 => self.second = damage(random, &self.second, &self.table),
            5 => self.table = damage(random, &self.table, &self.second),
            _ => {}
        }
    }

    /// Whether its table can be read and has '≠' in an edge.
    pub fn has_not_equal(&self) -> bool {
        parse_table(&self.table).is_ok_and(|automaton| automaton.has(Comparison::NotEqual))
    }

    /// The answer on which both sides agree, or the report.
    pub fn compare(&self) -> Compared {
        match self.call {
            Call::Admission => compare::admit(&self.table),
            Call::Run => compare::run(&self.table, &self.second),
            Call::Regions => compare::regions(&self.table, &self.second),
            Call::Following => self.compare_following(),
            Call::Making => self.compare_making(),
        }
    }

    /// The same, and the same answer once more with everything lent beside pages
    /// that may not be touched; what making leaves behind there is compared too.
    pub fn compare_in(&self, rooms: &mut Rooms, side: Side) -> Compared {
        let met = self.compare()?;
        let outcome = rooms.call(side, self);
        let answer = match self.call == Call::Following && met.number > 0 {
            true => REFUSED | u64::from(met.packed()),
            false => met.packed().into(),
        };
        if outcome.answer != answer || !outcome.is_intact {
            return Err(format!(
                "the checker answers {answer:#x}, but beside a guard page ({side:?}) {:#x}, files intact: {}",
                outcome.answer, outcome.is_intact
            ));
        }
        if self.call == Call::Making && !self.is_left_as_due(&outcome) {
            return Err(format!(
                "both answer {answer:#x}, but beside a guard page ({side:?}) the checker leaves {}",
                hex(outcome.buffer)
            ));
        }
        Ok(met)
    }

    /// Whether making left the buffer as the rules do, and the waiting list all zero.
    pub fn is_left_as_due(&self, outcome: &Outcome) -> bool {
        let mut expected = self.buffer.clone();
        let mut waiting = self.waiting.rows();
        crate::make_list(&self.table, &mut expected, &mut waiting);
        *outcome.buffer == *expected && outcome.waiting.iter().all(|row| *row == Row::default())
    }

    #[cfg(feature = "following")]
    fn compare_following(&self) -> Compared {
        compare::follow(&self.table, &self.second, self.number, &self.buffer)
    }

    #[cfg(not(feature = "following"))]
    fn compare_following(&self) -> Compared {
        Err("this tester was built without the feature following".into())
    }

    #[cfg(feature = "making")]
    fn compare_making(&self) -> Compared {
        compare::make(&self.table, &self.buffer, &self.waiting.rows())
    }

    #[cfg(not(feature = "making"))]
    fn compare_making(&self) -> Compared {
        Err("this tester was built without the feature making".into())
    }

    /// A line for each part, files in hex; of a waiting list its length and the seed of its rubbish.
    pub fn text(&self) -> String {
        format!(
            "call {}\ntable {}\nsecond {}\nnumber {}\nbuffer {}\nwaiting {} {}\n",
            self.call.name(),
            hex(&self.table),
            hex(&self.second),
            self.number,
            hex(&self.buffer),
            self.waiting.records,
            self.waiting.seed
        )
    }

    /// The input of such lines, or what is wrong with them.
    pub fn from_text(text: &str) -> Result<Input, String> {
        let part = |name: &str| {
            let mut lines = text.lines().filter_map(|line| line.strip_prefix(name));
            lines
                .next()
                .map(str::trim)
                .ok_or(format!("no line '{name}'"))
        };
        let call = part("call")?;
        Ok(Input {
            call: Call::named(call).ok_or(format!("no call '{call}'"))?,
            table: from_hex(part("table")?)?,
            second: from_hex(part("second")?)?,
            number: parsed(part("number")?)?,
            buffer: from_hex(part("buffer")?)?,
            waiting: waiting_list(part("waiting")?)?,
        })
    }
}

fn parsed<Number: FromStr>(text: &str) -> Result<Number, String> {
    text.parse().map_err(|_| format!("no number '{text}'"))
}

fn waiting_list(text: &str) -> Result<WaitingList, String> {
    let (records, seed) = text.split_once(' ').ok_or("no two numbers")?;
    let records = parsed(records)?;
    let seed = parsed(seed)?;
    Ok(WaitingList { records, seed })
}

fn from_hex(text: &str) -> Result<Vec<u8>, String> {
    let byte = |pair: &[u8]| {
        let is_hex = pair.len() == 2 && pair.iter().all(u8::is_ascii_hexdigit);
        let digits = std::str::from_utf8(pair).ok().filter(|_| is_hex)?;
        u8::from_str_radix(digits, 16).ok()
    };
    let bytes: Option<Vec<u8>> = text.as_bytes().chunks(2).map(byte).collect();
    bytes.ok_or(format!("no bytes in hex: '{text}'"))
}
