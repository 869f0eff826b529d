//! What a call answers: accepted with a count, or refused with number and place.

/// The refusal numbers by the names of `host/tzelmaruf.h`, but for 18 and 19:
/// these are following's, which has no function there.
pub mod number {
    pub const TABLE_CUT: u8 = 1;
    pub const HEADER_RANGE: u8 = 2;
    pub const TABLE_RANGE: u8 = 3;
    pub const TABLE_LONG: u8 = 4;
    pub const CONSTANT_ABOVE_BOUND: u8 = 5;
    pub const CLOCK_BREAKS_BOUND: u8 = 6;
    pub const LIST_CUT: u8 = 7;
    pub const LIST_RANGE: u8 = 8;
    pub const LIST_LONG: u8 = 9;
    pub const EDGE_FROM_ELSEWHERE: u8 = 10;
    pub const GUARD_FAILS: u8 = 11;
    pub const VALUE_NOT_ALLOWED: u8 = 12;
    pub const END_NOT_FINAL: u8 = 13;
    pub const ROWS_NOT_ASCENDING: u8 = 14;
    pub const ROW_FINAL: u8 = 15;
    pub const INITIAL_ROW_MISSING: u8 = 16;
    pub const NEXT_ROW_MISSING: u8 = 17;
    pub const NOT_A_NUMBER_TO_FOLLOW: u8 = 18;
    pub const BUFFER_SHORT: u8 = 19;
    pub const NO_ROOM: u8 = 20;
    pub const FINAL_ENTERED: u8 = 21;
}

/// Why a file is refused, and at which record.
#[derive(Clone, Copy, Debug, PartialEq, Eq, Hash)]
pub struct Refusal {
    pub number: u8,
    pub place: u16,
}

impl Refusal {
    pub fn new(number: u8, place: u16) -> Self {
        Refusal { number, place }
    }
}

/// The answer of a call.
#[derive(Clone, Copy, Debug, PartialEq, Eq, Hash)]
pub enum Answer {
    Accepted(u32),
    Refused { number: u8, place: u16 },
}

impl Answer {
    /// The one number a host program gets: refusal number times 65,536 plus
    /// place, or the count alone. A count of 65,536 or more (only following can
    /// reach one) looks like a refusal in this form; compare such answers unpacked.
    pub fn packed(self) -> u32 {
        match self {
            Answer::Accepted(count) => count,
            Answer::Refused { number, place } => u32::from(number) << 16 | u32::from(place),
        }
    }

    /// The answer that a packed number stands for.
    pub fn unpacked(packed: u32) -> Answer {
        match packed >> 16 {
            0 => Answer::Accepted(packed),
            number => Answer::Refused {
                number: number.try_into().unwrap_or(u8::MAX),
                place: packed as u16,
            },
        }
    }

    pub fn is_accepted(self) -> bool {
        matches!(self, Answer::Accepted(_))
    }
}

impl From<Refusal> for Answer {
    fn from(refusal: Refusal) -> Self {
        Answer::Refused {
            number: refusal.number,
            place: refusal.place,
        }
    }
}

impl From<Result<u32, Refusal>> for Answer {
    fn from(result: Result<u32, Refusal>) -> Self {
        match result {
            Ok(count) => Answer::Accepted(count),
            Err(refusal) => refusal.into(),
        }
    }
}

/// Bytes in hex, for the report of a failing case.
pub fn hex(bytes: &[u8]) -> String {
    bytes.iter().map(|byte| format!("{byte:02X}")).collect()
}
