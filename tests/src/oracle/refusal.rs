//! The numbers that say no and that a call can give, with the record that two of them name.

pub const SHORT: u32 = 1;
pub const CONTENTS: u32 = 2;
pub const COUNTS: u32 = 3;
pub const LABELS: u32 = 4;
pub const MOVES: u32 = 5;
pub const GOAL: u32 = 6;
pub const ROOM: u32 = 7;
pub const PLACE: u32 = 9;
pub const ENTRY: u32 = 10;
pub const OUTCOME: u32 = 11;
pub const FIELD: u32 = 12;
pub const ORDER: u32 = 13;
pub const NO_CLAUSES: u32 = 14;
pub const CLAUSE: u32 = 15;
pub const WRONG: u32 = 16;
pub const MEMORY: u32 = 17;
pub const SLIPS: u32 = 18;
pub const TRACE: u32 = 19;
pub const FORMULA: u32 = 20;
pub const DEEP: u32 = 21;
pub const LETTER: u32 = 22;

/// Why a call says no; the record is 0 unless the number is FIELD or ORDER.
#[derive(Clone, Copy, Debug, PartialEq, Eq)]
pub struct Refused {
    pub number: u32,
    pub record: u32,
}

impl From<u32> for Refused {
    fn from(number: u32) -> Refused {
        Refused { number, record: 0 }
    }
}
