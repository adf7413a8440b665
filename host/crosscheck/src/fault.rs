//! Refusals by their numbers, each with two places.

#[derive(Clone, Copy, PartialEq, Eq, Debug)]
pub struct Fault {
    pub number: u8,
    pub places: (u32, u32),
}

pub const RECORD_LENGTH: u8 = 1;
pub const KIND: u8 = 2;
pub const TASK_BOUNDS: u8 = 3;
pub const STREAM_BOUNDS: u8 = 4;
pub const ZERO_BYTES: u8 = 5;
pub const PLAN_FULL: u8 = 6;
pub const PLAN_EMPTY: u8 = 7;
pub const LENGTH: u8 = 9;
pub const LETTERS: u8 = 10;
pub const CLOSED: u8 = 11;
pub const ROW_NOT_HELD: u8 = 12;
pub const NO_SUCH_WAY: u8 = 13;
pub const WAY_VOID_OR_LATE: u8 = 14;
pub const STATE_HELD: u8 = 15;
pub const NO_ROW_LEFT: u8 = 16;
pub const NOT_NEXT: u8 = 17;
pub const OUTCOME_WRONG: u8 = 18;

pub fn fault(number: u8, first: u32, second: u32) -> Fault {
    Fault {
        number,
        places: (first, second),
    }
}
