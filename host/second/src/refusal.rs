//! What a call gives when it refuses: a number of the rules' table and a
//! place, the offset of the raw byte that is named, 0 where none is.

pub const OUTPUT_SHORT: u8 = 1;
pub const TABLE_NOT_VALID: u8 = 2;
pub const RUN_ENDED: u8 = 3;
pub const ESCAPE_WRONG: u8 = 4;
pub const SYN_EARLY: u8 = 5;
pub const SOURCE_WRONG: u8 = 6;
pub const DESTINATION_WRONG: u8 = 7;
pub const LENGTH_OVER: u8 = 8;
pub const CHECK_WRONG: u8 = 9;
pub const COMMAND_NACKED: u8 = 10;
pub const REPLY_NACKED: u8 = 11;
pub const BUS_ERROR: u8 = 12;
pub const FRAME_LENGTH: u8 = 13;
pub const FRAME_HEAD: u8 = 14;
pub const SUBCOMMAND_WRONG: u8 = 15;
pub const FRAME_CHECK: u8 = 16;
pub const SERIAL_OVER: u8 = 17;
pub const QUEUE_FULL: u8 = 18;
pub const FILL_OVER: u8 = 19;
pub const DIGIT_WRONG: u8 = 26;

/// A refusal. Nothing lent was changed.
#[derive(Clone, Copy, Debug, PartialEq, Eq)]
pub struct Refusal {
    pub number: u8,
    pub place: usize,
}

impl Refusal {
    /// A refusal that names a raw byte.
    pub const fn at(number: u8, place: usize) -> Self {
        Refusal { number, place }
    }

    /// A refusal that names no byte.
    pub const fn whole(number: u8) -> Self {
        Refusal { number, place: 0 }
    }
}
