//! Railbus packets: their checksum, read and written. A packet is text: RP, the
//! address, a letter, the register, with some letters the data, the checksum.

use std::ops::Range;

use crate::refusal::{
    Refusal, DIGIT_WRONG, FRAME_CHECK, FRAME_HEAD, FRAME_LENGTH, OUTPUT_SHORT, SUBCOMMAND_WRONG,
};

/// All packets begin with these two characters.
const MARK: [u8; 2] = *b"RP";
/// Where the address stands.
const ADDRESS: Range<usize> = 2..4;
/// Where the letter stands.
const LETTER: usize = 4;
/// Where the register stands.
const REGISTER: Range<usize> = 5..7;
/// Where the data begins, which lasts up to the checksum.
const DATA: usize = 7;
/// The characters of the checksum, the last ones.
const CHECK_LENGTH: usize = 2;
/// The characters of a packet without data.
pub const SHORT: usize = 9;
/// The characters of a packet with data.
pub const LONG: usize = 17;

/// x^7 + x^3 + 1 without its highest term.
const POLYNOMIAL: u8 = 0x09;
/// The highest bit of a remainder, which has seven.
const HIGHEST: u8 = 0x40;
/// The bit above the remainder that says the checksum is to be examined.
const EXAMINED: u8 = 0x80;

const HEX_DIGITS: [u8; 16] = *b"0123456789ABCDEF";

/// What kind of packet it is; the values are the characters.
#[derive(Clone, Copy, Debug, PartialEq, Eq)]
#[repr(u8)]
pub enum Letter {
    /// A register is to be read.
    Read = b'R',
    /// A register is to be written.
    Write = b'W',
    /// The write that has finished is to be forgotten.
    Sync = b'S',
    /// What a register holds.
    ReadDone = b'K',
    /// A write has finished.
    WriteDone = b'I',
    /// There is no such register.
    Absent = b'N',
    /// What became of a request, by a number.
    Special = b'n',
}

impl Letter {
    /// The kind that a character stands for.
    pub fn of(character: u8) -> Option<Self> {
        match character {
            b'R' => Some(Letter::Read),
            b'W' => Some(Letter::Write),
            b'S' => Some(Letter::Sync),
            b'K' => Some(Letter::ReadDone),
            b'I' => Some(Letter::WriteDone),
            b'N' => Some(Letter::Absent),
            b'n' => Some(Letter::Special),
            _ => None,
        }
    }

    /// The characters of a packet of this kind.
    pub fn packet_length(self) -> usize {
        match self {
            Letter::Read | Letter::Sync | Letter::Absent => SHORT,
            Letter::Write | Letter::ReadDone | Letter::WriteDone | Letter::Special => LONG,
        }
    }
}

/// What a packet says.
#[derive(Clone, Copy, Debug, PartialEq, Eq)]
pub struct Packet {
    pub letter: Letter,
    pub address: u8,
    pub reg: u8,
    /// 0 where the packet carries none.
    pub data: u32,
    /// Whether its checksum was examined.
    pub checked: bool,
}

/// The checksum of the characters, with the bit that has it examined. Their bits
/// enter highest first, and each one leaves a remainder of seven bits.
pub fn railbus_check(characters: &[u8]) -> u8 {
    let mut remainder = 0;
    for &character in characters {
        for place in (0..8).rev() {
            let carry = remainder & HIGHEST != 0;
            let bit = character >> place & 1 == 1;
            remainder = remainder << 1 & !EXAMINED;
            if carry != bit {
                remainder ^= POLYNOMIAL;
            }
        }
    }
    remainder | EXAMINED
}

/// What a packet says; it must fill the input. Order: too short for any packet
/// (13), 14, 15, not the letter's length (13), 26, 16.
pub fn read_railbus(input: &[u8]) -> Result<Packet, Refusal> {
    if input.len() < SHORT {
        return Err(Refusal::whole(FRAME_LENGTH));
    }
    if let Some(wrong) = (0..MARK.len()).find(|&at| input[at] != MARK[at]) {
        return Err(Refusal::at(FRAME_HEAD, wrong));
    }
    let letter = Letter::of(input[LETTER]).ok_or(Refusal::at(SUBCOMMAND_WRONG, LETTER))?;
    let length = letter.packet_length();
    if input.len() != length {
        return Err(Refusal::whole(FRAME_LENGTH));
    }
    // From the first to the last, so that the first wrong digit is the one named.
    let end = length - CHECK_LENGTH;
    let address = number_at(input, ADDRESS)? as u8;
    let reg = number_at(input, REGISTER)? as u8;
    let data = number_at(input, DATA..end)?;
    let check = number_at(input, end..length)? as u8;
    let checked = check & EXAMINED != 0;
    if checked && check != railbus_check(&input[..end]) {
        return Err(Refusal::at(FRAME_CHECK, end));
    }
    Ok(Packet {
        letter,
        address,
        reg,
        data,
        checked,
    })
}

/// Writes a packet with its checksum, which is to be examined, and gives its
/// length. Letters without data leave out what is handed in. Order: 15, then 1;
/// every place is 0.
pub fn write_railbus(
    letter: u8,
    address: u8,
    reg: u8,
    data: u32,
    out: &mut [u8],
) -> Result<usize, Refusal> {
    let letter = Letter::of(letter).ok_or(Refusal::whole(SUBCOMMAND_WRONG))?;
    let length = letter.packet_length();
    let Some(out) = out.get_mut(..length) else {
        return Err(Refusal::whole(OUTPUT_SHORT));
    };
    let (before, check) = out.split_at_mut(length - CHECK_LENGTH);
    before[..MARK.len()].copy_from_slice(&MARK);
    before[ADDRESS].copy_from_slice(&digits(address));
    before[LETTER] = letter as u8;
    before[REGISTER].copy_from_slice(&digits(reg));
    // Without data there is no room here, and so nothing is put in.
    let room = before[DATA..].chunks_exact_mut(2);
    for (two, byte) in room.zip(data.to_be_bytes()) {
        two.copy_from_slice(&digits(byte));
    }
    check.copy_from_slice(&digits(railbus_check(before)));
    Ok(length)
}

/// The number that the digits at these places say, at most eight; of none it is
/// 0.
fn number_at(input: &[u8], places: Range<usize>) -> Result<u32, Refusal> {
    places.into_iter().try_fold(0, |number, at| {
        let value = digit_value(input[at]).ok_or(Refusal::at(DIGIT_WRONG, at))?;
        Ok(number << 4 | u32::from(value))
    })
}

/// The value of a hex digit in upper case.
fn digit_value(character: u8) -> Option<u8> {
    match character {
        b'0'..=b'9' => Some(character - b'0'),
        b'A'..=b'F' => Some(character - b'A' + 10),
        _ => None,
    }
}

/// The two digits of a byte.
fn digits(byte: u8) -> [u8; 2] {
    [byte >> 4, byte & 0x0F].map(|value| HEX_DIGITS[usize::from(value)])
}
