//! Fast Modbus scan frames: requests 01 and 02, answers 03 and 04, read and
//! written.

use crate::checks::modbus_check;
use crate::devices::SERIAL_LIMIT;
use crate::refusal::{
    Refusal, FILL_OVER, FRAME_CHECK, FRAME_HEAD, FRAME_LENGTH, OUTPUT_SHORT, SERIAL_OVER,
    SUBCOMMAND_WRONG,
};

/// All frames begin with these two bytes.
pub(crate) const HEAD: [u8; 2] = [0xFD, 0x46];
const START: u8 = 0x01;
const CONTINUE: u8 = 0x02;
const FOUND: u8 = 0x03;
const END: u8 = 0x04;
/// The bytes of every frame but 03.
pub(crate) const SHORT: usize = 5;
/// The bytes of frame 03.
const LONG: usize = 10;
/// The byte that a dominant window puts on the bus.
pub const FILL: u8 = 0xFF;
/// The most FF before an answer.
pub const MOST_FILL: usize = 32;

/// A scan request; the values are those of `moortinker.h`.
#[derive(Clone, Copy, Debug, PartialEq, Eq)]
pub enum Request {
    Start = START as isize,
    Continue = CONTINUE as isize,
}

impl Request {
    /// The request of a subcommand.
    fn of(subcommand: u8) -> Option<Self> {
        match subcommand {
            START => Some(Request::Start),
            CONTINUE => Some(Request::Continue),
            _ => None,
        }
    }
}

/// An answer to a scan request. The address is as sent, any byte.
#[derive(Clone, Copy, Debug, PartialEq, Eq)]
pub enum Answer {
    Found { serial: u32, address: u8 },
    End,
}

/// What a request frame asks; it must fill the input.
pub fn read_request(input: &[u8]) -> Result<Request, Refusal> {
    let subcommand = read_head(input, 0)?;
    let request = Request::of(subcommand).ok_or(Refusal::at(SUBCOMMAND_WRONG, 2))?;
    read_rest(input, 0, SHORT)?;
    Ok(request)
}

/// How many leading FF the answer reader passed over, up to 32, and what the
/// answer frame behind them says. Places count them.
pub fn read_answer(input: &[u8]) -> Result<(usize, Answer), Refusal> {
    let (fill, frame) = pass_over(input)?;
    let answer = match read_head(frame, fill)? {
        FOUND => {
            read_rest(frame, fill, LONG)?;
            let serial = u32::from_be_bytes([frame[3], frame[4], frame[5], frame[6]]);
            if serial >= SERIAL_LIMIT {
                return Err(Refusal::at(SERIAL_OVER, fill + 3));
            }
            Answer::Found {
                serial,
                address: frame[7],
            }
        }
        END => {
            read_rest(frame, fill, SHORT)?;
            Answer::End
        }
        _ => return Err(Refusal::at(SUBCOMMAND_WRONG, fill + 2)),
    };
    Ok((fill, answer))
}

/// Writes a request frame, 1 for start and 2 for continue, and gives its
/// length. Order: 15, then 1; every place is 0.
pub fn write_request(request: u8, out: &mut [u8]) -> Result<usize, Refusal> {
    match Request::of(request) {
        Some(_) => write_frame([HEAD[0], HEAD[1], request, 0, 0], out),
        None => Err(Refusal::whole(SUBCOMMAND_WRONG)),
    }
}

/// Writes the answer of a device found and gives its length. Order: 17, then 1.
pub fn write_found(serial: u32, address: u8, out: &mut [u8]) -> Result<usize, Refusal> {
    if serial >= SERIAL_LIMIT {
        return Err(Refusal::whole(SERIAL_OVER));
    }
    let [a, b, c, d] = serial.to_be_bytes();
    write_frame([HEAD[0], HEAD[1], FOUND, a, b, c, d, address, 0, 0], out)
}

/// Writes the answer that ends a scan and gives its length.
pub fn write_end(out: &mut [u8]) -> Result<usize, Refusal> {
    write_frame([HEAD[0], HEAD[1], END, 0, 0], out)
}

/// How many FF an answer begins with, also none, and what stands behind them:
/// "more than 32 is now number 19, placed at the 33rd. It comes after number 1
/// and before all other checks of the input."
pub(crate) fn pass_over(input: &[u8]) -> Result<(usize, &[u8]), Refusal> {
    let most = input.iter().take(MOST_FILL + 1);
    let fill = most.take_while(|&&byte| byte == FILL).count();
    if fill > MOST_FILL {
        return Err(Refusal::at(FILL_OVER, MOST_FILL));
    }
    Ok((fill, &input[fill..]))
}

/// The subcommand of a frame that stands at a place of the whole input. Order:
/// "fewer than 5 bytes left (13), 14".
pub(crate) fn read_head(frame: &[u8], place: usize) -> Result<u8, Refusal> {
    if frame.len() < SHORT {
        return Err(Refusal::whole(FRAME_LENGTH));
    }
    if frame[0] != HEAD[0] {
        return Err(Refusal::at(FRAME_HEAD, place));
    }
    if frame[1] != HEAD[1] {
        return Err(Refusal::at(FRAME_HEAD, place + 1));
    }
    Ok(frame[2])
}

/// The length and the check of a frame whose subcommand is known.
pub(crate) fn read_rest(frame: &[u8], place: usize, length: usize) -> Result<(), Refusal> {
    if frame.len() != length {
        return Err(Refusal::whole(FRAME_LENGTH));
    }
    let (before, check) = frame.split_at(length - 2);
    if check != modbus_check(before).to_le_bytes() {
        return Err(Refusal::at(FRAME_CHECK, place + length - 2));
    }
    Ok(())
}

/// Puts the check into a frame's last two bytes and the frame into the output.
pub(crate) fn write_frame<const LENGTH: usize>(
    mut frame: [u8; LENGTH],
    out: &mut [u8],
) -> Result<usize, Refusal> {
    let Some(out) = out.first_chunk_mut::<LENGTH>() else {
        return Err(Refusal::whole(OUTPUT_SHORT));
    };
    let (before, check) = frame.split_at_mut(LENGTH - 2);
    check.copy_from_slice(&modbus_check(before).to_le_bytes());
    *out = frame;
    Ok(LENGTH)
}
