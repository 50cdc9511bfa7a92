//! Fast Modbus: the check and the frames of a scan.
//!
//! Every frame begins FD 46 and ends with the check, low byte first.

use crate::refusal::length_of;
use crate::{call, sys, Refusal};

/// The length of a request frame, and of the answer that ends a scan.
///
/// ```
/// use moortinker::modbus::{write_end, SHORT_FRAME};
///
/// assert_eq!(write_end(&mut [0; SHORT_FRAME]), Ok(SHORT_FRAME));
/// ```
pub const SHORT_FRAME: usize = 5;

/// The length of the answer of a device found.
///
/// ```
/// use moortinker::modbus::{write_found, FOUND_FRAME};
///
/// assert_eq!(write_found(0x0001EB37, 0x0C, &mut [0; FOUND_FRAME]), Ok(FOUND_FRAME));
/// ```
pub const FOUND_FRAME: usize = 10;

/// The most FF that a reader passes over before an answer. No contest puts more
/// on the bus.
///
/// ```
/// use moortinker::modbus::{read_answer, MOST_FILL};
/// use moortinker::Reason;
///
/// let mut input = vec![0xFF; MOST_FILL];
/// input.extend([0xFD, 0x46, 0x04, 0xD3, 0x93]);
/// assert_eq!(read_answer(&input)?.skipped, MOST_FILL);
/// input.insert(0, 0xFF);
/// let refusal = read_answer(&input).unwrap_err();
/// assert_eq!((refusal.reason(), refusal.place()), (Reason::FillOver, MOST_FILL));
/// # Ok::<(), moortinker::Refusal>(())
/// ```
pub const MOST_FILL: usize = sys::MOOR_MOST_FILL;

/// The Modbus check of the bytes. It is sent low byte first.
///
/// ```
/// use moortinker::modbus;
///
/// assert_eq!(modbus::check(&[0xFD, 0x46, 0x01]).to_le_bytes(), [0x13, 0x90]);
/// assert_eq!(modbus::check(&[]), 0xFFFF);
/// ```
pub fn check(bytes: &[u8]) -> u16 {
    call::modbus_check(bytes)
}

/// A scan request.
///
/// ```
/// use moortinker::modbus::{read_request, Request};
///
/// assert_eq!(read_request(&Request::Continue.frame()), Ok(Request::Continue));
/// ```
#[derive(Clone, Copy, Debug, PartialEq, Eq, Hash)]
pub enum Request {
    /// Starts a scan: every device becomes unscanned.
    Start,
    /// Continues a scan.
    Continue,
}

impl Request {
    /// The frame of this request.
    ///
    /// W9:
    ///
    /// ```
    /// use moortinker::modbus::Request;
    ///
    /// assert_eq!(Request::Start.frame(), [0xFD, 0x46, 0x01, 0x13, 0x90]);
    /// assert_eq!(Request::Continue.frame(), [0xFD, 0x46, 0x02, 0x53, 0x91]);
    /// ```
    pub fn frame(self) -> [u8; SHORT_FRAME] {
        let mut frame = [0; SHORT_FRAME];
        write_request(self, &mut frame).expect("a request has five bytes");
        frame
    }

    fn for_archive(self) -> u8 {
        match self {
            Request::Start => sys::MOOR_START,
            Request::Continue => sys::MOOR_CONTINUE,
        }
    }
}

/// An answer to a scan request.
///
/// ```
/// use moortinker::modbus::{read_answer, write_answer, Answer};
///
/// let answer = Answer::Found { serial: 0x0001EB37, address: 0x0C };
/// let mut frame = [0; 10];
/// assert_eq!(write_answer(answer, &mut frame), Ok(10));
/// assert_eq!(read_answer(&frame)?.answer, answer);
/// # Ok::<(), moortinker::Refusal>(())
/// ```
#[derive(Clone, Copy, Debug, PartialEq, Eq, Hash)]
pub enum Answer {
    /// A device was found.
    Found {
        /// Its serial, below 2^28.
        serial: u32,
        /// Its address as sent, any byte.
        address: u8,
    },
    /// The scan is at its end: every device is marked as scanned.
    End,
}

/// An answer that was read. [`read_answer`] gives it.
///
/// ```
/// use moortinker::modbus::{read_answer, Answer, Heard};
///
/// let heard = read_answer(&[0xFF, 0xFF, 0xFD, 0x46, 0x04, 0xD3, 0x93]);
/// assert_eq!(heard, Ok(Heard { answer: Answer::End, skipped: 2 }));
/// ```
#[derive(Clone, Copy, Debug, PartialEq, Eq, Hash)]
pub struct Heard {
    /// The answer.
    pub answer: Answer,
    /// How many FF were passed over before it, at most [`MOST_FILL`].
    pub skipped: usize,
}

/// What a request frame asks. The frame must fill the input.
///
/// Refuses with [`FrameLength`](crate::Reason::FrameLength) under 5 bytes,
/// [`FrameHead`](crate::Reason::FrameHead),
/// [`SubcommandWrong`](crate::Reason::SubcommandWrong),
/// [`FrameLength`](crate::Reason::FrameLength) and
/// [`FrameCheck`](crate::Reason::FrameCheck), in this order.
///
/// W9:
///
/// ```
/// use moortinker::modbus::{read_request, Request};
/// use moortinker::Reason;
///
/// assert_eq!(read_request(&[0xFD, 0x46, 0x01, 0x13, 0x90]), Ok(Request::Start));
/// assert_eq!(read_request(&[0xFD, 0x46, 0x02, 0x53, 0x91]), Ok(Request::Continue));
/// let refusal = read_request(&[0xFD, 0x47, 0x01, 0x13, 0x90]).unwrap_err();
/// assert_eq!((refusal.reason(), refusal.place()), (Reason::FrameHead, 1));
/// ```
pub fn read_request(input: &[u8]) -> Result<Request, Refusal> {
    let read = call::read_request(input);
    Refusal::check(read.number, read.place)?;
    match read.request {
        sys::MOOR_START => Ok(Request::Start),
        sys::MOOR_CONTINUE => Ok(Request::Continue),
        _ => unreachable!("libmoortinker.a reads one of two requests"),
    }
}

/// What an answer frame says. Up to [`MOST_FILL`] leading FF are passed over and
/// counted, and the frame must fill the rest.
///
/// Refuses with [`FillOver`](crate::Reason::FillOver) where there is one FF more,
/// then as [`read_request`] does (the length is 10 for a device found, 5 for
/// the end), and last with [`SerialOver`](crate::Reason::SerialOver). Places
/// count the leading FF; that of [`FrameLength`](crate::Reason::FrameLength) is 0.
///
/// W10 and W11:
///
/// ```
/// use moortinker::modbus::{read_answer, Answer};
/// use moortinker::Reason;
///
/// let heard = read_answer(&[0xFF, 0xFF, 0xFD, 0x46, 0x04, 0xD3, 0x93])?;
/// assert_eq!((heard.answer, heard.skipped), (Answer::End, 2));
/// let heard = read_answer(&[0xFD, 0x46, 0x03, 0x00, 0x01, 0xEB, 0x37, 0x0C, 0xCE, 0xDC])?;
/// assert_eq!(heard.answer, Answer::Found { serial: 0x0001EB37, address: 0x0C });
/// assert_eq!(heard.skipped, 0);
///
/// let refusal = read_answer(&[0xFF, 0xFD, 0x46, 0x04, 0xD3, 0x94]).unwrap_err();
/// assert_eq!((refusal.reason(), refusal.place()), (Reason::FrameCheck, 4));
/// let refusal = read_answer(&[0xFF; 32]).unwrap_err();
/// assert_eq!((refusal.reason(), refusal.place()), (Reason::FrameLength, 0));
/// let refusal = read_answer(&[0xFF; 33]).unwrap_err();
/// assert_eq!((refusal.reason(), refusal.place()), (Reason::FillOver, 32));
/// # Ok::<(), moortinker::Refusal>(())
/// ```
pub fn read_answer(input: &[u8]) -> Result<Heard, Refusal> {
    let read = call::read_answer(input);
    Refusal::check(read.number, read.place)?;
    let answer = match read.answer {
        sys::MOOR_FOUND => Answer::Found {
            serial: read.serial,
            address: read.address,
        },
        sys::MOOR_END => Answer::End,
        _ => unreachable!("libmoortinker.a reads one of two answers"),
    };
    let skipped = read.skipped;
    Ok(Heard { answer, skipped })
}

/// Writes a request frame, and gives its length. Refuses only with
/// [`OutputShort`](crate::Reason::OutputShort).
///
/// ```
/// use moortinker::modbus::{write_request, Request};
///
/// let mut out = [0x5A; 6];
/// assert_eq!(write_request(Request::Start, &mut out), Ok(5));
/// assert_eq!(out, [0xFD, 0x46, 0x01, 0x13, 0x90, 0x5A]);
/// assert!(write_request(Request::Start, &mut out[..4]).is_err());
/// ```
pub fn write_request(request: Request, out: &mut [u8]) -> Result<usize, Refusal> {
    length_of(call::write_request(request.for_archive(), out))
}

/// Writes an answer frame, with no FF before it, and gives its length. Refuses
/// with [`SerialOver`](crate::Reason::SerialOver), then
/// [`OutputShort`](crate::Reason::OutputShort); every place is 0.
///
/// ```
/// use moortinker::modbus::{write_answer, Answer};
/// use moortinker::Reason;
///
/// let mut out = [0x5A; 6];
/// assert_eq!(write_answer(Answer::End, &mut out), Ok(5));
/// assert_eq!(out, [0xFD, 0x46, 0x04, 0xD3, 0x93, 0x5A]);
///
/// let too_large = Answer::Found { serial: 1 << 28, address: 1 };
/// assert_eq!(write_answer(too_large, &mut out).unwrap_err().reason(), Reason::SerialOver);
/// ```
pub fn write_answer(answer: Answer, out: &mut [u8]) -> Result<usize, Refusal> {
    match answer {
        Answer::Found { serial, address } => write_found(serial, address, out),
        Answer::End => write_end(out),
    }
}

/// Writes the answer of a device found, and gives its length. Refuses with
/// [`SerialOver`](crate::Reason::SerialOver), then
/// [`OutputShort`](crate::Reason::OutputShort); every place is 0.
///
/// W11:
///
/// ```
/// use moortinker::modbus;
///
/// let mut out = [0; 10];
/// assert_eq!(modbus::write_found(0x0001EB37, 0x0C, &mut out), Ok(10));
/// assert_eq!(out, [0xFD, 0x46, 0x03, 0x00, 0x01, 0xEB, 0x37, 0x0C, 0xCE, 0xDC]);
/// ```
pub fn write_found(serial: u32, address: u8, out: &mut [u8]) -> Result<usize, Refusal> {
    length_of(call::write_found(serial, address, out))
}

/// Writes the answer that ends a scan, and gives its length. Refuses only with
/// [`OutputShort`](crate::Reason::OutputShort).
///
/// W10:
///
/// ```
/// use moortinker::modbus;
///
/// let mut out = [0; 5];
/// assert_eq!(modbus::write_end(&mut out), Ok(5));
/// assert_eq!(out, [0xFD, 0x46, 0x04, 0xD3, 0x93]);
/// ```
pub fn write_end(out: &mut [u8]) -> Result<usize, Refusal> {
    length_of(call::write_end(out))
}
