//! Railbus packets, read and written.

use std::{fmt, str};

use super::LONG_PACKET;
use crate::refusal::length_of;
use crate::{call, sys, Refusal};

/// What an `n` tells, by a number. The constants are those that a relay device
/// answers with; a packet that is read may carry any other.
///
/// ```
/// use moortinker::railbus::{read, Message, Status};
///
/// let heard = read(b"RP93n0000000008E4")?;
/// assert_eq!(heard.packet.message, Message::Status(Status::BUSY));
/// let heard = read(b"RP93nFD00000009A4")?;
/// assert_eq!(heard.packet.message, Message::Status(Status(0x09)));
/// # Ok::<(), moortinker::Refusal>(())
/// ```
#[derive(Clone, Copy, Debug, PartialEq, Eq, Hash)]
pub struct Status(
    /// The number.
    pub u32,
);

impl Status {
    /// The first copy of a write: it will be carried out.
    pub const RECEIVED: Status = Status(sys::MOOR_RECEIVED);
    /// A further copy of a write, while it runs.
    pub const RETRANSMISSION: Status = Status(sys::MOOR_RETRANSMISSION);
    /// A further copy of a write, after it has finished.
    pub const DONE_BEFORE: Status = Status(sys::MOOR_DONE_BEFORE);
    /// The register is not to be read, or not to be written.
    pub const FORBIDDEN: Status = Status(sys::MOOR_FORBIDDEN);
    /// A write runs, and this is no copy of it.
    pub const BUSY: Status = Status(sys::MOOR_BUSY);
    /// No write runs, and none is remembered now.
    pub const SYNCED: Status = Status(sys::MOOR_SYNCED);
}

/// What a packet says of its register, one for each letter.
///
/// ```
/// use moortinker::railbus::Message;
///
/// assert_eq!((Message::Read.letter(), Message::Read.data()), (b'R', None));
/// assert_eq!((Message::Write(1).letter(), Message::Write(1).data()), (b'W', Some(1)));
/// ```
#[derive(Clone, Copy, Debug, PartialEq, Eq, Hash)]
pub enum Message {
    /// `R`: asks for what the register holds.
    Read,
    /// `W`: asks for this to be written to the register.
    Write(u32),
    /// `S`: asks for the write that has finished to be forgotten.
    Sync,
    /// `K`: the register holds this. The answer to a read.
    ReadDone(u32),
    /// `I`: a write has finished, and the register holds this.
    WriteDone(u32),
    /// `N`: there is no such register.
    Absent,
    /// `n`: what became of a request.
    Status(Status),
}

impl Message {
    /// The letter.
    pub const fn letter(self) -> u8 {
        match self {
            Message::Read => b'R',
            Message::Write(_) => b'W',
            Message::Sync => b'S',
            Message::ReadDone(_) => b'K',
            Message::WriteDone(_) => b'I',
            Message::Absent => b'N',
            Message::Status(_) => b'n',
        }
    }

    /// The data; `None` with letters that carry none.
    pub const fn data(self) -> Option<u32> {
        match self {
            Message::Read | Message::Sync | Message::Absent => None,
            Message::Write(data) | Message::ReadDone(data) | Message::WriteDone(data) => Some(data),
            Message::Status(status) => Some(status.0),
        }
    }

    /// What a letter and its data say.
    fn of_archive(letter: u8, data: u32) -> Message {
        match letter {
            b'R' => Message::Read,
            b'W' => Message::Write(data),
            b'S' => Message::Sync,
            b'K' => Message::ReadDone(data),
            b'I' => Message::WriteDone(data),
            b'N' => Message::Absent,
            b'n' => Message::Status(Status(data)),
            _ => unreachable!("libmoortinker.a reads one of seven letters"),
        }
    }
}

/// A packet. Its text is the packet as it is sent, with its checksum.
///
/// ```
/// use moortinker::railbus::{Message, Packet};
///
/// let packet = Packet { address: 0x93, register: 0x01, message: Message::Write(0x10) };
/// assert_eq!(packet.to_string(), "RP93W0100000010A2");
/// ```
#[derive(Clone, Copy, Debug, PartialEq, Eq, Hash)]
pub struct Packet {
    /// The address of the device, also in its answers.
    pub address: u8,
    /// The register.
    pub register: u8,
    /// What the packet says of it.
    pub message: Message,
}

impl fmt::Display for Packet {
    fn fmt(&self, f: &mut fmt::Formatter<'_>) -> fmt::Result {
        let mut out = [0; LONG_PACKET];
        f.pad(text(written(*self, &mut out)))
    }
}

/// A packet that was read. [`read`] gives it.
///
/// ```
/// use moortinker::railbus::{read, Heard, Message, Packet};
///
/// let packet = Packet { address: 0xFF, register: 0, message: Message::Read };
/// assert_eq!(read(b"RPFFR009E"), Ok(Heard { packet, checked: true }));
/// assert_eq!(read(b"RPFFR0000"), Ok(Heard { packet, checked: false }));
/// ```
#[derive(Clone, Copy, Debug, PartialEq, Eq, Hash)]
pub struct Heard {
    /// The packet.
    pub packet: Packet,
    /// Whether its checksum was examined. It is not where its top bit is clear.
    pub checked: bool,
}

/// What a packet says. It must fill the input.
///
/// Refuses with [`FrameLength`](crate::Reason::FrameLength) under 9 characters,
/// [`FrameHead`](crate::Reason::FrameHead) where it does not begin with RP,
/// [`SubcommandWrong`](crate::Reason::SubcommandWrong) where the letter is none
/// of the seven, [`FrameLength`](crate::Reason::FrameLength) where there are not
/// as many characters as the letter has,
/// [`DigitWrong`](crate::Reason::DigitWrong) at the first character that is no
/// upper-case hex digit where one is due, and
/// [`FrameCheck`](crate::Reason::FrameCheck) where the checksum has its top bit
/// set and is wrong, in this order.
///
/// ```
/// use moortinker::railbus::{read, Message, Packet};
/// use moortinker::Reason;
///
/// let heard = read(b"RPFFK000015002AF4")?;
/// let held = Message::ReadDone(0x0015002A);
/// assert_eq!(heard.packet, Packet { address: 0xFF, register: 0, message: held });
/// assert!(heard.checked);
///
/// let refusal = read(b"RPFFK000015002aF4").unwrap_err();
/// assert_eq!((refusal.reason(), refusal.place()), (Reason::DigitWrong, 14));
/// let refusal = read(b"RPFFK000015002AF5").unwrap_err();
/// assert_eq!((refusal.reason(), refusal.place()), (Reason::FrameCheck, 15));
/// # Ok::<(), moortinker::Refusal>(())
/// ```
pub fn read(input: &[u8]) -> Result<Heard, Refusal> {
    let read = call::read_railbus(input);
    Refusal::check(read.number, read.place)?;
    let packet = Packet {
        address: read.address,
        register: read.reg,
        message: Message::of_archive(read.letter, read.data),
    };
    let checked = read.checked != 0;
    Ok(Heard { packet, checked })
}

/// Writes a packet with its checksum, which is to be examined, and gives how many
/// characters were written, 9 or 17. Refuses only with
/// [`OutputShort`](crate::Reason::OutputShort).
///
/// ```
/// use moortinker::railbus::{write, Message, Packet};
///
/// let packet = Packet { address: 0xFF, register: 0, message: Message::Read };
/// let mut out = *b"..........";
/// assert_eq!(write(packet, &mut out), Ok(9));
/// assert_eq!(&out, b"RPFFR009E.");
/// assert!(write(packet, &mut out[..8]).is_err());
/// ```
pub fn write(packet: Packet, out: &mut [u8]) -> Result<usize, Refusal> {
    length_of(call::write_railbus(packet, out))
}

/// The characters of a packet with its checksum, which is to be examined.
///
/// ```
/// use moortinker::railbus::{write_to_vec, Message, Packet};
///
/// let packet = Packet { address: 0x93, register: 0xFD, message: Message::Write(57600) };
/// assert_eq!(write_to_vec(packet), b"RP93WFD0000E100E4");
/// ```
pub fn write_to_vec(packet: Packet) -> Vec<u8> {
    written(packet, &mut [0; LONG_PACKET]).to_vec()
}

/// The characters of a packet, written to a room that has enough for any.
fn written(packet: Packet, out: &mut [u8; LONG_PACKET]) -> &[u8] {
    let length = write(packet, out).expect("a packet has at most 17 characters");
    &out[..length]
}

/// The characters of a packet that was written, as text.
pub(super) fn text(characters: &[u8]) -> &str {
    str::from_utf8(characters).expect("the characters of a packet are ASCII")
}
