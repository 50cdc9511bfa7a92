//! Railbus: packets, and a relay device.
//!
//! A packet is text: RP, the address in two hex digits, a letter, the register
//! in two digits, with some letters the data in eight, and the checksum in two.
//! Digits are upper case. [`read()`] and [`write()`] take packets apart and put them
//! together.
//!
//! A relay device has 256 registers and as many access bytes, and runs one write
//! at a time, which it remembers, so that copies of it are not carried out once
//! more. [`Relay`] owns all of this; [`Columns`] are lent, valid or not, and
//! their calls allocate nothing.
//!
//! ```
//! use moortinker::railbus::{Message, Packet, Relay, Status, READ_WRITE};
//!
//! let mut relay = Relay::fresh(0x93, [READ_WRITE; 256])?;
//! let packet = |message| Packet { address: 0x93, register: 0, message };
//! let on = packet(Message::Write(0x10)).to_string();
//! assert_eq!(on, "RP93W00000000109F");
//!
//! let reply = relay.offer(on.as_bytes())?.expect("a write is answered");
//! assert_eq!(reply.packet(), packet(Message::Status(Status::RECEIVED)));
//! assert_eq!(relay.registers()[0], 0);
//! let reply = relay.finish().expect("a write runs");
//! assert_eq!(reply.text(), "RP93I0000000010EE");
//! assert_eq!(relay.registers()[0], 0x10);
//!
//! // A copy that comes late is not carried out once more.
//! let reply = relay.offer(on.as_bytes())?.expect("a write is answered");
//! assert_eq!(reply.packet(), packet(Message::Status(Status::DONE_BEFORE)));
//! # Ok::<(), moortinker::Refusal>(())
//! ```

use crate::{call, sys};

mod columns;
mod packets;
mod relay;

pub use columns::{Columns, Remembered};
pub use packets::{read, write, write_to_vec, Heard, Message, Packet, Status};
pub use relay::{Relay, Reply};

/// The characters of a packet without data.
///
/// ```
/// use moortinker::railbus::{write, Message, Packet, SHORT_PACKET};
///
/// let packet = Packet { address: 0xFF, register: 0, message: Message::Read };
/// assert_eq!(write(packet, &mut [0; SHORT_PACKET]), Ok(SHORT_PACKET));
/// ```
pub const SHORT_PACKET: usize = 9;

/// The characters of a packet with data, and the room that [`Columns::offer`] and
/// [`Columns::finish`] ask for.
///
/// ```
/// use moortinker::railbus::{write, Message, Packet, LONG_PACKET};
///
/// let packet = Packet { address: 0xFF, register: 0, message: Message::Write(1) };
/// assert_eq!(write(packet, &mut [0; LONG_PACKET]), Ok(LONG_PACKET));
/// assert!(write(packet, &mut [0; LONG_PACKET - 1]).is_err());
/// ```
pub const LONG_PACKET: usize = sys::MOOR_RELAY_ROOM;

/// The registers of a relay device, and its access bytes.
///
/// ```
/// use moortinker::railbus::{Relay, READ, REGISTERS};
///
/// assert!(Relay::new(0x93, [0; REGISTERS], [READ; REGISTERS]).is_ok());
/// assert!(Relay::new(0x93, [0; REGISTERS], [READ; REGISTERS - 1]).is_err());
/// ```
pub const REGISTERS: usize = sys::MOOR_RELAY_REGISTERS;

/// The access byte of a register that is not there.
///
/// ```
/// use moortinker::railbus::{Message, Relay, ABSENT};
///
/// let mut relay = Relay::fresh(0xFF, [ABSENT; 256])?;
/// let reply = relay.offer(b"RPFFR009E")?.expect("a read is answered");
/// assert_eq!(reply.packet().message, Message::Absent);
/// # Ok::<(), moortinker::Refusal>(())
/// ```
pub const ABSENT: u8 = sys::MOOR_ABSENT;

/// The access byte of a register that may be read.
///
/// ```
/// use moortinker::railbus::{Message, Relay, READ};
///
/// let mut relay = Relay::fresh(0xFF, [READ; 256])?;
/// let reply = relay.offer(b"RPFFR009E")?.expect("a read is answered");
/// assert_eq!(reply.packet().message, Message::ReadDone(0));
/// # Ok::<(), moortinker::Refusal>(())
/// ```
pub const READ: u8 = sys::MOOR_READ;

/// The access byte of a register that may be written.
///
/// ```
/// use moortinker::railbus::{Message, Relay, Status, WRITE};
///
/// let mut relay = Relay::fresh(0xFF, [WRITE; 256])?;
/// let reply = relay.offer(b"RPFFR009E")?.expect("a read is answered");
/// assert_eq!(reply.packet().message, Message::Status(Status::FORBIDDEN));
/// # Ok::<(), moortinker::Refusal>(())
/// ```
pub const WRITE: u8 = sys::MOOR_WRITE;

/// The access byte of a register that may be read and written.
///
/// ```
/// use moortinker::railbus::{READ, READ_WRITE, WRITE};
///
/// assert_eq!(READ_WRITE, READ | WRITE);
/// ```
pub const READ_WRITE: u8 = sys::MOOR_READ_WRITE;

/// The checksum of the characters: their CRC7, and the top bit, which says that
/// it is to be examined.
///
/// ```
/// use moortinker::railbus;
///
/// assert_eq!(railbus::check(b"RPFFR00"), 0x9E);
/// assert_eq!(railbus::check(b""), 0x80);
/// ```
pub fn check(characters: &[u8]) -> u8 {
    call::railbus_check(characters)
}
