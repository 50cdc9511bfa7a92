//! Commands and replies: read from a raw run, and written as they go on the
//! wire.

use crate::refusal::length_of;
use crate::{call, sys, Refusal};

/// The longest command on the wire, in raw bytes.
///
/// ```
/// use moortinker::ebus::{write_command, Command, COMMAND_WIRE};
///
/// let data = [0xAA; 16];
/// let command = Command {
///     source: 0x10,
///     destination: 0x07,
///     primary: 0xA9,
///     secondary: 0xAA,
///     data: &data,
/// };
/// assert_eq!(write_command(&command, &mut [0; COMMAND_WIRE]), Ok(COMMAND_WIRE));
/// ```
pub const COMMAND_WIRE: usize = sys::MOOR_COMMAND_WIRE;

/// The longest reply on the wire, in raw bytes.
///
/// ```
/// use moortinker::ebus::{write_reply, REPLY_WIRE};
///
/// let mut data = [0xAA; 16];
/// (data[0], data[1], data[4]) = (0xA9, 0xA9, 0xA9);
/// assert_eq!(write_reply(&data, &mut [0; REPLY_WIRE]), Ok(REPLY_WIRE));
/// ```
pub const REPLY_WIRE: usize = sys::MOOR_REPLY_WIRE;

/// Bytes of a command up to LEN: SRC, DST, PB, SB, LEN.
pub(super) const COMMAND_HEAD: usize = 5;

/// Bytes of a reply up to LEN.
pub(super) const REPLY_HEAD: usize = 1;

/// A command or reply that was read from a raw run. [`read_command`] and
/// [`read_reply`] give it.
///
/// ```
/// use moortinker::ebus;
///
/// let run = [0x10, 0x08, 0xB5, 0x11, 0x02, 0xA9, 0x00, 0xA9, 0x01, 0x57, 0x00];
/// let command = ebus::read_command(&run, 0)?;
/// assert_eq!(command.bytes(), [0x10, 0x08, 0xB5, 0x11, 0x02, 0xA9, 0xAA, 0x57]);
/// assert_eq!(command.data(), [0xA9, 0xAA]);
/// assert!(command.is_check_right());
/// assert_eq!(command.check_place(), 9);
/// assert_eq!(command.next(), 10);
/// # Ok::<(), moortinker::Refusal>(())
/// ```
#[derive(Clone, Copy, Debug, PartialEq, Eq, Hash)]
pub struct Telegram {
    bytes: [u8; sys::MOOR_COMMAND_ROOM],
    length: usize,
    head: usize,
    check_place: usize,
    next: usize,
}

impl Telegram {
    /// The logical bytes, check byte included: SRC through check byte of a
    /// command, LEN through check byte of a reply.
    pub fn bytes(&self) -> &[u8] {
        &self.bytes[..self.length]
    }

    /// The data bytes, which stand between LEN and the check byte.
    pub fn data(&self) -> &[u8] {
        &self.bytes[self.head..self.length - 1]
    }

    /// Whether the check byte is right. Reading does not judge it.
    pub fn is_check_right(&self) -> bool {
        check_right(self.bytes())
    }

    /// The place of the check byte's first raw byte.
    pub fn check_place(&self) -> usize {
        self.check_place
    }

    /// The position behind the telegram.
    pub fn next(&self) -> usize {
        self.next
    }
}

fn read(run: &[u8], at: usize, head: usize) -> Result<Telegram, Refusal> {
    let read = call::telegram_at(run, head == COMMAND_HEAD, at);
    Refusal::check(read.number, read.place)?;
    Ok(Telegram {
        bytes: read.bytes,
        length: read.length,
        head,
        check_place: read.last,
        next: read.next,
    })
}

/// The command at a position of a raw run, its check byte not judged.
///
/// Refuses with the first that is met of [`RunEnded`](crate::Reason::RunEnded),
/// [`EscapeWrong`](crate::Reason::EscapeWrong),
/// [`SynEarly`](crate::Reason::SynEarly),
/// [`SourceWrong`](crate::Reason::SourceWrong),
/// [`DestinationWrong`](crate::Reason::DestinationWrong) and
/// [`LengthOver`](crate::Reason::LengthOver).
///
/// ```
/// use moortinker::{ebus, Reason};
///
/// let run = [0xAA, 0x10, 0x08, 0xB5, 0x11, 0x01, 0x01, 0x89, 0x00];
/// let command = ebus::read_command(&run, 1)?;
/// assert_eq!(command.bytes(), [0x10, 0x08, 0xB5, 0x11, 0x01, 0x01, 0x89]);
/// assert!(command.is_check_right());
/// assert_eq!(command.next(), 8);
///
/// let refusal = ebus::read_command(&run, 2).unwrap_err();
/// assert_eq!((refusal.reason(), refusal.place()), (Reason::SourceWrong, 2));
/// # Ok::<(), moortinker::Refusal>(())
/// ```
pub fn read_command(run: &[u8], at: usize) -> Result<Telegram, Refusal> {
    read(run, at, COMMAND_HEAD)
}

/// The reply at a position of a raw run, its check byte not judged. A reply
/// starts at LEN.
///
/// Refuses with the first that is met of [`RunEnded`](crate::Reason::RunEnded),
/// [`EscapeWrong`](crate::Reason::EscapeWrong),
/// [`SynEarly`](crate::Reason::SynEarly) and
/// [`LengthOver`](crate::Reason::LengthOver).
///
/// ```
/// use moortinker::{ebus, Reason};
///
/// let reply = ebus::read_reply(&[0x01, 0x2A, 0xB1], 0)?;
/// assert_eq!(reply.bytes(), [0x01, 0x2A, 0xB1]);
/// assert_eq!(reply.data(), [0x2A]);
/// assert!(reply.is_check_right());
///
/// let refusal = ebus::read_reply(&[0x11], 0).unwrap_err();
/// assert_eq!((refusal.reason(), refusal.place()), (Reason::LengthOver, 0));
/// # Ok::<(), moortinker::Refusal>(())
/// ```
pub fn read_reply(run: &[u8], at: usize) -> Result<Telegram, Refusal> {
    read(run, at, REPLY_HEAD)
}

/// Whether the last of these logical bytes is the check byte of those before
/// it; false for no bytes.
///
/// ```
/// use moortinker::ebus;
///
/// assert!(ebus::check_right(&[0x10, 0x08, 0xB5, 0x11, 0x01, 0x01, 0x89]));
/// assert!(!ebus::check_right(&[0x10, 0x08, 0xB5, 0x11, 0x01, 0x01, 0x88]));
/// assert!(!ebus::check_right(&[]));
/// ```
pub fn check_right(telegram: &[u8]) -> bool {
    call::check_right(telegram)
}

/// What a command is written from; LEN and the check byte follow from it.
///
/// ```
/// use moortinker::ebus::{write_command_to_vec, Command};
///
/// let command = Command {
///     source: 0x10,
///     destination: 0x08,
///     primary: 0xB5,
///     secondary: 0x11,
///     data: &[0x01],
/// };
/// assert_eq!(write_command_to_vec(&command)?, [0x10, 0x08, 0xB5, 0x11, 0x01, 0x01, 0x89]);
/// # Ok::<(), moortinker::Refusal>(())
/// ```
#[derive(Clone, Copy, Debug, PartialEq, Eq, Hash)]
pub struct Command<'a> {
    /// SRC, an initiator address.
    pub source: u8,
    /// DST, neither A9 nor AA.
    pub destination: u8,
    /// PB, the primary command byte.
    pub primary: u8,
    /// SB, the secondary command byte.
    pub secondary: u8,
    /// The data, at most 16 bytes.
    pub data: &'a [u8],
}

/// Writes a command as it goes on the wire, and gives how many raw bytes were
/// written.
///
/// Refuses with [`SourceWrong`](crate::Reason::SourceWrong),
/// [`DestinationWrong`](crate::Reason::DestinationWrong),
/// [`LengthOver`](crate::Reason::LengthOver), then
/// [`OutputShort`](crate::Reason::OutputShort) exactly when it does not fit;
/// every place is 0.
///
/// ```
/// use moortinker::ebus::{write_command, Command};
/// use moortinker::Reason;
///
/// let command = Command {
///     source: 0x10,
///     destination: 0x08,
///     primary: 0xB5,
///     secondary: 0x11,
///     data: &[0x01],
/// };
/// let mut out = [0x5A; 8];
/// assert_eq!(write_command(&command, &mut out), Ok(7));
/// assert_eq!(out, [0x10, 0x08, 0xB5, 0x11, 0x01, 0x01, 0x89, 0x5A]);
///
/// let refusal = write_command(&Command { source: 0x12, ..command }, &mut out).unwrap_err();
/// assert_eq!(refusal.reason(), Reason::SourceWrong);
/// ```
pub fn write_command(command: &Command<'_>, out: &mut [u8]) -> Result<usize, Refusal> {
    let head = [
        command.source,
        command.destination,
        command.primary,
        command.secondary,
    ];
    length_of(call::write_command(head, command.data, out))
}

/// A command as it goes on the wire. Refuses as [`write_command`] does, never
/// with [`OutputShort`](crate::Reason::OutputShort).
///
/// ```
/// use moortinker::ebus::{write_command_to_vec, Command};
///
/// let command = Command {
///     source: 0x10,
///     destination: 0x08,
///     primary: 0xB5,
///     secondary: 0x11,
///     data: &[0xA9],
/// };
/// let raw = write_command_to_vec(&command)?;
/// assert_eq!(raw[..7], [0x10, 0x08, 0xB5, 0x11, 0x01, 0xA9, 0x00]);
/// # Ok::<(), moortinker::Refusal>(())
/// ```
pub fn write_command_to_vec(command: &Command<'_>) -> Result<Vec<u8>, Refusal> {
    let mut out = [0; COMMAND_WIRE];
    let length = write_command(command, &mut out)?;
    Ok(out[..length].to_vec())
}

/// Writes a reply as it goes on the wire, and gives how many raw bytes were
/// written.
///
/// Refuses with [`LengthOver`](crate::Reason::LengthOver), then
/// [`OutputShort`](crate::Reason::OutputShort) exactly when it does not fit;
/// every place is 0.
///
/// ```
/// use moortinker::{ebus, Reason};
///
/// let mut out = [0x5A; 4];
/// assert_eq!(ebus::write_reply(&[0x2A], &mut out), Ok(3));
/// assert_eq!(out, [0x01, 0x2A, 0xB1, 0x5A]);
///
/// let refusal = ebus::write_reply(&[0; 17], &mut out).unwrap_err();
/// assert_eq!(refusal.reason(), Reason::LengthOver);
/// ```
pub fn write_reply(data: &[u8], out: &mut [u8]) -> Result<usize, Refusal> {
    length_of(call::write_reply(data, out))
}

/// A reply as it goes on the wire. Refuses only with
/// [`LengthOver`](crate::Reason::LengthOver).
///
/// ```
/// use moortinker::ebus;
///
/// assert_eq!(ebus::write_reply_to_vec(&[0x2A])?, [0x01, 0x2A, 0xB1]);
/// assert_eq!(ebus::write_reply_to_vec(&[])?, [0x00, 0x00]);
/// # Ok::<(), moortinker::Refusal>(())
/// ```
pub fn write_reply_to_vec(data: &[u8]) -> Result<Vec<u8>, Refusal> {
    let mut out = [0; REPLY_WIRE];
    let length = write_reply(data, &mut out)?;
    Ok(out[..length].to_vec())
}
