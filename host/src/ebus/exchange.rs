//! The judging of recorded exchanges.

use super::telegram::{COMMAND_HEAD, REPLY_HEAD};
use super::Kind;
use crate::{call, sys, Refusal};

/// The room that [`judge_into`] and
/// [`Listener::close_into`](super::Listener::close_into) ask of their command
/// buffer: the longest command in logical bytes.
///
/// ```
/// use moortinker::ebus::{judge_into, COMMAND_ROOM, REPLY_ROOM};
/// use moortinker::Reason;
///
/// let mut short = [0; COMMAND_ROOM - 1];
/// let judged = judge_into(&[], &mut short, &mut [0; REPLY_ROOM], &mut [0; REPLY_ROOM]);
/// assert_eq!(judged.unwrap_err().reason(), Reason::OutputShort);
/// ```
pub const COMMAND_ROOM: usize = sys::MOOR_COMMAND_ROOM;

/// The room that [`judge_into`] and
/// [`Listener::close_into`](super::Listener::close_into) ask of each reply
/// buffer: the longest reply in logical bytes.
///
/// ```
/// use moortinker::ebus::{judge_into, COMMAND_ROOM, REPLY_ROOM};
/// use moortinker::Reason;
///
/// let mut short = [0; REPLY_ROOM - 1];
/// let judged = judge_into(&[], &mut [0; COMMAND_ROOM], &mut [0; REPLY_ROOM], &mut short);
/// assert_eq!(judged.unwrap_err().reason(), Reason::OutputShort);
/// ```
pub const REPLY_ROOM: usize = sys::MOOR_REPLY_ROOM;

/// What is known of an accepted exchange beside its bytes. [`judge_into`]
/// gives it, and so does [`Listener::close_into`](super::Listener::close_into).
///
/// ```
/// use moortinker::ebus::{self, Kind};
///
/// // A broadcast: neither an acknowledge byte nor a reply.
/// let run = [0x10, 0xFE, 0xB5, 0x11, 0x01, 0x01, 0x10, 0xAA];
/// let judged = ebus::judge(&run)?.judged();
/// assert_eq!(judged.kind(), Kind::Broadcast);
/// assert_eq!(judged.command_attempts(), 1);
/// assert_eq!(judged.reply_attempts(), 0);
/// assert_eq!(judged.bytes_read(), 8);
/// # Ok::<(), moortinker::Refusal>(())
/// ```
#[derive(Clone, Copy, Debug, PartialEq, Eq, Hash)]
pub struct Judged {
    kind: Kind,
    command_attempts: u8,
    reply_attempts: u8,
    bytes_read: usize,
}

impl Judged {
    /// What an answer of the archive says.
    pub(super) fn of_archive(judged: sys::Judged) -> Result<Judged, Refusal> {
        Refusal::check(judged.number, judged.place)?;
        Ok(Judged {
            kind: Kind::of_archive(judged.kind),
            command_attempts: judged.command_attempts,
            reply_attempts: judged.reply_attempts,
            bytes_read: judged.read,
        })
    }

    /// The kind of the accepted command.
    pub fn kind(&self) -> Kind {
        self.kind
    }

    /// The attempts at the command, 1 or 2.
    pub fn command_attempts(&self) -> u8 {
        self.command_attempts
    }

    /// The attempts at the reply, 1 or 2; 0 without a reply.
    pub fn reply_attempts(&self) -> u8 {
        self.reply_attempts
    }

    /// The raw bytes read, idle time in front and SYN included. Those behind it
    /// were not looked at.
    pub fn bytes_read(&self) -> usize {
        self.bytes_read
    }
}

/// Judges a recorded run from its start, which may lie in idle time as for
/// [`judge`], with lent buffers: at least [`COMMAND_ROOM`] bytes for the command
/// and [`REPLY_ROOM`] for each reply.
///
/// When accepted, `command` starts with the accepted command, SRC through
/// check byte, and `reply_1` and `reply_2` with the reply attempts that
/// happened, LEN through check byte. All other bytes stay.
///
/// At most 2^31 bytes are read, as if the run ended there.
///
/// Refuses with [`OutputShort`](crate::Reason::OutputShort), then with the
/// first fault that is met in the run.
///
/// The reply is NACKed once and comes again:
///
/// ```
/// use moortinker::ebus;
///
/// let run = [
///     0x10, 0x08, 0xB5, 0x11, 0x01, 0x01, 0x89, 0x00, // command, acknowledged
///     0x01, 0x2B, 0xB1, 0xFF, // a reply with a wrong check byte, NACKed
///     0x01, 0x2A, 0xB1, 0x00, 0xAA, // the reply again, acknowledged, SYN
/// ];
/// let mut command = [0x5A; ebus::COMMAND_ROOM];
/// let mut reply_1 = [0x5A; ebus::REPLY_ROOM];
/// let mut reply_2 = [0x5A; ebus::REPLY_ROOM];
/// let judged = ebus::judge_into(&run, &mut command, &mut reply_1, &mut reply_2)?;
/// assert_eq!(command[..8], [0x10, 0x08, 0xB5, 0x11, 0x01, 0x01, 0x89, 0x5A]);
/// assert_eq!(reply_1[..4], [0x01, 0x2B, 0xB1, 0x5A]);
/// assert_eq!(reply_2[..4], [0x01, 0x2A, 0xB1, 0x5A]);
/// assert_eq!(ebus::reply_data(&reply_1, &reply_2, judged.reply_attempts()), [0x2A]);
/// # Ok::<(), moortinker::Refusal>(())
/// ```
pub fn judge_into(
    run: &[u8],
    command: &mut [u8],
    reply_1: &mut [u8],
    reply_2: &mut [u8],
) -> Result<Judged, Refusal> {
    Judged::of_archive(call::judge(run, command, reply_1, reply_2))
}

/// The data of the reply attempt asked for, 1 or 2, in the buffers that
/// [`judge_into`] or [`Listener::close_into`](super::Listener::close_into)
/// filled.
///
/// It is empty for any other attempt, where the buffer is empty or its LEN is
/// over 16, and where the data would pass the buffer's end.
///
/// ```
/// use moortinker::ebus::reply_data;
///
/// assert_eq!(reply_data(&[0x01, 0x2A, 0xB1], &[], 1), [0x2A]);
/// assert_eq!(reply_data(&[], &[0x02, 0x2A, 0x2B], 2), [0x2A, 0x2B]);
/// assert!(reply_data(&[0x01, 0x2A, 0xB1], &[], 2).is_empty());
/// assert!(reply_data(&[0x01, 0x2A, 0xB1], &[], 0).is_empty());
/// ```
pub fn reply_data<'a>(reply_1: &'a [u8], reply_2: &'a [u8], attempt: u8) -> &'a [u8] {
    let part = call::reply_data(reply_1, reply_2, attempt);
    let buffer = if part.attempt == 2 { reply_2 } else { reply_1 };
    &buffer[part.start..][..part.length]
}

/// An accepted exchange with its bytes. [`judge`] gives it, and so do
/// [`exchanges`](super::exchanges) and
/// [`Listener::close`](super::Listener::close).
///
/// The command is NACKed once and comes again:
///
/// ```
/// use moortinker::ebus::{self, Kind};
///
/// let run = [
///     0x10, 0x08, 0xB5, 0x11, 0x01, 0x01, 0x88, 0xFF, // a wrong check byte, NACKed
///     0x10, 0x08, 0xB5, 0x11, 0x01, 0x01, 0x89, 0x00, // the command again, acknowledged
///     0x01, 0x2A, 0xB1, 0x00, 0xAA, // the reply, acknowledged, SYN
/// ];
/// let exchange = ebus::judge(&run)?;
/// assert_eq!(exchange.kind(), Kind::InitiatorTarget);
/// assert_eq!(exchange.command_attempts(), 2);
/// assert_eq!(exchange.command(), [0x10, 0x08, 0xB5, 0x11, 0x01, 0x01, 0x89]);
/// assert_eq!((exchange.source(), exchange.destination()), (0x10, 0x08));
/// assert_eq!(exchange.service(), (0xB5, 0x11));
/// assert_eq!(exchange.command_data(), [0x01]);
/// assert_eq!(exchange.reply_attempts(), 1);
/// assert_eq!(exchange.reply(1), Some(&[0x01, 0x2A, 0xB1][..]));
/// assert_eq!(exchange.reply(2), None);
/// assert_eq!(exchange.data(), [0x2A]);
/// assert_eq!(exchange.bytes_read(), run.len());
/// # Ok::<(), moortinker::Refusal>(())
/// ```
#[derive(Clone, Copy, Debug, PartialEq, Eq, Hash)]
pub struct Exchange {
    judged: Judged,
    command: [u8; COMMAND_ROOM],
    reply_1: [u8; REPLY_ROOM],
    reply_2: [u8; REPLY_ROOM],
}

impl Exchange {
    /// What a call with lent buffers gives, with room of its own.
    pub(super) fn with_room(
        call: impl FnOnce(&mut [u8], &mut [u8], &mut [u8]) -> Result<Judged, Refusal>,
    ) -> Result<Exchange, Refusal> {
        let mut command = [0; COMMAND_ROOM];
        let mut reply_1 = [0; REPLY_ROOM];
        let mut reply_2 = [0; REPLY_ROOM];
        let judged = call(&mut command, &mut reply_1, &mut reply_2)?;
        Ok(Exchange {
            judged,
            command,
            reply_1,
            reply_2,
        })
    }

    /// Kind, attempts and bytes read.
    pub fn judged(&self) -> Judged {
        self.judged
    }

    /// The kind of the accepted command.
    pub fn kind(&self) -> Kind {
        self.judged.kind
    }

    /// The accepted command, SRC through check byte. An attempt that was
    /// NACKed is not kept.
    pub fn command(&self) -> &[u8] {
        telegram(&self.command, COMMAND_HEAD)
    }

    /// SRC, the address of the initiator that sent the command.
    pub fn source(&self) -> u8 {
        self.command[0]
    }

    /// DST, the address that the command was sent to; it decides the
    /// [`kind`](Exchange::kind).
    pub fn destination(&self) -> u8 {
        self.command[1]
    }

    /// The service that the command asks for: PB, the primary command byte, and
    /// SB, the secondary one, in this order.
    pub fn service(&self) -> (u8, u8) {
        (self.command[2], self.command[3])
    }

    /// The data of the command; [`data`](Exchange::data) is that of the reply.
    pub fn command_data(&self) -> &[u8] {
        let command = self.command();
        &command[COMMAND_HEAD..command.len() - 1]
    }

    /// The attempts at the command, 1 or 2.
    pub fn command_attempts(&self) -> u8 {
        self.judged.command_attempts
    }

    /// The attempts at the reply, 1 or 2; 0 without a reply.
    pub fn reply_attempts(&self) -> u8 {
        self.judged.reply_attempts
    }

    /// A reply attempt as it was read, LEN through check byte, whether it was
    /// acknowledged or NACKed. Attempts are counted from 1; one that did not
    /// happen is `None`.
    pub fn reply(&self, attempt: u8) -> Option<&[u8]> {
        let buffer = match attempt {
            1 => &self.reply_1,
            2 => &self.reply_2,
            _ => return None,
        };
        (attempt <= self.judged.reply_attempts).then(|| telegram(buffer, REPLY_HEAD))
    }

    /// The data of the reply that was acknowledged; empty without a reply.
    pub fn data(&self) -> &[u8] {
        reply_data(&self.reply_1, &self.reply_2, self.judged.reply_attempts)
    }

    /// The raw bytes read, idle time in front and SYN included. Those behind it
    /// were not looked at.
    pub fn bytes_read(&self) -> usize {
        self.judged.bytes_read
    }
}

/// The telegram at the start of a buffer: its head, of which LEN is the last
/// byte, the data, and the check byte.
fn telegram(buffer: &[u8], head: usize) -> &[u8] {
    let data = usize::from(buffer[head - 1]);
    &buffer[..head + data + 1]
}

/// Judges a recorded run from its start. At most 2^31 bytes are read, as if the
/// run ended there. [`exchanges`](super::exchanges) judges one exchange after the
/// other, and [`Listener`](super::Listener) bytes as they arrive.
///
/// The run may start in idle time: as long as nothing of the first command has
/// come but its source, and perhaps half an escape, SYN drops that, and the
/// command is looked for behind it. The bytes passed over count in places and in the bytes read, and they
/// are no attempt.
///
/// Refuses with the first fault that is met, at its place:
/// [`RunEnded`](crate::Reason::RunEnded) through
/// [`BusError`](crate::Reason::BusError).
///
/// W7 and W8:
///
/// ```
/// use moortinker::{ebus, Reason};
///
/// let mut run = [0x10, 0x08, 0xB5, 0x11, 0x01, 0x01, 0x89, 0x00, 0x01, 0x2A, 0xB1, 0x00, 0xAA];
/// let exchange = ebus::judge(&run)?;
/// assert_eq!(exchange.data(), [0x2A]);
/// assert_eq!((exchange.command_attempts(), exchange.reply_attempts()), (1, 1));
/// assert_eq!(exchange.bytes_read(), 13);
///
/// run[7] = 0x55;
/// let refusal = ebus::judge(&run).unwrap_err();
/// assert_eq!((refusal.reason(), refusal.place()), (Reason::BusError, 7));
/// # Ok::<(), moortinker::Refusal>(())
/// ```
///
/// A broadcast behind idle time, in which another initiator gave way; and SYN
/// that comes later, when the destination is there:
///
/// ```
/// use moortinker::{ebus, Reason};
///
/// let run = [0xAA, 0xAA, 0x31, 0xAA, 0x10, 0xFE, 0xB5, 0x11, 0x01, 0x01, 0x10, 0xAA];
/// let exchange = ebus::judge(&run)?;
/// assert_eq!(exchange.command(), [0x10, 0xFE, 0xB5, 0x11, 0x01, 0x01, 0x10]);
/// assert_eq!((exchange.command_attempts(), exchange.bytes_read()), (1, 12));
///
/// let refusal = ebus::judge(&[0xAA, 0xAA, 0x10, 0x08, 0xAA]).unwrap_err();
/// assert_eq!((refusal.reason(), refusal.place()), (Reason::SynEarly, 4));
/// # Ok::<(), moortinker::Refusal>(())
/// ```
pub fn judge(run: &[u8]) -> Result<Exchange, Refusal> {
    Exchange::with_room(|command, reply_1, reply_2| judge_into(run, command, reply_1, reply_2))
}
