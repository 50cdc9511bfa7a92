//! eBUS: check byte, escapes, addresses, telegrams, and the judging of
//! exchanges: recorded one by one ([`judge`]), one after the other in a capture
//! ([`exchanges`]), or as their bytes arrive ([`Listener`]).
//!
//! *Raw* bytes are those on the wire. *Logical* bytes are those meant: on the
//! wire every A9 becomes A9 00 and every AA becomes A9 01, since a raw AA is
//! always SYN.

use std::fmt;

use crate::refusal::length_of;
use crate::{call, sys, Refusal};

mod capture;
mod exchange;
mod listener;
mod telegram;

pub use capture::{exchanges, Exchanges};
pub use exchange::{judge, judge_into, reply_data, Exchange, Judged, COMMAND_ROOM, REPLY_ROOM};
pub use listener::Listener;
pub use telegram::{
    check_right, read_command, read_reply, write_command, write_command_to_vec, write_reply,
    write_reply_to_vec, Command, Telegram, COMMAND_WIRE, REPLY_WIRE,
};

/// The check byte of logical bytes. It is taken over the bytes as they are
/// expanded: A9 counts as A9 00, AA as A9 01.
///
/// ```
/// use moortinker::ebus;
///
/// assert_eq!(ebus::check(&[0x10, 0x08, 0xB5, 0x11, 0x01, 0x01]), 0x89); // W1
/// assert_eq!(ebus::check(&[0xAA]), 0xEC); // W2
/// assert_eq!(ebus::check(&[0xA9]), 0xED); // W3
/// assert_eq!(ebus::check(&[]), 0x00); // W4
/// ```
pub fn check(logical: &[u8]) -> u8 {
    call::ebus_check(logical)
}

/// Whether this is an initiator's address: both nibbles are among 0, 1, 3, 7
/// and F.
///
/// ```
/// use moortinker::ebus;
///
/// assert!(ebus::is_initiator(0x10));
/// assert!(!ebus::is_initiator(0x08));
/// assert_eq!((0..=0xFF).filter(|&address| ebus::is_initiator(address)).count(), 25);
/// ```
pub fn is_initiator(address: u8) -> bool {
    call::is_initiator(address)
}

/// Whether this is A9 or AA, which no destination may be.
///
/// ```
/// use moortinker::ebus;
///
/// assert!(ebus::is_reserved(0xA9) && ebus::is_reserved(0xAA));
/// assert!(!ebus::is_reserved(0xAB));
/// ```
pub fn is_reserved(address: u8) -> bool {
    call::is_reserved(address)
}

/// The kind of an exchange, which its destination decides.
///
/// ```
/// use moortinker::ebus::{kind, Kind};
///
/// assert_eq!(kind(0x08), Kind::InitiatorTarget);
/// assert_eq!(Kind::InitiatorTarget.to_string(), "initiator/target");
/// ```
#[derive(Clone, Copy, Debug, PartialEq, Eq, Hash)]
pub enum Kind {
    /// To all: neither an acknowledge byte nor a reply.
    Broadcast,
    /// To an initiator: an acknowledge byte, no reply.
    InitiatorInitiator,
    /// To a target: an acknowledge byte, a reply, and an acknowledge byte.
    InitiatorTarget,
}

impl Kind {
    fn of_archive(kind: u8) -> Kind {
        match kind {
            sys::MOOR_BROADCAST => Kind::Broadcast,
            sys::MOOR_INITIATOR_INITIATOR => Kind::InitiatorInitiator,
            sys::MOOR_INITIATOR_TARGET => Kind::InitiatorTarget,
            _ => unreachable!("libmoortinker.a gives one of three kinds"),
        }
    }
}

impl fmt::Display for Kind {
    fn fmt(&self, f: &mut fmt::Formatter<'_>) -> fmt::Result {
        f.write_str(match self {
            Kind::Broadcast => "broadcast",
            Kind::InitiatorInitiator => "initiator/initiator",
            Kind::InitiatorTarget => "initiator/target",
        })
    }
}

/// The kind of an exchange with this destination. Every byte has one, also A9
/// and AA, which a telegram refuses.
///
/// W6:
///
/// ```
/// use moortinker::ebus::{kind, Kind};
///
/// assert_eq!(kind(0xFE), Kind::Broadcast);
/// assert_eq!(kind(0x10), Kind::InitiatorInitiator);
/// assert_eq!(kind(0x08), Kind::InitiatorTarget);
/// ```
pub fn kind(destination: u8) -> Kind {
    Kind::of_archive(call::kind(destination))
}

/// A logical byte of a raw run. [`logical_at`] gives it.
///
/// ```
/// use moortinker::ebus::{logical_at, Logical};
///
/// assert_eq!(logical_at(&[0xA9, 0x00], 0), Ok(Logical { byte: 0xA9, next: 2 }));
/// ```
#[derive(Clone, Copy, Debug, PartialEq, Eq, Hash)]
pub struct Logical {
    /// The byte that is meant.
    pub byte: u8,
    /// The position behind it: one raw byte further, behind an escape two.
    pub next: usize,
}

/// The logical byte at a position of a raw run.
///
/// Refuses with [`RunEnded`](crate::Reason::RunEnded),
/// [`EscapeWrong`](crate::Reason::EscapeWrong) or
/// [`SynEarly`](crate::Reason::SynEarly).
///
/// ```
/// use moortinker::{ebus, Reason};
///
/// let run = [0x10, 0xA9, 0x01];
/// let first = ebus::logical_at(&run, 0)?;
/// assert_eq!((first.byte, first.next), (0x10, 1));
/// let second = ebus::logical_at(&run, first.next)?;
/// assert_eq!((second.byte, second.next), (0xAA, 3));
/// let behind = ebus::logical_at(&run, second.next).unwrap_err();
/// assert_eq!((behind.reason(), behind.place()), (Reason::RunEnded, 3));
/// # Ok::<(), moortinker::Refusal>(())
/// ```
pub fn logical_at(run: &[u8], at: usize) -> Result<Logical, Refusal> {
    let logical = call::logical_at(run, at);
    Refusal::check(logical.number, logical.place)?;
    Ok(Logical {
        byte: logical.byte,
        next: logical.next,
    })
}

/// Writes logical bytes as they go on the wire, and gives how many bytes were
/// written. Refuses with [`OutputShort`](crate::Reason::OutputShort) exactly
/// when they do not fit.
///
/// W5:
///
/// ```
/// use moortinker::ebus;
///
/// let mut out = [0x5A; 5];
/// assert_eq!(ebus::expand(&[0xA9, 0xAA], &mut out), Ok(4));
/// assert_eq!(out, [0xA9, 0x00, 0xA9, 0x01, 0x5A]);
/// assert!(ebus::expand(&[0xA9, 0xAA], &mut out[..3]).is_err());
/// ```
pub fn expand(logical: &[u8], out: &mut [u8]) -> Result<usize, Refusal> {
    length_of(call::expand(logical, out))
}

/// Logical bytes as they go on the wire.
///
/// ```
/// use moortinker::ebus;
///
/// assert_eq!(ebus::expand_to_vec(&[0xA9, 0xAA]), [0xA9, 0x00, 0xA9, 0x01]);
/// assert!(ebus::expand_to_vec(&[]).is_empty());
/// ```
pub fn expand_to_vec(logical: &[u8]) -> Vec<u8> {
    let mut out = vec![0; 2 * logical.len()];
    let length = expand(logical, &mut out).expect("two raw bytes for each logical byte are enough");
    out.truncate(length);
    out
}

/// Undoes the escapes of raw bytes, and gives how many logical bytes were
/// written.
///
/// Refuses with [`RunEnded`](crate::Reason::RunEnded) after a lone A9,
/// [`EscapeWrong`](crate::Reason::EscapeWrong) or
/// [`SynEarly`](crate::Reason::SynEarly), whichever is met first, anywhere in
/// the input; and only then with [`OutputShort`](crate::Reason::OutputShort),
/// exactly when the logical bytes do not fit.
///
/// ```
/// use moortinker::{ebus, Reason};
///
/// let mut out = [0x5A; 3];
/// assert_eq!(ebus::undo(&[0xA9, 0x00, 0xA9, 0x01], &mut out), Ok(2));
/// assert_eq!(out, [0xA9, 0xAA, 0x5A]);
///
/// let refusal = ebus::undo(&[0x10, 0xA9, 0x02], &mut out).unwrap_err();
/// assert_eq!((refusal.reason(), refusal.place()), (Reason::EscapeWrong, 2));
/// assert_eq!(out, [0xA9, 0xAA, 0x5A]);
/// ```
pub fn undo(raw: &[u8], out: &mut [u8]) -> Result<usize, Refusal> {
    length_of(call::undo(raw, out))
}

/// The logical bytes of raw bytes. Refuses as [`undo`] does, never with
/// [`OutputShort`](crate::Reason::OutputShort).
///
/// ```
/// use moortinker::ebus;
///
/// assert_eq!(ebus::undo_to_vec(&[0xA9, 0x00, 0xA9, 0x01])?, [0xA9, 0xAA]);
/// assert!(ebus::undo_to_vec(&[0xAA]).is_err());
/// # Ok::<(), moortinker::Refusal>(())
/// ```
pub fn undo_to_vec(raw: &[u8]) -> Result<Vec<u8>, Refusal> {
    let mut out = vec![0; raw.len()];
    let length = undo(raw, &mut out)?;
    out.truncate(length);
    Ok(out)
}
