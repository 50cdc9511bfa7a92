//! The exchanges of a capture, one after the other.

use std::iter::FusedIterator;

use super::{judge, Exchange};
use crate::{call, Refusal};

/// The exchanges of a capture: of each the offset at which it starts, and what
/// [`judge`] gives for it. The place of a refusal counts from that offset.
///
/// A raw AA is always SYN, so that SYN parts one exchange from the next,
/// whether the one before it was accepted or refused. Idle time is passed over:
/// SYN, also behind half an escape, and behind the address of an initiator that
/// gave way to another. Where the capture ends before an exchange does, that is
/// the last, refused with [`RunEnded`](crate::Reason::RunEnded).
///
/// The capture is not copied, and nothing is allocated. Bytes that still arrive
/// are for a [`Listener`](super::Listener).
///
/// Two exchanges among idle time:
///
/// ```
/// use moortinker::ebus::{self, Kind};
///
/// let capture = [
///     0xAA, 0xAA, // idle time
///     0x10, 0x08, 0xB5, 0x11, 0x01, 0x01, 0x89, 0x00, 0x01, 0x2A, 0xB1, 0x00, 0xAA, //
///     0xAA, 0xAA, 0xAA, // idle time
///     0x10, 0xFE, 0xB5, 0x11, 0x01, 0x01, 0x10, 0xAA, //
///     0xAA, // idle time, which is no exchange
/// ];
/// let mut exchanges = ebus::exchanges(&capture);
///
/// let (offset, answer) = exchanges.next().unwrap();
/// let exchange = answer?;
/// assert_eq!((offset, exchange.bytes_read()), (2, 13));
/// assert_eq!((exchange.source(), exchange.destination()), (0x10, 0x08));
/// assert_eq!(exchange.data(), [0x2A]);
///
/// let (offset, answer) = exchanges.next().unwrap();
/// assert_eq!((offset, answer?.kind()), (18, Kind::Broadcast));
/// assert!(exchanges.next().is_none());
/// # Ok::<(), moortinker::Refusal>(())
/// ```
///
/// A refusal in the middle: 55 where the command is acknowledged. What stands
/// behind it up to the SYN belongs to no exchange, and the next is found there:
///
/// ```
/// use moortinker::{ebus, Reason, Refusal};
///
/// let capture = [
///     0x10, 0xFE, 0xB5, 0x11, 0x01, 0x01, 0x10, 0xAA, //
///     0x10, 0x08, 0xB5, 0x11, 0x01, 0x01, 0x89, 0x55, 0x01, 0x2A, 0xB1, 0x00, 0xAA, //
///     0x10, 0xFE, 0xB5, 0x11, 0x01, 0x01, 0x10, 0xAA,
/// ];
/// let answers: Vec<_> = ebus::exchanges(&capture).collect();
/// assert_eq!(answers.len(), 3);
/// assert_eq!(answers[1], (8, Err(Refusal::new(Reason::BusError, 7))));
/// assert_eq!(answers[2].0, 21);
/// // Where in the capture the refused byte stands:
/// let (offset, refusal) = (answers[1].0, answers[1].1.unwrap_err());
/// assert_eq!(capture[offset + refusal.place()], 0x55);
/// ```
///
/// 31 gave way to 10: its address is idle time. SYN that comes later, when the
/// destination is there, is a refusal:
///
/// ```
/// use moortinker::{ebus, Reason, Refusal};
///
/// let capture = [
///     0xAA, 0x31, 0xAA, // 31 gave way
///     0x10, 0xFE, 0xB5, 0x11, 0x01, 0x01, 0x10, 0xAA, //
///     0x31, 0x08, 0xAA,
/// ];
/// let mut exchanges = ebus::exchanges(&capture);
/// let (offset, answer) = exchanges.next().unwrap();
/// assert_eq!((offset, answer?.source()), (3, 0x10));
/// assert_eq!(exchanges.next(), Some((11, Err(Refusal::new(Reason::SynEarly, 2)))));
/// # Ok::<(), moortinker::Refusal>(())
/// ```
///
/// A capture that ends in the middle. The offset is where to go on once more of
/// it is there:
///
/// ```
/// use moortinker::{ebus, Reason, Refusal};
///
/// let mut capture = vec![0xAA, 0x10, 0xFE, 0xB5, 0x11, 0x01];
/// let (offset, answer) = ebus::exchanges(&capture).last().unwrap();
/// assert_eq!((offset, answer), (1, Err(Refusal::new(Reason::RunEnded, 5))));
///
/// capture.extend([0x01, 0x10, 0xAA]);
/// let (_, answer) = ebus::exchanges(&capture[offset..]).last().unwrap();
/// assert_eq!(answer?.command_data(), [0x01]);
/// # Ok::<(), moortinker::Refusal>(())
/// ```
pub fn exchanges(capture: &[u8]) -> Exchanges<'_> {
    Exchanges { capture, at: 0 }
}

/// The exchanges of a capture. [`exchanges`] gives it.
///
/// ```
/// use moortinker::ebus;
///
/// let idle = [0xAA; 64];
/// assert_eq!(ebus::exchanges(&idle).count(), 0);
/// ```
#[derive(Clone, Debug)]
#[must_use = "iterators are lazy and do nothing unless consumed"]
pub struct Exchanges<'a> {
    capture: &'a [u8],
    at: usize,
}

impl Iterator for Exchanges<'_> {
    type Item = (usize, Result<Exchange, Refusal>);

    fn next(&mut self) -> Option<Self::Item> {
        let found = call::next_exchange(self.capture, self.at);
        self.at = found.end;
        let bytes = &self.capture[found.start..found.end];
        (!bytes.is_empty()).then(|| (found.start, judge(bytes)))
    }
}

impl FusedIterator for Exchanges<'_> {}
