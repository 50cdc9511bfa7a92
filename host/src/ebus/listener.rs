//! The judging of an exchange whose bytes arrive in runs.

use super::{Exchange, Judged};
use crate::{call, sys, Refusal};

/// Listens to one exchange. However a recording is cut into runs, the answer,
/// its place, attempts and bytes are those of [`judge`](super::judge) on the
/// whole recording.
///
/// W7 in runs as a serial line may hand them over:
///
/// ```
/// use moortinker::ebus::Listener;
///
/// let mut listener = Listener::new();
/// assert_eq!(listener.feed(&[0x10, 0x08, 0xB5]), 3);
/// assert_eq!(listener.feed(&[0x11, 0x01, 0x01, 0x89, 0x00, 0x01]), 6);
/// assert!(!listener.has_answered());
/// // The SYN decides; what is behind it is not used.
/// assert_eq!(listener.feed(&[0x2A, 0xB1, 0x00, 0xAA, 0x10, 0x15]), 4);
/// assert!(listener.has_answered());
///
/// let exchange = listener.close()?;
/// assert_eq!(exchange.data(), [0x2A]);
/// assert_eq!(exchange.bytes_read(), 13);
/// # Ok::<(), moortinker::Refusal>(())
/// ```
///
/// A listener hears one exchange; for the next there is a new one. It may be
/// cloned at any time, and both go on from there.
///
/// It may begin in idle time, which is used and no answer:
///
/// ```
/// use moortinker::ebus::Listener;
///
/// let mut listener = Listener::new();
/// assert_eq!(listener.feed(&[0xAA; 64]), 64);
/// assert_eq!(listener.feed(&[0xAA, 0x31]), 2);
/// // Here SYN means that 31 gave way to another initiator.
/// assert_eq!(listener.feed(&[0xAA, 0x10, 0xFE, 0xB5, 0x11]), 5);
/// assert!(!listener.has_answered());
/// assert_eq!(listener.feed(&[0x01, 0x01, 0x10, 0xAA, 0xAA]), 4);
///
/// let exchange = listener.close()?;
/// assert_eq!(exchange.command(), [0x10, 0xFE, 0xB5, 0x11, 0x01, 0x01, 0x10]);
/// assert_eq!(exchange.bytes_read(), 75);
/// # Ok::<(), moortinker::Refusal>(())
/// ```
#[derive(Clone, Debug)]
pub struct Listener {
    state: sys::Listening,
}

impl Listener {
    /// A listener that has heard nothing.
    ///
    /// ```
    /// use moortinker::ebus::Listener;
    /// use moortinker::Reason;
    ///
    /// let refusal = Listener::new().close().unwrap_err();
    /// assert_eq!((refusal.reason(), refusal.place()), (Reason::RunEnded, 0));
    /// ```
    pub fn new() -> Listener {
        Listener {
            state: call::listen(),
        }
    }

    /// Feeds a run of any length, and gives how many of its bytes were used:
    /// all, or those through the one that decides the answer, or through the
    /// 2^31st of the recording; none once it has answered.
    ///
    /// A wrong check byte is judged when it is acknowledged, so that the 00
    /// decides:
    ///
    /// ```
    /// use moortinker::ebus::Listener;
    /// use moortinker::Reason;
    ///
    /// let mut listener = Listener::new();
    /// assert_eq!(listener.feed(&[0x10, 0x08, 0xB5, 0x11, 0x01, 0x01, 0x88]), 7);
    /// assert!(!listener.has_answered());
    /// assert_eq!(listener.feed(&[0x00, 0x01, 0x2A]), 1);
    /// assert!(listener.has_answered());
    /// assert_eq!(listener.feed(&[0x01, 0x2A]), 0);
    ///
    /// let refusal = listener.close().unwrap_err();
    /// assert_eq!((refusal.reason(), refusal.place()), (Reason::CheckWrong, 6));
    /// ```
    pub fn feed(&mut self, run: &[u8]) -> usize {
        let fed = call::feed(self.state, run);
        self.state = fed.state;
        fed.used
    }

    /// Whether the answer is known, so that no more bytes are used. Bytes that
    /// end too early are no answer until the input is closed.
    ///
    /// ```
    /// use moortinker::ebus::Listener;
    ///
    /// let mut listener = Listener::new();
    /// listener.feed(&[0x10, 0x08]);
    /// assert!(!listener.has_answered());
    /// listener.feed(&[0xAA]); // SYN behind the destination: no idle time
    /// assert!(listener.has_answered());
    /// ```
    pub fn has_answered(&self) -> bool {
        call::has_answered(self.state)
    }

    /// Closes the input: the answer to all bytes used so far, in lent buffers
    /// as [`judge_into`](super::judge_into) takes them.
    ///
    /// Refuses with [`OutputShort`](crate::Reason::OutputShort) before anything
    /// else; the listener then stays as it is, to be fed further or closed
    /// again. Refuses with [`RunEnded`](crate::Reason::RunEnded) where the
    /// answer is not known yet, at the number of bytes used, and otherwise as
    /// [`judge_into`](super::judge_into) does. After each of these answers the
    /// listener has answered: it uses no more bytes, and closed again it gives
    /// the same answer.
    ///
    /// ```
    /// use moortinker::ebus::{Listener, COMMAND_ROOM, REPLY_ROOM};
    /// use moortinker::Reason;
    ///
    /// let mut command = [0x5A; COMMAND_ROOM];
    /// let mut reply_1 = [0x5A; REPLY_ROOM];
    /// let mut reply_2 = [0x5A; REPLY_ROOM];
    ///
    /// let mut listener = Listener::new();
    /// listener.feed(&[0x10, 0xFE, 0xB5, 0x11, 0x01, 0x01, 0x10]);
    /// let short = listener.close_into(&mut command[..21], &mut reply_1, &mut reply_2);
    /// assert_eq!(short.unwrap_err().reason(), Reason::OutputShort);
    ///
    /// listener.feed(&[0xAA]);
    /// let judged = listener.close_into(&mut command, &mut reply_1, &mut reply_2)?;
    /// assert_eq!(judged.bytes_read(), 8);
    /// assert_eq!(command[..8], [0x10, 0xFE, 0xB5, 0x11, 0x01, 0x01, 0x10, 0x5A]);
    /// assert_eq!(reply_1, [0x5A; REPLY_ROOM]);
    /// # Ok::<(), moortinker::Refusal>(())
    /// ```
    pub fn close_into(
        &mut self,
        command: &mut [u8],
        reply_1: &mut [u8],
        reply_2: &mut [u8],
    ) -> Result<Judged, Refusal> {
        let closed = call::close(self.state, command, reply_1, reply_2);
        self.state = closed.state;
        Judged::of_archive(closed.judged)
    }

    /// Closes the input: the answer to all bytes used so far. Refuses as
    /// [`close_into`](Listener::close_into) does, never with
    /// [`OutputShort`](crate::Reason::OutputShort). From then on it has
    /// answered.
    ///
    /// An input that is closed too early:
    ///
    /// ```
    /// use moortinker::ebus::Listener;
    /// use moortinker::Reason;
    ///
    /// let mut listener = Listener::new();
    /// listener.feed(&[0x10, 0x08, 0xB5]);
    /// let refusal = listener.close().unwrap_err();
    /// assert_eq!((refusal.reason(), refusal.place()), (Reason::RunEnded, 3));
    ///
    /// assert!(listener.has_answered());
    /// assert_eq!(listener.feed(&[0x11]), 0);
    /// assert_eq!(listener.close(), Err(refusal));
    /// ```
    pub fn close(&mut self) -> Result<Exchange, Refusal> {
        Exchange::with_room(|command, reply_1, reply_2| self.close_into(command, reply_1, reply_2))
    }
}

impl Default for Listener {
    /// A listener that has heard nothing.
    fn default() -> Listener {
        Listener::new()
    }
}
