//! The frames of event polling, read and written.

use std::iter::FusedIterator;

use super::REQUEST_FRAME;
use crate::refusal::length_of;
use crate::{call, sys, Refusal};

/// What an event request asks: any four bytes.
///
/// ```
/// use moortinker::events::{read_request, Request};
///
/// let request = Request { minimum: 0, most: 100, confirmed: 0x0A, flag: 1 };
/// assert_eq!(read_request(&request.frame()), Ok(request));
/// ```
#[derive(Clone, Copy, Debug, PartialEq, Eq, Hash)]
pub struct Request {
    /// The smallest id that may answer.
    pub minimum: u8,
    /// The most bytes of events that are taken.
    pub most: u8,
    /// The id of the device whose packet is confirmed; 0 where none is.
    pub confirmed: u8,
    /// The flag of the packet that is confirmed; 0 where none is.
    pub flag: u8,
}

impl Request {
    /// The frame of this request.
    ///
    /// As document 000 prints it, with its check:
    ///
    /// ```
    /// use moortinker::events::Request;
    ///
    /// let request = Request { minimum: 0, most: 0x64, confirmed: 0x0A, flag: 0x01 };
    /// let frame = [0xFD, 0x46, 0x10, 0x00, 0x64, 0x0A, 0x01, 0x7E, 0x15];
    /// assert_eq!(request.frame(), frame);
    /// ```
    pub fn frame(self) -> [u8; REQUEST_FRAME] {
        let mut frame = [0; REQUEST_FRAME];
        write_request(self, &mut frame).expect("an event request has nine bytes");
        frame
    }
}

/// What an event request asks. The frame must fill the input; each byte is
/// reported as sent.
///
/// Refuses with [`FrameLength`](crate::Reason::FrameLength) under 5 bytes,
/// [`FrameHead`](crate::Reason::FrameHead),
/// [`SubcommandWrong`](crate::Reason::SubcommandWrong),
/// [`FrameLength`](crate::Reason::FrameLength) where there are not 9 bytes and
/// [`FrameCheck`](crate::Reason::FrameCheck), in this order.
///
/// ```
/// use moortinker::events::{read_request, Request};
/// use moortinker::Reason;
///
/// let frame = [0xFD, 0x46, 0x10, 0x00, 0x64, 0x0A, 0x01, 0x7E, 0x15];
/// let request = Request { minimum: 0, most: 0x64, confirmed: 0x0A, flag: 0x01 };
/// assert_eq!(read_request(&frame), Ok(request));
/// let refusal = read_request(&[0xFD, 0x46, 0x01, 0x13, 0x90]).unwrap_err();
/// assert_eq!((refusal.reason(), refusal.place()), (Reason::SubcommandWrong, 2));
/// ```
pub fn read_request(input: &[u8]) -> Result<Request, Refusal> {
    let read = call::read_event_request(input);
    Refusal::check(read.number, read.place)?;
    Ok(Request {
        minimum: read.minimum,
        most: read.most,
        confirmed: read.confirmed,
        flag: read.flag,
    })
}

/// Writes an event request, and gives its length. Refuses only with
/// [`OutputShort`](crate::Reason::OutputShort).
///
/// ```
/// use moortinker::events::{write_request, Request};
///
/// let request = Request { minimum: 0, most: 0x64, confirmed: 0x0A, flag: 0x01 };
/// let mut out = [0x5A; 10];
/// assert_eq!(write_request(request, &mut out), Ok(9));
/// assert_eq!(out, [0xFD, 0x46, 0x10, 0x00, 0x64, 0x0A, 0x01, 0x7E, 0x15, 0x5A]);
/// assert!(write_request(request, &mut out[..8]).is_err());
/// ```
pub fn write_request(request: Request, out: &mut [u8]) -> Result<usize, Refusal> {
    length_of(call::write_event_request(request, out))
}

/// What came back for an event request. A packet lends its events from the
/// input.
///
/// ```
/// use moortinker::events::{read_answer, Answer};
///
/// assert_eq!(read_answer(&[0xFD, 0x46, 0x12, 0x52, 0x5D])?.answer, Answer::NoEvents);
/// # Ok::<(), moortinker::Refusal>(())
/// ```
#[derive(Clone, Copy, Debug, PartialEq, Eq, Hash)]
pub enum Answer<'a> {
    /// A packet of events.
    Packet(Packet<'a>),
    /// Nobody has events.
    NoEvents,
}

/// What came back for an event request, as it was read. [`read_answer`] gives it.
///
/// ```
/// use moortinker::events::{read_answer, Answer, Heard};
///
/// let heard = read_answer(&[0xFF, 0xFD, 0x46, 0x12, 0x52, 0x5D]);
/// assert_eq!(heard, Ok(Heard { answer: Answer::NoEvents, skipped: 1 }));
/// ```
#[derive(Clone, Copy, Debug, PartialEq, Eq, Hash)]
pub struct Heard<'a> {
    /// What came back.
    pub answer: Answer<'a>,
    /// How many FF were passed over before it, at most
    /// [`MOST_FILL`](crate::modbus::MOST_FILL).
    pub skipped: usize,
}

/// What came back for an event request. Up to
/// [`MOST_FILL`](crate::modbus::MOST_FILL) leading FF are passed over and counted,
/// and the frame must fill the rest.
///
/// Refuses with [`FillOver`](crate::Reason::FillOver) where there is one FF more,
/// [`FrameLength`](crate::Reason::FrameLength) where fewer than 5 bytes are left,
/// [`FrameHead`](crate::Reason::FrameHead) where the first is neither FD nor an
/// id, 1 to 247, or the second not 46,
/// [`SubcommandWrong`](crate::Reason::SubcommandWrong) where the third is not
/// 12 behind FD or 11 behind an id,
/// [`FrameLength`](crate::Reason::FrameLength) where the lengths and counts
/// inside disagree, and [`FrameCheck`](crate::Reason::FrameCheck), in this
/// order. Places count the leading FF; that of
/// [`FrameLength`](crate::Reason::FrameLength) is 0.
///
/// The packet that document 000 prints, with its check:
///
/// ```
/// use moortinker::events::{read_answer, Answer, Event};
/// use moortinker::Reason;
///
/// let mut input = [
///     0xFF, 0x05, 0x46, 0x11, 0x01, 0x01, 0x06, 0x02, 0x04, 0x01, 0xD0, 0x04, 0x00, 0x2B, 0xAC,
/// ];
/// let heard = read_answer(&input)?;
/// assert_eq!(heard.skipped, 1);
/// let Answer::Packet(packet) = heard.answer else {
///     unreachable!("it is a packet");
/// };
/// let mut events = packet.events();
/// let change = Event { kind: 4, identifier: 0x01D0, data: &[0x04, 0x00] };
/// assert_eq!((events.next(), events.next()), (Some(change), None));
///
/// input[14] = 0xAD;
/// let refusal = read_answer(&input).unwrap_err();
/// assert_eq!((refusal.reason(), refusal.place()), (Reason::FrameCheck, 13));
/// let refusal = read_answer(&[0xFF; 33]).unwrap_err();
/// assert_eq!((refusal.reason(), refusal.place()), (Reason::FillOver, 32));
/// # Ok::<(), moortinker::Refusal>(())
/// ```
pub fn read_answer(input: &[u8]) -> Result<Heard<'_>, Refusal> {
    let read = call::read_events(input);
    Refusal::check(read.number, read.place)?;
    let answer = match read.answer {
        sys::MOOR_PACKET => Answer::Packet(Packet {
            sender: read.sender,
            flag: read.flag,
            queued: read.queued,
            listed: read.listed,
            bytes: &input[read.first..][..usize::from(read.size)],
        }),
        sys::MOOR_NO_EVENTS => Answer::NoEvents,
        _ => unreachable!("libmoortinker.a reads one of two answers"),
    };
    let skipped = read.skipped;
    Ok(Heard { answer, skipped })
}

/// Writes the answer that nobody has events, with no FF before it, and gives
/// its length. Refuses only with [`OutputShort`](crate::Reason::OutputShort).
///
/// ```
/// use moortinker::events::write_no_events;
///
/// let mut out = [0x5A; 6];
/// assert_eq!(write_no_events(&mut out), Ok(5));
/// assert_eq!(out, [0xFD, 0x46, 0x12, 0x52, 0x5D, 0x5A]);
/// assert!(write_no_events(&mut out[..4]).is_err());
/// ```
pub fn write_no_events(out: &mut [u8]) -> Result<usize, Refusal> {
    length_of(call::write_no_events(out))
}

/// A packet of events, as [`read_answer`] finds it.
///
/// ```
/// use moortinker::events::{read_answer, Answer};
///
/// // Device 5 has two events queued, and sends the older one.
/// let input = [0x05, 0x46, 0x11, 0x00, 0x02, 0x04, 0x00, 0x0F, 0x00, 0x00, 0x7A, 0x95];
/// let Answer::Packet(packet) = read_answer(&input)?.answer else {
///     unreachable!("it is a packet");
/// };
/// assert_eq!((packet.sender(), packet.flag()), (0x05, 0));
/// assert_eq!((packet.queued(), packet.len()), (2, 1));
/// assert_eq!(packet.bytes(), [0x00, 0x0F, 0x00, 0x00]);
/// for event in &packet {
///     println!("type {} of {:04X}: {:02X?}", event.kind, event.identifier, event.data);
/// }
/// # Ok::<(), moortinker::Refusal>(())
/// ```
#[derive(Clone, Copy, Debug, PartialEq, Eq, Hash)]
pub struct Packet<'a> {
    sender: u8,
    flag: u8,
    queued: u8,
    listed: usize,
    bytes: &'a [u8],
}

impl<'a> Packet<'a> {
    /// The sender's id, 1 to 247.
    pub fn sender(&self) -> u8 {
        self.sender
    }

    /// The flag as sent, any byte. The next request confirms the packet with it.
    pub fn flag(&self) -> u8 {
        self.flag
    }

    /// How many events the sender has queued, as sent; at least as many as the
    /// packet lists.
    pub fn queued(&self) -> u8 {
        self.queued
    }

    /// How many events the packet lists.
    pub fn len(&self) -> usize {
        self.listed
    }

    /// Whether the packet lists no event.
    pub fn is_empty(&self) -> bool {
        self.listed == 0
    }

    /// The bytes of the events.
    pub fn bytes(&self) -> &'a [u8] {
        self.bytes
    }

    /// The events, the oldest first.
    pub fn events(&self) -> Events<'a> {
        Events {
            bytes: self.bytes,
            at: 0,
            left: self.listed,
        }
    }
}

impl<'a> IntoIterator for &Packet<'a> {
    type Item = Event<'a>;
    type IntoIter = Events<'a>;

    fn into_iter(self) -> Events<'a> {
        self.events()
    }
}

/// One event.
///
/// ```
/// use moortinker::events::{event_at, Event};
///
/// let (event, next) = event_at(&[0x01, 0x02, 0x00, 0x04, 0x01], 0).expect("all of it is there");
/// assert_eq!(event, Event { kind: 2, identifier: 4, data: &[0x01] });
/// assert_eq!(next, 5);
/// ```
#[derive(Clone, Copy, Debug, PartialEq, Eq, Hash)]
pub struct Event<'a> {
    /// Its type.
    pub kind: u8,
    /// Its identifier.
    pub identifier: u16,
    /// Its data.
    pub data: &'a [u8],
}

/// The event at a position of any bytes, and the position behind it. `None`
/// where not all of it is there.
///
/// ```
/// use moortinker::events::{event_at, Event};
///
/// let bytes = [0x00, 0x0F, 0x00, 0x00, 0x01, 0x02, 0x00, 0x04, 0x01];
/// let restart = Event { kind: 0x0F, identifier: 0, data: &[] };
/// assert_eq!(event_at(&bytes, 0), Some((restart, 4)));
/// let change = Event { kind: 2, identifier: 4, data: &[0x01] };
/// assert_eq!(event_at(&bytes, 4), Some((change, 9)));
/// assert_eq!(event_at(&bytes[..8], 4), None);
/// assert_eq!(event_at(&bytes, 9), None);
/// ```
pub fn event_at(input: &[u8], at: usize) -> Option<(Event<'_>, usize)> {
    let read = call::event_at(input, at);
    (read.whole != 0).then(|| {
        let event = Event {
            kind: read.kind,
            identifier: read.identifier,
            data: &input[read.start..][..usize::from(read.size)],
        };
        (event, read.next)
    })
}

/// An iterator over the events of a packet, the oldest first. [`Packet::events`]
/// gives it.
///
/// ```
/// use moortinker::events::{read_answer, Answer};
///
/// let input = [
///     0x05, 0x46, 0x11, 0x00, 0x02, 0x09, 0x00, 0x0F, 0x00, 0x00, 0x01, 0x02, 0x00, 0x04, 0x01,
///     0x9A, 0x84,
/// ];
/// let Answer::Packet(packet) = read_answer(&input)?.answer else {
///     unreachable!("it is a packet");
/// };
/// let mut events = packet.events();
/// assert_eq!(events.len(), 2);
/// assert_eq!(events.next().map(|event| event.kind), Some(0x0F));
/// assert_eq!(events.next().map(|event| event.data), Some(&[0x01][..]));
/// assert_eq!(events.next(), None);
/// # Ok::<(), moortinker::Refusal>(())
/// ```
#[derive(Clone, Debug)]
pub struct Events<'a> {
    bytes: &'a [u8],
    at: usize,
    left: usize,
}

impl<'a> Iterator for Events<'a> {
    type Item = Event<'a>;

    fn next(&mut self) -> Option<Event<'a>> {
        self.left = self.left.checked_sub(1)?;
        let (event, next) =
            event_at(self.bytes, self.at).expect("libmoortinker.a counts the events of a packet");
        self.at = next;
        Some(event)
    }

    fn size_hint(&self) -> (usize, Option<usize>) {
        (self.left, Some(self.left))
    }
}

impl ExactSizeIterator for Events<'_> {}

impl FusedIterator for Events<'_> {}
