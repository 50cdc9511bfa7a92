//! Lent columns, and the calls on them that allocate nothing.

use super::{Event, Request};
use crate::{call, sys, Refusal};

/// What a device sent in answer to a poll.
///
/// ```
/// use moortinker::devices::Table;
/// use moortinker::events::{Event, Queues, Request, Sent};
///
/// let table = Table::new([5, 9], [0x02, 0x03], [0, 0])?;
/// let mut queues = Queues::fresh(&table)?;
/// let request = Request { minimum: 0, most: 100, confirmed: 0, flag: 0 };
/// let reply = queues.poll(&table, request)?.expect("a table with devices answers");
/// assert_eq!(reply.sent(), Sent::NoEvents { sender: 0x02 });
/// queues.add(&table, 0x03, false, Event { kind: 0x0F, identifier: 0, data: &[] })?;
/// let reply = queues.poll(&table, request)?.expect("a table with devices answers");
/// assert_eq!(reply.sent(), Sent::Packet { sender: 0x03, flag: 0, events: 1 });
/// # Ok::<(), moortinker::Refusal>(())
/// ```
#[derive(Clone, Copy, Debug, PartialEq, Eq, Hash)]
pub enum Sent {
    /// A packet of its oldest events.
    Packet {
        /// The id of the device.
        sender: u8,
        /// The flag of the packet, 0 or 1.
        flag: u8,
        /// How many events the packet lists.
        events: u8,
    },
    /// That nobody has events.
    NoEvents {
        /// The id of the device that says so.
        sender: u8,
    },
}

/// An answer to a poll. [`Columns::poll`] and [`Columns::offer`] give it.
///
/// ```
/// use moortinker::events::{Columns, Polled, Request, Sent, POLL_ROOM, SLOTS_LENGTH};
///
/// let mut columns = Columns {
///     serials: &[5],
///     addresses: &[0x0A],
///     marks: &[0],
///     flags: &mut [0],
///     lasts: &mut [0],
///     counts: &mut [0],
///     slots: &mut [0; SLOTS_LENGTH],
/// };
/// let request = Request { minimum: 0, most: 100, confirmed: 0, flag: 0 };
/// let mut answer = [0; POLL_ROOM];
/// // The key F0A has six zero bits.
/// let polled = Polled { sent: Sent::NoEvents { sender: 0x0A }, length: 11, skipped: 6 };
/// assert_eq!(columns.poll(request, &mut answer), Ok(Some(polled)));
/// assert_eq!(answer[..6], [0xFF; 6]);
/// assert_eq!(answer[6..11], [0xFD, 0x46, 0x12, 0x52, 0x5D]);
/// ```
#[derive(Clone, Copy, Debug, PartialEq, Eq, Hash)]
pub struct Polled {
    /// What was sent.
    pub sent: Sent,
    /// How many bytes the answer buffer starts with: one FF for each dominant
    /// window, then the frame.
    pub length: usize,
    /// How many of them are these FF.
    pub skipped: usize,
}

impl Polled {
    /// What the archive says of a poll; `None` is silence.
    fn of_archive(polled: sys::Polled) -> Result<Option<Polled>, Refusal> {
        Refusal::check(polled.number, polled.place)?;
        let sender = polled.sender;
        let sent = match polled.answer {
            0 => return Ok(None),
            sys::MOOR_PACKET => Sent::Packet {
                sender,
                flag: polled.flag,
                events: polled.events,
            },
            sys::MOOR_NO_EVENTS => Sent::NoEvents { sender },
            _ => unreachable!("libmoortinker.a answers a poll in one of three ways"),
        };
        Ok(Some(Polled {
            sent,
            length: polled.length,
            skipped: polled.skipped,
        }))
    }
}

/// A device table and its event queues as lent columns, valid or not.
///
/// ```
/// use moortinker::events::{Columns, Request, POLL_ROOM, SLOTS_LENGTH};
/// use moortinker::Reason;
///
/// let mut columns = Columns {
///     serials: &[5, 9],
///     addresses: &[0x02, 0x02],
///     marks: &[0, 0],
///     flags: &mut [0, 0],
///     lasts: &mut [0, 0],
///     counts: &mut [0, 0],
///     slots: &mut [0; 2 * SLOTS_LENGTH],
/// };
/// assert!(!columns.is_valid());
/// let request = Request { minimum: 0, most: 100, confirmed: 0, flag: 0 };
/// let refusal = columns.poll(request, &mut [0; POLL_ROOM]).unwrap_err();
/// assert_eq!(refusal.reason(), Reason::TableNotValid);
/// ```
#[derive(Debug)]
pub struct Columns<'a> {
    /// The serials.
    pub serials: &'a [u32],
    /// The addresses, which are the ids.
    pub addresses: &'a [u8],
    /// The scanned marks, 0 or 1.
    pub marks: &'a [u8],
    /// The flag of each device's next packet, 0 or 1.
    pub flags: &'a mut [u8],
    /// How many events its last packet had, 0 where none was sent or the last
    /// one is confirmed.
    pub lasts: &'a mut [u8],
    /// How many events are queued.
    pub counts: &'a mut [u8],
    /// [`SLOTS_LENGTH`](super::SLOTS_LENGTH) bytes for each device, with the
    /// events that are queued, the oldest first, in a slot of
    /// [`SLOT_LENGTH`](super::SLOT_LENGTH) bytes each.
    pub slots: &'a mut [u8],
}

impl Columns<'_> {
    /// Whether table and queues are valid: the table is, the ids are 1 to 247
    /// and differ, the columns have as many entries as there are devices, flags
    /// are 0 or 1, at most 8 events are queued, the last packet had no more
    /// than are queued, and each queued event is urgent (1) or not (0) and has
    /// at most 8 data bytes.
    ///
    /// ```
    /// use moortinker::events::{Columns, SLOTS_LENGTH};
    ///
    /// let mut slots = [0; SLOTS_LENGTH];
    /// let mut columns = Columns {
    ///     serials: &[5],
    ///     addresses: &[0x02],
    ///     marks: &[0],
    ///     flags: &mut [0],
    ///     lasts: &mut [0],
    ///     counts: &mut [1],
    ///     slots: &mut slots,
    /// };
    /// assert!(columns.is_valid());
    /// columns.slots[1] = 9;
    /// assert!(!columns.is_valid());
    /// ```
    pub fn is_valid(&self) -> bool {
        call::queues_valid(self)
    }

    /// A new event for the device with this id, behind those that it has
    /// queued. Its flag and its last packet stay.
    ///
    /// Refuses with [`TableNotValid`](crate::Reason::TableNotValid), then with
    /// [`FrameLength`](crate::Reason::FrameLength) where there is no such device
    /// or the event has over 8 data bytes, then with
    /// [`QueueFull`](crate::Reason::QueueFull); every place is 0.
    ///
    /// ```
    /// use moortinker::events::{Columns, Event, SLOTS_LENGTH};
    /// use moortinker::Reason;
    ///
    /// let mut slots = [0; SLOTS_LENGTH];
    /// let mut columns = Columns {
    ///     serials: &[5],
    ///     addresses: &[0x02],
    ///     marks: &[0],
    ///     flags: &mut [0],
    ///     lasts: &mut [0],
    ///     counts: &mut [0],
    ///     slots: &mut slots,
    /// };
    /// let event = Event { kind: 4, identifier: 0x01D0, data: &[0x04, 0x00] };
    /// assert_eq!(columns.add(0x02, true, event), Ok(()));
    /// assert_eq!(columns.counts, [1]);
    /// assert_eq!(columns.slots[..7], [0x01, 0x02, 0x04, 0x01, 0xD0, 0x04, 0x00]);
    /// let refusal = columns.add(0x03, true, event).unwrap_err();
    /// assert_eq!(refusal.reason(), Reason::FrameLength);
    /// ```
    pub fn add(&mut self, id: u8, urgent: bool, event: Event<'_>) -> Result<(), Refusal> {
        let added = call::add_event(self, id, urgent, event);
        Refusal::check(added.number, added.place)
    }

    /// A poll. First the packet that it names is confirmed: where the device
    /// with that id has sent a packet with that flag that is not confirmed yet,
    /// its events are dropped and its flag turns. Then the devices contend
    /// whose id is not below the minimum and whose oldest event fits, or who
    /// have none: those with an urgent event come first, those with none last,
    /// and then the smallest id. The winner sends as many of its oldest events
    /// as fit, or that nobody has events. `Ok(None)` is silence.
    ///
    /// Refuses with [`OutputShort`](crate::Reason::OutputShort) where the
    /// answer buffer is under [`POLL_ROOM`](super::POLL_ROOM) bytes, then with
    /// [`TableNotValid`](crate::Reason::TableNotValid).
    ///
    /// ```
    /// use moortinker::events::{Columns, Polled, Request, Sent, POLL_ROOM, SLOTS_LENGTH};
    ///
    /// // One event, of input register 01D0.
    /// let mut slots = [0; SLOTS_LENGTH];
    /// slots[..7].copy_from_slice(&[0x00, 0x02, 0x04, 0x01, 0xD0, 0x04, 0x00]);
    /// let mut columns = Columns {
    ///     serials: &[5],
    ///     addresses: &[0x05],
    ///     marks: &[0],
    ///     flags: &mut [1],
    ///     lasts: &mut [0],
    ///     counts: &mut [1],
    ///     slots: &mut slots,
    /// };
    /// let mut answer = [0; POLL_ROOM];
    /// let request = Request { minimum: 0, most: 100, confirmed: 0x0A, flag: 1 };
    /// let polled = columns.poll(request, &mut answer)?.expect("device 5 answers");
    /// assert_eq!(polled.sent, Sent::Packet { sender: 0x05, flag: 1, events: 1 });
    /// assert_eq!(answer[..9], [0xFF; 9]);
    /// assert_eq!(answer[9..15], [0x05, 0x46, 0x11, 0x01, 0x01, 0x06]);
    /// assert_eq!(answer[15..23], [0x02, 0x04, 0x01, 0xD0, 0x04, 0x00, 0x2B, 0xAC]);
    /// assert_eq!((polled.length, polled.skipped), (23, 9));
    /// assert_eq!(columns.lasts, [1]);
    ///
    /// let confirming = Request { confirmed: 0x05, ..request };
    /// let polled = columns.poll(confirming, &mut answer)?.expect("device 5 answers");
    /// assert_eq!(polled.sent, Sent::NoEvents { sender: 0x05 });
    /// assert_eq!((&*columns.counts, &*columns.flags), (&[0][..], &[0][..]));
    /// # Ok::<(), moortinker::Refusal>(())
    /// ```
    pub fn poll(&mut self, request: Request, answer: &mut [u8]) -> Result<Option<Polled>, Refusal> {
        Polled::of_archive(call::poll(request, self, answer))
    }

    /// A raw event request offered to the devices. Answers and refuses as
    /// [`poll`](Columns::poll) does, and then as
    /// [`read_request`](super::read_request) does.
    ///
    /// ```
    /// use moortinker::events::{Columns, POLL_ROOM, SLOTS_LENGTH};
    /// use moortinker::Reason;
    ///
    /// let mut columns = Columns {
    ///     serials: &[5],
    ///     addresses: &[0x0A],
    ///     marks: &[0],
    ///     flags: &mut [0],
    ///     lasts: &mut [0],
    ///     counts: &mut [0],
    ///     slots: &mut [0; SLOTS_LENGTH],
    /// };
    /// let mut frame = [0xFD, 0x46, 0x10, 0x00, 0x64, 0x0A, 0x01, 0x7E, 0x15];
    /// let mut answer = [0; POLL_ROOM];
    /// let polled = columns.offer(&frame, &mut answer)?.expect("device 10 answers");
    /// assert_eq!(answer[6..polled.length], [0xFD, 0x46, 0x12, 0x52, 0x5D]);
    /// frame[8] = 0x16;
    /// let refusal = columns.offer(&frame, &mut answer).unwrap_err();
    /// assert_eq!((refusal.reason(), refusal.place()), (Reason::FrameCheck, 7));
    /// # Ok::<(), moortinker::Refusal>(())
    /// ```
    pub fn offer(&mut self, frame: &[u8], answer: &mut [u8]) -> Result<Option<Polled>, Refusal> {
        Polled::of_archive(call::offer_poll(frame, self, answer))
    }
}
