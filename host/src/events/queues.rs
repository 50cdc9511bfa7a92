//! Event queues that own their columns, and what their calls give.

use super::{Columns, Event, Polled, Request, Sent, POLL_ROOM, SLOTS_LENGTH};
use crate::devices::Table;
use crate::{Reason, Refusal};

/// The event queues of the devices of a table. They are valid beside the table
/// that they were made for, and stay so whatever it is asked.
///
/// ```
/// use moortinker::devices::Table;
/// use moortinker::events::{Event, Queues, Request, Sent};
///
/// let mut table = Table::new([0x0001EB37, 5], [0x0C, 0x02], [0, 0])?;
/// let mut queues = Queues::fresh(&table)?;
/// let event = |identifier| Event { kind: 4, identifier, data: &[0x01] };
/// queues.add(&table, 0x02, false, event(1))?;
/// queues.add(&table, 0x02, false, event(2))?;
/// queues.add(&table, 0x0C, true, event(3))?;
/// let mut poll = |confirmed, flag| {
///     let request = Request { minimum: 0, most: 5, confirmed, flag };
///     queues.poll(&table, request).map(|reply| reply.expect("somebody answers").sent())
/// };
/// // An urgent event comes first, and comes again until it is confirmed.
/// assert_eq!(poll(0x00, 0)?, Sent::Packet { sender: 0x0C, flag: 0, events: 1 });
/// assert_eq!(poll(0x00, 0)?, Sent::Packet { sender: 0x0C, flag: 0, events: 1 });
/// assert_eq!(poll(0x0C, 0)?, Sent::Packet { sender: 0x02, flag: 0, events: 1 });
/// assert_eq!(poll(0x02, 0)?, Sent::Packet { sender: 0x02, flag: 1, events: 1 });
/// assert_eq!(poll(0x02, 1)?, Sent::NoEvents { sender: 0x02 });
/// // A scan looks at none of this.
/// assert_eq!(table.scan(100).requests(), 3);
/// assert_eq!(queues.counts(), [0, 0]);
/// # Ok::<(), moortinker::Refusal>(())
/// ```
#[derive(Clone, Debug, Default, PartialEq, Eq, Hash)]
pub struct Queues {
    flags: Vec<u8>,
    lasts: Vec<u8>,
    counts: Vec<u8>,
    slots: Vec<u8>,
}

impl Queues {
    /// The queues of these columns, beside this table. Refuses with
    /// [`TableNotValid`](Reason::TableNotValid) where
    /// [`Columns::is_valid`] does not hold.
    ///
    /// ```
    /// use moortinker::devices::Table;
    /// use moortinker::events::{Queues, SLOTS_LENGTH};
    /// use moortinker::Reason;
    ///
    /// let table = Table::new([5], [0x02], [0])?;
    /// let queues = Queues::new(&table, [1], [0], [0], [0; SLOTS_LENGTH])?;
    /// assert_eq!(queues.flags(), [1]);
    /// let refusal = Queues::new(&table, [2], [0], [0], [0; SLOTS_LENGTH]).unwrap_err();
    /// assert_eq!(refusal.reason(), Reason::TableNotValid);
    /// # Ok::<(), moortinker::Refusal>(())
    /// ```
    pub fn new(
        table: &Table,
        flags: impl Into<Vec<u8>>,
        lasts: impl Into<Vec<u8>>,
        counts: impl Into<Vec<u8>>,
        slots: impl Into<Vec<u8>>,
    ) -> Result<Queues, Refusal> {
        let mut queues = Queues {
            flags: flags.into(),
            lasts: lasts.into(),
            counts: counts.into(),
            slots: slots.into(),
        };
        if !queues.columns(table).is_valid() {
            return Err(Refusal::new(Reason::TableNotValid, 0));
        }
        Ok(queues)
    }

    /// The queues of fresh devices: nothing is queued, no packet was sent, and
    /// the first flag is 0. Refuses with
    /// [`TableNotValid`](Reason::TableNotValid) where the addresses of the table
    /// are not ids: they differ and are 1 to 247.
    ///
    /// ```
    /// use moortinker::devices::Table;
    /// use moortinker::events::Queues;
    ///
    /// assert!(Queues::fresh(&Table::new([5, 9], [0x01, 0xF7], [0, 0])?).is_ok());
    /// assert!(Queues::fresh(&Table::new([5, 9], [0x02, 0x02], [0, 0])?).is_err());
    /// assert!(Queues::fresh(&Table::new([5, 9], [0x01, 0xF8], [0, 0])?).is_err());
    /// # Ok::<(), moortinker::Refusal>(())
    /// ```
    pub fn fresh(table: &Table) -> Result<Queues, Refusal> {
        let none = vec![0; table.len()];
        let slots = vec![0; table.len() * SLOTS_LENGTH];
        Queues::new(table, none.clone(), none.clone(), none, slots)
    }

    /// The flag of each device's next packet, in the table's order.
    pub fn flags(&self) -> &[u8] {
        &self.flags
    }

    /// How many events each device's last packet had, in the table's order; 0
    /// where none was sent or the last one is confirmed.
    pub fn lasts(&self) -> &[u8] {
        &self.lasts
    }

    /// How many events each device has queued, in the table's order.
    pub fn counts(&self) -> &[u8] {
        &self.counts
    }

    /// The slots of all devices, in the table's order.
    pub fn slots(&self) -> &[u8] {
        &self.slots
    }

    /// The columns, lent. Private, since a caller could put anything there.
    fn columns<'a>(&'a mut self, table: &'a Table) -> Columns<'a> {
        Columns {
            serials: table.serials(),
            addresses: table.addresses(),
            marks: table.marks(),
            flags: &mut self.flags,
            lasts: &mut self.lasts,
            counts: &mut self.counts,
            slots: &mut self.slots,
        }
    }

    /// A new event for the device with this id, behind those that it has
    /// queued.
    ///
    /// Refuses with [`TableNotValid`](Reason::TableNotValid) beside a table that
    /// these are not the queues of, with [`FrameLength`](Reason::FrameLength)
    /// where there is no such device or the event has over 8 data bytes, and
    /// with [`QueueFull`](Reason::QueueFull), in this order.
    ///
    /// ```
    /// use moortinker::devices::Table;
    /// use moortinker::events::{Event, Queues};
    ///
    /// let table = Table::new([5, 9], [0x02, 0x03], [0, 0])?;
    /// let mut queues = Queues::fresh(&table)?;
    /// queues.add(&table, 0x03, false, Event { kind: 0x0F, identifier: 0, data: &[] })?;
    /// assert_eq!(queues.counts(), [0, 1]);
    /// # Ok::<(), moortinker::Refusal>(())
    /// ```
    pub fn add(
        &mut self,
        table: &Table,
        id: u8,
        urgent: bool,
        event: Event<'_>,
    ) -> Result<(), Refusal> {
        self.columns(table).add(id, urgent, event)
    }

    /// A poll, as [`Columns::poll`] describes it. `Ok(None)` is silence. Refuses
    /// only with [`TableNotValid`](Reason::TableNotValid), beside a table that
    /// these are not the queues of.
    ///
    /// ```
    /// use moortinker::devices::Table;
    /// use moortinker::events::{Queues, Request, Sent};
    ///
    /// let table = Table::new([5, 9], [0x02, 0x03], [0, 0])?;
    /// let mut queues = Queues::fresh(&table)?;
    /// let request = |minimum| Request { minimum, most: 100, confirmed: 0, flag: 0 };
    /// let reply = queues.poll(&table, request(3))?.expect("device 3 answers");
    /// assert_eq!(reply.sent(), Sent::NoEvents { sender: 0x03 });
    /// assert_eq!(queues.poll(&table, request(4)), Ok(None));
    /// assert!(queues.poll(&Table::default(), request(0)).is_err());
    /// # Ok::<(), moortinker::Refusal>(())
    /// ```
    pub fn poll(&mut self, table: &Table, request: Request) -> Result<Option<Reply>, Refusal> {
        let columns = &mut self.columns(table);
        Reply::of(|answer| columns.poll(request, answer))
    }

    /// A raw event request offered to the devices. Answers and refuses as
    /// [`poll`](Queues::poll) does, and then refuses as
    /// [`read_request`](super::read_request) does; then nothing has changed.
    ///
    /// ```
    /// use moortinker::devices::Table;
    /// use moortinker::events::{Queues, Sent};
    /// use moortinker::Reason;
    ///
    /// let table = Table::new([5, 9], [0x02, 0x03], [0, 0])?;
    /// let mut queues = Queues::fresh(&table)?;
    /// let frame = [0xFD, 0x46, 0x10, 0x00, 0x64, 0x0A, 0x01, 0x7E, 0x15];
    /// let reply = queues.offer(&table, &frame)?.expect("device 2 answers");
    /// assert_eq!(reply.sent(), Sent::NoEvents { sender: 0x02 });
    /// let refusal = queues.offer(&table, &frame[..8]).unwrap_err();
    /// assert_eq!(refusal.reason(), Reason::FrameLength);
    /// # Ok::<(), moortinker::Refusal>(())
    /// ```
    pub fn offer(&mut self, table: &Table, frame: &[u8]) -> Result<Option<Reply>, Refusal> {
        let columns = &mut self.columns(table);
        Reply::of(|answer| columns.offer(frame, answer))
    }
}

/// What a device put on the bus in answer to a poll: one FF for each dominant
/// window, then the frame.
///
/// ```
/// use moortinker::devices::Table;
/// use moortinker::events::{Queues, Request, Sent};
///
/// let table = Table::new([5], [0x0A], [0])?;
/// let request = Request { minimum: 0, most: 100, confirmed: 0, flag: 0 };
/// let reply = Queues::fresh(&table)?.poll(&table, request)?.expect("device 10 answers");
/// assert_eq!(reply.sent(), Sent::NoEvents { sender: 0x0A });
/// assert_eq!(reply.skipped(), 6);
/// assert_eq!(reply.bytes()[..6], [0xFF; 6]);
/// assert_eq!(reply.bytes()[6..], [0xFD, 0x46, 0x12, 0x52, 0x5D]);
/// # Ok::<(), moortinker::Refusal>(())
/// ```
#[derive(Clone, Copy, Debug, PartialEq, Eq, Hash)]
pub struct Reply {
    bytes: [u8; POLL_ROOM],
    polled: Polled,
}

impl Reply {
    /// What a call writes into a whole answer buffer; `None` where it writes
    /// nothing.
    fn of(
        call: impl FnOnce(&mut [u8]) -> Result<Option<Polled>, Refusal>,
    ) -> Result<Option<Reply>, Refusal> {
        let mut bytes = [0; POLL_ROOM];
        let polled = call(&mut bytes)?;
        Ok(polled.map(|polled| Reply { bytes, polled }))
    }

    /// What was sent, and by whom.
    pub fn sent(&self) -> Sent {
        self.polled.sent
    }

    /// How many FF the bytes begin with.
    pub fn skipped(&self) -> usize {
        self.polled.skipped
    }

    /// The bytes on the bus.
    pub fn bytes(&self) -> &[u8] {
        &self.bytes[..self.polled.length]
    }
}

impl AsRef<[u8]> for Reply {
    fn as_ref(&self) -> &[u8] {
        self.bytes()
    }
}
