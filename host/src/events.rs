//! Fast Modbus: events. The frames of event polling, and the devices' side of
//! it as a model on a perfect bus.
//!
//! Each device has a queue of events beside the device table
//! ([`devices::Table`](crate::devices::Table)), whose addresses are the ids
//! here. A poll confirms the packet that was heard before, and the device that
//! wins the contest sends as many of its oldest events as fit, or says that
//! nobody has any. [`Queues`] owns the columns of the queues; [`Columns`] are
//! lent columns, valid or not, and their calls allocate nothing.
//!
//! ```
//! use moortinker::devices::Table;
//! use moortinker::events::{read_answer, Answer, Event, Queues, Request};
//!
//! let table = Table::new([0x0001EB37, 9], [0x05, 0x0A], [0, 0])?;
//! let mut queues = Queues::fresh(&table)?;
//! let change = Event { kind: 4, identifier: 0x01D0, data: &[0x04, 0x00] };
//! queues.add(&table, 0x05, false, change)?;
//!
//! let first = Request { minimum: 0, most: 100, confirmed: 0, flag: 0 };
//! let reply = queues.poll(&table, first)?.expect("a table with devices answers");
//! let Answer::Packet(packet) = read_answer(reply.bytes())?.answer else {
//!     unreachable!("device 5 has an event");
//! };
//! assert_eq!((packet.sender(), packet.flag(), packet.queued()), (0x05, 0, 1));
//! assert_eq!(packet.events().collect::<Vec<_>>(), [change]);
//!
//! let confirming = Request { confirmed: packet.sender(), flag: packet.flag(), ..first };
//! let reply = queues.poll(&table, confirming)?.expect("a table with devices answers");
//! assert_eq!(read_answer(reply.bytes())?.answer, Answer::NoEvents);
//! # Ok::<(), moortinker::Refusal>(())
//! ```

use crate::sys;

mod columns;
mod frames;
mod queues;

pub use columns::{Columns, Polled, Sent};
pub use frames::{
    event_at, read_answer, read_request, write_no_events, write_request, Answer, Event, Events,
    Heard, Packet, Request,
};
pub use queues::{Queues, Reply};

/// The length of an event request.
///
/// ```
/// use moortinker::events::{write_request, Request, REQUEST_FRAME};
///
/// let request = Request { minimum: 0, most: 100, confirmed: 0x0A, flag: 1 };
/// assert_eq!(write_request(request, &mut [0; REQUEST_FRAME]), Ok(REQUEST_FRAME));
/// ```
pub const REQUEST_FRAME: usize = 9;

/// The room that [`Columns::poll`] and [`Columns::offer`] ask for: twelve FF
/// and a packet of eight events of twelve bytes.
///
/// ```
/// use moortinker::devices::Table;
/// use moortinker::events::{Event, Queues, Request, MOST_DATA, MOST_QUEUED, POLL_ROOM};
///
/// let table = Table::new([5], [0x01], [0])?;
/// let mut queues = Queues::fresh(&table)?;
/// for identifier in 0..MOST_QUEUED as u16 {
///     queues.add(&table, 0x01, true, Event { kind: 4, identifier, data: &[0; MOST_DATA] })?;
/// }
/// let request = Request { minimum: 0, most: 255, confirmed: 0, flag: 0 };
/// let longest = queues.poll(&table, request)?.expect("a table with devices answers");
/// // No device has the id 0, so that one of the twelve windows is never dominant.
/// assert_eq!(longest.bytes().len(), POLL_ROOM - 1);
/// # Ok::<(), moortinker::Refusal>(())
/// ```
pub const POLL_ROOM: usize = sys::MOOR_POLL_ROOM;

/// The most events that a device has queued.
///
/// ```
/// use moortinker::devices::Table;
/// use moortinker::events::{Event, Queues, MOST_QUEUED};
/// use moortinker::Reason;
///
/// let table = Table::new([5], [0x01], [0])?;
/// let mut queues = Queues::fresh(&table)?;
/// let event = Event { kind: 0x0F, identifier: 0, data: &[] };
/// for _ in 0..MOST_QUEUED {
///     queues.add(&table, 0x01, false, event)?;
/// }
/// let refusal = queues.add(&table, 0x01, false, event).unwrap_err();
/// assert_eq!(refusal.reason(), Reason::QueueFull);
/// # Ok::<(), moortinker::Refusal>(())
/// ```
pub const MOST_QUEUED: usize = sys::MOOR_MOST_QUEUED;

/// The most data bytes of a queued event.
///
/// ```
/// use moortinker::devices::Table;
/// use moortinker::events::{Event, Queues, MOST_DATA};
///
/// let table = Table::new([5], [0x01], [0])?;
/// let mut queues = Queues::fresh(&table)?;
/// let event = |data| Event { kind: 4, identifier: 9, data };
/// assert!(queues.add(&table, 0x01, false, event(&[0; MOST_DATA])).is_ok());
/// assert!(queues.add(&table, 0x01, false, event(&[0; MOST_DATA + 1])).is_err());
/// # Ok::<(), moortinker::Refusal>(())
/// ```
pub const MOST_DATA: usize = sys::MOOR_MOST_DATA;

/// The bytes of a slot, which holds one event: 1 where it is urgent and 0 where
/// not, the number of its data bytes, its type, its identifier, high byte
/// first, and its data.
///
/// ```
/// use moortinker::devices::Table;
/// use moortinker::events::{Event, Queues, SLOT_LENGTH};
///
/// let table = Table::new([5], [0x01], [0])?;
/// let mut queues = Queues::fresh(&table)?;
/// queues.add(&table, 0x01, true, Event { kind: 4, identifier: 0x01D0, data: &[0x04, 0x00] })?;
/// let slot = &queues.slots()[..SLOT_LENGTH];
/// assert_eq!(slot[..7], [0x01, 0x02, 0x04, 0x01, 0xD0, 0x04, 0x00]);
/// # Ok::<(), moortinker::Refusal>(())
/// ```
pub const SLOT_LENGTH: usize = sys::MOOR_SLOT_LENGTH;

/// The bytes of the slots of one device.
///
/// ```
/// use moortinker::events::{MOST_QUEUED, SLOTS_LENGTH, SLOT_LENGTH};
///
/// assert_eq!(SLOTS_LENGTH, MOST_QUEUED * SLOT_LENGTH);
/// ```
pub const SLOTS_LENGTH: usize = sys::MOOR_SLOTS_LENGTH;
