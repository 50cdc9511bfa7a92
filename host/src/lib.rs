//! The proved bus core of a plant-room gateway, from Rust: eBUS to the boilers
//! ([`ebus`]), Fast Modbus to the sensors ([`modbus`] for the scan frames,
//! [`devices`] for the devices' side of a scan and whole scans, [`events`] for
//! the frames of event polling and the devices' side of it), Railbus to the
//! relays ([`railbus`] for the packets and the device's side).
//!
//! The work is done by `libmoortinker.a`, whose functions are proved to return
//! for any bytes of any length, to touch only what they were lent, and to give
//! exactly the answer of the rules. This crate adds types, and slices in place
//! of pointers; it decides nothing itself.
//!
//! Calls come in two forms. Those that take an output lend it to the archive
//! and allocate nothing; a [`Refusal`] leaves it as it was. Those that return
//! a `Vec` or a value of their own are the same calls with room of their own.
//!
//! # eBUS
//!
//! The exchanges of a capture: idle time, a command to a boiler with its reply,
//! and one with 55 where it should be acknowledged.
//!
//! ```
//! use moortinker::{ebus, Reason, Refusal};
//!
//! let capture = [
//!     0xAA, 0xAA, //
//!     0x10, 0x08, 0xB5, 0x11, 0x01, 0x01, 0x89, 0x00, 0x01, 0x2A, 0xB1, 0x00, 0xAA, //
//!     0x10, 0x08, 0xB5, 0x11, 0x01, 0x01, 0x89, 0x55, 0x01, 0x2A, 0xB1, 0x00, 0xAA,
//! ];
//! let mut exchanges = ebus::exchanges(&capture);
//! let (offset, answer) = exchanges.next().unwrap();
//! let exchange = answer?;
//! assert_eq!((offset, exchange.kind()), (2, ebus::Kind::InitiatorTarget));
//! assert_eq!((exchange.service(), exchange.data()), ((0xB5, 0x11), &[0x2A][..]));
//! assert_eq!(exchanges.next(), Some((15, Err(Refusal::new(Reason::BusError, 7)))));
//! assert_eq!(exchanges.next(), None);
//! # Ok::<(), moortinker::Refusal>(())
//! ```
//!
//! [`ebus::judge`] judges one exchange, and an [`ebus::Listener`] one whose bytes
//! arrive in runs.
//!
//! # Fast Modbus
//!
//! A scan of three sensors, and a poll for the event that one of them has; the
//! next poll confirms it.
//!
//! ```
//! use moortinker::devices::{ScanEnd, Table};
//! use moortinker::events::{read_answer, Answer, Event, Queues, Request};
//!
//! let mut table = Table::new([0x0001EB37, 5, 9], [0x0C, 0x02, 0x03], [0, 0, 0])?;
//! let scan = table.scan(100);
//! assert_eq!((scan.end(), scan.requests()), (ScanEnd::Complete, 4));
//! let serials: Vec<u32> = scan.heard().map(|device| device.serial).collect();
//! assert_eq!(serials, [5, 9, 0x0001EB37]);
//!
//! let mut queues = Queues::fresh(&table)?;
//! let change = Event { kind: 4, identifier: 0x01D0, data: &[0x04, 0x00] };
//! queues.add(&table, 0x0C, false, change)?;
//! let request = Request { minimum: 0, most: 100, confirmed: 0, flag: 0 };
//! let reply = queues.poll(&table, request)?.expect("a table with devices answers");
//! let Answer::Packet(packet) = read_answer(reply.bytes())?.answer else {
//!     unreachable!("device 0C has an event");
//! };
//! assert_eq!((packet.sender(), packet.events().next()), (0x0C, Some(change)));
//!
//! let confirming = Request { confirmed: packet.sender(), flag: packet.flag(), ..request };
//! let reply = queues.poll(&table, confirming)?.expect("a table with devices answers");
//! assert_eq!(read_answer(reply.bytes())?.answer, Answer::NoEvents);
//! # Ok::<(), moortinker::Refusal>(())
//! ```
//!
//! # Railbus
//!
//! A packet that switches a relay, as document 001 has it, with its checksum; the
//! relay says that it was received, and later that it is done.
//!
//! ```
//! use moortinker::railbus::{Message, Packet, Relay, READ_WRITE};
//!
//! let mut relay = Relay::fresh(0x93, [READ_WRITE; 256])?;
//! let on = Packet { address: 0x93, register: 0, message: Message::Write(0x10) };
//! assert_eq!(on.to_string(), "RP93W00000000109F");
//! let reply = relay.offer(on.to_string().as_bytes())?.expect("a write is answered");
//! assert_eq!(reply.text(), "RP93n0000000001A5");
//!
//! let reply = relay.finish().expect("the write runs");
//! assert_eq!(reply.packet().message, Message::WriteDone(0x10));
//! assert_eq!(relay.registers()[0], 0x10);
//! # Ok::<(), moortinker::Refusal>(())
//! ```

#![deny(missing_docs)]
#![deny(unsafe_code)]
#![deny(unsafe_op_in_unsafe_fn)]

#[allow(unsafe_code)]
mod call;
pub mod devices;
pub mod ebus;
pub mod events;
mod filled;
pub mod modbus;
pub mod railbus;
mod refusal;
pub mod sys;

pub use refusal::{Reason, Refusal};
