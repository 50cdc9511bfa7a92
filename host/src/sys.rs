//! The C interface as it stands in `include/moortinker.h`: the same functions
//! under the same names, the same constants, and the answers without the
//! prefix `moor_`.
//!
//! Use it where a C-like call is wanted; [`ebus`](crate::ebus),
//! [`modbus`](crate::modbus), [`devices`](crate::devices),
//! [`events`](crate::events) and [`railbus`](crate::railbus) offer every one of
//! these calls safely.
//!
//! # Safety
//!
//! What holds for each function that takes a pointer:
//!
//! - a pointer is aligned for its element and valid for as many elements as the
//!   length behind it says; with length 0 nothing is read or written through it,
//!   and it may be null;
//! - a buffer that is written overlaps no other buffer of the same call.
//!
//! Nothing else is asked. The library keeps no state, so that any calls may
//! run at the same time on different buffers.
//!
//! ```
//! use moortinker::sys;
//!
//! let logical = [0xA9, 0xAA];
//! let mut out = [0; 4];
//! // SAFETY: each pointer comes with the length of its own array.
//! let written =
//!     unsafe { sys::moor_expand(logical.as_ptr(), logical.len(), out.as_mut_ptr(), out.len()) };
//! assert_eq!((written.number, written.length), (sys::MOOR_ACCEPTED, 4));
//! assert_eq!(out, [0xA9, 0x00, 0xA9, 0x01]);
//! ```

/// Not refused.
pub const MOOR_ACCEPTED: u8 = 0;
/// A lent output is shorter than stated.
pub const MOOR_OUTPUT_SHORT: u8 = 1;
/// The device table is not valid, or in event calls table and queues are not, or
/// in relay calls registers and access bytes are not.
pub const MOOR_TABLE_NOT_VALID: u8 = 2;
/// The eBUS run ends too early.
pub const MOOR_RUN_ENDED: u8 = 3;
/// The byte after A9 is none of 00, 01, AA.
pub const MOOR_ESCAPE_WRONG: u8 = 4;
/// A raw AA where another byte was due, and no idle time before a command.
pub const MOOR_SYN_EARLY: u8 = 5;
/// SRC is no initiator address.
pub const MOOR_SOURCE_WRONG: u8 = 6;
/// DST is A9 or AA.
pub const MOOR_DESTINATION_WRONG: u8 = 7;
/// LEN is over 16.
pub const MOOR_LENGTH_OVER: u8 = 8;
/// A wrong check byte in an accepted attempt.
pub const MOOR_CHECK_WRONG: u8 = 9;
/// The command was NACKed twice.
pub const MOOR_COMMAND_NACKED: u8 = 10;
/// The reply was NACKed twice.
pub const MOOR_REPLY_NACKED: u8 = 11;
/// An acknowledge byte that is none of 00, FF, AA, or not AA where SYN is due.
pub const MOOR_BUS_ERROR: u8 = 12;
/// The Modbus or Railbus length is wrong.
pub const MOOR_FRAME_LENGTH: u8 = 13;
/// The frame does not begin FD 46, or one of events with its sender's id, or a
/// Railbus packet RP.
pub const MOOR_FRAME_HEAD: u8 = 14;
/// A subcommand, or a letter of Railbus, that the call does not take.
pub const MOOR_SUBCOMMAND_WRONG: u8 = 15;
/// The Modbus check or the Railbus checksum is wrong.
pub const MOOR_FRAME_CHECK: u8 = 16;
/// A serial of 2^28 or more.
pub const MOOR_SERIAL_OVER: u8 = 17;
/// The event queue of a device is full.
pub const MOOR_QUEUE_FULL: u8 = 18;
/// More than 32 FF before an answer.
pub const MOOR_FILL_OVER: u8 = 19;
/// A character of a Railbus packet that is no upper-case hex digit where one is
/// due.
pub const MOOR_DIGIT_WRONG: u8 = 26;

/// The destination FE.
pub const MOOR_BROADCAST: u8 = 1;
/// The destination is an initiator address.
pub const MOOR_INITIATOR_INITIATOR: u8 = 2;
/// Any other destination.
pub const MOOR_INITIATOR_TARGET: u8 = 3;

/// The request that starts a scan.
pub const MOOR_START: u8 = 1;
/// The request that continues a scan.
pub const MOOR_CONTINUE: u8 = 2;

/// The answer of a device found.
pub const MOOR_FOUND: u8 = 3;
/// The answer that ends a scan.
pub const MOOR_END: u8 = 4;

/// A packet of events.
pub const MOOR_PACKET: u8 = 17;
/// Nobody has events.
pub const MOOR_NO_EVENTS: u8 = 18;

/// The end of the scan was heard.
pub const MOOR_COMPLETE: u8 = 1;
/// Nobody answered.
pub const MOOR_NOBODY: u8 = 2;
/// The cap was reached first.
pub const MOOR_UNFINISHED: u8 = 3;

/// The room that `moor_judge` and `moor_close` ask of their command buffer.
pub const MOOR_COMMAND_ROOM: usize = 22;
/// The room that `moor_judge` and `moor_close` ask of each reply buffer.
pub const MOOR_REPLY_ROOM: usize = 18;
/// The room that `moor_start`, `moor_resume` and `moor_offer` ask for.
pub const MOOR_ANSWER_ROOM: usize = 42;
/// The room that `moor_poll` and `moor_offer_poll` ask for.
pub const MOOR_POLL_ROOM: usize = 116;
/// The longest command on the wire.
pub const MOOR_COMMAND_WIRE: usize = 41;
/// The longest reply on the wire.
pub const MOOR_REPLY_WIRE: usize = 35;
/// The largest device table.
pub const MOOR_MOST_DEVICES: usize = 247;
/// The most FF before an answer.
pub const MOOR_MOST_FILL: usize = 32;

/// The most events that a device has queued.
pub const MOOR_MOST_QUEUED: usize = 8;
/// The most data bytes of a queued event.
pub const MOOR_MOST_DATA: usize = 8;
/// The bytes of a slot, which holds one event.
pub const MOOR_SLOT_LENGTH: usize = 13;
/// The bytes of the slots of one device.
pub const MOOR_SLOTS_LENGTH: usize = 104;

/// The room that `moor_offer_railbus` and `moor_finish_railbus` ask for, and the
/// longest packet.
pub const MOOR_RELAY_ROOM: usize = 17;
/// The registers of a relay device, and its access bytes.
pub const MOOR_RELAY_REGISTERS: usize = 256;

/// There is no such register.
pub const MOOR_ABSENT: u8 = 0;
/// The register may be read.
pub const MOOR_READ: u8 = 1;
/// The register may be written.
pub const MOOR_WRITE: u8 = 2;
/// The register may be read and written.
pub const MOOR_READ_WRITE: u8 = 3;

/// No write is remembered.
pub const MOOR_IDLE: u8 = 0;
/// The write that is remembered was received and runs.
pub const MOOR_RUNNING: u8 = 1;
/// The write that is remembered has finished.
pub const MOOR_FINISHED: u8 = 2;

/// The data of an n: the first copy of a write.
pub const MOOR_RECEIVED: u32 = 0x01;
/// The data of an n: a further copy of a write, while it runs.
pub const MOOR_RETRANSMISSION: u32 = 0x02;
/// The data of an n: a further copy of a write, after it has finished.
pub const MOOR_DONE_BEFORE: u32 = 0x03;
/// The data of an n: the register is not to be read, or written.
pub const MOOR_FORBIDDEN: u32 = 0x07;
/// The data of an n: a write runs, and this is no copy of it.
pub const MOOR_BUSY: u32 = 0x08;
/// The data of an n: no write runs, and none is remembered now.
pub const MOOR_SYNCED: u32 = 0x10;

/// What a call that writes gives.
#[repr(C)]
#[derive(Clone, Copy, Debug, PartialEq, Eq)]
pub struct Written {
    /// The number of the refusal, 0 when accepted.
    pub number: u8,
    /// The place of the refusal.
    pub place: usize,
    /// How many bytes stand at the start of the output.
    pub length: usize,
}

/// A logical byte of a raw run.
#[repr(C)]
#[derive(Clone, Copy, Debug, PartialEq, Eq)]
pub struct Logical {
    /// The number of the refusal, 0 when accepted.
    pub number: u8,
    /// The logical byte.
    pub byte: u8,
    /// The place of the refusal.
    pub place: usize,
    /// The position behind the byte.
    pub next: usize,
}

/// A telegram read from a raw run.
#[repr(C)]
#[derive(Clone, Copy, Debug, PartialEq, Eq)]
pub struct Telegram {
    /// The number of the refusal, 0 when accepted.
    pub number: u8,
    /// The place of the refusal.
    pub place: usize,
    /// How many of `bytes` the telegram has, its check byte included.
    pub length: usize,
    /// The place of the check byte's first raw byte.
    pub last: usize,
    /// The position behind the telegram.
    pub next: usize,
    /// The logical bytes; those behind the telegram are 0.
    pub bytes: [u8; MOOR_COMMAND_ROOM],
}

/// A judged exchange.
#[repr(C)]
#[derive(Clone, Copy, Debug, PartialEq, Eq)]
pub struct Judged {
    /// The number of the refusal, 0 when accepted.
    pub number: u8,
    /// [`MOOR_BROADCAST`] and so on.
    pub kind: u8,
    /// The attempts at the command, 1 or 2.
    pub command_attempts: u8,
    /// The attempts at the reply, 0 without a reply.
    pub reply_attempts: u8,
    /// The place of the refusal.
    pub place: usize,
    /// The raw bytes read, idle time in front and SYN included.
    pub read: usize,
}

/// A state of listening to an exchange whose bytes arrive in runs. It is plain
/// data: it may be copied and kept, and any bytes in it are safe to hand in.
#[repr(C)]
#[derive(Clone, Copy, Debug, PartialEq, Eq)]
pub struct Listening {
    /// Where in the recording what is in hand starts.
    pub start: usize,
    /// Once refused, the place.
    pub place: usize,
    /// What is due next; from 5 on it has answered.
    pub due: u8,
    /// Once answered, the number of the refusal, 0 when accepted.
    pub number: u8,
    /// How many raw bytes of an attempt are in hand.
    pub held: u8,
    /// The attempts at the command.
    pub command_attempts: u8,
    /// The attempts at the reply.
    pub reply_attempts: u8,
    /// How many bytes of `kept` the command has.
    pub command_length: u8,
    /// How many the first reply has, which stands at 22.
    pub reply_1_length: u8,
    /// How many the second reply has, which stands at 40.
    pub reply_2_length: u8,
    /// The raw bytes in hand.
    pub raw: [u8; 46],
    /// Command and replies, as far as they are known.
    pub kept: [u8; 58],
}

/// What a run did to a state.
#[repr(C)]
#[derive(Clone, Copy, Debug, PartialEq, Eq)]
pub struct Fed {
    /// The state now.
    pub state: Listening,
    /// How many of the run's bytes were used.
    pub used: usize,
}

/// What closing gives.
#[repr(C)]
#[derive(Clone, Copy, Debug, PartialEq, Eq)]
pub struct Closed {
    /// The answer, as [`moor_judge`] gives it.
    pub judged: Judged,
    /// The state now.
    pub state: Listening,
}

/// A part of a capture: the bytes from `start` on that stand before `end`.
#[repr(C)]
#[derive(Clone, Copy, Debug, PartialEq, Eq)]
pub struct Stretch {
    /// Where it starts.
    pub start: usize,
    /// The position behind it.
    pub end: usize,
}

/// Where a reply's data stands.
#[repr(C)]
#[derive(Clone, Copy, Debug, PartialEq, Eq)]
pub struct Part {
    /// Which of the two buffers, 1 or 2.
    pub attempt: u8,
    /// Where the data starts.
    pub start: usize,
    /// How many bytes it has.
    pub length: usize,
}

/// A request frame read.
#[repr(C)]
#[derive(Clone, Copy, Debug, PartialEq, Eq)]
pub struct RequestRead {
    /// The number of the refusal, 0 when accepted.
    pub number: u8,
    /// [`MOOR_START`] or [`MOOR_CONTINUE`].
    pub request: u8,
    /// The place of the refusal.
    pub place: usize,
}

/// An answer frame read.
#[repr(C)]
#[derive(Clone, Copy, Debug, PartialEq, Eq)]
pub struct AnswerRead {
    /// The number of the refusal, 0 when accepted.
    pub number: u8,
    /// [`MOOR_FOUND`] or [`MOOR_END`].
    pub answer: u8,
    /// The address of a device found.
    pub address: u8,
    /// The serial of a device found.
    pub serial: u32,
    /// The place of the refusal.
    pub place: usize,
    /// How many FF were passed over before the frame.
    pub skipped: usize,
}

/// What a contest gives.
#[repr(C)]
#[derive(Clone, Copy, Debug, PartialEq, Eq)]
pub struct Decided {
    /// The key that remains.
    pub key: u32,
    /// How many windows were dominant.
    pub dominant: usize,
}

/// A whole scan.
#[repr(C)]
#[derive(Clone, Copy, Debug, PartialEq, Eq)]
pub struct Scanned {
    /// The number of the refusal, 0 when accepted.
    pub number: u8,
    /// [`MOOR_COMPLETE`] and so on.
    pub end: u8,
    /// The place of the refusal.
    pub place: usize,
    /// The requests sent.
    pub requests: usize,
    /// How many devices were heard.
    pub found: usize,
    /// How many FF stood before all its answers together, the end's included.
    pub skipped: usize,
}

/// An event request read.
#[repr(C)]
#[derive(Clone, Copy, Debug, PartialEq, Eq)]
pub struct EventRequestRead {
    /// The number of the refusal, 0 when accepted.
    pub number: u8,
    /// The smallest id that may answer.
    pub minimum: u8,
    /// The most bytes of events.
    pub most: u8,
    /// The sender's id of the packet that is confirmed.
    pub confirmed: u8,
    /// The flag of the packet that is confirmed.
    pub flag: u8,
    /// The place of the refusal.
    pub place: usize,
}

/// What came back for an event request.
#[repr(C)]
#[derive(Clone, Copy, Debug, PartialEq, Eq)]
pub struct EventsRead {
    /// The number of the refusal, 0 when accepted.
    pub number: u8,
    /// [`MOOR_PACKET`] or [`MOOR_NO_EVENTS`].
    pub answer: u8,
    /// The sender's id of a packet.
    pub sender: u8,
    /// The flag of a packet.
    pub flag: u8,
    /// How many events the sender of a packet has queued.
    pub queued: u8,
    /// How many bytes the events of a packet have.
    pub size: u8,
    /// The place of the refusal.
    pub place: usize,
    /// How many events a packet lists.
    pub listed: usize,
    /// Where in the input the first of them stands.
    pub first: usize,
    /// How many FF were passed over before the frame.
    pub skipped: usize,
}

/// One event.
#[repr(C)]
#[derive(Clone, Copy, Debug, PartialEq, Eq)]
pub struct Event {
    /// 1 where a whole event stands; where none does all is 0.
    pub whole: u8,
    /// Its type.
    pub kind: u8,
    /// How many data bytes it has.
    pub size: u8,
    /// Its identifier.
    pub identifier: u16,
    /// Where in the input its data starts.
    pub start: usize,
    /// The position behind it.
    pub next: usize,
}

/// What a new event gives.
#[repr(C)]
#[derive(Clone, Copy, Debug, PartialEq, Eq)]
pub struct Added {
    /// The number of the refusal, 0 when accepted.
    pub number: u8,
    /// The place of the refusal.
    pub place: usize,
}

/// What a poll gives.
#[repr(C)]
#[derive(Clone, Copy, Debug, PartialEq, Eq)]
pub struct Polled {
    /// The number of the refusal, 0 when accepted.
    pub number: u8,
    /// [`MOOR_PACKET`], [`MOOR_NO_EVENTS`], or 0 for silence.
    pub answer: u8,
    /// The id of the device that answers.
    pub sender: u8,
    /// The flag of its packet.
    pub flag: u8,
    /// How many events its packet lists.
    pub events: u8,
    /// The place of the refusal.
    pub place: usize,
    /// How many bytes stand at the start of the answer buffer.
    pub length: usize,
    /// How many FF the answer begins with, of silence 0.
    pub skipped: usize,
}

/// A Railbus packet read.
#[repr(C)]
#[derive(Clone, Copy, Debug, PartialEq, Eq)]
pub struct RailbusRead {
    /// The number of the refusal, 0 when accepted.
    pub number: u8,
    /// Its letter.
    pub letter: u8,
    /// Its address.
    pub address: u8,
    /// Its register.
    pub reg: u8,
    /// 1 where its checksum was examined, 0 where that has its top bit clear.
    pub checked: u8,
    /// Its data, 0 where it carries none.
    pub data: u32,
    /// The place of the refusal.
    pub place: usize,
}

/// The write that a relay device remembers. It is plain data: any bytes in it
/// are safe to hand in.
#[repr(C)]
#[derive(Clone, Copy, Debug, PartialEq, Eq)]
pub struct Remembered {
    /// [`MOOR_RUNNING`], [`MOOR_FINISHED`], or [`MOOR_IDLE`], which any other
    /// phase handed in is too.
    pub phase: u8,
    /// Its register; with [`MOOR_IDLE`] 0 where it is handed back.
    pub reg: u8,
    /// Its data; with [`MOOR_IDLE`] 0 where it is handed back.
    pub data: u32,
}

/// What a relay device gives.
#[repr(C)]
#[derive(Clone, Copy, Debug, PartialEq, Eq)]
pub struct Relayed {
    /// The number of the refusal, 0 when accepted.
    pub number: u8,
    /// The write that it remembers from now on.
    pub write: Remembered,
    /// The place of the refusal.
    pub place: usize,
    /// How many characters stand at the start of the answer buffer, 0 where
    /// there is no answer.
    pub length: usize,
}

extern "C" {
    /// The eBUS check byte of logical bytes.
    pub fn moor_ebus_check(logical: *const u8, logical_length: usize) -> u8;

    /// The Modbus check of the bytes.
    pub fn moor_modbus_check(bytes: *const u8, bytes_length: usize) -> u16;

    /// The Railbus checksum of the characters.
    pub fn moor_railbus_check(characters: *const u8, characters_length: usize) -> u8;

    /// Whether this is an initiator's address.
    pub fn moor_is_initiator(address: u8) -> bool;

    /// Whether this is A9 or AA.
    pub fn moor_is_reserved(address: u8) -> bool;

    /// The kind of an exchange with this destination.
    pub fn moor_kind(destination: u8) -> u8;

    /// The logical byte at a position of a raw run.
    pub fn moor_logical_at(run: *const u8, run_length: usize, at: usize) -> Logical;

    /// Writes logical bytes as they go on the wire.
    pub fn moor_expand(
        logical: *const u8,
        logical_length: usize,
        out: *mut u8,
        out_length: usize,
    ) -> Written;

    /// Undoes the escapes of a raw input.
    pub fn moor_undo(raw: *const u8, raw_length: usize, out: *mut u8, out_length: usize)
        -> Written;

    /// The command or the reply at a position of a raw run.
    pub fn moor_telegram_at(
        run: *const u8,
        run_length: usize,
        command: bool,
        at: usize,
    ) -> Telegram;

    /// Whether the last of these bytes is the check byte of those before it.
    pub fn moor_check_right(telegram: *const u8, telegram_length: usize) -> bool;

    /// Writes a command on the wire.
    pub fn moor_write_command(
        source: u8,
        destination: u8,
        primary: u8,
        secondary: u8,
        payload: *const u8,
        payload_length: usize,
        out: *mut u8,
        out_length: usize,
    ) -> Written;

    /// Writes a reply on the wire.
    pub fn moor_write_reply(
        payload: *const u8,
        payload_length: usize,
        out: *mut u8,
        out_length: usize,
    ) -> Written;

    /// Judges a recorded run from its start.
    pub fn moor_judge(
        run: *const u8,
        run_length: usize,
        command: *mut u8,
        command_length: usize,
        reply_1: *mut u8,
        reply_1_length: usize,
        reply_2: *mut u8,
        reply_2_length: usize,
    ) -> Judged;

    /// A fresh state: nothing was heard.
    pub fn moor_listen() -> Listening;

    /// Feeds a run to a state.
    pub fn moor_feed(state: Listening, run: *const u8, run_length: usize) -> Fed;

    /// Whether the answer is known.
    pub fn moor_has_answered(state: Listening) -> bool;

    /// Closes the input: the answer to all bytes used so far.
    pub fn moor_close(
        state: Listening,
        command: *mut u8,
        command_length: usize,
        reply_1: *mut u8,
        reply_1_length: usize,
        reply_2: *mut u8,
        reply_2_length: usize,
    ) -> Closed;

    /// Where the data of the reply attempt asked for stands.
    pub fn moor_reply_data(
        reply_1: *const u8,
        reply_1_length: usize,
        reply_2: *const u8,
        reply_2_length: usize,
        attempt: u8,
    ) -> Part;

    /// The next exchange of a capture from a position on.
    pub fn moor_next_exchange(capture: *const u8, capture_length: usize, at: usize) -> Stretch;

    /// What a request frame asks.
    pub fn moor_read_request(input: *const u8, input_length: usize) -> RequestRead;

    /// What an answer frame says.
    pub fn moor_read_answer(input: *const u8, input_length: usize) -> AnswerRead;

    /// Writes a request frame.
    pub fn moor_write_request(request: u8, out: *mut u8, out_length: usize) -> Written;

    /// Writes the answer of a device found.
    pub fn moor_write_found(serial: u32, address: u8, out: *mut u8, out_length: usize) -> Written;

    /// Writes the answer that ends a scan.
    pub fn moor_write_end(out: *mut u8, out_length: usize) -> Written;

    /// Whether a device table is valid.
    pub fn moor_table_valid(
        serials: *const u32,
        serials_length: usize,
        addresses: *const u8,
        addresses_length: usize,
        marks: *const u8,
        marks_length: usize,
    ) -> bool;

    /// The contest of keys over 32 windows.
    pub fn moor_contest(keys: *const u32, keys_length: usize) -> Decided;

    /// A start.
    pub fn moor_start(
        serials: *const u32,
        serials_length: usize,
        addresses: *const u8,
        addresses_length: usize,
        marks: *mut u8,
        marks_length: usize,
        answer: *mut u8,
        answer_length: usize,
    ) -> Written;

    /// A continue.
    pub fn moor_resume(
        serials: *const u32,
        serials_length: usize,
        addresses: *const u8,
        addresses_length: usize,
        marks: *mut u8,
        marks_length: usize,
        answer: *mut u8,
        answer_length: usize,
    ) -> Written;

    /// A raw frame offered to the devices.
    pub fn moor_offer(
        frame: *const u8,
        frame_length: usize,
        serials: *const u32,
        serials_length: usize,
        addresses: *const u8,
        addresses_length: usize,
        marks: *mut u8,
        marks_length: usize,
        answer: *mut u8,
        answer_length: usize,
    ) -> Written;

    /// A whole scan.
    pub fn moor_scan(
        serials: *const u32,
        serials_length: usize,
        addresses: *const u8,
        addresses_length: usize,
        marks: *mut u8,
        marks_length: usize,
        found_serials: *mut u32,
        found_serials_length: usize,
        found_addresses: *mut u8,
        found_addresses_length: usize,
        cap: usize,
    ) -> Scanned;

    /// What an event request asks.
    pub fn moor_read_event_request(input: *const u8, input_length: usize) -> EventRequestRead;

    /// Writes an event request.
    pub fn moor_write_event_request(
        minimum: u8,
        most: u8,
        confirmed: u8,
        flag: u8,
        out: *mut u8,
        out_length: usize,
    ) -> Written;

    /// What came back for an event request.
    pub fn moor_read_events(input: *const u8, input_length: usize) -> EventsRead;

    /// The event at a position of any bytes.
    pub fn moor_event_at(input: *const u8, input_length: usize, at: usize) -> Event;

    /// Writes the answer that nobody has events.
    pub fn moor_write_no_events(out: *mut u8, out_length: usize) -> Written;

    /// Whether table and queues are valid.
    pub fn moor_queues_valid(
        serials: *const u32,
        serials_length: usize,
        addresses: *const u8,
        addresses_length: usize,
        marks: *const u8,
        marks_length: usize,
        flags: *const u8,
        flags_length: usize,
        lasts: *const u8,
        lasts_length: usize,
        counts: *const u8,
        counts_length: usize,
        slots: *const u8,
        slots_length: usize,
    ) -> bool;

    /// A new event for a device.
    pub fn moor_add_event(
        serials: *const u32,
        serials_length: usize,
        addresses: *const u8,
        addresses_length: usize,
        marks: *const u8,
        marks_length: usize,
        flags: *const u8,
        flags_length: usize,
        lasts: *const u8,
        lasts_length: usize,
        counts: *mut u8,
        counts_length: usize,
        slots: *mut u8,
        slots_length: usize,
        id: u8,
        urgent: u8,
        kind: u8,
        identifier: u16,
        payload: *const u8,
        payload_length: usize,
    ) -> Added;

    /// A poll.
    pub fn moor_poll(
        minimum: u8,
        most: u8,
        confirmed: u8,
        flag: u8,
        serials: *const u32,
        serials_length: usize,
        addresses: *const u8,
        addresses_length: usize,
        marks: *const u8,
        marks_length: usize,
        flags: *mut u8,
        flags_length: usize,
        lasts: *mut u8,
        lasts_length: usize,
        counts: *mut u8,
        counts_length: usize,
        slots: *mut u8,
        slots_length: usize,
        answer: *mut u8,
        answer_length: usize,
    ) -> Polled;

    /// A raw event request offered to the devices.
    pub fn moor_offer_poll(
        frame: *const u8,
        frame_length: usize,
        serials: *const u32,
        serials_length: usize,
        addresses: *const u8,
        addresses_length: usize,
        marks: *const u8,
        marks_length: usize,
        flags: *mut u8,
        flags_length: usize,
        lasts: *mut u8,
        lasts_length: usize,
        counts: *mut u8,
        counts_length: usize,
        slots: *mut u8,
        slots_length: usize,
        answer: *mut u8,
        answer_length: usize,
    ) -> Polled;

    /// What a Railbus packet says.
    pub fn moor_read_railbus(input: *const u8, input_length: usize) -> RailbusRead;

    /// Writes a Railbus packet.
    pub fn moor_write_railbus(
        letter: u8,
        address: u8,
        reg: u8,
        data: u32,
        out: *mut u8,
        out_length: usize,
    ) -> Written;

    /// Whether registers and access bytes are those of a relay device.
    pub fn moor_relay_valid(
        registers: *const u32,
        registers_length: usize,
        access: *const u8,
        access_length: usize,
    ) -> bool;

    /// A packet offered to a relay device.
    pub fn moor_offer_railbus(
        address: u8,
        packet: *const u8,
        packet_length: usize,
        registers: *const u32,
        registers_length: usize,
        access: *const u8,
        access_length: usize,
        write: Remembered,
        answer: *mut u8,
        answer_length: usize,
    ) -> Relayed;

    /// The write that runs has finished.
    pub fn moor_finish_railbus(
        address: u8,
        registers: *mut u32,
        registers_length: usize,
        access: *const u8,
        access_length: usize,
        write: Remembered,
        answer: *mut u8,
        answer_length: usize,
    ) -> Relayed;
}

/// Sizes and offsets, held to what C has on x86-64 Linux. The C example holds
/// the header to the same numbers.
#[cfg(test)]
mod tests {
    use super::*;
    use std::mem::{align_of, offset_of, size_of};

    /// A test for each answer: its size, its alignment, and where its fields lie.
    macro_rules! layout {
        ($($test:ident: $answer:ident $size:literal $align:literal { $($field:ident $at:literal)* })*) => {
            $(
                #[test]
                fn $test() {
                    assert_eq!((size_of::<$answer>(), align_of::<$answer>()), ($size, $align));
                    $(assert_eq!(offset_of!($answer, $field), $at, stringify!($field));)*
                }
            )*
        };
    }

    layout! {
        written: Written 24 8 { number 0 place 8 length 16 }
        logical: Logical 24 8 { number 0 byte 1 place 8 next 16 }
        telegram: Telegram 64 8 { number 0 place 8 length 16 last 24 next 32 bytes 40 }
        judged: Judged 24 8 { number 0 kind 1 command_attempts 2 reply_attempts 3 place 8 read 16 }
        listening: Listening 128 8 {
            start 0 place 8 due 16 number 17 held 18 command_attempts 19 reply_attempts 20
            command_length 21 reply_1_length 22 reply_2_length 23 raw 24 kept 70
        }
        fed: Fed 136 8 { state 0 used 128 }
        closed: Closed 152 8 { judged 0 state 24 }
        stretch: Stretch 16 8 { start 0 end 8 }
        part: Part 24 8 { attempt 0 start 8 length 16 }
        request_read: RequestRead 16 8 { number 0 request 1 place 8 }
        answer_read: AnswerRead 24 8 { number 0 answer 1 address 2 serial 4 place 8 skipped 16 }
        decided: Decided 16 8 { key 0 dominant 8 }
        scanned: Scanned 40 8 { number 0 end 1 place 8 requests 16 found 24 skipped 32 }
        event_request_read: EventRequestRead 16 8 {
            number 0 minimum 1 most 2 confirmed 3 flag 4 place 8
        }
        events_read: EventsRead 40 8 {
            number 0 answer 1 sender 2 flag 3 queued 4 size 5 place 8 listed 16 first 24
            skipped 32
        }
        event: Event 24 8 { whole 0 kind 1 size 2 identifier 4 start 8 next 16 }
        added: Added 16 8 { number 0 place 8 }
        polled: Polled 32 8 {
            number 0 answer 1 sender 2 flag 3 events 4 place 8 length 16 skipped 24
        }
        railbus_read: RailbusRead 24 8 {
            number 0 letter 1 address 2 reg 3 checked 4 data 8 place 16
        }
        remembered: Remembered 8 4 { phase 0 reg 1 data 4 }
        relayed: Relayed 32 8 { number 0 write 4 place 16 length 24 }
    }
}
