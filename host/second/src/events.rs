//! Fast Modbus event frames: request 10, the packet of events 11 and the answer
//! 12 that nobody has any, read and written.

use crate::frames::{pass_over, read_head, read_rest, write_frame, HEAD, SHORT};
use crate::refusal::{Refusal, FRAME_HEAD, FRAME_LENGTH, SUBCOMMAND_WRONG};

const REQUEST: u8 = 0x10;
pub(crate) const PACKET: u8 = 0x11;
const NO_EVENTS: u8 = 0x12;
/// The bytes of an event request.
const REQUEST_LENGTH: usize = 9;
/// A sender's id is at least 1 and at most this.
pub const MOST_ID: u8 = 247;
/// The bytes of a packet before its events.
pub(crate) const PACKET_HEAD: usize = 6;
/// The bytes of an event before its data.
pub(crate) const EVENT_HEAD: usize = 4;

/// What an event request asks. Every byte is as sent.
#[derive(Clone, Copy, Debug, PartialEq, Eq)]
pub struct EventRequest {
    /// The smallest id that may answer.
    pub minimum: u8,
    /// The most bytes of events.
    pub most: u8,
    /// The sender of the packet that is confirmed.
    pub confirmed: u8,
    /// The flag of the packet that is confirmed.
    pub flag: u8,
}

/// What came back for an event request. Flag and number queued are as sent.
#[derive(Clone, Copy, Debug, PartialEq, Eq)]
pub enum Events {
    Packet {
        sender: u8,
        flag: u8,
        /// How many events the sender had queued, those listed included.
        queued: u8,
        listed: usize,
        /// Where the events stand in the input.
        first: usize,
        /// How many bytes they have.
        size: u8,
    },
    None,
}

/// One event, and the position behind it.
#[derive(Clone, Copy, Debug, PartialEq, Eq)]
pub struct Event {
    pub kind: u8,
    pub identifier: u16,
    /// Where its data stands in the input.
    pub start: usize,
    /// How many bytes of data it has.
    pub size: u8,
    pub next: usize,
}

/// What an event request asks; it must fill the input.
pub fn read_event_request(input: &[u8]) -> Result<EventRequest, Refusal> {
    if read_head(input, 0)? != REQUEST {
        return Err(Refusal::at(SUBCOMMAND_WRONG, 2));
    }
    read_rest(input, 0, REQUEST_LENGTH)?;
    Ok(EventRequest {
        minimum: input[3],
        most: input[4],
        confirmed: input[5],
        flag: input[6],
    })
}

/// Writes an event request and gives its length.
pub fn write_event_request(request: EventRequest, out: &mut [u8]) -> Result<usize, Refusal> {
    let EventRequest {
        minimum,
        most,
        confirmed,
        flag,
    } = request;
    let frame = [
        HEAD[0], HEAD[1], REQUEST, minimum, most, confirmed, flag, 0, 0,
    ];
    write_frame(frame, out)
}

/// What came back for an event request, behind how many FF. "The event reader
/// passes over leading FF", up to 32 as the answer reader does; "then FD begins
/// only 0x12 and a sender's id, 1 to 247, only 0x11". Places count the FF.
pub fn read_events(input: &[u8]) -> Result<(usize, Events), Refusal> {
    let (fill, frame) = pass_over(input)?;
    if frame.len() < SHORT {
        return Err(Refusal::whole(FRAME_LENGTH));
    }
    let due = match frame[0] {
        byte if byte == HEAD[0] => NO_EVENTS,
        1..=MOST_ID => PACKET,
        _ => return Err(Refusal::at(FRAME_HEAD, fill)),
    };
    if frame[1] != HEAD[1] {
        return Err(Refusal::at(FRAME_HEAD, fill + 1));
    }
    if frame[2] != due {
        return Err(Refusal::at(SUBCOMMAND_WRONG, fill + 2));
    }
    if due == NO_EVENTS {
        read_rest(frame, fill, SHORT)?;
        return Ok((fill, Events::None));
    }
    Ok((fill, read_packet(frame, fill)?))
}

/// The event at a position of any bytes, where all of it is there.
pub fn event_at(input: &[u8], at: usize) -> Option<Event> {
    let (&[size, kind, high, low], data) = input.get(at..)?.split_first_chunk::<EVENT_HEAD>()?;
    data.get(..usize::from(size))?;
    let start = at + EVENT_HEAD;
    Some(Event {
        kind,
        identifier: u16::from_be_bytes([high, low]),
        start,
        size,
        next: start + usize::from(size),
    })
}

/// Writes the answer that nobody has events and gives its length.
pub fn write_no_events(out: &mut [u8]) -> Result<usize, Refusal> {
    write_frame([HEAD[0], HEAD[1], NO_EVENTS, 0, 0], out)
}

/// The rest of a packet whose first three bytes are right, at a place of the
/// whole input: "counts or lengths inside that disagree are 13, before 16".
fn read_packet(frame: &[u8], place: usize) -> Result<Events, Refusal> {
    let disagree = Refusal::whole(FRAME_LENGTH);
    let Some(&[sender, _, _, flag, queued, size]) = frame.first_chunk::<PACKET_HEAD>() else {
        return Err(disagree);
    };
    let end = PACKET_HEAD + usize::from(size);
    let events = frame.get(PACKET_HEAD..end).ok_or(disagree)?;
    let listed = count_events(events).ok_or(disagree)?;
    if listed > usize::from(queued) {
        return Err(disagree);
    }
    read_rest(frame, place, end + 2)?;
    Ok(Events::Packet {
        sender,
        flag,
        queued,
        listed,
        first: place + PACKET_HEAD,
        size,
    })
}

/// How many events these bytes are, if they come out even.
fn count_events(events: &[u8]) -> Option<usize> {
    let (mut at, mut count) = (0, 0);
    while at < events.len() {
        at = event_at(events, at)?.next;
        count += 1;
    }
    Some(count)
}
