//! The devices' side of event polling on a perfect bus: the queues beside the
//! device table, a new event, and polls.

use crate::checks::modbus_check;
use crate::devices::table_valid;
use crate::events::{
    read_event_request, write_no_events, EventRequest, EVENT_HEAD, MOST_ID, PACKET, PACKET_HEAD,
};
use crate::frames::{FILL, HEAD};
use crate::refusal::{Refusal, FRAME_LENGTH, OUTPUT_SHORT, QUEUE_FULL, TABLE_NOT_VALID};

/// The most events that a device has queued.
pub const MOST_QUEUED: usize = 8;
/// The most data bytes of a queued event.
pub const MOST_DATA: usize = 8;
/// The bytes of a slot: urgent, number of data bytes, type, identifier, data.
pub const SLOT_LENGTH: usize = 13;
/// The bytes of the slots of one device.
pub const SLOTS_LENGTH: usize = MOST_QUEUED * SLOT_LENGTH;
/// The room that a poll's answer asks for: 12 FF and a packet of 8 events of 12
/// bytes.
pub const POLL_ROOM: usize = 116;

/// Where a slot says whether its event is urgent.
const URGENT: usize = 0;
/// Where a slot says how many data bytes its event has. From here on an event
/// stands as on the wire.
const SIZE: usize = 1;
/// Where a slot has its event's data.
const DATA: usize = SIZE + EVENT_HEAD;

/// The windows of a contest: four marker bits, then eight of the id.
const WINDOWS: usize = 12;
/// "0 urgent, 1 normal, 15 nothing queued".
const MARKED_URGENT: u16 = 0;
const MARKED_NORMAL: u16 = 1;
const MARKED_NOTHING: u16 = 15;

/// A device table, lent to be read. Its addresses are the ids.
#[derive(Clone, Copy, Debug)]
pub struct Table<'a> {
    pub serials: &'a [u32],
    pub addresses: &'a [u8],
    pub marks: &'a [u8],
}

/// The four columns beside a device table: of each device the flag of its next
/// packet, how many events its last packet had, how many are queued, and the
/// slots that they stand in, the oldest first.
#[derive(Debug)]
pub struct Queues<'a> {
    pub flags: &'a mut [u8],
    pub lasts: &'a mut [u8],
    pub counts: &'a mut [u8],
    pub slots: &'a mut [u8],
}

/// An event that a device is to queue.
#[derive(Clone, Copy, Debug)]
pub struct NewEvent<'a> {
    pub urgent: bool,
    pub kind: u8,
    pub identifier: u16,
    pub data: &'a [u8],
}

/// What a poll brings about on the bus.
#[derive(Clone, Copy, Debug, PartialEq, Eq)]
pub enum Heard {
    Silence,
    /// The winner has nothing queued.
    NoEvents {
        sender: u8,
    },
    /// The winner sends so many of its oldest events.
    Packet {
        sender: u8,
        flag: u8,
        events: u8,
    },
}

/// A poll: what was heard, the length of the answer, and how many FF it begins
/// with. Of silence both are 0.
#[derive(Clone, Copy, Debug, PartialEq, Eq)]
pub struct Polled {
    pub heard: Heard,
    pub length: usize,
    pub skipped: usize,
}

/// Whether table and queues are valid.
pub fn queues_valid(table: Table, queues: &Queues) -> bool {
    let devices = table.serials.len();
    table_valid(table.serials, table.addresses, table.marks)
        && ids_valid(table.addresses)
        && queues.flags.len() == devices
        && queues.lasts.len() == devices
        && queues.counts.len() == devices
        && queues.slots.len() == devices * SLOTS_LENGTH
        && queues.flags.iter().all(|&flag| flag <= 1)
        && queues
            .lasts
            .iter()
            .zip(queues.counts.iter())
            .zip(queues.slots.chunks_exact(SLOTS_LENGTH))
            .all(|((&last, &count), slots)| {
                last <= count && usize::from(count) <= MOST_QUEUED && queue_valid(slots, count)
            })
}

/// A new event for the device with this id, behind those that it has queued.
/// Order: 2, then 13, then 18; every place is 0.
pub fn add_event(
    table: Table,
    queues: &mut Queues,
    id: u8,
    event: NewEvent,
) -> Result<(), Refusal> {
    if !queues_valid(table, queues) {
        return Err(Refusal::whole(TABLE_NOT_VALID));
    }
    let Some(device) = device_of(table, id).filter(|_| event.data.len() <= MOST_DATA) else {
        return Err(Refusal::whole(FRAME_LENGTH));
    };
    let count = usize::from(queues.counts[device]);
    if count == MOST_QUEUED {
        return Err(Refusal::whole(QUEUE_FULL));
    }
    let slot = &mut queues.slots[device * SLOTS_LENGTH + count * SLOT_LENGTH..][..SLOT_LENGTH];
    let [high, low] = event.identifier.to_be_bytes();
    let size = event.data.len() as u8;
    slot[..DATA].copy_from_slice(&[u8::from(event.urgent), size, event.kind, high, low]);
    slot[DATA..][..event.data.len()].copy_from_slice(event.data);
    queues.counts[device] += 1;
    Ok(())
}

/// A poll. Order: 1, then 2; every place is 0.
pub fn poll(
    request: EventRequest,
    table: Table,
    queues: &mut Queues,
    answer: &mut [u8],
) -> Result<Polled, Refusal> {
    ready(table, queues, answer)?;
    respond(request, table, queues, answer)
}

/// A raw event request offered to the devices. Order: 1, then 2, then what the
/// request reader gives.
pub fn offer_poll(
    frame: &[u8],
    table: Table,
    queues: &mut Queues,
    answer: &mut [u8],
) -> Result<Polled, Refusal> {
    ready(table, queues, answer)?;
    respond(read_event_request(frame)?, table, queues, answer)
}

/// What a poll asks before anything else: first the room of the answer, then
/// table and queues.
fn ready(table: Table, queues: &Queues, answer: &[u8]) -> Result<(), Refusal> {
    if answer.len() < POLL_ROOM {
        return Err(Refusal::whole(OUTPUT_SHORT));
    }
    if !queues_valid(table, queues) {
        return Err(Refusal::whole(TABLE_NOT_VALID));
    }
    Ok(())
}

/// Carries out a poll on valid queues and writes the answer: one FF for each
/// dominant window, then the frame. Its room was seen to before.
fn respond(
    request: EventRequest,
    table: Table,
    queues: &mut Queues,
    answer: &mut [u8],
) -> Result<Polled, Refusal> {
    confirm(request, table, queues);
    let Some((key, device)) = smallest_key(request, table, queues) else {
        return Ok(Polled {
            heard: Heard::Silence,
            length: 0,
            skipped: 0,
        });
    };
    // The smallest key remains, so a window is dominant where it has a 0.
    let dominant = WINDOWS - key.count_ones() as usize;
    let (fill, frame) = answer.split_at_mut(dominant);
    fill.fill(FILL);
    let sender = table.addresses[device];
    if queues.counts[device] == 0 {
        return Ok(Polled {
            heard: Heard::NoEvents { sender },
            length: dominant + write_no_events(frame)?,
            skipped: dominant,
        });
    }
    let (events, length) = send(request, sender, queues, device, frame);
    Ok(Polled {
        heard: Heard::Packet {
            sender,
            flag: queues.flags[device],
            events,
        },
        length: dominant + length,
        skipped: dominant,
    })
}

/// "A request naming a device and the flag of the packet it last sent drops,
/// once and before the contest, that packet's events and changes the flag to the
/// other of 0 and 1." The stored flag is that of the next packet, and so also of
/// a last packet that is not confirmed yet. As the header has it, all slots
/// behind those dropped move to the start, and the last bytes stay.
fn confirm(request: EventRequest, table: Table, queues: &mut Queues) {
    let Some(device) = device_of(table, request.confirmed) else {
        return;
    };
    let last = queues.lasts[device];
    if last == 0 || queues.flags[device] != request.flag {
        return;
    }
    let slots = &mut queues.slots[device * SLOTS_LENGTH..][..SLOTS_LENGTH];
    slots.copy_within(bytes_of(last).., 0);
    queues.counts[device] -= last;
    queues.lasts[device] = 0;
    queues.flags[device] ^= 1;
}

/// The contender with the smallest key, and that key. "Contenders are devices
/// with a server id not below the requested minimum"; "a device whose oldest
/// does not fit sits that poll out".
fn smallest_key(request: EventRequest, table: Table, queues: &Queues) -> Option<(u16, usize)> {
    let most = usize::from(request.most);
    table
        .addresses
        .iter()
        .zip(queues.counts.iter())
        .zip(queues.slots.chunks_exact(SLOTS_LENGTH))
        .enumerate()
        .filter(|&(_, ((&id, &count), slots))| {
            id >= request.minimum && (count == 0 || wire_length(slots) <= most)
        })
        .map(|(device, ((&id, &count), slots))| {
            let marker = marker(queued_slots(slots, count));
            (marker << 8 | u16::from(id), device)
        })
        .min()
}

/// The marker bits of a device that has queued what stands in these slots.
fn marker(queued: &[u8]) -> u16 {
    let mut slots = queued.chunks_exact(SLOT_LENGTH);
    if queued.is_empty() {
        MARKED_NOTHING
    } else if slots.any(|slot| slot[URGENT] == 1) {
        MARKED_URGENT
    } else {
        MARKED_NORMAL
    }
}

/// The bytes on the wire of the event in the first of these slots.
fn wire_length(slots: &[u8]) -> usize {
    EVENT_HEAD + usize::from(slots[SIZE])
}

/// Writes the winner's packet, "as many of the oldest events as fit the length
/// asked", and keeps how many these are. Gives that number and the length of the
/// frame.
fn send(
    request: EventRequest,
    sender: u8,
    queues: &mut Queues,
    device: usize,
    frame: &mut [u8],
) -> (u8, usize) {
    let count = queues.counts[device];
    let slots = &queues.slots[device * SLOTS_LENGTH..][..SLOTS_LENGTH];
    let (mut events, mut end) = (0, PACKET_HEAD);
    let limit = PACKET_HEAD + usize::from(request.most);
    for slot in queued_slots(slots, count).chunks_exact(SLOT_LENGTH) {
        let event = &slot[SIZE..][..wire_length(slot)];
        if end + event.len() > limit {
            break;
        }
        frame[end..][..event.len()].copy_from_slice(event);
        end += event.len();
        events += 1;
    }
    let flag = queues.flags[device];
    let size = (end - PACKET_HEAD) as u8;
    frame[..PACKET_HEAD].copy_from_slice(&[sender, HEAD[1], PACKET, flag, count, size]);
    let check = modbus_check(&frame[..end]).to_le_bytes();
    frame[end..][..2].copy_from_slice(&check);
    queues.lasts[device] = events;
    (events, end + 2)
}

/// The device with this id.
fn device_of(table: Table, id: u8) -> Option<usize> {
    table.addresses.iter().position(|&address| address == id)
}

/// Whether all ids lie in 1 to 247 and differ.
fn ids_valid(ids: &[u8]) -> bool {
    let mut seen = [false; 256];
    ids.iter().all(|&id| {
        let differs = !seen[usize::from(id)];
        seen[usize::from(id)] = true;
        differs && (1..=MOST_ID).contains(&id)
    })
}

/// Whether each of the queued events, at most 8, is urgent or normal and has at
/// most 8 bytes of data.
fn queue_valid(slots: &[u8], count: u8) -> bool {
    queued_slots(slots, count)
        .chunks_exact(SLOT_LENGTH)
        .all(|slot| slot[URGENT] <= 1 && usize::from(slot[SIZE]) <= MOST_DATA)
}

/// The slots that hold queued events.
fn queued_slots(slots: &[u8], count: u8) -> &[u8] {
    &slots[..bytes_of(count)]
}

/// The bytes of so many slots.
fn bytes_of(count: u8) -> usize {
    usize::from(count) * SLOT_LENGTH
}
