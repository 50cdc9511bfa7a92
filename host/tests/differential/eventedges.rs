//! Inputs of events that are named one by one: the frames that document 000
//! prints and their neighbours, and edges of the queues and of polls.

use second::checks::modbus_check;
use second::events::EventRequest;
use second::queues::{MOST_QUEUED, SLOTS_LENGTH, SLOT_LENGTH};

use crate::calls;
use crate::edges::for_each_neighbour;
use crate::eventframes::written_request;
use crate::polls::{add, poll, queues_valid, Added, Asked, Bus};
use crate::queues::Queues;
use crate::session::Session;
use crate::tables::Table;

const REQUEST: [u8; 9] = [0xFD, 0x46, 0x10, 0x00, 0x64, 0x0A, 0x01, 0x7E, 0x15];
pub const PACKET: [u8; 14] = [
    0x05, 0x46, 0x11, 0x01, 0x01, 0x06, 0x02, 0x04, 0x01, 0xD0, 0x04, 0x00, 0x2B, 0xAC,
];
pub const NO_EVENTS: [u8; 5] = [0xFD, 0x46, 0x12, 0x52, 0x5D];
/// The room that a poll asks for.
const ROOM: usize = 116;

/// Runs all of them.
pub fn run_all(session: &mut Session) {
    frames(session);
    first_bytes(session);
    lengths_inside(session);
    events(session);
    writers(session);
    validity(session);
    new_events(session);
    requests(session);
    lengths_asked(session);
    rooms_and_frames(session);
}

/// The bytes with their check behind them.
pub fn checked(bytes: &[u8]) -> Vec<u8> {
    [bytes, &modbus_check(bytes).to_le_bytes()].concat()
}

fn frames(session: &mut Session) {
    let filled = [&[0xFF; 9], &PACKET[..]].concat();
    let two = checked(&[7, 0x46, 0x11, 0, 3, 9, 0, 1, 0, 9, 1, 2, 0, 8, 0x33]);
    for frame in [&REQUEST[..], &PACKET, &NO_EVENTS, &filled, &two] {
        for_each_neighbour(frame, |input| {
            calls::read_event_request(session, input);
            calls::read_events(session, input);
        });
        let body = &frame[..frame.len() - 2];
        for_each_neighbour(body, |input| {
            calls::read_event_request(session, &checked(input));
            calls::read_events(session, &checked(input));
        });
    }
}

/// Every first byte with every subcommand, for both forms.
fn first_bytes(session: &mut Session) {
    for first in 0..=255 {
        for subcommand in 0..=255 {
            calls::read_events(session, &checked(&[first, 0x46, subcommand]));
            calls::read_events(session, &checked(&[first, 0x46, subcommand, 0, 0, 0]));
        }
    }
}

/// Every size of the events, counted and said, and every number queued.
fn lengths_inside(session: &mut Session) {
    for length in 0..=255u8 {
        let mut events = vec![0x11; usize::from(length)];
        if let Some(size) = events.first_mut() {
            *size = length.wrapping_sub(4);
        }
        for said in [length, length.wrapping_add(1), length.wrapping_sub(1), 0] {
            for queued in [0, 1, 2] {
                let head = [9, 0x46, 0x11, 0, queued, said];
                calls::read_events(session, &checked(&[&head[..], &events].concat()));
            }
        }
        // As many events without data as the length has room for.
        let none = vec![0; usize::from(length)];
        let fit = length / 4;
        for queued in [fit.saturating_sub(1), fit, fit + 1, 255] {
            let head = [9, 0x46, 0x11, 0, queued, length];
            calls::read_events(session, &checked(&[&head[..], &none].concat()));
        }
    }
}

fn events(session: &mut Session) {
    let bytes: Vec<u8> = (0..20).map(|at| at % 5).collect();
    let mut long = vec![0xFF; 259];
    for at in (0..=bytes.len() + 1).chain([usize::MAX, usize::MAX - 3, usize::MAX - 4]) {
        for length in 0..=bytes.len() {
            calls::event_at(session, &bytes[..length], at);
        }
    }
    for size in 0..=255 {
        long[0] = size;
        for length in [usize::from(size) + 3, usize::from(size) + 4, 259] {
            calls::event_at(session, &long[..length], 0);
        }
    }
}

fn writers(session: &mut Session) {
    for room in 0..12 {
        calls::write_no_events(session, room);
        for byte in 0..=255 {
            let asked = asking(byte, !byte, byte ^ 0x55, byte ^ 0xAA);
            calls::write_event_request(session, asked, room);
        }
    }
}

fn asking(minimum: u8, most: u8, confirmed: u8, flag: u8) -> EventRequest {
    EventRequest {
        minimum,
        most,
        confirmed,
        flag,
    }
}

/// A table of devices with these ids, and their queues, in which nothing stands.
fn fresh(ids: &[u8]) -> (Table, Queues) {
    let devices = ids.len();
    let table = Table {
        serials: (1..).take(devices).collect(),
        addresses: ids.to_vec(),
        marks: vec![0; devices],
    };
    let queues = Queues {
        flags: vec![0; devices],
        lasts: vec![0; devices],
        counts: vec![0; devices],
        slots: vec![0xEE; devices * SLOTS_LENGTH],
    };
    (table, queues)
}

/// Queues an event of so many data bytes.
fn queue(queues: &mut Queues, device: usize, urgent: u8, size: usize) {
    let count = usize::from(queues.counts[device]);
    let slot = device * SLOTS_LENGTH + count * SLOT_LENGTH;
    let head = [urgent, size as u8, 4, device as u8, count as u8];
    queues.slots[slot..][..5].copy_from_slice(&head);
    queues.counts[device] += 1;
}

/// Three devices: one with two urgent events, one with a full queue of which a
/// part was sent, and one with nothing.
fn three() -> (Table, Queues) {
    let (table, mut queues) = fresh(&[20, 10, 30]);
    queue(&mut queues, 0, 0, 3);
    queue(&mut queues, 0, 1, 8);
    for size in 0..MOST_QUEUED {
        queue(&mut queues, 1, 0, size);
    }
    queues.lasts[1] = 3;
    queues.flags[1] = 1;
    (table, queues)
}

/// Every entry of every column of three devices with every byte, and columns
/// that are longer or shorter.
fn validity(session: &mut Session) {
    let (table, queues) = three();
    let mut try_one = |table: &Table, queues: &Queues| {
        let mut bus = Bus::new(session, table.clone(), queues);
        queues_valid(session, &mut bus);
        add(session, &mut bus, &new_event(30, 2));
        poll(session, &mut bus, Asked::Poll(asking(0, 50, 10, 1)), ROOM);
    };
    try_one(&table, &queues);
    for byte in 0..=255 {
        for device in 0..3 {
            let mut other = table.clone();
            other.addresses[device] = byte;
            try_one(&other, &queues);
            let mut other = queues.clone();
            other.flags[device] = byte;
            try_one(&table, &other);
            let mut other = queues.clone();
            other.lasts[device] = byte;
            try_one(&table, &other);
            let mut other = queues.clone();
            other.counts[device] = byte;
            try_one(&table, &other);
        }
        for slot in [0, 1, 2, 8, 10, 15, 16, 23] {
            for at in [0, 1, 2] {
                let mut other = queues.clone();
                other.slots[slot * SLOT_LENGTH + at] = byte;
                try_one(&table, &other);
            }
        }
    }
    for length in [0, 1, 2, 4] {
        for column in 0..3 {
            let mut other = queues.clone();
            let columns = [&mut other.flags, &mut other.lasts, &mut other.counts];
            columns.into_iter().nth(column).unwrap().resize(length, 0);
            try_one(&table, &other);
        }
    }
    for length in [0, 1, 2 * SLOTS_LENGTH, 311, 313, 325, 4 * SLOTS_LENGTH] {
        let mut other = queues.clone();
        other.slots.resize(length, 0);
        try_one(&table, &other);
    }
    let all: Vec<u8> = (1..=247).collect();
    let (mut table, queues) = fresh(&all);
    try_one(&table, &queues);
    table.addresses[246] = 1;
    try_one(&table, &queues);
    let too_many: Vec<u8> = (0..=247).collect();
    let (table, queues) = fresh(&too_many);
    try_one(&table, &queues);
    let (table, queues) = fresh(&[]);
    try_one(&table, &queues);
}

fn new_event(id: u8, size: usize) -> Added {
    Added {
        id,
        urgent: 0,
        kind: 4,
        identifier: 0x01D0,
        data: vec![0x5A; size],
    }
}

/// New events for every id, of every size near the limit, urgent in every way,
/// and until the queue is full.
fn new_events(session: &mut Session) {
    let (table, queues) = three();
    let mut bus = Bus::new(session, table.clone(), &queues);
    for id in 0..=255 {
        add(session, &mut bus, &new_event(id, 9));
        add(session, &mut bus, &new_event(id, 0));
    }
    for size in 0..12 {
        let mut bus = Bus::new(session, table.clone(), &queues);
        for id in [10, 20, 30, 40] {
            add(session, &mut bus, &new_event(id, size));
        }
    }
    for urgent in 0..=255 {
        let mut bus = Bus::new(session, table.clone(), &queues);
        let event = new_event(30, 1);
        add(session, &mut bus, &Added { urgent, ..event });
        poll(session, &mut bus, Asked::Poll(asking(0, 7, 0, 0)), ROOM);
    }
    let mut bus = Bus::new(session, table, &queues);
    for size in 0..20 {
        add(session, &mut bus, &new_event(30, size % 9));
    }
}

/// Every minimum, and every confirmation with the flags near the right one.
fn requests(session: &mut Session) {
    let (table, queues) = three();
    for byte in 0..=255 {
        let mut bus = Bus::new(session, table.clone(), &queues);
        for most in [3, 4, 6, 255] {
            poll(
                session,
                &mut bus,
                Asked::Poll(asking(byte, most, 0, 0)),
                ROOM,
            );
        }
        for flag in [0, 1, 2, 3, 0xFF] {
            let mut bus = Bus::new(session, table.clone(), &queues);
            for minimum in [0, 0, 31] {
                let asked = asking(minimum, 255, byte, flag);
                poll(session, &mut bus, Asked::Poll(asked), ROOM);
            }
        }
        let mut bus = Bus::new(session, table.clone(), &queues);
        poll(
            session,
            &mut bus,
            Asked::Poll(asking(0, 255, 10, byte)),
            ROOM,
        );
    }
}

/// Every length asked, of queues with every number of events of every size; each
/// packet is then confirmed, first with the wrong flag.
fn lengths_asked(session: &mut Session) {
    for most in 0..=255 {
        let (table, queues) = three();
        let mut bus = Bus::new(session, table, &queues);
        for flag in [0, 0, 1, 1, 0, 0] {
            for id in [10, 20] {
                let asked = asking(0, most, id, flag);
                poll(session, &mut bus, Asked::Poll(asked), ROOM);
            }
        }
    }
    for count in 1..=MOST_QUEUED {
        for size in 0..=8 {
            let (table, mut queues) = fresh(&[1]);
            for at in 0..count {
                queue(&mut queues, 0, u8::from(at == 7), size);
            }
            for events in 1..=count {
                let exact = events * (4 + size);
                for most in [exact - 1, exact, exact + 1] {
                    let mut bus = Bus::new(session, table.clone(), &queues);
                    for flag in [1, 0, 0, 1] {
                        let frame = written_request(asking(0, most as u8, 1, flag));
                        poll(session, &mut bus, Asked::Offer(&frame), ROOM);
                    }
                }
            }
        }
    }
}

/// Answer buffers near the limit, and raw frames near a request.
fn rooms_and_frames(session: &mut Session) {
    let (table, queues) = three();
    let (mut wrong_table, _) = three();
    wrong_table.marks[0] = 2;
    for table in [table, wrong_table] {
        for room in [0, 1, 115, 116, 117, 200] {
            let mut bus = Bus::new(session, table.clone(), &queues);
            let asked = asking(0, 100, 10, 1);
            poll(session, &mut bus, Asked::Offer(&[]), room);
            poll(session, &mut bus, Asked::Poll(asked), room);
            poll(session, &mut bus, Asked::Offer(&REQUEST), room);
        }
        let right = written_request(asking(0, 100, 10, 1));
        let mut bus = Bus::new(session, table, &queues);
        for_each_neighbour(&right, |frame| {
            poll(session, &mut bus, Asked::Offer(frame), ROOM);
        });
        for_each_neighbour(&right[..7], |body| {
            poll(session, &mut bus, Asked::Offer(&checked(body)), ROOM);
        });
    }
    let (table, queues) = fresh(&[]);
    for room in [115, 116] {
        let mut bus = Bus::new(session, table.clone(), &queues);
        poll(session, &mut bus, Asked::Poll(asking(0, 0, 0, 0)), room);
        poll(session, &mut bus, Asked::Offer(&REQUEST), room);
        poll(session, &mut bus, Asked::Offer(&[]), room);
    }
}
