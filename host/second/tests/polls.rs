//! Event queues, new events and polls: single steps, their edges, and long
//! sequences beside queues kept as lists.

use second::checks::modbus_check;
use second::devices::{resume, start};
use second::events::{event_at, read_events, write_event_request, EventRequest, Events};
use second::queues::{
    add_event, offer_poll, poll, queues_valid, Heard, NewEvent, Polled, Queues, Table, POLL_ROOM,
    SLOTS_LENGTH, SLOT_LENGTH,
};
use second::Refusal;

const NO_EVENTS: [u8; 5] = [0xFD, 0x46, 0x12, 0x52, 0x5D];

/// What stands in an answer buffer and in fresh slots before anything is
/// written there.
const OLD: u8 = 0x77;

fn refusal<T>(number: u8, place: usize) -> Result<T, Refusal> {
    Err(Refusal::at(number, place))
}

fn with_fill(fill: usize, frame: &[u8]) -> Vec<u8> {
    let mut input = vec![0xFF; fill];
    input.extend(frame);
    input
}

fn asking(minimum: u8, most: u8, confirmed: u8, flag: u8) -> EventRequest {
    EventRequest {
        minimum,
        most,
        confirmed,
        flag,
    }
}

fn packet(sender: u8, flag: u8, events: u8) -> Heard {
    Heard::Packet {
        sender,
        flag,
        events,
    }
}

/// All columns of the devices on a bus, and the buffer of the last answer.
#[derive(Clone, Debug, PartialEq)]
struct Bus {
    serials: Vec<u32>,
    ids: Vec<u8>,
    marks: Vec<u8>,
    flags: Vec<u8>,
    lasts: Vec<u8>,
    counts: Vec<u8>,
    slots: Vec<u8>,
    answer: Vec<u8>,
}

impl Bus {
    /// Fresh devices with these ids.
    fn of(ids: &[u8]) -> Self {
        let devices = ids.len();
        Bus {
            serials: (1..).take(devices).collect(),
            ids: ids.to_vec(),
            marks: vec![0; devices],
            flags: vec![0; devices],
            lasts: vec![0; devices],
            counts: vec![0; devices],
            slots: vec![OLD; devices * SLOTS_LENGTH],
            answer: vec![OLD; POLL_ROOM],
        }
    }

    fn lent(&mut self) -> (Table<'_>, Queues<'_>, &mut [u8]) {
        let table = Table {
            serials: &self.serials,
            addresses: &self.ids,
            marks: &self.marks,
        };
        let queues = Queues {
            flags: &mut self.flags,
            lasts: &mut self.lasts,
            counts: &mut self.counts,
            slots: &mut self.slots,
        };
        (table, queues, &mut self.answer)
    }

    fn valid(&mut self) -> bool {
        let (table, queues, _) = self.lent();
        queues_valid(table, &queues)
    }

    fn add(&mut self, id: u8, urgent: bool, identifier: u16, data: &[u8]) -> Result<(), Refusal> {
        let event = NewEvent {
            urgent,
            kind: 4,
            identifier,
            data,
        };
        let (table, mut queues, _) = self.lent();
        add_event(table, &mut queues, id, event)
    }

    fn poll(&mut self, request: EventRequest) -> Result<Polled, Refusal> {
        let (table, mut queues, answer) = self.lent();
        poll(request, table, &mut queues, answer)
    }

    /// What a poll that is not refused brings about.
    fn heard(&mut self, request: EventRequest) -> Heard {
        self.poll(request).unwrap().heard
    }

    fn offer(&mut self, frame: &[u8]) -> Result<Polled, Refusal> {
        let (table, mut queues, answer) = self.lent();
        offer_poll(frame, table, &mut queues, answer)
    }

    fn slot(&self, device: usize, slot: usize) -> &[u8] {
        &self.slots[device * SLOTS_LENGTH + slot * SLOT_LENGTH..][..SLOT_LENGTH]
    }
}

#[test]
fn new_events_stand_behind_those_queued() {
    let mut bus = Bus::of(&[9, 5]);
    assert_eq!(bus.add(5, false, 0x01D0, &[4, 0]), Ok(()));
    assert_eq!(bus.add(5, true, 0xFFFE, &[1, 2, 3, 4, 5, 6, 7, 8]), Ok(()));
    assert_eq!(bus.add(5, true, 3, &[]), Ok(()));
    assert_eq!(bus.counts, [0, 3]);
    let first = [0, 2, 4, 0x01, 0xD0, 4, 0, OLD, OLD, OLD, OLD, OLD, OLD];
    assert_eq!(bus.slot(1, 0), first);
    let second = [1, 8, 4, 0xFF, 0xFE, 1, 2, 3, 4, 5, 6, 7, 8];
    assert_eq!(bus.slot(1, 1), second);
    assert_eq!(bus.slot(1, 2)[..5], [1, 0, 4, 0, 3]);
    // All else stays.
    assert_eq!(bus.slot(1, 2)[5..], [OLD; 8]);
    assert_eq!(bus.slot(1, 3), [OLD; 13]);
    assert_eq!(bus.slots[..SLOTS_LENGTH], [OLD; SLOTS_LENGTH]);
    assert_eq!((bus.flags, bus.lasts), (vec![0, 0], vec![0, 0]));
}

#[test]
fn new_events_that_are_refused() {
    let mut bus = Bus::of(&[9, 5]);
    for _ in 0..8 {
        assert_eq!(bus.add(9, false, 1, &[0; 8]), Ok(()));
    }
    let before = bus.clone();
    assert_eq!(bus.add(9, false, 1, &[0; 8]), refusal(18, 0));
    assert_eq!(bus.add(9, false, 1, &[]), refusal(18, 0));
    assert_eq!(bus.add(9, false, 1, &[0; 9]), refusal(13, 0));
    assert_eq!(bus.add(5, false, 1, &[0; 9]), refusal(13, 0));
    for id in [0, 4, 6, 8, 10, 247, 248, 255] {
        assert_eq!(bus.add(id, false, 1, &[]), refusal(13, 0));
    }
    assert_eq!(bus, before);
    bus.marks[1] = 2;
    let before = bus.clone();
    assert_eq!(bus.add(9, false, 1, &[]), refusal(2, 0));
    assert_eq!(bus.add(4, false, 1, &[0; 9]), refusal(2, 0));
    assert_eq!(bus, before);
    let mut nobody = Bus::of(&[]);
    assert_eq!(nobody.add(1, false, 1, &[]), refusal(13, 0));
}

/// Whether a bus of devices 1, 247 and 9, the last with two events, both in its
/// last packet, stays valid with this change.
fn valid_with(change: impl FnOnce(&mut Bus)) -> bool {
    let mut bus = Bus::of(&[1, 247, 9]);
    bus.add(9, false, 1, &[0; 8]).unwrap();
    bus.add(9, true, 1, &[]).unwrap();
    bus.lasts[2] = 2;
    assert!(bus.valid());
    change(&mut bus);
    let valid = bus.valid();
    let before = bus.clone();
    let polled = bus.poll(asking(0, 100, 9, 0));
    assert_eq!(polled == refusal(2, 0), !valid);
    assert!(valid || bus == before);
    valid
}

#[test]
fn tables_and_queues_at_their_edges() {
    assert!(valid_with(|_| ()));
    // The device table.
    assert!(!valid_with(|bus| bus.serials[0] = 2));
    assert!(valid_with(|bus| bus.serials[0] = 0x0FFF_FFFF));
    assert!(!valid_with(|bus| bus.serials[0] = 0x1000_0000));
    assert!(valid_with(|bus| bus.marks[1] = 1));
    assert!(!valid_with(|bus| bus.marks[1] = 2));
    assert!(!valid_with(|bus| bus.serials.push(7)));
    assert!(!valid_with(|bus| bus.ids.push(7)));
    assert!(!valid_with(|bus| bus.marks.push(0)));
    // Ids.
    assert!(!valid_with(|bus| bus.ids[0] = 0));
    assert!(!valid_with(|bus| bus.ids[0] = 247));
    assert!(!valid_with(|bus| bus.ids[0] = 9));
    assert!(!valid_with(|bus| bus.ids[1] = 248));
    assert!(!valid_with(|bus| bus.ids[1] = 255));
    assert!(valid_with(|bus| bus.ids[1] = 246));
    // Columns.
    assert!(!valid_with(|bus| bus.flags.push(0)));
    assert!(!valid_with(|bus| bus.lasts.push(0)));
    assert!(!valid_with(|bus| bus.counts.push(0)));
    assert!(!valid_with(|bus| bus.slots.push(0)));
    assert!(!valid_with(|bus| bus.slots.extend([0; SLOTS_LENGTH])));
    assert!(!valid_with(|bus| bus.flags.truncate(2)));
    assert!(!valid_with(|bus| bus.lasts.truncate(2)));
    assert!(!valid_with(|bus| bus.counts.truncate(2)));
    assert!(!valid_with(|bus| bus.slots.truncate(3 * SLOTS_LENGTH - 1)));
    assert!(!valid_with(|bus| bus.slots.truncate(2 * SLOTS_LENGTH)));
    // What is stored of a device.
    assert!(valid_with(|bus| bus.flags[0] = 1));
    assert!(!valid_with(|bus| bus.flags[0] = 2));
    assert!(!valid_with(|bus| bus.lasts[2] = 3));
    assert!(valid_with(|bus| bus.lasts[2] = 1));
    assert!(!valid_with(|bus| bus.lasts[0] = 1));
    assert!(!valid_with(|bus| bus.counts[2] = 1));
    // Queued events: urgent or normal, at most 8 data bytes.
    let third = 2 * SLOTS_LENGTH;
    assert!(valid_with(|bus| bus.slots[third] = 1));
    assert!(!valid_with(|bus| bus.slots[third] = 2));
    assert!(!valid_with(|bus| bus.slots[third + 1] = 9));
    assert!(!valid_with(|bus| bus.slots[third + 13] = 2));
    assert!(valid_with(|bus| bus.slots[third + 14] = 8));
    assert!(!valid_with(|bus| bus.slots[third + 14] = 9));
    // The slot behind them, and what stands in other devices' slots, is not
    // looked at; once it counts as queued it is.
    assert!(valid_with(|bus| bus.slots[third + 26..].fill(0xFF)));
    assert!(valid_with(|bus| bus.slots[..third].fill(0xFF)));
    assert!(!valid_with(|bus| bus.counts[2] = 3));
    let queued = |count| {
        valid_with(|bus| {
            bus.slots[third..].fill(0);
            bus.counts[2] = count;
        })
    };
    assert!(queued(8));
    assert!(!queued(9));
    assert!(!queued(255));
}

#[test]
fn empty_tables_and_full_ones() {
    let mut nobody = Bus::of(&[]);
    assert!(nobody.valid());
    let before = nobody.clone();
    let silence = Polled {
        heard: Heard::Silence,
        length: 0,
        skipped: 0,
    };
    assert_eq!(nobody.poll(asking(0, 255, 0, 0)), Ok(silence));
    assert_eq!(nobody, before);
    // A table with one column empty is no empty table.
    nobody.slots.push(0);
    assert_eq!(nobody.poll(asking(0, 255, 0, 0)), refusal(2, 0));
    nobody.slots.clear();
    nobody.counts.push(0);
    assert_eq!(nobody.poll(asking(0, 255, 0, 0)), refusal(2, 0));

    let ids: Vec<u8> = (1..=247).rev().collect();
    let mut all = Bus::of(&ids);
    assert!(all.valid());
    let nothing = Heard::NoEvents { sender: 1 };
    assert_eq!(all.heard(asking(0, 255, 0, 0)), nothing);
    let last = Heard::NoEvents { sender: 247 };
    assert_eq!(all.heard(asking(247, 255, 0, 0)), last);
    assert_eq!(all.heard(asking(248, 255, 0, 0)), Heard::Silence);
    all.ids[0] = 1;
    assert!(!all.valid());
}

#[test]
fn the_packet_that_document_000_prints() {
    // Its flag is 1, so an earlier packet was confirmed.
    let mut bus = Bus::of(&[5]);
    bus.flags[0] = 1;
    bus.add(5, false, 0x01D0, &[4, 0]).unwrap();
    let polled = Polled {
        heard: packet(5, 1, 1),
        length: 9 + 14,
        skipped: 9,
    };
    assert_eq!(bus.poll(asking(0, 100, 0x0A, 1)), Ok(polled));
    let frame = [
        0x05, 0x46, 0x11, 0x01, 0x01, 0x06, 0x02, 0x04, 0x01, 0xD0, 0x04, 0x00, 0x2B, 0xAC,
    ];
    // The key 0001 0000 0101 has nine zeros.
    assert_eq!(bus.answer[..23], with_fill(9, &frame));
    assert_eq!(bus.answer[23..], [OLD; 93]);
    assert_eq!((bus.lasts[0], bus.counts[0], bus.flags[0]), (1, 1, 1));
}

#[test]
fn printed_request_and_no_events() {
    let request = [0xFD, 0x46, 0x10, 0x00, 0x64, 0x0A, 0x01, 0x7E, 0x15];
    let mut bus = Bus::of(&[0x0A]);
    bus.flags[0] = 1;
    bus.add(0x0A, true, 1, &[]).unwrap();
    bus.lasts[0] = 1;
    let polled = Polled {
        heard: Heard::NoEvents { sender: 0x0A },
        length: 6 + 5,
        skipped: 6,
    };
    assert_eq!(bus.offer(&request), Ok(polled));
    assert_eq!(bus.answer[..11], with_fill(6, &NO_EVENTS));
    assert_eq!(bus.answer[11..], [OLD; 105]);
    assert_eq!((bus.lasts[0], bus.counts[0], bus.flags[0]), (0, 0, 0));
}

#[test]
fn most_and_fewest_fill() {
    let fill = |id: u8, urgent: Option<bool>| {
        let mut bus = Bus::of(&[id]);
        if let Some(urgent) = urgent {
            bus.add(id, urgent, 0, &[]).unwrap();
        }
        let polled = bus.poll(asking(0, 4, 0, 0)).unwrap();
        let length = polled.length;
        assert_eq!(bus.answer[length..], vec![OLD; POLL_ROOM - length]);
        // The frame is a packet of one event without data, or 0x12.
        let frame = if urgent.is_some() { 12 } else { 5 };
        assert_eq!(polled.skipped + frame, length);
        polled.skipped
    };
    assert_eq!(fill(1, Some(true)), 11);
    assert_eq!(fill(1, Some(false)), 10);
    assert_eq!(fill(1, None), 7);
    assert_eq!(fill(247, Some(true)), 5);
    assert_eq!(fill(247, Some(false)), 4);
    assert_eq!(fill(247, None), 1);
    assert_eq!(fill(127, None), 1);
    assert_eq!(fill(128, None), 7);
}

#[test]
fn polls_count_the_fill_of_their_answer() {
    let mut bus = Bus::of(&[200, 5, 100]);
    let polled = |heard, skipped, frame| {
        Ok(Polled {
            heard,
            length: skipped + frame,
            skipped,
        })
    };
    let silence = || polled(Heard::Silence, 0, 0);
    // Nothing is queued: 1111 0000 0101, 1111 0110 0100 and 1111 1100 1000.
    let none = |sender| Heard::NoEvents { sender };
    assert_eq!(bus.poll(asking(0, 9, 0, 0)), polled(none(5), 6, 5));
    assert_eq!(bus.poll(asking(6, 9, 0, 0)), polled(none(100), 5, 5));
    assert_eq!(bus.poll(asking(101, 9, 0, 0)), polled(none(200), 5, 5));
    assert_eq!(bus.poll(asking(201, 9, 0, 0)), silence());
    // Normal: 0001 1100 1000 with two events, of 4 and 5 bytes on the wire.
    bus.add(200, false, 1, &[]).unwrap();
    bus.add(200, false, 2, &[0xFF]).unwrap();
    let answer = polled(packet(200, 0, 2), 8, 6 + 9 + 2);
    assert_eq!(bus.poll(asking(0, 9, 0, 0)), answer);
    // A shorter packet begins with as many.
    let answer = polled(packet(200, 0, 1), 8, 6 + 4 + 2);
    assert_eq!(bus.poll(asking(0, 8, 0, 0)), answer);
    // Urgent: 0000 0110 0100, with an event of FF that are no fill.
    bus.add(100, true, 0xFFFF, &[0xFF; 8]).unwrap();
    let answer = polled(packet(100, 0, 1), 9, 6 + 12 + 2);
    assert_eq!(bus.poll(asking(0, 12, 0, 0)), answer);
    // It sits out: the others' keys alone count.
    let answer = polled(packet(200, 0, 2), 8, 6 + 9 + 2);
    assert_eq!(bus.poll(asking(0, 11, 0, 0)), answer);
    assert_eq!(bus.poll(asking(0, 3, 0, 0)), polled(none(5), 6, 5));
    // Silence, whether nobody may answer or all who may sit out.
    assert_eq!(bus.poll(asking(100, 3, 0, 0)), silence());
    assert_eq!(bus.poll(asking(255, 255, 0, 0)), silence());
    // What is confirmed is gone before the contest: 1111 0110 0100 is left
    // beside 0001 1100 1000.
    let answer = polled(packet(200, 0, 2), 8, 6 + 9 + 2);
    assert_eq!(bus.poll(asking(6, 12, 100, 0)), answer);
    assert_eq!(bus.poll(asking(6, 12, 200, 0)), polled(none(100), 5, 5));
}

#[test]
fn offered_polls_count_as_polls_do() {
    // 0001 0000 0011 has nine zeros, 1111 0000 0011 six.
    let mut bus = Bus::of(&[3]);
    bus.add(3, false, 7, &[1]).unwrap();
    let skipped = |bus: &mut Bus, request| {
        let mut frame = [0; 9];
        write_event_request(request, &mut frame).unwrap();
        bus.offer(&frame).unwrap().skipped
    };
    assert_eq!(skipped(&mut bus, asking(0, 5, 0, 0)), 9);
    assert_eq!(skipped(&mut bus, asking(4, 5, 0, 0)), 0);
    assert_eq!(skipped(&mut bus, asking(0, 5, 3, 0)), 6);
    // A request is read with nothing passed over.
    let mut frame = [0; 9];
    write_event_request(asking(0, 5, 0, 0), &mut frame).unwrap();
    for fill in [1, 32, 33, 34] {
        assert_eq!(bus.offer(&with_fill(fill, &frame)), refusal(14, 0));
    }
}

#[test]
fn the_longest_answer() {
    let mut bus = Bus::of(&[1]);
    for identifier in 0..8 {
        bus.add(1, true, identifier, &[0xFF; 8]).unwrap();
    }
    for most in [96, 97, 255] {
        let polled = Polled {
            heard: packet(1, 0, 8),
            length: 11 + 6 + 96 + 2,
            skipped: 11,
        };
        assert_eq!(bus.poll(asking(0, most, 0, 0)), Ok(polled));
        assert_eq!(bus.answer[115], OLD);
    }
    assert_eq!(bus.heard(asking(0, 95, 0, 0)), packet(1, 0, 7));
}

#[test]
fn answers_need_116_bytes_before_all_else() {
    let mut bus = Bus::of(&[1]);
    bus.add(1, true, 1, &[]).unwrap();
    bus.lasts[0] = 1;
    bus.marks[0] = 2;
    for (room, number) in [(0, 1), (115, 1), (116, 2), (117, 2)] {
        bus.answer = vec![OLD; room];
        let before = bus.clone();
        assert_eq!(bus.poll(asking(0, 100, 1, 0)), refusal(number, 0));
        assert_eq!(bus.offer(&[]), refusal(number, 0));
        assert_eq!(bus, before);
    }
    bus.marks[0] = 1;
    bus.answer = vec![OLD; 115];
    let before = bus.clone();
    assert_eq!(bus.poll(asking(0, 100, 1, 0)), refusal(1, 0));
    assert_eq!(bus, before);
    let mut nobody = Bus::of(&[]);
    nobody.answer.pop();
    assert_eq!(nobody.poll(asking(0, 0, 0, 0)), refusal(1, 0));
    assert_eq!(nobody.offer(&[]), refusal(1, 0));
}

#[test]
fn offered_frames_are_the_poll_that_they_name() {
    let mut bus = Bus::of(&[3, 2]);
    bus.add(3, false, 7, &[1]).unwrap();
    bus.add(2, false, 8, &[2]).unwrap();
    let mut frame = [0; 9];
    write_event_request(asking(0, 5, 2, 0), &mut frame).unwrap();
    let before = bus.clone();
    for (frame, number, place) in [
        (with_fill(1, &frame), 14, 0),
        (vec![0xFD, 0x47, 0x10, 0, 0], 14, 1),
        (vec![0xFD, 0x46, 0x01, 0x13, 0x90], 15, 2),
        (NO_EVENTS.to_vec(), 15, 2),
        (frame[..8].to_vec(), 13, 0),
        (frame[..4].to_vec(), 13, 0),
        ([&frame[..], &[0]].concat(), 13, 0),
        ([&frame[..8], &[!frame[8]]].concat(), 16, 7),
    ] {
        assert_eq!(bus.offer(&frame), refusal(number, place));
        assert_eq!(bus, before);
    }
    let mut other = bus.clone();
    assert_eq!(bus.offer(&frame), other.poll(asking(0, 5, 2, 0)));
    assert_eq!(bus, other);
    assert_eq!(bus.lasts, [0, 1]);
    assert_eq!(bus.offer(&frame), other.poll(asking(0, 5, 2, 0)));
    assert_eq!(bus, other);
    assert_eq!((&bus.flags, &bus.counts), (&vec![0, 1], &vec![1, 0]));
}

#[test]
fn the_smallest_key_answers() {
    let mut bus = Bus::of(&[200, 3, 100]);
    let none = Heard::NoEvents { sender: 3 };
    assert_eq!(bus.heard(asking(0, 255, 0, 0)), none);
    bus.add(200, false, 1, &[]).unwrap();
    assert_eq!(bus.heard(asking(0, 255, 0, 0)), packet(200, 0, 1));
    bus.add(100, false, 1, &[]).unwrap();
    assert_eq!(bus.heard(asking(0, 255, 0, 0)), packet(100, 0, 1));
    assert_eq!(bus.heard(asking(101, 255, 0, 0)), packet(200, 0, 1));
    // Urgent if any queued event is, also the last one.
    bus.add(200, true, 1, &[]).unwrap();
    assert_eq!(bus.heard(asking(0, 255, 0, 0)), packet(200, 0, 2));
    // Only one of both fits now; it is the normal one.
    assert_eq!(bus.heard(asking(0, 7, 0, 0)), packet(200, 0, 1));
    assert_eq!(bus.lasts, [1, 0, 1]);
    assert_eq!(bus.heard(asking(200, 255, 0, 0)), packet(200, 0, 2));
    assert_eq!(bus.heard(asking(201, 255, 0, 0)), Heard::Silence);
    // Once it is confirmed, the other two are left.
    assert_eq!(bus.heard(asking(0, 255, 200, 0)), packet(100, 0, 1));
    assert_eq!(bus.heard(asking(0, 255, 100, 0)), none);
    assert_eq!(bus.flags, [1, 0, 1]);
}

#[test]
fn devices_sit_out_what_does_not_fit() {
    let mut bus = Bus::of(&[7, 8]);
    bus.add(7, true, 1, &[1, 2, 3]).unwrap();
    assert_eq!(bus.heard(asking(0, 7, 0, 0)), packet(7, 0, 1));
    let none = Heard::NoEvents { sender: 8 };
    assert_eq!(bus.heard(asking(0, 6, 0, 0)), none);
    assert_eq!(bus.heard(asking(0, 0, 0, 0)), none);
    bus.add(8, false, 1, &[]).unwrap();
    assert_eq!(bus.heard(asking(0, 6, 0, 0)), packet(8, 0, 1));
    assert_eq!(bus.heard(asking(0, 4, 0, 0)), packet(8, 0, 1));
    // A last packet stays where a device sits out, and where all do.
    assert_eq!(bus.lasts, [1, 1]);
    bus.answer.fill(OLD);
    let silence = Polled {
        heard: Heard::Silence,
        length: 0,
        skipped: 0,
    };
    assert_eq!(bus.poll(asking(0, 3, 0, 0)), Ok(silence));
    assert_eq!(bus.answer, [OLD; POLL_ROOM]);
    assert_eq!(bus.lasts, [1, 1]);
    // Only the oldest decides, not a later one that would fit.
    bus.add(7, true, 2, &[]).unwrap();
    assert_eq!(bus.heard(asking(0, 6, 0, 0)), packet(8, 0, 1));
}

#[test]
fn packets_take_the_oldest_that_fit() {
    let mut bus = Bus::of(&[6]);
    for (identifier, size) in [(1, 0), (2, 8), (3, 0)] {
        bus.add(6, false, identifier, &[0x11; 8][..size]).unwrap();
    }
    for (most, events) in [(4, 1), (15, 1), (16, 2), (19, 2), (20, 3), (255, 3)] {
        let polled = bus.poll(asking(0, most, 0, 0)).unwrap();
        assert_eq!(polled.heard, packet(6, 0, events));
        assert_eq!(bus.lasts, [events]);
        // The key 0001 0000 0110 has nine zeros.
        let (skipped, read) = read_events(&bus.answer[..polled.length]).unwrap();
        assert_eq!((polled.skipped, skipped), (9, 9));
        let Events::Packet {
            queued,
            listed,
            mut first,
            ..
        } = read
        else {
            panic!("{read:?}");
        };
        // All that are queued are counted, also those not sent.
        assert_eq!((queued, listed), (3, usize::from(events)));
        for identifier in 1..=u16::from(events) {
            let event = event_at(&bus.answer, first).unwrap();
            assert_eq!((event.kind, event.identifier), (4, identifier));
            first = event.next;
        }
        assert_eq!(first + 2, polled.length);
    }
}

#[test]
fn confirmation_drops_a_packet_once() {
    let mut bus = Bus::of(&[6]);
    for identifier in 1..=3 {
        bus.add(6, false, identifier, &[]).unwrap();
    }
    // Nothing sent yet: nothing to confirm.
    assert_eq!(bus.heard(asking(0, 4, 6, 0)), packet(6, 0, 1));
    assert_eq!((bus.counts[0], bus.lasts[0], bus.flags[0]), (3, 1, 0));
    // The wrong flag, one that no packet has, and another device.
    for (id, flag) in [(6, 1), (6, 2), (6, 255), (5, 0), (0, 0)] {
        assert_eq!(bus.heard(asking(0, 4, id, flag)), packet(6, 0, 1));
        assert_eq!((bus.counts[0], bus.lasts[0], bus.flags[0]), (3, 1, 0));
    }
    // As many come again as fit now, and these are then the last packet.
    assert_eq!(bus.heard(asking(0, 8, 6, 1)), packet(6, 0, 2));
    assert_eq!(bus.heard(asking(0, 4, 6, 0)), packet(6, 1, 1));
    assert_eq!((bus.counts[0], bus.lasts[0], bus.flags[0]), (1, 1, 1));
    assert_eq!(bus.slot(0, 0)[..5], [0, 0, 4, 0, 3]);
    // The same confirmation again is of no packet.
    assert_eq!(bus.heard(asking(0, 4, 6, 0)), packet(6, 1, 1));
    assert_eq!((bus.counts[0], bus.lasts[0], bus.flags[0]), (1, 1, 1));
    let none = Heard::NoEvents { sender: 6 };
    assert_eq!(bus.heard(asking(0, 4, 6, 1)), none);
    assert_eq!((bus.counts[0], bus.lasts[0], bus.flags[0]), (0, 0, 0));
    // With nothing sent since, no flag confirms anything.
    assert_eq!(bus.heard(asking(0, 4, 6, 0)), none);
    assert_eq!((bus.counts[0], bus.lasts[0], bus.flags[0]), (0, 0, 0));
}

#[test]
fn confirmation_reaches_every_device() {
    let mut bus = Bus::of(&[6, 60]);
    bus.add(6, true, 1, &[]).unwrap();
    bus.add(60, false, 1, &[]).unwrap();
    assert_eq!(bus.heard(asking(0, 4, 0, 0)), packet(6, 0, 1));
    // Below the minimum.
    assert_eq!(bus.heard(asking(7, 4, 6, 0)), packet(60, 0, 1));
    assert_eq!((&bus.counts, &bus.flags), (&vec![0, 1], &vec![1, 0]));
    // Before silence.
    assert_eq!(bus.heard(asking(61, 4, 60, 0)), Heard::Silence);
    assert_eq!((&bus.counts, &bus.flags), (&vec![0, 0], &vec![1, 1]));
    // Of a device that sits out: its next packet is another one.
    bus.add(6, true, 1, &[]).unwrap();
    bus.add(6, true, 2, &[1]).unwrap();
    assert_eq!(bus.heard(asking(0, 4, 0, 0)), packet(6, 1, 1));
    let none = Heard::NoEvents { sender: 60 };
    assert_eq!(bus.heard(asking(0, 4, 6, 1)), none);
    assert_eq!(bus.heard(asking(0, 5, 6, 1)), packet(6, 0, 1));
}

#[test]
fn confirmation_moves_all_slots_behind_those_dropped() {
    let mut bus = Bus::of(&[5, 6]);
    bus.slots = (0..).take(2 * SLOTS_LENGTH).collect();
    for identifier in 1..=3 {
        bus.add(6, false, identifier, &[]).unwrap();
    }
    let before = bus.slots.clone();
    assert_eq!(bus.heard(asking(6, 8, 0, 0)), packet(6, 0, 2));
    assert_eq!(bus.slots, before);
    assert_eq!(bus.heard(asking(7, 8, 6, 0)), Heard::Silence);
    // What stands behind the last event moves too, and the last bytes stay.
    let (first, dropped) = (SLOTS_LENGTH, 2 * SLOT_LENGTH);
    let moved = &before[first + dropped..];
    let kept = &before[2 * SLOTS_LENGTH - dropped..];
    assert_eq!(bus.slots, [&before[..first], moved, kept].concat());
}

#[test]
fn room_freed_by_confirmation_is_used_again() {
    let mut bus = Bus::of(&[6]);
    for identifier in 0..8 {
        bus.add(6, false, identifier, &[identifier as u8]).unwrap();
    }
    assert_eq!(bus.heard(asking(0, 15, 0, 0)), packet(6, 0, 3));
    // Sending alone frees nothing.
    assert_eq!(bus.add(6, false, 8, &[]), refusal(18, 0));
    assert_eq!(bus.heard(asking(7, 15, 6, 0)), Heard::Silence);
    for identifier in 8..11 {
        assert_eq!(bus.add(6, false, identifier, &[identifier as u8]), Ok(()));
    }
    assert_eq!(bus.add(6, false, 11, &[]), refusal(18, 0));
    for (slot, identifier) in (3..11).enumerate() {
        let expected = [0, 1, 4, 0, identifier, identifier];
        assert_eq!(bus.slot(0, slot)[..6], expected);
    }
    // A new event behind a last packet is no part of it.
    assert_eq!(bus.heard(asking(0, 15, 6, 0)), packet(6, 1, 3));
    assert_eq!(bus.heard(asking(7, 15, 6, 1)), Heard::Silence);
    bus.add(6, true, 11, &[]).unwrap();
    assert_eq!(bus.counts, [6]);
}

#[test]
fn scans_stay_as_they_are() {
    let mut bus = Bus::of(&[6, 5]);
    bus.add(6, true, 1, &[]).unwrap();
    bus.heard(asking(0, 4, 0, 0));
    let before = bus.clone();
    start(&bus.serials, &bus.ids, &mut bus.marks, &mut bus.answer).unwrap();
    resume(&bus.serials, &bus.ids, &mut bus.marks, &mut bus.answer).unwrap();
    assert_eq!(bus.marks, [1, 1]);
    assert_eq!((&bus.flags, &bus.lasts), (&before.flags, &before.lasts));
    assert_eq!((&bus.counts, &bus.slots), (&before.counts, &before.slots));
    // Marks make no difference to a poll, and it leaves them.
    assert_eq!(bus.heard(asking(0, 4, 0, 0)), packet(6, 0, 1));
    assert_eq!(bus.marks, [1, 1]);
}

/// An event as a list keeps it: urgent, type, identifier, data.
type Listed = (bool, u8, u16, Vec<u8>);

/// A device whose queue is a list.
#[derive(Clone, Default)]
struct Device {
    id: u8,
    flag: u8,
    last: usize,
    queue: Vec<Listed>,
}

/// The bytes of an event on the wire.
fn on_the_wire(event: &Listed) -> Vec<u8> {
    let (_, kind, identifier, data) = event;
    let [high, low] = identifier.to_be_bytes();
    [&[data.len() as u8, *kind, high, low], &data[..]].concat()
}

/// A poll of such devices, the contest walked window by window: the answer.
fn walk(devices: &mut [Device], request: EventRequest) -> Vec<u8> {
    for device in devices.iter_mut() {
        let named = device.id == request.confirmed && device.flag == request.flag;
        if named && device.last > 0 {
            device.queue.drain(..device.last);
            device.last = 0;
            device.flag = 1 - device.flag;
        }
    }
    let most = usize::from(request.most);
    let mut contest: Vec<&mut Device> = devices
        .iter_mut()
        .filter(|device| device.id >= request.minimum)
        .filter(|device| {
            let mut oldest = device.queue.iter().take(1);
            oldest.all(|event| on_the_wire(event).len() <= most)
        })
        .collect();
    let key = |device: &Device| {
        let marker = match &device.queue[..] {
            [] => 15,
            queue if queue.iter().any(|event| event.0) => 0,
            _ => 1,
        };
        marker << 8 | u32::from(device.id)
    };
    let mut answer = Vec::new();
    for window in (0..12).rev() {
        let zero = |device: &Device| key(device) >> window & 1 == 0;
        if contest.iter().any(|device| zero(device)) {
            answer.push(0xFF);
            contest.retain(|device| zero(device));
        }
    }
    let Some(winner) = contest.pop() else {
        return answer;
    };
    assert!(contest.is_empty());
    if winner.queue.is_empty() {
        answer.extend(NO_EVENTS);
        return answer;
    }
    let mut events = Vec::new();
    winner.last = 0;
    for event in &winner.queue {
        let event = on_the_wire(event);
        if events.len() + event.len() > most {
            break;
        }
        events.extend(event);
        winner.last += 1;
    }
    let queued = winner.queue.len() as u8;
    let head = [
        winner.id,
        0x46,
        0x11,
        winner.flag,
        queued,
        events.len() as u8,
    ];
    let frame = [&head[..], &events].concat();
    answer.extend(&frame);
    answer.extend(modbus_check(&frame).to_le_bytes());
    answer
}

/// A simple generator of numbers below a bound.
struct Numbers(u64);

impl Numbers {
    fn below(&mut self, bound: u32) -> u32 {
        self.0 = self.0.wrapping_mul(6_364_136_223_846_793_005);
        self.0 = self.0.wrapping_add(1_442_695_040_888_963_407);
        ((self.0 >> 33) % u64::from(bound)) as u32
    }
}

#[test]
fn long_sequences_agree_with_lists() {
    for seed in 0..60 {
        let mut numbers = Numbers(seed);
        let range = [4, 9, 247][seed as usize % 3];
        let mut ids: Vec<u8> = (1..=247).collect();
        for at in 0..range {
            let other = at + numbers.below(range as u32 - at as u32) as usize;
            ids.swap(at, other);
        }
        ids.truncate(1 + numbers.below(range as u32) as usize);
        let mut bus = Bus::of(&ids);
        let mut devices: Vec<Device> = ids
            .iter()
            .map(|&id| Device {
                id,
                ..Device::default()
            })
            .collect();
        for _ in 0..1500 {
            let id = numbers.below(range as u32 + 2) as u8;
            if numbers.below(5) < 2 {
                let size = numbers.below(10) as usize;
                let data: Vec<u8> = (0..size).map(|_| numbers.below(256) as u8).collect();
                let urgent = numbers.below(6) == 0;
                let identifier = numbers.below(65_536) as u16;
                let added = bus.add(id, urgent, identifier, &data);
                let found = devices.iter_mut().find(|device| device.id == id);
                let expected = match found {
                    Some(device) if size <= 8 && device.queue.len() < 8 => {
                        device.queue.push((urgent, 4, identifier, data));
                        Ok(())
                    }
                    Some(_) if size <= 8 => refusal(18, 0),
                    _ => refusal(13, 0),
                };
                assert_eq!(added, expected);
            } else {
                let minimum = if numbers.below(3) == 0 { id } else { 0 };
                let confirmed = numbers.below(range as u32 + 2) as u8;
                let lengths = [20, 256][numbers.below(2) as usize];
                let most = numbers.below(lengths);
                let request = asking(minimum, most as u8, confirmed, numbers.below(3) as u8);
                bus.answer.fill(OLD);
                let polled = bus.poll(request).unwrap();
                let answer = walk(&mut devices, request);
                assert_eq!(bus.answer[..polled.length], answer);
                let fill = answer.iter().take_while(|&&byte| byte == 0xFF).count();
                assert_eq!(polled.skipped, fill);
                match read_events(&answer) {
                    Ok((skipped, _)) => assert_eq!(skipped, fill),
                    refused => {
                        assert_eq!(polled.heard, Heard::Silence);
                        assert_eq!(refused, refusal(13, 0));
                    }
                }
                assert!(bus.answer[answer.len()..].iter().all(|&byte| byte == OLD));
            }
            for (at, device) in devices.iter().enumerate() {
                assert_eq!(bus.flags[at], device.flag);
                assert_eq!(usize::from(bus.lasts[at]), device.last);
                assert_eq!(usize::from(bus.counts[at]), device.queue.len());
                for (slot, event) in device.queue.iter().enumerate() {
                    let wire = on_the_wire(event);
                    assert_eq!(bus.slot(at, slot)[0], u8::from(event.0));
                    assert_eq!(bus.slot(at, slot)[1..][..wire.len()], wire);
                }
            }
        }
    }
}
