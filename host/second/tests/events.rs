//! Event frames: those that document 000 prints, and their edges.

use second::checks::modbus_check;
use second::events::{
    event_at, read_event_request, read_events, write_event_request, write_no_events, Event,
    EventRequest, Events,
};
use second::frames::{read_answer, read_request};
use second::Refusal;

/// "Without a `server_id` limit, with an event field length of 100 bytes: the
/// previous event packet was received from device 0A with bit 1."
const REQUEST: [u8; 9] = [0xFD, 0x46, 0x10, 0x00, 0x64, 0x0A, 0x01, 0x7E, 0x15];
/// Device 5: input register 01D0 has the new value 4.
const PACKET: [u8; 14] = [
    0x05, 0x46, 0x11, 0x01, 0x01, 0x06, 0x02, 0x04, 0x01, 0xD0, 0x04, 0x00, 0x2B, 0xAC,
];
const NO_EVENTS: [u8; 5] = [0xFD, 0x46, 0x12, 0x52, 0x5D];

const ASKED: EventRequest = EventRequest {
    minimum: 0,
    most: 100,
    confirmed: 0x0A,
    flag: 1,
};

fn refusal<T>(number: u8, place: usize) -> Result<T, Refusal> {
    Err(Refusal::at(number, place))
}

fn with_fill(fill: usize, frame: &[u8]) -> Vec<u8> {
    let mut input = vec![0xFF; fill];
    input.extend(frame);
    input
}

/// The frame with one byte changed.
fn changed(frame: &[u8], at: usize) -> Vec<u8> {
    let mut frame = frame.to_vec();
    frame[at] ^= 0x40;
    frame
}

/// The bytes with their check behind them.
fn checked(bytes: &[u8]) -> Vec<u8> {
    let check = modbus_check(bytes).to_le_bytes();
    [bytes, &check[..]].concat()
}

/// A packet with flag 0 of device 7 that says it has so many events queued.
fn packet(queued: u8, events: &[u8]) -> Vec<u8> {
    let head = [0x07, 0x46, 0x11, 0x00, queued, events.len() as u8];
    checked(&[&head, events].concat())
}

/// What a packet of device 7 with no leading FF reads as.
fn listing(queued: u8, listed: usize, size: u8) -> Result<(usize, Events), Refusal> {
    let packet = Events::Packet {
        sender: 7,
        flag: 0,
        queued,
        listed,
        first: 6,
        size,
    };
    Ok((0, packet))
}

#[test]
fn printed_frames_of_document_000() {
    assert_eq!(read_event_request(&REQUEST), Ok(ASKED));
    let mut out = [0x77; 10];
    assert_eq!(write_event_request(ASKED, &mut out), Ok(9));
    assert_eq!(out[..9], REQUEST);
    assert_eq!(out[9], 0x77);

    let read = Events::Packet {
        sender: 5,
        flag: 1,
        queued: 1,
        listed: 1,
        first: 6,
        size: 6,
    };
    assert_eq!(read_events(&PACKET), Ok((0, read)));
    let event = Event {
        kind: 4,
        identifier: 0x01D0,
        start: 10,
        size: 2,
        next: 12,
    };
    assert_eq!(event_at(&PACKET, 6), Some(event));
    assert_eq!(PACKET[10..12], [0x04, 0x00]);

    assert_eq!(read_events(&NO_EVENTS), Ok((0, Events::None)));
    let mut out = [0x77; 6];
    assert_eq!(write_no_events(&mut out), Ok(5));
    assert_eq!(out[..5], NO_EVENTS);
    assert_eq!(out[5], 0x77);
}

#[test]
fn event_request_reader_places() {
    let read = read_event_request;
    assert_eq!(read(&[]), refusal(13, 0));
    assert_eq!(read(&REQUEST[..4]), refusal(13, 0));
    assert_eq!(read(&REQUEST[..5]), refusal(13, 0));
    assert_eq!(read(&REQUEST[..8]), refusal(13, 0));
    assert_eq!(read(&[&REQUEST[..], &[0]].concat()), refusal(13, 0));
    assert_eq!(read(&changed(&REQUEST, 0)), refusal(14, 0));
    assert_eq!(read(&changed(&REQUEST, 1)), refusal(14, 1));
    assert_eq!(read(&changed(&REQUEST, 2)), refusal(15, 2));
    for at in 3..9 {
        assert_eq!(read(&changed(&REQUEST, at)), refusal(16, 7));
    }
    assert_eq!(read(&with_fill(1, &REQUEST)), refusal(14, 0));
    // The subcommand comes before the length for it, the length before the check.
    assert_eq!(read(&changed(&REQUEST, 2)[..6]), refusal(15, 2));
    assert_eq!(read(&changed(&REQUEST, 5)[..8]), refusal(13, 0));
    assert_eq!(read(&NO_EVENTS), refusal(15, 2));
    assert_eq!(read(&PACKET), refusal(14, 0));
}

#[test]
fn event_requests_are_reported_as_sent() {
    for byte in 0..=255u8 {
        let asked = EventRequest {
            minimum: byte,
            most: !byte,
            confirmed: byte ^ 0x55,
            flag: byte ^ 0xAA,
        };
        let mut out = [0; 9];
        assert_eq!(write_event_request(asked, &mut out), Ok(9));
        assert_eq!(read_event_request(&out), Ok(asked));
        assert_eq!(out[3..7], [byte, !byte, byte ^ 0x55, byte ^ 0xAA]);
    }
}

#[test]
fn frame_writers_need_the_exact_length() {
    let mut out = [0x77; 9];
    assert_eq!(write_event_request(ASKED, &mut out[..8]), refusal(1, 0));
    assert_eq!(write_event_request(ASKED, &mut []), refusal(1, 0));
    assert_eq!(write_no_events(&mut out[..4]), refusal(1, 0));
    assert_eq!(write_no_events(&mut []), refusal(1, 0));
    assert_eq!(out, [0x77; 9]);
    assert_eq!(write_no_events(&mut out[..5]), Ok(5));
    assert_eq!(write_event_request(ASKED, &mut out), Ok(9));
}

#[test]
fn event_reader_counts_leading_ff_in_its_places() {
    for fill in [0, 1, 9, 31, 32] {
        let read = |frame: &[u8]| read_events(&with_fill(fill, frame));
        let heard = Events::Packet {
            sender: 5,
            flag: 1,
            queued: 1,
            listed: 1,
            first: fill + 6,
            size: 6,
        };
        assert_eq!(read(&PACKET), Ok((fill, heard)));
        assert_eq!(read(&NO_EVENTS), Ok((fill, Events::None)));
        assert_eq!(read(&[]), refusal(13, 0));
        assert_eq!(read(&NO_EVENTS[..4]), refusal(13, 0));
        assert_eq!(read(&[&NO_EVENTS[..], &[0]].concat()), refusal(13, 0));
        for length in 0..14 {
            assert_eq!(read(&PACKET[..length]), refusal(13, 0));
        }
        assert_eq!(read(&[&PACKET[..], &[0]].concat()), refusal(13, 0));
        assert_eq!(read(&changed(&NO_EVENTS, 1)), refusal(14, fill + 1));
        assert_eq!(read(&changed(&PACKET, 1)), refusal(14, fill + 1));
        assert_eq!(read(&changed(&NO_EVENTS, 2)), refusal(15, fill + 2));
        assert_eq!(read(&changed(&PACKET, 2)), refusal(15, fill + 2));
        assert_eq!(read(&changed(&NO_EVENTS, 3)), refusal(16, fill + 3));
        assert_eq!(read(&changed(&NO_EVENTS, 4)), refusal(16, fill + 3));
        for at in [0, 3, 7, 8, 9, 10, 11, 12, 13] {
            assert_eq!(read(&changed(&PACKET, at)), refusal(16, fill + 12));
        }
        // Size of the events, data bytes of one event.
        assert_eq!(read(&changed(&PACKET, 5)), refusal(13, 0));
        assert_eq!(read(&changed(&PACKET, 6)), refusal(13, 0));
    }
}

#[test]
fn first_bytes_of_what_came_back() {
    for first in 0..=254u8 {
        for (subcommand, due) in [(0x11, 1..=247), (0x12, 253..=253)] {
            let body: &[u8] = if subcommand == 0x11 { &[0, 0, 0] } else { &[] };
            let frame = checked(&[&[first, 0x46, subcommand], body].concat());
            let read = read_events(&frame);
            if due.contains(&first) {
                assert!(read.is_ok());
            } else if first == 0 || (248..253).contains(&first) || first == 254 {
                assert_eq!(read, refusal(14, 0));
            } else {
                assert_eq!(read, refusal(15, 2));
            }
        }
    }
    // A first byte that is wrong comes before a second.
    assert_eq!(read_events(&[0x00, 0x47, 0, 0, 0]), refusal(14, 0));
    assert_eq!(read_events(&[0x01, 0x47, 0, 0, 0]), refusal(14, 1));
    assert_eq!(read_events(&[0x01, 0x46, 0x12, 0, 0]), refusal(15, 2));
    assert_eq!(read_events(&[0x01, 0x46, 0x11, 0, 0]), refusal(13, 0));
    assert_eq!(read_events(&REQUEST), refusal(15, 2));
}

#[test]
fn packets_that_list_nothing() {
    assert_eq!(read_events(&packet(0, &[])), listing(0, 0, 0));
    assert_eq!(read_events(&packet(255, &[])), listing(255, 0, 0));
    // Between the head and a whole frame.
    let empty = packet(0, &[]);
    assert_eq!(empty.len(), 8);
    for length in 5..8 {
        assert_eq!(read_events(&empty[..length]), refusal(13, 0));
    }
}

#[test]
fn more_listed_than_counted_is_13() {
    let two = [0, 1, 0, 9, 1, 2, 0, 8, 0x33];
    assert_eq!(read_events(&packet(1, &two)), refusal(13, 0));
    assert_eq!(read_events(&packet(2, &two)), listing(2, 2, 9));
    assert_eq!(read_events(&packet(3, &two)), listing(3, 2, 9));
    assert_eq!(read_events(&packet(0, &two[..4])), refusal(13, 0));
    assert_eq!(read_events(&packet(1, &two[..4])), listing(1, 1, 4));
    // Before the check.
    let mut frame = packet(1, &two);
    frame[16] ^= 1;
    assert_eq!(read_events(&frame), refusal(13, 0));
    frame[4] = 2;
    assert_eq!(read_events(&frame), refusal(16, 15));
}

#[test]
fn events_must_come_out_even() {
    let two = [0, 1, 0, 9, 1, 2, 0, 8, 0x33];
    for length in 0..9 {
        let read = read_events(&packet(9, &two[..length]));
        match length {
            0 => assert_eq!(read, listing(9, 0, 0)),
            4 => assert_eq!(read, listing(9, 1, 4)),
            _ => assert_eq!(read, refusal(13, 0)),
        }
    }
    // A last event that would reach into the check.
    assert_eq!(read_events(&packet(9, &[2, 1, 0, 9])), refusal(13, 0));
    // The events' own length against that of the frame.
    let mut frame = packet(9, &two);
    frame[5] = 8;
    assert_eq!(read_events(&frame), refusal(13, 0));
    frame[5] = 10;
    assert_eq!(read_events(&frame), refusal(13, 0));
    frame[5] = 255;
    assert_eq!(read_events(&frame), refusal(13, 0));
}

#[test]
fn packets_may_be_longer_than_a_poll_would_send() {
    let mut long = vec![251, 1, 0, 9];
    long.resize(255, 0x33);
    assert_eq!(read_events(&packet(1, &long)), listing(1, 1, 255));
    let event = event_at(&packet(1, &long), 6).unwrap();
    assert_eq!((event.start, event.size, event.next), (10, 251, 261));
    long[0] = 252;
    assert_eq!(read_events(&packet(1, &long)), refusal(13, 0));
    let many = [0; 252];
    assert_eq!(read_events(&packet(63, &many)), listing(63, 63, 252));
    assert_eq!(read_events(&packet(62, &many)), refusal(13, 0));
}

#[test]
fn events_at_any_position() {
    let bytes = [0, 1, 2, 3, 2, 5, 6, 7, 8, 9];
    let event = |kind, identifier, start, size, next| {
        Some(Event {
            kind,
            identifier,
            start,
            size,
            next,
        })
    };
    assert_eq!(event_at(&bytes, 0), event(1, 0x0203, 4, 0, 4));
    assert_eq!(event_at(&bytes, 4), event(5, 0x0607, 8, 2, 10));
    assert_eq!(event_at(&bytes, 1), event(2, 0x0302, 5, 1, 6));
    assert_eq!(event_at(&bytes[..9], 4), None);
    assert_eq!(event_at(&bytes, 2), event(3, 0x0205, 6, 2, 8));
    assert_eq!(event_at(&bytes, 3), event(2, 0x0506, 7, 3, 10));
    assert_eq!(event_at(&bytes, 6), None);
    assert_eq!(event_at(&bytes, 7), None);
    assert_eq!(event_at(&bytes, 10), None);
    assert_eq!(event_at(&bytes, 11), None);
    assert_eq!(event_at(&bytes, usize::MAX), None);
    assert_eq!(event_at(&[], 0), None);
    let mut long = vec![255, 1, 2, 3];
    long.resize(259, 0);
    assert_eq!(event_at(&long, 0), event(1, 0x0203, 4, 255, 259));
    assert_eq!(event_at(&long[..258], 0), None);
}

#[test]
fn readers_of_scans_and_of_events_keep_apart() {
    assert_eq!(read_request(&REQUEST), refusal(15, 2));
    assert_eq!(read_answer(&NO_EVENTS), refusal(15, 2));
    assert_eq!(read_answer(&PACKET), refusal(14, 0));
    for frame in [
        [0xFD, 0x46, 0x01, 0x13, 0x90],
        [0xFD, 0x46, 0x04, 0xD3, 0x93],
    ] {
        assert_eq!(read_event_request(&frame), refusal(15, 2));
        assert_eq!(read_events(&frame), refusal(15, 2));
    }
}
