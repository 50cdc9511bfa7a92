//! Random frames of event polling: right ones made with the second
//! implementation's writers, ones with something wrong inside, and damaged ones.

use second::checks::modbus_check;
use second::events::{write_event_request, write_no_events, EventRequest};

use crate::inputs;
use crate::random::Random;

/// A raw frame for the reader of event requests.
pub fn request(random: &mut Random) -> Vec<u8> {
    let mut input = match random.below(10) {
        0..=3 => {
            let asked = any_request(random);
            written_request(asked)
        }
        4..=6 => assembled_request(random),
        7 => inputs::filled(random, |random| {
            let asked = any_request(random);
            written_request(asked)
        }),
        8 => inputs::frame(random),
        _ => {
            let length = random.length();
            random.bytes(length)
        }
    };
    if random.one_in(3) {
        inputs::damage(random, &mut input);
    }
    input
}

/// The frame of a request.
pub fn written_request(request: EventRequest) -> Vec<u8> {
    let mut out = vec![0; 9];
    write_event_request(request, &mut out).expect("room for a request");
    out
}

/// Any four bytes of a request.
pub fn any_request(random: &mut Random) -> EventRequest {
    EventRequest {
        minimum: random.byte(),
        most: random.byte(),
        confirmed: random.byte(),
        flag: random.byte(),
    }
}

/// A request with any part at times wrong, but mostly with a right check.
fn assembled_request(random: &mut Random) -> Vec<u8> {
    let mut frame = vec![0xFD, 0x46, 0x10];
    if random.one_in(8) {
        let at = random.below(3);
        frame[at] = random.byte();
    }
    let length = match random.below(6) {
        0 => random.below(12),
        1 => random.pick(&[3, 5]),
        _ => 4,
    };
    frame.extend(random.bytes(length));
    finish(random, frame)
}

/// A raw frame for the reader of what comes back.
pub fn answer(random: &mut Random) -> Vec<u8> {
    let mut input = match random.below(12) {
        0 => inputs::filled(random, no_events),
        1..=7 => inputs::filled(random, packet),
        8 => packet(random),
        9 => inputs::answer(random),
        10 => request(random),
        _ => {
            let length = random.length();
            random.bytes(length)
        }
    };
    if random.one_in(4) {
        inputs::damage(random, &mut input);
    }
    input
}

/// What stands behind the FF of what comes back: a right frame, or one with
/// something wrong in it.
pub fn sent_back(random: &mut Random) -> Vec<u8> {
    let mut frame = match random.below(8) {
        0 | 1 => no_events(random),
        2..=6 => packet(random),
        _ => inputs::frame(random),
    };
    if random.one_in(4) {
        inputs::damage(random, &mut frame);
    }
    frame
}

fn no_events(random: &mut Random) -> Vec<u8> {
    let mut frame = vec![0; 5];
    write_no_events(&mut frame).expect("room for the frame");
    if random.one_in(6) {
        frame.truncate(3);
        let length = random.below(3);
        frame.extend(random.bytes(length));
        frame = finish(random, frame);
    }
    frame
}

/// A packet with any part at times wrong, but mostly with a right check.
fn packet(random: &mut Random) -> Vec<u8> {
    let (listed, mut events) = events(random);
    if random.one_in(10) {
        inputs::damage(random, &mut events);
    }
    events.truncate(255);
    let queued = match random.below(8) {
        0 => listed.saturating_sub(1),
        1 => random.byte(),
        2..=4 => listed,
        _ => listed + random.below(4) as u8,
    };
    let mut size = events.len() as u8;
    if random.one_in(12) {
        size = random.pick(&[size.wrapping_add(1), size.wrapping_sub(1), 0, 0xFF]);
    }
    let mut frame = vec![sender(random), 0x46, 0x11, random.byte(), queued, size];
    if random.one_in(12) {
        frame[1] = random.byte();
    }
    if random.one_in(12) {
        frame[2] = random.pick(&[0x10, 0x12, 0x03, 0x00]);
    }
    frame.extend(events);
    finish(random, frame)
}

/// A sender: mostly an id, at times one of the bytes beside them.
fn sender(random: &mut Random) -> u8 {
    match random.below(10) {
        0 => random.pick(&[0, 248, 249, 252, 253, 254]),
        1 => random.pick(&[1, 2, 246, 247]),
        2 => random.byte(),
        _ => 1 + random.below(247) as u8,
    }
}

/// The bytes of some events, and how many they are.
pub fn events(random: &mut Random) -> (u8, Vec<u8>) {
    let count = random.pick(&[0, 1, 1, 2, 3, 8, 63]);
    let longest = random.pick(&[0, 2, 8, 8, 60, 251]);
    let mut events = Vec::new();
    let mut listed = 0;
    for _ in 0..count {
        let size = random.below(longest + 1);
        if events.len() + 4 + size > 255 {
            break;
        }
        events.push(size as u8);
        let length = 3 + size;
        events.extend(random.bytes(length));
        listed += 1;
    }
    (listed, events)
}

/// Puts a check behind a frame, at times a wrong one.
fn finish(random: &mut Random, mut frame: Vec<u8>) -> Vec<u8> {
    let [low, high] = modbus_check(&frame).to_le_bytes();
    match random.below(12) {
        0 => frame.extend([high, low]),
        1 => frame.extend([low, high ^ 0x10]),
        2 => frame.extend([low ^ 0x80, high]),
        _ => frame.extend([low, high]),
    }
    frame
}
