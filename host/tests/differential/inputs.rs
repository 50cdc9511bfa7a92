//! Random raw runs and frames: valid ones made with the second implementation's
//! writers, ones with something wrong inside, and damaged ones. And the lengths
//! of the buffers that an exchange is judged into.

use second::checks::{ebus_check, modbus_check};
use second::ebus::{expand, is_initiator, write_command, write_reply};
use second::frames::{write_end, write_found, write_request};

use crate::random::Random;

/// The room that judging an exchange asks for: command, first and second reply.
pub const ROOMS: [usize; 3] = [22, 18, 18];

/// How careful the maker of an exchange is.
#[derive(Clone, Copy, PartialEq)]
enum Care {
    /// Everything is right, NACKs included.
    Right,
    /// Anything may be wrong here and there.
    Faulty,
}

/// A raw run for the judge.
pub fn run(random: &mut Random) -> Vec<u8> {
    match random.below(100) {
        0..=29 => exchange(random, Care::Right),
        30..=54 => exchange(random, Care::Faulty),
        55..=79 => {
            let mut run = exchange(random, Care::Right);
            damage(random, &mut run);
            run
        }
        80..=86 => {
            let mut run = exchange(random, Care::Right);
            let cut = random.below(run.len() + 1);
            run.truncate(cut);
            run
        }
        87 => several_exchanges(random),
        _ => {
            let length = random.length();
            random.bytes(length)
        }
    }
}

/// Buffers for an exchange: mostly enough room, at times too little.
pub fn rooms(random: &mut Random) -> [usize; 3] {
    ROOMS.map(|needed| match random.below(60) {
        0 => random.below(51),
        1..=9 => needed,
        _ => needed + random.below(30),
    })
}

/// Buffers of which one at least is too short.
pub fn short_rooms(random: &mut Random) -> [usize; 3] {
    let mut rooms = rooms(random);
    let which = random.below(3);
    rooms[which] = match random.below(3) {
        0 => random.below(ROOMS[which]),
        _ => ROOMS[which] - 1,
    };
    rooms
}

/// Exchanges one after the other, up to a few thousand bytes.
fn several_exchanges(random: &mut Random) -> Vec<u8> {
    let mut run = Vec::new();
    for _ in 0..random.below(60) {
        run.extend(exchange(random, Care::Right));
    }
    if random.one_in(2) {
        damage(random, &mut run);
    }
    run
}

/// An exchange from the command to SYN, with some bytes behind it at times.
fn exchange(random: &mut Random, care: Care) -> Vec<u8> {
    let mut run = Vec::new();
    let destination = command_until_acknowledged(random, care, &mut run);
    let answers = destination != 0xFE && !is_initiator(destination);
    if answers != (care == Care::Faulty && random.one_in(12)) {
        reply_until_acknowledged(random, care, &mut run);
    }
    run.push(if fails(random, care) {
        random.byte()
    } else {
        0xAA
    });
    match random.below(300) {
        0..=59 => {
            let length = random.below(20);
            run.extend(random.bytes(length));
        }
        60 => {
            let length = 2000 + random.below(3000);
            run.extend(random.bytes(length));
        }
        _ => {}
    }
    run
}

/// Attempts at a command, each with its acknowledge byte; gives the destination
/// of the last. At most two are right.
fn command_until_acknowledged(random: &mut Random, care: Care, run: &mut Vec<u8>) -> u8 {
    for attempt in 1..4 {
        let destination = destination(random, care);
        let nacked = destination != 0xFE && nacked(random, care, attempt);
        let wrong_check = nacked && random.one_in(2) || fails(random, care);
        run.extend(command(random, care, destination, wrong_check));
        if destination == 0xFE && !fails(random, care) {
            return destination;
        }
        if fails(random, care) {
            run.push(random.byte());
            return destination;
        }
        if !nacked {
            run.push(0x00);
            return destination;
        }
        run.push(0xFF);
    }
    0x08
}

fn reply_until_acknowledged(random: &mut Random, care: Care, run: &mut Vec<u8>) {
    for attempt in 1..4 {
        let nacked = nacked(random, care, attempt);
        let wrong_check = nacked && random.one_in(2) || fails(random, care);
        run.extend(reply(random, care, wrong_check));
        if fails(random, care) {
            run.push(random.byte());
            return;
        }
        run.push(if nacked { 0xFF } else { 0x00 });
        if !nacked {
            return;
        }
    }
}

/// Whether this attempt is NACKed: a right exchange has one NACK at most.
fn nacked(random: &mut Random, care: Care, attempt: usize) -> bool {
    match care {
        Care::Right => attempt == 1 && random.one_in(3),
        Care::Faulty => random.one_in(2),
    }
}

/// Whether a faulty maker errs at this step.
fn fails(random: &mut Random, care: Care) -> bool {
    care == Care::Faulty && random.one_in(14)
}

fn destination(random: &mut Random, care: Care) -> u8 {
    if fails(random, care) {
        return random.pick(&[0xA9, 0xAA]);
    }
    loop {
        let destination = match random.below(8) {
            0 => 0xFE,
            1 | 2 => initiator(random),
            3 => random.byte(),
            _ => random.draw() as u8,
        };
        if !matches!(destination, 0xA9 | 0xAA) {
            return destination;
        }
    }
}

/// An initiator's address.
pub fn initiator(random: &mut Random) -> u8 {
    let nibbles = [0x0, 0x1, 0x3, 0x7, 0xF];
    random.pick(&nibbles) << 4 | random.pick(&nibbles)
}

/// Data of a telegram, 0 to 16 bytes.
pub fn data(random: &mut Random) -> Vec<u8> {
    let most = random.pick(&[3, 8, 17]);
    let length = match random.below(12) {
        0 => 16,
        _ => random.below(most),
    };
    random.bytes(length)
}

/// A command on the wire.
fn command(random: &mut Random, care: Care, destination: u8, wrong_check: bool) -> Vec<u8> {
    let source = if fails(random, care) {
        random.byte()
    } else {
        initiator(random)
    };
    let (primary, secondary) = (random.byte(), random.byte());
    let data = data(random);
    let mut out = [0; 41];
    if !wrong_check && care == Care::Right {
        let written = write_command(source, destination, primary, secondary, &data, &mut out);
        return out[..written.expect("a right command")].to_vec();
    }
    let mut logical = vec![source, destination, primary, secondary];
    logical.push(length_byte(random, care, &data));
    logical.extend(data);
    finish(random, logical, wrong_check)
}

/// A reply on the wire.
fn reply(random: &mut Random, care: Care, wrong_check: bool) -> Vec<u8> {
    let data = data(random);
    let mut out = [0; 35];
    if !wrong_check && care == Care::Right {
        let written = write_reply(&data, &mut out);
        return out[..written.expect("a right reply")].to_vec();
    }
    let mut logical = vec![length_byte(random, care, &data)];
    logical.extend(data);
    finish(random, logical, wrong_check)
}

fn length_byte(random: &mut Random, care: Care, data: &[u8]) -> u8 {
    if fails(random, care) {
        random.pick(&[17, 0xA9, 0xAA, 0xFF, 16])
    } else {
        data.len() as u8
    }
}

/// Adds a check byte and escapes.
fn finish(random: &mut Random, mut logical: Vec<u8>, wrong_check: bool) -> Vec<u8> {
    let right = ebus_check(&logical);
    let changed = [0xA9, 0xAA, right ^ 0x01, random.byte()];
    let wrong = random.pick(&changed);
    logical.push(if wrong_check { wrong } else { right });
    expanded(&logical)
}

/// Logical bytes as they go on the wire.
pub fn expanded(logical: &[u8]) -> Vec<u8> {
    let mut out = vec![0; 2 * logical.len()];
    let length = expand(logical, &mut out).expect("room for every escape");
    out.truncate(length);
    out
}

/// Changes an input in one to four places, a short one in one or two.
pub fn damage(random: &mut Random, input: &mut Vec<u8>) {
    let most = if input.len() > 8 { 4 } else { 2 };
    for _ in 0..=random.below(most) {
        damage_once(random, input);
    }
}

fn damage_once(random: &mut Random, input: &mut Vec<u8>) {
    let at = random.below(input.len() + 1);
    match random.below(9) {
        0 => input.insert(at, 0xA9),
        1 => input.insert(at, 0xAA),
        2 => input.insert(at, random.byte()),
        3 => input.truncate(at),
        4 => {
            let to = (at + random.below(30)).min(input.len());
            let again = input[at..to].to_vec();
            input.splice(at..at, again);
        }
        5 => input.extend([random.byte()]),
        _ if at == input.len() => {}
        6 => {
            input.remove(at);
        }
        7 => input[at] ^= 1 << random.below(8),
        _ => input[at] = random.byte(),
    }
}

/// A serial: mostly below 2^28, often at the limit.
pub fn serial(random: &mut Random) -> u32 {
    let any = random.draw() as u32;
    match random.below(12) {
        0 => any,
        1 => random.pick(&[0x0FFF_FFFF, 0x1000_0000, 0, u32::MAX]),
        2 => any & 0xFF,
        _ => any >> 4,
    }
}

/// A raw frame for either reader.
pub fn frame(random: &mut Random) -> Vec<u8> {
    let mut input = match random.below(10) {
        0..=3 => written_frame(random),
        4..=7 => assembled_frame(random),
        8 => filled(random, written_frame),
        _ => {
            let length = random.length();
            return random.bytes(length);
        }
    };
    if random.one_in(3) {
        damage(random, &mut input);
    }
    input
}

/// A frame that an answer's reader takes, or nearly.
pub fn answer(random: &mut Random) -> Vec<u8> {
    let mut input = match random.below(3) {
        0 => filled(random, written_frame),
        1 => filled(random, assembled_frame),
        _ => return frame(random),
    };
    if random.one_in(4) {
        damage(random, &mut input);
    }
    input
}

/// FF and then the frame.
pub fn filled(random: &mut Random, frame: fn(&mut Random) -> Vec<u8>) -> Vec<u8> {
    let mut input = vec![0xFF; fill(random)];
    input.extend(frame(random));
    input
}

/// How many FF stand before a frame: none to 40, often about as many as may stand
/// there, seldom thousands.
pub fn fill(random: &mut Random) -> usize {
    match random.below(300) {
        0 => 1000 + random.below(4000),
        1..=99 => random.below(3),
        100..=199 => 31 + random.below(3),
        _ => random.below(41),
    }
}

/// One of the four frames, as the writers write it.
fn written_frame(random: &mut Random) -> Vec<u8> {
    let mut out = [0; 10];
    let written = match random.below(5) {
        0 | 1 => write_request(random.pick(&[1, 2]), &mut out),
        2 => write_end(&mut out),
        _ => write_found(serial(random) & 0x0FFF_FFFF, random.byte(), &mut out),
    };
    out[..written.expect("a right frame")].to_vec()
}

/// A frame with any part at times wrong, but mostly with a right check.
fn assembled_frame(random: &mut Random) -> Vec<u8> {
    let mut frame = vec![0xFD, 0x46];
    if random.one_in(12) {
        frame[0] = random.byte();
    }
    if random.one_in(12) {
        frame[1] = random.byte();
    }
    let subcommand = match random.below(8) {
        0 => random.byte(),
        1..=4 => 3,
        _ => random.pick(&[1, 2, 4]),
    };
    frame.push(subcommand);
    if (subcommand == 3) != random.one_in(12) {
        frame.extend(serial(random).to_be_bytes());
        frame.push(random.byte());
    }
    if random.one_in(10) {
        let length = random.below(8);
        frame.extend(random.bytes(length));
    }
    let [low, high] = modbus_check(&frame).to_le_bytes();
    match random.below(12) {
        0 => frame.extend([high, low]),
        1 => frame.extend([low, high ^ 0x10]),
        2 => frame.extend([low ^ 0x80, high]),
        _ => frame.extend([low, high]),
    }
    frame
}
