//! Railbus packets: the calls on them made on both sides, and random packets:
//! right ones made with the second implementation's writer, ones with something
//! wrong inside, and damaged ones.

use moortinker::sys;
use second::railbus::{railbus_check, read_railbus, write_railbus, Letter, LONG, SHORT};
use second::refusal::Refusal;

use crate::calls;
use crate::random::Random;
use crate::session::{Function, Session};

/// The seven letters.
pub const LETTERS: [u8; 7] = *b"RWSKINn";
/// Characters with a meaning in a packet, and those beside them.
const TELLING: [u8; 48] = *b"RPWSKINn0123456789ABCDEFabcdefrpwskigGOQ/:@`\r\n\0\xFF";

pub fn check(session: &mut Session, characters: &[u8]) {
    let second = railbus_check(characters);
    // SAFETY: the pointer comes with its length.
    let archive = |at, length| unsafe { sys::moor_railbus_check(at, length) };
    calls::read(
        session,
        Function::RailbusCheck,
        characters,
        archive,
        0,
        second,
        String::new,
    );
}

pub fn read(session: &mut Session, input: &[u8]) {
    let mut second = sys::RailbusRead {
        number: 0,
        letter: 0,
        address: 0,
        reg: 0,
        checked: 0,
        data: 0,
        place: 0,
    };
    match read_railbus(input) {
        Ok(packet) => {
            (second.letter, second.checked) = (packet.letter as u8, packet.checked.into());
            (second.address, second.reg) = (packet.address, packet.reg);
            second.data = packet.data;
        }
        Err(Refusal { number, place }) => (second.number, second.place) = (number, place),
    }
    let number = second.number;
    // SAFETY: the pointer comes with its length.
    let archive = |at, length| unsafe { sys::moor_read_railbus(at, length) };
    let text = || input.escape_ascii().to_string();
    calls::read(
        session,
        Function::ReadRailbus,
        input,
        archive,
        number,
        second,
        text,
    );
    if number == 0 {
        session.note(Function::ReadRailbus, [second.letter, second.checked, 0]);
    }
}

/// What a packet is written from.
#[derive(Clone, Copy, Debug)]
pub struct Content {
    pub letter: u8,
    pub address: u8,
    pub reg: u8,
    pub data: u32,
}

impl Content {
    fn write(self, out: &mut [u8]) -> Result<usize, Refusal> {
        write_railbus(self.letter, self.address, self.reg, self.data, out)
    }
}

pub fn write(session: &mut Session, content: Content, room: usize) {
    let Content {
        letter,
        address,
        reg,
        data,
    } = content;
    let second = |out: &mut [u8]| content.write(out);
    let archive = |_, _, out| {
        // SAFETY: the pointer comes with its length.
        unsafe { sys::moor_write_railbus(letter, address, reg, data, out, room) }
    };
    let text = || format!("{content:02X?}");
    calls::write(
        session,
        Function::WriteRailbus,
        &[],
        room,
        archive,
        second,
        text,
    );
    if Letter::of(letter).is_some_and(|letter| letter.packet_length() <= room) {
        session.note(Function::WriteRailbus, [letter, 0, 0]);
    }
}

/// The packet of a letter that there is.
pub fn written(content: Content) -> Vec<u8> {
    let mut out = [0; LONG];
    let length = content.write(&mut out).expect("room for a packet");
    out[..length].to_vec()
}

/// The characters with their checksum behind them.
pub fn checked(characters: &[u8]) -> Vec<u8> {
    with_checksum(characters, railbus_check(characters))
}

/// The characters with this byte behind them in place of their checksum.
pub fn with_checksum(characters: &[u8], checksum: u8) -> Vec<u8> {
    [characters, format!("{checksum:02X}").as_bytes()].concat()
}

/// One step of the family: each call on a packet.
pub fn packets(session: &mut Session) {
    let content = any_content(&mut session.random);
    let input = packet(&mut session.random, content);
    read(session, &input);
    if session.random.one_in(3) {
        check(session, &input);
    }
    if session.random.one_in(2) {
        let random = &mut session.random;
        let mut content = any_content(random);
        if random.one_in(5) {
            content.letter = character(random);
        }
        let needed = random.pick(&[SHORT, LONG]);
        let room = random.room(needed);
        write(session, content, room);
    }
}

fn any_content(random: &mut Random) -> Content {
    Content {
        letter: random.pick(&LETTERS),
        address: random.byte(),
        reg: random.byte(),
        data: data(random),
    }
}

/// Data of a packet: any, or with few bits.
pub fn data(random: &mut Random) -> u32 {
    let any = random.draw() as u32;
    match random.below(4) {
        0 => 1 << (any % 32),
        1 => any & 0xFF,
        _ => any,
    }
}

/// A character: mostly a telling one.
fn character(random: &mut Random) -> u8 {
    match random.below(4) {
        0 => random.draw() as u8,
        _ => random.pick(&TELLING),
    }
}

/// A raw packet for the reader, with this content or something wrong in it.
pub fn packet(random: &mut Random, content: Content) -> Vec<u8> {
    let mut input = match random.below(12) {
        0..=3 => written(content),
        4..=7 => assembled(random, content),
        8 | 9 => of_other_length(random, content),
        10 => {
            let length = random.below(LONG + 4);
            (0..length).map(|_| character(random)).collect()
        }
        _ => {
            let length = random.length();
            random.bytes(length)
        }
    };
    if random.one_in(4) {
        damage(random, &mut input);
    }
    input
}

/// A packet with any part at times wrong, but mostly with a right checksum.
fn assembled(random: &mut Random, content: Content) -> Vec<u8> {
    let mut packet = written(content);
    packet.truncate(packet.len() - 2);
    match random.below(8) {
        0 => packet[random.below(2)] = character(random),
        1 => packet[4] = character(random),
        2 | 3 => {
            let at = 2 + random.below(packet.len() - 2);
            packet[at] = character(random);
        }
        _ => {}
    }
    if random.one_in(8) {
        packet.make_ascii_lowercase();
        packet[..2].copy_from_slice(b"RP");
        packet[4] = content.letter;
    }
    let right = railbus_check(&packet);
    let checksum = match random.below(10) {
        0 => right & 0x7F,
        1 | 2 => random.draw() as u8 & 0x7F,
        3 => right ^ 1 << random.below(7),
        4 => random.draw() as u8,
        _ => right,
    };
    with_checksum(&packet, checksum)
}

/// A packet that is some characters too long or too short, or of the other
/// length, with a right checksum.
fn of_other_length(random: &mut Random, content: Content) -> Vec<u8> {
    let mut packet = written(Content {
        letter: b'W',
        ..content
    });
    packet[4] = content.letter;
    let near = random.pick(&[SHORT, LONG]) + random.below(3) - 1;
    packet.resize(near, b'0');
    packet.truncate(near - 2);
    checked(&packet)
}

/// Changes a packet in one or two places.
fn damage(random: &mut Random, packet: &mut Vec<u8>) {
    for _ in 0..=random.below(2) {
        let at = random.below(packet.len() + 1);
        match random.below(6) {
            0 => packet.insert(at, character(random)),
            1 => packet.truncate(at),
            2 => packet.extend_from_slice(b"\r\n"),
            _ if at == packet.len() => {}
            3 => {
                packet.remove(at);
            }
            4 => packet[at] ^= 1 << random.below(8),
            _ => packet[at] = character(random),
        }
    }
}
