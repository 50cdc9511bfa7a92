//! Inputs of Railbus that are named one by one: the packets that document 001
//! prints and their neighbours, and edges of the relay device.

use moortinker::sys;
use second::railbus::{LONG, SHORT};
use second::relay::{ABSENT, READ, READ_WRITE, RELAY_REGISTERS, WRITE};

use crate::edges::for_each_neighbour;
use crate::railbus::{check, checked, read, with_checksum, write, written, Content, LETTERS};
use crate::relay::{ask, relay_valid, Asked, Device};
use crate::session::Session;

/// Document 001's packets, with checksums, and one of each letter that it has no
/// example of.
const PACKETS: [&[u8]; 10] = [
    b"RPFFR009E",
    b"RPFFK000015002AF4",
    b"RP93W00000000109F",
    b"RP93I0000000010EE",
    b"RP93W0100000010A2",
    b"RP93I0100000010D3",
    b"RP93WFD0000E100E4",
    b"RP93nFD00000009A4",
    b"RP93S00BE",
    b"RP93N0093",
];
/// The address of the device.
const ADDRESS: u8 = 0x93;

/// Runs all of them.
pub fn run_all(session: &mut Session) {
    checksums(session);
    neighbours(session);
    letters_and_lengths(session);
    every_byte_read(session);
    writers(session);
    validity(session);
    phases(session);
    finishes(session);
    rooms_and_packets(session);
}

/// Every pair of bytes, and a run of every length.
fn checksums(session: &mut Session) {
    for first in 0..=255 {
        for second in 0..=255 {
            check(session, &[first, second]);
        }
    }
    let bytes = session.random.bytes(300);
    for length in 0..=bytes.len() {
        check(session, &bytes[..length]);
    }
}

/// The packets as printed and their neighbours, also with a right checksum.
fn neighbours(session: &mut Session) {
    for packet in PACKETS {
        for_each_neighbour(packet, |input| read(session, input));
        let body = &packet[..packet.len() - 2];
        for_each_neighbour(body, |input| read(session, &checked(input)));
        read(session, &with_checksum(body, 0));
    }
}

/// Every letter with every length near the two.
fn letters_and_lengths(session: &mut Session) {
    for letter in 0..=255 {
        for length in 0..=LONG + 3 {
            let mut body = b"RP930000000000000000".to_vec();
            body[4] = letter;
            read(session, &body[..length]);
            body.truncate(length.saturating_sub(2));
            read(session, &checked(&body));
        }
    }
}

/// Every checksum, address and register, and every bit of the data.
fn every_byte_read(session: &mut Session) {
    for byte in 0..=255 {
        for packet in PACKETS {
            read(session, &with_checksum(&packet[..packet.len() - 2], byte));
        }
        for letter in LETTERS {
            let data = 1 << (byte % 32);
            read(session, &written(content(letter, byte, !byte, data)));
        }
    }
}

fn content(letter: u8, address: u8, reg: u8, data: u32) -> Content {
    Content {
        letter,
        address,
        reg,
        data,
    }
}

fn writers(session: &mut Session) {
    for byte in 0..=255 {
        for room in [0, SHORT - 1, SHORT, SHORT + 1, LONG - 1, LONG, LONG + 1] {
            write(session, content(byte, 0x93, 0xFD, 0xE100), room);
        }
        for letter in LETTERS {
            let data = 1 << (byte % 32);
            write(session, content(letter, byte, !byte, data), LONG);
        }
    }
}

fn remembering(phase: u8, reg: u8, data: u32) -> sys::Remembered {
    sys::Remembered { phase, reg, data }
}

/// Registers with their numbers, and access bytes by turns.
fn columns() -> (Vec<u32>, Vec<u8>) {
    let registers = (0..RELAY_REGISTERS as u32).collect();
    let access = [ABSENT, READ, WRITE, READ_WRITE].repeat(RELAY_REGISTERS / 4);
    (registers, access)
}

/// Every access byte at the ends and between, and columns of other lengths, with
/// answer buffers near the limit.
fn validity(session: &mut Session) {
    let mut try_one = |registers: &[u32], access: &[u8]| {
        let running = remembering(sys::MOOR_RUNNING, 3, 7);
        for room in [LONG - 1, LONG] {
            let mut device = Device::new(session, ADDRESS, running, registers, access);
            relay_valid(session, &device);
            ask(session, &mut device, Asked::Offer(PACKETS[0]), room);
            ask(session, &mut device, Asked::Offer(b""), room);
            ask(session, &mut device, Asked::Finish, room);
        }
    };
    let (registers, access) = columns();
    for byte in 0..=255 {
        for at in [0, 1, 100, 254, 255] {
            let mut other = access.clone();
            other[at] = byte;
            try_one(&registers, &other);
        }
    }
    for length in [0, 1, 2, 128, 255, 256, 257, 300, 512] {
        let (mut longer, mut more) = (registers.clone(), access.clone());
        longer.resize(length, 0);
        more.resize(length, 0);
        try_one(&longer, &access);
        try_one(&registers, &more);
        try_one(&longer, &more);
    }
}

/// Every phase, with every letter, for a register of every access, where the
/// packet is a copy of what is remembered, has another register, or other data.
fn phases(session: &mut Session) {
    let (registers, access) = columns();
    let none = remembering(0, 0, 0);
    let mut device = Device::new(session, ADDRESS, none, &registers, &access);
    for phase in 0..=255 {
        for letter in LETTERS {
            for reg in 4..8 {
                for (other_reg, other_data) in [(0, 0), (4, 0), (0, 1), (0, 0x8000_0000)] {
                    let packet = written(content(letter, ADDRESS, reg, 0x10));
                    device.write = remembering(phase, reg ^ other_reg, 0x10 ^ other_data);
                    ask(session, &mut device, Asked::Offer(&packet), LONG);
                }
            }
        }
        device.write = remembering(phase, 7, 0x10);
        ask(session, &mut device, Asked::Offer(PACKETS[0]), LONG);
        ask(session, &mut device, Asked::Offer(b""), LONG);
    }
}

/// A finish in every phase, of every register and every bit, from every address.
fn finishes(session: &mut Session) {
    let (registers, access) = columns();
    let none = remembering(0, 0, 0);
    let mut device = Device::new(session, ADDRESS, none, &registers, &access);
    for byte in 0..=255 {
        for room in [LONG - 1, LONG, LONG + 1] {
            device.write = remembering(byte, 255, 0xFEDC_BA98);
            ask(session, &mut device, Asked::Finish, room);
        }
        device.address = byte;
        device.write = remembering(sys::MOOR_RUNNING, byte, 1 << (byte % 32));
        for _ in 0..2 {
            ask(session, &mut device, Asked::Finish, LONG);
        }
    }
}

/// Raw packets near a read and near a write, in every phase, and every room.
fn rooms_and_packets(session: &mut Session) {
    let (registers, access) = columns();
    for phase in [sys::MOOR_IDLE, sys::MOOR_RUNNING, sys::MOOR_FINISHED] {
        let write = remembering(phase, 7, 0x10);
        let mut device = Device::new(session, ADDRESS, write, &registers, &access);
        for (letter, reg) in [(b'R', 7), (b'W', 7), (b'S', 4)] {
            let right = written(content(letter, ADDRESS, reg, 0x10));
            for_each_neighbour(&right, |packet| {
                device.write = write;
                ask(session, &mut device, Asked::Offer(packet), LONG);
            });
            for room in 0..=2 * LONG {
                device.write = write;
                ask(session, &mut device, Asked::Offer(&right), room);
                ask(session, &mut device, Asked::Finish, room);
            }
        }
    }
}
