//! Railbus: the packets that document 001 prints, every refusal of a packet, and
//! the relay device in every phase of the write that it remembers.

use moortinker::railbus::{
    self, read, write, write_to_vec, Columns, Heard, Message, Packet, Relay, Remembered, Reply,
    Status, ABSENT, LONG_PACKET, READ, READ_WRITE, REGISTERS, SHORT_PACKET, WRITE,
};
use moortinker::{sys, Reason, Refusal};

use crate::{refused, FILL};

fn packet(address: u8, register: u8, message: Message) -> Packet {
    Packet {
        address,
        register,
        message,
    }
}

/// The packets that document 001 prints, with checksums.
fn printed() -> [(&'static str, Packet); 8] {
    let held = Message::ReadDone(0x0015_002A);
    let invalid = Message::Status(Status(0x09));
    [
        ("RPFFR009E", packet(0xFF, 0, Message::Read)),
        ("RPFFK000015002AF4", packet(0xFF, 0, held)),
        ("RP93W00000000109F", packet(0x93, 0, Message::Write(0x10))),
        (
            "RP93I0000000010EE",
            packet(0x93, 0, Message::WriteDone(0x10)),
        ),
        ("RP93W0100000010A2", packet(0x93, 1, Message::Write(0x10))),
        (
            "RP93I0100000010D3",
            packet(0x93, 1, Message::WriteDone(0x10)),
        ),
        (
            "RP93WFD0000E100E4",
            packet(0x93, 0xFD, Message::Write(57600)),
        ),
        ("RP93nFD00000009A4", packet(0x93, 0xFD, invalid)),
    ]
}

// ---- Packets ----------------------------------------------------------------

#[test]
fn the_printed_packets() {
    for (text, packet) in printed() {
        let heard = |checked| Ok(Heard { packet, checked });
        assert_eq!(read(text.as_bytes()), heard(true));
        assert_eq!(packet.to_string(), text);
        assert_eq!(write_to_vec(packet), text.as_bytes());
        // As they stand there, with the checksum left out.
        let (before, check) = text.split_at(text.len() - 2);
        assert_eq!(read(format!("{before}00").as_bytes()), heard(false));
        let computed = railbus::check(before.as_bytes());
        assert_eq!(format!("{computed:02X}"), check);
    }
    assert_eq!(railbus::check(b"123456789"), 0x75 | 0x80);
    assert_eq!(railbus::check(b""), 0x80);
}

#[test]
fn every_letter_is_read_as_it_was_written() {
    let values = [0, 1, 0x1234_5678, 0xFEDC_BA98, u32::MAX];
    for data in values {
        let messages = [
            (b'R', Message::Read, SHORT_PACKET),
            (b'W', Message::Write(data), LONG_PACKET),
            (b'S', Message::Sync, SHORT_PACKET),
            (b'K', Message::ReadDone(data), LONG_PACKET),
            (b'I', Message::WriteDone(data), LONG_PACKET),
            (b'N', Message::Absent, SHORT_PACKET),
            (b'n', Message::Status(Status(data)), LONG_PACKET),
        ];
        for (letter, message, length) in messages {
            let packet = packet(data as u8, !data as u8, message);
            let characters = write_to_vec(packet);
            assert_eq!((characters[4], characters.len()), (letter, length));
            assert_eq!(message.letter(), letter);
            assert_eq!(message.data(), (length == LONG_PACKET).then_some(data));
            let checked = true;
            assert_eq!(read(&characters), Ok(Heard { packet, checked }));
        }
    }
}

#[test]
fn packets_refused() {
    let cases: &[(&[u8], (u8, usize))] = &[
        (b"", (13, 0)),
        (b"RPFFR009", (13, 0)),
        (b"XXXXXXXX", (13, 0)),
        (b"rPFFR009E", (14, 0)),
        (b"RpFFR009E", (14, 1)),
        (b"PRFFX009E0", (14, 0)),
        (b"RPFFX009E0", (15, 4)),
        (b"RPFFk0000", (15, 4)),
        (b"RPFFR009E\r\n", (13, 0)),
        (b"RPgfR000015002A00", (13, 0)),
        (b"RPgfK0000", (13, 0)),
        (b"RPFFK000015002AF", (13, 0)),
        (b"RPFFK000015002AF40", (13, 0)),
        (b"RPfFR00g0", (26, 2)),
        (b"RPFFR0g9E", (26, 6)),
        (b"RPFFR009e", (26, 8)),
        (b"RPFFK00001500:AF4", (26, 13)),
        (b"RPFFK000015002A/4", (26, 15)),
        (b"RPFFR009F", (16, 7)),
        (b"RPFFR0080", (16, 7)),
        (b"RPFFK000015002AF5", (16, 15)),
    ];
    for &(input, due) in cases {
        assert_eq!(refused(read(input)), due, "{}", input.escape_ascii());
    }
    let refusal = read(b"RPFFR009e").unwrap_err();
    assert_eq!(refusal.reason(), Reason::DigitWrong);
}

#[test]
fn writing_asks_for_the_exact_length() {
    for (text, packet) in printed() {
        let length = text.len();
        let mut out = [FILL; 20];
        assert_eq!(write(packet, &mut out), Ok(length));
        assert_eq!(&out[..length], text.as_bytes());
        assert!(out[length..].iter().all(|&byte| byte == FILL));
        assert_eq!(write(packet, &mut out[..length]), Ok(length));
        let mut short = [FILL; LONG_PACKET];
        assert_eq!(refused(write(packet, &mut short[..length - 1])), (1, 0));
        assert_eq!(short, [FILL; LONG_PACKET]);
    }
}

// ---- The relay device -------------------------------------------------------

/// A device with the address 93. Register 1 may be read, 2 written, 3 is absent,
/// and all others may be both; each holds its number.
fn relay() -> Relay {
    let mut access = [READ_WRITE; REGISTERS];
    access[1..4].copy_from_slice(&[READ, WRITE, ABSENT]);
    Relay::new(0x93, (0..256).collect::<Vec<u32>>(), access).unwrap()
}

/// What a device says to a message for its address.
fn told(relay: &mut Relay, register: u8, message: Message) -> Option<Message> {
    let address = relay.address();
    let offered = write_to_vec(packet(address, register, message));
    let reply = relay.offer(&offered).unwrap()?.packet();
    assert_eq!((reply.address, reply.register), (address, register));
    Some(reply.message)
}

fn running(register: u8, data: u32) -> Remembered {
    Remembered::Running { register, data }
}

fn finished(register: u8, data: u32) -> Remembered {
    Remembered::Finished { register, data }
}

fn status(status: Status) -> Option<Message> {
    Some(Message::Status(status))
}

/// The device with no write, with one that runs, and with one that has finished.
fn in_every_phase() -> [Relay; 3] {
    let idle = relay();
    let mut running = idle.clone();
    let received = told(&mut running, 4, Message::Write(7));
    assert_eq!(received, status(Status::RECEIVED));
    let mut finished = running.clone();
    assert!(finished.finish().is_some());
    [idle, running, finished]
}

#[test]
fn devices_that_are_not_valid() {
    for length in [0, 1, 255, 257, 512] {
        let registers = Relay::new(0x93, vec![0; length], [READ; REGISTERS]);
        assert_eq!(refused(registers), (2, 0));
        let access = Relay::new(0x93, [0; REGISTERS], vec![READ; length]);
        assert_eq!(refused(access), (2, 0));
    }
    for at in [0, 1, 128, 255] {
        for byte in 0..=u8::MAX {
            let mut access = [READ; REGISTERS];
            access[at] = byte;
            assert_eq!(Relay::fresh(0x93, access).is_ok(), byte <= READ_WRITE);
        }
    }
}

#[test]
fn a_device_shows_its_parts() {
    let mut relay = relay();
    assert_eq!(relay.address(), 0x93);
    assert_eq!(relay.registers()[255], 255);
    assert_eq!(relay.access()[..4], [READ_WRITE, READ, WRITE, ABSENT]);
    assert_eq!(relay.remembered(), Remembered::None);
    relay.registers_mut()[0] = 9;
    assert_eq!(
        told(&mut relay, 0, Message::Read),
        Some(Message::ReadDone(9))
    );
    relay.set_address(0x94);
    assert_eq!(relay.offer(b"RP93R0091"), Ok(None));
    assert_eq!(
        told(&mut relay, 0, Message::Read),
        Some(Message::ReadDone(9))
    );
}

#[test]
fn a_write_from_its_first_copy_to_its_end() {
    let mut relay = relay();
    let copy = Message::Write(0x10);
    let (running, finished) = (running(4, 0x10), finished(4, 0x10));
    assert_eq!(told(&mut relay, 4, copy), status(Status::RECEIVED));
    assert_eq!(relay.remembered(), running);
    assert_eq!(told(&mut relay, 4, copy), status(Status::RETRANSMISSION));
    for (register, message) in [
        (4, Message::Write(0x11)),
        (5, copy),
        (4, Message::Sync),
        (3, Message::Sync),
    ] {
        assert_eq!(told(&mut relay, register, message), status(Status::BUSY));
    }
    assert_eq!(
        told(&mut relay, 4, Message::Read),
        Some(Message::ReadDone(4))
    );
    assert_eq!(relay.remembered(), running);
    let reply = relay.finish().unwrap();
    assert_eq!(reply.packet(), packet(0x93, 4, Message::WriteDone(0x10)));
    assert_eq!(relay.registers()[4], 0x10);
    assert_eq!((relay.remembered(), relay.finish()), (finished, None));
    assert_eq!(told(&mut relay, 4, copy), status(Status::DONE_BEFORE));
    assert_eq!(relay.remembered(), finished);
    assert_eq!(told(&mut relay, 3, Message::Sync), status(Status::SYNCED));
    assert_eq!(
        (relay.remembered(), relay.finish()),
        (Remembered::None, None)
    );
    assert_eq!(told(&mut relay, 4, copy), status(Status::RECEIVED));
}

#[test]
fn a_different_write_takes_the_place_of_a_finished_one() {
    let [_, _, finished] = in_every_phase();
    for (register, data) in [(4, 8), (5, 7)] {
        let mut relay = finished.clone();
        let different = Message::Write(data);
        assert_eq!(
            told(&mut relay, register, different),
            status(Status::RECEIVED)
        );
        assert_eq!(relay.remembered(), running(register, data));
        assert_eq!(told(&mut relay, 4, Message::Write(7)), status(Status::BUSY));
    }
}

#[test]
fn absent_and_forbidden_registers_come_before_all_else() {
    for phase in in_every_phase() {
        let mut relay = phase.clone();
        let write = Message::Write(7);
        let forbidden = status(Status::FORBIDDEN);
        assert_eq!(told(&mut relay, 3, Message::Read), Some(Message::Absent));
        assert_eq!(told(&mut relay, 3, write), Some(Message::Absent));
        assert_eq!(told(&mut relay, 2, Message::Read), forbidden);
        assert_eq!(told(&mut relay, 1, write), forbidden);
        assert_eq!(
            told(&mut relay, 1, Message::Read),
            Some(Message::ReadDone(1))
        );
        assert_eq!(relay, phase);
    }
}

#[test]
fn other_addresses_and_answers_get_none() {
    for phase in in_every_phase() {
        let mut relay = phase.clone();
        for message in [
            Message::ReadDone(7),
            Message::WriteDone(7),
            Message::Absent,
            Message::Status(Status::BUSY),
        ] {
            assert_eq!(told(&mut relay, 4, message), None);
        }
        for message in [Message::Read, Message::Write(7), Message::Sync] {
            for address in [0x00, 0x92, 0x94, 0xFF] {
                let offered = write_to_vec(packet(address, 4, message));
                assert_eq!(relay.offer(&offered), Ok(None));
            }
        }
        assert_eq!(relay, phase);
    }
}

#[test]
fn a_refused_packet_leaves_the_device() {
    for phase in in_every_phase() {
        let mut relay = phase.clone();
        for (input, due) in [
            (&b"RP93R00"[..], (13, 0)),
            (b"RX93W00000000109F", (14, 1)),
            (b"RP93w00000000109F", (15, 4)),
            (b"RP93W0000", (13, 0)),
            (b"RP93W0000000g109F", (26, 12)),
            (b"RP93W00000000109E", (16, 15)),
        ] {
            assert_eq!(refused(relay.offer(input)), due);
        }
        assert_eq!(relay, phase);
    }
}

#[test]
fn a_reply_is_a_packet() {
    let mut relay = relay();
    let reply: Reply = relay.offer(b"RP93R0091").unwrap().unwrap();
    assert_eq!(reply.bytes(), reply.text().as_bytes());
    assert_eq!(reply.as_ref(), reply.bytes());
    assert_eq!(reply.packet().to_string(), reply.text());
}

// ---- A lent device ----------------------------------------------------------

/// What a call on lent columns gives, what is remembered then, and the first
/// register.
type Lent = (Result<usize, Refusal>, Remembered, u32);

/// A call on a device with these access bytes and this write.
fn lent(
    access: &[u8],
    mut write: Remembered,
    call: impl FnOnce(&mut Columns<'_>) -> Result<usize, Refusal>,
) -> Lent {
    let mut registers = [0; REGISTERS];
    let mut columns = Columns {
        address: 0x93,
        registers: &mut registers,
        access,
        write: &mut write,
    };
    let valid = access.len() == REGISTERS && access.iter().all(|&byte| byte <= READ_WRITE);
    assert_eq!(columns.is_valid(), valid);
    let given = call(&mut columns);
    (given, write, registers[0])
}

#[test]
fn a_lent_device_refuses_short_answers_then_its_columns_then_the_packet() {
    let refusal = |reason| Err(Refusal::new(reason, 0));
    let right = [READ_WRITE; REGISTERS];
    for write in [Remembered::None, running(0, 7)] {
        for (access, room, reason) in [
            (&right[1..], LONG_PACKET - 1, Reason::OutputShort),
            (&right[1..], LONG_PACKET, Reason::TableNotValid),
            (&right[..], LONG_PACKET - 1, Reason::OutputShort),
            (&right[..], LONG_PACKET, Reason::FrameLength),
        ] {
            let mut answer = [FILL; LONG_PACKET];
            let offered = lent(access, write, |columns| {
                columns.offer(b"", &mut answer[..room])
            });
            assert_eq!(offered, (refusal(reason), write, 0));
            if reason != Reason::FrameLength {
                let finished = lent(access, write, |columns| columns.finish(&mut answer[..room]));
                assert_eq!(finished, (refusal(reason), write, 0));
            }
            assert_eq!(answer, [FILL; LONG_PACKET]);
        }
    }
}

#[test]
fn a_finish_looks_at_no_access_byte() {
    let (running, finished) = (running(0, 0x10), finished(0, 0x10));
    for access in [ABSENT, READ, WRITE, READ_WRITE] {
        let mut answer = [FILL; 20];
        let given = lent(&[access; REGISTERS], running, |columns| {
            columns.finish(&mut answer)
        });
        assert_eq!(given, (Ok(17), finished, 0x10));
        assert_eq!(&answer[..17], b"RP93I0000000010EE");
        assert_eq!(answer[17..], [FILL; 3]);
        for write in [Remembered::None, finished] {
            let mut answer = [FILL; LONG_PACKET];
            let given = lent(&[access; REGISTERS], write, |columns| {
                columns.finish(&mut answer)
            });
            assert_eq!((given, answer), ((Ok(0), write, 0), [FILL; LONG_PACKET]));
        }
    }
}

// ---- What is remembered, made by hand ---------------------------------------

/// A packet offered through the C interface to a device that may be read and
/// written, remembering this.
fn offer_raw(packet: &[u8], write: sys::Remembered) -> sys::Relayed {
    let (registers, access) = ([0; REGISTERS], [READ_WRITE; REGISTERS]);
    let mut answer = [FILL; LONG_PACKET];
    // SAFETY: each pointer comes with the length of its own array.
    unsafe {
        sys::moor_offer_railbus(
            0x93,
            packet.as_ptr(),
            packet.len(),
            registers.as_ptr(),
            registers.len(),
            access.as_ptr(),
            access.len(),
            write,
            answer.as_mut_ptr(),
            answer.len(),
        )
    }
}

#[test]
fn any_other_phase_is_none() {
    let none = sys::Remembered {
        phase: sys::MOOR_IDLE,
        reg: 0,
        data: 0,
    };
    let running = sys::Remembered {
        phase: sys::MOOR_RUNNING,
        reg: 4,
        data: 0x10,
    };
    for phase in (0..=u8::MAX).filter(|phase| !(1..=2).contains(phase)) {
        let any = sys::Remembered { phase, ..running };
        let refused = offer_raw(b"RP93R00", any);
        assert_eq!((refused.number, refused.write), (13, none));
        let silent = offer_raw(b"RPFFR009E", any);
        assert_eq!((silent.number, silent.write, silent.length), (0, none, 0));
        let received = offer_raw(b"RP93W0400000010E2", any);
        assert_eq!((received.number, received.write), (0, running));
        let synced = offer_raw(b"RP93S00BE", any);
        assert_eq!((synced.number, synced.write, synced.length), (0, none, 17));
    }
}
