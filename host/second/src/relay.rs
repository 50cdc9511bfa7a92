//! The device's side of Railbus: a relay device with lent registers, the write
//! that it remembers, packets offered to it, and the finish of a write.

use crate::railbus::{read_railbus, write_railbus, Letter, Packet, LONG};
use crate::refusal::{Refusal, OUTPUT_SHORT, TABLE_NOT_VALID};

/// The registers of a device, and its access bytes.
pub const RELAY_REGISTERS: usize = 256;
/// The room that an answer asks for, also a shorter one or none.
pub const RELAY_ROOM: usize = LONG;

/// An access byte: the register is not there.
pub const ABSENT: u8 = 0;
/// The bit of an access byte that allows reading.
pub const READ: u8 = 1;
/// The bit of an access byte that allows writing.
pub const WRITE: u8 = 2;
pub const READ_WRITE: u8 = READ | WRITE;

/// What an answer 'n' carries.
const RECEIVED: u32 = 0x01;
const RETRANSMISSION: u32 = 0x02;
const DONE_BEFORE: u32 = 0x03;
const FORBIDDEN: u32 = 0x07;
const BUSY: u32 = 0x08;
const SYNCED: u32 = 0x10;

/// The write that a device remembers. It is kept beyond its finish, so that a
/// late copy of it is not carried out once more.
#[derive(Clone, Copy, Debug, Default, PartialEq, Eq)]
pub enum Remembered {
    #[default]
    Idle,
    Running {
        reg: u8,
        data: u32,
    },
    Finished {
        reg: u8,
        data: u32,
    },
}

/// What a device remembers from now on, and the length of its answer, 0 where
/// there is none.
#[derive(Clone, Copy, Debug, PartialEq, Eq)]
pub struct Relayed {
    pub write: Remembered,
    pub length: usize,
}

/// The letter of an answer, and its data, which some letters leave out.
type Answer = (Letter, u32);

/// Whether registers and access bytes are those of a device.
pub fn relay_valid(registers: &[u32], access: &[u8]) -> bool {
    registers.len() == RELAY_REGISTERS
        && access.len() == RELAY_REGISTERS
        && access.iter().all(|&access| access <= READ_WRITE)
}

/// A packet offered to the device with this address. No register changes; a
/// write is only remembered as running. Order: 1, then 2, then what the reader
/// gives.
pub fn offer_railbus(
    address: u8,
    packet: &[u8],
    registers: &[u32],
    access: &[u8],
    write: Remembered,
    answer: &mut [u8],
) -> Result<Relayed, Refusal> {
    ready(registers, access, answer)?;
    let packet = read_railbus(packet)?;
    let silence = Relayed { write, length: 0 };
    if packet.address != address {
        return Ok(silence);
    }
    let Some(((letter, data), write)) = respond(packet, registers, access, write) else {
        return Ok(silence);
    };
    let length = write_railbus(letter as u8, address, packet.reg, data, answer)?;
    Ok(Relayed { write, length })
}

/// The write that runs has finished: its register takes its value, without
/// another look at its access byte. Order: 1, then 2; every place is 0.
pub fn finish_railbus(
    address: u8,
    registers: &mut [u32],
    access: &[u8],
    write: Remembered,
    answer: &mut [u8],
) -> Result<Relayed, Refusal> {
    ready(registers, access, answer)?;
    let Remembered::Running { reg, data } = write else {
        return Ok(Relayed { write, length: 0 });
    };
    let length = write_railbus(Letter::WriteDone as u8, address, reg, data, answer)?;
    registers[usize::from(reg)] = data;
    Ok(Relayed {
        write: Remembered::Finished { reg, data },
        length,
    })
}

/// What a device asks before anything else: first the room of the answer, then
/// registers and access bytes.
fn ready(registers: &[u32], access: &[u8], answer: &[u8]) -> Result<(), Refusal> {
    if answer.len() < RELAY_ROOM {
        return Err(Refusal::whole(OUTPUT_SHORT));
    }
    if !relay_valid(registers, access) {
        return Err(Refusal::whole(TABLE_NOT_VALID));
    }
    Ok(())
}

/// The answer to a packet for this device, if it gets one, and what is
/// remembered from then on.
fn respond(
    packet: Packet,
    registers: &[u32],
    access: &[u8],
    write: Remembered,
) -> Option<(Answer, Remembered)> {
    let at = usize::from(packet.reg);
    match packet.letter {
        Letter::Read => {
            let held = (Letter::ReadDone, registers[at]);
            Some((barred(access[at], READ).unwrap_or(held), write))
        }
        Letter::Write => Some(match barred(access[at], WRITE) {
            Some(refused) => (refused, write),
            None => receive(packet.reg, packet.data, write),
        }),
        Letter::Sync => Some(sync(write)),
        // Answers of other devices, or of this one.
        Letter::ReadDone | Letter::WriteDone | Letter::Absent | Letter::Special => None,
    }
}

/// The answer to a read or a write that the register's access byte bars. It
/// comes before the rules for copies of a write, so what is remembered stays.
fn barred(access: u8, needed: u8) -> Option<Answer> {
    match access {
        ABSENT => Some((Letter::Absent, 0)),
        _ if access & needed == 0 => Some((Letter::Special, FORBIDDEN)),
        _ => None,
    }
}

/// The answer to a copy of a write, the first or a later one. Only a write that
/// finds none running takes the place of what is remembered.
fn receive(reg: u8, data: u32, write: Remembered) -> (Answer, Remembered) {
    let running = Remembered::Running { reg, data };
    let finished = Remembered::Finished { reg, data };
    let (number, write) = match write {
        _ if write == running => (RETRANSMISSION, write),
        _ if write == finished => (DONE_BEFORE, write),
        Remembered::Running { .. } => (BUSY, write),
        Remembered::Idle | Remembered::Finished { .. } => (RECEIVED, running),
    };
    ((Letter::Special, number), write)
}

/// The answer to S, which looks at no register.
fn sync(write: Remembered) -> (Answer, Remembered) {
    let (number, write) = match write {
        Remembered::Running { .. } => (BUSY, write),
        Remembered::Idle | Remembered::Finished { .. } => (SYNCED, Remembered::Idle),
    };
    ((Letter::Special, number), write)
}
