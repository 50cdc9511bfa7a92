//! Railbus: a packet read, one written, and packets offered to a relay device:
//! the archive and the second implementation. What a device remembers is handed
//! in anew with each packet, so each call finds the same work.

use std::fmt::Debug;

use moortinker::sys;
use second::railbus::{read_railbus, write_railbus, Letter, Packet};
use second::relay::{offer_railbus, Relayed, Remembered};
use second::Refusal;

use crate::case::{Case, OURS, SECOND};
use crate::random::Random;

pub const READ: &str = "railbus-read";
pub const WRITE: &str = "railbus-write";
pub const OFFER: &str = "relay-offer";
/// The characters of a packet with data.
pub const LONG: usize = sys::MOOR_RELAY_ROOM;

/// So many different inputs are gone over in turn.
const INPUTS: usize = 128;
const ADDRESS: u8 = 0x93;
/// The register of the write that runs on the device.
const REGISTER: u8 = 4;

/// What a packet is written from, and room for it.
#[derive(Clone, Debug, PartialEq)]
struct Sheet {
    letter: u8,
    address: u8,
    reg: u8,
    data: u32,
    out: [u8; LONG],
}

impl Sheet {
    /// One of these letters, with anything else.
    fn new(random: &mut Random, letters: &[u8]) -> Self {
        Sheet {
            letter: letters[random.below(letters.len())],
            address: random.byte(),
            reg: random.byte(),
            data: random.next() as u32,
            out: [0; LONG],
        }
    }

    /// Fills its room, and gives how many characters stand there.
    fn fill(&mut self) -> usize {
        write_second(self).expect("room for any packet")
    }
}

/// A device on which a write runs, a packet for it, and room for its answer.
#[derive(Clone, Debug, PartialEq)]
struct Offered {
    packet: Vec<u8>,
    registers: Vec<u32>,
    access: Vec<u8>,
    data: u32,
    answer: [u8; LONG],
}

impl Offered {
    /// A request for the register that is written, every other time with its
    /// data.
    fn new(random: &mut Random) -> Self {
        let mut sheet = Sheet::new(random, b"RWWS");
        (sheet.address, sheet.reg) = (ADDRESS, REGISTER);
        let data = match random.below(2) {
            0 => sheet.data,
            _ => random.next() as u32,
        };
        let registers = (0..sys::MOOR_RELAY_REGISTERS).map(|_| random.next() as u32);
        let length = sheet.fill();
        Offered {
            packet: sheet.out[..length].to_vec(),
            registers: registers.collect(),
            access: vec![sys::MOOR_READ_WRITE; sys::MOOR_RELAY_REGISTERS],
            data,
            answer: [0; LONG],
        }
    }
}

pub fn read(size: usize) -> Result<Case, String> {
    let filled = |random: &mut Random| {
        let mut sheet = Sheet::new(random, b"WKIn");
        sheet.fill();
        sheet
    };
    case(READ, size, filled, read_ours, read_second, plain_packet)
}

pub fn write(size: usize) -> Result<Case, String> {
    let sheet = |random: &mut Random| Sheet::new(random, b"WKIn");
    case(WRITE, size, sheet, write_ours, write_second, plain_length)
}

pub fn offer(size: usize) -> Result<Case, String> {
    case(
        OFFER,
        size,
        Offered::new,
        offer_ours,
        offer_second,
        plain_relayed,
    )
}

/// A case of the archive and the second implementation, held to the same accepted
/// answers on the very inputs to be measured; `plain` puts the archive's answer
/// into the second's words.
fn case<I, R, T>(
    name: &'static str,
    size: usize,
    input: impl Fn(&mut Random) -> I,
    ours: fn(&mut I) -> R,
    theirs: fn(&mut I) -> Result<T, Refusal>,
    plain: fn(R) -> Result<T, Refusal>,
) -> Result<Case, String>
where
    I: Clone + Debug + PartialEq + 'static,
    R: 'static,
    T: Debug + PartialEq + 'static,
{
    let mut random = Random::new(size as u64);
    let inputs: Vec<I> = (0..INPUTS).map(|_| input(&mut random)).collect();
    for input in &inputs {
        let (mut own, mut other) = (input.clone(), input.clone());
        let (answer, other_answer) = (plain(ours(&mut own)), theirs(&mut other));
        if answer.is_err() || answer != other_answer || own != other {
            return Err(format!(
                "{name} of {input:02X?}: {OURS} {answer:02X?}, {SECOND} {other_answer:02X?}"
            ));
        }
    }
    Ok(Case::beside_second(name, size, ours, theirs, inputs))
}

fn read_ours(sheet: &mut Sheet) -> sys::RailbusRead {
    // SAFETY: the pointer is valid for the length given.
    unsafe { sys::moor_read_railbus(sheet.out.as_ptr(), sheet.out.len()) }
}

fn read_second(sheet: &mut Sheet) -> Result<Packet, Refusal> {
    read_railbus(&sheet.out)
}

fn plain_packet(read: sys::RailbusRead) -> Result<Packet, Refusal> {
    accepted(read.number, read.place)?;
    Ok(Packet {
        letter: Letter::of(read.letter).expect("one of the seven letters"),
        address: read.address,
        reg: read.reg,
        data: read.data,
        checked: read.checked == 1,
    })
}

fn write_ours(sheet: &mut Sheet) -> sys::Written {
    let out = &mut sheet.out;
    // SAFETY: the pointer is valid for the length given.
    unsafe {
        sys::moor_write_railbus(
            sheet.letter,
            sheet.address,
            sheet.reg,
            sheet.data,
            out.as_mut_ptr(),
            out.len(),
        )
    }
}

fn write_second(sheet: &mut Sheet) -> Result<usize, Refusal> {
    write_railbus(
        sheet.letter,
        sheet.address,
        sheet.reg,
        sheet.data,
        &mut sheet.out,
    )
}

fn plain_length(written: sys::Written) -> Result<usize, Refusal> {
    accepted(written.number, written.place)?;
    Ok(written.length)
}

fn offer_ours(offered: &mut Offered) -> sys::Relayed {
    let write = sys::Remembered {
        phase: sys::MOOR_RUNNING,
        reg: REGISTER,
        data: offered.data,
    };
    // SAFETY: each pointer comes with the length of its own list or buffer, and
    // these are apart.
    unsafe {
        sys::moor_offer_railbus(
            ADDRESS,
            offered.packet.as_ptr(),
            offered.packet.len(),
            offered.registers.as_ptr(),
            offered.registers.len(),
            offered.access.as_ptr(),
            offered.access.len(),
            write,
            offered.answer.as_mut_ptr(),
            offered.answer.len(),
        )
    }
}

fn offer_second(offered: &mut Offered) -> Result<Relayed, Refusal> {
    let write = Remembered::Running {
        reg: REGISTER,
        data: offered.data,
    };
    offer_railbus(
        ADDRESS,
        &offered.packet,
        &offered.registers,
        &offered.access,
        write,
        &mut offered.answer,
    )
}

/// With a write that runs, nothing that is offered changes what is remembered.
fn plain_relayed(relayed: sys::Relayed) -> Result<Relayed, Refusal> {
    accepted(relayed.number, relayed.place)?;
    let sys::Remembered { phase, reg, data } = relayed.write;
    let write = match phase {
        sys::MOOR_RUNNING => Remembered::Running { reg, data },
        _ => Remembered::Idle,
    };
    Ok(Relayed {
        write,
        length: relayed.length,
    })
}

fn accepted(number: u8, place: usize) -> Result<(), Refusal> {
    match number {
        sys::MOOR_ACCEPTED => Ok(()),
        _ => Err(Refusal { number, place }),
    }
}
