//! The families of random inputs for relay devices: single calls on any device,
//! and long sequences of packets and finishes on one device.

use moortinker::sys;
use second::railbus::{read_railbus, Letter, Packet, LONG};
use second::relay::{READ_WRITE, RELAY_REGISTERS};

use crate::railbus::{self, Content, LETTERS};
use crate::random::Random;
use crate::relay::{ask, relay_valid, Asked, Device};
use crate::session::Session;

/// Single calls on a device that is often not valid, and may remember anything.
pub fn single(session: &mut Session) {
    let random = &mut session.random;
    let few = Few::new(random);
    let address = random.byte();
    let write = any_write(random, &few);
    let mut registers = registers(random);
    let mut access = access(random);
    if random.one_in(4) {
        damage(random, &mut registers, &mut access);
    }
    let mut device = Device::new(session, address, write, &registers, &access);
    relay_valid(session, &device);
    for _ in 0..3 {
        device.write = any_write(&mut session.random, &few);
        call(session, &mut device, &few);
    }
}

/// What a device holds.
fn registers(random: &mut Random) -> Vec<u32> {
    (0..RELAY_REGISTERS).map(|_| random.draw() as u32).collect()
}

/// Access bytes: any, all alike, or all but a few alike.
fn access(random: &mut Random) -> Vec<u8> {
    let any = |random: &mut Random| random.below(1 + usize::from(READ_WRITE)) as u8;
    let most = any(random);
    let others = random.pick(&[1, 2, 8, 1000]);
    let byte = |_| match random.one_in(others) {
        true => any(random),
        false => most,
    };
    (0..RELAY_REGISTERS).map(byte).collect()
}

/// Another number of one of the two, or an access byte that there is not or just
/// about so.
fn damage(random: &mut Random, registers: &mut Vec<u32>, access: &mut Vec<u8>) {
    let length = match random.below(4) {
        0 => random.below(600),
        _ => random.pick(&[RELAY_REGISTERS - 1, RELAY_REGISTERS + 1, 0]),
    };
    match random.below(4) {
        0 => registers.resize(length, 0),
        1 => access.resize(length, 0),
        _ => {
            let end = RELAY_REGISTERS - 1;
            let any = random.below(RELAY_REGISTERS);
            let at = random.pick(&[any, any, 0, end]);
            access[at] = random.pick(&[READ_WRITE, READ_WRITE + 1, 7, 0x83, 0xFF]);
        }
    }
}

/// A few registers and data, so that the same write comes again.
struct Few {
    registers: Vec<u8>,
    data: Vec<u32>,
}

impl Few {
    fn new(random: &mut Random) -> Self {
        let count = 1 + random.below(3);
        Few {
            registers: (0..count).map(|_| random.byte()).collect(),
            data: (0..count).map(|_| railbus::data(random)).collect(),
        }
    }

    /// A register and data: mostly of the few, at times one bit beside them.
    fn write(&self, random: &mut Random) -> (u8, u32) {
        let (reg, data) = (random.pick(&self.registers), random.pick(&self.data));
        match random.below(12) {
            0 => (random.byte(), data),
            1 => (reg, data ^ 1 << random.below(32)),
            2 => (reg ^ 1 << random.below(8), data),
            _ => (reg, data),
        }
    }
}

/// What a device remembers, made by hand: any bytes.
fn any_write(random: &mut Random, few: &Few) -> sys::Remembered {
    let any = random.draw() as u8;
    let phase = random.pick(&[0, 1, 1, 1, 2, 2, 2, 3, 255, any]);
    let (reg, data) = few.write(random);
    sys::Remembered { phase, reg, data }
}

/// A finish, or a packet, with an answer buffer that is mostly long enough. Gives
/// the packet that was taken, if there was one, and the answer.
fn call(
    session: &mut Session,
    device: &mut Device,
    few: &Few,
) -> Option<(Option<Packet>, Vec<u8>)> {
    let random = &mut session.random;
    let room = match random.below(16) {
        0 => random.below(LONG),
        1 => LONG - 1,
        2..=8 => LONG,
        _ => LONG + random.below(20),
    };
    if random.one_in(5) {
        let answer = ask(session, device, Asked::Finish, room)?;
        return Some((None, answer));
    }
    let content = content(random, device.address, few);
    let packet = if random.one_in(6) {
        railbus::packet(random, content)
    } else {
        sent(random, content)
    };
    let answer = ask(session, device, Asked::Offer(&packet), room)?;
    let packet = read_railbus(&packet).expect("the device took it");
    Some((Some(packet), answer))
}

/// What a packet says: mostly for this device, and mostly a request.
fn content(random: &mut Random, address: u8, few: &Few) -> Content {
    let letter = match random.below(8) {
        0 => random.pick(&LETTERS),
        _ => random.pick(b"RWWWWWSS"),
    };
    let address = match random.below(20) {
        0 => random.byte(),
        1 => address ^ 1 << random.below(8),
        _ => address,
    };
    let (reg, data) = few.write(random);
    Content {
        letter,
        address,
        reg,
        data,
    }
}

/// A right packet, with its checksum or without.
fn sent(random: &mut Random, content: Content) -> Vec<u8> {
    let mut packet = railbus::written(content);
    if random.one_in(4) {
        packet.truncate(packet.len() - 2);
        let unexamined = random.draw() as u8 & 0x7F;
        packet = railbus::with_checksum(&packet, unexamined);
    }
    packet
}

/// A device and a long list of packets, finishes, and changes that its owner
/// makes. After each the registers are held against what request 5 says of the
/// answers so far.
pub fn sequences(session: &mut Session) {
    let random = &mut session.random;
    let few = Few::new(random);
    let address = random.byte();
    let write = any_write(random, &few);
    let (registers, access) = (registers(random), access(random));
    let calls = 1 + random.below(200);
    let mut device = Device::new(session, address, write, &registers, &access);
    let mut told = Told::of(&device);
    for _ in 0..calls {
        if session.random.one_in(12) {
            change(&mut session.random, &mut device, &few);
            told.registers = device.archive.part().to_vec();
        }
        if let Some((packet, answer)) = call(session, &mut device, &few) {
            told.hear(packet, &answer);
        }
        let seed = session.seed();
        assert_eq!(device.archive.part(), told.registers, "seed {seed:#X}");
        if session.random.one_in(50) {
            relay_valid(session, &device);
        }
    }
}

/// The owner of a device gives it another address, or puts another value or
/// another access byte to a register.
fn change(random: &mut Random, device: &mut Device, few: &Few) {
    let (register, value) = few.write(random);
    match random.below(4) {
        0 => device.address = random.byte(),
        1 => device.put(register, value),
        _ => device.allow(register, random.below(4) as u8),
    }
}

/// What the answers of a device tell of it.
struct Told {
    registers: Vec<u32>,
    /// The write that runs.
    running: Option<(u8, u32)>,
    /// The write that has finished.
    finished: Option<(u8, u32)>,
}

impl Told {
    fn of(device: &Device) -> Self {
        let sys::Remembered { phase, reg, data } = device.write;
        Told {
            registers: device.archive.part().to_vec(),
            running: (phase == sys::MOOR_RUNNING).then_some((reg, data)),
            finished: (phase == sys::MOOR_FINISHED).then_some((reg, data)),
        }
    }

    /// What is answered to a packet, or to a finish where there is none.
    fn hear(&mut self, packet: Option<Packet>, answer: &[u8]) {
        if answer.is_empty() {
            assert!(packet.is_some() || self.running.is_none());
            return;
        }
        let answer = read_railbus(answer).expect("an answer of the device");
        match packet {
            None => self.hear_finish(answer),
            Some(packet) => self.hear_answer(packet, answer),
        }
    }

    /// "The register then takes its value and I goes out."
    fn hear_finish(&mut self, answer: Packet) {
        let written = (answer.reg, answer.data);
        assert_eq!(answer.letter, Letter::WriteDone);
        assert_eq!(self.running.take(), Some(written));
        self.finished = Some(written);
        self.registers[usize::from(answer.reg)] = answer.data;
    }

    /// "The first copy gets n 01, a copy with the same register and data 02 while
    /// running and 03 after it finished, a different write 08 while running and 01
    /// afterwards"; "S gets 08 while one runs; else it clears any finished write
    /// and gets 10."
    fn hear_answer(&mut self, packet: Packet, answer: Packet) {
        assert_eq!((answer.address, answer.reg), (packet.address, packet.reg));
        let copy = (packet.letter == Letter::Write).then_some((packet.reg, packet.data));
        match (answer.letter, answer.data) {
            (Letter::ReadDone, held) => {
                assert_eq!(held, self.registers[usize::from(packet.reg)]);
            }
            (Letter::Special, 0x01) => {
                assert!(self.running.is_none() && self.finished != copy);
                (self.running, self.finished) = (copy, None);
            }
            (Letter::Special, 0x02) => assert_eq!(self.running, copy),
            (Letter::Special, 0x03) => assert_eq!(self.finished, copy),
            (Letter::Special, 0x08) => {
                assert!(self.running.is_some() && self.running != copy);
            }
            (Letter::Special, 0x10) => {
                assert!(copy.is_none() && self.running.is_none());
                self.finished = None;
            }
            (letter, data) => assert!(
                letter == Letter::Absent || (letter, data) == (Letter::Special, 0x07),
                "{answer:?}"
            ),
        }
    }
}
