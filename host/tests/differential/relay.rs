//! A relay device, its registers once for each side, and the calls on it made on
//! both. What a call leaves is carried to the next.

use moortinker::sys;
use second::railbus::{read_railbus, Letter};
use second::refusal::Refusal;
use second::relay::{self, finish_railbus, offer_railbus, Relayed};

use crate::lent::{hex, Lent};
use crate::session::{same, Form, Function, Session};

/// A relay device as lent to both sides.
pub struct Device {
    pub address: u8,
    /// The write that it remembers, as it is handed in: any bytes.
    pub write: sys::Remembered,
    pub archive: Lent<u32>,
    pub second: Lent<u32>,
    pub access: Lent<u8>,
    kept_access: Lent<u8>,
}

/// A call on a device.
#[derive(Clone, Copy)]
pub enum Asked<'a> {
    Offer(&'a [u8]),
    Finish,
}

impl Asked<'_> {
    fn function(self) -> Function {
        match self {
            Asked::Offer(_) => Function::OfferRailbus,
            Asked::Finish => Function::FinishRailbus,
        }
    }

    /// The packet offered, none at a finish.
    fn packet(&self) -> &[u8] {
        match self {
            Asked::Offer(packet) => packet,
            Asked::Finish => &[],
        }
    }
}

impl Device {
    pub fn new(
        session: &mut Session,
        address: u8,
        write: sys::Remembered,
        registers: &[u32],
        access: &[u8],
    ) -> Self {
        let registers = session.lend(registers);
        let access = session.lend(access);
        Device {
            address,
            write,
            archive: registers.clone(),
            second: registers,
            kept_access: access.clone(),
            access,
        }
    }

    /// The caller puts another value into a register.
    pub fn put(&mut self, register: u8, value: u32) {
        for registers in [&mut self.archive, &mut self.second] {
            registers.part_mut()[usize::from(register)] = value;
        }
    }

    /// The caller changes an access byte.
    pub fn allow(&mut self, register: u8, access: u8) {
        for bytes in [&mut self.access, &mut self.kept_access] {
            bytes.part_mut()[usize::from(register)] = access;
        }
    }

    /// Compares the registers, and the access bytes with what they were.
    pub fn compare(&self) -> Result<(), String> {
        same("registers", &self.archive, &self.second)
            .and_then(|()| same("access bytes", &self.access, &self.kept_access))
    }

    /// The address, what was remembered before the call, the registers behind
    /// it, and the access bytes.
    fn text(&self) -> String {
        let (registers, access) = (hex(self.second.part()), hex(self.access.part()));
        let Device { address, write, .. } = self;
        format!("{address:02X} {write:02X?} {registers} {access}")
    }
}

/// What is remembered, as the second implementation has it: any phase but two is
/// none.
pub fn remembered(write: sys::Remembered) -> relay::Remembered {
    let sys::Remembered { phase, reg, data } = write;
    match phase {
        sys::MOOR_RUNNING => relay::Remembered::Running { reg, data },
        sys::MOOR_FINISHED => relay::Remembered::Finished { reg, data },
        _ => relay::Remembered::Idle,
    }
}

/// What is remembered, as the archive lays it out.
pub fn laid_out(write: relay::Remembered) -> sys::Remembered {
    let (phase, reg, data) = match write {
        relay::Remembered::Idle => (sys::MOOR_IDLE, 0, 0),
        relay::Remembered::Running { reg, data } => (sys::MOOR_RUNNING, reg, data),
        relay::Remembered::Finished { reg, data } => (sys::MOOR_FINISHED, reg, data),
    };
    sys::Remembered { phase, reg, data }
}

pub fn relay_valid(session: &mut Session, device: &Device) {
    let (registers, access) = (&device.archive, &device.access);
    // SAFETY: each pointer comes with its length.
    let archive = unsafe {
        sys::moor_relay_valid(
            registers.pointer(),
            registers.length(),
            access.pointer(),
            access.length(),
        )
    };
    let second = relay::relay_valid(device.second.part(), access.part());
    let compared = same("answer", &archive, &second).and_then(|()| device.compare());
    session.settle(Function::RelayValid, 0, compared, || device.text());
    session.note(Function::RelayValid, [u8::from(second), 0, 0]);
}

/// Makes a call on both sides. Gives the answer's characters, or none when
/// refused.
pub fn ask(
    session: &mut Session,
    device: &mut Device,
    asked: Asked,
    room: usize,
) -> Option<Vec<u8>> {
    let packet = session.lend(asked.packet());
    let kept = packet.clone();
    let mut archive_answer = session.room(room);
    let mut second_answer = archive_answer.clone();
    let archive = match asked {
        Asked::Offer(_) => offer_archive(device, &packet, &mut archive_answer),
        Asked::Finish => finish_archive(device, &mut archive_answer),
    };
    let second = ask_second(device, asked, second_answer.part_mut());
    let compared = same("answer", &archive, &second)
        .and_then(|()| same("answer buffer", &archive_answer, &second_answer))
        .and_then(|()| device.compare())
        .and_then(|()| same("packet", &packet, &kept));
    let function = asked.function();
    session.settle(function, second.number, compared, || {
        let packet = asked.packet().escape_ascii();
        format!("{packet} room {room} {}", device.text())
    });
    let accepted = second.number == 0;
    let answer = accepted.then(|| archive_answer.part()[..second.length].to_vec());
    if let Some(answer) = &answer {
        session.note(function, form(device, asked, answer));
    }
    device.write = archive.write;
    answer
}

/// The phase that was handed in, 3 for one that there is not. Of an offer, the
/// letter of a packet for this device, 0 for another; and what is answered, as
/// `told` gives it. Of a finish, whether it is answered, and of an answer the
/// access byte of the register.
fn form(device: &Device, asked: Asked, answer: &[u8]) -> Form {
    let sys::Remembered { phase, reg, .. } = device.write;
    let phase = phase.min(3);
    match asked {
        Asked::Offer(packet) => {
            let packet = read_railbus(packet).expect("it was taken");
            let own = packet.address == device.address;
            let letter = if own { packet.letter as u8 } else { 0 };
            [phase, letter, told(answer)]
        }
        Asked::Finish if answer.is_empty() => [phase, 0, 0],
        Asked::Finish => [phase, 1, device.access.part()[usize::from(reg)]],
    }
}

/// The number of an n, the letter of another answer, 0 for none.
fn told(answer: &[u8]) -> u8 {
    if answer.is_empty() {
        return 0;
    }
    let answer = read_railbus(answer).expect("an answer of the device");
    match answer.letter {
        Letter::Special => answer.data as u8,
        letter => letter as u8,
    }
}

fn offer_archive(device: &Device, packet: &Lent<u8>, answer: &mut Lent<u8>) -> sys::Relayed {
    // SAFETY: each pointer comes with its length, and the buffers lie apart.
    unsafe {
        sys::moor_offer_railbus(
            device.address,
            packet.pointer(),
            packet.length(),
            device.archive.pointer(),
            device.archive.length(),
            device.access.pointer(),
            device.access.length(),
            device.write,
            answer.pointer_mut(),
            answer.length(),
        )
    }
}

fn finish_archive(device: &mut Device, answer: &mut Lent<u8>) -> sys::Relayed {
    // SAFETY: each pointer comes with its length, and the buffers lie apart.
    unsafe {
        sys::moor_finish_railbus(
            device.address,
            device.archive.pointer_mut(),
            device.archive.length(),
            device.access.pointer(),
            device.access.length(),
            device.write,
            answer.pointer_mut(),
            answer.length(),
        )
    }
}

fn ask_second(device: &mut Device, asked: Asked, answer: &mut [u8]) -> sys::Relayed {
    let (address, write) = (device.address, remembered(device.write));
    let (registers, access) = (device.second.part_mut(), device.access.part());
    let relayed = match asked {
        Asked::Offer(packet) => offer_railbus(address, packet, registers, access, write, answer),
        Asked::Finish => finish_railbus(address, registers, access, write, answer),
    };
    let (number, place, write, length) = match relayed {
        Ok(Relayed { write, length }) => (0, 0, write, length),
        Err(Refusal { number, place }) => (number, place, write, 0),
    };
    sys::Relayed {
        number,
        write: laid_out(write),
        place,
        length,
    }
}
