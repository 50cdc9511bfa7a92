//! Recorded exchanges for the judge: long ones, with every telegram at full
//! length and sent twice, and short ones as they are most of the time.

use second::checks::ebus_check;

use crate::random::Random;

/// So many different exchanges are gone over in turn.
const EXCHANGES: usize = 128;
/// No long exchange has fewer raw bytes, and no short one fewer than the other.
pub const LONG: usize = 120;
pub const SHORT: usize = 13;

const INITIATORS: [u8; 5] = [0x10, 0x03, 0x31, 0x71, 0xFF];
const TARGETS: [u8; 6] = [0x08, 0x15, 0x26, 0x50, 0x52, 0x76];
pub const ACK: u8 = 0x00;
pub const NACK: u8 = 0xFF;
pub const SYN: u8 = 0xAA;

/// The exchanges of a size: long or short ones.
pub fn of(size: usize) -> Result<Vec<Vec<u8>>, String> {
    match size {
        LONG => Ok(long()),
        SHORT => Ok(short()),
        _ => Err(format!("there are no exchanges of size {size}")),
    }
}

/// LEN is 16 and most data bytes are A9 or AA; command and reply are each
/// NACKed once, their check byte being wrong every other time.
fn long() -> Vec<Vec<u8>> {
    let mut random = Random::new(1);
    let mut runs = Vec::new();
    while runs.len() < EXCHANGES {
        let mut run = Vec::new();
        let flaw = random.below(2) as u8;
        command(&mut random, 16, flaw, &mut run);
        run.push(NACK);
        command(&mut random, 16, 0, &mut run);
        run.push(ACK);
        reply(&mut random, 16, flaw, &mut run);
        run.push(NACK);
        reply(&mut random, 16, 0, &mut run);
        run.extend([ACK, SYN]);
        if run.len() >= LONG {
            runs.push(run);
        }
    }
    runs
}

/// One attempt each, and LEN is 1 to 4.
fn short() -> Vec<Vec<u8>> {
    let mut random = Random::new(2);
    let mut runs = Vec::new();
    while runs.len() < EXCHANGES {
        let mut run = Vec::new();
        let (asked, told) = (1 + random.below(4), 1 + random.below(4));
        command(&mut random, asked, 0, &mut run);
        run.push(ACK);
        reply(&mut random, told, 0, &mut run);
        run.extend([ACK, SYN]);
        runs.push(run);
    }
    runs
}

/// How long the exchanges of a size are.
pub fn describe(size: usize) -> Result<String, String> {
    let runs = of(size)?;
    let longest = runs.iter().map(Vec::len).max().unwrap_or(0);
    let mean = runs.iter().map(Vec::len).sum::<usize>() / runs.len();
    Ok(format!(
        "exchanges of {size} to {longest} raw bytes, {mean} in the mean"
    ))
}

fn command(random: &mut Random, length: usize, flaw: u8, run: &mut Vec<u8>) {
    let mut logical = vec![initiator(random), target(random)];
    logical.extend(data(random, 2, length));
    logical.push(length as u8);
    logical.extend(data(random, length, length));
    send(&mut logical, flaw, run);
}

fn reply(random: &mut Random, length: usize, flaw: u8, run: &mut Vec<u8>) {
    let mut logical = vec![length as u8];
    logical.extend(data(random, length, length));
    send(&mut logical, flaw, run);
}

/// Random bytes; in a telegram of full length seven of eight are A9 or AA.
fn data(random: &mut Random, count: usize, length: usize) -> Vec<u8> {
    let mut bytes = random.bytes(count);
    for byte in &mut bytes {
        if length == 16 && random.below(8) != 0 {
            *byte = 0xA9 + random.below(2) as u8;
        }
    }
    bytes
}

pub fn initiator(random: &mut Random) -> u8 {
    INITIATORS[random.below(INITIATORS.len())]
}

pub fn target(random: &mut Random) -> u8 {
    TARGETS[random.below(TARGETS.len())]
}

/// Puts the telegram on the wire with its check byte, wrong if there is a flaw.
pub fn send(logical: &mut Vec<u8>, flaw: u8, run: &mut Vec<u8>) {
    logical.push(ebus_check(logical) ^ flaw);
    for &byte in logical.iter() {
        match byte {
            0xA9 | 0xAA => run.extend([0xA9, byte - 0xA9]),
            _ => run.push(byte),
        }
    }
}
