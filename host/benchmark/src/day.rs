//! A capture as a day on the bus gives it: exchanges of all three kinds with
//! idle time between them, of which some percent are repeated and some percent
//! go wrong. It is the same in every run.

use second::capture::report;

use crate::exchanges::{initiator, send, target, ACK, NACK, SYN};
use crate::random::Random;

/// About as many bytes as 2,400 baud take in a day.
pub const DAY: usize = 20_000_000;
/// A part of it whose walk is short enough for callgrind.
pub const PART: usize = 1_000_000;

const EVERYBODY: u8 = 0xFE;

/// The first bytes of the day, this many.
pub fn capture(size: usize) -> Vec<u8> {
    let mut random = Random::new(3);
    let mut capture = Vec::with_capacity(size + 1000);
    while capture.len() < size {
        idle_time(&mut random, &mut capture);
        match random.below(100) {
            0..=3 => refused(&mut random, &mut capture),
            4..=73 => to_target(&mut random, &mut capture),
            74..=91 => to_all(&mut random, &mut capture),
            _ => to_initiator(&mut random, &mut capture),
        }
    }
    capture.truncate(size);
    capture
}

/// What it holds.
pub fn describe(size: usize) -> String {
    let told = report(&capture(size));
    let refused: usize = told.refused.values().sum();
    format!(
        "{} exchanges: {} broadcasts, {} initiator/initiator, {} initiator/target, \
         {} retries, {refused} refused; {} bytes of none",
        told.exchanges,
        told.broadcasts,
        told.initiator_initiator,
        told.initiator_target,
        told.retries,
        told.skipped
    )
}

/// SYN, mostly few; and now and then the address of an initiator that gave way
/// to another.
fn idle_time(random: &mut Random, run: &mut Vec<u8>) {
    let most = if random.below(4) == 0 { 120 } else { 8 };
    for _ in 0..random.below(most) {
        run.push(SYN);
    }
    if random.below(30) == 0 {
        run.extend([initiator(random), SYN]);
    }
}

fn to_target(random: &mut Random, run: &mut Vec<u8>) {
    let to = target(random);
    command_until_acknowledged(random, to, run);
    reply_until_acknowledged(random, run);
    run.push(SYN);
}

fn to_all(random: &mut Random, run: &mut Vec<u8>) {
    command(random, EVERYBODY, 0, run);
    run.push(SYN);
}

fn to_initiator(random: &mut Random, run: &mut Vec<u8>) {
    let to = initiator(random);
    command_until_acknowledged(random, to, run);
    run.push(SYN);
}

/// An exchange that goes wrong: cut off by SYN, with a bit that fell over, behind
/// noise, or NACKed twice.
fn refused(random: &mut Random, run: &mut Vec<u8>) {
    let mut wrong = Vec::new();
    let to = target(random);
    match random.below(4) {
        0 => {
            to_target(random, &mut wrong);
            wrong.truncate(2 + random.below(wrong.len() - 3));
            wrong.push(SYN);
        }
        1 => {
            to_target(random, &mut wrong);
            let at = random.below(wrong.len());
            wrong[at] ^= 1 << random.below(8);
        }
        2 => {
            wrong.push(random.byte());
            to_target(random, &mut wrong);
        }
        _ => {
            command(random, to, 1, &mut wrong);
            wrong.push(NACK);
            command(random, to, 1, &mut wrong);
            wrong.extend([NACK, SYN]);
        }
    }
    run.extend(wrong);
}

/// One command in forty is NACKed and comes again.
fn command_until_acknowledged(random: &mut Random, to: u8, run: &mut Vec<u8>) {
    if random.below(40) == 0 {
        command(random, to, 1, run);
        run.push(NACK);
    }
    command(random, to, 0, run);
    run.push(ACK);
}

/// One reply in forty is NACKed and comes again.
fn reply_until_acknowledged(random: &mut Random, run: &mut Vec<u8>) {
    if random.below(40) == 0 {
        reply(random, 1, run);
        run.push(NACK);
    }
    reply(random, 0, run);
    run.push(ACK);
}

fn command(random: &mut Random, to: u8, flaw: u8, run: &mut Vec<u8>) {
    let length = length(random);
    let mut logical = vec![initiator(random), to, 0xB5, random.byte(), length as u8];
    logical.extend(random.bytes(length));
    send(&mut logical, flaw, run);
}

fn reply(random: &mut Random, flaw: u8, run: &mut Vec<u8>) {
    let length = length(random);
    let mut logical = vec![length as u8];
    logical.extend(random.bytes(length));
    send(&mut logical, flaw, run);
}

/// A LEN: mostly small, at times any.
fn length(random: &mut Random) -> usize {
    match random.below(4) {
        0 => random.below(17),
        _ => 1 + random.below(5),
    }
}
