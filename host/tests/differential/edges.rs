//! Inputs that are named one by one: the rows and edges of the rules, one at
//! least for every number that a function may give, and whole neighbourhoods of
//! a few good inputs.

use crate::board::{ask, contest, scan, table_valid, Asked, Board};
use crate::calls;
use crate::captures;
use crate::eventedges;
use crate::fill::{self, scan_and_repeat};
use crate::hands::hear_with;
use crate::hearing::{Hearing, MOST_USED};
use crate::inputs::{expanded, ROOMS};
use crate::railbusedges;
use crate::session::Session;
use crate::tables::Table;

/// W7.
pub const EXCHANGE: [u8; 13] = [
    0x10, 0x08, 0xB5, 0x11, 0x01, 0x01, 0x89, 0x00, 0x01, 0x2A, 0xB1, 0x00, 0xAA,
];
const COMMAND: &[u8] = EXCHANGE.split_at(7).0;
const REPLY: &[u8] = &[0x01, 0x2A, 0xB1];
pub const START: [u8; 5] = [0xFD, 0x46, 0x01, 0x13, 0x90];
pub const CONTINUE: [u8; 5] = [0xFD, 0x46, 0x02, 0x53, 0x91];
pub const END: [u8; 5] = [0xFD, 0x46, 0x04, 0xD3, 0x93];
pub const FOUND: [u8; 10] = [0xFD, 0x46, 0x03, 0x00, 0x01, 0xEB, 0x37, 0x0C, 0xCE, 0xDC];

/// Runs all of them.
pub fn run_all(session: &mut Session) {
    for address in 0..=255 {
        calls::address(session, address);
    }
    every_pair_of_bytes(session);
    every_length(session);
    escapes(session);
    telegrams(session);
    exchanges(session);
    listening(session);
    captures::run_all(session);
    reply_data(session);
    frames(session);
    tables(session);
    scans(session);
    eventedges::run_all(session);
    fill::run_all(session);
    railbusedges::run_all(session);
}

/// The checks over every pair of bytes, alone, and for Modbus also at the end of
/// a run long enough to be taken by pairs, which meets every entry of both rows.
fn every_pair_of_bytes(session: &mut Session) {
    let mut long = [0x5A; 256];
    for first in 0..=255 {
        for second in 0..=255 {
            calls::ebus_check(session, &[first, second]);
            calls::modbus_check(session, &[first, second]);
            long[254..].copy_from_slice(&[first, second]);
            calls::modbus_check(session, &long);
        }
    }
}

/// The checks over a run of every length, past the longest frame.
fn every_length(session: &mut Session) {
    let bytes = session.random.bytes(300);
    for length in 0..=bytes.len() {
        calls::ebus_check(session, &bytes[..length]);
        calls::modbus_check(session, &bytes[..length]);
    }
}

fn escapes(session: &mut Session) {
    for raw in [
        &[][..],
        &[0xA9],
        &[0xA9, 0x00],
        &[0xA9, 0x01],
        &[0xA9, 0x02],
        &[0xA9, 0xAA],
        &[0xAA],
        &[0x01, 0xA9, 0x01, 0xA9],
    ] {
        for room in 0..4 {
            calls::undo(session, raw, room);
            calls::expand(session, raw, room);
        }
        for at in [0, 1, 2, 3, 4, 5, usize::MAX] {
            calls::logical_at(session, raw, at);
            calls::telegram_at(session, raw, true, at);
            calls::telegram_at(session, raw, false, at);
        }
        calls::check_right(session, raw);
    }
}

fn telegrams(session: &mut Session) {
    for at in 0..=EXCHANGE.len() {
        calls::telegram_at(session, &EXCHANGE, true, at);
        calls::telegram_at(session, &EXCHANGE, false, at);
        calls::check_right(session, &EXCHANGE[..at]);
    }
    for wrong in [
        &[0x02][..],
        &[0xA9, 0x00],
        &[0x10, 0xA9, 0x00],
        &[0x10, 0xA9, 0x01],
        &[0x10, 0x08, 0x01, 0x02, 0x11],
        &[0x10, 0x08, 0x01, 0x02, 0xA9, 0x01],
    ] {
        calls::telegram_at(session, wrong, true, 0);
    }
    for length in 0..20 {
        let payload = vec![0xAA; length];
        for room in 0..50 {
            calls::write_command(session, [0x10, 0x08, 0xA9, 0xAA], &payload, room);
            calls::write_command(session, [0x02, 0xA9, 0, 0], &payload, room);
            calls::write_command(session, [0x10, 0xA9, 0, 0], &payload, room);
            calls::write_command(session, [0x10, 0xAA, 0, 0], &payload, room);
            calls::write_reply(session, &payload, room);
        }
    }
}

/// Idle time with every kind of piece that is thrown away.
const IDLE: &[u8] = &[0xAA, 0xA9, 0xAA, 0x10, 0xAA, 0xFF, 0xA9, 0xAA];

/// Exchanges that are accepted: each kind, with and without repetitions, and
/// some behind idle time.
pub fn good_exchanges() -> Vec<Vec<u8>> {
    let broadcast = &[0x10, 0xFE, 0x07, 0xFE, 0x00][..];
    let initiator = &[0x31, 0x10, 0x07, 0x04, 0x01, 0xAA][..];
    let sixteen = &[[0x10, 0x08, 0xAA, 0xA9, 0x10].as_slice(), &[0xA9; 16]].concat()[..];
    let [broadcast, initiator, sixteen] = [broadcast, initiator, sixteen].map(checked);
    let twice = [COMMAND, &[0xFF], COMMAND].concat();
    let replies = [REPLY, &[0xFF], REPLY].concat();
    let good: [&[&[u8]]; 10] = [
        &[&EXCHANGE],
        &[&twice, &[0x00], &replies, &[0x00, 0xAA]],
        &[&broadcast, &[0xAA]],
        &[&initiator, &[0x00, 0xAA]],
        &[COMMAND, &[0xFF], &broadcast, &[0xAA]],
        &[COMMAND, &[0xFF], &initiator, &[0x00, 0xAA]],
        &[&twice, &[0x00], REPLY, &[0x00, 0xAA]],
        &[&sixteen, &[0x00], &replies, &[0x00, 0xAA]],
        &[IDLE, &twice, &[0x00], &replies, &[0x00, 0xAA]],
        &[IDLE, IDLE, &broadcast, &[0xAA]],
    ];
    good.map(<[_]>::concat).to_vec()
}

/// Exchanges that are refused at the second FF, one whose LEN is 17, idle time
/// without an exchange, and SYN where the second command is due.
pub fn refused_exchanges() -> Vec<Vec<u8>> {
    vec![
        [COMMAND, &[0xFF], COMMAND, &[0xFF, 0xAA]].concat(),
        [COMMAND, &[0x00], REPLY, &[0xFF], REPLY, &[0xFF, 0xAA]].concat(),
        vec![0x10, 0x08, 0x00, 0x00, 0x11],
        [0xAA; 70].to_vec(),
        [IDLE, COMMAND, &[0xFF], IDLE].concat(),
        [IDLE, COMMAND, &[0xFF, 0x10, 0xA9, 0xAA]].concat(),
    ]
}

fn exchanges(session: &mut Session) {
    for rooms in [[21, 18, 18], [22, 17, 18], [22, 18, 17], [0; 3], ROOMS] {
        calls::judge(session, &EXCHANGE, rooms);
        calls::judge(session, &[], rooms);
    }
    for run in good_exchanges() {
        for_each_neighbour(&run, |run| calls::judge(session, run, ROOMS));
    }
    for run in refused_exchanges() {
        calls::judge(session, &run, ROOMS);
    }
}

fn listening(session: &mut Session) {
    for run in good_exchanges() {
        for_each_neighbour(&run, |run| listen(session, run.chunks(1)));
        for_each_pair_of_cuts(&run, |runs| listen(session, runs.into_iter()));
    }
    for run in refused_exchanges() {
        listen(session, run.chunks(1));
        for_each_pair_of_cuts(&run, |runs| listen(session, runs.into_iter()));
    }
    short_at_every_byte(session);
    ending_at_every_byte(session);
    every_byte_behind_a_hand(session);
}

/// Both sides listen to these runs, are closed, and are fed and closed again.
fn listen<'a>(session: &mut Session, runs: impl Iterator<Item = &'a [u8]>) {
    let hearing = Hearing::new(session);
    listen_on(session, hearing, runs);
}

/// The same where listening has begun.
fn listen_on<'a>(
    session: &mut Session,
    mut hearing: Hearing,
    runs: impl Iterator<Item = &'a [u8]>,
) {
    for run in runs {
        hearing.feed(session, run);
    }
    hearing.close(session, ROOMS);
    hearing.feed(session, &EXCHANGE);
    hearing.close(session, ROOMS);
}

/// Every way to cut an input into three.
fn for_each_pair_of_cuts(input: &[u8], mut try_one: impl FnMut([&[u8]; 3])) {
    for second in 0..=input.len() {
        let (before, end) = input.split_at(second);
        for first in 0..=second {
            let (start, middle) = before.split_at(first);
            try_one([start, middle, end]);
        }
    }
}

/// Closings that are too short before each byte and behind the answer.
fn short_at_every_byte(session: &mut Session) {
    for run in good_exchanges().into_iter().chain(refused_exchanges()) {
        let mut hearing = Hearing::new(session);
        for byte in run.chunks(1) {
            for rooms in [[21, 18, 18], [22, 17, 18], [22, 18, 17], [0; 3]] {
                hearing.close(session, rooms);
            }
            hearing.feed(session, byte);
        }
        for rooms in [[0; 3], ROOMS, [22, 18, 17], ROOMS] {
            hearing.close(session, rooms);
        }
    }
}

/// Exchanges that start so late in a recording that the last byte that is used
/// is any of theirs, or one behind them.
fn ending_at_every_byte(session: &mut Session) {
    for run in good_exchanges().into_iter().chain(refused_exchanges()) {
        for left in 0..=run.len() + 1 {
            for length in [1, 3, run.len()] {
                let hearing = Hearing::starting_at(session, MOST_USED - left);
                listen_on(session, hearing, run.chunks(length));
            }
        }
    }
}

/// Any byte, and an exchange behind it, where up to three bytes of the first
/// command are in hand, early in a recording and at the end of what is used.
fn every_byte_behind_a_hand(session: &mut Session) {
    let telling = [0x10, 0xA9, 0xAA, 0x00, 0x02];
    let mut hands = vec![vec![]];
    for length in 0..3 {
        let longest = hands.iter().filter(|hand| hand.len() == length);
        let longer = longest.flat_map(|hand| telling.map(|byte| [&hand[..], &[byte]].concat()));
        hands.extend(longer.collect::<Vec<_>>());
    }
    for hand in hands {
        for byte in 0..=255 {
            let run = [&[byte][..], &EXCHANGE].concat();
            for start in [0, MOST_USED - hand.len() - 9] {
                hear_with(session, start, &hand, &run);
            }
        }
    }
}

/// Every LEN near the limits in buffers of every length near them.
fn reply_data(session: &mut Session) {
    for room in 0..20 {
        for length in [0, 1, 2, 15, 16, 17, 18, 0xA9, 0xFF] {
            let mut asked = vec![length];
            asked.resize(room, 0x2A);
            for attempt in [0, 1, 2, 3, 0xFF] {
                calls::reply_data(session, &asked, REPLY, attempt);
                calls::reply_data(session, REPLY, &asked, attempt);
                calls::reply_data(session, &[], &asked, attempt);
            }
        }
    }
}

/// The logical bytes with their check byte, on the wire.
fn checked(logical: &[u8]) -> Vec<u8> {
    let mut logical = logical.to_vec();
    logical.push(second::checks::ebus_check(&logical));
    expanded(&logical)
}

/// The input itself, every cut of it, every input with one byte left out, and
/// every input with one byte changed to or preceded by any other.
pub fn for_each_neighbour(input: &[u8], mut try_one: impl FnMut(&[u8])) {
    try_one(input);
    for at in 0..input.len() {
        let (before, behind) = input.split_at(at);
        try_one(before);
        try_one(&[before, &behind[1..]].concat());
        for byte in 0..=255 {
            try_one(&[before, &[byte], &behind[1..]].concat());
            try_one(&[before, &[byte], behind].concat());
        }
    }
}

fn frames(session: &mut Session) {
    let filled = [&[0xFF; 9], &FOUND[..]].concat();
    for frame in [&START[..], &CONTINUE, &END, &FOUND, &filled] {
        for_each_neighbour(frame, |input| {
            calls::read_request(session, input);
            calls::read_answer(session, input);
        });
    }
    let mut over = [0xFD, 0x46, 0x03, 0x10, 0, 0, 0, 0x0C, 0, 0];
    let check = second::checks::modbus_check(&over[..8]).to_le_bytes();
    over[8..].copy_from_slice(&check);
    calls::read_answer(session, &over);
    for room in 0..12 {
        for request in 0..=255 {
            calls::write_request(session, request, room);
        }
        for serial in [0, 0x0001_EB37, 0x0FFF_FFFF, 0x1000_0000, u32::MAX] {
            calls::write_found(session, serial, 0x0C, room);
        }
        calls::write_end(session, room);
    }
}

/// A table with these serials, addresses from 1 on and all marks 0.
fn table(serials: &[u32]) -> Table {
    Table {
        serials: serials.to_vec(),
        addresses: (1..).take(serials.len()).collect(),
        marks: vec![0; serials.len()],
    }
}

/// Tables on each side of an edge.
fn edge_tables() -> Vec<Table> {
    let most: Vec<u32> = (0..247).map(|at| (at * 100) % 247).collect();
    let too_many: Vec<u32> = (0..248).collect();
    let mut tables = vec![
        table(&[]),
        table(&[0]),
        table(&[0x0FFF_FFFF]),
        table(&[0x1000_0000]),
        table(&[7, 7]),
        table(&[0x0001_EB37, 5, 9]),
        table(&most),
        Table {
            serials: too_many,
            addresses: vec![1; 248],
            marks: vec![0; 248],
        },
    ];
    let two = table(&[3, 4]);
    for (addresses, marks) in [(1, 2), (3, 2), (2, 1), (2, 3), (0, 2), (2, 0)] {
        let mut uneven = two.clone();
        uneven.addresses.resize(addresses, 9);
        uneven.marks.resize(marks, 0);
        tables.push(uneven);
    }
    for mark in [1, 2, 255] {
        let mut marked = two.clone();
        marked.marks[1] = mark;
        tables.push(marked);
    }
    tables
}

fn tables(session: &mut Session) {
    for table in edge_tables() {
        contest(session, &table.serials);
        let board = Board::new(session, table);
        table_valid(session, &board);
    }
    for keys in [&[0][..], &[u32::MAX], &[5, 5], &[1 << 31, 1]] {
        contest(session, keys);
    }
}

fn scans(session: &mut Session) {
    for table in edge_tables() {
        let devices = table.serials.len();
        for room in [0, 41, 42, 43] {
            let mut board = Board::new(session, table.clone());
            for _ in 0..3 {
                ask(session, &mut board, Asked::Resume, room);
            }
            for frame in [&START[..], &CONTINUE, &END, &START[..4], &FOUND] {
                for_each_cut(frame, |frame| {
                    ask(session, &mut board, Asked::Offer(frame), room);
                });
            }
            ask(session, &mut board, Asked::Start, room);
        }
        for cap in [0, 1, 2, 3, 4, devices, devices + 1, usize::MAX] {
            let mut board = Board::new(session, table.clone());
            let short = devices.saturating_sub(1);
            scan_and_repeat(session, &mut board, [devices, devices], cap);
            scan_and_repeat(session, &mut board, [devices + 3, devices + 1], cap);
            scan(session, &mut board, [short, devices], cap);
            scan(session, &mut board, [devices, short], cap);
        }
    }
}

/// The frame, the frame without its last byte, and with each byte changed.
fn for_each_cut(frame: &[u8], mut try_one: impl FnMut(&[u8])) {
    try_one(frame);
    try_one(&frame[..frame.len() - 1]);
    for at in 0..frame.len() {
        let mut changed = frame.to_vec();
        changed[at] ^= 0x40;
        try_one(&changed);
    }
}
