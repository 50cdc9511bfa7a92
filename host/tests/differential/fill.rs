//! The FF before an answer: up to 32 are passed over and counted, and a 33rd is
//! refused. Random inputs and named ones for both readers, which are also held to
//! what they say of the same frame without its FF; the answers of devices, read
//! back; and scans, held to the same requests made one by one.

use crate::board::{ask, scan, Asked, Board};
use crate::calls;
use crate::edges::{for_each_neighbour, CONTINUE, END, FOUND, START};
use crate::eventedges::{checked, NO_EVENTS, PACKET};
use crate::eventframes;
use crate::inputs;
use crate::lent::hex;
use crate::random::Random;
use crate::session::Session;
use crate::tables::Table;

/// The most FF before an answer.
const MOST: usize = 32;

/// So many times a random frame is read behind other FF.
const TIMES: usize = 4;

/// What a reader says of an input: number, place, and how many FF it passed over.
pub type Told = (u8, usize, usize);

/// A reader, on both sides.
type Reader = fn(&mut Session, &[u8]) -> Told;

fn answer(session: &mut Session, input: &[u8]) -> Told {
    let read = calls::read_answer(session, input);
    (read.number, read.place, read.skipped)
}

fn come_back(session: &mut Session, input: &[u8]) -> Told {
    let read = calls::read_events(session, input);
    (read.number, read.place, read.skipped)
}

/// How many FF these bytes begin with.
pub fn leading(bytes: &[u8]) -> usize {
    bytes.iter().take_while(|&&byte| byte == 0xFF).count()
}

/// Whether no FF were passed over, some, or as many as may be.
pub fn extent(skipped: usize) -> u8 {
    match skipped {
        0 => 0,
        MOST => 2,
        _ => 1,
    }
}

/// What a reader must say of a frame behind so many FF more, where it has `all` of
/// them then, from what it says of the frame: success counts them and places do,
/// but for that of 13.
pub fn due_behind(told: Told, fill: usize, all: usize) -> Told {
    let (number, place, skipped) = told;
    match number {
        _ if all > MOST => (19, MOST, 0),
        0 => (0, 0, skipped + fill),
        13 => told,
        _ => (number, place + fill, 0),
    }
}

/// Reads a frame alone, and behind each of these numbers of FF more.
fn read_behind(session: &mut Session, reader: Reader, frame: &[u8], fills: &[usize]) {
    let alone = reader(session, frame);
    for &fill in fills {
        let input = [&vec![0xFF; fill][..], frame].concat();
        let told = reader(session, &input);
        let due = due_behind(alone, fill, leading(&input));
        let seed = session.seed();
        assert_eq!(told, due, "{fill} FF, {}, seed {seed:#X}", hex(frame));
    }
}

/// Answers behind FF.
pub fn answers(session: &mut Session) {
    let (fills, frame) = drawn(&mut session.random, inputs::frame);
    read_behind(session, answer, &frame, &fills);
}

/// What comes back for an event request behind FF.
pub fn events(session: &mut Session) {
    let (fills, frame) = drawn(&mut session.random, eventframes::sent_back);
    read_behind(session, come_back, &frame, &fills);
}

/// Numbers of FF, and what stands behind them: mostly a frame, at times nothing or
/// too little for one.
pub fn drawn(random: &mut Random, frame: fn(&mut Random) -> Vec<u8>) -> ([usize; TIMES], Vec<u8>) {
    let fills = [(); TIMES].map(|()| inputs::fill(random));
    let behind = match random.below(12) {
        0 => Vec::new(),
        1 => {
            let length = random.below(5);
            random.bytes(length)
        }
        _ => frame(random),
    };
    (fills, behind)
}

/// Runs the inputs that are named one by one.
pub fn run_all(session: &mut Session) {
    let over = checked(&[0xFD, 0x46, 0x03, 0x10, 0, 0, 0, 0x0C]);
    named(session, answer, [&END, &FOUND], [&START, &over]);
    let unqueued = checked(&[0x05, 0x46, 0x11, 0, 0, 4, 0, 0x0F, 0, 0]);
    named(session, come_back, [&NO_EVENTS, &PACKET], [&END, &unqueued]);
}

/// Two right frames and two wrong ones: each, and each with a fault of every kind,
/// behind every number of FF near the most and behind thousands; and what is a
/// byte beside a right one behind the most and behind one FF more.
fn named(session: &mut Session, reader: Reader, right: [&[u8]; 2], wrong: [&[u8]; 2]) {
    let fills: Vec<usize> = (1..=41).chain([1000, 4096, 30_000]).collect();
    read_behind(session, reader, &[], &fills);
    for frame in [right, wrong].concat() {
        for_each_fault(frame, |faulty| read_behind(session, reader, faulty, &fills));
    }
    for frame in right {
        for fill in [MOST, MOST + 1] {
            let input = [&vec![0xFF; fill][..], frame].concat();
            for_each_neighbour(&input, |input| {
                reader(session, input);
            });
        }
    }
}

/// The frame, what there is of it where too few bytes are left, a byte too few, a
/// byte too many, and another byte at the head and in the check.
fn for_each_fault(frame: &[u8], mut try_one: impl FnMut(&[u8])) {
    let end = frame.len();
    try_one(frame);
    try_one(&frame[..4]);
    try_one(&frame[..end - 1]);
    try_one(&[frame, &[0x00]].concat());
    for at in [0, 1, 2, end - 2, end - 1] {
        let mut wrong = frame.to_vec();
        wrong[at] ^= 0x40;
        try_one(&wrong);
    }
}

/// Reads what devices answered to a request of a scan. Gives how many FF it begins
/// with, of silence 0.
pub fn counted_answer(session: &mut Session, bytes: &[u8]) -> usize {
    counted(session, answer, bytes)
}

/// Reads what devices answered to a poll. Gives how many FF it begins with, of
/// silence 0.
pub fn counted_events(session: &mut Session, bytes: &[u8]) -> usize {
    counted(session, come_back, bytes)
}

/// A reader takes what devices answer, and counts the FF that it begins with.
fn counted(session: &mut Session, reader: Reader, bytes: &[u8]) -> usize {
    let fill = leading(bytes);
    if !bytes.is_empty() {
        let told = reader(session, bytes);
        let seed = session.seed();
        assert_eq!(told, (0, 0, fill), "{}, seed {seed:#X}", hex(bytes));
    }
    fill
}

/// Scans on both sides, and makes the same requests one by one on the table as it
/// stood: the FF before their answers, as the reader counts them, are together
/// those of the scan, and the marks are the same. Gives the requests sent, or none
/// when refused.
pub fn scan_and_repeat(
    session: &mut Session,
    board: &mut Board,
    rooms: [usize; 2],
    cap: usize,
) -> Option<usize> {
    let before = Table {
        marks: board.marks().to_vec(),
        ..board.table.clone()
    };
    let scanned = scan(session, board, rooms, cap)?;
    let mut again = Board::new(session, before);
    let mut skipped = 0;
    for sent in 0..scanned.requests {
        let asked = match (sent, session.random.one_in(2)) {
            (0, false) => Asked::Start,
            (0, true) => Asked::Offer(&START),
            (_, false) => Asked::Resume,
            (_, true) => Asked::Offer(&CONTINUE),
        };
        let counted = ask(session, &mut again, asked, 42);
        skipped += counted.expect("the scan's table takes its requests");
    }
    assert_eq!(
        (skipped, again.marks()),
        (scanned.skipped, board.marks()),
        "FF of {} requests one by one and of the scan, serials {}, seed {:#X}",
        scanned.requests,
        hex(&board.table.serials),
        session.seed()
    );
    Some(scanned.requests)
}
