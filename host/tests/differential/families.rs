//! The families of random inputs. Each goes on until it has compared its share
//! of the inputs that the run asks for.

use crate::board::{ask, contest, scan, table_valid, Asked, Board};
use crate::calls;
use crate::captures;
use crate::cuts::listening;
use crate::fill;
use crate::hands::in_hand;
use crate::idle;
use crate::inputs;
use crate::polling;
use crate::railbus;
use crate::random::Random;
use crate::relaying;
use crate::session::Session;
use crate::states::states;
use crate::tables;

/// A family: its name, its share, and one step of it.
type Family = (&'static str, u64, fn(&mut Session));

const FAMILIES: &[Family] = &[
    ("checks", 37, checks),
    ("checks of whole frames", 100, frame_checks),
    ("escapes", 104, escapes),
    ("telegrams", 81, telegrams),
    ("telegram writers", 67, telegram_writers),
    ("exchanges", 197, exchanges),
    ("exchanges behind idle time", 71, idle::exchanges),
    ("listening", 105, listening),
    ("listening from idle time on", 44, idle::listening),
    ("bytes in hand", 18, in_hand),
    ("states of any bytes", 30, states),
    ("captures", 85, captures::positions),
    ("walks over captures", 15, captures::walks),
    ("frames", 93, frames),
    ("FF before answers", 65, fill::answers),
    ("tables", 18, devices),
    ("sequences", 70, sequences),
    ("event frames", 45, polling::frames),
    ("FF before what comes back", 60, fill::events),
    ("event queues", 18, polling::single),
    ("polls", 77, polling::sequences),
    ("Railbus packets", 100, railbus::packets),
    ("relay devices", 25, relaying::single),
    ("relay sequences", 75, relaying::sequences),
];

/// Runs every family.
pub fn run_all(session: &mut Session) {
    let shares: u64 = FAMILIES.iter().map(|&(_, share, _)| share).sum();
    for &(name, share, step) in FAMILIES {
        let before = session.total();
        let inputs = session.inputs() * share / shares;
        println!("{name}: {inputs} inputs");
        while session.total() - before < inputs {
            step(session);
        }
    }
}

fn checks(session: &mut Session) {
    let length = session.random.length();
    let bytes = session.random.bytes(length);
    calls::ebus_check(session, &bytes);
    calls::modbus_check(session, &bytes);
}

/// The Modbus check of as many bytes as a frame has, both with two bytes a step
/// and with one.
fn frame_checks(session: &mut Session) {
    let length = 3 + session.random.below(253);
    let bytes = session.random.bytes(length);
    calls::modbus_check(session, &bytes);
}

fn escapes(session: &mut Session) {
    let random = &mut session.random;
    let length = random.length();
    let logical = random.bytes(length);
    let mut raw = inputs::expanded(&logical);
    let room = random.room(raw.len());
    let undone = match random.below(3) {
        0 => {
            inputs::damage(random, &mut raw);
            random.room(length)
        }
        1 => random.room(length),
        _ => {
            raw.clone_from(&logical);
            random.room(length)
        }
    };
    let at = position(random, raw.len());
    calls::expand(session, &logical, room);
    calls::undo(session, &raw, undone);
    calls::logical_at(session, &raw, at);
}

/// A position in a run: mostly inside it, at times far behind it.
pub fn position(random: &mut Random, length: usize) -> usize {
    match random.below(20) {
        0 => length,
        1 => length.saturating_sub(1),
        2 => random.pick(&[length + 1, usize::MAX, usize::MAX - 1, 1 << 63]),
        _ => random.below(length + 1),
    }
}

fn telegrams(session: &mut Session) {
    let random = &mut session.random;
    let run = inputs::run(random);
    let at = match random.below(3) {
        0 => position(random, run.len()),
        1 => random.below(8),
        _ => 0,
    };
    let command = !random.one_in(3);
    let mut logical = inputs::data(random);
    match random.below(4) {
        0 => {}
        1 => logical.push(random.byte()),
        _ => logical.push(second::checks::ebus_check(&logical)),
    }
    calls::telegram_at(session, &run, command, at);
    calls::check_right(session, &logical);
}

fn telegram_writers(session: &mut Session) {
    let random = &mut session.random;
    let mut head = [0; 4].map(|_: u8| random.byte());
    if !random.one_in(6) {
        head[0] = inputs::initiator(random);
    }
    let mut data = inputs::data(random);
    if random.one_in(10) {
        let length = 15 + random.below(5);
        data = random.bytes(length);
    } else if random.one_in(200) {
        let length = random.length();
        data = random.bytes(length);
    }
    let body = inputs::expanded(&data).len();
    let rooms = [random.room(body + 6), random.room(body + 2)];
    calls::write_command(session, head, &data, rooms[0]);
    calls::write_reply(session, &data, rooms[1]);
}

fn exchanges(session: &mut Session) {
    let random = &mut session.random;
    let run = inputs::run(random);
    let rooms = inputs::rooms(random);
    calls::judge(session, &run, rooms);
    if session.random.one_in(5) {
        let random = &mut session.random;
        let replies = [reply_buffer(random), reply_buffer(random)];
        let attempt = random.pick(&[1, 1, 2, 2, 0, 3, 0xFF]);
        calls::reply_data(session, &replies[0], &replies[1], attempt);
    }
}

/// Any bytes in place of a reply: its LEN is often near its length.
fn reply_buffer(random: &mut Random) -> Vec<u8> {
    let length = random.below(51);
    let mut buffer = random.bytes(length);
    if let Some(first) = buffer.first_mut() {
        *first = match random.below(4) {
            0 => *first,
            1 => (length + 1) as u8 - random.below(3) as u8,
            _ => random.below(19) as u8,
        };
    }
    buffer
}

fn frames(session: &mut Session) {
    let random = &mut session.random;
    let frame = inputs::frame(random);
    let answer = inputs::answer(random);
    calls::read_request(session, &frame);
    calls::read_answer(session, &answer);
    if session.random.one_in(3) {
        let random = &mut session.random;
        let (serial, address) = (inputs::serial(random), random.byte());
        let request = random.pick(&[1, 1, 2, 2, 0, 3, 4, 0xFF]);
        let rooms = [random.room(10), random.room(5), random.room(5)];
        calls::write_found(session, serial, address, rooms[0]);
        calls::write_request(session, request, rooms[1]);
        calls::write_end(session, rooms[2]);
    }
}

/// Single calls on a table that is often damaged.
fn devices(session: &mut Session) {
    let random = &mut session.random;
    let table = if random.one_in(3) {
        let count = tables::count(random);
        tables::valid(random, count)
    } else {
        tables::damaged(random)
    };
    let keys = keys(random, &table.serials);
    let mut board = Board::new(session, table);
    contest(session, &keys);
    table_valid(session, &board);
    call(session, &mut board);
}

/// Keys of a contest: any 32 bits, equal ones included, or those of devices.
fn keys(random: &mut Random, serials: &[u32]) -> Vec<u32> {
    if random.one_in(2) {
        let marked = |serial: &u32| serial | ((random.draw() as u32 & 1) * 0xF000_0000);
        return serials.iter().map(marked).collect();
    }
    let length = random.length().min(800);
    let mask = random.pick(&[u32::MAX, 0xFF, 0xF00F_0001, 0]);
    let base = random.draw() as u32 & !mask;
    (0..length)
        .map(|_| base | (random.draw() as u32 & mask))
        .collect()
}

/// A table and a list of calls on it, the marks carried along. After each call
/// the marks are held against what demand 3 says of the requests so far.
fn sequences(session: &mut Session) {
    let count = tables::count(&mut session.random);
    let table = tables::valid(&mut session.random, count);
    let mut board = Board::new(session, table);
    let mut requests = None;
    for _ in 0..=session.random.below(40) {
        match call(session, &mut board) {
            Call::Nothing => {}
            Call::Start => requests = Some(1),
            Call::Continue => requests = requests.map(|sent: usize| sent + 1),
            Call::Scan(sent) => requests = Some(sent),
        }
        if let Some(sent) = requests {
            assert_marks(session, &board, sent);
        }
    }
}

/// What a call was for the count of requests.
pub enum Call {
    Nothing,
    Start,
    Continue,
    Scan(usize),
}

/// One random call on the table. Scans of large tables are seldom, since they
/// take long.
pub fn call(session: &mut Session, board: &mut Board) -> Call {
    let random = &mut session.random;
    let room = match random.below(12) {
        0 => random.below(51),
        1 => 41,
        2..=6 => 42,
        _ => 42 + random.below(20),
    };
    let devices = board.table.serials.len();
    match random.below(12) {
        0 | 1 => called(ask(session, board, Asked::Start, room), Call::Start),
        2..=5 => called(ask(session, board, Asked::Resume, room), Call::Continue),
        6..=9 => offer(session, board, room),
        _ if devices > 40 && !random.one_in(8) => {
            called(ask(session, board, Asked::Resume, room), Call::Continue)
        }
        _ => whole_scan(session, board, devices),
    }
}

/// A request that is refused is none.
fn called(answered: Option<usize>, call: Call) -> Call {
    answered.map_or(Call::Nothing, |_| call)
}

/// Offers a right start or continue, or any frame.
fn offer(session: &mut Session, board: &mut Board, room: usize) -> Call {
    let random = &mut session.random;
    let frame = match random.below(6) {
        0 => vec![0xFD, 0x46, 0x01, 0x13, 0x90],
        1..=3 => vec![0xFD, 0x46, 0x02, 0x53, 0x91],
        _ => inputs::frame(random),
    };
    let answered = ask(session, board, Asked::Offer(&frame), room);
    let call = if frame.get(2) == Some(&1) {
        Call::Start
    } else {
        Call::Continue
    };
    called(answered, call)
}

/// A whole scan; of some the same requests are then made one by one.
fn whole_scan(session: &mut Session, board: &mut Board, devices: usize) -> Call {
    let random = &mut session.random;
    let rooms = [(); 2].map(|()| match random.below(12) {
        0 => devices.saturating_sub(1),
        1 => random.below(devices + 1),
        2..=6 => devices,
        _ => devices + random.below(20),
    });
    let cap = match random.below(8) {
        0 => random.below(2),
        1 | 2 => random.below(devices + 1),
        3 => devices,
        4 | 5 => devices + 1,
        6 => usize::MAX,
        _ => random.below(devices + 20),
    };
    let sent = if random.one_in(2) {
        fill::scan_and_repeat(session, board, rooms, cap)
    } else {
        scan(session, board, rooms, cap).map(|scanned| scanned.requests)
    };
    match sent {
        None | Some(0) => Call::Nothing,
        Some(sent) => Call::Scan(sent),
    }
}

/// Demand 3: "the marks after the sequence are 1 exactly at the m smallest
/// serials, or at all n if m is larger".
fn assert_marks(session: &Session, board: &Board, requests: usize) {
    let mut sorted = board.table.serials.clone();
    sorted.sort_unstable();
    for (serial, &mark) in board.table.serials.iter().zip(board.marks()) {
        let smaller = sorted.partition_point(|other| other < serial);
        let expected = u8::from(smaller < requests);
        let seed = session.seed();
        assert_eq!(
            mark, expected,
            "mark of serial {serial:08X} after {requests} requests among {sorted:08X?}, seed {seed:#X}"
        );
    }
}
