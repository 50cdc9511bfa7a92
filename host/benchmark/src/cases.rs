//! All cases, and how one is made from its name and size.

use crate::case::Case;
use crate::{checks, contest, day, exchanges, feed, idle, judge, poll, railbus, scan, table, walk};

/// Numbers of keys and of devices.
const NUMBERS: [usize; 4] = [1, 16, 64, scan::MOST];

/// Sizes of exchanges.
const EXCHANGES: [usize; 2] = [exchanges::LONG, exchanges::SHORT];

/// Lengths of captures.
const CAPTURES: [usize; 2] = [day::PART, day::DAY];

/// Lengths of frames. The first that goes by the rows is 64; of these 85.
const FRAMES: [usize; 20] = [
    5, 7, 9, 13, 17, 21, 25, 29, 33, 35, 36, 37, 45, 61, 85, 101, 133, 165, 205, 255,
];

/// Every case with its sizes, in the order in which they are measured.
pub const ALL: [(&str, &[usize]); 17] = [
    (checks::MODBUS, &[8, 64, 256, 4096]),
    (checks::FRAMES, &FRAMES),
    (checks::EBUS, &[8, 20, 64, 256]),
    (judge::JUDGE, &EXCHANGES),
    (feed::FEED_64, &EXCHANGES),
    (feed::FEED_1, &EXCHANGES),
    (idle::IDLE, &[64, 4096, idle::SYNS]),
    (walk::WALK, &CAPTURES),
    (walk::WALK_64, &CAPTURES),
    (contest::CONTEST, &NUMBERS),
    (table::VALID, &NUMBERS),
    (table::START, &NUMBERS),
    (scan::SCAN, &NUMBERS),
    (poll::POLL, &[31, 124, scan::MOST]),
    (railbus::READ, &[railbus::LONG]),
    (railbus::WRITE, &[railbus::LONG]),
    (railbus::OFFER, &[railbus::LONG]),
];

/// Whether the instructions of a case are counted. Those of a whole day would
/// take callgrind many minutes, and each byte takes as many as one of its part.
pub fn counted(name: &str, size: usize) -> bool {
    !(matches!(name, walk::WALK | walk::WALK_64) && size == day::DAY)
}

/// Makes the inputs and compares the candidates' answers on them; an error is
/// a difference.
pub fn make(name: &str, size: usize) -> Result<Case, String> {
    match name {
        checks::MODBUS => checks::modbus(size),
        checks::FRAMES => checks::frames(size),
        checks::EBUS => checks::ebus(size),
        judge::JUDGE => judge::judge(size),
        feed::FEED_64 => feed::feed_64(size),
        feed::FEED_1 => feed::feed_1(size),
        idle::IDLE => idle::idle(size),
        walk::WALK => walk::walk(size),
        walk::WALK_64 => walk::walk_64(size),
        contest::CONTEST => contest::contest(size),
        table::VALID => table::valid(size),
        table::START => table::start(size),
        scan::SCAN => scan::scan(size),
        poll::POLL => poll::poll(size),
        railbus::READ => railbus::read(size),
        railbus::WRITE => railbus::write(size),
        railbus::OFFER => railbus::offer(size),
        _ => Err(format!("there is no case {name}")),
    }
}
