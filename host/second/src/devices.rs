//! The devices' side of a Fast Modbus scan on a perfect bus: the device table,
//! arbitration, the answers to requests, and a whole scan.

use crate::frames::{read_request, write_end, write_found, Request, FILL};
use crate::refusal::{Refusal, OUTPUT_SHORT, TABLE_NOT_VALID};

/// The largest device table.
pub const MOST_DEVICES: usize = 247;
/// Serials are below this.
pub const SERIAL_LIMIT: u32 = 1 << 28;
/// The room that an answer asks for: 32 FF and a frame of 10 bytes.
pub const ANSWER_ROOM: usize = 42;

/// The mark bits of a scanned device; those of an unscanned one are 0.
const SCANNED_BITS: u32 = 15 << 28;

/// What a contest gives: the key that remains, and how many windows were
/// dominant.
#[derive(Clone, Copy, Debug, PartialEq, Eq)]
pub struct Decided {
    pub key: u32,
    pub dominant: usize,
}

/// How a whole scan ended; the values are those of `moortinker.h`.
#[derive(Clone, Copy, Debug, PartialEq, Eq)]
pub enum ScanEnd {
    Complete = 1,
    Nobody = 2,
    Unfinished = 3,
}

/// A whole scan: its end, the requests sent, how many devices were heard, and
/// how many FF stood before all its answers together, the end's included.
#[derive(Clone, Copy, Debug, PartialEq, Eq)]
pub struct Scanned {
    pub end: ScanEnd,
    pub requests: usize,
    pub found: usize,
    pub skipped: usize,
}

/// What a request brings about on the bus.
enum Heard {
    Silence,
    /// An unscanned device won, and its mark is now 1.
    Found {
        device: usize,
        dominant: usize,
    },
    /// A scanned device won.
    End {
        dominant: usize,
    },
}

/// Whether the three columns are a device table. Equal addresses are allowed.
pub fn table_valid(serials: &[u32], addresses: &[u8], marks: &[u8]) -> bool {
    serials.len() <= MOST_DEVICES
        && addresses.len() == serials.len()
        && marks.len() == serials.len()
        && serials.iter().all(|&serial| serial < SERIAL_LIMIT)
        && marks.iter().all(|&mark| mark <= 1)
        && all_differ(serials)
}

/// The contest of 32-bit keys over 32 windows. Where nobody contends, key and
/// dominant windows are 0.
pub fn contest(keys: &[u32]) -> Decided {
    decide(&mut keys.to_vec())
}

/// A start: all marks become 0, then all devices contend. Gives the length of
/// the answer; 0 is silence.
pub fn start(
    serials: &[u32],
    addresses: &[u8],
    marks: &mut [u8],
    answer: &mut [u8],
) -> Result<usize, Refusal> {
    ready(serials, addresses, marks, answer)?;
    respond(Request::Start, serials, addresses, marks, answer)
}

/// A continue: all devices contend with the marks as they stand.
pub fn resume(
    serials: &[u32],
    addresses: &[u8],
    marks: &mut [u8],
    answer: &mut [u8],
) -> Result<usize, Refusal> {
    ready(serials, addresses, marks, answer)?;
    respond(Request::Continue, serials, addresses, marks, answer)
}

/// A raw frame offered to the devices: the start or continue that it names.
pub fn offer(
    frame: &[u8],
    serials: &[u32],
    addresses: &[u8],
    marks: &mut [u8],
    answer: &mut [u8],
) -> Result<usize, Refusal> {
    ready(serials, addresses, marks, answer)?;
    respond(read_request(frame)?, serials, addresses, marks, answer)
}

/// A whole scan: a start, then continues, until the end, silence or `cap`
/// requests. The lists start with what was heard.
pub fn scan(
    serials: &[u32],
    addresses: &[u8],
    marks: &mut [u8],
    found_serials: &mut [u32],
    found_addresses: &mut [u8],
    cap: usize,
) -> Result<Scanned, Refusal> {
    if found_serials.len() < serials.len() || found_addresses.len() < serials.len() {
        return Err(Refusal::whole(OUTPUT_SHORT));
    }
    if !table_valid(serials, addresses, marks) {
        return Err(Refusal::whole(TABLE_NOT_VALID));
    }
    let mut scanned = Scanned {
        end: ScanEnd::Unfinished,
        requests: 0,
        found: 0,
        skipped: 0,
    };
    let mut request = Request::Start;
    while scanned.end == ScanEnd::Unfinished && scanned.requests < cap {
        scanned.requests += 1;
        match hear(request, serials, marks) {
            Heard::Found { device, dominant } => {
                found_serials[scanned.found] = serials[device];
                found_addresses[scanned.found] = addresses[device];
                scanned.found += 1;
                scanned.skipped += dominant;
            }
            Heard::End { dominant } => {
                scanned.end = ScanEnd::Complete;
                scanned.skipped += dominant;
            }
            Heard::Silence => scanned.end = ScanEnd::Nobody,
        }
        request = Request::Continue;
    }
    Ok(scanned)
}

/// What start, continue and an offered frame ask before anything else: first
/// the room of the answer, then the table.
fn ready(serials: &[u32], addresses: &[u8], marks: &[u8], answer: &[u8]) -> Result<(), Refusal> {
    if answer.len() < ANSWER_ROOM {
        return Err(Refusal::whole(OUTPUT_SHORT));
    }
    if !table_valid(serials, addresses, marks) {
        return Err(Refusal::whole(TABLE_NOT_VALID));
    }
    Ok(())
}

/// Carries out a request on a valid table and writes the answer: "one FF for
/// each dominant window, then the frame". Its room was seen to before.
fn respond(
    request: Request,
    serials: &[u32],
    addresses: &[u8],
    marks: &mut [u8],
    answer: &mut [u8],
) -> Result<usize, Refusal> {
    let (dominant, frame) = match hear(request, serials, marks) {
        Heard::Silence => return Ok(0),
        Heard::Found { device, dominant } => {
            let frame = &mut answer[dominant..];
            let length = write_found(serials[device], addresses[device], frame)?;
            (dominant, length)
        }
        Heard::End { dominant } => (dominant, write_end(&mut answer[dominant..])?),
    };
    answer[..dominant].fill(FILL);
    Ok(dominant + frame)
}

/// One request on a valid table: the contest, and the winner's mark.
fn hear(request: Request, serials: &[u32], marks: &mut [u8]) -> Heard {
    if request == Request::Start {
        marks.fill(0);
    }
    let mut keys = [0; MOST_DEVICES];
    let keys = &mut keys[..serials.len()];
    for ((key, &serial), &mark) in keys.iter_mut().zip(serials).zip(marks.iter()) {
        *key = if mark == 0 {
            serial
        } else {
            serial | SCANNED_BITS
        };
    }
    let Decided { key, dominant } = decide(keys);
    let winner = key & !SCANNED_BITS;
    match serials.iter().position(|&serial| serial == winner) {
        None => Heard::Silence,
        Some(_) if key >= SERIAL_LIMIT => Heard::End { dominant },
        Some(device) => {
            marks[device] = 1;
            Heard::Found { device, dominant }
        }
    }
}

/// The contest over 32 windows, high bit first. The start of the slice holds
/// the keys still in the contest; "the bus is dominant when some device still
/// in the contest has a 0 there; then all with a 1 drop out".
fn decide(keys: &mut [u32]) -> Decided {
    let mut remaining = keys.len();
    let mut dominant = 0;
    for window in (0..32).rev() {
        let bit = 1 << window;
        let contenders = &mut keys[..remaining];
        if contenders.iter().any(|key| key & bit == 0) {
            dominant += 1;
            remaining = keep_dominant(contenders, bit);
        }
    }
    match keys.first() {
        Some(&key) => Decided { key, dominant },
        None => Decided {
            key: 0,
            dominant: 0,
        },
    }
}

/// Moves the keys with a 0 in this window to the front and counts them.
fn keep_dominant(contenders: &mut [u32], bit: u32) -> usize {
    let mut kept = 0;
    for at in 0..contenders.len() {
        let key = contenders[at];
        contenders[kept] = key;
        kept += usize::from(key & bit == 0);
    }
    kept
}

/// Whether no serial of a table stands there twice.
fn all_differ(serials: &[u32]) -> bool {
    let mut sorted = [0; MOST_DEVICES];
    let sorted = &mut sorted[..serials.len()];
    sorted.copy_from_slice(serials);
    sorted.sort_unstable();
    sorted.windows(2).all(|pair| pair[0] != pair[1])
}
