//! A whole scan of a device table: the archive, the second implementation, and
//! the time that the bus itself takes. The lists of what was heard are not
//! cleared between scans; a start sets the marks to 0.

use moortinker::sys;
use second::devices::{self, ScanEnd, Scanned};
use second::Refusal;

use crate::case::{Case, OURS, SECOND};
use crate::contest::SCANNED;
use crate::random::Random;

pub const SCAN: &str = "scan";
/// The largest table.
pub const MOST: usize = sys::MOOR_MOST_DEVICES;
/// A request and its answer on the bus: document 000, "834 bits".
pub const BITS_PER_REQUEST: usize = 834;
pub const BAUD: usize = 115_200;

/// So many different tables are gone over in turn.
const TABLES: usize = 4;

/// A device table, and the lists of what was heard.
#[derive(Clone, Debug, PartialEq)]
struct Bus {
    serials: Vec<u32>,
    addresses: Vec<u8>,
    marks: Vec<u8>,
    found_serials: Vec<u32>,
    found_addresses: Vec<u8>,
}

impl Bus {
    fn new(random: &mut Random, size: usize) -> Self {
        Bus {
            serials: random.serials(size),
            addresses: random.bytes(size),
            marks: vec![0; size],
            found_serials: vec![0; size],
            found_addresses: vec![0; size],
        }
    }
}

/// One for each device, and one that hears the end.
pub fn requests(devices: usize) -> usize {
    devices + 1
}

/// The time of a whole scan on the bus, in nanoseconds.
pub fn bus_time(devices: usize) -> f64 {
    (requests(devices) * BITS_PER_REQUEST) as f64 * 1e9 / BAUD as f64
}

pub fn scan(size: usize) -> Result<Case, String> {
    let mut random = Random::new(size as u64);
    let mut own: Vec<Bus> = (0..TABLES).map(|_| Bus::new(&mut random, size)).collect();
    let mut theirs = own.clone();
    compare(size, &mut own, &mut theirs)?;
    Ok(Case::beside_second(SCAN, size, scan_ours, scan_second, own))
}

fn scan_ours(bus: &mut Bus) -> sys::Scanned {
    // SAFETY: each pointer comes with the length of its own list, and the
    // lists are apart.
    unsafe {
        sys::moor_scan(
            bus.serials.as_ptr(),
            bus.serials.len(),
            bus.addresses.as_ptr(),
            bus.addresses.len(),
            bus.marks.as_mut_ptr(),
            bus.marks.len(),
            bus.found_serials.as_mut_ptr(),
            bus.found_serials.len(),
            bus.found_addresses.as_mut_ptr(),
            bus.found_addresses.len(),
            usize::MAX,
        )
    }
}

fn scan_second(bus: &mut Bus) -> Result<Scanned, Refusal> {
    devices::scan(
        &bus.serials,
        &bus.addresses,
        &mut bus.marks,
        &mut bus.found_serials,
        &mut bus.found_addresses,
        usize::MAX,
    )
}

/// The FF of a whole scan: the zero bits of every key, and of the smallest one
/// again, whose device says the end with its mark set.
fn fill(serials: &[u32]) -> usize {
    let end = serials.iter().min().map(|serial| serial | SCANNED);
    let keys = serials.iter().copied().chain(end);
    keys.map(|key| key.count_zeros() as usize).sum()
}

/// Holds both to the whole scan that is due on the very tables to be measured,
/// and to the same lists and marks.
fn compare(size: usize, own: &mut [Bus], theirs: &mut [Bus]) -> Result<(), String> {
    for (own, theirs) in own.iter_mut().zip(theirs) {
        let due = Scanned {
            end: ScanEnd::Complete,
            requests: requests(size),
            found: size,
            skipped: fill(&own.serials),
        };
        let answer = scan_ours(own);
        let theirs_answer = scan_second(theirs);
        let complete = (answer.number, answer.end) == (sys::MOOR_ACCEPTED, sys::MOOR_COMPLETE);
        let counts = (answer.requests, answer.found, answer.skipped)
            == (due.requests, due.found, due.skipped);
        if !complete || !counts || theirs_answer != Ok(due) || own != theirs {
            return Err(format!(
                "scan of {:?}: {OURS} {answer:?}, {SECOND} {theirs_answer:?}",
                own.serials
            ));
        }
    }
    Ok(())
}
