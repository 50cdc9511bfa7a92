//! A poll of devices whose queues are full: the archive and the second
//! implementation. The request names the last device of the table and the packet
//! that it sent, but with the other flag, so that the device is looked for and
//! nothing is dropped: each call finds the same work, and sends the same packet.

use moortinker::sys;
use second::events::EventRequest;
use second::queues::{self, Heard, Polled, Queues};
use second::Refusal;

use crate::case::{Case, OURS, SECOND};
use crate::random::Random;

pub const POLL: &str = "poll";

/// So many different tables are gone over in turn.
const TABLES: usize = 8;
/// One event in so many is urgent.
const URGENT: usize = 16;

/// A device table with its queues, a request, and room for an answer.
#[derive(Clone, Debug, PartialEq)]
struct Bus {
    serials: Vec<u32>,
    ids: Vec<u8>,
    marks: Vec<u8>,
    flags: Vec<u8>,
    lasts: Vec<u8>,
    counts: Vec<u8>,
    slots: Vec<u8>,
    request: EventRequest,
    answer: [u8; sys::MOOR_POLL_ROOM],
}

impl Bus {
    fn new(random: &mut Random, size: usize) -> Self {
        let ids = ids(random, size);
        let flags: Vec<u8> = (0..size).map(|_| random.below(2) as u8).collect();
        let request = EventRequest {
            minimum: 0,
            most: 255,
            confirmed: ids[size - 1],
            flag: 1 - flags[size - 1],
        };
        Bus {
            serials: random.serials(size),
            ids,
            marks: (0..size).map(|_| random.below(2) as u8).collect(),
            flags,
            lasts: vec![sys::MOOR_MOST_QUEUED as u8; size],
            counts: vec![sys::MOOR_MOST_QUEUED as u8; size],
            slots: slots(random, size),
            request,
            answer: [0; sys::MOOR_POLL_ROOM],
        }
    }
}

/// So many different ids, in any order.
fn ids(random: &mut Random, size: usize) -> Vec<u8> {
    let mut ids: Vec<u8> = (1..=sys::MOOR_MOST_DEVICES as u8).collect();
    for at in 0..size {
        let other = at + random.below(ids.len() - at);
        ids.swap(at, other);
    }
    ids.truncate(size);
    ids
}

/// Full queues of events of any length.
fn slots(random: &mut Random, size: usize) -> Vec<u8> {
    let mut slots = random.bytes(size * sys::MOOR_SLOTS_LENGTH);
    for slot in slots.chunks_exact_mut(sys::MOOR_SLOT_LENGTH) {
        slot[0] = u8::from(random.below(URGENT) == 0);
        slot[1] = random.below(sys::MOOR_MOST_DATA + 1) as u8;
    }
    slots
}

pub fn poll(size: usize) -> Result<Case, String> {
    let mut random = Random::new(size as u64);
    let mut own: Vec<Bus> = (0..TABLES).map(|_| Bus::new(&mut random, size)).collect();
    let mut theirs = own.clone();
    compare(&mut own, &mut theirs)?;
    Ok(Case::beside_second(POLL, size, poll_ours, poll_second, own))
}

fn poll_ours(bus: &mut Bus) -> sys::Polled {
    // SAFETY: each pointer comes with the length of its own column or buffer,
    // and these are apart.
    unsafe {
        sys::moor_poll(
            bus.request.minimum,
            bus.request.most,
            bus.request.confirmed,
            bus.request.flag,
            bus.serials.as_ptr(),
            bus.serials.len(),
            bus.ids.as_ptr(),
            bus.ids.len(),
            bus.marks.as_ptr(),
            bus.marks.len(),
            bus.flags.as_mut_ptr(),
            bus.flags.len(),
            bus.lasts.as_mut_ptr(),
            bus.lasts.len(),
            bus.counts.as_mut_ptr(),
            bus.counts.len(),
            bus.slots.as_mut_ptr(),
            bus.slots.len(),
            bus.answer.as_mut_ptr(),
            bus.answer.len(),
        )
    }
}

fn poll_second(bus: &mut Bus) -> Result<Polled, Refusal> {
    let table = queues::Table {
        serials: &bus.serials,
        addresses: &bus.ids,
        marks: &bus.marks,
    };
    let mut queues = Queues {
        flags: &mut bus.flags,
        lasts: &mut bus.lasts,
        counts: &mut bus.counts,
        slots: &mut bus.slots,
    };
    queues::poll(bus.request, table, &mut queues, &mut bus.answer)
}

/// Holds both to the same full packet on the very tables to be measured, and to
/// the same columns and answer buffers.
fn compare(own: &mut [Bus], theirs: &mut [Bus]) -> Result<(), String> {
    for (own, theirs) in own.iter_mut().zip(theirs) {
        let before = own.clone();
        let answer = poll_ours(own);
        let theirs_answer = poll_second(theirs);
        let full = Polled {
            heard: Heard::Packet {
                sender: answer.sender,
                flag: answer.flag,
                events: sys::MOOR_MOST_QUEUED as u8,
            },
            length: answer.length,
            skipped: answer.skipped,
        };
        let sent = (answer.number, answer.answer) == (sys::MOOR_ACCEPTED, sys::MOOR_PACKET)
            && usize::from(answer.events) == sys::MOOR_MOST_QUEUED;
        let same_work = (&own.counts, &own.lasts) == (&before.counts, &before.lasts);
        if !sent || theirs_answer != Ok(full) || own != theirs || !same_work {
            return Err(format!(
                "poll of {before:?}: {OURS} {answer:?}, {SECOND} {theirs_answer:?}"
            ));
        }
    }
    Ok(())
}
