//! Random device tables with event queues beside them: valid ones of many
//! shapes, and damaged ones.

use second::queues::{MOST_DATA, MOST_QUEUED, SLOTS_LENGTH, SLOT_LENGTH};

use crate::random::Random;
use crate::tables::{self, Table};

/// The largest id.
pub const MOST_ID: usize = 247;

/// The four columns beside a table.
#[derive(Clone)]
pub struct Queues {
    pub flags: Vec<u8>,
    pub lasts: Vec<u8>,
    pub counts: Vec<u8>,
    pub slots: Vec<u8>,
}

/// How many devices: mostly very few, so that polls meet the same ones often.
pub fn count(random: &mut Random) -> usize {
    match random.below(30) {
        0 => 0,
        1 => MOST_ID,
        2 => random.below(MOST_ID + 1),
        3..=6 => random.below(40),
        _ => 1 + random.below(5),
    }
}

/// A valid table of so many devices whose addresses are ids.
pub fn table(random: &mut Random, count: usize) -> Table {
    let mut table = tables::valid(random, count);
    table.addresses = ids(random, count);
    table
}

/// Different ids: the smallest, the largest, or any, in any order.
fn ids(random: &mut Random, count: usize) -> Vec<u8> {
    let spare = (MOST_ID - count).min(2);
    let (first, last) = match random.below(4) {
        0 => (1, MOST_ID),
        1 => (MOST_ID + 1 - count - spare, MOST_ID),
        _ => (1, count + spare),
    };
    let mut ids: Vec<u8> = (first..=last).map(|id| id as u8).collect();
    for at in 0..count {
        let other = at + random.below(ids.len() - at);
        ids.swap(at, other);
    }
    ids.truncate(count);
    ids
}

/// The queues of so many fresh devices. What stands in their slots means
/// nothing.
pub fn fresh(random: &mut Random, devices: usize) -> Queues {
    Queues {
        flags: vec![0; devices],
        lasts: vec![0; devices],
        counts: vec![0; devices],
        slots: random.bytes(devices * SLOTS_LENGTH),
    }
}

/// Valid queues of so many devices.
pub fn valid(random: &mut Random, devices: usize) -> Queues {
    let mut queues = fresh(random, devices);
    let most = random.pick(&[1, 3, MOST_QUEUED, MOST_QUEUED]);
    let urgent = random.pick(&[2, 8, 100]);
    for device in 0..devices {
        let count = match random.below(5) {
            0 => 0,
            1 => most,
            _ => random.below(most + 1),
        };
        queues.flags[device] = random.below(2) as u8;
        queues.counts[device] = count as u8;
        queues.lasts[device] = random.below(count + 1) as u8;
        for at in 0..count {
            let slot = slot_of(&mut queues, device, at);
            slot[0] = u8::from(random.one_in(urgent));
            slot[1] = size(random) as u8;
        }
    }
    queues
}

/// How many data bytes an event has that may be queued.
pub fn size(random: &mut Random) -> usize {
    match random.below(6) {
        0 => 0,
        1 => MOST_DATA,
        _ => random.below(MOST_DATA + 1),
    }
}

fn slot_of(queues: &mut Queues, device: usize, at: usize) -> &mut [u8] {
    &mut queues.slots[device * SLOTS_LENGTH + at * SLOT_LENGTH..][..SLOT_LENGTH]
}

/// A valid table and valid queues with one thing or two made wrong, which may
/// still be valid.
pub fn damaged(random: &mut Random) -> (Table, Queues) {
    let count = count(random);
    let mut table = table(random, count);
    let mut queues = valid(random, count);
    damage(random, &mut table, &mut queues);
    if random.one_in(4) {
        damage(random, &mut table, &mut queues);
    }
    (table, queues)
}

fn damage(random: &mut Random, table: &mut Table, queues: &mut Queues) {
    match random.below(8) {
        0 => {
            tables::damage(random, table);
            if random.one_in(2) {
                *queues = valid(random, table.serials.len());
            }
        }
        1 => damage_id(random, table),
        2 | 3 => damage_length(random, queues),
        _ => damage_entry(random, queues),
    }
}

/// An id that is none, or that another device has.
fn damage_id(random: &mut Random, table: &mut Table) {
    if table.addresses.is_empty() {
        return;
    }
    let other = random.pick(&table.addresses);
    let at = random.below(table.addresses.len());
    table.addresses[at] = random.pick(&[0, 0, 248, 248, 249, 255, other, other]);
}

/// One of the four columns gets or loses an entry, or is lost.
fn damage_length(random: &mut Random, queues: &mut Queues) {
    let slots = random.one_in(2);
    let column = match random.below(3) {
        _ if slots => &mut queues.slots,
        0 => &mut queues.flags,
        1 => &mut queues.lasts,
        _ => &mut queues.counts,
    };
    let entry = if slots {
        random.pick(&[1, SLOT_LENGTH, SLOTS_LENGTH])
    } else {
        1
    };
    match random.below(5) {
        0 => column.clear(),
        1 | 2 => column.truncate(column.len().saturating_sub(entry)),
        _ => column.resize(column.len() + entry, 0),
    }
}

/// A flag, a number of events, or a slot that is not valid or just about so.
fn damage_entry(random: &mut Random, queues: &mut Queues) {
    let devices = queues.flags.len().min(queues.lasts.len());
    let devices = devices.min(queues.counts.len());
    let devices = devices.min(queues.slots.len() / SLOTS_LENGTH);
    if devices == 0 {
        return;
    }
    let at = random.below(devices);
    let count = queues.counts[at];
    match random.below(7) {
        0 => queues.flags[at] = random.pick(&[1, 2, 2, 255]),
        1 => queues.lasts[at] = random.pick(&[count, count.wrapping_add(1), 255]),
        2 => queues.counts[at] = random.pick(&[9, 9, 255, 8]),
        3 | 4 => {
            let which = random.below(usize::from(count.clamp(1, 8)));
            slot_of(queues, at, which)[0] = random.pick(&[1, 2, 2, 255]);
        }
        _ => {
            let which = random.below(MOST_QUEUED);
            slot_of(queues, at, which)[1] = random.pick(&[8, 9, 9, 255]);
        }
    }
}
