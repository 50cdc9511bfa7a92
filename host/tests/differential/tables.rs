//! Random device tables: valid ones of many shapes, and damaged ones.

use crate::random::Random;

/// The largest device table.
pub const MOST: usize = 247;
const LIMIT: u32 = 1 << 28;

/// The three columns.
#[derive(Clone)]
pub struct Table {
    pub serials: Vec<u32>,
    pub addresses: Vec<u8>,
    pub marks: Vec<u8>,
}

/// How many devices: mostly few, at times none or the most.
pub fn count(random: &mut Random) -> usize {
    match random.below(40) {
        0 | 1 => 0,
        2 | 3 => 1,
        4 => MOST,
        5 => MOST - 1,
        6..=9 => random.below(MOST + 1),
        10..=15 => random.below(60),
        _ => random.below(12),
    }
}

/// A valid table of so many devices.
pub fn valid(random: &mut Random, count: usize) -> Table {
    let serials = serials(random, count);
    let addresses = random.bytes(count);
    let marks = marks(random, &serials);
    Table {
        serials,
        addresses,
        marks,
    }
}

/// Different serials below 2^28: neighbours, any, or many high bits in common;
/// often with the smallest and the largest.
fn serials(random: &mut Random, count: usize) -> Vec<u32> {
    let any = random.draw() as u32 % LIMIT;
    let mask = match random.below(4) {
        0 => 0x0000_00FF,
        1 => 0x0000_3FFF,
        _ => LIMIT - 1,
    };
    let base = random.pick(&[0, any, LIMIT - 1]) & !mask;
    let mut serials = Vec::with_capacity(count);
    if count > 0 && random.one_in(6) {
        serials.push(random.pick(&[0, LIMIT - 1]));
    }
    while serials.len() < count {
        let mut serial = base | (random.draw() as u32 & mask);
        while serials.contains(&serial) {
            serial = (serial + 1) % LIMIT;
        }
        serials.push(serial);
    }
    serials
}

/// All 0, all 1, any, or 1 at the smallest serials.
fn marks(random: &mut Random, serials: &[u32]) -> Vec<u8> {
    let limit = if serials.is_empty() {
        0
    } else {
        random.pick(serials)
    };
    match random.below(4) {
        0 => vec![0; serials.len()],
        1 => vec![1; serials.len()],
        2 => serials.iter().map(|_| random.draw() as u8 & 1).collect(),
        _ => serials
            .iter()
            .map(|&serial| u8::from(serial < limit))
            .collect(),
    }
}

/// A valid table with one thing or two made wrong, which may still be valid
/// where it was empty.
pub fn damaged(random: &mut Random) -> Table {
    let devices = count(random);
    let mut table = valid(random, devices);
    damage(random, &mut table);
    if random.one_in(4) {
        damage(random, &mut table);
    }
    table
}

/// Makes one thing of a table wrong.
pub fn damage(random: &mut Random, table: &mut Table) {
    let serials = table.serials.len();
    match random.below(9) {
        0 => lengthen(random, table),
        1 => shorten(random, table),
        2 => *table = valid(random, MOST + 1),
        3 => {
            let many = MOST + 1 + random.below(60);
            *table = valid(random, many);
        }
        4 | 5 if serials > 1 => {
            let (from, to) = (random.below(serials), random.below(serials));
            table.serials[to] = table.serials[from];
        }
        6 | 7 if serials > 0 => {
            let over = random.draw() as u32 | LIMIT;
            let at = random.below(serials);
            table.serials[at] = random.pick(&[LIMIT, u32::MAX, over]);
        }
        _ if !table.marks.is_empty() => {
            let at = random.below(table.marks.len());
            table.marks[at] = random.pick(&[2, 2, 0xFF, 0x80, 3]);
        }
        _ => lengthen(random, table),
    }
}

/// One column or two get one entry more.
fn lengthen(random: &mut Random, table: &mut Table) {
    let which = 1 + random.below(6);
    if which & 1 != 0 {
        table.serials.push(random.draw() as u32 % LIMIT);
    }
    if which & 2 != 0 {
        table.addresses.push(random.byte());
    }
    if which & 4 != 0 {
        table.marks.push(0);
    }
}

/// One column loses one entry or all.
fn shorten(random: &mut Random, table: &mut Table) {
    let keep = if random.one_in(3) { 0 } else { usize::MAX };
    let shorter = |length: usize| keep.min(length.saturating_sub(1));
    match random.below(3) {
        0 => table.serials.truncate(shorter(table.serials.len())),
        1 => table.addresses.truncate(shorter(table.addresses.len())),
        _ => table.marks.truncate(shorter(table.marks.len())),
    }
}
