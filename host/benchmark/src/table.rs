//! The test of a device table, and one start, which makes that test and then
//! one step of a scan: the archive and the second implementation. A start sets
//! the marks to 0, so each call on a table finds the same work.

use moortinker::sys;
use second::{devices, Refusal};

use crate::case::{Case, OURS, SECOND};
use crate::random::Random;

pub const VALID: &str = "table-valid";
pub const START: &str = "start";

/// So many different tables are gone over in turn.
const TABLES: usize = 32;

/// A valid device table, and room for an answer.
#[derive(Clone, Debug, PartialEq)]
struct Table {
    serials: Vec<u32>,
    addresses: Vec<u8>,
    marks: Vec<u8>,
    answer: [u8; sys::MOOR_ANSWER_ROOM],
}

impl Table {
    fn new(random: &mut Random, size: usize) -> Self {
        Table {
            serials: random.serials(size),
            addresses: random.bytes(size),
            marks: (0..size).map(|_| random.below(2) as u8).collect(),
            answer: [0; sys::MOOR_ANSWER_ROOM],
        }
    }
}

pub fn valid(size: usize) -> Result<Case, String> {
    let mut tables = tables(size);
    for table in &mut tables {
        let (own, theirs) = (valid_ours(table), valid_second(table));
        if !own || !theirs {
            return Err(format!(
                "table-valid of {table:?}: {OURS} {own}, {SECOND} {theirs}"
            ));
        }
    }
    Ok(Case::beside_second(
        VALID,
        size,
        valid_ours,
        valid_second,
        tables,
    ))
}

pub fn start(size: usize) -> Result<Case, String> {
    for table in tables(size) {
        let (mut own, mut theirs) = (table.clone(), table);
        let answer = start_ours(&mut own);
        let theirs_answer = start_second(&mut theirs);
        let accepted = answer.number == sys::MOOR_ACCEPTED;
        if !accepted || theirs_answer != Ok(answer.length) || own != theirs {
            return Err(format!(
                "start: {OURS} {answer:?} {own:?}, {SECOND} {theirs_answer:?} {theirs:?}"
            ));
        }
    }
    let tables = tables(size);
    Ok(Case::beside_second(
        START,
        size,
        start_ours,
        start_second,
        tables,
    ))
}

fn tables(size: usize) -> Vec<Table> {
    let mut random = Random::new(size as u64);
    (0..TABLES).map(|_| Table::new(&mut random, size)).collect()
}

fn valid_ours(table: &mut Table) -> bool {
    // SAFETY: each pointer is valid for the length behind it.
    unsafe {
        sys::moor_table_valid(
            table.serials.as_ptr(),
            table.serials.len(),
            table.addresses.as_ptr(),
            table.addresses.len(),
            table.marks.as_ptr(),
            table.marks.len(),
        )
    }
}

fn valid_second(table: &mut Table) -> bool {
    devices::table_valid(&table.serials, &table.addresses, &table.marks)
}

fn start_ours(table: &mut Table) -> sys::Written {
    // SAFETY: each pointer comes with the length of its own column or buffer,
    // and these are apart.
    unsafe {
        sys::moor_start(
            table.serials.as_ptr(),
            table.serials.len(),
            table.addresses.as_ptr(),
            table.addresses.len(),
            table.marks.as_mut_ptr(),
            table.marks.len(),
            table.answer.as_mut_ptr(),
            table.answer.len(),
        )
    }
}

fn start_second(table: &mut Table) -> Result<usize, Refusal> {
    devices::start(
        &table.serials,
        &table.addresses,
        &mut table.marks,
        &mut table.answer,
    )
}
