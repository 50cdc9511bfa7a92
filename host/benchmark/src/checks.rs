//! The two checks on random frames: the archive, a table loop in C in two
//! forms, one in Rust, and for the Modbus check also C's loop over pairs of
//! bytes, the check one byte a step, and two libraries.

use std::fmt::UpperHex;
use std::hint::black_box;
use std::rc::Rc;
use std::slice::from_raw_parts;

use moortinker::sys;

use crate::case::{Candidate, Case, OURS, SECOND};
use crate::peers::{bench_before_rows, bench_one_byte, Check, LIBRARIES};
use crate::peers::{peer_ebus_check, peer_ebus_check_wide};
use crate::peers::{peer_modbus_check, peer_modbus_check_wide};
use crate::peers::{peer_modbus_check_two, peer_modbus_check_two_wide};
use crate::random::Random;

pub const MODBUS: &str = "modbus-check";
/// The Modbus check on frames from short to long, beside what it was before.
pub const FRAMES: &str = "modbus-frame";
pub const EBUS: &str = "ebus-check";
/// The table loop in C, and its other form.
pub const C: &str = "c";
pub const C_WIDE: &str = "c-wide";
/// The loop over pairs of bytes in C, and its other form.
pub const C_TWO: &str = "c-two";
pub const C_TWO_WIDE: &str = "c-two-wide";
/// Our own check one byte a step from one row, and what the check was before it
/// took two.
pub const ONE_BYTE: &str = "one-byte";
const BEFORE: &str = "before";

/// From so many bytes on the archive takes two bytes a step from two rows; the
/// same number stands in crates/crc/src/lib.rt.
pub const ROWS_FROM: usize = 64;

/// So many different frames of a size are gone over in turn.
const INPUTS: usize = 128;

pub fn modbus(size: usize) -> Result<Case, String> {
    let mut checks: Vec<(&str, Check<u16>)> = vec![
        (OURS, sys::moor_modbus_check),
        (C, peer_modbus_check),
        (C_WIDE, peer_modbus_check_wide),
        (C_TWO, peer_modbus_check_two),
        (C_TWO_WIDE, peer_modbus_check_two_wide),
        (ONE_BYTE, bench_one_byte),
        (BEFORE, bench_before_rows),
        (SECOND, second_modbus_check),
    ];
    for library in &LIBRARIES {
        checks.extend(library.modbus_check()?.map(|check| (library.name, check)));
    }
    case(MODBUS, size, &checks)
}

pub fn frames(size: usize) -> Result<Case, String> {
    let checks: [(&str, Check<u16>); 2] =
        [(OURS, sys::moor_modbus_check), (BEFORE, bench_before_rows)];
    case(FRAMES, size, &checks)
}

pub fn ebus(size: usize) -> Result<Case, String> {
    let checks: [(&str, Check<u8>); 4] = [
        (OURS, sys::moor_ebus_check),
        (C, peer_ebus_check),
        (C_WIDE, peer_ebus_check_wide),
        (SECOND, second_ebus_check),
    ];
    case(EBUS, size, &checks)
}

fn case<T>(
    name: &'static str,
    size: usize,
    checks: &[(&'static str, Check<T>)],
) -> Result<Case, String>
where
    T: Copy + PartialEq + UpperHex + 'static,
{
    let mut random = Random::new(size as u64);
    let frames: Rc<[Vec<u8>]> = (0..INPUTS).map(|_| random.bytes(size)).collect();
    compare(name, checks, &frames)?;
    let candidates = checks
        .iter()
        .map(|&(name, check)| {
            let frames = Rc::clone(&frames);
            Candidate::new(name, move || go_over(check, &frames))
        })
        .collect();
    Ok(Case {
        name,
        size,
        calls: INPUTS,
        candidates,
    })
}

fn go_over<T>(check: Check<T>, frames: &[Vec<u8>]) {
    let check = black_box(check);
    for frame in frames {
        black_box(call(check, frame));
    }
}

fn call<T>(check: Check<T>, frame: &[u8]) -> T {
    // SAFETY: the pointer is valid for the length given.
    unsafe { check(frame.as_ptr(), frame.len()) }
}

/// Holds every candidate to our answers on the very frames to be measured.
fn compare<T: Copy + PartialEq + UpperHex>(
    name: &str,
    checks: &[(&'static str, Check<T>)],
    frames: &[Vec<u8>],
) -> Result<(), String> {
    let (_, ours) = checks[0];
    for &(peer, theirs) in checks {
        for frame in frames {
            let (own, their) = (call(ours, frame), call(theirs, frame));
            if own != their {
                return Err(format!(
                    "{name} of {frame:02X?}: {OURS} {own:X}, {peer} {their:X}"
                ));
            }
        }
    }
    Ok(())
}

/// The same C interface for the table loops in Rust.
unsafe extern "C" fn second_modbus_check(bytes: *const u8, length: usize) -> u16 {
    second::checks::modbus_check(from_raw_parts(bytes, length))
}

unsafe extern "C" fn second_ebus_check(logical: *const u8, length: usize) -> u8 {
    second::checks::ebus_check(from_raw_parts(logical, length))
}
