//! The contest of keys: the archive and the second implementation.

use moortinker::sys;
use second::devices;

use crate::case::{Case, OURS, SECOND};
use crate::random::Random;

pub const CONTEST: &str = "contest";

/// So many different lists of keys are gone over in turn.
const LISTS: usize = 32;
/// The four high bits of a device that is scanned.
pub const SCANNED: u32 = 0xF000_0000;

/// A list of keys.
#[derive(Clone, Debug)]
struct Keys(Vec<u32>);

pub fn contest(size: usize) -> Result<Case, String> {
    let mut random = Random::new(size as u64);
    let lists: Vec<Keys> = (0..LISTS).map(|_| keys(&mut random, size)).collect();
    compare(&lists)?;
    Ok(Case::beside_second(
        CONTEST,
        size,
        contest_ours,
        contest_second,
        lists,
    ))
}

/// The keys of so many devices in the middle of a scan: each is scanned every
/// other time.
fn keys(random: &mut Random, size: usize) -> Keys {
    let serials = random.serials(size).into_iter();
    Keys(
        serials
            .map(|serial| match random.below(2) {
                0 => serial,
                _ => serial | SCANNED,
            })
            .collect(),
    )
}

fn contest_ours(keys: &mut Keys) -> sys::Decided {
    // SAFETY: the pointer is valid for the length given.
    unsafe { sys::moor_contest(keys.0.as_ptr(), keys.0.len()) }
}

fn contest_second(keys: &mut Keys) -> devices::Decided {
    devices::contest(&keys.0)
}

/// Holds both to the same answers on the very keys to be measured.
fn compare(lists: &[Keys]) -> Result<(), String> {
    for keys in lists {
        let own = contest_ours(&mut keys.clone());
        let theirs = contest_second(&mut keys.clone());
        if (own.key, own.dominant) != (theirs.key, theirs.dominant) {
            return Err(format!(
                "contest of {keys:08X?}: {OURS} {own:?}, {SECOND} {theirs:?}"
            ));
        }
    }
    Ok(())
}
