//! Fast Modbus: the devices' side of a scan, as a model on a perfect bus, and
//! whole scans.
//!
//! A device table is three columns: serial, address, and a scanned mark that
//! is 0 or 1. [`Table`] owns its columns and is valid from its making on.
//! [`Columns`] are lent columns, valid or not; their calls allocate nothing.

use std::iter::{Copied, FusedIterator, Zip};
use std::slice::Iter;

use crate::{call, sys};

mod columns;
mod table;

pub use columns::{Columns, ScanEnd, Scanned};
pub use table::{Reply, Scan, Table};

/// The largest device table.
///
/// ```
/// use moortinker::devices::{Device, Table, MOST_DEVICES};
///
/// let devices = |count: usize| (0..count as u32).map(|serial| Device { serial, address: 1 });
/// assert!(Table::unscanned(devices(MOST_DEVICES)).is_ok());
/// assert!(Table::unscanned(devices(MOST_DEVICES + 1)).is_err());
/// ```
pub const MOST_DEVICES: usize = sys::MOOR_MOST_DEVICES;

/// The room that [`Columns::start`], [`Columns::resume`] and
/// [`Columns::offer`] ask for: the longest answer, 32 FF and a frame of 10.
///
/// ```
/// use moortinker::devices::{Columns, ANSWER_ROOM};
///
/// let mut table = Columns { serials: &[0], addresses: &[0x01], marks: &mut [0] };
/// assert_eq!(table.start(&mut [0; ANSWER_ROOM]), Ok(ANSWER_ROOM));
/// assert!(table.start(&mut [0; ANSWER_ROOM - 1]).is_err());
/// ```
pub const ANSWER_ROOM: usize = sys::MOOR_ANSWER_ROOM;

/// How a contest is decided. [`contest`] gives it.
///
/// ```
/// use moortinker::devices::{contest, Decided};
///
/// // A dominant window for each zero bit of the key that remains.
/// assert_eq!(contest(&[0xF0000005]), Some(Decided { key: 0xF0000005, dominant: 26 }));
/// ```
#[derive(Clone, Copy, Debug, PartialEq, Eq, Hash)]
pub struct Decided {
    /// The key that remains.
    pub key: u32,
    /// How many of the 32 windows were dominant: one FF each.
    pub dominant: usize,
}

/// The contest of keys over 32 windows, high bit first: the smallest remains.
/// `None` where nobody contends.
///
/// ```
/// use moortinker::devices::{contest, Decided};
///
/// let decided = contest(&[0x0001EB37, 0xF0000005, 0x0FFFFFFF]);
/// assert_eq!(decided, Some(Decided { key: 0x0001EB37, dominant: 20 }));
/// assert_eq!(contest(&[]), None);
/// ```
pub fn contest(keys: &[u32]) -> Option<Decided> {
    let decided = call::contest(keys);
    (!keys.is_empty()).then_some(Decided {
        key: decided.key,
        dominant: decided.dominant,
    })
}

/// A device: what it answers when it is found.
///
/// ```
/// use moortinker::devices::{Device, Table};
///
/// let sensor = Device { serial: 0x0001EB37, address: 0x0C };
/// let scan = Table::unscanned([sensor])?.scan(100);
/// assert_eq!(scan.heard().next(), Some(sensor));
/// # Ok::<(), moortinker::Refusal>(())
/// ```
#[derive(Clone, Copy, Debug, PartialEq, Eq, Hash)]
pub struct Device {
    /// The serial.
    pub serial: u32,
    /// The address.
    pub address: u8,
}

/// An iterator over devices. [`Table::devices`] gives those of a table in its
/// order, [`Scan::heard`] those heard in a scan in the order heard.
///
/// ```
/// use moortinker::devices::{Device, Table};
///
/// let table = Table::new([9, 5], [0x03, 0x02], [0, 0])?;
/// let mut devices = table.devices();
/// assert_eq!(devices.len(), 2);
/// assert_eq!(devices.next(), Some(Device { serial: 9, address: 0x03 }));
/// assert_eq!(devices.next_back(), Some(Device { serial: 5, address: 0x02 }));
/// assert_eq!(devices.next(), None);
/// # Ok::<(), moortinker::Refusal>(())
/// ```
#[derive(Clone, Debug)]
pub struct Devices<'a> {
    pairs: Zip<Copied<Iter<'a, u32>>, Copied<Iter<'a, u8>>>,
}

impl<'a> Devices<'a> {
    /// Each serial beside its address.
    fn over(serials: &'a [u32], addresses: &'a [u8]) -> Devices<'a> {
        let pairs = serials.iter().copied().zip(addresses.iter().copied());
        Devices { pairs }
    }
}

fn device((serial, address): (u32, u8)) -> Device {
    Device { serial, address }
}

impl Iterator for Devices<'_> {
    type Item = Device;

    fn next(&mut self) -> Option<Device> {
        self.pairs.next().map(device)
    }

    fn size_hint(&self) -> (usize, Option<usize>) {
        self.pairs.size_hint()
    }
}

impl DoubleEndedIterator for Devices<'_> {
    fn next_back(&mut self) -> Option<Device> {
        self.pairs.next_back().map(device)
    }
}

impl ExactSizeIterator for Devices<'_> {}

impl FusedIterator for Devices<'_> {}
