//! A device table that owns its columns, and what its calls give.

use super::{Columns, Device, Devices, ScanEnd, ANSWER_ROOM};
use crate::filled::Filled;
use crate::{call, Reason, Refusal};

const VALID: &str = "a valid table with room for its answers is not refused";

/// A valid device table. Only a valid one can be made, and the calls keep it
/// valid.
///
/// ```
/// use moortinker::devices::Table;
/// use moortinker::modbus::{read_answer, Answer};
///
/// let mut table = Table::new([0x0001EB37, 5], [0x0C, 0x02], [0, 0])?;
/// let first = read_answer(table.start().expect("a device answers").bytes())?;
/// assert_eq!(first.answer, Answer::Found { serial: 5, address: 0x02 });
/// assert_eq!(table.marks(), [0, 1]);
/// let second = read_answer(table.resume().expect("a device answers").bytes())?;
/// assert_eq!(second.answer, Answer::Found { serial: 0x0001EB37, address: 0x0C });
/// let third = read_answer(table.resume().expect("a device answers").bytes())?;
/// assert_eq!(third.answer, Answer::End);
/// // One FF for each zero bit of the keys 00000005, 0001EB37 and F0000005.
/// assert_eq!((first.skipped, second.skipped, third.skipped), (30, 20, 26));
/// # Ok::<(), moortinker::Refusal>(())
/// ```
#[derive(Clone, Debug, Default, PartialEq, Eq, Hash)]
pub struct Table {
    serials: Vec<u32>,
    addresses: Vec<u8>,
    marks: Vec<u8>,
}

impl Table {
    /// The table of these columns. Refuses with
    /// [`TableNotValid`](Reason::TableNotValid) unless the columns are equally
    /// long, at most 247, the serials are below 2^28 and differ, and the marks
    /// are 0 or 1. Equal addresses are allowed.
    ///
    /// ```
    /// use moortinker::devices::Table;
    /// use moortinker::Reason;
    ///
    /// let table = Table::new(vec![5, 9], vec![0x02, 0x02], vec![0, 1])?;
    /// assert_eq!(table.len(), 2);
    /// let refusal = Table::new([5, 5], [0x02, 0x03], [0, 0]).unwrap_err();
    /// assert_eq!(refusal.reason(), Reason::TableNotValid);
    /// # Ok::<(), moortinker::Refusal>(())
    /// ```
    pub fn new(
        serials: impl Into<Vec<u32>>,
        addresses: impl Into<Vec<u8>>,
        marks: impl Into<Vec<u8>>,
    ) -> Result<Table, Refusal> {
        let (serials, addresses, marks) = (serials.into(), addresses.into(), marks.into());
        if !call::table_valid(&serials, &addresses, &marks) {
            return Err(Refusal::new(Reason::TableNotValid, 0));
        }
        Ok(Table {
            serials,
            addresses,
            marks,
        })
    }

    /// The table of these devices, none of them scanned yet. Refuses as
    /// [`new`](Table::new) does.
    ///
    /// ```
    /// use moortinker::devices::{Device, Table};
    ///
    /// let table = Table::unscanned([Device { serial: 5, address: 0x02 }])?;
    /// assert_eq!(table.marks(), [0]);
    /// # Ok::<(), moortinker::Refusal>(())
    /// ```
    pub fn unscanned(devices: impl IntoIterator<Item = Device>) -> Result<Table, Refusal> {
        let (serials, addresses): (Vec<u32>, Vec<u8>) = devices
            .into_iter()
            .map(|device| (device.serial, device.address))
            .unzip();
        let marks = vec![0; serials.len()];
        Table::new(serials, addresses, marks)
    }

    /// How many devices there are.
    pub fn len(&self) -> usize {
        self.serials.len()
    }

    /// Whether there is no device.
    pub fn is_empty(&self) -> bool {
        self.serials.is_empty()
    }

    /// The serials, in the table's order.
    pub fn serials(&self) -> &[u32] {
        &self.serials
    }

    /// The addresses, in the table's order.
    pub fn addresses(&self) -> &[u8] {
        &self.addresses
    }

    /// The scanned marks, in the table's order.
    pub fn marks(&self) -> &[u8] {
        &self.marks
    }

    /// The devices, in the table's order.
    pub fn devices(&self) -> Devices<'_> {
        Devices::over(&self.serials, &self.addresses)
    }

    /// The columns, lent. Private, since a caller could put another mark than
    /// 0 or 1.
    fn columns(&mut self) -> Columns<'_> {
        Columns {
            serials: &self.serials,
            addresses: &self.addresses,
            marks: &mut self.marks,
        }
    }

    /// A start: all marks become 0, then all devices contend. `None` is
    /// silence, which an empty table gives.
    ///
    /// ```
    /// use moortinker::devices::Table;
    ///
    /// let mut table = Table::new([5, 9], [0x02, 0x03], [1, 1])?;
    /// assert!(table.start().is_some());
    /// assert_eq!(table.marks(), [1, 0]);
    /// assert!(Table::default().start().is_none());
    /// # Ok::<(), moortinker::Refusal>(())
    /// ```
    pub fn start(&mut self) -> Option<Reply> {
        let mut columns = self.columns();
        let filled = Filled::by(|answer| columns.start(answer)).expect(VALID);
        filled.map(Reply)
    }

    /// A continue: all devices contend with the marks as they stand. `None` is
    /// silence, which an empty table gives.
    ///
    /// ```
    /// use moortinker::devices::Table;
    ///
    /// let mut table = Table::new([5, 9], [0x02, 0x03], [1, 0])?;
    /// assert!(table.resume().is_some());
    /// assert_eq!(table.marks(), [1, 1]);
    /// # Ok::<(), moortinker::Refusal>(())
    /// ```
    pub fn resume(&mut self) -> Option<Reply> {
        let mut columns = self.columns();
        let filled = Filled::by(|answer| columns.resume(answer)).expect(VALID);
        filled.map(Reply)
    }

    /// A raw frame offered to the devices: the start or continue that it
    /// names. `Ok(None)` is silence, which an empty table gives. Refuses as
    /// [`read_request`](crate::modbus::read_request) does, and then nothing
    /// has changed.
    ///
    /// ```
    /// use moortinker::devices::Table;
    /// use moortinker::Reason;
    ///
    /// let mut table = Table::new([5, 9], [0x02, 0x03], [0, 0])?;
    /// assert!(table.offer(&[0xFD, 0x46, 0x01, 0x13, 0x90])?.is_some());
    /// let refusal = table.offer(&[0xFD, 0x46, 0x03, 0x92, 0x51]).unwrap_err();
    /// assert_eq!((refusal.reason(), refusal.place()), (Reason::SubcommandWrong, 2));
    /// assert_eq!(table.marks(), [1, 0]);
    /// # Ok::<(), moortinker::Refusal>(())
    /// ```
    pub fn offer(&mut self, frame: &[u8]) -> Result<Option<Reply>, Refusal> {
        let mut columns = self.columns();
        let filled = Filled::by(|answer| columns.offer(frame, answer))?;
        Ok(filled.map(Reply))
    }

    /// A whole scan: a start, then continues, until the end, silence or `cap`
    /// requests. With cap 0 nothing is sent and nothing changes.
    ///
    /// W12, W13 and W14:
    ///
    /// ```
    /// use moortinker::devices::{ScanEnd, Table};
    ///
    /// let mut table = Table::new([0x0001EB37, 5, 9], [0x0C, 0x02, 0x03], [0, 0, 0])?;
    /// let scan = table.scan(100);
    /// assert_eq!((scan.end(), scan.requests()), (ScanEnd::Complete, 4));
    /// assert_eq!(scan.serials(), [5, 9, 0x0001EB37]);
    /// let scan = table.scan(3);
    /// assert_eq!((scan.end(), scan.requests()), (ScanEnd::Unfinished, 3));
    /// assert_eq!(scan.serials(), [5, 9, 0x0001EB37]);
    /// let scan = Table::default().scan(1);
    /// assert_eq!((scan.end(), scan.requests()), (ScanEnd::Nobody, 1));
    /// # Ok::<(), moortinker::Refusal>(())
    /// ```
    pub fn scan(&mut self, cap: usize) -> Scan {
        let mut serials = vec![0; self.len()];
        let mut addresses = vec![0; self.len()];
        let scanned = self
            .columns()
            .scan(&mut serials, &mut addresses, cap)
            .expect(VALID);
        serials.truncate(scanned.found);
        addresses.truncate(scanned.found);
        Scan {
            end: scanned.end,
            requests: scanned.requests,
            skipped: scanned.skipped,
            serials,
            addresses,
        }
    }
}

/// What the devices put on the bus in answer to a request: one FF for each
/// dominant window, then the frame.
///
/// ```
/// use moortinker::devices::Table;
///
/// let mut table = Table::new([0x0001EB37], [0x0C], [1])?;
/// let reply = table.resume().expect("a table with devices answers");
/// assert_eq!(reply.bytes()[..16], [0xFF; 16]);
/// assert_eq!(reply.bytes()[16..], [0xFD, 0x46, 0x04, 0xD3, 0x93]);
/// # Ok::<(), moortinker::Refusal>(())
/// ```
#[derive(Clone, Copy, Debug, PartialEq, Eq, Hash)]
pub struct Reply(Filled<ANSWER_ROOM>);

impl Reply {
    /// The bytes on the bus.
    pub fn bytes(&self) -> &[u8] {
        self.0.bytes()
    }
}

impl AsRef<[u8]> for Reply {
    fn as_ref(&self) -> &[u8] {
        self.bytes()
    }
}

/// A whole scan. [`Table::scan`] gives it.
///
/// ```
/// use moortinker::devices::{Device, ScanEnd, Table};
///
/// let scan = Table::new([9, 5], [0x03, 0x02], [0, 0])?.scan(100);
/// assert_eq!(scan.end(), ScanEnd::Complete);
/// assert_eq!(scan.requests(), 3);
/// // 30 zero bits in either key, and 26 in F0000005, whose device says the end.
/// assert_eq!(scan.skipped(), 86);
/// assert_eq!(scan.heard().len(), 2);
/// for Device { serial, address } in &scan {
///     println!("{serial:08X} at {address:02X}");
/// }
/// # Ok::<(), moortinker::Refusal>(())
/// ```
#[derive(Clone, Debug, PartialEq, Eq, Hash)]
pub struct Scan {
    end: ScanEnd,
    requests: usize,
    skipped: usize,
    serials: Vec<u32>,
    addresses: Vec<u8>,
}

impl Scan {
    /// How it ended.
    pub fn end(&self) -> ScanEnd {
        self.end
    }

    /// The requests sent.
    pub fn requests(&self) -> usize {
        self.requests
    }

    /// How many FF stood before all answers together, that of the end included.
    pub fn skipped(&self) -> usize {
        self.skipped
    }

    /// The devices heard, in the order heard.
    pub fn heard(&self) -> Devices<'_> {
        Devices::over(&self.serials, &self.addresses)
    }

    /// The serials heard, in the order heard.
    pub fn serials(&self) -> &[u32] {
        &self.serials
    }

    /// The addresses heard, in the order heard.
    pub fn addresses(&self) -> &[u8] {
        &self.addresses
    }
}

impl<'a> IntoIterator for &'a Scan {
    type Item = Device;
    type IntoIter = Devices<'a>;

    fn into_iter(self) -> Devices<'a> {
        self.heard()
    }
}
