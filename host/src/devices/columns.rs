//! Lent columns, and the calls on them that allocate nothing.

use std::fmt;

use crate::refusal::length_of;
use crate::{call, sys, Refusal};

/// How a whole scan ended.
///
/// ```
/// use moortinker::devices::{ScanEnd, Table};
///
/// let mut table = Table::new([5, 9], [0x02, 0x03], [0, 0])?;
/// assert_eq!(table.scan(3).end(), ScanEnd::Complete);
/// assert_eq!(table.scan(2).end(), ScanEnd::Unfinished);
/// assert_eq!(Table::default().scan(2).end(), ScanEnd::Nobody);
/// assert_eq!(ScanEnd::Nobody.to_string(), "nobody answered");
/// # Ok::<(), moortinker::Refusal>(())
/// ```
#[derive(Clone, Copy, Debug, PartialEq, Eq, Hash)]
pub enum ScanEnd {
    /// The end of the scan was heard.
    Complete,
    /// Nobody answered.
    Nobody,
    /// The cap was reached first.
    Unfinished,
}

impl ScanEnd {
    fn of_archive(end: u8) -> ScanEnd {
        match end {
            sys::MOOR_COMPLETE => ScanEnd::Complete,
            sys::MOOR_NOBODY => ScanEnd::Nobody,
            sys::MOOR_UNFINISHED => ScanEnd::Unfinished,
            _ => unreachable!("libmoortinker.a ends a scan in one of three ways"),
        }
    }
}

impl fmt::Display for ScanEnd {
    fn fmt(&self, f: &mut fmt::Formatter<'_>) -> fmt::Result {
        f.write_str(match self {
            ScanEnd::Complete => "complete",
            ScanEnd::Nobody => "nobody answered",
            ScanEnd::Unfinished => "unfinished",
        })
    }
}

/// What is known of a whole scan beside the devices heard. [`Columns::scan`]
/// gives it.
///
/// W14:
///
/// ```
/// use moortinker::devices::{Columns, ScanEnd, Scanned};
///
/// let mut empty = Columns { serials: &[], addresses: &[], marks: &mut [] };
/// let scanned = empty.scan(&mut [], &mut [], 1)?;
/// let nobody = Scanned { end: ScanEnd::Nobody, requests: 1, found: 0, skipped: 0 };
/// assert_eq!(scanned, nobody);
/// # Ok::<(), moortinker::Refusal>(())
/// ```
#[derive(Clone, Copy, Debug, PartialEq, Eq, Hash)]
pub struct Scanned {
    /// How it ended.
    pub end: ScanEnd,
    /// The requests sent.
    pub requests: usize,
    /// How many devices were heard, which is how many entries the two lists
    /// start with.
    pub found: usize,
    /// How many FF stood before all answers together, that of the end included:
    /// one for each window that was dominant.
    pub skipped: usize,
}

/// A device table as three lent columns, valid or not.
///
/// ```
/// use moortinker::devices::{Columns, ANSWER_ROOM};
/// use moortinker::Reason;
///
/// let (serials, addresses, mut marks) = ([5, 5], [0x02, 0x03], [0, 0]);
/// let mut columns = Columns { serials: &serials, addresses: &addresses, marks: &mut marks };
/// assert!(!columns.is_valid());
/// let refusal = columns.start(&mut [0; ANSWER_ROOM]).unwrap_err();
/// assert_eq!(refusal.reason(), Reason::TableNotValid);
/// ```
#[derive(Debug)]
pub struct Columns<'a> {
    /// The serials.
    pub serials: &'a [u32],
    /// The addresses.
    pub addresses: &'a [u8],
    /// The scanned marks, 0 or 1. The calls change nothing else.
    pub marks: &'a mut [u8],
}

impl Columns<'_> {
    /// Whether the table is valid: the columns are equally long, at most 247,
    /// the serials are below 2^28 and differ, and the marks are 0 or 1.
    ///
    /// ```
    /// use moortinker::devices::Columns;
    ///
    /// let mut marks = [0, 1];
    /// let table = Columns { serials: &[5, 9], addresses: &[0x02, 0x02], marks: &mut marks };
    /// assert!(table.is_valid());
    /// let table = Columns { serials: &[5], addresses: &[0x02], marks: &mut [2] };
    /// assert!(!table.is_valid());
    /// ```
    pub fn is_valid(&self) -> bool {
        call::table_valid(self.serials, self.addresses, self.marks)
    }

    /// A start: all marks become 0, then all devices contend. The answer is
    /// one FF for each dominant window and then the frame; its length is
    /// given, 0 for silence, which an empty table gives.
    ///
    /// Refuses with [`OutputShort`](crate::Reason::OutputShort) where the
    /// answer buffer is under [`ANSWER_ROOM`](super::ANSWER_ROOM) bytes, then
    /// with [`TableNotValid`](crate::Reason::TableNotValid).
    ///
    /// ```
    /// use moortinker::devices::{Columns, ANSWER_ROOM};
    ///
    /// let mut marks = [1];
    /// let mut table = Columns { serials: &[0x0001EB37], addresses: &[0x0C], marks: &mut marks };
    /// let mut answer = [0; ANSWER_ROOM];
    /// assert_eq!(table.start(&mut answer), Ok(30));
    /// assert_eq!(answer[..20], [0xFF; 20]);
    /// assert_eq!(answer[20..30], [0xFD, 0x46, 0x03, 0x00, 0x01, 0xEB, 0x37, 0x0C, 0xCE, 0xDC]);
    /// ```
    pub fn start(&mut self, answer: &mut [u8]) -> Result<usize, Refusal> {
        length_of(call::start(
            self.serials,
            self.addresses,
            self.marks,
            answer,
        ))
    }

    /// A continue: all devices contend with the marks as they stand. Answers
    /// and refuses as [`start`](Columns::start) does.
    ///
    /// ```
    /// use moortinker::devices::{Columns, ANSWER_ROOM};
    ///
    /// let mut marks = [1];
    /// let mut table = Columns { serials: &[0x0001EB37], addresses: &[0x0C], marks: &mut marks };
    /// let mut answer = [0; ANSWER_ROOM];
    /// assert_eq!(table.resume(&mut answer), Ok(21));
    /// assert_eq!(answer[..16], [0xFF; 16]);
    /// assert_eq!(answer[16..21], [0xFD, 0x46, 0x04, 0xD3, 0x93]);
    /// ```
    pub fn resume(&mut self, answer: &mut [u8]) -> Result<usize, Refusal> {
        length_of(call::resume(
            self.serials,
            self.addresses,
            self.marks,
            answer,
        ))
    }

    /// A raw frame offered to the devices: the start or continue that it
    /// names. Answers and refuses as [`start`](Columns::start) does, and then
    /// as [`read_request`](crate::modbus::read_request) does.
    ///
    /// ```
    /// use moortinker::devices::{Columns, ANSWER_ROOM};
    /// use moortinker::Reason;
    ///
    /// let mut marks = [0];
    /// let mut table = Columns { serials: &[0x0001EB37], addresses: &[0x0C], marks: &mut marks };
    /// let mut answer = [0; ANSWER_ROOM];
    /// let refusal = table.offer(&[0xFD, 0x46, 0x01, 0x13, 0x91], &mut answer).unwrap_err();
    /// assert_eq!((refusal.reason(), refusal.place()), (Reason::FrameCheck, 3));
    /// assert_eq!(table.marks, [0]);
    /// assert_eq!(table.offer(&[0xFD, 0x46, 0x01, 0x13, 0x90], &mut answer), Ok(30));
    /// assert_eq!(table.marks, [1]);
    /// ```
    pub fn offer(&mut self, frame: &[u8], answer: &mut [u8]) -> Result<usize, Refusal> {
        length_of(call::offer(
            frame,
            self.serials,
            self.addresses,
            self.marks,
            answer,
        ))
    }

    /// A whole scan: a start, then continues, until the end, silence or `cap`
    /// requests. The serials and addresses heard stand at the start of the two
    /// lists, in the order heard; entries behind them stay.
    ///
    /// Refuses with [`OutputShort`](crate::Reason::OutputShort) where a list
    /// is shorter than the serial column, then with
    /// [`TableNotValid`](crate::Reason::TableNotValid).
    ///
    /// W13; the three keys have 30, 30 and 20 zero bits:
    ///
    /// ```
    /// use moortinker::devices::{Columns, ScanEnd, Scanned};
    ///
    /// let mut table = Columns {
    ///     serials: &[0x0001EB37, 5, 9],
    ///     addresses: &[0x0C, 0x02, 0x03],
    ///     marks: &mut [0; 3],
    /// };
    /// let (mut serials, mut addresses) = ([0; 3], [0; 3]);
    /// let scanned = table.scan(&mut serials, &mut addresses, 3)?;
    /// let three = Scanned { end: ScanEnd::Unfinished, requests: 3, found: 3, skipped: 80 };
    /// assert_eq!(scanned, three);
    /// assert_eq!(serials, [5, 9, 0x0001EB37]);
    /// assert_eq!(addresses, [0x02, 0x03, 0x0C]);
    /// # Ok::<(), moortinker::Refusal>(())
    /// ```
    pub fn scan(
        &mut self,
        found_serials: &mut [u32],
        found_addresses: &mut [u8],
        cap: usize,
    ) -> Result<Scanned, Refusal> {
        let scanned = call::scan(
            self.serials,
            self.addresses,
            self.marks,
            found_serials,
            found_addresses,
            cap,
        );
        Refusal::check(scanned.number, scanned.place)?;
        Ok(Scanned {
            end: ScanEnd::of_archive(scanned.end),
            requests: scanned.requests,
            found: scanned.found,
            skipped: scanned.skipped,
        })
    }
}
