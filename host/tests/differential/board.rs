//! A device table with its marks once for each side, and the calls on devices
//! made on both. Marks are carried from call to call.

use moortinker::sys;
use second::devices;
use second::refusal::Refusal;

use crate::calls::{written, Writing};
use crate::fill::counted_answer;
use crate::lent::{hex, Lent};
use crate::session::{same, Function, Session};
use crate::tables::Table;

/// A device table as lent to both sides.
pub struct Board {
    /// The table as it was made.
    pub table: Table,
    serials: Lent<u32>,
    addresses: Lent<u8>,
    kept_serials: Lent<u32>,
    kept_addresses: Lent<u8>,
    archive_marks: Lent<u8>,
    second_marks: Lent<u8>,
}

/// The columns of a table as the archive is lent them.
pub struct LentTable<'a> {
    pub serials: &'a Lent<u32>,
    pub addresses: &'a Lent<u8>,
    pub marks: &'a Lent<u8>,
}

/// A request as it reaches the devices.
pub enum Asked<'a> {
    Start,
    Resume,
    Offer(&'a [u8]),
}

impl Asked<'_> {
    fn function(&self) -> Function {
        match self {
            Asked::Start => Function::Start,
            Asked::Resume => Function::Resume,
            Asked::Offer(_) => Function::Offer,
        }
    }

    /// The frame offered, none in the other cases.
    fn frame(&self) -> &[u8] {
        match self {
            Asked::Offer(frame) => frame,
            _ => &[],
        }
    }
}

impl Board {
    pub fn new(session: &mut Session, table: Table) -> Self {
        let serials = session.lend(&table.serials);
        let addresses = session.lend(&table.addresses);
        let marks = session.lend(&table.marks);
        Board {
            table,
            kept_serials: serials.clone(),
            kept_addresses: addresses.clone(),
            serials,
            addresses,
            archive_marks: marks.clone(),
            second_marks: marks,
        }
    }

    /// The marks that the archive's calls left.
    pub fn marks(&self) -> &[u8] {
        self.archive_marks.part()
    }

    /// The marks that the second implementation's calls left.
    pub fn second_marks(&self) -> &[u8] {
        self.second_marks.part()
    }

    /// The columns for calls of the archive that only read them.
    pub fn lent(&self) -> LentTable<'_> {
        LentTable {
            serials: &self.serials,
            addresses: &self.addresses,
            marks: &self.archive_marks,
        }
    }

    /// Compares the columns.
    pub fn compare(&self) -> Result<(), String> {
        same("marks", &self.archive_marks, &self.second_marks)
            .and_then(|()| same("serials", &self.serials, &self.kept_serials))
            .and_then(|()| same("addresses", &self.addresses, &self.kept_addresses))
    }

    /// The columns in hex, with the marks as they stood before the call.
    pub fn text(&self, marks: &[u8]) -> String {
        let Table {
            serials, addresses, ..
        } = &self.table;
        format!("{} {} {}", hex(serials), hex(addresses), hex(marks))
    }
}

pub fn table_valid(session: &mut Session, board: &Board) {
    let Board {
        serials,
        addresses,
        archive_marks: marks,
        ..
    } = board;
    // SAFETY: each pointer comes with its length.
    let archive = unsafe {
        sys::moor_table_valid(
            serials.pointer(),
            serials.length(),
            addresses.pointer(),
            addresses.length(),
            marks.pointer(),
            marks.length(),
        )
    };
    let second = devices::table_valid(serials.part(), addresses.part(), marks.part());
    let compared = same("answer", &archive, &second).and_then(|()| board.compare());
    session.settle(Function::TableValid, 0, compared, || {
        board.text(marks.part())
    });
    session.note(Function::TableValid, [u8::from(second), 0, 0]);
}

pub fn contest(session: &mut Session, keys: &[u32]) {
    let lent = session.lend(keys);
    let kept = lent.clone();
    // SAFETY: the pointer comes with its length.
    let archive = unsafe { sys::moor_contest(lent.pointer(), lent.length()) };
    let decided = devices::contest(keys);
    let second = sys::Decided {
        key: decided.key,
        dominant: decided.dominant,
    };
    let compared = same("answer", &archive, &second).and_then(|()| same("input", &lent, &kept));
    session.settle(Function::Contest, 0, compared, || hex(keys));
}

/// Asks the devices on both sides, and reads what they answer. Gives how many FF
/// stand before it, of silence 0, or none when refused.
pub fn ask(session: &mut Session, board: &mut Board, asked: Asked, room: usize) -> Option<usize> {
    let before = board.second_marks.part().to_vec();
    let frame = session.lend(asked.frame());
    let kept = frame.clone();
    let mut writing = Writing::new(session, room);
    let archive = ask_archive(board, &asked, &frame, &mut writing.archive);
    let second = written(ask_second(board, &asked, writing.second.part_mut()));
    let compared = writing
        .compare(&archive, &second)
        .and_then(|()| board.compare())
        .and_then(|()| same("frame", &frame, &kept));
    let function = asked.function();
    session.settle(function, second.number, compared, || {
        let frame = hex(asked.frame());
        format!("{frame} {} room {room}", board.text(&before))
    });
    if second.number != 0 {
        return None;
    }
    let answer = &writing.archive.part()[..second.length];
    session.note(function, [subcommand(answer), 0, 0]);
    Some(counted_answer(session, answer))
}

/// The subcommand of an answer behind its FF, 0 for silence.
fn subcommand(answer: &[u8]) -> u8 {
    let mut frame = answer.iter().skip_while(|&&byte| byte == 0xFF);
    frame.nth(2).copied().unwrap_or(0)
}

fn ask_archive(
    board: &mut Board,
    asked: &Asked,
    frame: &Lent<u8>,
    answer: &mut Lent<u8>,
) -> sys::Written {
    let request = match asked {
        Asked::Start => sys::moor_start,
        Asked::Resume => sys::moor_resume,
        Asked::Offer(_) => return offer_archive(board, frame, answer),
    };
    // SAFETY: each pointer comes with its length, and the buffers lie apart.
    unsafe {
        request(
            board.serials.pointer(),
            board.serials.length(),
            board.addresses.pointer(),
            board.addresses.length(),
            board.archive_marks.pointer_mut(),
            board.archive_marks.length(),
            answer.pointer_mut(),
            answer.length(),
        )
    }
}

fn offer_archive(board: &mut Board, frame: &Lent<u8>, answer: &mut Lent<u8>) -> sys::Written {
    // SAFETY: each pointer comes with its length, and the buffers lie apart.
    unsafe {
        sys::moor_offer(
            frame.pointer(),
            frame.length(),
            board.serials.pointer(),
            board.serials.length(),
            board.addresses.pointer(),
            board.addresses.length(),
            board.archive_marks.pointer_mut(),
            board.archive_marks.length(),
            answer.pointer_mut(),
            answer.length(),
        )
    }
}

fn ask_second(board: &mut Board, asked: &Asked, answer: &mut [u8]) -> Result<usize, Refusal> {
    let Table {
        serials, addresses, ..
    } = &board.table;
    let marks = board.second_marks.part_mut();
    match asked {
        Asked::Start => devices::start(serials, addresses, marks, answer),
        Asked::Resume => devices::resume(serials, addresses, marks, answer),
        Asked::Offer(frame) => devices::offer(frame, serials, addresses, marks, answer),
    }
}

/// Scans on both sides with lists of these lengths. Gives what both say, or none
/// when refused.
pub fn scan(
    session: &mut Session,
    board: &mut Board,
    rooms: [usize; 2],
    cap: usize,
) -> Option<sys::Scanned> {
    let before = board.second_marks.part().to_vec();
    let mut archive_lists = (session.room::<u32>(rooms[0]), session.room::<u8>(rooms[1]));
    let mut second_lists = archive_lists.clone();
    let archive = scan_archive(board, &mut archive_lists, cap);
    let second = scan_second(board, &mut second_lists, cap);
    let compared = same("answer", &archive, &second)
        .and_then(|()| same("lists", &archive_lists, &second_lists))
        .and_then(|()| board.compare());
    session.settle(Function::Scan, second.number, compared, || {
        format!("{} rooms {rooms:?} cap {cap}", board.text(&before))
    });
    if second.number != 0 {
        return None;
    }
    let form = [second.end, u8::from(second.skipped > 0), 0];
    session.note(Function::Scan, form);
    Some(second)
}

fn scan_archive(board: &mut Board, lists: &mut (Lent<u32>, Lent<u8>), cap: usize) -> sys::Scanned {
    let (found_serials, found_addresses) = lists;
    // SAFETY: each pointer comes with its length, and the buffers lie apart.
    unsafe {
        sys::moor_scan(
            board.serials.pointer(),
            board.serials.length(),
            board.addresses.pointer(),
            board.addresses.length(),
            board.archive_marks.pointer_mut(),
            board.archive_marks.length(),
            found_serials.pointer_mut(),
            found_serials.length(),
            found_addresses.pointer_mut(),
            found_addresses.length(),
            cap,
        )
    }
}

fn scan_second(board: &mut Board, lists: &mut (Lent<u32>, Lent<u8>), cap: usize) -> sys::Scanned {
    let scanned = devices::scan(
        &board.table.serials,
        &board.table.addresses,
        board.second_marks.part_mut(),
        lists.0.part_mut(),
        lists.1.part_mut(),
        cap,
    );
    match scanned {
        Ok(scanned) => sys::Scanned {
            number: 0,
            end: scanned.end as u8,
            place: 0,
            requests: scanned.requests,
            found: scanned.found,
            skipped: scanned.skipped,
        },
        Err(Refusal { number, place }) => sys::Scanned {
            number,
            end: 0,
            place,
            requests: 0,
            found: 0,
            skipped: 0,
        },
    }
}
