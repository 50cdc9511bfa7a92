//! A device table with its event queues, once for each side, and the calls on
//! them made on both. What a call leaves is carried to the next.

use moortinker::sys;
use second::events::EventRequest;
use second::queues::{self, Heard, NewEvent, SLOTS_LENGTH};
use second::refusal::Refusal;

use crate::board::Board;
use crate::fill::counted_events;
use crate::lent::{hex, Lent};
use crate::queues::Queues;
use crate::session::{same, Form, Function, Session};
use crate::tables::Table;

/// A table and its queues as lent to both sides.
pub struct Bus {
    pub board: Board,
    archive: Columns,
    second: Columns,
}

/// The four columns of one side.
#[derive(Clone)]
struct Columns {
    flags: Lent<u8>,
    lasts: Lent<u8>,
    counts: Lent<u8>,
    slots: Lent<u8>,
}

impl Columns {
    fn text(&self) -> String {
        let columns = [&self.flags, &self.lasts, &self.counts, &self.slots];
        columns.map(|column| hex(column.part())).join(" ")
    }

    fn lent(&mut self) -> queues::Queues<'_> {
        queues::Queues {
            flags: self.flags.part_mut(),
            lasts: self.lasts.part_mut(),
            counts: self.counts.part_mut(),
            slots: self.slots.part_mut(),
        }
    }
}

/// A new event.
#[derive(Clone, Debug)]
pub struct Added {
    pub id: u8,
    /// 0 where it is not urgent.
    pub urgent: u8,
    pub kind: u8,
    pub identifier: u16,
    pub data: Vec<u8>,
}

/// A poll as it reaches the devices.
pub enum Asked<'a> {
    Poll(EventRequest),
    Offer(&'a [u8]),
}

impl Asked<'_> {
    fn function(&self) -> Function {
        match self {
            Asked::Poll(_) => Function::Poll,
            Asked::Offer(_) => Function::OfferPoll,
        }
    }

    fn text(&self) -> String {
        match self {
            Asked::Poll(request) => format!("{request:?}"),
            Asked::Offer(frame) => hex(frame),
        }
    }
}

impl Bus {
    pub fn new(session: &mut Session, table: Table, queues: &Queues) -> Self {
        let archive = Columns {
            flags: session.lend(&queues.flags),
            lasts: session.lend(&queues.lasts),
            counts: session.lend(&queues.counts),
            slots: session.lend(&queues.slots),
        };
        Bus {
            board: Board::new(session, table),
            second: archive.clone(),
            archive,
        }
    }

    pub fn ids(&self) -> &[u8] {
        &self.board.table.addresses
    }

    /// The flags that the archive's calls left.
    pub fn flags(&self) -> &[u8] {
        self.archive.flags.part()
    }

    /// How many events the last packets had, as the archive's calls left it.
    pub fn lasts(&self) -> &[u8] {
        self.archive.lasts.part()
    }

    /// How many events are queued, as the archive's calls left it.
    pub fn counts(&self) -> &[u8] {
        self.archive.counts.part()
    }

    /// The slots of a device, as the archive's calls left them.
    pub fn slots(&self, device: usize) -> &[u8] {
        &self.archive.slots.part()[device * SLOTS_LENGTH..][..SLOTS_LENGTH]
    }

    /// Compares all columns.
    fn compare(&self) -> Result<(), String> {
        let (archive, second) = (&self.archive, &self.second);
        same("flags", &archive.flags, &second.flags)
            .and_then(|()| same("last packets", &archive.lasts, &second.lasts))
            .and_then(|()| same("numbers queued", &archive.counts, &second.counts))
            .and_then(|()| same("slots", &archive.slots, &second.slots))
            .and_then(|()| self.board.compare())
    }

    fn text(&self, before: &Columns) -> String {
        format!("{} {}", self.board.text(self.board.marks()), before.text())
    }
}

/// The table as the second side has it.
fn table_of(board: &Board) -> queues::Table<'_> {
    let Table {
        serials, addresses, ..
    } = &board.table;
    queues::Table {
        serials,
        addresses,
        marks: board.second_marks(),
    }
}

pub fn queues_valid(session: &mut Session, bus: &mut Bus) {
    let (table, columns) = (bus.board.lent(), &bus.archive);
    // SAFETY: each pointer comes with its length.
    let archive = unsafe {
        sys::moor_queues_valid(
            table.serials.pointer(),
            table.serials.length(),
            table.addresses.pointer(),
            table.addresses.length(),
            table.marks.pointer(),
            table.marks.length(),
            columns.flags.pointer(),
            columns.flags.length(),
            columns.lasts.pointer(),
            columns.lasts.length(),
            columns.counts.pointer(),
            columns.counts.length(),
            columns.slots.pointer(),
            columns.slots.length(),
        )
    };
    let second = queues::queues_valid(table_of(&bus.board), &bus.second.lent());
    let compared = same("answer", &archive, &second).and_then(|()| bus.compare());
    session.settle(Function::QueuesValid, 0, compared, || bus.text(&bus.second));
    session.note(Function::QueuesValid, [u8::from(second), 0, 0]);
}

/// Adds an event on both sides. Gives whether they took it.
pub fn add(session: &mut Session, bus: &mut Bus, added: &Added) -> bool {
    let before = bus.second.clone();
    let data = session.lend(&added.data);
    let kept = data.clone();
    let archive = add_archive(bus, added, &data);
    let second = add_second(bus, added);
    let (number, place) =
        second.map_or_else(|refusal| (refusal.number, refusal.place), |()| (0, 0));
    let compared = same("answer", &archive, &sys::Added { number, place })
        .and_then(|()| bus.compare())
        .and_then(|()| same("data", &data, &kept));
    session.settle(Function::AddEvent, number, compared, || {
        format!("{added:02X?} {}", bus.text(&before))
    });
    if number == 0 {
        let device = bus.ids().iter().position(|&id| id == added.id);
        let queued = bus.counts()[device.expect("a device took it")];
        let form = [u8::from(added.urgent != 0), filled(queued), 0];
        session.note(Function::AddEvent, form);
    }
    number == 0
}

/// A queue behind a new event: of one event, of some, or full.
fn filled(queued: u8) -> u8 {
    match queued {
        1 => 0,
        8 => 2,
        _ => 1,
    }
}

fn add_archive(bus: &mut Bus, added: &Added, data: &Lent<u8>) -> sys::Added {
    let (table, columns) = (bus.board.lent(), &mut bus.archive);
    // SAFETY: each pointer comes with its length, and the buffers lie apart.
    unsafe {
        sys::moor_add_event(
            table.serials.pointer(),
            table.serials.length(),
            table.addresses.pointer(),
            table.addresses.length(),
            table.marks.pointer(),
            table.marks.length(),
            columns.flags.pointer(),
            columns.flags.length(),
            columns.lasts.pointer(),
            columns.lasts.length(),
            columns.counts.pointer_mut(),
            columns.counts.length(),
            columns.slots.pointer_mut(),
            columns.slots.length(),
            added.id,
            added.urgent,
            added.kind,
            added.identifier,
            data.pointer(),
            data.length(),
        )
    }
}

fn add_second(bus: &mut Bus, added: &Added) -> Result<(), Refusal> {
    let event = NewEvent {
        urgent: added.urgent != 0,
        kind: added.kind,
        identifier: added.identifier,
        data: &added.data,
    };
    let table = table_of(&bus.board);
    queues::add_event(table, &mut bus.second.lent(), added.id, event)
}

/// Polls the devices on both sides, and reads what they answer, which has as many
/// FF before it as the poll says. Gives the answer's bytes, or none when refused.
pub fn poll(session: &mut Session, bus: &mut Bus, asked: Asked, room: usize) -> Option<Vec<u8>> {
    let before = bus.second.clone();
    let frame = match asked {
        Asked::Poll(_) => session.lend(&[]),
        Asked::Offer(frame) => session.lend(frame),
    };
    let kept = frame.clone();
    let mut archive_answer = session.room(room);
    let mut second_answer = archive_answer.clone();
    let archive = match asked {
        Asked::Poll(request) => poll_archive(bus, request, &mut archive_answer),
        Asked::Offer(_) => offer_archive(bus, &frame, &mut archive_answer),
    };
    let second = poll_second(bus, &asked, second_answer.part_mut());
    let dropped = turned(&before, &bus.second);
    let compared = same("answer", &archive, &second)
        .and_then(|()| same("answer buffer", &archive_answer, &second_answer))
        .and_then(|()| bus.compare())
        .and_then(|()| same("frame", &frame, &kept));
    let function = asked.function();
    session.settle(function, second.number, compared, || {
        format!("{} {} room {room}", asked.text(), bus.text(&before))
    });
    if second.number != 0 {
        return None;
    }
    let asked = match asked {
        Asked::Poll(request) => request,
        Asked::Offer(frame) => second::events::read_event_request(frame).expect("it was taken"),
    };
    let form = form(bus, &before, asked, dropped, second);
    session.note(function, form);
    let answer = archive_answer.part()[..second.length].to_vec();
    let counted = counted_events(session, &answer);
    let seed = session.seed();
    assert_eq!(second.skipped, counted, "{}, seed {seed:#X}", hex(&answer));
    Some(answer)
}

/// The device whose flag a call turned, so that its events were dropped.
fn turned(before: &Columns, behind: &Columns) -> Option<usize> {
    let mut flags = before.flags.part().iter().zip(behind.flags.part());
    flags.position(|(before, behind)| before != behind)
}

/// What was heard; whether a packet was confirmed; and of a packet whether it
/// leaves events for later, and 2 more where it stands for one that was not
/// confirmed, of silence whether there is a device that sat out, and of no
/// events too.
fn form(
    bus: &Bus,
    before: &Columns,
    asked: EventRequest,
    dropped: Option<usize>,
    polled: sys::Polled,
) -> Form {
    let position = |id| bus.ids().iter().position(|&other| other == id);
    let detail = match polled.answer {
        sys::MOOR_PACKET => {
            let device = position(polled.sender).expect("a device sent it");
            let more = polled.events < bus.counts()[device];
            let again = dropped != Some(device) && before.lasts.part()[device] > 0;
            u8::from(more) + 2 * u8::from(again)
        }
        _ => {
            let sits_out = |device: usize| {
                bus.ids()[device] >= asked.minimum
                    && bus.counts()[device] > 0
                    && 4 + bus.slots(device)[1] > asked.most
            };
            u8::from((0..bus.ids().len()).any(sits_out))
        }
    };
    [polled.answer, u8::from(dropped.is_some()), detail]
}

fn poll_archive(bus: &mut Bus, asked: EventRequest, answer: &mut Lent<u8>) -> sys::Polled {
    let (table, columns) = (bus.board.lent(), &mut bus.archive);
    // SAFETY: each pointer comes with its length, and the buffers lie apart.
    unsafe {
        sys::moor_poll(
            asked.minimum,
            asked.most,
            asked.confirmed,
            asked.flag,
            table.serials.pointer(),
            table.serials.length(),
            table.addresses.pointer(),
            table.addresses.length(),
            table.marks.pointer(),
            table.marks.length(),
            columns.flags.pointer_mut(),
            columns.flags.length(),
            columns.lasts.pointer_mut(),
            columns.lasts.length(),
            columns.counts.pointer_mut(),
            columns.counts.length(),
            columns.slots.pointer_mut(),
            columns.slots.length(),
            answer.pointer_mut(),
            answer.length(),
        )
    }
}

fn offer_archive(bus: &mut Bus, frame: &Lent<u8>, answer: &mut Lent<u8>) -> sys::Polled {
    let (table, columns) = (bus.board.lent(), &mut bus.archive);
    // SAFETY: each pointer comes with its length, and the buffers lie apart.
    unsafe {
        sys::moor_offer_poll(
            frame.pointer(),
            frame.length(),
            table.serials.pointer(),
            table.serials.length(),
            table.addresses.pointer(),
            table.addresses.length(),
            table.marks.pointer(),
            table.marks.length(),
            columns.flags.pointer_mut(),
            columns.flags.length(),
            columns.lasts.pointer_mut(),
            columns.lasts.length(),
            columns.counts.pointer_mut(),
            columns.counts.length(),
            columns.slots.pointer_mut(),
            columns.slots.length(),
            answer.pointer_mut(),
            answer.length(),
        )
    }
}

/// What a poll gives that is accepted and brings about silence.
pub const SILENCE: sys::Polled = sys::Polled {
    number: 0,
    answer: 0,
    sender: 0,
    flag: 0,
    events: 0,
    place: 0,
    length: 0,
    skipped: 0,
};

fn poll_second(bus: &mut Bus, asked: &Asked, answer: &mut [u8]) -> sys::Polled {
    let (table, mut columns) = (table_of(&bus.board), bus.second.lent());
    let polled = match *asked {
        Asked::Poll(request) => queues::poll(request, table, &mut columns, answer),
        Asked::Offer(frame) => queues::offer_poll(frame, table, &mut columns, answer),
    };
    let mut laid_out = SILENCE;
    match polled {
        Err(Refusal { number, place }) => (laid_out.number, laid_out.place) = (number, place),
        Ok(polled) => {
            (laid_out.length, laid_out.skipped) = (polled.length, polled.skipped);
            match polled.heard {
                Heard::Silence => {}
                Heard::NoEvents { sender } => {
                    (laid_out.answer, laid_out.sender) = (sys::MOOR_NO_EVENTS, sender);
                }
                Heard::Packet {
                    sender,
                    flag,
                    events,
                } => {
                    (laid_out.answer, laid_out.sender) = (sys::MOOR_PACKET, sender);
                    (laid_out.flag, laid_out.events) = (flag, events);
                }
            }
        }
    }
    laid_out
}
