//! The families of random inputs for events: frames, single calls on queues, and
//! long sequences of new events, polls and scans on one table.

use second::events::{event_at, read_event_request, read_events, EventRequest, Events};
use second::queues::SLOT_LENGTH;

use crate::calls;
use crate::eventframes::{self, any_request, written_request};
use crate::families;
use crate::polls::{add, poll, queues_valid, Added, Asked, Bus};
use crate::queues;
use crate::random::Random;
use crate::session::Session;

pub fn frames(session: &mut Session) {
    let random = &mut session.random;
    let request = eventframes::request(random);
    let answer = eventframes::answer(random);
    calls::read_event_request(session, &request);
    calls::read_events(session, &answer);
    if session.random.one_in(2) {
        let random = &mut session.random;
        let mut bytes = match random.below(3) {
            0 => answer,
            _ => eventframes::events(random).1,
        };
        if random.one_in(4) {
            let cut = random.below(bytes.len() + 1);
            bytes.truncate(cut);
        }
        let at = if random.one_in(2) {
            behind_some_events(random, &bytes)
        } else {
            families::position(random, bytes.len())
        };
        calls::event_at(session, &bytes, at);
    }
    if session.random.one_in(4) {
        let random = &mut session.random;
        let asked = any_request(random);
        let rooms = [random.room(9), random.room(5)];
        calls::write_event_request(session, asked, rooms[0]);
        calls::write_no_events(session, rooms[1]);
    }
}

/// Where one of the first events starts, or where no more of them stand.
fn behind_some_events(random: &mut Random, bytes: &[u8]) -> usize {
    let mut starts = vec![0];
    let mut at = 0;
    while let Some(event) = event_at(bytes, at) {
        at = event.next;
        starts.push(at);
    }
    random.pick(&starts)
}

/// Single calls on queues that are often damaged.
pub fn single(session: &mut Session) {
    let random = &mut session.random;
    let (table, queues) = if random.one_in(3) {
        let count = queues::count(random);
        let table = queues::table(random, count);
        (table, queues::valid(random, count))
    } else {
        queues::damaged(random)
    };
    let mut bus = Bus::new(session, table, &queues);
    queues_valid(session, &mut bus);
    for _ in 0..2 {
        let added = event(&mut session.random, bus.ids());
        add(session, &mut bus, &added);
        let request = any_request_near(&mut session.random, bus.ids());
        ask(session, &mut bus, request);
    }
}

/// A new event, at times for nobody or with too much data.
fn event(random: &mut Random, ids: &[u8]) -> Added {
    let id = match random.below(12) {
        0 => random.byte(),
        1 => random.pick(&[0, 1, 247, 248, 255]),
        _ if ids.is_empty() => 1,
        _ => random.pick(ids),
    };
    let size = match random.below(14) {
        0 => random.pick(&[9, 9, 10, 255, 300]),
        _ => queues::size(random),
    };
    Added {
        id,
        urgent: random.pick(&[0, 0, 0, 1, 2, 255]),
        kind: random.byte(),
        identifier: random.draw() as u16,
        data: random.bytes(size),
    }
}

/// A request that names some device of these, or nobody.
fn any_request_near(random: &mut Random, ids: &[u8]) -> EventRequest {
    let mut asked = any_request(random);
    if !ids.is_empty() && !random.one_in(3) {
        asked.confirmed = random.pick(ids);
        asked.flag = random.below(3) as u8;
    }
    if random.one_in(2) {
        asked.minimum = 0;
    }
    asked
}

/// Makes a poll in either way, with an answer buffer that is mostly long enough.
/// Gives the request and the answer, or none when refused.
fn ask(
    session: &mut Session,
    bus: &mut Bus,
    request: EventRequest,
) -> Option<(EventRequest, Vec<u8>)> {
    let random = &mut session.random;
    let room = match random.below(16) {
        0 => random.below(130),
        1 => 115,
        2..=8 => 116,
        _ => 116 + random.below(20),
    };
    if random.one_in(2) {
        let answer = poll(session, bus, Asked::Poll(request), room)?;
        return Some((request, answer));
    }
    let frame = if random.one_in(6) {
        eventframes::request(random)
    } else {
        written_request(request)
    };
    let answer = poll(session, bus, Asked::Offer(&frame), room)?;
    let request = read_event_request(&frame).expect("the devices took it");
    Some((request, answer))
}

/// A table with its queues and a long list of calls on it: new events, polls and
/// at times requests of a scan. After each the queues are held against what
/// request 3 says of the events added and of the packets heard.
pub fn sequences(session: &mut Session) {
    let random = &mut session.random;
    let count = queues::count(random);
    let table = queues::table(random, count);
    let queues = if random.one_in(2) {
        queues::fresh(random, count)
    } else {
        queues::valid(random, count)
    };
    let calls = 1 + random.below(200);
    let added = 2 + random.below(8);
    let mut bus = Bus::new(session, table, &queues);
    let mut told = Told::of(&bus);
    for _ in 0..calls {
        match session.random.below(10 + added) {
            0 => drop(families::call(session, &mut bus.board)),
            1..=9 => {
                let request = request(&mut session.random, &bus);
                if let Some((request, answer)) = ask(session, &mut bus, request) {
                    told.hear(request, &answer);
                }
            }
            _ => {
                let event = event(&mut session.random, bus.ids());
                if add(session, &mut bus, &event) {
                    told.add(&event);
                }
            }
        }
        told.assert_queued(&bus, session.seed());
        if session.random.one_in(50) {
            queues_valid(session, &mut bus);
        }
    }
}

/// A request that often confirms what was sent last, and whose length is often
/// near that of some events.
fn request(random: &mut Random, bus: &Bus) -> EventRequest {
    let devices = bus.ids().len();
    if devices == 0 {
        return any_request(random);
    }
    let (confirmed, flag) = confirmation(random, bus);
    let id = random.pick(bus.ids());
    let minimum = match random.below(12) {
        0 => id,
        1 => id + 1,
        2 => random.pick(&[1, 247, 248, 255]),
        3 => random.byte(),
        _ => 0,
    };
    let most = match random.below(8) {
        0 => random.byte(),
        1 => random.below(16) as u8,
        2 => random.pick(&[95, 96, 97, 100, 255]),
        _ => near_events(random, bus),
    };
    EventRequest {
        minimum,
        most,
        confirmed,
        flag,
    }
}

/// An id and a flag: mostly those of a packet that was sent and not confirmed.
fn confirmation(random: &mut Random, bus: &Bus) -> (u8, u8) {
    let devices = bus.ids().len();
    let sent: Vec<usize> = (0..devices).filter(|&at| bus.lasts()[at] > 0).collect();
    let device = if sent.is_empty() || random.one_in(6) {
        random.below(devices)
    } else {
        random.pick(&sent)
    };
    let (id, flag) = (bus.ids()[device], bus.flags()[device]);
    match random.below(10) {
        0 => (0, 0),
        1 => (random.byte(), random.byte()),
        2 | 3 => (id, 1 - flag),
        4 => (id, random.pick(&[2, flag | 2, flag | 0x80, 255])),
        5 => (id.wrapping_add(1), flag),
        _ => (id, flag),
    }
}

/// The length of some of the oldest events of a device, or one beside it.
fn near_events(random: &mut Random, bus: &Bus) -> u8 {
    let device = random.below(bus.ids().len());
    let slots = bus.slots(device).chunks_exact(SLOT_LENGTH);
    let queued = usize::from(bus.counts()[device]);
    let some = random.below(queued + 1);
    let length: u8 = slots.take(some).map(|slot| 4 + slot[1]).sum();
    match random.below(4) {
        0 => length.saturating_sub(1),
        1 => length + 1,
        _ => length,
    }
}

/// A device as its events and answers tell of it.
struct Device {
    id: u8,
    /// Identifiers and lengths of what is queued.
    queued: Vec<(u16, usize)>,
    /// The flag of its last packet, and how many events that had, unless it is
    /// confirmed.
    heard: Option<(u8, usize)>,
}

/// What was told of the devices of a table.
struct Told {
    devices: Vec<Device>,
}

impl Told {
    fn of(bus: &Bus) -> Self {
        let devices = 0..bus.ids().len();
        let device = |at: usize| {
            let last = usize::from(bus.lasts()[at]);
            Device {
                id: bus.ids()[at],
                queued: queued(bus, at),
                heard: (last > 0).then_some((bus.flags()[at], last)),
            }
        };
        Told {
            devices: devices.map(device).collect(),
        }
    }

    fn of_id(&mut self, id: u8) -> Option<&mut Device> {
        self.devices.iter_mut().find(|device| device.id == id)
    }

    fn add(&mut self, added: &Added) {
        let device = self.of_id(added.id).expect("a device took the event");
        device.queued.push((added.identifier, 4 + added.data.len()));
    }

    /// "A request naming a device and the flag of the packet it last sent drops,
    /// once and before the contest, that packet's events"; "a packet carries as
    /// many of the oldest events as fit the length asked".
    fn hear(&mut self, request: EventRequest, answer: &[u8]) {
        if let Some(device) = self.of_id(request.confirmed) {
            if let Some((flag, events)) = device.heard {
                if flag == request.flag {
                    device.queued.drain(..events);
                    device.heard = None;
                }
            }
        }
        if answer.is_empty() {
            return;
        }
        let (_, read) = read_events(answer).expect("an answer of the devices");
        let Events::Packet {
            sender,
            flag,
            queued,
            listed,
            first,
            size,
        } = read
        else {
            return;
        };
        assert!(sender >= request.minimum && size <= request.most && listed > 0);
        let device = self.of_id(sender).expect("an id of the table");
        assert_eq!(usize::from(queued), device.queued.len());
        let mut at = first;
        for &(identifier, length) in &device.queued[..listed] {
            let event = event_at(answer, at).expect("a whole event");
            assert_eq!((event.identifier, event.next - at), (identifier, length));
            at = event.next;
        }
        if let Some((_, next)) = device.queued.get(listed) {
            assert!(usize::from(size) + next > usize::from(request.most));
        }
        device.heard = Some((flag, listed));
    }

    /// "Nothing else drops events."
    fn assert_queued(&self, bus: &Bus, seed: u64) {
        for (at, device) in self.devices.iter().enumerate() {
            assert_eq!(
                queued(bus, at),
                device.queued,
                "events of device {} of {:?}, seed {seed:#X}",
                device.id,
                bus.ids()
            );
        }
    }
}

/// Identifiers and lengths of the events in a device's slots.
fn queued(bus: &Bus, device: usize) -> Vec<(u16, usize)> {
    let slots = bus.slots(device).chunks_exact(SLOT_LENGTH);
    let queued = slots.take(usize::from(bus.counts()[device]));
    let event = |slot: &[u8]| {
        let identifier = u16::from_be_bytes([slot[3], slot[4]]);
        (identifier, 4 + usize::from(slot[1]))
    };
    queued.map(event).collect()
}
