//! The archive held against the second implementation, input by input: answers,
//! refusals with their places, and everything that was lent, with what lies
//! around it. Its listener, fed in runs, is also held against its own judge of
//! the whole, its walks over captures, byte by byte, against a listener, its
//! readers of answers against what they say of a frame without its FF, and its
//! scans against the same requests one by one.
//!
//! `MOORTINKER_SEED` names another seed than the fixed one, decimal or 0x hex,
//! and `MOORTINKER_INPUTS` another number of random inputs.
//! `cargo test --release --test differential -- --nocapture` shows the counts
//! per function and number.

#[path = "differential/board.rs"]
mod board;
#[path = "differential/calls.rs"]
mod calls;
#[path = "differential/captures.rs"]
mod captures;
#[path = "differential/cuts.rs"]
mod cuts;
#[path = "differential/edges.rs"]
mod edges;
#[path = "differential/eventedges.rs"]
mod eventedges;
#[path = "differential/eventframes.rs"]
mod eventframes;
#[path = "differential/families.rs"]
mod families;
#[path = "differential/fill.rs"]
mod fill;
#[path = "differential/hands.rs"]
mod hands;
#[path = "differential/hearing.rs"]
mod hearing;
#[path = "differential/idle.rs"]
mod idle;
#[path = "differential/inputs.rs"]
mod inputs;
#[path = "differential/lent.rs"]
mod lent;
#[path = "differential/long.rs"]
mod long;
#[path = "differential/polling.rs"]
mod polling;
#[path = "differential/polls.rs"]
mod polls;
#[path = "differential/queues.rs"]
mod queues;
#[path = "differential/railbus.rs"]
mod railbus;
#[path = "differential/railbusedges.rs"]
mod railbusedges;
#[path = "differential/random.rs"]
mod random;
#[path = "differential/relay.rs"]
mod relay;
#[path = "differential/relaying.rs"]
mod relaying;
#[path = "differential/session.rs"]
mod session;
#[path = "differential/standins.rs"]
mod standins;
#[path = "differential/states.rs"]
mod states;
#[path = "differential/tables.rs"]
mod tables;

use std::collections::{BTreeMap, BTreeSet};
use std::fmt::Debug;
use std::panic::{catch_unwind, AssertUnwindSafe};

use calls::{NO_ANSWER_READ, NO_EVENTS_READ};
use captures::Next;
use hearing::settled;
use lent::{Lent, MARGIN};
use moortinker::sys;
use polls::SILENCE;
use random::Random;
use relay::{laid_out, remembered, Device};
use second::capture::report;
use second::events::read_events;
use second::exchange::judge;
use second::frames::read_answer;
use session::{same, Function, Session};

#[test]
fn archive_and_second_agree() {
    let mut session = Session::from_environment();
    println!("seed {:#X}", session.seed());
    edges::run_all(&mut session);
    long::run_all(&mut session);
    families::run_all(&mut session);
    session.print();
    session.assert_all_reached();
    assert!(session.total() >= session.inputs());
}

#[test]
fn idle_time_reaches_every_number() {
    let mut random = Random::new(5);
    let mut numbers = BTreeSet::new();
    for _ in 0..20_000 {
        let (idle, recording) = idle::recording(&mut random);
        let judged = judge(&recording, &mut [0; 22], &mut [0; 18], &mut [0; 18]);
        if idle > 0 {
            numbers.insert(judged.map_or_else(|refusal| refusal.number, |_| 0));
        }
    }
    let reached: Vec<u8> = numbers.into_iter().collect();
    assert_eq!(reached, [0, 3, 4, 5, 6, 7, 8, 9, 10, 11, 12]);
}

#[test]
fn captures_reach_every_kind_and_number() {
    let mut random = Random::new(9);
    let mut numbers = BTreeSet::new();
    let mut kinds = [0; 3];
    for _ in 0..2_000 {
        let told = report(&captures::random_capture(&mut random));
        numbers.extend(told.refused.into_keys());
        kinds[0] += told.broadcasts;
        kinds[1] += told.initiator_initiator;
        kinds[2] += told.initiator_target;
    }
    let reached: Vec<u8> = numbers.into_iter().collect();
    assert_eq!(reached, [3, 4, 5, 6, 7, 8, 9, 10, 11, 12]);
    assert!(kinds.iter().all(|&count| count > 300), "{kinds:?}");
}

#[test]
fn fill_reaches_every_number_and_both_sides_of_its_edge() {
    assert_fill_reaches(&[0, 13, 14, 15, 16, 17, 19], inputs::frame, |input| {
        read_answer(input).map_or_else(|refusal| refusal.number, |_| 0)
    });
    assert_fill_reaches(&[0, 13, 14, 15, 16, 19], eventframes::sent_back, |input| {
        read_events(input).map_or_else(|refusal| refusal.number, |_| 0)
    });
}

/// Frames behind FF give exactly these numbers; they stand behind every number of
/// FF to 40, behind thousands, and often behind those at the edge.
fn assert_fill_reaches(
    due: &[u8],
    frame: fn(&mut Random) -> Vec<u8>,
    number: impl Fn(&[u8]) -> u8,
) {
    let mut random = Random::new(7);
    let mut numbers = BTreeSet::new();
    let mut met = BTreeMap::new();
    for _ in 0..20_000 {
        let (fills, behind) = fill::drawn(&mut random, frame);
        for fill in fills {
            *met.entry(fill.min(1000)).or_insert(0) += 1;
            if fill > 0 {
                let input = [&vec![0xFF; fill][..], &behind].concat();
                numbers.insert(number(&input));
            }
        }
    }
    assert!(numbers.iter().eq(due), "{numbers:?}");
    assert!(met.keys().copied().eq((0..=40).chain([1000])), "{met:?}");
    assert!([31, 32, 33].iter().all(|fill| met[fill] > 8_000), "{met:?}");
}

#[test]
fn what_stands_behind_more_ff_is_told_of_the_frame_alone() {
    // Frames that have one FF before them already.
    let told = [(0, 0, 1), (13, 0, 0), (16, 4, 0)];
    for (fill, due) in [
        (0, told),
        (1, [(0, 0, 2), (13, 0, 0), (16, 5, 0)]),
        (31, [(0, 0, 32), (13, 0, 0), (16, 35, 0)]),
        (32, [(19, 32, 0); 3]),
        (1000, [(19, 32, 0); 3]),
    ] {
        let behind = told.map(|told| fill::due_behind(told, fill, 1 + fill));
        assert_eq!(behind, due);
    }
}

#[test]
fn a_changed_element_is_a_difference() {
    let mut random = Random::new(1);
    for length in [0, 1, 7, 50] {
        for _ in 0..20 {
            let lent: Lent<u32> = Lent::filled(&mut random, length);
            assert_eq!(same("buffer", &lent, &lent.clone()), Ok(()));
            for at in 0..lent.whole().len() {
                let mut other = lent.clone();
                other.whole_mut()[at] ^= 1;
                assert!(same("buffer", &other, &lent).is_err());
            }
        }
    }
}

#[test]
fn margins_and_part_lie_where_the_pointer_says() {
    let mut random = Random::new(2);
    let content = [3u8, 1, 4, 1, 5];
    let mut seen = [0; 3];
    for _ in 0..200 {
        let lent = Lent::holding(&mut random, &content);
        assert_eq!(lent.part(), content);
        assert_eq!(lent.part().as_ptr(), lent.pointer());
        assert_eq!(lent.length(), content.len());
        let around = lent.whole().len() - content.len();
        let before = lent.part().as_ptr() as usize - lent.whole().as_ptr() as usize;
        match (before, around - before) {
            (0, MARGIN) => seen[0] += 1,
            (MARGIN, 0) => seen[1] += 1,
            (MARGIN, MARGIN) => seen[2] += 1,
            other => panic!("margins {other:?}"),
        }
    }
    assert!(seen.iter().all(|&count| count > 0), "{seen:?}");
}

#[test]
fn a_changed_answer_is_a_difference() {
    let answer = sys::Judged {
        number: 0,
        kind: 3,
        command_attempts: 1,
        reply_attempts: 1,
        place: 0,
        read: 13,
    };
    let changed = [
        sys::Judged {
            number: 1,
            ..answer
        },
        sys::Judged { kind: 2, ..answer },
        sys::Judged {
            command_attempts: 2,
            ..answer
        },
        sys::Judged {
            reply_attempts: 2,
            ..answer
        },
        sys::Judged { place: 1, ..answer },
        sys::Judged { read: 12, ..answer },
    ];
    assert_each_differs(answer, &changed);
}

#[test]
fn a_changed_count_of_ff_is_a_difference() {
    let answer = |skipped| sys::AnswerRead {
        answer: sys::MOOR_END,
        skipped,
        ..NO_ANSWER_READ
    };
    assert_each_differs(answer(26), &[0, 25, 27].map(answer));
    let events = |skipped| sys::EventsRead {
        answer: sys::MOOR_NO_EVENTS,
        skipped,
        ..NO_EVENTS_READ
    };
    assert_each_differs(events(6), &[0, 5, 7].map(events));
    let polled = |skipped| sys::Polled {
        answer: sys::MOOR_NO_EVENTS,
        length: 11,
        skipped,
        ..SILENCE
    };
    assert_each_differs(polled(6), &[0, 5, 11].map(polled));
    // The whole sum, that without the end, and the first answer's alone.
    let scanned = |skipped| sys::Scanned {
        number: 0,
        end: sys::MOOR_COMPLETE,
        place: 0,
        requests: 4,
        found: 3,
        skipped,
    };
    assert_each_differs(scanned(106), &[80, 30].map(scanned));
}

#[test]
fn a_changed_answer_of_a_relay_device_is_a_difference() {
    let write = remembering(sys::MOOR_RUNNING);
    let answer = sys::Relayed {
        number: 0,
        write,
        place: 0,
        length: 17,
    };
    let with = |write| sys::Relayed { write, ..answer };
    let changed = [
        sys::Relayed {
            number: 1,
            ..answer
        },
        with(remembering(sys::MOOR_FINISHED)),
        with(sys::Remembered { reg: 5, ..write }),
        with(sys::Remembered { data: 6, ..write }),
        sys::Relayed { place: 1, ..answer },
        sys::Relayed {
            length: 9,
            ..answer
        },
    ];
    assert_each_differs(answer, &changed);
}

/// A write that a relay device remembers in this phase.
fn remembering(phase: u8) -> sys::Remembered {
    sys::Remembered {
        phase,
        reg: 4,
        data: 7,
    }
}

fn assert_each_differs<T: PartialEq + Debug>(answer: T, changed: &[T]) {
    assert_eq!(same("answer", &answer, &answer), Ok(()));
    for other in changed {
        assert!(same("answer", other, &answer).is_err());
    }
}

#[test]
fn a_phase_that_there_is_not_is_laid_out_as_none() {
    for phase in 0..=255 {
        let handed_back = laid_out(remembered(remembering(phase)));
        let due = match phase {
            1 | 2 => remembering(phase),
            _ => sys::Remembered {
                phase: 0,
                reg: 0,
                data: 0,
            },
        };
        assert_eq!(handed_back, due);
    }
}

#[test]
fn a_changed_register_or_access_byte_is_a_difference() {
    let mut session = Session::new(6, 0);
    let (registers, access) = ([0; 256], [3; 256]);
    let write = remembering(sys::MOOR_IDLE);
    let mut device = Device::new(&mut session, 0x93, write, &registers, &access);
    for at in 0..device.archive.whole().len() {
        assert_eq!(device.compare(), Ok(()));
        device.archive.whole_mut()[at] ^= 1;
        assert!(device.compare().is_err());
        device.archive.whole_mut()[at] ^= 1;
    }
    for at in 0..device.access.whole().len() {
        assert_eq!(device.compare(), Ok(()));
        device.access.whole_mut()[at] ^= 1;
        assert!(device.compare().is_err());
        device.access.whole_mut()[at] ^= 1;
    }
}

#[test]
fn wrong_next_exchanges_are_noticed() {
    let (positions, walks) = (captures::positions_by, captures::walks_by);
    for &(name, wrong) in standins::WRONG {
        assert!(noticed(positions, wrong), "from positions on: {name}");
        assert!(noticed(walks, wrong), "in walks: {name}");
    }
    assert!(noticed(positions, standins::position_kept));
    assert!(!noticed(positions, standins::right));
    assert!(!noticed(walks, standins::right));
}

/// Whether a difference ends a run that takes this for `moor_next_exchange`.
fn noticed(family: fn(&mut Session, Next), next: Next) -> bool {
    let mut session = Session::quiet(8);
    let ended = catch_unwind(AssertUnwindSafe(|| {
        for _ in 0..2_000 {
            family(&mut session, next);
        }
    }));
    ended.is_err_and(|payload| {
        let message = payload.downcast_ref::<String>().expect("a message");
        assert!(message.starts_with("moor_next_exchange differs"));
        true
    })
}

#[test]
fn a_difference_ends_the_test_and_says_where() {
    let mut session = Session::new(0xBEEF, 0);
    let difference = same("answer", &1, &2);
    let ended = catch_unwind(AssertUnwindSafe(|| {
        session.settle(Function::Undo, 0, difference, || "[A9 01]".to_string());
    }));
    let payload = ended.expect_err("a difference must end the test");
    let message = payload.downcast_ref::<String>().expect("a message");
    for part in [
        "moor_undo",
        "[A9 01]",
        "answer of the archive: 1",
        "answer of the second:  2",
        "0xBEEF",
    ] {
        assert!(message.contains(part), "{part} is not in {message}");
    }
}

#[test]
fn a_state_that_is_not_kept_is_a_difference() {
    let state = |due, held| sys::Listening {
        start: 0,
        place: 0,
        due,
        number: 0,
        held,
        command_attempts: 1,
        reply_attempts: 0,
        command_length: 0,
        reply_1_length: 0,
        reply_2_length: 0,
        raw: [0; 46],
        kept: [0; 58],
    };
    let closed = |number, state| sys::Closed {
        judged: sys::Judged {
            number,
            kind: 0,
            command_attempts: 0,
            reply_attempts: 0,
            place: 0,
            read: 0,
        },
        state,
    };
    // Number 1 gives back the state, any other number one that has answered.
    let before = state(0, 1);
    assert_eq!(settled(before, &closed(1, before)), Ok(()));
    assert!(settled(before, &closed(1, state(0, 2))).is_err());
    assert_eq!(settled(before, &closed(3, state(5, 1))), Ok(()));
    assert!(settled(before, &closed(3, before)).is_err());
}

#[test]
#[should_panic(expected = "numbers that moor_ebus_check gave")]
fn numbers_that_were_not_reached_are_noticed() {
    Session::new(3, 0).assert_all_reached();
}

#[test]
fn buffers_lie_between_closed_pages() {
    let mut random = Random::new(4);
    let mut seen = [0; 2];
    for _ in 0..50 {
        let lent = Lent::holding(&mut random, &[1u32, 2, 3]);
        let part = lent.part().as_ptr_range();
        if closed(part.start as usize - 1) {
            seen[0] += 1;
        }
        if closed(part.end as usize) {
            seen[1] += 1;
        }
    }
    assert!(seen[0] > 0 && seen[1] > 0, "{seen:?}");
}

/// Whether the page at this address can be neither read nor written.
fn closed(address: usize) -> bool {
    let maps = std::fs::read_to_string("/proc/self/maps").expect("the list of pages");
    maps.lines().any(|line| {
        let (range, rest) = line.split_once(' ').expect("a range of addresses");
        let (start, end) = range.split_once('-').expect("two addresses");
        let [start, end] = [start, end].map(|text| usize::from_str_radix(text, 16).unwrap());
        (start..end).contains(&address) && rest.starts_with("---")
    })
}
