//! The FF before an answer: both readers count them, up to 32, and a whole scan
//! sums them up.

use second::checks::modbus_check;
use second::devices::{offer, resume, scan, start, ScanEnd, Scanned};
use second::events::{read_event_request, read_events, Events};
use second::frames::{read_answer, read_request, write_found, Answer, MOST_FILL};
use second::refusal::FILL_OVER;
use second::Refusal;

const FOUND: &[u8] = &[0xFD, 0x46, 0x03, 0x00, 0x01, 0xEB, 0x37, 0x0C, 0xCE, 0xDC];
const END: &[u8] = &[0xFD, 0x46, 0x04, 0xD3, 0x93];
/// Device 5: input register 01D0 has the new value 4.
const PACKET: &[u8] = &[
    0x05, 0x46, 0x11, 0x01, 0x01, 0x06, 0x02, 0x04, 0x01, 0xD0, 0x04, 0x00, 0x2B, 0xAC,
];
const NO_EVENTS: &[u8] = &[0xFD, 0x46, 0x12, 0x52, 0x5D];
const START: &[u8] = &[0xFD, 0x46, 0x01, 0x13, 0x90];
const EVENT_REQUEST: &[u8] = &[0xFD, 0x46, 0x10, 0x00, 0x64, 0x0A, 0x01, 0x7E, 0x15];

const DEVICE: Answer = Answer::Found {
    serial: 0x0001_EB37,
    address: 0x0C,
};

/// A refusal's number and place.
type Named = (u8, usize);

/// How many FF are passed over, on each side of the edge.
const PASSED: [usize; 6] = [0, 1, 2, 30, 31, 32];
const TOO_MANY: [usize; 6] = [33, 34, 35, 64, 255, 1000];

fn refusal<T>(number: u8, place: usize) -> Result<T, Refusal> {
    Err(Refusal::at(number, place))
}

fn with_fill(fill: usize, frame: &[u8]) -> Vec<u8> {
    let mut input = vec![0xFF; fill];
    input.extend(frame);
    input
}

/// What each reader gives for so many FF and then these bytes.
fn answer(fill: usize, frame: &[u8]) -> Result<(usize, Answer), Refusal> {
    read_answer(&with_fill(fill, frame))
}

fn events(fill: usize, frame: &[u8]) -> Result<(usize, Events), Refusal> {
    read_events(&with_fill(fill, frame))
}

/// Both readers refuse so many FF and then these bytes in the same way.
fn both_refuse(fill: usize, frame: &[u8], number: u8, place: usize) {
    let case = format!("{fill} FF, {frame:02X?}");
    assert_eq!(answer(fill, frame), refusal(number, place), "{case}");
    assert_eq!(events(fill, frame), refusal(number, place), "{case}");
}

/// The bytes with their check behind them.
fn checked(bytes: &[u8]) -> Vec<u8> {
    let check = modbus_check(bytes).to_le_bytes();
    [bytes, &check[..]].concat()
}

#[test]
fn the_number_and_the_limit() {
    assert_eq!(FILL_OVER, 19);
    assert_eq!(MOST_FILL, 32);
}

#[test]
fn answers_behind_up_to_32_ff() {
    for fill in PASSED {
        assert_eq!(answer(fill, FOUND), Ok((fill, DEVICE)));
        assert_eq!(answer(fill, END), Ok((fill, Answer::End)));
    }
    for fill in TOO_MANY {
        assert_eq!(answer(fill, FOUND), refusal(19, 32));
        assert_eq!(answer(fill, END), refusal(19, 32));
    }
}

#[test]
fn what_came_back_behind_up_to_32_ff() {
    for fill in PASSED {
        let packet = Events::Packet {
            sender: 5,
            flag: 1,
            queued: 1,
            listed: 1,
            first: fill + 6,
            size: 6,
        };
        assert_eq!(events(fill, PACKET), Ok((fill, packet)));
        assert_eq!(events(fill, NO_EVENTS), Ok((fill, Events::None)));
    }
    for fill in TOO_MANY {
        assert_eq!(events(fill, PACKET), refusal(19, 32));
        assert_eq!(events(fill, NO_EVENTS), refusal(19, 32));
    }
}

#[test]
fn ff_alone() {
    for fill in 0..=32 {
        both_refuse(fill, &[], 13, 0);
    }
    for fill in TOO_MANY {
        both_refuse(fill, &[], 19, 32);
    }
}

#[test]
fn too_many_ff_come_before_all_else() {
    let over = [0xFD, 0x46, 0x03, 0xFF, 0xFF, 0xFF, 0xFF, 0xFF, 0xBC, 0xA1];
    let mut packet = PACKET.to_vec();
    packet[13] ^= 1;
    // What the answer reader and the event reader refuse these with, behind 32
    // FF.
    let wrong: [(&[u8], Named, Named); 16] = [
        // Too short for any frame.
        (&[0xFD], (13, 0), (13, 0)),
        (&END[..4], (13, 0), (13, 0)),
        (&[0x00; 4], (13, 0), (13, 0)),
        // The head, its first byte or its second.
        (&[0x00; 300], (14, 32), (14, 32)),
        (&[0xFE, 0x46, 0x11, 0, 0], (14, 32), (14, 32)),
        (&[0xFD, 0x47, 0x04, 0, 0], (14, 33), (14, 33)),
        (&[0x05, 0x47, 0x11, 0, 0], (14, 32), (14, 33)),
        // The subcommand.
        (START, (15, 34), (15, 34)),
        (EVENT_REQUEST, (15, 34), (15, 34)),
        // The length for it, where the reader takes it.
        (&FOUND[..9], (13, 0), (15, 34)),
        (&NO_EVENTS[..4], (13, 0), (13, 0)),
        (&PACKET[..13], (14, 32), (13, 0)),
        // The check.
        (&[0xFD, 0x46, 0x04, 0, 0], (16, 35), (15, 34)),
        (&[0xFD, 0x46, 0x12, 0, 0], (15, 34), (16, 35)),
        (&packet, (14, 32), (16, 44)),
        // The serial.
        (&over, (17, 35), (15, 34)),
    ];
    for (frame, by_answer, by_events) in wrong {
        assert_eq!(answer(32, frame), refusal(by_answer.0, by_answer.1));
        assert_eq!(events(32, frame), refusal(by_events.0, by_events.1));
        for fill in TOO_MANY {
            both_refuse(fill, frame, 19, 32);
        }
    }
    // A right frame of the other reader.
    assert_eq!(answer(32, NO_EVENTS), refusal(15, 34));
    assert_eq!(answer(33, NO_EVENTS), refusal(19, 32));
    assert_eq!(answer(32, PACKET), refusal(14, 32));
    assert_eq!(answer(33, PACKET), refusal(19, 32));
    assert_eq!(events(32, END), refusal(15, 34));
    assert_eq!(events(33, END), refusal(19, 32));
    assert_eq!(events(32, FOUND), refusal(15, 34));
    assert_eq!(events(33, FOUND), refusal(19, 32));
}

#[test]
fn ff_in_place_of_a_first_byte_is_passed_over() {
    // FD became FF: the frame now begins at its second byte, 46.
    let mut found = FOUND.to_vec();
    found[0] = 0xFF;
    assert_eq!(answer(0, &found), refusal(14, 1));
    assert_eq!(answer(31, &found), refusal(14, 32));
    assert_eq!(answer(32, &found), refusal(19, 32));
    // Four bytes are left of a frame of five.
    let (mut end, mut none) = (END.to_vec(), NO_EVENTS.to_vec());
    (end[0], none[0]) = (0xFF, 0xFF);
    for frame in [&end, &none] {
        both_refuse(0, frame, 13, 0);
        both_refuse(31, frame, 13, 0);
        both_refuse(32, frame, 19, 32);
    }
    // A packet whose sender became FF: 46 is an id too, but 11 stands behind it.
    let mut packet = PACKET.to_vec();
    packet[0] = 0xFF;
    assert_eq!(events(0, &packet), refusal(14, 2));
    assert_eq!(events(31, &packet), refusal(14, 33));
    assert_eq!(events(32, &packet), refusal(19, 32));
}

#[test]
fn only_leading_ff_count() {
    // Another byte ends them, whatever follows.
    both_refuse(1, &[0x00, 0xFF, 0xFF, 0xFF, 0xFF], 14, 1);
    both_refuse(32, &[0x00, 0xFF], 13, 0);
    let late = [&[0x00][..], &with_fill(33, END)].concat();
    both_refuse(0, &late, 14, 0);
    both_refuse(32, &late, 14, 32);
    both_refuse(33, &late, 19, 32);
    both_refuse(5, &[0xFE; 40], 14, 5);
    // Within the head.
    both_refuse(2, &[0xFD, 0xFF, 0x04, 0xD3, 0x93], 14, 3);
    both_refuse(2, &[0xFD, 0x46, 0xFF, 0xD3, 0x93], 15, 4);
    // Behind the frame: it no longer fills the rest.
    for behind in [1, 32, 33, 100] {
        let after = |frame: &[u8]| [frame, &vec![0xFF; behind]].concat();
        for fill in [0, 32] {
            assert_eq!(answer(fill, &after(FOUND)), refusal(13, 0));
            assert_eq!(answer(fill, &after(END)), refusal(13, 0));
            assert_eq!(events(fill, &after(PACKET)), refusal(13, 0));
            assert_eq!(events(fill, &after(NO_EVENTS)), refusal(13, 0));
        }
        both_refuse(33, &after(END), 19, 32);
    }
}

#[test]
fn ff_within_an_answer_are_no_fill() {
    // Address FF, and a check of FF FF.
    let found: &[u8] = &[0xFD, 0x46, 0x03, 0x00, 0x00, 0xCB, 0x8A, 0xFF, 0xFF, 0xFF];
    let device = Answer::Found {
        serial: 0xCB8A,
        address: 0xFF,
    };
    // The serial has FF too.
    let more: &[u8] = &[0xFD, 0x46, 0x03, 0x0F, 0xFF, 0x8E, 0x3A, 0xFF, 0xFF, 0xFF];
    let other = Answer::Found {
        serial: 0x0FFF_8E3A,
        address: 0xFF,
    };
    // The largest serial there is.
    let largest: &[u8] = &[0xFD, 0x46, 0x03, 0x0F, 0xFF, 0xFF, 0xFF, 0xFF, 0xFC, 0xB4];
    let last = Answer::Found {
        serial: 0x0FFF_FFFF,
        address: 0xFF,
    };
    for (frame, read) in [(found, device), (more, other), (largest, last)] {
        for fill in PASSED {
            assert_eq!(answer(fill, frame), Ok((fill, read)));
        }
        assert_eq!(answer(33, frame), refusal(19, 32));
        // One FF less at the end is a frame too short.
        assert_eq!(answer(1, &frame[..9]), refusal(13, 0));
    }
    // A serial that begins with FF is over the limit, behind any fill.
    let over: &[u8] = &[0xFD, 0x46, 0x03, 0xFF, 0xFF, 0xFF, 0xFF, 0xFF, 0xBC, 0xA1];
    for fill in PASSED {
        assert_eq!(answer(fill, over), refusal(17, fill + 3));
    }
    assert_eq!(answer(33, over), refusal(19, 32));
}

#[test]
fn ff_within_a_packet_are_no_fill() {
    // Flag, number queued, type, data and check are FF.
    let frame: &[u8] = &[
        0x07, 0x46, 0x11, 0xFF, 0xFF, 0x06, 0x02, 0xFF, 0xC2, 0xAF, 0xFF, 0xFF, 0xFF, 0xFF,
    ];
    for fill in PASSED {
        let packet = Events::Packet {
            sender: 7,
            flag: 0xFF,
            queued: 0xFF,
            listed: 1,
            first: fill + 6,
            size: 6,
        };
        assert_eq!(events(fill, frame), Ok((fill, packet)));
    }
    assert_eq!(events(33, frame), refusal(19, 32));
    // 255 bytes of events, of which 251 are data, all FF.
    let mut long = vec![0x07, 0x46, 0x11, 0x00, 0x01, 0xFF, 0xFB];
    long.resize(6 + 255, 0xFF);
    for fill in PASSED {
        let packet = Events::Packet {
            sender: 7,
            flag: 0,
            queued: 1,
            listed: 1,
            first: fill + 6,
            size: 255,
        };
        assert_eq!(events(fill, &checked(&long)), Ok((fill, packet)));
    }
}

#[test]
fn request_readers_pass_over_nothing() {
    for fill in [1, 31, 32, 33, 34, 1000] {
        assert_eq!(read_request(&with_fill(fill, START)), refusal(14, 0));
        let events = with_fill(fill, EVENT_REQUEST);
        assert_eq!(read_event_request(&events), refusal(14, 0));
        let (mut marks, mut answer) = ([1], [0x77; 42]);
        let frame = with_fill(fill, START);
        let offered = offer(&frame, &[5], &[1], &mut marks, &mut answer);
        assert_eq!(offered, refusal(14, 0));
        assert_eq!((marks, answer), ([1], [0x77; 42]));
    }
    for fill in 0..5 {
        assert_eq!(read_request(&vec![0xFF; fill]), refusal(13, 0));
        assert_eq!(read_event_request(&vec![0xFF; fill]), refusal(13, 0));
    }
    for fill in [5, 32, 33, 1000] {
        assert_eq!(read_request(&vec![0xFF; fill]), refusal(14, 0));
        assert_eq!(read_event_request(&vec![0xFF; fill]), refusal(14, 0));
    }
}

/// A whole scan of devices with these serials, which all have address 9.
fn scanned(serials: &[u32], cap: usize) -> Scanned {
    let addresses = vec![9; serials.len()];
    let (mut marks, mut found) = (vec![1; serials.len()], vec![7; serials.len()]);
    let mut heard = vec![7; serials.len()];
    scan(serials, &addresses, &mut marks, &mut found, &mut heard, cap).unwrap()
}

#[test]
fn a_scan_sums_up_what_stood_before_its_answers() {
    use ScanEnd::{Complete, Unfinished};
    // Ones: two each in 5 and 9, twelve in 0001EB37, and six in F0000005, with
    // which the smallest of the three says that the scan has ended.
    let serials = [0x0001_EB37, 5, 9];
    for (cap, end, requests, found, skipped) in [
        (0, Unfinished, 0, 0, 0),
        (1, Unfinished, 1, 1, 30),
        (2, Unfinished, 2, 2, 60),
        (3, Unfinished, 3, 3, 80),
        (4, Complete, 4, 3, 106),
        (5, Complete, 4, 3, 106),
        (usize::MAX, Complete, 4, 3, 106),
    ] {
        let expected = Scanned {
            end,
            requests,
            found,
            skipped,
        };
        assert_eq!(scanned(&serials, cap), expected, "cap {cap}");
    }
}

#[test]
fn scans_of_nobody_and_of_one() {
    for cap in [0, 1, 2, usize::MAX] {
        assert_eq!(scanned(&[], cap).skipped, 0);
    }
    // Its key as it is found, and with the mark bits at the end.
    for (serial, found, end) in [
        (0, 32, 28),
        (1, 31, 27),
        (0x0001_EB37, 20, 16),
        (0x0F00_0000, 28, 24),
        (0x0FFF_FFFE, 5, 1),
        (0x0FFF_FFFF, 4, 0),
    ] {
        assert_eq!(scanned(&[serial], 0).skipped, 0);
        assert_eq!(scanned(&[serial], 1).skipped, found);
        assert_eq!(scanned(&[serial], 2).skipped, found + end);
        assert_eq!(scanned(&[serial], 3).skipped, found + end);
    }
}

#[test]
fn the_sum_of_247_answers() {
    // The numbers below 256 have 8 * 128 ones together, 59 of them in those from
    // 247 on: 965 in the 247 serials, so 247 * 32 - 965 zeros. F0000000 has 28.
    let serials: Vec<u32> = (0..247).rev().collect();
    assert_eq!(scanned(&serials, 248).skipped, 6939 + 28);
    assert_eq!(scanned(&serials, 247).skipped, 6939);
    // 246 is the last, with six ones.
    assert_eq!(scanned(&serials, 246).skipped, 6939 - 26);
    // The first nine, 0 to 8, have 13 ones.
    assert_eq!(scanned(&serials, 9).skipped, 9 * 32 - 13);
}

#[test]
fn refused_scans_count_nothing() {
    let scan = |serials: &[u32], mark, room| {
        let (mut found, mut heard) = (vec![7; room], vec![7; room]);
        scan(serials, &[1, 2], &mut [mark; 2], &mut found, &mut heard, 9)
    };
    assert_eq!(scan(&[3, 4], 0, 1), refusal(1, 0));
    assert_eq!(scan(&[3, 3], 0, 2), refusal(2, 0));
    assert_eq!(scan(&[3, 4], 2, 2), refusal(2, 0));
    // 3 and 4 have two ones and one, F0000003 has six.
    assert_eq!(scan(&[3, 4], 1, 2).unwrap().skipped, 30 + 31 + 26);
}

#[test]
fn a_scan_counts_what_the_answer_reader_passes_over() {
    let mut number = 1u32;
    for devices in 0..40 {
        let serials: Vec<u32> = (0..devices)
            .map(|_| {
                number = number.wrapping_mul(1_664_525).wrapping_add(1_013_904_223);
                number >> 4
            })
            .collect();
        let addresses = vec![0xFF; devices];
        let (mut marks, mut room) = (vec![0; devices], [0; 42]);
        let mut sum = 0;
        for cap in 0..devices + 3 {
            assert_eq!(scanned(&serials, cap).skipped, sum);
            let length = if cap == 0 {
                start(&serials, &addresses, &mut marks, &mut room)
            } else {
                resume(&serials, &addresses, &mut marks, &mut room)
            };
            match read_answer(&room[..length.unwrap()]) {
                Ok((skipped, _)) if cap <= devices => {
                    assert!(skipped <= 32);
                    sum += skipped;
                }
                // Behind the end a scan asks no more.
                Ok(_) => (),
                silence => {
                    assert_eq!((devices, silence), (0, refusal(13, 0)));
                }
            }
        }
    }
}

#[test]
fn the_longest_answer_is_read() {
    // Serial 0: all 32 windows are dominant, and none is too many.
    let (mut marks, mut room) = ([0], [0x77; 42]);
    assert_eq!(start(&[0], &[0xFF], &mut marks, &mut room), Ok(42));
    let mut frame = [0; 10];
    assert_eq!(write_found(0, 0xFF, &mut frame), Ok(10));
    assert_eq!(room[..], with_fill(32, &frame));
    let device = Answer::Found {
        serial: 0,
        address: 0xFF,
    };
    assert_eq!(read_answer(&room), Ok((32, device)));
    // One FF of noise in front of it is one too many.
    assert_eq!(read_answer(&with_fill(1, &room)), refusal(19, 32));
}
