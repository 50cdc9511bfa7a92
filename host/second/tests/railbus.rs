//! Railbus packets: those of document 001, the checksum beside the routine that
//! it prints, refusals with their places and their order, and the way back.

use second::railbus::{railbus_check, read_railbus, write_railbus, Letter, Packet};
use second::Refusal;

/// What stands in an output before anything is written there.
const OLD: u8 = 0x77;

const LETTERS: &[u8; 7] = b"RWSKINn";
const LONG_LETTERS: &[u8; 4] = b"WKIn";

/// The packets of document 001's examples with their checksums, and what they
/// say.
const PRINTED: [(&[u8], Letter, u8, u8, u32); 8] = [
    (b"RPFFR009E", Letter::Read, 0xFF, 0x00, 0),
    (
        b"RPFFK000015002AF4",
        Letter::ReadDone,
        0xFF,
        0x00,
        0x0015_002A,
    ),
    (b"RP93W00000000109F", Letter::Write, 0x93, 0x00, 0x10),
    (b"RP93I0000000010EE", Letter::WriteDone, 0x93, 0x00, 0x10),
    (b"RP93W0100000010A2", Letter::Write, 0x93, 0x01, 0x10),
    (b"RP93I0100000010D3", Letter::WriteDone, 0x93, 0x01, 0x10),
    (b"RP93WFD0000E100E4", Letter::Write, 0x93, 0xFD, 57_600),
    (b"RP93nFD00000009A4", Letter::Special, 0x93, 0xFD, 0x09),
];

fn refusal<T>(number: u8, place: usize) -> Result<T, Refusal> {
    Err(Refusal::at(number, place))
}

/// The packet with another character at a place.
fn with(packet: &[u8], at: usize, character: u8) -> Vec<u8> {
    let mut packet = packet.to_vec();
    packet[at] = character;
    packet
}

/// The packet with other characters for its checksum.
fn with_check(packet: &[u8], check: &str) -> Vec<u8> {
    [&packet[..packet.len() - 2], check.as_bytes()].concat()
}

/// The routine that document 001 prints, half a character a step.
fn crc7_calc(characters: &[u8]) -> u8 {
    const TABLE: [u8; 16] = [
        0x00, 0x12, 0x24, 0x36, 0x48, 0x5a, 0x6c, 0x7e, 0x90, 0x82, 0xb4, 0xa6, 0xd8, 0xca, 0xfc,
        0xee,
    ];
    let mut crc = 0u8;
    for &character in characters {
        crc ^= character;
        crc = (crc << 4) ^ TABLE[usize::from(crc >> 4)];
        crc = (crc << 4) ^ TABLE[usize::from(crc >> 4)];
    }
    (crc >> 1) | (1 << 7)
}

/// A simple generator of numbers below a bound.
struct Numbers(u64);

impl Numbers {
    fn below(&mut self, bound: u32) -> u32 {
        self.0 = self.0.wrapping_mul(6_364_136_223_846_793_005);
        self.0 = self.0.wrapping_add(1_442_695_040_888_963_407);
        ((self.0 >> 33) % u64::from(bound)) as u32
    }

    fn of<T: Copy>(&mut self, choices: &[T]) -> T {
        choices[self.below(choices.len() as u32) as usize]
    }
}

#[test]
fn checksums_at_hand() {
    assert_eq!(railbus_check(b""), 0x80);
    assert_eq!(railbus_check(&[0]), 0x80);
    assert_eq!(railbus_check(&[1]), 0x80 | 0x09);
    assert_eq!(railbus_check(&[0x02]), 0x80 | 0x12);
    assert_eq!(railbus_check(b"123456789"), 0xF5);
    for (packet, ..) in PRINTED {
        let (before, check) = packet.split_at(packet.len() - 2);
        let expected = format!("{:02X}", railbus_check(before));
        assert_eq!(expected.as_bytes(), check);
    }
}

#[test]
fn checksums_agree_with_the_printed_routine() {
    for first in 0..=255u8 {
        assert_eq!(railbus_check(&[first]), crc7_calc(&[first]));
        for second in 0..=255u8 {
            let characters = [first, second];
            assert_eq!(railbus_check(&characters), crc7_calc(&characters));
        }
    }
    let mut numbers = Numbers(7);
    for _ in 0..20_000 {
        let length = numbers.below(40);
        let characters: Vec<u8> = (0..length).map(|_| numbers.below(256) as u8).collect();
        assert_eq!(railbus_check(&characters), crc7_calc(&characters));
    }
    let long: Vec<u8> = (0..4000u32).map(|at| ((at * at) >> 3) as u8).collect();
    assert_eq!(railbus_check(&long), crc7_calc(&long));
}

#[test]
fn printed_packets_of_document_001() {
    for (text, letter, address, reg, data) in PRINTED {
        let packet = Packet {
            letter,
            address,
            reg,
            data,
            checked: true,
        };
        assert_eq!(read_railbus(text), Ok(packet));
        let unchecked = Packet {
            checked: false,
            ..packet
        };
        assert_eq!(read_railbus(&with_check(text, "00")), Ok(unchecked));

        let mut out = [OLD; 18];
        let length = text.len();
        let written = write_railbus(letter as u8, address, reg, data, &mut out);
        assert_eq!(written, Ok(length));
        assert_eq!(&out[..length], text);
        assert!(out[length..].iter().all(|&byte| byte == OLD));
    }
}

#[test]
fn letters_and_their_lengths() {
    for character in 0..=255u8 {
        let known = LETTERS.contains(&character);
        assert_eq!(Letter::of(character).is_some(), known);
        let mut out = [OLD; 20];
        let written = write_railbus(character, 1, 2, 3, &mut out);
        if !known {
            assert_eq!(written, refusal(15, 0));
            assert_eq!(out, [OLD; 20]);
            continue;
        }
        let long = LONG_LETTERS.contains(&character);
        let length = if long { 17 } else { 9 };
        assert_eq!(written, Ok(length));
        let letter = Letter::of(character).unwrap();
        assert_eq!((letter as u8, letter.packet_length()), (character, length));
        let packet = Packet {
            letter,
            address: 1,
            reg: 2,
            data: if long { 3 } else { 0 },
            checked: true,
        };
        assert_eq!(read_railbus(&out[..length]), Ok(packet));
    }
}

#[test]
fn only_the_low_seven_bits_are_examined_and_only_with_the_top_bit() {
    for (text, ..) in PRINTED {
        let place = text.len() - 2;
        for check in 0..=255u8 {
            let packet = with_check(text, &format!("{check:02X}"));
            let read = read_railbus(&packet);
            if check < 0x80 {
                assert!(!read.unwrap().checked);
            } else if packet == text {
                assert!(read.unwrap().checked);
            } else {
                assert_eq!(read, refusal(16, place));
            }
        }
    }
}

#[test]
fn a_changed_digit_is_noticed_where_the_checksum_is_examined() {
    for (text, ..) in PRINTED {
        let end = text.len() - 2;
        for at in (2..end).filter(|&at| at != 4) {
            let changed = with(text, at, if text[at] == b'0' { b'1' } else { b'0' });
            assert_eq!(read_railbus(&changed), refusal(16, end));
            assert!(!read_railbus(&with_check(&changed, "7F")).unwrap().checked);
        }
    }
}

#[test]
fn under_nine_characters_is_13_before_all_else() {
    for (text, ..) in PRINTED {
        for length in 0..9 {
            assert_eq!(read_railbus(&text[..length]), refusal(13, 0));
        }
    }
    assert_eq!(read_railbus(b"xxxxxxxx"), refusal(13, 0));
    assert_eq!(read_railbus(b"xxxxxxxxx"), refusal(14, 0));
}

#[test]
fn the_mark_comes_before_the_letter() {
    for character in (0..=255u8).filter(|&character| character != b'R') {
        let packet = with(b"RPFFx0000", 0, character);
        assert_eq!(read_railbus(&packet), refusal(14, 0));
    }
    for character in (0..=255u8).filter(|&character| character != b'P') {
        let packet = with(b"RPFFx0000", 1, character);
        assert_eq!(read_railbus(&packet), refusal(14, 1));
    }
    assert_eq!(read_railbus(b"PRFFR009E"), refusal(14, 0));
    assert_eq!(read_railbus(b"rpFFR009E"), refusal(14, 0));
    assert_eq!(read_railbus(b"RpFFR009E"), refusal(14, 1));
    // Nothing is passed over in front.
    assert_eq!(read_railbus(b" RPFFR009E"), refusal(14, 0));
}

#[test]
fn the_letter_comes_before_its_length() {
    for character in (0..=255u8).filter(|character| !LETTERS.contains(character)) {
        for length in [9, 10, 16, 17, 18, 40] {
            let mut packet = b"RPgg?gg".to_vec();
            packet[4] = character;
            packet.resize(length, b'g');
            assert_eq!(read_railbus(&packet), refusal(15, 4));
        }
    }
}

#[test]
fn the_length_comes_before_digits() {
    for &letter in LETTERS {
        let due = if LONG_LETTERS.contains(&letter) {
            17
        } else {
            9
        };
        for length in (9..40).chain([255, 256, 257, 1000]) {
            let mut packet = b"RPgg?gg".to_vec();
            packet[4] = letter;
            packet.resize(length, b'g');
            let expected = if length == due {
                refusal(26, 2)
            } else {
                refusal(13, 0)
            };
            assert_eq!(read_railbus(&packet), expected);
        }
    }
    // Nothing may stand behind, also no line end.
    assert_eq!(read_railbus(b"RPFFR009E\r\n"), refusal(13, 0));
    assert_eq!(read_railbus(b"RP93W00000000109F\r"), refusal(13, 0));
}

#[test]
fn digits_are_upper_case_and_come_before_the_checksum() {
    for (text, ..) in PRINTED {
        let end = text.len() - 2;
        for at in (2..text.len()).filter(|&at| at != 4) {
            for character in 0..=255u8 {
                let read = read_railbus(&with(text, at, character));
                let digit = character.is_ascii_digit() || (b'A'..=b'F').contains(&character);
                if !digit {
                    assert_eq!(read, refusal(26, at));
                } else if character == text[at] {
                    assert!(read.is_ok());
                } else if at == end && character < b'8' {
                    assert!(!read.unwrap().checked);
                } else {
                    assert_eq!(read, refusal(16, end));
                }
            }
        }
    }
    assert_eq!(read_railbus(b"RPffR009E"), refusal(26, 2));
    assert_eq!(read_railbus(b"RPFFR009e"), refusal(26, 8));
}

#[test]
fn the_first_wrong_digit_is_named() {
    for text in [&b"RP93S1200"[..], b"RP93K1200000000FF"] {
        let places: Vec<usize> = (2..text.len()).filter(|&at| at != 4).collect();
        for (order, &first) in places.iter().enumerate() {
            let mut packet = text.to_vec();
            for &at in &places[order..] {
                packet[at] = b'a';
            }
            assert_eq!(read_railbus(&packet), refusal(26, first));
            // The last digit wrong too, all between them right.
            let packet = with(&with(text, text.len() - 1, b'G'), first, b':');
            assert_eq!(read_railbus(&packet), refusal(26, first));
        }
    }
}

#[test]
fn writers_need_the_exact_length() {
    for &letter in LETTERS {
        let due = if LONG_LETTERS.contains(&letter) {
            17
        } else {
            9
        };
        for room in 0..20 {
            let mut out = vec![OLD; room];
            let written = write_railbus(letter, 0xAB, 0xCD, 0xDEAD_BEEF, &mut out);
            if room < due {
                assert_eq!(written, refusal(1, 0));
                assert_eq!(out, vec![OLD; room]);
            } else {
                assert_eq!(written, Ok(due));
                assert!(out[due..].iter().all(|&byte| byte == OLD));
            }
        }
        // The letter comes before the room.
        assert_eq!(write_railbus(b'r', 0, 0, 0, &mut []), refusal(15, 0));
    }
}

#[test]
fn letters_without_data_leave_it_out() {
    for letter in *b"RSN" {
        let (mut out, mut other) = ([OLD; 17], [OLD; 17]);
        assert_eq!(write_railbus(letter, 1, 2, 0, &mut out), Ok(9));
        assert_eq!(write_railbus(letter, 1, 2, u32::MAX, &mut other), Ok(9));
        assert_eq!(out, other);
        assert_eq!(read_railbus(&out[..9]).unwrap().data, 0);
    }
}

#[test]
fn what_was_written_is_read_back() {
    let mut numbers = Numbers(11);
    let edges = [0, 1, 0x7FFF_FFFF, 0x8000_0000, u32::MAX];
    for round in 0..20_000u32 {
        let letter = numbers.of(LETTERS);
        let (address, reg) = (round as u8, numbers.below(256) as u8);
        let any = numbers.below(65_536) << 16 | numbers.below(65_536);
        let edge = numbers.of(&edges);
        let data = numbers.of(&[any, edge]);
        let mut out = [OLD; 17];
        let length = write_railbus(letter, address, reg, data, &mut out).unwrap();
        let long = length == 17;
        let packet = Packet {
            letter: Letter::of(letter).unwrap(),
            address,
            reg,
            data: if long { data } else { 0 },
            checked: true,
        };
        assert_eq!(read_railbus(&out[..length]), Ok(packet));
        let letter = char::from(letter);
        let digits = if long {
            format!("{data:08X}")
        } else {
            String::new()
        };
        let text = format!("RP{address:02X}{letter}{reg:02X}{digits}");
        let check = crc7_calc(text.as_bytes());
        assert_eq!(&out[..length], format!("{text}{check:02X}").as_bytes());
    }
}

/// The reader's rules once more, over all the digits of a packet as one text.
fn read_as_text(input: &[u8]) -> Result<Packet, Refusal> {
    if input.get(8).is_none() {
        return refusal(13, 0);
    }
    if let Some(place) = b"RP".iter().zip(input).position(|(due, met)| due != met) {
        return refusal(14, place);
    }
    let digits_due = match input[4] {
        b'R' | b'S' | b'N' => 6,
        b'W' | b'K' | b'I' | b'n' => 14,
        _ => return refusal(15, 4),
    };
    let body = [&input[2..4], &input[5..]].concat();
    if body.len() != digits_due {
        return refusal(13, 0);
    }
    let no_digit = |met: &u8| !b"0123456789ABCDEF".contains(met);
    if let Some(at) = body.iter().position(no_digit) {
        return refusal(26, if at < 2 { at + 2 } else { at + 3 });
    }
    let number = |from: usize, to: usize| {
        let digits = std::str::from_utf8(&body[from..to]).unwrap();
        u32::from_str_radix(digits, 16).unwrap_or(0)
    };
    let check = number(body.len() - 2, body.len()) as u8;
    let before = &input[..input.len() - 2];
    if check > 127 && check != crc7_calc(before) {
        return refusal(16, before.len());
    }
    Ok(Packet {
        letter: Letter::of(input[4]).unwrap(),
        address: number(0, 2) as u8,
        reg: number(2, 4) as u8,
        data: number(4, body.len() - 2),
        checked: check > 127,
    })
}

#[test]
fn damaged_packets_agree_with_the_text() {
    let mut numbers = Numbers(13);
    let mut met = [0; 27];
    for _ in 0..200_000 {
        let letter = numbers.of(LETTERS);
        let address = numbers.below(256) as u8;
        let data = numbers.below(65_536) << 16 | numbers.below(65_536);
        let mut out = [0; 17];
        let length = write_railbus(letter, address, !address, data, &mut out).unwrap();
        let mut packet = out[..length].to_vec();
        if numbers.below(3) == 0 {
            packet = with_check(&packet, &format!("{:02X}", numbers.below(256)));
        }
        for _ in 0..numbers.below(3) {
            let at = numbers.below(packet.len() as u32) as usize;
            packet[at] = numbers.of(b"0123456789ABCDEFabcfgGRWSKINnP@:/\0\xFF");
        }
        if numbers.below(6) == 0 {
            packet.resize(numbers.below(20) as usize, b'0');
        }
        let read = read_railbus(&packet);
        assert_eq!(read, read_as_text(&packet));
        met[usize::from(read.map_or_else(|refusal| refusal.number, |_| 0))] += 1;
    }
    for number in [0, 13, 14, 15, 16, 26] {
        assert!(met[number] > 100, "{number}: {}", met[number]);
    }
}
