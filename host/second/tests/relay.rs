//! A relay device: single steps in every phase of the write that it remembers,
//! their edges, and long sequences beside a device kept as text.

use second::railbus::{railbus_check, read_railbus};
use second::relay::{
    finish_railbus, offer_railbus, relay_valid, Relayed, Remembered, ABSENT, READ, READ_WRITE,
    RELAY_REGISTERS, RELAY_ROOM, WRITE,
};
use second::Refusal;

/// What stands in an answer buffer before anything is written there.
const OLD: u8 = 0x77;

fn refusal<T>(number: u8, place: usize) -> Result<T, Refusal> {
    Err(Refusal::at(number, place))
}

fn running(reg: u8, data: u32) -> Remembered {
    Remembered::Running { reg, data }
}

fn finished(reg: u8, data: u32) -> Remembered {
    Remembered::Finished { reg, data }
}

/// What a device may remember: nothing, and a write of 10 to register 5 in both
/// of its phases.
fn phases() -> [Remembered; 3] {
    [Remembered::Idle, running(5, 0x10), finished(5, 0x10)]
}

/// A packet with a checksum that is examined.
fn checked(text: &str) -> Vec<u8> {
    format!("{text}{:02X}", railbus_check(text.as_bytes())).into_bytes()
}

/// A packet with a checksum that is not examined.
fn unchecked(text: &str) -> Vec<u8> {
    format!("{text}00").into_bytes()
}

/// A device, and the buffer of its last answer.
#[derive(Clone, Debug, PartialEq)]
struct Relay {
    address: u8,
    registers: Vec<u32>,
    access: Vec<u8>,
    write: Remembered,
    answer: Vec<u8>,
}

impl Relay {
    /// A device with address 93 that remembers this. Registers 0 to 3 have the
    /// access byte that is their number, all behind them may be read and
    /// written.
    fn with(write: Remembered) -> Self {
        let mut access = vec![READ_WRITE; RELAY_REGISTERS];
        access[..3].copy_from_slice(&[ABSENT, READ, WRITE]);
        Relay {
            address: 0x93,
            registers: (0xABCD_0000..).take(RELAY_REGISTERS).collect(),
            access,
            write,
            answer: vec![OLD; RELAY_ROOM],
        }
    }

    fn fresh() -> Self {
        Relay::with(Remembered::default())
    }

    fn valid(&self) -> bool {
        relay_valid(&self.registers, &self.access)
    }

    fn offer(&mut self, packet: &[u8]) -> Result<Relayed, Refusal> {
        let relayed = offer_railbus(
            self.address,
            packet,
            &self.registers,
            &self.access,
            self.write,
            &mut self.answer,
        )?;
        self.write = relayed.write;
        Ok(relayed)
    }

    fn finish(&mut self) -> Result<Relayed, Refusal> {
        let relayed = finish_railbus(
            self.address,
            &mut self.registers,
            &self.access,
            self.write,
            &mut self.answer,
        )?;
        self.write = relayed.write;
        Ok(relayed)
    }

    /// An answer of this length without its checksum, which is right; behind it
    /// all stayed as it was.
    fn text(&self, length: usize) -> String {
        assert!(self.answer[length..].iter().all(|&byte| byte == OLD));
        if length == 0 {
            return String::new();
        }
        assert!(read_railbus(&self.answer[..length]).unwrap().checked);
        String::from_utf8(self.answer[..length - 2].to_vec()).unwrap()
    }

    /// The answer to a packet, both without their checksums.
    fn says(&mut self, packet: &str) -> String {
        let (registers, access) = (self.registers.clone(), self.access.clone());
        let mut other = self.clone();
        self.answer.fill(OLD);
        let length = self.offer(&checked(packet)).unwrap().length;
        // Whether the checksum is examined makes no difference to the device.
        other.answer.fill(OLD);
        assert_eq!(other.offer(&unchecked(packet)).unwrap().length, length);
        assert_eq!(*self, other);
        assert_eq!((&self.registers, &self.access), (&registers, &access));
        self.text(length)
    }

    /// The answer to the finish, without its checksum.
    fn says_at_finish(&mut self) -> String {
        self.answer.fill(OLD);
        let length = self.finish().unwrap().length;
        self.text(length)
    }
}

#[test]
fn examples_of_document_001() {
    let mut relay = Relay::with(Remembered::Idle);
    relay.address = 0xFF;
    relay.access[..2].fill(READ_WRITE);
    relay.registers[0] = 0x0015_002A;
    let relayed = Relayed {
        write: Remembered::Idle,
        length: 17,
    };
    assert_eq!(relay.offer(b"RPFFR009E"), Ok(relayed));
    assert_eq!(relay.answer, b"RPFFK000015002AF4");
    relay.answer.fill(OLD);
    assert_eq!(relay.offer(b"RPFFR0000"), Ok(relayed));
    assert_eq!(relay.answer, b"RPFFK000015002AF4");

    relay.address = 0x93;
    for (reg, write, done) in [
        (0, &b"RP93W00000000109F"[..], &b"RP93I0000000010EE"[..]),
        (1, b"RP93W0100000010A2", b"RP93I0100000010D3"),
    ] {
        let relayed = Relayed {
            write: running(reg, 0x10),
            length: 17,
        };
        assert_eq!(relay.offer(write), Ok(relayed));
        let received = format!("RP93n{reg:02X}00000001");
        assert_eq!(relay.answer, checked(&received));
        let relayed = Relayed {
            write: finished(reg, 0x10),
            length: 17,
        };
        assert_eq!(relay.finish(), Ok(relayed));
        assert_eq!(relay.answer, done);
        assert_eq!(relay.registers[usize::from(reg)], 0x10);
    }
}

#[test]
fn special_registers_act_like_the_rest() {
    let mut relay = Relay::fresh();
    assert_eq!(relay.says("RP93WFD0000E100"), "RP93nFD00000001");
    assert_eq!(relay.says_at_finish(), "RP93IFD0000E100");
    assert_eq!(relay.says("RP93RFD"), "RP93KFD0000E100");
    // An own address written changes no address here.
    assert_eq!(relay.says("RP93WFF00000044"), "RP93nFF00000001");
    assert_eq!(relay.says_at_finish(), "RP93IFF00000044");
    assert_eq!(relay.says("RP44RFF"), "");
    assert_eq!(relay.says("RP93RFF"), "RP93KFF00000044");
    // A reset is a value like any other.
    assert_eq!(relay.says("RP93WFA1F2E3D4C"), "RP93nFA00000001");
    assert_eq!(relay.says_at_finish(), "RP93IFA1F2E3D4C");
    assert_eq!(relay.says("RP93RFF"), "RP93KFF00000044");
    // Nor is an answer held back where register FE asks for it.
    assert_eq!(relay.says("RP93WFEC0000000"), "RP93nFE00000001");
    assert_eq!(relay.says_at_finish(), "RP93IFEC0000000");
    relay.access[0xFA..].copy_from_slice(&[ABSENT, READ, WRITE, ABSENT, READ, WRITE]);
    assert_eq!(relay.says("RP93RFA"), "RP93NFA");
    assert_eq!(relay.says("RP93WFB00000000"), "RP93nFB00000007");
    assert_eq!(relay.says("RP93RFC"), "RP93nFC00000007");
    assert_eq!(relay.says("RP93WFD00000000"), "RP93NFD");
    assert_eq!(relay.says("RP93WFE00000000"), "RP93nFE00000007");
    assert_eq!(relay.says("RP93RFF"), "RP93nFF00000007");
}

#[test]
fn absent_and_forbidden_come_first_in_every_phase() {
    let mut writes = phases().to_vec();
    // Also where the very write that is remembered could not be made any more.
    for reg in 0..2 {
        writes.extend([running(reg, 0x10), finished(reg, 0x10)]);
    }
    for write in writes {
        let mut relay = Relay::with(write);
        assert_eq!(relay.says("RP93R00"), "RP93N00");
        assert_eq!(relay.says("RP93W0000000010"), "RP93N00");
        assert_eq!(relay.says("RP93W00FFFFFFFF"), "RP93N00");
        assert_eq!(relay.says("RP93W0100000010"), "RP93n0100000007");
        assert_eq!(relay.says("RP93W01FFFFFFFF"), "RP93n0100000007");
        assert_eq!(relay.says("RP93R02"), "RP93n0200000007");
        assert_eq!(relay.write, write);
    }
    // A write that runs at a register that is barred by now is still there.
    let mut relay = Relay::with(running(1, 0x10));
    assert_eq!(relay.says("RP93W0100000010"), "RP93n0100000007");
    relay.access[1] = READ_WRITE;
    assert_eq!(relay.says("RP93W0100000010"), "RP93n0100000002");
}

#[test]
fn every_access_byte_and_register() {
    for reg in 0..=255u8 {
        for access in 0..4 {
            let mut relay = Relay::fresh();
            relay.access = vec![(access + 1) % 4; RELAY_REGISTERS];
            relay.access[usize::from(reg)] = access;
            let value = 0xABCD_0000 + u32::from(reg);
            let read = match access {
                0 => format!("RP93N{reg:02X}"),
                2 => format!("RP93n{reg:02X}00000007"),
                _ => format!("RP93K{reg:02X}{value:08X}"),
            };
            assert_eq!(relay.says(&format!("RP93R{reg:02X}")), read);
            let (written, write) = match access {
                0 => (format!("RP93N{reg:02X}"), Remembered::Idle),
                1 => (format!("RP93n{reg:02X}00000007"), Remembered::Idle),
                _ => (format!("RP93n{reg:02X}00000001"), running(reg, 9)),
            };
            assert_eq!(relay.says(&format!("RP93W{reg:02X}00000009")), written);
            assert_eq!(relay.write, write);
        }
    }
}

#[test]
fn reads_go_on_in_every_phase() {
    for write in phases() {
        let mut relay = Relay::with(write);
        assert_eq!(relay.says("RP93R01"), "RP93K01ABCD0001");
        assert_eq!(relay.says("RP93RFF"), "RP93KFFABCD00FF");
        // What the register holds, not what is about to be written.
        assert_eq!(relay.says("RP93R05"), "RP93K05ABCD0005");
        assert_eq!(relay.write, write);
    }
    let mut relay = Relay::with(running(5, 0x10));
    assert_eq!(relay.says_at_finish(), "RP93I0500000010");
    assert_eq!(relay.says("RP93R05"), "RP93K0500000010");
    assert_eq!(relay.write, finished(5, 0x10));
}

#[test]
fn copies_of_a_write() {
    let mut relay = Relay::fresh();
    assert_eq!(relay.says("RP93W0500000010"), "RP93n0500000001");
    assert_eq!(relay.write, running(5, 0x10));
    for _ in 0..3 {
        assert_eq!(relay.says("RP93W0500000010"), "RP93n0500000002");
        assert_eq!(relay.write, running(5, 0x10));
    }
    assert_eq!(relay.registers[5], 0xABCD_0005);
    assert_eq!(relay.says_at_finish(), "RP93I0500000010");
    assert_eq!(relay.write, finished(5, 0x10));
    assert_eq!(relay.registers[5], 0x10);
    // What the register holds by now makes no difference to a copy.
    relay.registers[5] = 7;
    for _ in 0..3 {
        assert_eq!(relay.says("RP93W0500000010"), "RP93n0500000003");
        assert_eq!(relay.write, finished(5, 0x10));
    }
    assert_eq!(relay.registers[5], 7);
}

#[test]
fn different_writes() {
    // Another register, other data, both.
    let others = [(6, 0x10), (5, 0x11), (5, 0x8000_0010), (6, 0x11)];
    for (reg, data) in others {
        let packet = format!("RP93W{reg:02X}{data:08X}");
        let number = |number: &str| format!("RP93n{reg:02X}000000{number}");
        let mut idle = Relay::with(Remembered::Idle);
        assert_eq!(idle.says(&packet), number("01"));
        assert_eq!(idle.write, running(reg, data));
        let mut busy = Relay::with(running(5, 0x10));
        assert_eq!(busy.says(&packet), number("08"));
        assert_eq!(busy.write, running(5, 0x10));
        let mut done = Relay::with(finished(5, 0x10));
        assert_eq!(done.says(&packet), number("01"));
        assert_eq!(done.write, running(reg, data));
        // The finished one is forgotten: it is now the different one.
        assert_eq!(done.says("RP93W0500000010"), "RP93n0500000008");
        done.says_at_finish();
        assert_eq!(done.says("RP93W0500000010"), "RP93n0500000001");
    }
}

#[test]
fn a_refused_write_does_not_forget_the_finished_one() {
    let mut relay = Relay::with(finished(5, 0x10));
    for packet in ["RP93W0000000001", "RP93W0100000001", "RP92W0600000001"] {
        relay.says(packet);
        assert_eq!(relay.says("RP93W0500000010"), "RP93n0500000003");
    }
    // Nor do a busy answer and reads touch the one that runs.
    let mut relay = Relay::with(running(5, 0x10));
    for packet in ["RP93W0600000001", "RP93S06", "RP93R05", "RP93R00"] {
        relay.says(packet);
        assert_eq!(relay.says("RP93W0500000010"), "RP93n0500000002");
    }
}

#[test]
fn sync_in_every_phase_at_every_access() {
    for write in phases() {
        for reg in [0, 1, 2, 3, 5, 0xFF] {
            let mut relay = Relay::with(write);
            let busy = write == running(5, 0x10);
            let number = if busy { "08" } else { "10" };
            let packet = format!("RP93S{reg:02X}");
            let answer = format!("RP93n{reg:02X}000000{number}");
            for _ in 0..2 {
                assert_eq!(relay.says(&packet), answer);
                let after = if busy { write } else { Remembered::Idle };
                assert_eq!(relay.write, after);
            }
        }
    }
}

#[test]
fn after_a_sync_a_copy_is_a_first_one() {
    let mut relay = Relay::with(finished(5, 0x10));
    assert_eq!(relay.says("RP93W0500000010"), "RP93n0500000003");
    assert_eq!(relay.says("RP93S00"), "RP93n0000000010");
    assert_eq!(relay.says("RP93W0500000010"), "RP93n0500000001");
    assert_eq!(relay.says("RP93S00"), "RP93n0000000008");
    assert_eq!(relay.says_at_finish(), "RP93I0500000010");
    assert_eq!(relay.says("RP93W0500000010"), "RP93n0500000003");
}

#[test]
fn the_finish_is_reported_once() {
    for write in [Remembered::Idle, finished(5, 0x10)] {
        let mut relay = Relay::with(write);
        let before = relay.clone();
        assert_eq!(relay.finish(), Ok(Relayed { write, length: 0 }));
        assert_eq!(relay, before);
    }
    let mut relay = Relay::with(running(5, 0x10));
    let before = relay.clone();
    assert_eq!(relay.says_at_finish(), "RP93I0500000010");
    // Only that register changes.
    let mut registers = before.registers.clone();
    registers[5] = 0x10;
    assert_eq!(relay.registers, registers);
    relay.registers[5] = 7;
    assert_eq!(relay.says_at_finish(), "");
    assert_eq!((relay.registers[5], relay.write), (7, finished(5, 0x10)));
}

#[test]
fn the_finish_looks_at_no_access_byte_again() {
    for access in 0..4 {
        for reg in [0, 0xFD, 0xFF] {
            let mut relay = Relay::with(running(reg, u32::MAX));
            relay.access.fill(access);
            let done = format!("RP93I{reg:02X}FFFFFFFF");
            assert_eq!(relay.says_at_finish(), done);
            assert_eq!(relay.registers[usize::from(reg)], u32::MAX);
            assert_eq!(relay.write, finished(reg, u32::MAX));
        }
    }
}

#[test]
fn the_finish_has_the_address_of_that_moment() {
    let mut relay = Relay::fresh();
    assert_eq!(relay.says("RP93W0500000010"), "RP93n0500000001");
    relay.address = 0x0A;
    assert_eq!(relay.says("RP93W0500000010"), "");
    assert_eq!(relay.says("RP0AW0500000010"), "RP0An0500000002");
    assert_eq!(relay.says_at_finish(), "RP0AI0500000010");
}

#[test]
fn packets_for_others_get_no_answer() {
    for write in phases() {
        for address in (0..=255u8).filter(|&address| address != 0x93) {
            let mut relay = Relay::with(write);
            let packets = ["R00", "R02", "R05", "S00", "W0000000010", "W0100000010"];
            for packet in packets.iter().chain(&["W0500000010", "W0600000010"]) {
                assert_eq!(relay.says(&format!("RP{address:02X}{packet}")), "");
                assert_eq!(relay.write, write);
            }
        }
    }
    // No address means all devices.
    for address in [0x00, 0x93, 0xFF] {
        let mut relay = Relay::fresh();
        relay.address = address;
        for other in [0x00, 0x93, 0xFF] {
            let answered = !relay.says(&format!("RP{other:02X}R03")).is_empty();
            assert_eq!(answered, other == address);
        }
    }
}

#[test]
fn answers_get_no_answer() {
    for write in phases() {
        for address in ["93", "92"] {
            for reg in ["00", "01", "02", "03", "05"] {
                let mut relay = Relay::with(write);
                for letter in ["K", "I", "n"] {
                    for data in ["00000010", "00000000", "FFFFFFFF"] {
                        assert_eq!(relay.says(&format!("RP{address}{letter}{reg}{data}")), "");
                    }
                }
                assert_eq!(relay.says(&format!("RP{address}N{reg}")), "");
                assert_eq!(relay.write, write);
            }
        }
    }
}

#[test]
fn refused_packets_change_nothing() {
    for write in phases() {
        let mut relay = Relay::with(write);
        let before = relay.clone();
        for (packet, number, place) in [
            (&b""[..], 13, 0),
            (b"RP93W050", 13, 0),
            (b"PR93S0000", 14, 0),
            (b"RR93S0000", 14, 1),
            (b"RP93w0600000001FF", 15, 4),
            (b"RP93W0600", 13, 0),
            (b"RP93S0000000000000", 13, 0),
            (b"RP93S0000\r\n", 13, 0),
            (b"RP93W060000000g00", 26, 14),
            (b"RP93S000g", 26, 8),
            (b"RP93W00000000109E", 16, 15),
            (b"RP93S0080", 16, 7),
            // Before the address is looked at.
            (b"RP92S0080", 16, 7),
            (b"RP92K", 13, 0),
        ] {
            assert_eq!(relay.offer(packet), refusal(number, place));
            assert_eq!(relay, before);
        }
    }
}

#[test]
fn answers_need_17_bytes_before_all_else() {
    let packets: [&[u8]; 5] = [b"", b"RP93R00xx", b"RP93R0000", b"RP92R0000", b"RP93N0000"];
    for write in phases() {
        for room in [0, 1, 8, 9, 16] {
            let mut relay = Relay::with(write);
            relay.answer = vec![OLD; room];
            for registers in [256, 255] {
                relay.registers.truncate(registers);
                let before = relay.clone();
                for packet in packets {
                    assert_eq!(relay.offer(packet), refusal(1, 0));
                }
                assert_eq!(relay.finish(), refusal(1, 0));
                assert_eq!(relay, before);
            }
        }
        for room in [17, 18, 40] {
            let mut relay = Relay::with(write);
            relay.answer = vec![OLD; room];
            assert_eq!(relay.says("RP93R00"), "RP93N00");
            assert_eq!(relay.says("RP93R01"), "RP93K01ABCD0001");
            let done = write == running(5, 0x10);
            assert_eq!(!relay.says_at_finish().is_empty(), done);
        }
    }
}

/// Whether a device stays valid with this change, in every phase.
fn valid_with(change: impl Fn(&mut Relay)) -> bool {
    let answers = phases().map(|write| {
        let mut relay = Relay::with(write);
        assert!(relay.valid());
        change(&mut relay);
        let valid = relay.valid();
        let before = relay.clone();
        // Before the packet is looked at, and where nothing runs.
        let offered = relay.offer(b"");
        assert_eq!(offered, refusal(if valid { 13 } else { 2 }, 0));
        if !valid {
            assert_eq!(relay.offer(b"RP93R0300"), refusal(2, 0));
            assert_eq!(relay.offer(b"RP92R0300"), refusal(2, 0));
            assert_eq!(relay.finish(), refusal(2, 0));
        }
        assert_eq!(relay, before);
        assert_eq!(relay.finish().is_ok(), valid);
        valid
    });
    assert!(answers.iter().all(|&valid| valid == answers[0]));
    answers[0]
}

#[test]
fn registers_and_access_bytes_at_their_edges() {
    assert!(valid_with(|_| ()));
    for length in [0, 1, 255, 257, 512] {
        assert!(!valid_with(|relay| relay.registers.resize(length, 0)));
        assert!(!valid_with(|relay| relay.access.resize(length, 0)));
        assert!(!valid_with(|relay| {
            relay.registers.resize(length, 0);
            relay.access.resize(length, 0);
        }));
    }
    for reg in [0, 1, 5, 128, 254, 255] {
        for access in 0..4 {
            assert!(valid_with(|relay| relay.access[reg] = access));
        }
        for access in [4, 5, 7, 128, 255] {
            assert!(!valid_with(|relay| relay.access[reg] = access));
        }
    }
    // Registers may hold anything.
    assert!(valid_with(|relay| relay.registers.fill(u32::MAX)));
    assert!(!relay_valid(&[], &[]));
}

/// A device that keeps its last accepted write as the text behind the letter.
#[derive(Default)]
struct Told {
    last: Option<String>,
    runs: bool,
}

impl Told {
    /// The answer to what stands behind the address, both as text.
    fn hears(&mut self, body: &str, access: &[u8], registers: &[u32]) -> String {
        let (letter, rest) = body.split_at(1);
        let reg = &rest[..2];
        let at = usize::from_str_radix(reg, 16).unwrap();
        let allowed = match letter {
            "R" => [1, 3],
            "W" => [2, 3],
            "S" => return format!("n{reg}000000{}", self.syncs()),
            _ => return String::new(),
        };
        if access[at] == 0 {
            return format!("N{reg}");
        }
        if !allowed.contains(&access[at]) {
            return format!("n{reg}00000007");
        }
        if letter == "R" {
            return format!("K{reg}{:08X}", registers[at]);
        }
        let same = self.last.as_deref() == Some(rest);
        let number = match (self.runs, same) {
            (true, true) => "02",
            (true, false) => "08",
            (false, true) => "03",
            (false, false) => {
                self.last = Some(rest.to_string());
                self.runs = true;
                "01"
            }
        };
        format!("n{reg}000000{number}")
    }

    fn syncs(&mut self) -> &'static str {
        if self.runs {
            return "08";
        }
        self.last = None;
        "10"
    }

    /// What goes out when a finish is reported.
    fn finishes(&mut self, registers: &mut [u32]) -> String {
        if !self.runs {
            return String::new();
        }
        self.runs = false;
        let rest = self.last.clone().unwrap();
        let (reg, data) = rest.split_at(2);
        let at = usize::from_str_radix(reg, 16).unwrap();
        registers[at] = u32::from_str_radix(data, 16).unwrap();
        format!("I{rest}")
    }

    fn remembers(&self) -> Remembered {
        let Some(rest) = &self.last else {
            return Remembered::Idle;
        };
        let reg = u8::from_str_radix(&rest[..2], 16).unwrap();
        let data = u32::from_str_radix(&rest[2..], 16).unwrap();
        if self.runs {
            running(reg, data)
        } else {
            finished(reg, data)
        }
    }
}

/// A simple generator of numbers below a bound.
struct Numbers(u64);

impl Numbers {
    fn below(&mut self, bound: u32) -> u32 {
        self.0 = self.0.wrapping_mul(6_364_136_223_846_793_005);
        self.0 = self.0.wrapping_add(1_442_695_040_888_963_407);
        ((self.0 >> 33) % u64::from(bound)) as u32
    }

    /// A packet behind its address: few registers and values, so that copies of
    /// a write come often.
    fn body(&mut self) -> String {
        let letters = ["R", "W", "W", "W", "W", "W", "S", "K", "I", "N", "n"];
        let letter = letters[self.below(11) as usize];
        let reg = [0, 1, 2, 3, 5, 0xFF][self.below(6) as usize];
        let data = [0x10, 0xFFFF_FFFF_u32][self.below(2) as usize];
        match letter {
            "R" | "S" | "N" => format!("{letter}{reg:02X}"),
            _ => format!("{letter}{reg:02X}{data:08X}"),
        }
    }
}

/// The text with the address in front, if there is any.
fn from_93(text: String) -> String {
    if text.is_empty() {
        text
    } else {
        format!("RP93{text}")
    }
}

#[test]
fn long_sequences_agree_with_text() {
    for seed in 0..40 {
        let mut numbers = Numbers(seed);
        let mut relay = Relay::fresh();
        let mut told = Told::default();
        let mut registers = relay.registers.clone();
        for _ in 0..1000 {
            if numbers.below(5) == 0 {
                let expected = told.finishes(&mut registers);
                assert_eq!(relay.says_at_finish(), from_93(expected));
            } else if numbers.below(20) == 0 {
                // The caller changes what may be done with a register.
                let reg = [0, 1, 2, 3, 5, 0xFF][numbers.below(6) as usize];
                relay.access[reg] = numbers.below(4) as u8;
            } else {
                let body = numbers.body();
                let own = numbers.below(8) > 0;
                let expected = if own {
                    told.hears(&body, &relay.access, &registers)
                } else {
                    String::new()
                };
                let address = if own { "93" } else { "39" };
                let said = relay.says(&format!("RP{address}{body}"));
                assert_eq!(said, from_93(expected));
            }
            assert_eq!(relay.registers, registers);
            assert_eq!(relay.write, told.remembers());
        }
    }
}
