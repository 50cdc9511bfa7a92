//! The checks held to what others' programs answer: libmodbus on a serial
//! line, pymodbus, and crccheck. Each comes from a Debian package; where one is
//! not installed its test says so and passes. Answers are compared frame by
//! frame, and each test says how many were.

use std::io::Write;
use std::path::{Path, PathBuf};
use std::process::{Command, Output, Stdio};
use std::sync::OnceLock;
use std::thread;

use moortinker::sys;

const FRAMES: usize = 4000;
const PEERS: &str = concat!(env!("CARGO_MANIFEST_DIR"), "/peers");
/// Debian's own interpreter, whatever stands first in the path.
const PYTHON: &str = "/usr/bin/python3";
const LIBMODBUS_HEADER: &str = "/usr/include/modbus/modbus.h";
/// What peers/python_checks.py ends with where a package is missing.
const NOT_INSTALLED: i32 = 3;

#[test]
fn modbus_check_is_what_pymodbus_computes() {
    let frames = random_frames(0x11, 0..=300);
    let Some(theirs) = python("pymodbus", "python3-pymodbus", &frames) else {
        return;
    };
    compare("pymodbus", &frames, &theirs, modbus_check);
}

#[test]
fn modbus_check_is_what_crccheck_computes() {
    let frames = random_frames(0x22, 0..=300);
    let Some(theirs) = python("crccheck-modbus", "python3-crccheck", &frames) else {
        return;
    };
    compare("crccheck, Modbus", &frames, &theirs, modbus_check);
}

#[test]
fn ebus_check_is_what_crccheck_leaves_before_the_last_byte() {
    let mut frames = random_frames(0x33, 0..=60);
    thicken_escapes(&mut frames);
    let Some(theirs) = python("crccheck-ebus", "python3-crccheck", &frames) else {
        return;
    };
    compare("crccheck, eBUS", &frames, &theirs, ebus_check);
}

#[test]
fn railbus_check_is_what_crccheck_computes() {
    let frames = random_frames(0x66, 0..=60);
    let Some(theirs) = python("crccheck-railbus", "python3-crccheck", &frames) else {
        return;
    };
    compare("crccheck, Railbus", &frames, &theirs, railbus_check);
}

#[test]
fn modbus_check_is_what_libmodbus_sends() {
    let frames = random_frames(0x44, 2..=254);
    let Some(theirs) = libmodbus("send", &frames) else {
        return;
    };
    compare("libmodbus, sending", &frames, &theirs, modbus_check);
}

#[test]
fn libmodbus_takes_our_check_and_refuses_a_wrong_one() {
    let mut random = Random(0x55);
    let frames: Vec<Vec<u8>> = (0..FRAMES).map(|_| write_registers(&mut random)).collect();
    let Some(theirs) = libmodbus("receive", &frames) else {
        return;
    };
    compare("libmodbus, receiving", &frames, &theirs, |frame| {
        let (body, check) = frame.split_at(frame.len() - 2);
        u16::from(check == modbus_check(body).to_le_bytes())
    });
    let right = theirs.iter().filter(|&&answer| answer == 1).count();
    assert!(right > FRAMES / 4 && right < 3 * FRAMES / 4);
}

fn modbus_check(bytes: &[u8]) -> u16 {
    // SAFETY: the pointer is valid for the length given.
    unsafe { sys::moor_modbus_check(bytes.as_ptr(), bytes.len()) }
}

fn ebus_check(logical: &[u8]) -> u16 {
    // SAFETY: the pointer is valid for the length given.
    u16::from(unsafe { sys::moor_ebus_check(logical.as_ptr(), logical.len()) })
}

fn railbus_check(characters: &[u8]) -> u16 {
    // SAFETY: the pointer is valid for the length given.
    u16::from(unsafe { sys::moor_railbus_check(characters.as_ptr(), characters.len()) })
}

fn compare(peer: &str, frames: &[Vec<u8>], theirs: &[u16], ours: impl Fn(&[u8]) -> u16) {
    assert_eq!(frames.len(), theirs.len(), "{peer}: answers are missing");
    for (frame, &their) in frames.iter().zip(theirs) {
        let our = ours(frame);
        assert_eq!(our, their, "{peer} on {}", hex(frame));
    }
    say(&format!(
        "{peer}: {} frames compared, all alike",
        frames.len()
    ));
}

/// Writes to the terminal also where the test runner keeps what is printed.
fn say(line: &str) {
    let _ = writeln!(std::io::stderr(), "peers: {line}");
}

// ---- The peers --------------------------------------------------------------

/// What a Python package answers, or nothing where it is not installed.
fn python(peer: &str, package: &str, frames: &[Vec<u8>]) -> Option<Vec<u16>> {
    if !Path::new(PYTHON).exists() {
        say(&format!("skipped {peer}: {PYTHON} is not installed"));
        return None;
    }
    let mut command = Command::new(PYTHON);
    command.arg(format!("{PEERS}/python_checks.py")).arg(peer);
    let output = converse(command, frames);
    if output.status.code() == Some(NOT_INSTALLED) {
        say(&format!("skipped {peer}: {package} is not installed"));
        return None;
    }
    Some(answers(peer, &output))
}

/// What libmodbus answers, or nothing where it is not installed.
fn libmodbus(way: &str, frames: &[Vec<u8>]) -> Option<Vec<u16>> {
    if !Path::new(LIBMODBUS_HEADER).exists() {
        say("skipped libmodbus: libmodbus-dev is not installed");
        return None;
    }
    let mut command = Command::new(libmodbus_program());
    command.arg(way);
    Some(answers("libmodbus", &converse(command, frames)))
}

/// Compiles peers/libmodbus_check.c, once for all tests.
fn libmodbus_program() -> &'static Path {
    static PROGRAM: OnceLock<PathBuf> = OnceLock::new();
    PROGRAM.get_or_init(|| {
        let program = Path::new(env!("CARGO_TARGET_TMPDIR")).join("libmodbus_check");
        let status = Command::new("gcc")
            .args(["-O2", "-Wall", "-Wextra", "-o"])
            .arg(&program)
            .arg(format!("{PEERS}/libmodbus_check.c"))
            .args(["-lmodbus", "-lutil"])
            .status()
            .expect("gcc runs");
        assert!(status.success(), "gcc refused peers/libmodbus_check.c");
        program
    })
}

/// Runs a peer, with the frames in hex on its standard input.
fn converse(mut command: Command, frames: &[Vec<u8>]) -> Output {
    let mut child = command
        .stdin(Stdio::piped())
        .stdout(Stdio::piped())
        .stderr(Stdio::piped())
        .spawn()
        .expect("the peer starts");
    let mut input = child.stdin.take().expect("its input is a pipe");
    let lines: String = frames.iter().map(|frame| hex(frame) + "\n").collect();
    // A peer that is not installed ends before it has read its input.
    let writer = thread::spawn(move || input.write_all(lines.as_bytes()));
    let output = child.wait_with_output().expect("the peer ends");
    let _ = writer.join();
    output
}

fn answers(peer: &str, output: &Output) -> Vec<u16> {
    let complaint = String::from_utf8_lossy(&output.stderr);
    assert!(output.status.success(), "{peer} failed: {complaint}");
    String::from_utf8_lossy(&output.stdout)
        .lines()
        .map(|line| u16::from_str_radix(line, 16).expect("an answer is a number in hex"))
        .collect()
}

fn hex(bytes: &[u8]) -> String {
    bytes.iter().map(|byte| format!("{byte:02X}")).collect()
}

// ---- The frames -------------------------------------------------------------

/// Random numbers that are the same in every run (splitmix64).
struct Random(u64);

impl Random {
    fn next(&mut self) -> u64 {
        self.0 = self.0.wrapping_add(0x9E37_79B9_7F4A_7C15);
        let mixed = (self.0 ^ (self.0 >> 30)).wrapping_mul(0xBF58_476D_1CE4_E5B9);
        let mixed = (mixed ^ (mixed >> 27)).wrapping_mul(0x94D0_49BB_1331_11EB);
        mixed ^ (mixed >> 31)
    }

    fn below(&mut self, bound: usize) -> usize {
        (self.next() % bound as u64) as usize
    }

    fn bytes(&mut self, length: usize) -> Vec<u8> {
        (0..length).map(|_| self.next() as u8).collect()
    }
}

fn random_frames(seed: u64, lengths: std::ops::RangeInclusive<usize>) -> Vec<Vec<u8>> {
    let mut random = Random(seed);
    let span = lengths.end() - lengths.start() + 1;
    (0..FRAMES)
        .map(|_| {
            let length = lengths.start() + random.below(span);
            random.bytes(length)
        })
        .collect()
}

/// Makes about a quarter of all bytes A9 or AA, which the check expands.
fn thicken_escapes(frames: &mut [Vec<u8>]) {
    let mut random = Random(0x99);
    for byte in frames.iter_mut().flatten() {
        if random.below(4) == 0 {
            *byte = 0xA9 + random.below(2) as u8;
        }
    }
}

/// A request to write registers (function 10) with our check, or, about every
/// other time, with some other check.
fn write_registers(random: &mut Random) -> Vec<u8> {
    let count = random.below(124);
    let mut frame = vec![1 + random.below(247) as u8, 0x10];
    frame.extend(random.bytes(2));
    frame.extend([0, count as u8, 2 * count as u8]);
    frame.extend(random.bytes(2 * count));
    let turned = match random.below(2) {
        0 => 0,
        _ => 1 + random.below(0xFFFF) as u16,
    };
    let check = modbus_check(&frame) ^ turned;
    frame.extend(check.to_le_bytes());
    frame
}
