//! A run of the tests: its seed, the counts per function and number, and the
//! comparison of what the archive and the second implementation did.

use std::collections::{BTreeMap, BTreeSet};
use std::env;
use std::fmt::Debug;
use std::panic::resume_unwind;

use crate::lent::{Element, Lent};
use crate::random::Random;

/// The seed of a run that names no other.
const SEED: u64 = 0x000E_B052_0017;
/// The inputs of a run that asks for no other number. A recording that both
/// sides listen to is one input, in however many runs it is fed, and so is a
/// capture that is walked over. An answer of devices that is read back is one
/// more.
const INPUTS: u64 = 16_000_000;

/// Declares the functions of the C interface, each with the numbers that
/// the rules and the header let it give.
macro_rules! functions {
    ($($function:ident $name:literal [$($number:literal)*])*) => {
        #[derive(Clone, Copy, Debug, PartialEq, Eq, PartialOrd, Ord)]
        pub enum Function {
            $($function,)*
        }

        /// Name and numbers of each function, in the order of the enum.
        const FUNCTIONS: &[(Function, &str, &[u8])] = &[
            $((Function::$function, $name, &[$($number),*]),)*
        ];
    };
}

functions! {
    EbusCheck "moor_ebus_check" [0]
    ModbusCheck "moor_modbus_check" [0]
    IsInitiator "moor_is_initiator" [0]
    IsReserved "moor_is_reserved" [0]
    Kind "moor_kind" [0]
    LogicalAt "moor_logical_at" [0 3 4 5]
    Expand "moor_expand" [0 1]
    Undo "moor_undo" [0 1 3 4 5]
    TelegramAt "moor_telegram_at" [0 3 4 5 6 7 8]
    CheckRight "moor_check_right" [0]
    WriteCommand "moor_write_command" [0 1 6 7 8]
    WriteReply "moor_write_reply" [0 1 8]
    Judge "moor_judge" [0 1 3 4 5 6 7 8 9 10 11 12]
    Listen "moor_listen" [0]
    Feed "moor_feed" [0]
    HasAnswered "moor_has_answered" [0]
    Close "moor_close" [0 1 3 4 5 6 7 8 9 10 11 12]
    NextExchange "moor_next_exchange" [0]
    ReplyData "moor_reply_data" [0]
    ReadRequest "moor_read_request" [0 13 14 15 16]
    ReadAnswer "moor_read_answer" [0 13 14 15 16 17 19]
    WriteRequest "moor_write_request" [0 1 15]
    WriteFound "moor_write_found" [0 1 17]
    WriteEnd "moor_write_end" [0 1]
    TableValid "moor_table_valid" [0]
    Contest "moor_contest" [0]
    Start "moor_start" [0 1 2]
    Resume "moor_resume" [0 1 2]
    Offer "moor_offer" [0 1 2 13 14 15 16]
    Scan "moor_scan" [0 1 2]
    ReadEventRequest "moor_read_event_request" [0 13 14 15 16]
    WriteEventRequest "moor_write_event_request" [0 1]
    ReadEvents "moor_read_events" [0 13 14 15 16 19]
    EventAt "moor_event_at" [0]
    WriteNoEvents "moor_write_no_events" [0 1]
    QueuesValid "moor_queues_valid" [0]
    AddEvent "moor_add_event" [0 2 13 18]
    Poll "moor_poll" [0 1 2]
    OfferPoll "moor_offer_poll" [0 1 2 13 14 15 16]
    RailbusCheck "moor_railbus_check" [0]
    ReadRailbus "moor_read_railbus" [0 13 14 15 16 26]
    WriteRailbus "moor_write_railbus" [0 1 15]
    RelayValid "moor_relay_valid" [0]
    OfferRailbus "moor_offer_railbus" [0 1 2 13 14 15 16 26]
    FinishRailbus "moor_finish_railbus" [0 1 2]
}

/// What an accepted answer looked like, in up to three values.
pub type Form = [u8; 3];

/// The forms of an accepted exchange: kind, attempts at command and reply.
const EXCHANGES: &[Form] = &[
    [1, 1, 0],
    [1, 2, 0],
    [2, 1, 0],
    [2, 2, 0],
    [3, 1, 1],
    [3, 1, 2],
    [3, 2, 1],
    [3, 2, 2],
];

/// The forms of what a poll brings about. Silence, a packet or no events; each
/// with and without a confirmation. Silence and no events with and without a
/// device that sat out; a packet of all that is queued or of a part, that stands
/// for one not confirmed or does not.
const POLLS: &[Form] = &[
    [0, 0, 0],
    [0, 0, 1],
    [0, 1, 0],
    [0, 1, 1],
    [17, 0, 0],
    [17, 0, 1],
    [17, 0, 2],
    [17, 0, 3],
    [17, 1, 0],
    [17, 1, 1],
    [17, 1, 2],
    [17, 1, 3],
    [18, 0, 0],
    [18, 0, 1],
    [18, 1, 0],
    [18, 1, 1],
];

/// The forms of what a relay device does with a packet: the phase of what it
/// remembers, 3 for one that there is not; the letter, 0 where the packet is for
/// another device; and the letter of the answer, the number of an n, 0 for none.
#[rustfmt::skip]
const OFFERS: &[Form] = &[
    [0, 0, 0], [0, b'I', 0], [0, b'K', 0], [0, b'N', 0],
    [0, b'R', 7], [0, b'R', b'K'], [0, b'R', b'N'], [0, b'S', 16],
    [0, b'W', 1], [0, b'W', 7], [0, b'W', b'N'], [0, b'n', 0],

    [1, 0, 0], [1, b'I', 0], [1, b'K', 0], [1, b'N', 0],
    [1, b'R', 7], [1, b'R', b'K'], [1, b'R', b'N'], [1, b'S', 8],
    [1, b'W', 2], [1, b'W', 7], [1, b'W', 8], [1, b'W', b'N'], [1, b'n', 0],

    [2, 0, 0], [2, b'I', 0], [2, b'K', 0], [2, b'N', 0],
    [2, b'R', 7], [2, b'R', b'K'], [2, b'R', b'N'], [2, b'S', 16],
    [2, b'W', 1], [2, b'W', 3], [2, b'W', 7], [2, b'W', b'N'], [2, b'n', 0],

    [3, 0, 0], [3, b'I', 0], [3, b'K', 0], [3, b'N', 0],
    [3, b'R', 7], [3, b'R', b'K'], [3, b'R', b'N'], [3, b'S', 16],
    [3, b'W', 1], [3, b'W', 7], [3, b'W', b'N'], [3, b'n', 0],
];

/// The forms of accepted answers that a run must have met.
const FORMS: &[(Function, &[Form])] = &[
    (Function::Judge, EXCHANGES),
    (Function::Close, EXCHANGES),
    // An empty run; one of which all is used, none, the last byte deciding, or
    // one before it; one that goes on behind the last byte that is used at all.
    (
        Function::Feed,
        &[
            [0; 3],
            [1, 0, 0],
            [2, 0, 0],
            [3, 0, 0],
            [4, 0, 0],
            [5, 0, 0],
        ],
    ),
    (Function::HasAnswered, &[[0; 3], [1, 0, 0]]),
    // No position of the capture; no exchange, one that SYN ends, and one that is
    // cut off, without idle time before it and behind some.
    (
        Function::NextExchange,
        &[
            [0; 3],
            [1, 1, 0],
            [2, 0, 0],
            [2, 1, 0],
            [3, 0, 0],
            [3, 1, 0],
        ],
    ),
    (Function::ReplyData, &[[1, 0, 0], [1, 1, 0], [2, 1, 0]]),
    (Function::IsInitiator, &[[0; 3], [1, 0, 0]]),
    (Function::IsReserved, &[[0; 3], [1, 0, 0]]),
    (Function::Kind, &[[1, 0, 0], [2, 0, 0], [3, 0, 0]]),
    (Function::CheckRight, &[[0; 3], [1, 0, 0]]),
    (Function::ReadRequest, &[[1, 0, 0], [2, 0, 0]]),
    // A device found and the end; each behind no FF, behind some, and behind as
    // many as may be.
    (
        Function::ReadAnswer,
        &[
            [3, 0, 0],
            [3, 1, 0],
            [3, 2, 0],
            [4, 0, 0],
            [4, 1, 0],
            [4, 2, 0],
        ],
    ),
    (Function::TableValid, &[[0; 3], [1, 0, 0]]),
    // Silence, an answer 03, an answer 04.
    (Function::Start, &[[0; 3], [3, 0, 0]]),
    (Function::Resume, &[[0; 3], [3, 0, 0], [4, 0, 0]]),
    (Function::Offer, &[[0; 3], [3, 0, 0], [4, 0, 0]]),
    // Complete, nobody, unfinished; without FF and with some.
    (
        Function::Scan,
        &[[1, 1, 0], [2, 0, 0], [3, 0, 0], [3, 1, 0]],
    ),
    // A packet of no event, of one and of more; no events; each behind no FF,
    // behind some, and behind as many as may be.
    (
        Function::ReadEvents,
        &[
            [17, 0, 0],
            [17, 0, 1],
            [17, 0, 2],
            [17, 1, 0],
            [17, 1, 1],
            [17, 1, 2],
            [17, 2, 0],
            [17, 2, 1],
            [17, 2, 2],
            [18, 0, 0],
            [18, 0, 1],
            [18, 0, 2],
        ],
    ),
    (Function::EventAt, &[[0; 3], [1, 0, 0]]),
    (Function::QueuesValid, &[[0; 3], [1, 0, 0]]),
    // Normal and urgent ones; each behind nothing, behind some, and the last
    // that has room.
    (
        Function::AddEvent,
        &[
            [0; 3],
            [0, 1, 0],
            [0, 2, 0],
            [1, 0, 0],
            [1, 1, 0],
            [1, 2, 0],
        ],
    ),
    (Function::Poll, POLLS),
    (Function::OfferPoll, POLLS),
    // Each letter, its checksum not examined and right.
    (
        Function::ReadRailbus,
        &[
            [b'I', 0, 0],
            [b'I', 1, 0],
            [b'K', 0, 0],
            [b'K', 1, 0],
            [b'N', 0, 0],
            [b'N', 1, 0],
            [b'R', 0, 0],
            [b'R', 1, 0],
            [b'S', 0, 0],
            [b'S', 1, 0],
            [b'W', 0, 0],
            [b'W', 1, 0],
            [b'n', 0, 0],
            [b'n', 1, 0],
        ],
    ),
    (
        Function::WriteRailbus,
        &[
            [b'I', 0, 0],
            [b'K', 0, 0],
            [b'N', 0, 0],
            [b'R', 0, 0],
            [b'S', 0, 0],
            [b'W', 0, 0],
            [b'n', 0, 0],
        ],
    ),
    (Function::RelayValid, &[[0; 3], [1, 0, 0]]),
    (Function::OfferRailbus, OFFERS),
    // Of every phase; a write that runs with every access byte of its register.
    (
        Function::FinishRailbus,
        &[
            [0; 3],
            [1, 1, 0],
            [1, 1, 1],
            [1, 1, 2],
            [1, 1, 3],
            [2, 0, 0],
            [3, 0, 0],
        ],
    ),
];

/// A run of the tests.
pub struct Session {
    pub random: Random,
    seed: u64,
    inputs: u64,
    total: u64,
    /// Whether a difference ends the test without printing it.
    quiet: bool,
    counts: BTreeMap<(Function, u8), u64>,
    forms: BTreeMap<(Function, Form), u64>,
}

impl Session {
    /// A run as the environment asks for it.
    pub fn from_environment() -> Self {
        let seed = number_from("MOORTINKER_SEED").unwrap_or(SEED);
        let inputs = number_from("MOORTINKER_INPUTS").unwrap_or(INPUTS);
        Session::new(seed, inputs)
    }

    pub fn new(seed: u64, inputs: u64) -> Self {
        Session {
            random: Random::new(seed),
            seed,
            inputs,
            total: 0,
            quiet: false,
            counts: BTreeMap::new(),
            forms: BTreeMap::new(),
        }
    }

    /// A run that is expected to meet a difference.
    pub fn quiet(seed: u64) -> Self {
        let mut session = Session::new(seed, 0);
        session.quiet = true;
        session
    }

    pub fn seed(&self) -> u64 {
        self.seed
    }

    /// How many inputs the run asks for.
    pub fn inputs(&self) -> u64 {
        self.inputs
    }

    /// How many were compared so far.
    pub fn total(&self) -> u64 {
        self.total
    }

    /// Lends a buffer with this content.
    pub fn lend<T: Element>(&mut self, content: &[T]) -> Lent<T> {
        Lent::holding(&mut self.random, content)
    }

    /// Lends a buffer with random content.
    pub fn room<T: Element>(&mut self, length: usize) -> Lent<T> {
        Lent::filled(&mut self.random, length)
    }

    /// Counts an input with the call that was made on it, and ends the test
    /// where the two sides differ.
    pub fn settle(
        &mut self,
        function: Function,
        number: u8,
        compared: Result<(), String>,
        input: impl FnOnce() -> String,
    ) {
        self.go_on(function, number, compared, input);
        self.total += 1;
    }

    /// Counts a further call on an input that was counted, and ends the test
    /// where the two sides differ.
    pub fn go_on(
        &mut self,
        function: Function,
        number: u8,
        compared: Result<(), String>,
        input: impl FnOnce() -> String,
    ) {
        if let Err(difference) = compared {
            let name = FUNCTIONS[function as usize].1;
            let said = format!(
                "{name} differs\n  input: {}\n{difference}\n  seed: {:#X}, input number {}",
                input(),
                self.seed,
                self.total
            );
            match self.quiet {
                true => resume_unwind(Box::new(said)),
                false => panic!("{said}"),
            }
        }
        *self.counts.entry((function, number)).or_default() += 1;
    }

    /// Notes the form of an accepted answer.
    pub fn note(&mut self, function: Function, form: Form) {
        *self.forms.entry((function, form)).or_default() += 1;
    }

    /// Prints the counts per function and number.
    pub fn print(&self) {
        let met: BTreeSet<u8> = self.counts.keys().map(|key| key.1).collect();
        print!("{:24}", "");
        for number in &met {
            print!("{number:>9}");
        }
        println!();
        for &(function, name, _) in FUNCTIONS {
            print!("{name:24}");
            for &number in &met {
                match self.counts.get(&(function, number)) {
                    Some(count) => print!("{count:>9}"),
                    None => print!("{:>9}", "."),
                }
            }
            println!();
        }
        for ((function, form), count) in &self.forms {
            println!("{function:?} {form:?}: {count}");
        }
        println!("seed {:#X}, {} inputs compared", self.seed, self.total);
    }

    /// Every function gave exactly the numbers that it may give, and every form
    /// of answer was met.
    pub fn assert_all_reached(&self) {
        for &(function, name, numbers) in FUNCTIONS {
            let reached = counted_of(&self.counts, function);
            assert_eq!(reached, numbers, "numbers that {name} gave");
        }
        for &(function, forms) in FORMS {
            let met = counted_of(&self.forms, function);
            assert_eq!(met, forms, "forms of answers of {function:?}");
        }
    }
}

/// What was counted of a function, in order.
fn counted_of<T: Copy>(counts: &BTreeMap<(Function, T), u64>, function: Function) -> Vec<T> {
    let of_function = counts.keys().filter(|key| key.0 == function);
    of_function.map(|key| key.1).collect()
}

/// Compares one thing that the two sides of a call left.
pub fn same<T: PartialEq + Debug>(what: &str, archive: &T, second: &T) -> Result<(), String> {
    same_between(["archive", "second"], what, archive, second)
}

/// Compares one thing that two sides left, which are named.
pub fn same_between<T: PartialEq + Debug>(
    sides: [&str; 2],
    what: &str,
    one: &T,
    other: &T,
) -> Result<(), String> {
    if one == other {
        return Ok(());
    }
    let width = 1 + sides[0].len().max(sides[1].len());
    let [first, second] = sides.map(|side| format!("{side}:"));
    Err(format!(
        "  {what} of the {first:width$} {one:?}\n  {what} of the {second:width$} {other:?}"
    ))
}

/// A decimal or 0x number of the environment.
fn number_from(name: &str) -> Option<u64> {
    let text = env::var(name).ok()?;
    let read = match text.strip_prefix("0x") {
        Some(digits) => u64::from_str_radix(digits, 16),
        None => text.parse(),
    };
    match read {
        Ok(number) => Some(number),
        Err(_) => panic!("{name} is {text}: neither a decimal nor a 0x number"),
    }
}
