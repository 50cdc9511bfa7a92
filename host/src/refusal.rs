//! Refusals: a reason, which has a number, and a place.

use std::error::Error;
use std::fmt;

use crate::sys;

/// Declares the reasons, each with its number and what it says in a few words.
macro_rules! reasons {
    (
        $(#[$about:meta])*
        pub enum Reason {
            $($(#[$given:meta])* $reason:ident = $number:literal, $words:literal;)*
        }
    ) => {
        $(#[$about])*
        pub enum Reason {
            $($(#[$given])* $reason = $number,)*
        }

        impl Reason {
            /// All reasons, in the order of their numbers. Not every number is
            /// in use.
            ///
            /// ```
            /// use moortinker::Reason;
            ///
            /// let numbers: Vec<u8> = Reason::ALL.iter().map(|reason| reason.number()).collect();
            /// assert!(numbers.windows(2).all(|pair| pair[0] < pair[1]));
            /// ```
            pub const ALL: &'static [Reason] = &[$(Reason::$reason),*];

            /// The number of this reason.
            pub const fn number(self) -> u8 {
                self as u8
            }

            /// The reason with this number, if there is one.
            pub const fn from_number(number: u8) -> Option<Reason> {
                match number {
                    $($number => Some(Reason::$reason),)*
                    _ => None,
                }
            }

            /// What the reason says, in a few words.
            const fn words(self) -> &'static str {
                match self {
                    $(Reason::$reason => $words,)*
                }
            }
        }
    };
}

reasons! {
    /// Why a call was refused. The discriminant is the number that is handed back.
    ///
    /// ```
    /// use moortinker::Reason;
    ///
    /// assert_eq!(Reason::BusError.number(), 12);
    /// assert_eq!(Reason::from_number(12), Some(Reason::BusError));
    /// assert_eq!(Reason::from_number(0), None);
    /// assert_eq!(Reason::SynEarly.to_string(), "SYN where another byte was due");
    /// ```
    #[derive(Clone, Copy, Debug, PartialEq, Eq, PartialOrd, Ord, Hash)]
    #[repr(u8)]
    #[non_exhaustive]
    pub enum Reason {
        /// A lent output is shorter than stated.
        OutputShort = 1, "the output is too short";
        /// The device table is not valid; in calls on events, or the queues
        /// beside it; of a relay device, the registers or the access bytes.
        TableNotValid = 2, "the table is not valid";
        /// The eBUS run ends too early, or an escape does. The place is the run's
        /// length; for a listener that is closed, the bytes that it used.
        RunEnded = 3, "the run ends too early";
        /// The byte after A9 is none of 00, 01, AA.
        EscapeWrong = 4, "A9 is followed by none of 00, 01, AA";
        /// A raw AA where another byte was due, and no idle time before a command.
        SynEarly = 5, "SYN where another byte was due";
        /// SRC is no initiator address.
        SourceWrong = 6, "the source is no initiator address";
        /// DST is A9 or AA.
        DestinationWrong = 7, "the destination is A9 or AA";
        /// LEN is over 16.
        LengthOver = 8, "the data length is over 16";
        /// A wrong check byte in an accepted attempt.
        CheckWrong = 9, "the check byte is wrong";
        /// The command was NACKed twice.
        CommandNacked = 10, "the command was NACKed twice";
        /// The reply was NACKed twice.
        ReplyNacked = 11, "the reply was NACKed twice";
        /// An acknowledge byte that is none of 00, FF, AA, or not AA where SYN is
        /// due.
        BusError = 12, "bus error";
        /// The length of a Modbus frame or a Railbus packet is wrong, or what it
        /// says of its lengths; a new event has too much data or is for no
        /// device. The place is 0.
        FrameLength = 13, "the frame's length is wrong";
        /// A Modbus frame does not begin FD 46; a packet of events begins with an
        /// id and 46, a Railbus packet with RP.
        FrameHead = 14, "the frame does not begin with its mark";
        /// A subcommand, or a letter of Railbus, that the reader does not take.
        SubcommandWrong = 15, "the subcommand or letter is not one that is taken";
        /// The check of a Modbus frame or of a Railbus packet is wrong.
        FrameCheck = 16, "the frame's check is wrong";
        /// A serial of 2^28 or more.
        SerialOver = 17, "the serial is 2^28 or more";
        /// The event queue of a device is full.
        QueueFull = 18, "the event queue is full";
        /// More than 32 FF stand before an answer. The place is that of the 33rd.
        FillOver = 19, "more than 32 FF stand before the answer";
        /// A character of a Railbus packet that is no upper-case hex digit where
        /// one is due.
        DigitWrong = 26, "no upper-case hex digit where one is due";
    }
}

impl fmt::Display for Reason {
    fn fmt(&self, f: &mut fmt::Formatter<'_>) -> fmt::Result {
        f.write_str(self.words())
    }
}

/// A refusal: why, and the offset of the raw byte that is named, 0 where none
/// is. Whatever was lent to a call that refuses keeps its content.
///
/// W8, an exchange with 55 where it is acknowledged:
///
/// ```
/// use moortinker::{ebus, Reason};
///
/// let run = [0x10, 0x08, 0xB5, 0x11, 0x01, 0x01, 0x89, 0x55, 0x01, 0x2A, 0xB1, 0x00, 0xAA];
/// let refusal = ebus::judge(&run).unwrap_err();
/// assert_eq!(refusal.reason(), Reason::BusError);
/// assert_eq!(refusal.number(), 12);
/// assert_eq!(refusal.place(), 7);
/// assert_eq!(refusal.to_string(), "refused with 12 at 7: bus error");
/// ```
#[derive(Clone, Copy, Debug, PartialEq, Eq, Hash)]
pub struct Refusal {
    reason: Reason,
    place: usize,
}

impl Refusal {
    /// A refusal with this reason at this place, for callers that add readers
    /// of their own.
    ///
    /// ```
    /// use moortinker::{modbus, Reason, Refusal};
    ///
    /// let answer = modbus::read_answer(&[0xFF, 0xFF]);
    /// assert_eq!(answer, Err(Refusal::new(Reason::FrameLength, 0)));
    /// ```
    pub const fn new(reason: Reason, place: usize) -> Refusal {
        Refusal { reason, place }
    }

    /// Why.
    pub const fn reason(self) -> Reason {
        self.reason
    }

    /// The number of the reason.
    pub const fn number(self) -> u8 {
        self.reason.number()
    }

    /// The offset of the raw byte that is named, 0 where none is.
    pub const fn place(self) -> usize {
        self.place
    }

    /// What a number and a place of the archive say: 0 is no refusal.
    ///
    /// # Panics
    ///
    /// If the archive gave a number that its header does not have.
    pub(crate) fn check(number: u8, place: usize) -> Result<(), Refusal> {
        if number == 0 {
            return Ok(());
        }
        let reason = Reason::from_number(number)
            .expect("libmoortinker.a refuses only with the numbers of its header");
        Err(Refusal { reason, place })
    }
}

/// How many bytes a call wrote.
pub(crate) fn length_of(written: sys::Written) -> Result<usize, Refusal> {
    Refusal::check(written.number, written.place)?;
    Ok(written.length)
}

impl fmt::Display for Refusal {
    fn fmt(&self, f: &mut fmt::Formatter<'_>) -> fmt::Result {
        let (number, place) = (self.number(), self.place);
        write!(f, "refused with {number} at {place}: {}", self.reason)
    }
}

impl Error for Refusal {}
