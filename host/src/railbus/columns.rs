//! A relay device as lent columns, and the calls on it that allocate nothing.

use crate::{call, sys, Refusal};

/// The write that a relay device remembers. It is kept beyond its finish, so that
/// a copy that comes late is told from a new write.
///
/// ```
/// use moortinker::railbus::{Relay, Remembered, READ_WRITE};
///
/// let mut relay = Relay::fresh(0x93, [READ_WRITE; 256])?;
/// assert_eq!(relay.remembered(), Remembered::None);
/// relay.offer(b"RP93W00000000109F")?;
/// assert_eq!(relay.remembered(), Remembered::Running { register: 0, data: 0x10 });
/// relay.finish();
/// assert_eq!(relay.remembered(), Remembered::Finished { register: 0, data: 0x10 });
/// # Ok::<(), moortinker::Refusal>(())
/// ```
#[derive(Clone, Copy, Debug, Default, PartialEq, Eq, Hash)]
pub enum Remembered {
    /// None: as of a fresh device.
    #[default]
    None,
    /// One that was received and runs.
    Running {
        /// Its register.
        register: u8,
        /// What is to be written.
        data: u32,
    },
    /// One that has finished.
    Finished {
        /// Its register.
        register: u8,
        /// What was written.
        data: u32,
    },
}

impl Remembered {
    pub(crate) fn for_archive(self) -> sys::Remembered {
        let (phase, reg, data) = match self {
            Remembered::None => (sys::MOOR_IDLE, 0, 0),
            Remembered::Running { register, data } => (sys::MOOR_RUNNING, register, data),
            Remembered::Finished { register, data } => (sys::MOOR_FINISHED, register, data),
        };
        sys::Remembered { phase, reg, data }
    }

    fn of_archive(write: sys::Remembered) -> Remembered {
        let (register, data) = (write.reg, write.data);
        match write.phase {
            sys::MOOR_IDLE => Remembered::None,
            sys::MOOR_RUNNING => Remembered::Running { register, data },
            sys::MOOR_FINISHED => Remembered::Finished { register, data },
            _ => unreachable!("libmoortinker.a hands back one of three phases"),
        }
    }
}

/// A relay device as lent columns, valid or not.
///
/// ```
/// use moortinker::railbus::{Columns, Remembered, LONG_PACKET, READ};
/// use moortinker::Reason;
///
/// let mut access = [READ; 256];
/// access[0] = 4;
/// let mut relay = Columns {
///     address: 0xFF,
///     registers: &mut [0; 256],
///     access: &access,
///     write: &mut Remembered::None,
/// };
/// assert!(!relay.is_valid());
/// let refusal = relay.offer(b"RPFFR009E", &mut [0; LONG_PACKET]).unwrap_err();
/// assert_eq!(refusal.reason(), Reason::TableNotValid);
/// ```
#[derive(Debug)]
pub struct Columns<'a> {
    /// The address of the device.
    pub address: u8,
    /// What its registers hold.
    pub registers: &'a mut [u32],
    /// For each register [`ABSENT`](super::ABSENT), [`READ`](super::READ),
    /// [`WRITE`](super::WRITE) or [`READ_WRITE`](super::READ_WRITE).
    pub access: &'a [u8],
    /// The write that it remembers.
    pub write: &'a mut Remembered,
}

impl Columns<'_> {
    /// Whether there are 256 registers and as many access bytes, and these are 0
    /// to 3.
    ///
    /// ```
    /// use moortinker::railbus::{Columns, Remembered, READ_WRITE};
    ///
    /// let mut relay = Columns {
    ///     address: 0x93,
    ///     registers: &mut [0; 256],
    ///     access: &[READ_WRITE; 256],
    ///     write: &mut Remembered::None,
    /// };
    /// assert!(relay.is_valid());
    /// relay.access = &relay.access[1..];
    /// assert!(!relay.is_valid());
    /// ```
    pub fn is_valid(&self) -> bool {
        call::relay_valid(self.registers, self.access)
    }

    /// A packet offered to the device. Gives how many characters of its answer
    /// stand at the start of the buffer; 0 is no answer.
    ///
    /// A packet for another address, and answers of devices, get none. Reading
    /// or writing a register that is absent is answered with `N`, and where its
    /// access byte forbids it with `n`, before all else. A read is answered with
    /// what the register holds. A write is answered with `n`. A copy of the write
    /// that runs, with the same register and the same data, gets
    /// [`RETRANSMISSION`](super::Status::RETRANSMISSION), and a copy of the one
    /// that has finished [`DONE_BEFORE`](super::Status::DONE_BEFORE); any other
    /// gets [`BUSY`](super::Status::BUSY) while one runs, and else
    /// [`RECEIVED`](super::Status::RECEIVED), and from then on it is the one that
    /// runs. `S` is answered with `n`: [`BUSY`](super::Status::BUSY) while a write
    /// runs, else [`SYNCED`](super::Status::SYNCED), and a finished one is
    /// forgotten. No register changes.
    ///
    /// Refuses with [`OutputShort`](crate::Reason::OutputShort) where the answer
    /// buffer is under [`LONG_PACKET`](super::LONG_PACKET) bytes, then with
    /// [`TableNotValid`](crate::Reason::TableNotValid), then as
    /// [`read`](super::read) does.
    ///
    /// ```
    /// use moortinker::railbus::{Columns, Remembered, LONG_PACKET, READ_WRITE};
    /// use moortinker::Reason;
    ///
    /// let mut relay = Columns {
    ///     address: 0x93,
    ///     registers: &mut [0; 256],
    ///     access: &[READ_WRITE; 256],
    ///     write: &mut Remembered::None,
    /// };
    /// let mut answer = [0; LONG_PACKET];
    /// assert_eq!(relay.offer(b"RP93W00000000109F", &mut answer), Ok(17));
    /// assert_eq!(&answer, b"RP93n0000000001A5");
    /// assert_eq!(*relay.write, Remembered::Running { register: 0, data: 0x10 });
    /// assert_eq!(relay.offer(b"RPFFR009E", &mut answer), Ok(0));
    /// let refusal = relay.offer(b"RP93R00", &mut answer).unwrap_err();
    /// assert_eq!(refusal.reason(), Reason::FrameLength);
    /// ```
    pub fn offer(&mut self, packet: &[u8], answer: &mut [u8]) -> Result<usize, Refusal> {
        let relayed = call::offer_railbus(self, packet, answer);
        self.after(relayed)
    }

    /// The write that runs has finished: its register takes its data, whatever
    /// the access byte says by now, and the answer is an `I`. Gives how many
    /// characters of it stand at the start of the buffer; where no write runs
    /// that is 0, and nothing changes.
    ///
    /// Refuses with [`OutputShort`](crate::Reason::OutputShort) where the answer
    /// buffer is under [`LONG_PACKET`](super::LONG_PACKET) bytes, then with
    /// [`TableNotValid`](crate::Reason::TableNotValid).
    ///
    /// ```
    /// use moortinker::railbus::{Columns, Remembered, LONG_PACKET, READ_WRITE};
    ///
    /// let mut relay = Columns {
    ///     address: 0x93,
    ///     registers: &mut [0; 256],
    ///     access: &[READ_WRITE; 256],
    ///     write: &mut Remembered::Running { register: 0, data: 0x10 },
    /// };
    /// let mut answer = [0; LONG_PACKET];
    /// assert_eq!(relay.finish(&mut answer), Ok(17));
    /// assert_eq!(&answer, b"RP93I0000000010EE");
    /// assert_eq!(relay.registers[0], 0x10);
    /// assert_eq!(relay.finish(&mut answer), Ok(0));
    /// ```
    pub fn finish(&mut self, answer: &mut [u8]) -> Result<usize, Refusal> {
        let relayed = call::finish_railbus(self, answer);
        self.after(relayed)
    }

    /// Keeps what the device remembers after a call, which on a refusal is what
    /// it did before, and gives the length of its answer.
    fn after(&mut self, relayed: sys::Relayed) -> Result<usize, Refusal> {
        *self.write = Remembered::of_archive(relayed.write);
        Refusal::check(relayed.number, relayed.place)?;
        Ok(relayed.length)
    }
}
