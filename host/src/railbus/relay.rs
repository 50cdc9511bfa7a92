//! A relay device that owns its registers, and what its calls give.

use super::packets::text;
use super::{read, Columns, Packet, Remembered, LONG_PACKET, REGISTERS};
use crate::filled::Filled;
use crate::{Reason, Refusal};

/// A relay device: its address, registers, access bytes, and the write that it
/// remembers. Only a valid one can be made, and the calls keep it valid.
///
/// Document 001's first example, with checksums:
///
/// ```
/// use moortinker::railbus::{Relay, READ};
///
/// let mut registers = [0; 256];
/// registers[0] = 0x0015002A;
/// let mut relay = Relay::new(0xFF, registers, [READ; 256])?;
/// let reply = relay.offer(b"RPFFR009E")?.expect("a read is answered");
/// assert_eq!(reply.text(), "RPFFK000015002AF4");
/// # Ok::<(), moortinker::Refusal>(())
/// ```
#[derive(Clone, Debug, PartialEq, Eq, Hash)]
pub struct Relay {
    address: u8,
    registers: Vec<u32>,
    access: Vec<u8>,
    write: Remembered,
}

impl Relay {
    /// The device with this address, these registers and these access bytes, that
    /// remembers no write. Refuses with
    /// [`TableNotValid`](Reason::TableNotValid) where [`Columns::is_valid`] does
    /// not hold.
    ///
    /// ```
    /// use moortinker::railbus::{Relay, READ};
    /// use moortinker::Reason;
    ///
    /// let relay = Relay::new(0x93, [7; 256], [READ; 256])?;
    /// assert_eq!((relay.address(), relay.registers()[0]), (0x93, 7));
    /// let refusal = Relay::new(0x93, [7; 256], [4; 256]).unwrap_err();
    /// assert_eq!(refusal.reason(), Reason::TableNotValid);
    /// # Ok::<(), moortinker::Refusal>(())
    /// ```
    pub fn new(
        address: u8,
        registers: impl Into<Vec<u32>>,
        access: impl Into<Vec<u8>>,
    ) -> Result<Relay, Refusal> {
        let mut relay = Relay {
            address,
            registers: registers.into(),
            access: access.into(),
            write: Remembered::None,
        };
        if !relay.columns().is_valid() {
            return Err(Refusal::new(Reason::TableNotValid, 0));
        }
        Ok(relay)
    }

    /// The device with this address and these access bytes, whose registers all
    /// hold 0, and that remembers no write. Refuses as [`new`](Relay::new) does.
    ///
    /// ```
    /// use moortinker::railbus::{Relay, Remembered, READ_WRITE};
    ///
    /// let relay = Relay::fresh(0x93, [READ_WRITE; 256])?;
    /// assert_eq!(relay.registers(), [0; 256]);
    /// assert_eq!(relay.remembered(), Remembered::None);
    /// # Ok::<(), moortinker::Refusal>(())
    /// ```
    pub fn fresh(address: u8, access: impl Into<Vec<u8>>) -> Result<Relay, Refusal> {
        Relay::new(address, [0; REGISTERS], access)
    }

    /// The address that it answers to.
    pub fn address(&self) -> u8 {
        self.address
    }

    /// Gives the device another address. A write that runs goes on, and its
    /// finish is answered from the new address.
    ///
    /// ```
    /// use moortinker::railbus::{Relay, READ_WRITE};
    ///
    /// let mut relay = Relay::fresh(0x93, [READ_WRITE; 256])?;
    /// relay.offer(b"RP93W00000000109F")?;
    /// relay.set_address(0xFF);
    /// let reply = relay.finish().expect("a write runs");
    /// assert_eq!(reply.packet().address, 0xFF);
    /// # Ok::<(), moortinker::Refusal>(())
    /// ```
    pub fn set_address(&mut self, address: u8) {
        self.address = address;
    }

    /// What the registers hold.
    pub fn registers(&self) -> &[u32] {
        &self.registers
    }

    /// What the registers hold, for a device that changes them itself, such as
    /// one with inputs.
    ///
    /// ```
    /// use moortinker::railbus::{Message, Relay, READ};
    ///
    /// let mut relay = Relay::fresh(0xFF, [READ; 256])?;
    /// relay.registers_mut()[0] = 0x00150000;
    /// let reply = relay.offer(b"RPFFR009E")?.expect("a read is answered");
    /// assert_eq!(reply.packet().message, Message::ReadDone(0x00150000));
    /// # Ok::<(), moortinker::Refusal>(())
    /// ```
    pub fn registers_mut(&mut self) -> &mut [u32] {
        &mut self.registers
    }

    /// The access bytes.
    pub fn access(&self) -> &[u8] {
        &self.access
    }

    /// The write that it remembers.
    pub fn remembered(&self) -> Remembered {
        self.write
    }

    /// The columns, lent.
    fn columns(&mut self) -> Columns<'_> {
        Columns {
            address: self.address,
            registers: &mut self.registers,
            access: &self.access,
            write: &mut self.write,
        }
    }

    /// A packet offered to the device, as [`Columns::offer`] describes it.
    /// `Ok(None)` is no answer. Refuses as [`read`] does, and then nothing has
    /// changed.
    ///
    /// ```
    /// use moortinker::railbus::{Message, Relay, Status, READ_WRITE};
    /// use moortinker::Reason;
    ///
    /// let mut relay = Relay::fresh(0x93, [READ_WRITE; 256])?;
    /// let mut status = |packet: &[u8]| {
    ///     let reply = relay.offer(packet)?.expect("it is for this device");
    ///     Ok::<_, moortinker::Refusal>(reply.packet().message)
    /// };
    /// let first = b"RP93W00000000109F";
    /// let other = b"RP93W0100000010A2";
    /// assert_eq!(status(first)?, Message::Status(Status::RECEIVED));
    /// assert_eq!(status(first)?, Message::Status(Status::RETRANSMISSION));
    /// assert_eq!(status(other)?, Message::Status(Status::BUSY));
    /// assert_eq!(relay.offer(b"RPFFR009E"), Ok(None));
    /// let refusal = relay.offer(b"RP93W0000000010").unwrap_err();
    /// assert_eq!(refusal.reason(), Reason::FrameLength);
    /// # Ok::<(), moortinker::Refusal>(())
    /// ```
    pub fn offer(&mut self, packet: &[u8]) -> Result<Option<Reply>, Refusal> {
        let mut columns = self.columns();
        let filled = Filled::by(|answer| columns.offer(packet, answer))?;
        Ok(filled.map(Reply))
    }

    /// The write that runs has finished: its register takes its data. `None`
    /// where no write runs.
    ///
    /// ```
    /// use moortinker::railbus::{Relay, READ_WRITE};
    ///
    /// let mut relay = Relay::fresh(0x93, [READ_WRITE; 256])?;
    /// relay.offer(b"RP93W0100000010A2")?;
    /// let reply = relay.finish().expect("a write runs");
    /// assert_eq!(reply.text(), "RP93I0100000010D3");
    /// assert_eq!(relay.registers()[1], 0x10);
    /// assert_eq!(relay.finish(), None);
    /// # Ok::<(), moortinker::Refusal>(())
    /// ```
    pub fn finish(&mut self) -> Option<Reply> {
        let mut columns = self.columns();
        let filled = Filled::by(|answer| columns.finish(answer))
            .expect("a valid device with room for its answer is not refused");
        filled.map(Reply)
    }
}

/// What a relay device sends: one packet.
///
/// ```
/// use moortinker::railbus::{Message, Packet, Relay, ABSENT};
///
/// let mut relay = Relay::fresh(0xFF, [ABSENT; 256])?;
/// let reply = relay.offer(b"RPFFR009E")?.expect("a read is answered");
/// assert_eq!(reply.bytes(), b"RPFFN009C");
/// assert_eq!(reply.text(), "RPFFN009C");
/// let absent = Packet { address: 0xFF, register: 0, message: Message::Absent };
/// assert_eq!(reply.packet(), absent);
/// # Ok::<(), moortinker::Refusal>(())
/// ```
#[derive(Clone, Copy, Debug, PartialEq, Eq, Hash)]
pub struct Reply(Filled<LONG_PACKET>);

impl Reply {
    /// The characters.
    pub fn bytes(&self) -> &[u8] {
        self.0.bytes()
    }

    /// The characters, as text.
    pub fn text(&self) -> &str {
        text(self.bytes())
    }

    /// The packet that they are.
    pub fn packet(&self) -> Packet {
        let heard = read(self.bytes()).expect("what a device sends can be read");
        heard.packet
    }
}

impl AsRef<[u8]> for Reply {
    fn as_ref(&self) -> &[u8] {
        self.bytes()
    }
}
