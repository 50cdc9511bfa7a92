//! Room of its own that a call's answer is written into.

use crate::Refusal;

/// The bytes that a call wrote, at the start of room for any answer.
#[derive(Clone, Copy, Debug, PartialEq, Eq, Hash)]
pub(crate) struct Filled<const ROOM: usize> {
    bytes: [u8; ROOM],
    length: usize,
}

impl<const ROOM: usize> Filled<ROOM> {
    /// What a call writes, which gives its length; `None` where it writes nothing.
    pub(crate) fn by(
        call: impl FnOnce(&mut [u8]) -> Result<usize, Refusal>,
    ) -> Result<Option<Self>, Refusal> {
        let mut bytes = [0; ROOM];
        let length = call(&mut bytes)?;
        Ok((length > 0).then_some(Filled { bytes, length }))
    }

    pub(crate) fn bytes(&self) -> &[u8] {
        &self.bytes[..self.length]
    }
}
