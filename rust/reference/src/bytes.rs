//! Bytes that a call writes, and how many it tells.

use crate::cause::Cause;
use crate::fault::Fault;
use crate::Reference;
use interface::BytesAnswer;

impl Reference {
    /// Whether room is too short for so many bytes.
    pub(crate) fn is_short(self, room: usize, needed: usize) -> bool {
        room < needed + usize::from(self.has(Fault::OneByteMoreNeeded))
    }

    /// Writes bytes to the front of a list unless something is against it; entries
    /// beyond those used stay. Hands back how many there are.
    pub(crate) fn write_bytes(
        self,
        judged: Result<(), Cause>,
        bytes: impl Fn() -> Vec<u8>,
        list: &mut [u8],
    ) -> Result<usize, Cause> {
        if judged == Err(Cause::ListTooShort) && self.has(Fault::WrittenAsFarAsRoom) {
            list.copy_from_slice(&bytes()[..list.len()]);
        }
        judged?;
        self.clear_rest(list);
        let bytes = bytes();
        list[..bytes.len()].copy_from_slice(&bytes);
        Ok(bytes.len())
    }

    /// The number of bytes, or the cause alone.
    pub(crate) fn bytes_answer(self, result: Result<usize, Cause>) -> BytesAnswer {
        match result {
            Ok(bytes) => BytesAnswer {
                number: 0,
                bytes: bytes - usize::from(self.has(Fault::BytesToldShort)),
            },
            Err(cause) => BytesAnswer {
                number: cause as u32,
                bytes: usize::from(self.has(Fault::BytesWithRefusal)),
            },
        }
    }
}
