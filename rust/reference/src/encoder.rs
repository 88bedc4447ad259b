//! The encoder (document 02, L5): the length of a message, words of messages, and the
//! message of a codeword.

use crate::cause::Cause;
use crate::fault::Fault;
use crate::records::Code;
use crate::reduction::Reduction;
use crate::words::is_binary;
use crate::Reference;
use interface::{LengthAnswer, WordAnswer};

/// The most bits of a code that is encoded.
pub const MOST_ENCODED_BITS: usize = 256;

/// A code with its reduced check matrix.
struct Encoding {
    code: Code,
    reduction: Reduction,
    /// Whether the code has too many bits; known before, but for faults.
    too_long: bool,
}

impl Reference {
    fn encoding(self, code: &[u8]) -> Result<Encoding, Cause> {
        let code = self.read_code(code)?;
        let too_long = code.bits > self.limit(MOST_ENCODED_BITS);
        let late = matches!(self.fault, Some(Fault::Exchanged(Cause::TooLong, _)));
        self.judge(&[(Cause::TooLong, too_long && !late)])?;
        Ok(Encoding {
            reduction: self.reduce(&code),
            code,
            too_long,
        })
    }

    /// The number of message bits.
    fn length_of(self, encoding: &Encoding) -> usize {
        let Encoding {
            code, reduction, ..
        } = encoding;
        match self.fault {
            Some(Fault::RankTold) => reduction.pivots.len(),
            Some(Fault::DependentChecksCounted) => code.bits.saturating_sub(code.checks.len()),
            _ => reduction.others.len(),
        }
    }

    pub(crate) fn length_answer(self, code: &[u8]) -> LengthAnswer {
        match self.encoding(code) {
            Ok(encoding) => LengthAnswer {
                number: 0,
                length: self.length_of(&encoding),
            },
            Err(cause) => LengthAnswer {
                number: cause as u32,
                length: usize::from(self.has(Fault::LengthWithRefusal)),
            },
        }
    }

    /// Puts the message bits in their columns; then each row gives its pivot's bit.
    fn write_word(self, reduction: &Reduction, message: &[u8], word: &mut [u8]) {
        for (&column, &entry) in reduction.others.iter().zip(message) {
            word[column] = entry;
        }
        for (row, &pivot) in reduction.rows.iter().zip(&reduction.pivots) {
            let named = reduction.others.iter().filter(|&&column| row[column]);
            let own = word[pivot] % 2 * u8::from(self.has(Fault::PivotCounted));
            word[pivot] = named.fold(own, |sum, &column| (sum + word[column]) % 2);
        }
    }

    /// Whether a list has as many entries as so many parts of this length.
    fn agrees(self, entries: usize, parts: usize, length: usize) -> bool {
        if self.has(Fault::FramesWrapped) {
            return entries == parts.wrapping_mul(length);
        }
        let refused = self.has(Fault::NoMessageRefused) && length == 0
            || self.has(Fault::NoFramesRefused) && parts == 0;
        parts.checked_mul(length) == Some(entries) && !refused
    }

    /// The messages whose entries are judged.
    fn judged_messages(self, messages: &[u8], length: usize) -> &[u8] {
        if self.has(Fault::FirstMessageJudged) {
            return &messages[..length.min(messages.len())];
        }
        messages
    }

    pub(crate) fn try_encode_frames(
        self,
        code: &[u8],
        frames: usize,
        messages: &[u8],
        words: &mut [u8],
    ) -> Result<(), Cause> {
        let encoding = self.encoding(code)?;
        let Encoding {
            code,
            reduction,
            too_long,
        } = &encoding;
        let length = self.length_of(&encoding);
        let parts = if self.has(Fault::RoomForOneFrame) {
            frames.min(1)
        } else {
            frames
        };
        let needed = parts.checked_mul(code.bits);
        self.judge(&[
            (Cause::TooLong, *too_long),
            (Cause::Lengths, !self.agrees(messages.len(), frames, length)),
            (
                Cause::WordEntry,
                !is_binary(self.judged_messages(messages, length)),
            ),
            (
                Cause::ListTooShort,
                needed.is_none_or(|needed| words.len() < needed),
            ),
        ])?;
        self.clear_rest(words);
        let stride = code.bits - usize::from(self.has(Fault::WordsOverlap));
        for frame in 0..frames {
            let word = &mut words[frame * stride..][..code.bits];
            self.write_word(reduction, &messages[frame * length..][..length], word);
        }
        Ok(())
    }

    pub(crate) fn try_read_message(
        self,
        code: &[u8],
        word: &[u8],
        message: &mut [u8],
    ) -> Result<(), WordAnswer> {
        let encoding = self.encoding(code)?;
        let length = self.length_of(&encoding);
        let short = message.len() < length;
        self.judge_word(&encoding.code, word, short, encoding.too_long)?;
        self.clear_rest(message);
        let columns = if self.has(Fault::PivotsRead) {
            encoding.reduction.pivots
        } else {
            encoding.reduction.others
        };
        for (entry, column) in message.iter_mut().zip(columns).take(length) {
            *entry = word[column];
        }
        Ok(())
    }
}
