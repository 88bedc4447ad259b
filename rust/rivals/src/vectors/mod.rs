//! The rival of import and export: a text is read once, into vectors; columns
//! become rows by counting.

mod export;
mod import;
mod numbers;
mod side;
mod writer;

use crate::plain::Refused;
use interface::{Alist, BytesAnswer};

pub struct Vectors;

fn answer(result: Refused<usize>) -> BytesAnswer {
    match result {
        Ok(bytes) => BytesAnswer { number: 0, bytes },
        Err(number) => BytesAnswer { number, bytes: 0 },
    }
}

impl Alist for Vectors {
    fn import(&self, text: &[u8], code: &mut [u8]) -> BytesAnswer {
        answer(import::import(text, code))
    }

    fn export(&self, code: &[u8], text: &mut [u8]) -> BytesAnswer {
        answer(export::export(code, text))
    }

    fn export_size(&self, code: &[u8]) -> BytesAnswer {
        answer(export::size(code))
    }
}
