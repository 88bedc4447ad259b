//! The C functions of the compiled library, but for the decoder's, which `decoder!`
//! declares. A list is a pointer and a length.

use interface::{BytesAnswer, CodeAnswer, GroupAnswer, LengthAnswer, WordAnswer};

extern "C" {
    pub fn widagbe_read(code: *const u8, code_len: usize) -> CodeAnswer;

    pub fn widagbe_split(
        code: *const u8,
        code_len: usize,
        triples: *mut u16,
        triples_len: usize,
        counts: *mut u16,
        counts_len: usize,
    ) -> u32;

    pub fn widagbe_channel_gaussian(
        scale: f32,
        samples: *const f32,
        samples_len: usize,
        costs: *mut i16,
        costs_len: usize,
    ) -> u32;

    pub fn widagbe_channel_hard(
        weight: f32,
        samples: *const f32,
        samples_len: usize,
        costs: *mut i16,
        costs_len: usize,
    ) -> u32;

    pub fn widagbe_channel_erasing(
        floor: f32,
        weight: f32,
        samples: *const f32,
        samples_len: usize,
        costs: *mut i16,
        costs_len: usize,
    ) -> u32;

    pub fn widagbe_reflect(
        costs: *const i16,
        costs_len: usize,
        word: *const u8,
        word_len: usize,
        result: *mut i16,
        result_len: usize,
    ) -> u32;

    pub fn widagbe_test(
        code: *const u8,
        code_len: usize,
        word: *const u8,
        word_len: usize,
    ) -> WordAnswer;

    pub fn widagbe_extend(
        code: *const u8,
        code_len: usize,
        word: *const u8,
        word_len: usize,
        point: *mut u8,
        point_len: usize,
    ) -> WordAnswer;

    pub fn widagbe_add_words(
        word: *const u8,
        word_len: usize,
        other: *const u8,
        other_len: usize,
        sum: *mut u8,
        sum_len: usize,
    ) -> u32;

    pub fn widagbe_import(
        text: *const u8,
        text_len: usize,
        code: *mut u8,
        code_len: usize,
    ) -> BytesAnswer;

    pub fn widagbe_export(
        code: *const u8,
        code_len: usize,
        text: *mut u8,
        text_len: usize,
    ) -> BytesAnswer;

    pub fn widagbe_export_size(code: *const u8, code_len: usize) -> BytesAnswer;

    pub fn widagbe_message_length(code: *const u8, code_len: usize) -> LengthAnswer;

    pub fn widagbe_encode(
        code: *const u8,
        code_len: usize,
        message: *const u8,
        message_len: usize,
        word: *mut u8,
        word_len: usize,
    ) -> u32;

    pub fn widagbe_encode_frames(
        code: *const u8,
        code_len: usize,
        frames: usize,
        messages: *const u8,
        messages_len: usize,
        words: *mut u8,
        words_len: usize,
    ) -> u32;

    pub fn widagbe_read_message(
        code: *const u8,
        code_len: usize,
        word: *const u8,
        word_len: usize,
        message: *mut u8,
        message_len: usize,
    ) -> WordAnswer;

    pub fn widagbe_decode_group(
        code: *const u8,
        code_len: usize,
        weight: u32,
        ratio: u32,
        limit: u32,
        tolerance: u32,
        frames: usize,
        costs: *const i16,
        costs_len: usize,
        triples: *mut u16,
        triples_len: usize,
        counts: *mut u16,
        counts_len: usize,
        sums: *mut i64,
        sums_len: usize,
        values: *mut i16,
        values_len: usize,
        rows: *mut i32,
        rows_len: usize,
        word: *mut u8,
        word_len: usize,
        work: *mut i32,
        work_len: usize,
    ) -> GroupAnswer;
}
