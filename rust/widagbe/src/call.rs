//! Calls of C functions. The benchmark takes this file too, for the decoder of an earlier
//! library.

/// Calls a C function: `[list]` stands for a list that is read, `[mut list]` for
/// one that is filled, each handed over with its length.
macro_rules! call {
    { $function:ident($($arguments:tt)*) } => { call! { @ $function () $($arguments)*, } };
    { @ $function:ident ($($done:expr,)*) [mut $list:expr], $($rest:tt)* } => {
        call! { @ $function ($($done,)* $list.as_mut_ptr(), $list.len(),) $($rest)* }
    };
    { @ $function:ident ($($done:expr,)*) [$list:expr], $($rest:tt)* } => {
        call! { @ $function ($($done,)* $list.as_ptr(), $list.len(),) $($rest)* }
    };
    { @ $function:ident ($($done:expr,)*) $number:expr, $($rest:tt)* } => {
        call! { @ $function ($($done,)* $number,) $($rest)* }
    };
    { @ $function:ident ($($done:expr,)*) } => {
        // SAFETY: pointers and lengths are those of slices, and a slice that is
        // filled overlaps no other.
        unsafe { $function($($done),*) }
    };
}

/// Declares the C function that decodes, by its name, and makes a type the decoder that
/// calls it.
macro_rules! decoder {
    ($decoder:ident, $function:ident) => {
        extern "C" {
            fn $function(
                code: *const u8,
                code_len: usize,
                weight: u32,
                ratio: u32,
                limit: u32,
                tolerance: u32,
                costs: *const i16,
                costs_len: usize,
                triples: *mut u16,
                triples_len: usize,
                counts: *mut u16,
                counts_len: usize,
                sums: *mut i64,
                sums_len: usize,
                values: *mut i16,
                values_len: usize,
                rows: *mut i32,
                rows_len: usize,
                word: *mut u8,
                word_len: usize,
            ) -> interface::DecodeAnswer;
        }

        impl interface::Decoder for $decoder {
            fn decode(
                &self,
                code: &[u8],
                settings: interface::Settings,
                costs: &[i16],
                lists: interface::Lists,
            ) -> interface::DecodeAnswer {
                call! { $function(
                    [code],
                    settings.weight, settings.ratio, settings.limit, settings.tolerance,
                    [costs],
                    [mut lists.triples], [mut lists.counts], [mut lists.sums],
                    [mut lists.values], [mut lists.rows], [mut lists.word]
                ) }
            }
        }
    };
}
