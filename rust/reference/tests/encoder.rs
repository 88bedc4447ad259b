//! The encoder: small codes by hand, all messages against all words, pivots by their
//! definition, and every cause in its order.

mod common;

use common::*;
use reference::records::Code;

/// The Hamming code of 7 bits.
fn hamming() -> Vec<u8> {
    code(7, &[&[0, 1, 2, 4], &[0, 1, 3, 5], &[0, 2, 3, 6]])
}

/// Two checks whose sum is bit 3 alone: the pivots are 0 and 3.
fn last_bit_fixed() -> Vec<u8> {
    code(4, &[&[0, 1, 2], &[0, 1, 2, 3]])
}

/// Every three of four bits: the word of zeros is the only codeword.
fn only_zeros() -> Vec<u8> {
    code(4, &[&[0, 1, 2], &[0, 1, 3], &[0, 2, 3], &[1, 2, 3]])
}

/// A check, the same again, another, and the sum of both.
fn dependent() -> Vec<u8> {
    let checks: [&[usize]; 4] = [&[0, 1, 2], &[0, 1, 2], &[2, 3, 4], &[0, 1, 3, 4]];
    code(5, &checks)
}

fn small_codes() -> Vec<Vec<u8>> {
    let all_three: &[usize] = &[0, 1, 2];
    vec![
        small(),
        one_check(5),
        hamming(),
        last_bit_fixed(),
        only_zeros(),
        dependent(),
        code(3, &[all_three; 5]),
        code(6, &[&[3, 4, 5], &[0, 4, 5], &[1, 2, 3]]),
        code(8, &[&[5, 6, 7], &[0, 1, 5, 6], &[2, 3, 4], &[0, 1, 7]]),
        code(9, &[&[6, 7, 8], &[3, 4, 5, 6, 7, 8], &[0, 1, 2, 3, 4, 5]]),
    ]
}

fn length(code: &[u8]) -> usize {
    let answer = SOUND.message_length(code);
    assert_eq!(answer.number, 0);
    answer.length
}

fn encoded(code: &[u8], message: &[u8]) -> Vec<u8> {
    let mut word = vec![77; SOUND.read(code).bits];
    assert_eq!(SOUND.encode(code, message, &mut word), 0);
    word
}

/// All lists of so many entries 0 and 1.
fn all(length: usize) -> Vec<Vec<u8>> {
    let entry = |number: usize, place: usize| (number >> place & 1) as u8;
    (0..1 << length)
        .map(|number| (0..length).map(|place| entry(number, place)).collect())
        .collect()
}

#[test]
fn words_by_hand() {
    assert_eq!(length(&small()), 2);
    assert_eq!(encoded(&small(), &[1, 0]), [1, 1, 0]);
    assert_eq!(encoded(&small(), &[1, 1]), [0, 1, 1]);
    // Bits 0, 1 and 2 are pivots; 3 to 6 are the message.
    assert_eq!(length(&hamming()), 4);
    assert_eq!(encoded(&hamming(), &[1, 0, 0, 0]), [0, 1, 1, 1, 0, 0, 0]);
    assert_eq!(encoded(&hamming(), &[1, 0, 0, 1]), [1, 0, 1, 1, 0, 0, 1]);
    assert_eq!(length(&last_bit_fixed()), 2);
    assert_eq!(encoded(&last_bit_fixed(), &[1, 0]), [1, 1, 0, 0]);
    assert_eq!(encoded(&last_bit_fixed(), &[1, 1]), [0, 1, 1, 0]);
    assert_eq!(length(&only_zeros()), 0);
    assert_eq!(encoded(&only_zeros(), &[]), [0; 4]);
    assert_eq!(length(&dependent()), 3);
    assert_eq!(encoded(&dependent(), &[1, 1, 0]), [0, 1, 1, 1, 0]);
}

#[test]
fn the_words_of_all_messages_are_all_codewords() {
    for code in small_codes() {
        let mut words: Vec<Vec<u8>> = Vec::new();
        for message in all(length(&code)) {
            let word = encoded(&code, &message);
            let mut again = vec![77; message.len()];
            assert_eq!(SOUND.read_message(&code, &word, &mut again).number, 0);
            assert_eq!(again, message);
            words.push(word);
        }
        let mut codewords = all(SOUND.read(&code).bits);
        codewords.retain(|word| SOUND.test(&code, word).number == 0);
        words.sort();
        codewords.sort();
        assert_eq!(words, codewords);
    }
}

#[test]
fn sums_of_messages_have_the_sums_of_their_words() {
    let sum = |one: &[u8], other: &[u8]| -> Vec<u8> {
        let pairs = one.iter().zip(other);
        pairs.map(|(one, other)| one ^ other).collect()
    };
    for code in small_codes() {
        let messages = all(length(&code));
        for one in &messages {
            for other in &messages {
                let [first, second] = [one, other].map(|message| encoded(&code, message));
                let both = sum(&first, &second);
                assert_eq!(encoded(&code, &sum(one, other)), both);
            }
        }
    }
}

/// Whether a column of the check matrix is a sum of some of the columns before it.
fn depends(code: &Code, column: usize) -> bool {
    all(column).into_iter().any(|mut taken| {
        taken.push(1);
        taken.resize(code.bits, 0);
        SOUND.first_odd_check(code, &taken).is_none()
    })
}

#[test]
fn pivots_are_the_columns_that_depend_on_none_before() {
    for bytes in small_codes() {
        let code = SOUND.read_code(&bytes).expect("a sound code");
        let reduction = SOUND.reduce(&code);
        let (others, pivots): (Vec<usize>, Vec<usize>) =
            (0..code.bits).partition(|&column| depends(&code, column));
        assert_eq!(reduction.pivots, pivots);
        assert_eq!(reduction.others, others);
    }
}

#[test]
fn frames_stand_one_behind_the_other() {
    let code = last_bit_fixed();
    let mut words = [77; 10];
    let messages = [1, 0, 1, 1];
    assert_eq!(SOUND.encode_frames(&code, 2, &messages, &mut words), 0);
    assert_eq!(words, [1, 1, 0, 0, 0, 1, 1, 0, 77, 77]);
    let mut words = [77; 2];
    assert_eq!(SOUND.encode_frames(&code, 0, &[], &mut words), 0);
    assert_eq!(words, [77; 2]);
    let mut words = [77; 9];
    assert_eq!(SOUND.encode_frames(&only_zeros(), 2, &[], &mut words), 0);
    assert_eq!(words, [0, 0, 0, 0, 0, 0, 0, 0, 77]);
}

/// Checks of three neighbours each, over so many bits.
fn long(bits: usize) -> Vec<u8> {
    let checks: Vec<Vec<usize>> = (2..bits).map(|bit| vec![bit - 2, bit - 1, bit]).collect();
    let checks: Vec<&[usize]> = checks.iter().map(Vec::as_slice).collect();
    code(bits, &checks)
}

#[test]
fn codes_of_up_to_256_bits() {
    let refused = LengthAnswer {
        number: 20,
        length: 0,
    };
    assert_eq!(length(&long(256)), 2);
    assert_eq!(SOUND.message_length(&long(257)), refused);
    let mut unused = long(256);
    unused[2..4].copy_from_slice(&two(257));
    assert_eq!(SOUND.message_length(&unused).number, 8);
}

#[test]
fn the_encoder_in_order() {
    let mut word = [77; 4];
    let mut number = |code: &[u8], message: &[u8]| SOUND.encode(code, message, &mut word);
    assert_eq!(number(&long(257)[..9], &[2]), 1);
    assert_eq!(number(&long(257), &[2]), 20);
    assert_eq!(number(&hamming(), &[2; 5]), 12);
    assert_eq!(number(&hamming(), &[2, 0, 0]), 12);
    assert_eq!(number(&hamming(), &[0, 0, 0, 2]), 15);
    assert_eq!(number(&hamming(), &[0, 0, 0, 255]), 15);
    assert_eq!(number(&hamming(), &[0, 0, 0, 1]), 10);
    assert_eq!(number(&only_zeros(), &[0]), 12);
    assert_eq!(word, [77; 4]);
}

#[test]
fn frames_in_order() {
    let mut words = [77; 13];
    let mut number = |code: &[u8], frames, messages: &[u8]| {
        SOUND.encode_frames(code, frames, messages, &mut words)
    };
    assert_eq!(number(&long(257), 2, &[2]), 20);
    assert_eq!(number(&hamming(), 2, &[2; 7]), 12);
    assert_eq!(number(&hamming(), 1, &[2; 8]), 12);
    assert_eq!(number(&hamming(), 0, &[0; 4]), 12);
    assert_eq!(number(&hamming(), usize::MAX, &[]), 12);
    assert_eq!(number(&hamming(), 1 << (usize::BITS - 2), &[]), 12);
    assert_eq!(number(&hamming(), 2, &[0, 0, 0, 0, 0, 0, 0, 2]), 15);
    assert_eq!(number(&hamming(), 2, &[1; 8]), 10);
    assert_eq!(number(&only_zeros(), usize::MAX, &[]), 10);
    assert_eq!(number(&only_zeros(), 1 << (usize::BITS - 2), &[]), 10);
    assert_eq!(number(&only_zeros(), 4, &[]), 10);
    assert_eq!(words, [77; 13]);
}

#[test]
fn the_reader_of_messages_in_order() {
    let answer = |number, place| WordAnswer { number, place };
    let mut short = [77; 3];
    let mut read = |code: &[u8], word: &[u8]| SOUND.read_message(code, word, &mut short);
    assert_eq!(read(&long(257), &[2]), answer(20, 0));
    assert_eq!(read(&hamming(), &[2; 6]), answer(12, 0));
    assert_eq!(read(&hamming(), &[2; 7]), answer(15, 0));
    assert_eq!(read(&hamming(), &[0, 0, 0, 0, 0, 1, 0]), answer(10, 0));
    assert_eq!(short, [77; 3]);
    let mut message = [77; 5];
    let odd = SOUND.read_message(&hamming(), &[0, 0, 0, 0, 0, 1, 0], &mut message);
    assert_eq!((odd, message), (answer(17, 1), [77; 5]));
    let read = SOUND.read_message(&hamming(), &[1, 0, 1, 1, 0, 0, 1], &mut message);
    assert_eq!((read, message), (answer(0, 0), [1, 0, 0, 1, 77]));
}
