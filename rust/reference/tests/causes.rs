//! The table of causes: each number from each entry that can meet it, and
//! everything left as it was.

mod common;

use common::*;

/// Damaged records and the number that they get.
fn damaged() -> Vec<(Vec<u8>, u32)> {
    let many: Vec<&[usize]> = vec![&[0, 1, 2, 3, 4, 5, 6]; 1_639];
    let mut after = small();
    after.push(0);
    vec![
        (vec![], 1),
        (vec![0x4C], 1),
        (vec![0x00], 1),
        (vec![0x4C, 0x48, 0, 3, 0], 1),
        (header(3, 1), 1),
        (small()[..14].to_vec(), 1),
        (vec![0x4C, 0x43], 2),
        ([header(3, 1), header(3, 1)].concat(), 2),
        (header(2, 1), 3),
        (header(4_097, 1), 3),
        (header(3, 0), 3),
        (header(3, 2_049), 3),
        (vec![0x4C, 0x48, 0, 2, 0], 3),
        (code(3, &[&[]]), 4),
        (code(3, &[&[0]]), 4),
        ([header(3, 1), vec![0x4C, 0x43, 33]].concat(), 4),
        (code(3, &[&[0, 1, 3]]), 5),
        (code(3, &[&[0, 3]]), 5),
        (code(3, &[&[0, 1, 1]]), 6),
        (code(3, &[&[1, 1]]), 6),
        (code(3, &[&[1, 0, 2]]), 6),
        (code(7, &many), 7),
        (code(4, &[&[0, 1, 2]]), 8),
        (code(3, &[&[0, 1]]), 8),
        (after, 9),
    ]
}

#[test]
fn records_from_every_entry() {
    for (bytes, number) in damaged() {
        let refused = CodeAnswer {
            number,
            ..CodeAnswer::default()
        };
        assert_eq!(SOUND.read(&bytes), refused);
        let (mut triples, mut counts) = ([77; 9], [77; 9]);
        assert_eq!(SOUND.split(&bytes, &mut triples, &mut counts), number);
        assert_eq!((triples, counts), ([77; 9], [77; 9]));
        let mut lent = lists(3, 3, 1);
        assert_eq!(
            SOUND.decode(&bytes, Settings::new(0, 0, 0, 0), &[], lent.lend()),
            refusal(number)
        );
        assert_eq!(lent, lists(3, 3, 1));
        let (settings, mut work) = (Settings::new(0, 0, 0, 0), [77; 76]);
        assert_eq!(
            SOUND.decode_group(&bytes, settings, 0, &[], lent.lend(), &mut work),
            GroupAnswer {
                number,
                ..GroupAnswer::default()
            }
        );
        assert_eq!((lent, work), (lists(3, 3, 1), [77; 76]));
        let mut point = [77; 3];
        let answer = WordAnswer { number, place: 0 };
        assert_eq!(SOUND.test(&bytes, &[2; 3]), answer);
        assert_eq!(SOUND.extend(&bytes, &[2; 3], &mut point), answer);
        assert_eq!(SOUND.read_message(&bytes, &[2; 3], &mut point), answer);
        assert_eq!(SOUND.encode(&bytes, &[2; 3], &mut point), number);
        assert_eq!(SOUND.encode_frames(&bytes, 2, &[2], &mut point), number);
        assert_eq!(point, [77; 3]);
        let refused = LengthAnswer { number, length: 0 };
        assert_eq!(SOUND.message_length(&bytes), refused);
    }
}

#[test]
fn nine_before_seven_before_eight() {
    let many: Vec<&[usize]> = vec![&[0, 1, 2, 3, 4, 5, 6]; 1_639];
    let mut bytes = code(8, &many);
    assert_eq!(SOUND.read(&bytes).number, 7);
    bytes.push(0x4C);
    assert_eq!(SOUND.read(&bytes).number, 9);
}

#[test]
fn the_decoder_in_order() {
    let mut exact = lists(3, 3, 1);
    let good = Settings::new(1, 0, 1, 0);
    let bad = Settings::new(0, 0, 1, 0);
    let mut short = exact.clone();
    short.word.pop();
    let untouched = short.clone();
    let mut number = |settings, costs: &[i16]| decode_into(&mut short, settings, costs).number;
    assert_eq!(number(bad, &[i16::MIN; 2]), 11);
    assert_eq!(number(good, &[i16::MIN; 2]), 12);
    assert_eq!(number(good, &[0, 0, i16::MIN]), 13);
    assert_eq!(number(good, &[0; 3]), 10);
    assert_eq!(short, untouched);
    assert_eq!(decode_into(&mut exact, good, &[0; 3]).number, 16);
}

#[test]
fn each_short_list_of_the_decoder() {
    let shorten: [fn(&mut OwnLists); 6] = [
        |lent| lent.triples.truncate(2),
        |lent| lent.counts.truncate(2),
        |lent| lent.sums.truncate(2),
        |lent| lent.values.truncate(2),
        |lent| lent.rows.truncate(3),
        |lent| lent.word.truncate(2),
    ];
    for shorten in shorten {
        let mut lent = lists(3, 3, 1);
        shorten(&mut lent);
        let before = lent.clone();
        let answer = decode_into(&mut lent, Settings::new(256, 0, 2, 0), &[20_000; 3]);
        assert_eq!(answer, refusal(10));
        assert_eq!(lent, before);
    }
}

#[test]
fn longer_lists_keep_their_rest() {
    let mut lent = lists(5, 6, 3);
    let answer = decode_into(&mut lent, Settings::new(256, 0, 2, 0), &[20_000; 3]);
    assert_eq!(answer.number, 0);
    assert_eq!(lent.triples, [0, 1, 2, 77, 77, 77, 77, 77, 77]);
    assert_eq!(lent.counts, [1, 1, 1, 77, 77, 77]);
    assert_eq!(lent.sums[3..], [77; 3]);
    assert_eq!(lent.values[3..], [77; 3]);
    assert_eq!(lent.rows[4..], [77; 8]);
    assert_eq!(lent.word, [0, 0, 0, 77, 77]);
}

#[test]
fn the_splitter_needs_its_room() {
    let four = one_check(4);
    assert_eq!(SOUND.split(&four, &mut [0; 5], &mut [0; 5]), 10);
    assert_eq!(SOUND.split(&four, &mut [0; 6], &mut [0; 4]), 10);
    assert_eq!(SOUND.split(&four, &mut [0; 6], &mut [0; 5]), 0);
}

#[test]
fn the_word_entries() {
    let answer = |number, place| WordAnswer { number, place };
    assert_eq!(SOUND.test(&small(), &[2, 0]), answer(12, 0));
    assert_eq!(SOUND.test(&small(), &[0, 0, 0, 0]), answer(12, 0));
    assert_eq!(SOUND.test(&small(), &[1, 0, 2]), answer(15, 0));
    assert_eq!(SOUND.test(&small(), &[1, 0, 0]), answer(17, 0));
    assert_eq!(SOUND.test(&small(), &[1, 0, 1]), answer(0, 0));
    let two_checks = code(4, &[&[0, 1, 2], &[1, 2, 3]]);
    assert_eq!(SOUND.test(&two_checks, &[0, 0, 0, 1]), answer(17, 1));
}

#[test]
fn the_extension_in_order() {
    let four = one_check(4);
    let mut short = [77; 4];
    let mut number = |word: &[u8]| SOUND.extend(&four, word, &mut short).number;
    assert_eq!(number(&[2; 5]), 12);
    assert_eq!(number(&[2; 4]), 15);
    assert_eq!(number(&[1, 0, 0, 0]), 10);
    assert_eq!(short, [77; 4]);
    let mut point = [77; 6];
    assert_eq!(SOUND.extend(&four, &[1, 0, 0, 0], &mut point).number, 17);
    assert_eq!(point, [77; 6]);
    assert_eq!(SOUND.extend(&four, &[1, 0, 0, 1], &mut point).number, 0);
    assert_eq!(point, [1, 0, 0, 1, 1, 77]);
}

#[test]
fn the_reflector_in_order() {
    let mut short = [77; 1];
    assert_eq!(SOUND.reflect(&[i16::MIN; 2], &[2], &mut short), 12);
    assert_eq!(SOUND.reflect(&[0, i16::MIN], &[2, 0], &mut short), 13);
    assert_eq!(SOUND.reflect(&[0, 1], &[0, 2], &mut short), 15);
    assert_eq!(SOUND.reflect(&[0, 1], &[0, 1], &mut short), 10);
    assert_eq!(short, [77]);
    assert_eq!(SOUND.reflect(&[], &[], &mut short), 0);
    assert_eq!(short, [77]);
}

#[test]
fn the_sum_of_words_in_order() {
    let mut short = [77; 1];
    let mut number = |word: &[u8], other: &[u8]| SOUND.add_words(word, other, &mut short);
    assert_eq!(number(&[2, 0], &[0, 2, 0]), 12);
    assert_eq!(number(&[0, 0], &[1]), 12);
    assert_eq!(number(&[0], &[]), 12);
    assert_eq!(number(&[0, 2], &[0, 0]), 15);
    assert_eq!(number(&[1, 1], &[1, 255]), 15);
    assert_eq!(number(&[1, 1], &[0, 1]), 10);
    assert_eq!(number(&[], &[]), 0);
    assert_eq!(short, [77]);
}

#[test]
fn the_channel_in_order() {
    let mut short = [77; 1];
    for setting in [
        Channel::Gaussian(0.0),
        Channel::Hard(f32::INFINITY),
        Channel::erasing(-1.0, 1.0),
    ] {
        assert_eq!(SOUND.front(setting, &[f32::NAN; 2], &mut short), 11);
        assert_eq!(SOUND.front(setting, &[], &mut short), 11);
    }
    for setting in [
        Channel::Gaussian(1.0),
        Channel::Hard(1.0),
        Channel::erasing(9.0, 1.0),
    ] {
        assert_eq!(SOUND.front(setting, &[1.0, f32::NAN], &mut short), 14);
        assert_eq!(SOUND.front(setting, &[1.0, 1.0], &mut short), 10);
        assert_eq!(SOUND.front(setting, &[], &mut []), 0);
    }
    assert_eq!(short, [77]);
}
