//! Import and export of alist texts: figures by hand, each cause and their order.

mod common;

use common::*;

/// Three bits and their check.
const SMALL: &str = "3 1\n1 3\n1 1 1\n3\n1\n1\n1\n1 2 3\n";

/// Five bits, a check of the first four and one of the second, fourth and fifth.
const TWO: &str = "5 2\n2 4\n1 2 1 2 1\n4 3\n1 0\n1 2\n1 0\n1 2\n2 0\n1 2 3 4\n2 4 5 0\n";

fn two_checks() -> Vec<u8> {
    code(5, &[&[0, 1, 2, 3], &[1, 3, 4]])
}

fn answer(number: u32, bytes: usize) -> BytesAnswer {
    BytesAnswer { number, bytes }
}

/// Imports to a list with room to spare; its rest, or all of it where the text is
/// refused, must stay.
fn imported(text: &[u8]) -> Result<Vec<u8>, u32> {
    let mut list = vec![77; 20_000];
    let answer = SOUND.import(text, &mut list);
    assert!(list[answer.bytes..].iter().all(|&entry| entry == 77));
    list.truncate(answer.bytes);
    match answer {
        BytesAnswer { number: 0, .. } => Ok(list),
        BytesAnswer { number, bytes } => {
            assert_eq!(bytes, 0);
            Err(number)
        }
    }
}

fn number_of(text: &str) -> u32 {
    imported(text.as_bytes()).err().unwrap_or(0)
}

/// These numbers and so many zeros.
fn with_zeros(numbers: &str, count: usize) -> String {
    format!("{numbers}{}", " 0".repeat(count))
}

#[test]
fn exports_by_hand() {
    for (code, text) in [(small(), SMALL), (two_checks(), TWO)] {
        let mut list = [77; 80];
        assert_eq!(SOUND.export(&code, &mut list), answer(0, text.len()));
        assert_eq!(&list[..text.len()], text.as_bytes());
        assert!(list[text.len()..].iter().all(|&entry| entry == 77));
        assert_eq!(SOUND.export_size(&code), answer(0, text.len()));
        assert_eq!(imported(text.as_bytes()), Ok(code));
    }
}

#[test]
fn columns_in_any_order_and_any_separators() {
    for text in [
        TWO.replace("\n1 2\n", "\n2 1\n"),
        TWO.replace('\n', " "),
        TWO.replace(' ', "\n"),
        TWO.replace(' ', "   ").replace('\n', " \n\n "),
        format!("\n \n{}", TWO.trim_end()),
        TWO.replace('2', "0002"),
        TWO.replace('5', &format!("{}5", "0".repeat(300))),
        TWO.replace("1 0", "1 000"),
    ] {
        assert_eq!(imported(text.as_bytes()), Ok(two_checks()), "{text:?}");
    }
}

#[test]
fn text_that_is_not_such_numbers() {
    for byte in (0..=255).filter(|byte| !b"0123456789 \n".contains(byte)) {
        for place in 0..=TWO.len() {
            let mut text = TWO.as_bytes().to_vec();
            text.insert(place, byte);
            assert_eq!(imported(&text), Err(18));
        }
    }
    for text in ["", " ", "\n", "3", "3 1 1", "0 0 0"] {
        assert_eq!(number_of(text), 18, "{text:?}");
    }
}

#[test]
fn numbers_at_the_edges() {
    // A column that names row 65,535; another number would be no number at all.
    let with =
        |number: &str| number_of(&SMALL.replace("\n1\n1\n1\n", &format!("\n1\n{number}\n1\n")));
    assert_eq!(with("1"), 0);
    assert_eq!(with("2"), 19);
    assert_eq!(with("65535"), 19);
    assert_eq!(with("000000000000000000065535"), 19);
    for number in [
        "65536",
        "65537",
        "99999",
        "100001",
        "4294967297",
        "18446744073709551617",
    ] {
        assert_eq!(with(number), 18, "{number}");
    }
}

#[test]
fn too_few_or_too_many() {
    let numbers: Vec<&str> = TWO.split_whitespace().collect();
    for count in 0..numbers.len() {
        assert_eq!(number_of(&numbers[..count].join(" ")), 18);
    }
    assert_eq!(number_of(&numbers.join(" ")), 0);
    assert_eq!(number_of(&format!("{TWO}0")), 18);
    assert_eq!(number_of(&format!("{TWO}\n1\n")), 18);
    // In 32 bits these sizes and maxima ask for no further number.
    assert_eq!(number_of("32768 32768 65535 65535"), 18);
    assert_eq!(number_of("65535 65535 65535 65535"), 18);
}

#[test]
fn lists_that_are_not_their_degrees() {
    for (part, other) in [
        // A zero first; one more index than the degree; one less; a degree above
        // the maximum, or below.
        ("\n2 0\n", "\n0 2\n"),
        ("\n2 0\n", "\n2 1\n"),
        ("\n2 0\n", "\n0 0\n"),
        ("\n2 4 5 0\n", "\n2 4 0 5\n"),
        ("\n2 4 5 0\n", "\n2 4 5 1\n"),
        ("\n1 2 1 2 1\n", "\n1 2 1 3 1\n"),
        ("\n1 2 1 2 1\n", "\n1 2 1 1 1\n"),
        ("\n4 3\n", "\n4 2\n"),
        ("\n4 3\n", "\n5 3\n"),
    ] {
        assert!(TWO.contains(part));
        assert_eq!(number_of(&TWO.replacen(part, other, 1)), 18, "{other:?}");
    }
}

#[test]
fn maxima_that_are_not_the_largest_degree() {
    assert_eq!(number_of("3 1 2 3 1 1 1 3 1 0 1 0 1 0 1 2 3"), 18);
    assert_eq!(number_of("3 1 1 4 1 1 1 3 1 1 1 1 2 3 0"), 18);
    assert_eq!(number_of("3 1 0 3 1 1 1 3 1 2 3"), 18);
    assert_eq!(number_of(SMALL), 0);
    // 0 where there is none.
    assert_eq!(number_of("0 0 0 0"), 3);
    assert_eq!(number_of("0 0 1 0"), 18);
    assert_eq!(number_of("0 0 0 65535"), 18);
    assert_eq!(number_of("3 1 0 0 0 0 0 0"), 4);
    assert_eq!(number_of("3 1 1 0 0 0 0 0 0 0 0"), 18);
    assert_eq!(number_of("3 1 0 1 0 0 0 0 0"), 18);
}

#[test]
fn columns_and_rows_that_do_not_agree() {
    for text in [
        // The second column names a second row; so does the row a fourth bit.
        "3 1 1 3 1 1 1 3 1 2 1 1 2 3",
        "3 1 1 3 1 1 1 3 1 1 1 1 2 4",
        "3 1 1 3 1 1 1 3 1 1 1 1 2 65535",
        // A column names no row; a row names a bit less.
        "3 1 1 3 1 0 1 3 1 0 1 1 2 3",
        "3 1 1 2 1 1 1 2 1 1 1 1 2",
        // A place twice on one side, once on the other.
        "3 1 2 3 1 2 1 3 1 0 1 1 1 0 1 2 3",
        "3 1 1 4 1 1 1 4 1 1 1 1 2 2 3",
        // A place twice in the columns, another twice in the row.
        "3 1 2 4 2 1 1 4 1 1 1 0 1 0 1 2 2 3",
        // Rows without columns, columns without rows.
        "0 1 0 3 3 1 2 3",
        "3 0 1 0 1 1 1 1 1 1",
    ] {
        assert_eq!(number_of(text), 19, "{text:?}");
    }
}

#[test]
fn sizes_of_the_rows() {
    assert_eq!(number_of("2 1 1 2 1 1 2 1 1 1 2"), 3);
    assert_eq!(number_of("3 0 0 0 0 0 0"), 3);
    assert_eq!(number_of(&with_zeros("4096 1 0 0", 4_097)), 4);
    assert_eq!(number_of(&with_zeros("4097 1 0 0", 4_098)), 3);
    assert_eq!(number_of(&with_zeros("3 2048 0 0", 2_051)), 4);
    assert_eq!(number_of(&with_zeros("3 2049 0 0", 2_052)), 3);
    assert_eq!(number_of(&with_zeros("65535 65535 0 0", 131_070)), 3);
    assert_eq!(number_of(&with_zeros("65535 65535 0 0", 131_069)), 18);
    assert_eq!(number_of(&with_zeros("65536 0 0 0", 65_536)), 18);
}

/// The text of one check over all bits.
fn one_row(bits: usize) -> String {
    let row: Vec<String> = (1..=bits).map(|bit| bit.to_string()).collect();
    let ones = "1 ".repeat(2 * bits);
    let (columns, lists) = ones.split_at(2 * bits);
    format!("{bits} 1 1 {bits} {columns}{bits} {lists}{}", row.join(" "))
}

#[test]
fn degrees_and_order_of_the_rows() {
    assert_eq!(imported(one_row(32).as_bytes()), Ok(one_check(32)));
    assert_eq!(number_of(&one_row(33)), 4);
    assert_eq!(number_of(&one_row(300)), 4);
    assert_eq!(number_of("3 1 1 1 1 0 0 1 1 0 0 1"), 4);
    assert_eq!(number_of("3 1 1 2 1 1 0 2 1 1 0 1 2"), 8);
    assert_eq!(number_of("3 1 1 2 1 1 0 2 1 1 0 2 1"), 6);
    assert_eq!(number_of(&SMALL.replace("1 2 3", "1 3 2")), 6);
    // A place twice on both sides.
    assert_eq!(number_of("3 1 2 4 1 2 1 4 1 0 1 1 1 0 1 2 2 3"), 6);
    // Row by row: the order of the first comes before the degree of the second.
    assert_eq!(number_of("3 2 2 3 2 1 1 3 1 1 2 1 0 1 0 2 1 3 1 0 0"), 6);
    assert_eq!(number_of("3 2 2 3 2 1 1 1 3 1 2 2 0 2 0 1 0 0 2 1 3"), 4);
}

#[test]
fn a_bit_in_no_check_and_too_many_triples() {
    assert_eq!(number_of("4 1 1 3 1 1 1 0 3 1 1 1 0 1 2 3"), 8);
    let wide: Vec<usize> = (0..32).collect();
    let mut checks: Vec<&[usize]> = vec![&wide; 273];
    checks.push(&wide[..4]);
    let most = code(32, &checks);
    let mut text = vec![77; SOUND.export_size(&most).bytes];
    SOUND.export(&most, &mut text);
    assert_eq!(imported(&text), Ok(most));
    // A fifth bit in the last check, once in its row and once in its column.
    let text = String::from_utf8(text).unwrap();
    let more = text.replacen("274 274 274 274 273 ", "274 274 274 274 274 ", 1);
    let more = more.replacen(" 32 4\n", " 32 5\n", 1);
    let more = more.replacen(" 273 0\n", " 273 274\n", 1);
    let more = more.replacen("\n1 2 3 4 0 ", "\n1 2 3 4 5 ", 1);
    assert_eq!(number_of(&more), 7);
}

#[test]
fn the_room_of_an_import() {
    let needed = two_checks().len();
    for room in 0..needed {
        let mut short = vec![77; room];
        assert_eq!(SOUND.import(TWO.as_bytes(), &mut short), answer(10, 0));
        assert!(short.iter().all(|&entry| entry == 77));
    }
    let mut exact = vec![77; needed];
    assert_eq!(SOUND.import(TWO.as_bytes(), &mut exact), answer(0, needed));
    assert_eq!(exact, two_checks());
    // Every other cause comes before 10.
    for text in [
        "3 1 1 3",
        "3 1 1 3 1 1 1 3 1 2 1 1 2 3",
        "0 0 0 0",
        "3 1 0 0 0 0 0 0",
        "3 1 1 3 1 1 1 3 1 1 1 1 3 2",
        "4 1 1 3 1 1 1 0 3 1 1 1 0 1 2 3",
    ] {
        assert_eq!(
            SOUND.import(text.as_bytes(), &mut []).number,
            number_of(text)
        );
    }
}

#[test]
fn causes_of_an_import_in_order() {
    // A maximum too large, columns and rows that differ, two bits, a row of degree 1, one in
    // falling order, bits in no check: one after the other is put right.
    for (text, number) in [
        ("2 2 3 2 2 1 1 2 1 2 0 1 0 0 1 0 2 1", 18),
        ("2 2 2 2 2 1 1 2 1 2 1 0 1 0 2 1", 19),
        ("2 2 2 2 2 1 1 2 1 2 2 0 1 0 2 1", 3),
        ("4 2 2 2 2 1 0 0 1 2 1 2 2 0 0 0 0 0 1 0 2 1", 4),
        ("4 2 2 2 2 1 1 0 2 2 1 2 2 0 1 0 0 0 1 3 2 1", 6),
        ("4 2 2 2 2 1 1 0 2 2 1 2 2 0 1 0 0 0 1 3 1 2", 8),
        ("4 2 2 3 2 1 1 1 2 3 1 2 2 0 1 0 2 0 1 3 0 1 2 4", 10),
    ] {
        assert_eq!(SOUND.import(text.as_bytes(), &mut [0; 16]).number, number);
    }
}

#[test]
fn the_room_of_an_export() {
    for room in 0..TWO.len() {
        let mut short = vec![77; room];
        assert_eq!(SOUND.export(&two_checks(), &mut short), answer(10, 0));
        assert!(short.iter().all(|&entry| entry == 77));
    }
    let mut exact = vec![77; TWO.len()];
    assert_eq!(
        SOUND.export(&two_checks(), &mut exact),
        answer(0, TWO.len())
    );
}

#[test]
fn records_that_no_export_takes() {
    for (bytes, number) in [
        (vec![], 1),
        (vec![0x4C, 0x43], 2),
        (header(2, 1), 3),
        (code(3, &[&[0]]), 4),
        (code(3, &[&[0, 1, 3]]), 5),
        (code(3, &[&[1, 0, 2]]), 6),
        (code(4, &[&[0, 1, 2]]), 8),
        ([small(), vec![0]].concat(), 9),
    ] {
        for room in [0, 9] {
            let mut list = vec![77; room];
            assert_eq!(SOUND.export(&bytes, &mut list), answer(number, 0));
            assert_eq!(list, vec![77; room]);
        }
        assert_eq!(SOUND.export_size(&bytes), answer(number, 0));
    }
}
