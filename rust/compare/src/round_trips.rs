//! Round trips: what import and export promise of one another, and of a refusal.

use crate::alist::{styled, text_of, Plan};
use crate::alist_damage::{damage_bytes, damage_lists, damage_numbers, some_damage};
use crate::codes::{any_code, records, Code};
use crate::damage::{apply, damages_of};
use crate::draft::{Draft, Entry};
use crate::lent::{accepted, written};
use crate::random::Random;
use crate::seeds;
use crate::two_bits::has_two_bits;
use interface::{Alist, BytesAnswer};
use std::collections::BTreeMap;

/// How often each number came, by call.
pub type Met = BTreeMap<(&'static str, u32), u64>;

/// The first seed, unless another is given.
pub const SEED: u64 = 0x414C_4953;

/// In the place of a call: codes with checks of two bits, which passed.
const TWO_BITS: &str = "two bits";

/// Fails unless every round trip ends where it began, the one with the longest text
/// too, with refusals often enough.
pub fn assert_round_trips(alist: &dyn Alist) {
    let met = check_round_trips(alist, seeds::first(SEED)).unwrap();
    println!("{met:?}");
    let often = |call, number| met.get(&(call, number)).is_some_and(|&count| count >= 20);
    assert!(often("export", 0) && often("export", 10));
    assert!([1, 2, 3, 4, 5, 6, 8, 9]
        .iter()
        .all(|&number| often("export", number)));
    assert!([0, 3, 4, 6, 8, 18, 19]
        .iter()
        .all(|&number| often("import", number)));
    assert!(often(TWO_BITS, 0));
    assert!(!met.contains_key(&("import", 10)));
    check_code(alist, &longest()).unwrap();
}

/// Checks round trips of random codes and texts, sound or not, from a seed on; the
/// numbers met, or a failure.
pub fn check_round_trips(alist: &dyn Alist, first: u64) -> Result<Met, String> {
    let mut met = Met::new();
    for seed in first..first + 1_500 {
        let mut random = Random::new(seed);
        let code = any_code(&mut random);
        let at_seed = |what| format!("seed {seed:#x}: {what}");
        check_code(alist, &code).map_err(at_seed)?;
        check_style(alist, &mut random, &code).map_err(at_seed)?;
        *met.entry((TWO_BITS, 0)).or_default() += u64::from(has_two_bits(&code));
        for text in [
            damaged_text(&mut random, &code),
            unlike_text(&mut random, &code),
        ] {
            let number = check_text(alist, &text).map_err(at_seed)?;
            *met.entry(("import", number)).or_default() += 1;
        }
        let number = check_refusal(alist, &mut random, code).map_err(at_seed)?;
        *met.entry(("export", number)).or_default() += 1;
    }
    Ok(met)
}

/// The bytes that a call wrote to a list of this length, or its number.
fn bytes_written(
    room: usize,
    call: impl FnOnce(&mut [u8]) -> BytesAnswer,
) -> Result<Result<Vec<u8>, u32>, String> {
    written(room, 0xAB, |list| {
        let BytesAnswer { number, bytes } = call(list);
        (number, bytes)
    })
}

/// The records of a text; the text's own length is room enough.
fn imported(alist: &dyn Alist, text: &[u8]) -> Result<Vec<u8>, String> {
    accepted(bytes_written(text.len(), |list| alist.import(text, list))?)
}

/// The text of records, in a list of exactly the size that is told before.
fn exported(alist: &dyn Alist, code: &[u8]) -> Result<Vec<u8>, String> {
    let BytesAnswer { number, bytes } = alist.export_size(code);
    if number != 0 {
        return Err(format!("the size is refused with {number}"));
    }
    let text = accepted(bytes_written(bytes, |list| alist.export(code, list))?)?;
    if text.len() != bytes {
        return Err(format!("{} bytes written, {bytes} told before", text.len()));
    }
    Ok(text)
}

/// Imports what it exports.
fn check_code(alist: &dyn Alist, code: &Code) -> Result<(), String> {
    let code = records(code);
    let text = exported(alist, &code)?;
    if imported(alist, &text)? != code {
        return Err("import of an export gives other records".into());
    }
    check_form(&text)
}

/// Imports the same records from another writing of the code.
fn check_style(alist: &dyn Alist, random: &mut Random, code: &Code) -> Result<(), String> {
    let mut plan = Plan::of(code);
    plan.shuffle_columns(random);
    let text = styled(random, &plan.numbers());
    if imported(alist, &text)? != records(code) {
        return Err(format!(
            "other records from {:?}",
            String::from_utf8_lossy(&text)
        ));
    }
    check_text(alist, &text).map(|_| ())
}

/// Exports what it imports in a form that stays. Never says that the text's own
/// length is too short. Hands back the import's number.
fn check_text(alist: &dyn Alist, text: &[u8]) -> Result<u32, String> {
    let code = match bytes_written(text.len(), |list| alist.import(text, list))? {
        Err(10) => return Err("the text's own length is too short".into()),
        Err(number) => return Ok(number),
        Ok(code) => code,
    };
    let form = exported(alist, &code)?;
    if imported(alist, &form)? != code || exported(alist, &code)? != form {
        return Err("the export of an import does not stay".into());
    }
    check_form(&form)?;
    Ok(0)
}

/// Damaged records, and room that may be short: size and export are refused alike,
/// but for 10. Hands back the export's number.
fn check_refusal(alist: &dyn Alist, random: &mut Random, code: Code) -> Result<u32, String> {
    let mut draft = Draft::of(random, code);
    for _ in 0..random.between(1, 2) {
        let damage = random.pick(&damages_of(Entry::Export));
        apply(random, &mut draft, Entry::Export, damage);
    }
    let (code, room) = (&draft.records, draft.text_room);
    let size = alist.export_size(code);
    let number = match bytes_written(room, |list| alist.export(code, list))? {
        Ok(text) if text.len() != size.bytes => return Err("another size".into()),
        Ok(_) => 0,
        Err(number) => number,
    };
    let short = size.number == 0 && room < size.bytes;
    let due = if short { 10 } else { size.number };
    if number == due {
        Ok(number)
    } else {
        Err(format!("number {number} from the export, {due} due"))
    }
}

/// What an export writes: one space between numbers, no leading zeros, a line feed
/// after each pair or list, and columns that rise.
fn check_form(text: &[u8]) -> Result<(), String> {
    let text = std::str::from_utf8(text).map_err(|error| error.to_string())?;
    let parse = |word: &str| word.parse().map_err(|_| format!("{word:?} is no number"));
    let numbers = |line: &str| line.split(' ').map(parse).collect();
    let lines: Vec<Vec<usize>> = text.lines().map(numbers).collect::<Result<_, String>>()?;
    if text_of(&lines) != text.as_bytes() {
        return Err("other separators or leading zeros".into());
    }
    let [bits, checks] = lines[0][..] else {
        return Err("the first line is no pair".into());
    };
    let rises = |list: &Vec<usize>| {
        list.windows(2)
            .all(|pair| pair[0] < pair[1] || pair[1] == 0)
    };
    if lines.len() != 4 + bits + checks || !lines[4..].iter().all(rises) {
        return Err("a list that does not rise, or no list".into());
    }
    Ok(())
}

/// A text of the code with damaged lists.
fn damaged_text(random: &mut Random, code: &Code) -> Vec<u8> {
    let mut plan = Plan::of(code);
    for _ in 0..random.below(3) {
        let damage = some_damage(random);
        damage_lists(random, &mut plan, damage);
    }
    styled(random, &plan.numbers())
}

/// A text of the code with a damaged number or byte.
fn unlike_text(random: &mut Random, code: &Code) -> Vec<u8> {
    let mut numbers = Plan::of(code).numbers();
    if random.once_in(2) {
        damage_numbers(random, &mut numbers);
        return styled(random, &numbers);
    }
    let mut text = styled(random, &numbers);
    damage_bytes(random, &mut text);
    text
}

/// The code with the longest text: a bit in each of the most checks, and the most
/// bits, each with a column as long.
fn longest() -> Code {
    let check = |check: usize| vec![0, (2 * check + 1).min(4_094), (2 * check + 2).min(4_095)];
    Code {
        bits: 4_096,
        checks: (0..2_048).map(check).collect(),
    }
}
