//! Codes to decode: their records, and random and regular constructions.

use crate::random::Random;
use crate::two_bits::{small_two_bit_code, tiny_two_bit_code};
use interface::work_length;
pub use reference::records::Code;
use std::collections::BTreeSet;

/// The records of a code, whether sound or not.
pub fn records(code: &Code) -> Vec<u8> {
    let mut bytes = vec![b'L', b'H'];
    bytes.extend((code.bits as u16).to_be_bytes());
    bytes.extend((code.checks.len() as u16).to_be_bytes());
    for check in &code.checks {
        bytes.extend([b'L', b'C', check.len() as u8]);
        for &bit in check {
            bytes.extend((bit as u16).to_be_bytes());
        }
    }
    bytes
}

/// The lengths that the decoder's lists need, in their order.
pub fn room(code: &Code) -> [usize; 6] {
    let [lists @ .., _] = group_room(code, 1);
    lists
}

/// The same for a group of so many frames, and the length of its work list.
pub fn group_room(code: &Code, frames: usize) -> [usize; 7] {
    let (triples, variables) = (code.triples(), code.variables());
    [
        3 * triples,
        variables,
        frames * variables,
        frames * variables,
        frames * 4 * triples,
        frames * code.bits,
        work_length(frames, code.bits, variables, triples),
    ]
}

/// The length of the alist text: each number and a byte after it.
pub fn text_bytes(code: &Code) -> usize {
    let mut columns = vec![0; code.bits];
    for &bit in code.checks.iter().flatten() {
        columns[bit] += 1;
    }
    let rows: Vec<usize> = code.checks.iter().map(Vec::len).collect();
    let [column, row] = [&columns, &rows].map(|degrees| degrees.iter().copied().max().unwrap_or(0));
    let places: usize = rows.iter().sum();
    let zeros = code.bits * column + code.checks.len() * row - 2 * places;
    let bytes = |number: usize| number.checked_ilog10().unwrap_or(0) as usize + 2;
    let sizes = [code.bits, code.checks.len(), column, row];
    let degrees = sizes.iter().chain(&columns).chain(&rows);
    let named = (1..).zip(&code.checks).flat_map(|(place, check)| {
        let bits = check.iter().map(|bit| bit + 1);
        bits.flat_map(move |bit| [bit, place])
    });
    2 * zeros + degrees.copied().chain(named).map(bytes).sum::<usize>()
}

/// Where each check's record starts.
pub fn check_starts(code: &Code) -> Vec<usize> {
    let mut starts = Vec::new();
    let mut start = 6;
    for check in &code.checks {
        starts.push(start);
        start += 3 + 2 * check.len();
    }
    starts
}

/// One check over all of so many bits.
pub fn one_check(bits: usize) -> Code {
    Code {
        bits,
        checks: vec![(0..bits).collect()],
    }
}

/// A random code of at most these sizes, with no check of two bits.
pub fn code_within(random: &mut Random, bits: usize, checks: usize, triples: usize) -> Code {
    let bits = random.between(3, bits);
    let widest = bits.min(32);
    let fewest = bits.div_ceil(widest).max(1);
    let most = checks.min(triples).max(fewest);
    let checks = random.between(fewest, most);
    let least = (3 * checks).max(bits) - 2 * checks;
    let most = ((widest - 2) * checks).min(triples).max(least);
    let triples = random.between(least, most);
    code_of(random, bits, checks, triples)
}

/// One time in eight with checks of two bits.
pub fn tiny_code(random: &mut Random) -> Code {
    match random.below(8) {
        0 => tiny_two_bit_code(random),
        _ => code_within(random, 8, 5, 20),
    }
}

/// One time in eight with checks of two bits.
pub fn small_code(random: &mut Random) -> Code {
    match random.below(8) {
        0 => small_two_bit_code(random),
        _ => code_within(random, 40, 20, 120),
    }
}

/// A small code, or the training code.
pub fn small_or_training_code(random: &mut Random) -> Code {
    match random.below(10) {
        0 => training_code(),
        _ => small_code(random),
    }
}

/// Mostly tiny codes, small ones, some with checks of two bits, and now and then a larger one or
/// one that corrects errors.
pub fn any_code(random: &mut Random) -> Code {
    match random.below(48) {
        40..=44 => tiny_two_bit_code(random),
        45.. => small_two_bit_code(random),
        0 => code_within(random, 300, 150, 1_000),
        1 => training_code(),
        2..=5 => regular_code(random, 24, 3, 6),
        6..=20 => small_code(random),
        _ => tiny_code(random),
    }
}

/// A random code of these sizes in which each bit lies in some check.
pub fn code_of(random: &mut Random, bits: usize, checks: usize, triples: usize) -> Code {
    let degrees = random_degrees(random, bits.min(32), checks, triples);
    let mut sets: Vec<BTreeSet<usize>> = vec![BTreeSet::new(); checks];
    let mut order: Vec<usize> = (0..bits).collect();
    random.shuffle(&mut order);
    let mut open: Vec<usize> = (0..checks).collect();
    for bit in order {
        let place = random.below(open.len());
        let check = open[place];
        sets[check].insert(bit);
        if sets[check].len() == degrees[check] {
            open.swap_remove(place);
        }
    }
    for check in open {
        while sets[check].len() < degrees[check] {
            sets[check].insert(random.below(bits));
        }
    }
    let checks = sets.into_iter().map(|set| set.into_iter().collect());
    Code {
        bits,
        checks: checks.collect(),
    }
}

/// A random code with one bit in all of its checks, each of this degree.
pub fn crowded_code(random: &mut Random, bits: usize, checks: usize, degree: usize) -> Code {
    let crowded = random.below(bits);
    let mut others: Vec<usize> = (0..bits).filter(|&bit| bit != crowded).collect();
    random.shuffle(&mut others);
    let mut unused = others.clone();
    let checks = (0..checks).map(|_| {
        let mut check = BTreeSet::from([crowded]);
        while check.len() < degree {
            let bit = unused.pop().unwrap_or_else(|| random.pick(&others));
            check.insert(bit);
        }
        check.into_iter().collect()
    });
    Code {
        bits,
        checks: checks.collect(),
    }
}

/// The code with three more bits, which make a check of their own at this place.
pub fn with_own_check(mut code: Code, place: usize) -> Code {
    let first = code.bits;
    code.checks.insert(place, vec![first, first + 1, first + 2]);
    code.bits += 3;
    code
}

/// Degrees of so many checks that have so many triples, none above the widest.
fn random_degrees(random: &mut Random, widest: usize, checks: usize, triples: usize) -> Vec<usize> {
    let mut degrees = vec![3; checks];
    let mut open: Vec<usize> = (0..checks).collect();
    for _ in checks..triples {
        let place = random.below(open.len());
        let check = open[place];
        degrees[check] += 1;
        if degrees[check] == widest {
            open.swap_remove(place);
        }
    }
    degrees
}

/// A regular code: each bit in `column` checks, each check of `row` bits.
pub fn regular_code(random: &mut Random, bits: usize, column: usize, row: usize) -> Code {
    let mut sockets: Vec<usize> = (0..bits * column).map(|socket| socket % bits).collect();
    random.shuffle(&mut sockets);
    while let Some(place) = repeated_place(&sockets, row) {
        let other = random.below(sockets.len());
        sockets.swap(place, other);
    }
    let checks = sockets.chunks_exact(row).map(|check| {
        let mut check = check.to_vec();
        check.sort_unstable();
        check
    });
    Code {
        bits,
        checks: checks.collect(),
    }
}

/// The place of a bit that its check already has.
fn repeated_place(sockets: &[usize], row: usize) -> Option<usize> {
    (0..sockets.len()).find(|&place| {
        let start = place - place % row;
        sockets[start..place].contains(&sockets[place])
    })
}

/// The 96-bit training code: three rows of six circulants of 16.
pub fn training_code() -> Code {
    const BLANK: usize = 255;
    const SIZE: usize = 16;
    const SHIFTS: [[usize; 6]; 3] = [
        [0, 1, 3, 0, BLANK, BLANK],
        [5, BLANK, 2, 0, 0, BLANK],
        [BLANK, 4, 7, BLANK, 0, 0],
    ];
    let mut checks = Vec::new();
    for shifts in SHIFTS {
        for k in 0..SIZE {
            let bits = (0..6).filter(|&column| shifts[column] != BLANK);
            checks.push(
                bits.map(|column| column * SIZE + (k + shifts[column]) % SIZE)
                    .collect(),
            );
        }
    }
    Code { bits: 96, checks }
}
