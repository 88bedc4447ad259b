//! Damage to a draft: each kind brings one cause, or several.

use crate::codes::check_starts;
use crate::draft::{Draft, Entry};
use crate::random::Random;
use interface::MOST_FRAMES;

#[derive(Clone, Copy, Debug, PartialEq, Eq)]
pub enum Damage {
    Cut,
    Flip,
    Mark,
    Size,
    Degree,
    TwoBits,
    HighIndex,
    Order,
    Triples,
    Unused,
    After,
    Setting,
    CostsLength,
    LowestCost,
    WordLength,
    WordEntry,
    Room,
    Long,
    MessageLength,
    MessageEntry,
    Frames,
}

const OF_RECORDS: [Damage; 11] = [
    Damage::Cut,
    Damage::Flip,
    Damage::Mark,
    Damage::Size,
    Damage::Degree,
    Damage::TwoBits,
    Damage::HighIndex,
    Damage::Order,
    Damage::Triples,
    Damage::Unused,
    Damage::After,
];

/// The kinds of damage that an entry can meet.
pub fn damages_of(entry: Entry) -> Vec<Damage> {
    let others: &[Damage] = match entry {
        Entry::Read | Entry::ExportSize => &[],
        Entry::Split | Entry::Export => &[Damage::Room],
        Entry::Test => &[Damage::WordLength, Damage::WordEntry],
        Entry::Extend => &[Damage::WordLength, Damage::WordEntry, Damage::Room],
        Entry::MessageLength => &[Damage::Long],
        Entry::Encode => &[
            Damage::Long,
            Damage::MessageLength,
            Damage::MessageEntry,
            Damage::Room,
        ],
        Entry::EncodeFrames => &[
            Damage::Long,
            Damage::Frames,
            Damage::MessageLength,
            Damage::MessageEntry,
            Damage::Room,
        ],
        Entry::ReadMessage => &[
            Damage::Long,
            Damage::WordLength,
            Damage::WordEntry,
            Damage::Room,
        ],
        Entry::Decode => &[
            Damage::Setting,
            Damage::CostsLength,
            Damage::LowestCost,
            Damage::Room,
        ],
        Entry::DecodeGroup => &[
            Damage::Setting,
            Damage::Frames,
            Damage::CostsLength,
            Damage::LowestCost,
            Damage::Room,
        ],
    };
    [&OF_RECORDS, others].concat()
}

/// Damages a draft for a call of an entry.
pub fn apply(random: &mut Random, draft: &mut Draft, entry: Entry, damage: Damage) {
    match damage {
        Damage::Cut => cut(random, draft),
        Damage::Flip => flip(random, draft),
        Damage::Mark => wrong_mark(random, draft),
        Damage::Size => wrong_size(random, draft),
        Damage::Degree => {
            let degree = random.pick(&[0, 1, 1, 33, 255]);
            other_degree(random, draft, degree);
        }
        Damage::TwoBits => other_degree(random, draft, 2),
        Damage::HighIndex => high_index(random, draft),
        Damage::Order => wrong_order(random, draft),
        Damage::Triples => more_checks(random, draft),
        Damage::Unused => unused_bit(draft),
        Damage::After => draft.records.push(random.pick(&[0, b'L'])),
        Damage::Setting => wrong_setting(random, draft),
        Damage::CostsLength => change_length(random, costs_of(draft, entry)),
        Damage::LowestCost => lowest_cost(random, costs_of(draft, entry)),
        Damage::WordLength => change_length(random, &mut draft.word),
        Damage::WordEntry => wrong_entry(random, &mut draft.word),
        Damage::Room => shorten(random, draft, entry),
        Damage::Long => more_bits(random, draft),
        Damage::MessageLength => change_length(random, message_of(draft, entry)),
        Damage::MessageEntry => wrong_entry(random, message_of(draft, entry)),
        Damage::Frames => wrong_frames(random, draft, entry),
    }
}

/// The messages that a call of this entry takes.
fn message_of(draft: &mut Draft, entry: Entry) -> &mut Vec<u8> {
    match entry {
        Entry::EncodeFrames => &mut draft.messages.all,
        _ => &mut draft.messages.one,
    }
}

/// The costs that a call of this entry takes.
fn costs_of(draft: &mut Draft, entry: Entry) -> &mut Vec<i16> {
    match entry {
        Entry::DecodeGroup => &mut draft.group.costs,
        _ => &mut draft.costs,
    }
}

fn cut(random: &mut Random, draft: &mut Draft) {
    let length = random.below(draft.records.len() + 1);
    draft.records.truncate(length);
}

fn flip(random: &mut Random, draft: &mut Draft) {
    if !draft.records.is_empty() {
        let place = random.below(draft.records.len());
        draft.records[place] ^= random.between(1, 255) as u8;
    }
}

/// Writes bytes over the records, as far as these reach.
fn write(records: &mut [u8], start: usize, bytes: &[u8]) {
    for (place, &byte) in (start..).zip(bytes) {
        if let Some(entry) = records.get_mut(place) {
            *entry = byte;
        }
    }
}

fn write_two(records: &mut [u8], start: usize, number: usize) {
    write(records, start, &(number as u16).to_be_bytes());
}

/// The start of some check's record.
fn some_check(random: &mut Random, draft: &Draft) -> (usize, usize) {
    let check = random.below(draft.code.checks.len());
    (
        check_starts(&draft.code)[check],
        draft.code.checks[check].len(),
    )
}

fn wrong_mark(random: &mut Random, draft: &mut Draft) {
    let start = match random.below(3) {
        0 => 0,
        _ => some_check(random, draft).0,
    };
    let mark = random.pick(&[
        [b'L', b'L'],
        [b'C', b'L'],
        [0, 0],
        [b'L', b'F'],
        [b'H', b'C'],
    ]);
    write(&mut draft.records, start, &mark);
}

fn wrong_size(random: &mut Random, draft: &mut Draft) {
    if random.once_in(2) {
        write_two(&mut draft.records, 2, random.pick(&[0, 2, 4_097, 65_535]));
    } else {
        write_two(&mut draft.records, 4, random.pick(&[0, 2_049, 65_535]));
    }
}

/// Another degree, with the check's indices as they were.
fn other_degree(random: &mut Random, draft: &mut Draft, degree: u8) {
    let (start, _) = some_check(random, draft);
    write(&mut draft.records, start + 2, &[degree]);
}

fn high_index(random: &mut Random, draft: &mut Draft) {
    let (start, degree) = some_check(random, draft);
    let place = start + 3 + 2 * random.below(degree);
    let index = draft.code.bits + random.pick(&[0, 0, 1, 60_000]);
    write_two(&mut draft.records, place, index);
}

/// Swaps two neighbours, or makes them equal.
fn wrong_order(random: &mut Random, draft: &mut Draft) {
    let check = random.below(draft.code.checks.len());
    let indices = &draft.code.checks[check];
    let place = random.below(indices.len() - 1);
    let start = check_starts(&draft.code)[check] + 3 + 2 * place;
    let (first, second) = (indices[place], indices[place + 1]);
    write_two(&mut draft.records, start, second);
    write_two(&mut draft.records, start + 2, random.pick(&[first, second]));
}

/// Adds checks until there are more than 8,192 triples, if the code has the
/// bits for it; at times the last ones have two bits.
fn more_checks(random: &mut Random, draft: &mut Draft) {
    let degree = draft.code.bits.min(32);
    let mut checks = draft.code.checks.len();
    let mut triples = draft.code.triples();
    // The last checks are those of two bits.
    let wide = (2_048 - checks).saturating_sub(32);
    if triples + wide * (degree - 2) <= 8_192 {
        return;
    }
    let least = 8_193 + random.below(3);
    let two_bits = random.once_in(2);
    while triples < least {
        let fits = triples + degree - 2 <= least;
        let degree = if two_bits && !fits { 2 } else { degree };
        draft.records.extend([b'L', b'C', degree as u8]);
        for bit in 0..degree {
            draft.records.extend((bit as u16).to_be_bytes());
        }
        triples += degree.max(3) - 2;
        checks += 1;
    }
    write_two(&mut draft.records, 4, checks);
}

/// Adds bits until there are more than 256, with checks of their own.
fn more_bits(random: &mut Random, draft: &mut Draft) {
    let mut checks = draft.code.checks.len();
    let mut bits = draft.code.bits;
    let most = random.pick(&[257, 257, 258, 300]);
    while bits < most {
        let next = most.min(bits + 32);
        let check = bits.min(next - 3)..next;
        draft.records.extend([b'L', b'C', check.len() as u8]);
        check.for_each(|bit| draft.records.extend((bit as u16).to_be_bytes()));
        (bits, checks) = (next, checks + 1);
    }
    write_two(&mut draft.records, 2, bits);
    write_two(&mut draft.records, 4, checks);
}

/// One bit more than the checks have.
fn unused_bit(draft: &mut Draft) {
    write_two(&mut draft.records, 2, draft.code.bits + 1);
}

fn wrong_setting(random: &mut Random, draft: &mut Draft) {
    match random.below(3) {
        0 => draft.settings.weight = random.pick(&[0, 65_536, u32::MAX]),
        1 => draft.settings.ratio = random.pick(&[1_024, 65_536, u32::MAX]),
        _ => draft.settings.limit = random.pick(&[0, 4_001, 65_537, u32::MAX]),
    }
}

fn change_length<T: Copy>(random: &mut Random, list: &mut Vec<T>) {
    match (random.below(4), list.first().copied()) {
        (0, _) => list.clear(),
        (1, Some(entry)) => list.push(entry),
        _ => drop(list.pop()),
    }
}

fn lowest_cost(random: &mut Random, costs: &mut [i16]) {
    if !costs.is_empty() {
        let place = random.below(costs.len());
        costs[place] = i16::MIN;
    }
}

fn wrong_entry(random: &mut Random, list: &mut [u8]) {
    if !list.is_empty() {
        let place = random.below(list.len());
        list[place] = random.pick(&[2, 3, 48, 255]);
    }
}

/// Another number of frames, of which some make no product with a length.
fn wrong_frames(random: &mut Random, draft: &mut Draft, entry: Entry) {
    let (frames, other) = match entry {
        Entry::DecodeGroup => (&mut draft.group.frames, MOST_FRAMES + 1),
        _ => (&mut draft.messages.frames, 0),
    };
    *frames = random.pick(&[0, other, *frames + 1, 1 << 61, 1 << 63, usize::MAX]);
}

fn shorten(random: &mut Random, draft: &mut Draft, entry: Entry) {
    let room = match entry {
        Entry::Split => &mut draft.room[random.below(2)],
        Entry::Extend => &mut draft.point_room,
        Entry::Export => &mut draft.text_room,
        Entry::Encode => &mut draft.messages.room[0],
        Entry::EncodeFrames => &mut draft.messages.room[1],
        Entry::ReadMessage => &mut draft.messages.room[2],
        Entry::DecodeGroup => &mut draft.group.room[random.below(7)],
        _ => &mut draft.room[random.below(6)],
    };
    *room = if random.once_in(4) {
        0
    } else {
        room.saturating_sub(1)
    };
}
