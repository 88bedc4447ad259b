//! Input of the frame program.

use super::Family;
use crate::case::Case;
use crate::codes::{code_of, code_within, one_check, records, tiny_code, Code};
use crate::codewords::Codewords;
use crate::damage::{apply, damages_of};
use crate::draft::{random_costs, random_settings, wild_costs, Draft, Entry};
use crate::random::Random;
use crate::strained::{strained_code, straining_costs};
use interface::Settings;

pub fn families() -> Vec<Family> {
    vec![
        Family::listed("the listing, cut at every byte", listing),
        Family::listed("two checks, cut at every byte", two_checks),
        Family::listed("a bit in no check, cut at every byte", unused_bit),
        Family::listed("the program's room", room),
        Family::listed("a settings record of every edge", edge_settings),
        Family::listed("frames at the limits of K", limits),
        Family::random("streams", 300, stream),
        Family::random("cut streams", 300, cut_stream),
        Family::random("damaged streams", 600, damaged_stream),
        Family::random("streams with damaged records", 400, damaged_records),
        Family::random("large streams", 20, large_stream),
        Family::random("long streams", 4, long_stream),
        Family::random("frames of four thousand iterations", 6, longest_frames),
        Family::random("frames with a check under strain", 6, strained_frames),
    ]
}

fn settings_record(settings: Settings) -> Vec<u8> {
    let mut bytes = vec![b'L', b'S'];
    for field in [settings.weight, settings.ratio, settings.limit] {
        bytes.extend((field as u16).to_be_bytes());
    }
    bytes.extend(settings.tolerance.to_be_bytes());
    bytes
}

fn frame_record(costs: &[i16]) -> Vec<u8> {
    let mut bytes = vec![b'L', b'F'];
    bytes.extend(costs.iter().flat_map(|cost| cost.to_be_bytes()));
    bytes
}

/// The settings of document 01's listing.
pub const LISTED: Settings = Settings::new(256, 0, 2, 0);

fn listing() -> Vec<Case> {
    let mut input = records(&one_check(3));
    input.extend(settings_record(LISTED));
    for costs in [[0; 3], [20_000, 20_000, -8_000], [20_000; 3], [i16::MIN; 3]] {
        input.extend(frame_record(&costs));
    }
    cut_everywhere(&input)
}

/// Every beginning of an input, and the input.
pub fn cut_everywhere(input: &[u8]) -> Vec<Case> {
    (0..=input.len())
        .map(|length| Case::Frames {
            input: input[..length].to_vec(),
        })
        .collect()
}

/// A check with an auxiliary; frames with the forbidden cost at every place,
/// each with a sound frame after it; another mark, which ends the program, and a
/// frame that is never read.
fn two_checks() -> Vec<Case> {
    let code = Code {
        bits: 5,
        checks: vec![vec![0, 1, 2, 3], vec![2, 3, 4]],
    };
    let mut input = records(&code);
    input.extend(settings_record(LISTED));
    for place in 0..5 {
        let mut costs = [9_000, -7_000, 5_000, -3_000, 1_000];
        input.extend(frame_record(&costs));
        costs[place] = i16::MIN;
        input.extend(frame_record(&costs));
    }
    input.extend(frame_record(&[0; 5]));
    input.extend(settings_record(LISTED));
    input.extend(frame_record(&[1; 5]));
    cut_everywhere(&input)
}

/// R 8 comes after the last check, whatever follows: settings of every kind or
/// nothing.
fn unused_bit() -> Vec<Case> {
    let code = Code {
        bits: 5,
        checks: vec![vec![0, 1, 2], vec![1, 2, 3]],
    };
    let mut cases = Vec::new();
    for settings in [LISTED, Settings::new(0, 1_024, 0, 0)] {
        let frame = frame_record(&[0; 5]);
        let input = [records(&code), settings_record(settings), frame].concat();
        cases.extend(cut_everywhere(&input));
    }
    cases
}

/// Codes of about 512 bits and 1,024 triples, whole, cut, damaged and followed
/// by settings.
fn room() -> Vec<Case> {
    let mut random = Random::new(6);
    let sizes = [
        (512, 256, 1_024),
        (512, 256, 1_025),
        (513, 256, 1_024),
        (511, 100, 1_023),
        (512, 16, 480),
        (32, 35, 1_024),
        (32, 35, 1_030),
        (7, 206, 1_026),
    ];
    let of_sizes = |(bits, checks, triples)| about(&code_of(&mut random, bits, checks, triples));
    sizes.into_iter().flat_map(of_sizes).collect()
}

/// A code with settings and a frame, whole, cut about the end of the code, with no checks, with
/// a bit more and with a last index too high.
pub fn about(code: &Code) -> Vec<Case> {
    let end = records(code).len();
    let whole = input_of(code, LISTED, &[vec![100; code.bits]]);
    let mut no_checks = whole.clone();
    no_checks[4..6].copy_from_slice(&[0, 0]);
    let mut unused = whole.clone();
    unused[2..4].copy_from_slice(&(code.bits as u16 + 1).to_be_bytes());
    let mut high_index = whole.clone();
    high_index[end - 1] = 255;
    high_index[end - 2] = 255;
    let lengths = [4, 5, 6, end - 1, end, end + 1, end + 2, end + 12];
    let cut = lengths.map(|length| whole[..length].to_vec());
    let inputs = cut
        .into_iter()
        .chain([whole, no_checks, unused, high_index]);
    inputs.map(|input| Case::Frames { input }).collect()
}

fn edge_settings() -> Vec<Case> {
    let mut cases = Vec::new();
    for field in 0..3 {
        for number in [0u16, 1, 1_000, 1_001, 1_023, 1_024, 4_000, 4_001, 65_535] {
            let mut record = settings_record(LISTED);
            record[2 + 2 * field..4 + 2 * field].copy_from_slice(&number.to_be_bytes());
            for length in 0..=record.len() {
                let input = [&records(&one_check(3)), &record[..length]].concat();
                cases.push(Case::Frames { input });
            }
        }
    }
    for tolerance in [0x3FFF_FFFF, 0x4000_0000, 0x0000_0040, 0xFFFF_FFFF] {
        let record = settings_record(Settings::new(256, 0, 2, tolerance));
        let input = [records(&one_check(3)), record, frame_record(&[0; 3])].concat();
        cases.push(Case::Frames { input });
    }
    cases
}

/// The input of a code, settings and frames.
pub fn input_of(code: &Code, settings: Settings, frames: &[Vec<i16>]) -> Vec<u8> {
    let mut input = records(code);
    input.extend(settings_record(settings));
    input.extend(frames.iter().flat_map(|costs| frame_record(costs)));
    input
}

pub fn whole(code: &Code, settings: Settings, frames: &[Vec<i16>]) -> Case {
    Case::Frames {
        input: input_of(code, settings, frames),
    }
}

/// Two frames that go on to the limit, and one between them that settles.
fn limits() -> Vec<Case> {
    let frames = [[-20_000; 3], [20_000; 3], [-20_000; 3]].map(Vec::from);
    let case = |limit| whole(&one_check(3), Settings::new(256, 0, limit, 0), &frames);
    [999, 1_000, 1_001, 3_999, 4_000].map(case).into()
}

/// Settings and a few frames for a code.
fn after_code(random: &mut Random, code: &Code) -> Vec<u8> {
    let count = random.below(6);
    settings_and_frames(random, code, count)
}

/// Settings and so many frames for a code.
fn settings_and_frames(random: &mut Random, code: &Code, count: usize) -> Vec<u8> {
    let codewords = Codewords::of(code);
    let mut bytes = settings_record(random_settings(random));
    for _ in 0..count {
        let codeword = codewords.random(random);
        let mut costs = random_costs(random, &codeword);
        if random.once_in(5) {
            let place = random.below(costs.len());
            costs[place] = i16::MIN;
        }
        bytes.extend(frame_record(&costs));
    }
    bytes
}

pub fn stream_of(random: &mut Random, code: fn(&mut Random) -> Code) -> Vec<u8> {
    let code = code(random);
    [records(&code), after_code(random, &code)].concat()
}

fn some_code(random: &mut Random) -> Code {
    match random.below(3) {
        0 => code_within(random, 60, 30, 200),
        _ => tiny_code(random),
    }
}

fn stream(random: &mut Random) -> Case {
    Case::Frames {
        input: stream_of(random, some_code),
    }
}

fn cut_stream(random: &mut Random) -> Case {
    let mut input = stream_of(random, some_code);
    input.truncate(random.below(input.len()));
    Case::Frames { input }
}

fn damaged_stream(random: &mut Random) -> Case {
    damaged_stream_of(random, some_code)
}

/// A stream with bytes flipped, left out or put in.
pub fn damaged_stream_of(random: &mut Random, code: fn(&mut Random) -> Code) -> Case {
    let mut input = stream_of(random, code);
    for _ in 0..random.between(1, 2) {
        let place = random.below(input.len());
        match random.below(4) {
            0 => drop(input.remove(place)),
            1 => input.insert(place, random.pick(&[0, b'L', 255])),
            _ => input[place] ^= random.between(1, 255) as u8,
        }
    }
    Case::Frames { input }
}

fn damaged_records(random: &mut Random) -> Case {
    damaged_records_of(random, some_code)
}

/// Damaged code records, with settings and frames after them.
pub fn damaged_records_of(random: &mut Random, code: fn(&mut Random) -> Code) -> Case {
    let mut draft = Draft::random(random, code);
    for _ in 0..random.between(1, 2) {
        let damage = random.pick(&damages_of(Entry::Read));
        apply(random, &mut draft, Entry::Read, damage);
    }
    let after = after_code(random, &draft.code);
    let input = [draft.records, after].concat();
    Case::Frames { input }
}

fn large_stream(random: &mut Random) -> Case {
    Case::Frames {
        input: stream_of(random, |random| code_within(random, 512, 300, 1_024)),
    }
}

/// More frames than the pipe to the program holds at once.
fn long_stream(random: &mut Random) -> Case {
    let code = code_within(random, 60, 30, 200);
    let count = random.between(600, 1_200);
    let after = settings_and_frames(random, &code, count);
    let input = [records(&code), after].concat();
    Case::Frames { input }
}

/// Weak costs: hardly any of these frames settles.
fn longest_frames(random: &mut Random) -> Case {
    let code = tiny_code(random);
    let count = random.between(1, 3);
    let frames: Vec<_> = (0..count)
        .map(|_| wild_costs(random, code.bits, 300))
        .collect();
    whole(&code, Settings::new(16, 0, 4_000, 0), &frames)
}

/// Rows beyond what 1,000 iterations reach.
fn strained_frames(random: &mut Random) -> Case {
    let code = strained_code([0; 3].map(|_| random.between(4, 20)));
    let frames = [20_000, 32_767].map(|least| straining_costs(random, &code, least));
    let ratio = random.pick(&[0, 150, 1_023]);
    whole(&code, Settings::new(65_535, ratio, 4_000, 0), &frames)
}
