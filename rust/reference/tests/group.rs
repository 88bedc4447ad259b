//! Groups of frames: frames by hand, every cause in its order, false costs in each place, and
//! lists that are too short or longer.

mod common;

use common::*;

const SETTINGS: Settings = Settings::new(256, 0, 2, 0);

/// Lists for a group of the small code, all entries 77, and its work list, all entries 78.
struct Lent {
    lists: OwnLists,
    work: Vec<i32>,
}

impl Lent {
    fn exact(frames: usize) -> Lent {
        Lent {
            lists: OwnLists::exact_group(frames, 3, 3, 1, 77),
            work: vec![78; work_length(frames, 3, 3, 1)],
        }
    }

    /// Decodes so many frames of the small code.
    fn decode(&mut self, settings: Settings, frames: usize, costs: &[i16]) -> GroupAnswer {
        let lists = self.lists.lend();
        SOUND.decode_group(&small(), settings, frames, costs, lists, &mut self.work)
    }

    /// Fails unless the group is refused with this number and everything stays.
    fn refuse(&mut self, settings: Settings, frames: usize, costs: &[i16], number: u32) {
        let (lists, work) = (self.lists.clone(), self.work.clone());
        let refused = GroupAnswer {
            number,
            ..GroupAnswer::default()
        };
        assert_eq!(self.decode(settings, frames, costs), refused);
        assert_eq!((&self.lists, &self.work), (&lists, &work));
    }
}

fn answer(number: u32, k: u32, settled: u32) -> DecodeAnswer {
    DecodeAnswer {
        number,
        place: 0,
        k,
        settled,
    }
}

/// Costs of so many frames, of which some have a false cost.
fn costs_with_false(frames: usize, is_false: impl Fn(usize) -> bool) -> Vec<i16> {
    let costs = (0..frames).flat_map(|frame| match is_false(frame) {
        true => [5, i16::MIN, -5],
        false => [20_000, 20_000, 100 * frame as i16 - 8_000],
    });
    costs.collect()
}

#[test]
fn three_frames_by_hand() {
    let mut lent = Lent::exact(3);
    let costs = [0, 0, 0, 20_000, 20_000, -8_000, 20_000, 20_000, 20_000];
    let found = lent.decode(SETTINGS, 3, &costs);
    let mut frames = [DecodeAnswer::default(); 8];
    frames[..3].copy_from_slice(&[answer(16, 2, 1), answer(17, 2, 0), answer(0, 2, 0)]);
    assert_eq!(found, GroupAnswer { number: 0, frames });
    let OwnLists {
        triples,
        counts,
        values,
        rows,
        word,
        ..
    } = lent.lists;
    assert_eq!(triples, [0, 1, 2]);
    assert_eq!(counts, [1, 1, 1]);
    assert_eq!(values[..6], [0, 0, 0, -10_000, -10_000, 4_000]);
    assert_eq!(rows[..4], [-16_384; 4]);
    assert_eq!(rows[4..8], [-20_384, -20_384, 7_616, -32_384]);
    // Only the last frame has a word.
    assert_eq!(word, [77, 77, 77, 77, 77, 77, 0, 0, 0]);
}

#[test]
fn the_order_of_causes() {
    let bad = Settings::new(0, 0, 2, 0);
    for frames in [1, 4, 8] {
        let false_costs = costs_with_false(frames, |_| true);
        let mut lent = Lent::exact(frames);
        lent.lists.word.pop();
        for other in [0, 9, usize::MAX] {
            lent.refuse(bad, other, &false_costs, 11);
            lent.refuse(SETTINGS, other, &false_costs, 21);
        }
        lent.refuse(bad, frames, &false_costs[1..], 11);
        lent.refuse(SETTINGS, frames, &false_costs[1..], 12);
        lent.refuse(SETTINGS, frames, &false_costs, 10);
    }
    let mut lent = Lent::exact(1);
    lent.refuse(SETTINGS, 0, &[], 21);
}

#[test]
fn costs_for_each_frame() {
    for frames in 1..=8 {
        let costs = vec![9; 3 * frames + 3];
        let mut lent = Lent::exact(frames);
        for length in [0, 3, 3 * frames - 3, 3 * frames - 1, 3 * frames + 1] {
            if length != 3 * frames {
                lent.refuse(SETTINGS, frames, &costs[..length], 12);
            }
        }
        lent.refuse(SETTINGS, frames, &costs, 12);
        assert_eq!(
            lent.decode(SETTINGS, frames, &costs[..3 * frames]).number,
            0
        );
    }
}

fn cut<T>(list: &mut Vec<T>) {
    list.pop();
}

#[test]
fn each_short_list() {
    let shorten: [fn(&mut Lent); 7] = [
        |lent| cut(&mut lent.lists.triples),
        |lent| cut(&mut lent.lists.counts),
        |lent| cut(&mut lent.lists.sums),
        |lent| cut(&mut lent.lists.values),
        |lent| cut(&mut lent.lists.rows),
        |lent| cut(&mut lent.lists.word),
        |lent| cut(&mut lent.work),
    ];
    for frames in 1..=8 {
        for shorten in shorten {
            let mut lent = Lent::exact(frames);
            shorten(&mut lent);
            let none = costs_with_false(frames, |_| false);
            lent.refuse(SETTINGS, frames, &none, 10);
            let all = costs_with_false(frames, |_| true);
            lent.refuse(SETTINGS, frames, &all, 10);
        }
    }
}

#[test]
fn the_length_of_the_work_list() {
    // 4T + 3V + 3n is 22 for the small code.
    let lengths: Vec<usize> = (1..=8).map(|frames| work_length(frames, 3, 3, 1)).collect();
    assert_eq!(lengths, [88, 88, 88, 88, 176, 176, 176, 176]);
    assert_eq!(work_length(8, 4_096, 12_288, 8_192), 655_360);
}

/// The decoder's lists for one frame of the small code, and its answer.
fn alone(costs: &[i16]) -> (DecodeAnswer, OwnLists) {
    let mut lent = lists(3, 3, 1);
    let found = decode_into(&mut lent, SETTINGS, costs);
    (found, lent)
}

/// Checks a group whose false frames are told, in lists with two frames' room more.
fn check(frames: usize, is_false: impl Fn(usize) -> bool) {
    let costs = costs_with_false(frames, &is_false);
    let mut lent = Lent::exact(frames + 2);
    let found = lent.decode(SETTINGS, frames, &costs);
    assert_eq!(found.number, 0);
    assert_eq!(lent.lists.triples, [0, 1, 2]);
    assert_eq!(lent.lists.counts, [1, 1, 1]);
    for frame in 0..frames + 2 {
        let (due, part) = match costs.chunks_exact(3).nth(frame) {
            Some(costs) => alone(costs),
            None => (DecodeAnswer::default(), lists(3, 3, 1)),
        };
        if frame < 8 {
            assert_eq!(found.frames[frame], due);
            assert_eq!(due.number == 13, frame < frames && is_false(frame));
        }
        assert_eq!(lent.lists.sums[3 * frame..][..3], part.sums);
        assert_eq!(lent.lists.values[3 * frame..][..3], part.values);
        assert_eq!(lent.lists.rows[4 * frame..][..4], part.rows);
        assert_eq!(lent.lists.word[3 * frame..][..3], part.word);
    }
}

#[test]
fn frames_are_single_runs_and_false_ones_keep_their_parts() {
    for frames in 1..=8 {
        check(frames, |_| false);
        check(frames, |_| true);
        for place in 0..frames {
            check(frames, |frame| frame == place);
            check(frames, |frame| frame != place);
        }
    }
}

#[test]
fn frames_that_stop_at_different_iterations() {
    // Zeros settle after 2 iterations, whatever the other frame does; it does not settle.
    let run = |costs: &[i16], limit| {
        let mut lent = Lent::exact(2);
        let found = lent.decode(Settings::new(256, 0, limit, 0), 2, costs);
        let [first, second, ..] = found.frames;
        ((first.k, second.k), lent.lists.rows)
    };
    let (first, last) = ([0, 0, 0, 7, -900, 30], [7, -900, 30, 0, 0, 0]);
    for limit in [3, 10, 4_000] {
        let (k, rows) = run(&first, limit);
        assert_eq!((k, &rows[..4]), ((2, limit), &[-16_384; 4][..]));
        let (k, others) = run(&last, limit);
        assert_eq!((k, &others[4..]), ((limit, 2), &[-16_384; 4][..]));
        assert_eq!(rows[4..], others[..4]);
    }
}
