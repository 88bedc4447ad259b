//! The call of a group: causes, then the frames without a false cost, each in its parts of the
//! lists.

use super::records::Code;
use super::run::{conclude, has_room, in_range, Run, State, Task};
use super::split::fill;
use super::Refused;
use interface::{work_length, GroupAnswer, Lists, Settings, MOST_FRAMES};

/// What the caller gives, but for the lists.
pub struct Input<'a> {
    pub code: &'a [u8],
    pub settings: Settings,
    pub frames: usize,
    pub costs: &'a [i16],
}

/// Makes a type the decoder of groups that runs frames in this way.
macro_rules! grouping {
    ($rival:ident, $run:expr) => {
        impl interface::Grouping for $rival {
            fn decode_group(
                &self,
                code: &[u8],
                settings: interface::Settings,
                frames: usize,
                costs: &[i16],
                lists: interface::Lists,
                work: &mut [i32],
            ) -> interface::GroupAnswer {
                let input = $crate::plain::group::Input {
                    code,
                    settings,
                    frames,
                    costs,
                };
                $crate::plain::group::decode(input, lists, work, $run)
            }
        }
    };
}

pub(crate) use grouping;

/// A frame to run, and what came of it.
pub struct Frame<'a> {
    /// Which of the given frames it is.
    place: usize,
    pub task: Task<'a>,
    pub state: State<'a>,
    /// The iterations done, and whether it settled.
    pub end: (u32, bool),
}

/// Runs frames of one code with the same settings; the work list has room for them.
pub type RunFrames = fn(&mut [Frame], &mut [i32]);

/// Runs one frame after the other.
pub fn run_each(frames: &mut [Frame], run: Run) {
    for frame in frames {
        frame.end = run(&frame.task, &mut frame.state);
    }
}

/// A group's call around any way to run its frames.
pub fn decode(input: Input, lists: Lists, work: &mut [i32], run: RunFrames) -> GroupAnswer {
    match accept(&input, &lists, work.len()) {
        Ok(code) => decode_accepted(&code, &input, lists, work, run),
        Err(number) => GroupAnswer {
            number,
            ..GroupAnswer::default()
        },
    }
}

fn accept(input: &Input, lists: &Lists, work: usize) -> Refused<Code> {
    let frames = input.frames;
    let code = Code::read(input.code)?;
    if !in_range(input.settings) {
        Err(11)
    } else if !(1..=MOST_FRAMES).contains(&frames) {
        Err(21)
    } else if input.costs.len() != frames * code.bits {
        Err(12)
    } else if !has_room(&code, frames, lists)
        || work < work_length(frames, code.bits, code.variables(), code.triples())
    {
        Err(10)
    } else {
        Ok(code)
    }
}

/// The runs on accepted input, and the words that there are.
fn decode_accepted(
    code: &Code,
    input: &Input,
    lists: Lists,
    work: &mut [i32],
    run: RunFrames,
) -> GroupAnswer {
    let (bits, triples, variables) = (code.bits, code.triples(), code.variables());
    fill(code, lists.triples, lists.counts);
    let task = |costs| Task {
        code,
        settings: input.settings,
        costs,
        triples: &lists.triples[..3 * triples],
        counts: &lists.counts[..variables],
    };
    let sums = lists.sums.chunks_exact_mut(variables);
    let values = lists.values.chunks_exact_mut(variables);
    let rows = lists.rows.chunks_exact_mut(4 * triples);
    let states = sums.zip(values).zip(rows);
    let frames = input.costs.chunks_exact(bits).zip(states).enumerate();
    let frames = frames.map(|(place, (costs, ((sums, values), rows)))| Frame {
        place,
        task: task(costs),
        state: State { sums, values, rows },
        end: (0, false),
    });
    let mut frames: Vec<Frame> = frames.filter(has_true_costs).collect();
    run(&mut frames, work);
    answer(code, input.frames, frames, lists.word)
}

fn has_true_costs(frame: &Frame) -> bool {
    !frame.task.costs.contains(&i16::MIN)
}

/// What so many frames are answered: 13, unless they ran.
fn answer(code: &Code, given: usize, ran: Vec<Frame>, words: &mut [u8]) -> GroupAnswer {
    let mut answer = GroupAnswer::default();
    let given = answer.frames[..given].iter_mut();
    given.for_each(|frame| frame.number = 13);
    for frame in ran {
        let word = &mut words[frame.place * code.bits..][..code.bits];
        let values = &frame.state.values[..code.bits];
        answer.frames[frame.place] = conclude(code, frame.end, values, word);
    }
    answer
}
