//! Groups of frames (document 02, L7): the causes against a group in their order, then every
//! frame by itself.

use crate::cause::{holding, Cause};
use crate::decoder::{lengths, Parts};
use crate::fault::Fault;
use crate::iteration::{iterate, Problem};
use crate::records::Code;
use crate::run::{run, End};
use crate::splitting::Split;
use crate::Reference;
use interface::{DecodeAnswer, GroupAnswer, Lists, Settings, MOST_FRAMES};

/// How a frame ran, or what is against it.
type Ran = Result<(Problem, End), Cause>;

/// A frame's part of a list in which each has so many entries, as far as the list reaches.
fn part<T>(list: &mut [T], start: usize, size: usize) -> &mut [T] {
    let end = list.len().min(start + size);
    &mut list[start.min(end)..end]
}

fn has_false_cost(costs: &[i16]) -> bool {
    costs.contains(&i16::MIN)
}

impl Reference {
    /// How many entries the work list of so many frames needs.
    fn work_needed(self, code: &Code, frames: usize) -> usize {
        let lanes = match self.fault {
            Some(Fault::WorkNotJudged) => 0,
            Some(Fault::WorkForFourAsked) => 4,
            Some(Fault::WorkForEightAsked) => 8,
            _ if frames <= 4 => 4,
            _ => 8,
        };
        lanes * (4 * self.triples(code) + 3 * self.variables(code) + 3 * code.bits)
    }

    /// Whether lists of these lengths, the work list's last, are enough for a group.
    fn have_room_for_group(self, code: &Code, frames: usize, room: [usize; 7]) -> bool {
        let [lists @ .., work] = room;
        let asked = match self.has(Fault::RoomForEightAsked) {
            true => MOST_FRAMES,
            false => frames,
        };
        self.have_room(code, asked, lists) && work >= self.work_needed(code, frames)
    }

    /// Whether the costs of so many frames have another length than so much for each.
    fn other_length(self, code: &Code, frames: usize, costs: usize) -> bool {
        match frames.checked_mul(code.bits) {
            Some(needed) if self.has(Fault::LongerCostsAccepted) => costs < needed,
            needed => needed != Some(costs),
        }
    }

    /// The causes against a group that need no code.
    fn against_settings(self, settings: Settings, frames: usize) -> [(Cause, bool); 2] {
        let accepted = self.has(Fault::NoFramesAccepted) && frames == 0;
        let outside = !self.within(frames, 1, MOST_FRAMES) && !accepted;
        [
            (Cause::Setting, !self.in_range(settings)),
            (Cause::FrameCount, outside),
        ]
    }

    /// The causes against a group with these costs and lists of these lengths. A false cost is
    /// its frame's alone, but for faults.
    fn against_group(
        self,
        code: &Code,
        frames: usize,
        costs: &[i16],
        room: [usize; 7],
    ) -> [(Cause, bool); 4] {
        let short = !self.have_room_for_group(code, frames, room);
        let refuses = |fault| has_false_cost(costs) && self.has(fault);
        [
            (Cause::Lengths, self.other_length(code, frames, costs.len())),
            (Cause::Cost, refuses(Fault::FalseCostBeforeRoom) && short),
            (Cause::ListTooShort, short),
            (Cause::Cost, refuses(Fault::FalseCostRefusesGroup)),
        ]
    }

    /// Every cause against a group, with 13 where a frame has a false cost; where the records
    /// make no code, theirs and those that need none.
    pub fn causes_of_group(
        self,
        code: &[u8],
        settings: Settings,
        frames: usize,
        costs: &[i16],
        room: [usize; 7],
    ) -> Vec<Cause> {
        let mut judged = self.against_settings(settings, frames).to_vec();
        judged.push((Cause::Cost, has_false_cost(costs)));
        match self.read_whole(code) {
            Err(cause) => judged.push((cause, true)),
            Ok((code, causes)) => {
                judged.extend(causes);
                judged.extend(self.against_group(&code, frames, costs, room));
            }
        }
        holding(judged)
    }

    /// What a refused group is answered.
    pub(crate) fn refused_group(self, cause: Cause) -> GroupAnswer {
        let mut answer = GroupAnswer {
            number: cause as u32,
            ..GroupAnswer::default()
        };
        if self.has(Fault::AnswersWithRefusal) {
            answer.frames.fill(cause.into());
        }
        answer
    }

    pub(crate) fn try_decode_group(
        self,
        code: &[u8],
        settings: Settings,
        frames: usize,
        costs: &[i16],
        lists: Lists,
        work: &mut [i32],
    ) -> Result<GroupAnswer, Cause> {
        let code = self.read_code(code)?;
        let split = self.split_code(&code);
        let [triples, counts, sums, values, rows, word] = lengths(&lists);
        let room = [triples, counts, sums, values, rows, word, work.len()];
        if self.has(Fault::SplitBeforeJudged) && self.have_room_for_group(&code, frames, room) {
            self.write_split(&split, lists.triples, lists.counts);
        }
        if self.has(Fault::WorkClearedFirst) {
            work.fill(0);
        }
        let [setting, count] = self.against_settings(settings, frames);
        let [length, early, short, late] = self.against_group(&code, frames, costs, room);
        self.judge(&[setting, count, length, early, short, late])?;
        let mut runs = Vec::new();
        for frame in 0..frames {
            let costs = &costs[code.bits * self.source(frame, frames)..][..code.bits];
            runs.push(self.run_frame(&split, settings, costs));
        }
        self.slip_in_runs(&mut runs);
        if runs.iter().any(Result::is_ok) || !self.has(Fault::FalseFramesLeaveSplit) {
            self.write_split(&split, lists.triples, lists.counts);
        }
        self.write_runs(&code, runs, lists)
    }

    /// Runs one frame, unless a cost is false.
    fn run_frame(self, split: &Split, settings: Settings, costs: &[i16]) -> Ran {
        self.judge(&[(Cause::Cost, has_false_cost(costs))])?;
        let problem = Problem::new(self, split.clone(), settings, costs);
        let end = run(&problem, &mut |_, _| ());
        Ok((problem, end))
    }

    /// Writes what every frame left to its parts; those of a frame with a false cost stay.
    fn write_runs(self, code: &Code, runs: Vec<Ran>, lists: Lists) -> Result<GroupAnswer, Cause> {
        let (triples, variables) = (self.triples(code), self.variables(code));
        let frames = runs.len();
        let mut answer = GroupAnswer::default();
        for (frame, ran) in runs.into_iter().enumerate() {
            let mut word = frame * code.bits;
            if self.has(Fault::WordsAtVariables) {
                word = (frame * variables).min(lists.word.len() - code.bits);
            }
            let parts = Parts {
                sums: part(lists.sums, frame * variables, variables),
                values: part(lists.values, frame * variables, variables),
                rows: part(lists.rows, frame * 4 * triples, 4 * triples),
                word: part(lists.word, word, code.bits),
            };
            answer.frames[frame] = match ran {
                Ok((problem, end)) => self.write_end(code, &problem, &end, parts)?,
                Err(cause) => {
                    if self.has(Fault::FalseFrameRowsCleared) {
                        parts.rows.fill(0);
                    }
                    cause.into()
                }
            };
        }
        if self.has(Fault::RestOfFramesCleared) {
            lists.sums[frames * variables..].fill(0);
            lists.word[frames * code.bits..].fill(0);
        }
        self.slip_in_answers(frames, &mut answer);
        Ok(answer)
    }
}

/// What faults make of a group.
impl Reference {
    /// The frame whose costs a frame gets.
    fn source(self, frame: usize, frames: usize) -> usize {
        match self.fault {
            Some(Fault::FramesExchanged) => frames - 1 - frame,
            Some(Fault::SecondFourAsFirst) => frame % 4,
            _ => frame,
        }
    }

    fn slip_in_runs(self, runs: &mut Vec<Ran>) {
        if self.has(Fault::LastFrameLeftOut) {
            runs.pop();
        }
        if self.has(Fault::FalseFrameEndsGroup) {
            let decoded = runs.iter().take_while(|ran| ran.is_ok()).count();
            runs.truncate(decoded + 1);
        }
        let iterations = || runs.iter().flatten().map(|(_, end)| end.k);
        let Some((least, most)) = iterations().min().zip(iterations().max()) else {
            return;
        };
        for (problem, end) in runs.iter_mut().flatten() {
            match self.fault {
                Some(Fault::StoppedFrameRenewed) if end.k < most => {
                    end.last = iterate(problem, &end.last).0;
                }
                Some(Fault::GroupStopsWithFirst) => {
                    problem.settings.limit = least;
                    *end = run(problem, &mut |_, _| ());
                }
                Some(Fault::LongestRunTold) => end.k = most,
                _ => (),
            }
        }
    }

    fn slip_in_answers(self, frames: usize, answer: &mut GroupAnswer) {
        let (given, past) = answer.frames.split_at_mut(frames);
        match self.fault {
            Some(Fault::AnswersExchanged) => given.reverse(),
            Some(Fault::AnswersPacked) => given.sort_by_key(|answer| answer.number == 13),
            Some(Fault::AnswersPastFrames) => {
                past.fill(given.last().copied().unwrap_or_default());
            }
            Some(Fault::SettledTogether) => {
                let all = given.iter().all(|answer| answer.settled == 1);
                let told = |answer: &mut DecodeAnswer| answer.settled &= u32::from(all);
                given.iter_mut().for_each(told);
            }
            _ => (),
        }
    }
}
