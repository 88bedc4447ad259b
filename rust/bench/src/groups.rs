//! Groups of frames: rounds in which each way to decode them takes its turn at the same group.

use crate::contest::{in_turn, summed};
use crate::scenario::Scenario;
use interface::{
    work_length, Decoder, GroupAnswer, Grouping, Lists, OwnLists, Settings, MOST_FRAMES,
};
use rivals::{Plain, Tuned};

/// How many frames the groups have.
pub const SIZES: [usize; 5] = [1, 2, 3, 4, MOST_FRAMES];

/// One call for all frames of a group, or one for each.
enum Way {
    Together(Box<dyn Grouping>),
    Singly(Box<dyn Decoder>),
}

struct Entrant {
    name: &'static str,
    way: Way,
}

impl Entrant {
    fn together(name: &'static str, grouping: impl Grouping + 'static) -> Entrant {
        let way = Way::Together(Box::new(grouping));
        Entrant { name, way }
    }

    fn singly(name: &'static str, decoder: impl Decoder + 'static) -> Entrant {
        let way = Way::Singly(Box::new(decoder));
        Entrant { name, way }
    }
}

/// The frames of a scenario in groups of one size, without those that are left over.
struct Task<'a> {
    code: &'a [u8],
    bits: usize,
    settings: Settings,
    frames: usize,
    groups: Vec<Vec<i16>>,
}

impl Task<'_> {
    fn new(scenario: &Scenario, frames: usize) -> Task<'_> {
        let groups = scenario.frames.chunks_exact(frames);
        Task {
            code: &scenario.records,
            bits: scenario.code.bits,
            settings: scenario.settings,
            frames,
            groups: groups.map(<[Vec<i16>]>::concat).collect(),
        }
    }

    fn decode(&self, way: &Way, group: usize, lists: Lists, work: &mut [i32]) -> GroupAnswer {
        let (code, settings, costs) = (self.code, self.settings, &self.groups[group]);
        match way {
            Way::Together(grouping) => {
                grouping.decode_group(code, settings, self.frames, costs, lists, work)
            }
            Way::Singly(decoder) => self.decode_singly(decoder.as_ref(), costs, lists),
        }
    }

    /// Decodes each frame into its parts of the lists.
    fn decode_singly(&self, decoder: &dyn Decoder, costs: &[i16], lists: Lists) -> GroupAnswer {
        let variables = lists.values.len() / self.frames;
        let rows = lists.rows.len() / self.frames;
        let mut answer = GroupAnswer::default();
        for (frame, costs) in costs.chunks_exact(self.bits).enumerate() {
            let parts = Lists {
                triples: lists.triples,
                counts: lists.counts,
                sums: &mut lists.sums[frame * variables..][..variables],
                values: &mut lists.values[frame * variables..][..variables],
                rows: &mut lists.rows[frame * rows..][..rows],
                word: &mut lists.word[frame * self.bits..][..self.bits],
            };
            answer.frames[frame] = decoder.decode(self.code, self.settings, costs, parts);
        }
        answer
    }
}

pub struct Groups {
    entrants: Vec<Entrant>,
}

/// What the frames came to, and the seconds that each way took for all of them.
pub struct GroupsResult {
    pub iterations: u64,
    pub seconds: Vec<f64>,
}

impl Groups {
    pub fn new() -> Groups {
        Groups {
            entrants: vec![
                #[cfg(feature = "library")]
                Entrant::singly("singles", widagbe::Widagbe),
                #[cfg(feature = "library")]
                Entrant::together("group", widagbe::Widagbe),
                Entrant::singly("tuned singles", Tuned),
                Entrant::together("tuned group", Tuned),
            ],
        }
    }

    pub fn names(&self) -> Vec<&'static str> {
        self.entrants.iter().map(|entrant| entrant.name).collect()
    }

    /// Checks that all ways agree, then measures them in turn, in groups of so many frames.
    pub fn run(&self, scenario: &Scenario, frames: usize) -> GroupsResult {
        let code = &scenario.code;
        let (bits, variables, triples) = (code.bits, code.variables(), code.triples());
        let task = Task::new(scenario, frames);
        let lists = OwnLists::exact_group(frames, bits, variables, triples, 0);
        let mut work = vec![0; work_length(frames, bits, variables, triples)];
        let iterations = self.agreed(&task, &lists, &mut work);
        let mut lists = lists;
        let counts = vec![task.groups.len(); self.entrants.len()];
        let times = in_turn(&counts, |entrant, group| {
            let way = &self.entrants[entrant].way;
            task.decode(way, group, lists.lend(), &mut work);
        });
        let least = |times| summed(times).map_or(0.0, |(least, _)| least);
        GroupsResult {
            iterations,
            seconds: times.into_iter().map(least).collect(),
        }
    }

    /// The iterations of all frames.
    fn agreed(&self, task: &Task, lists: &OwnLists, work: &mut [i32]) -> u64 {
        let plain = Way::Together(Box::new(Plain));
        let mut iterations = 0;
        for group in 0..task.groups.len() {
            let mut first = lists.clone();
            let answer = task.decode(&plain, group, first.lend(), work);
            for Entrant { name, way } in &self.entrants {
                let mut other = lists.clone();
                let found = task.decode(way, group, other.lend(), work);
                assert!(found == answer && other == first, "{name} differs");
            }
            iterations += answer
                .frames
                .map(|frame| u64::from(frame.k))
                .iter()
                .sum::<u64>();
        }
        iterations
    }
}
