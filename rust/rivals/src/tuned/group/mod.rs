//! Groups of frames: four run together, a frame a lane, and where one stops the next begins in
//! its lane.
//!
//! It is exact in all runs, as the single rival is: before an S could exceed what an f32 holds
//! exactly, the plain rival goes on with each frame. Settings and codes whose quotients an f32
//! does not give are left to the single rival.

mod checks;
mod layout;
mod lists;
mod quotient;
mod totals;
mod work;

use super::{run_tuned, run_tuned_on, safe_iterations, EXACT};
use crate::plain::group::{run_each, Frame};
use crate::plain::run::{run_on, State, Task};
use interface::Settings;
use layout::Layout;
use quotient::{divisor, is_exact};
use totals::MOST_TOLERANCE;
use work::{Work, LANES};

/// So many frames are as fast one after the other.
const FEW: usize = 2;

/// A frame that is alone for so many iterations leaves its lane: it runs faster by itself, but
/// takes some iterations' time to be taken over.
const LONG: u32 = 2;

/// Goes on with a run whose rows stand after so many iterations.
type RunOn = fn(&Task, &mut State, u32) -> (u32, bool);

/// Runs frames of one code with the same settings.
pub fn run_frames(frames: &mut [Frame], list: &mut [i32]) {
    if frames.len() <= FEW {
        return run_each(frames, run_tuned);
    }
    let Task {
        code,
        counts,
        settings,
        ..
    } = frames[0].task;
    let layout = Layout::of(code, counts);
    let work = match is_suited(settings, &layout) {
        true => Work::new(&layout, settings, list),
        false => None,
    };
    match work {
        Some(work) => Group::new(frames, &layout, work).run(frames),
        None => run_each(frames, run_tuned),
    }
}

/// Whether all quotients and totals are exact.
fn is_suited(settings: Settings, layout: &Layout) -> bool {
    let exact = |count, weight| is_exact(divisor(count, settings.ratio), weight);
    let mut classes = layout.bit_classes.iter();
    settings.tolerance < MOST_TOLERANCE
        && exact(2, 0)
        && classes.all(|class| exact(class.size as u32, settings.weight))
}

/// A frame that runs in a lane.
#[derive(Clone, Copy)]
struct Runner {
    frame: usize,
    /// Its iterations so far.
    k: u32,
}

struct Group<'a> {
    work: Work<'a>,
    lanes: [Option<Runner>; LANES],
    /// The frames from here on wait.
    waiting: usize,
    /// The most triples of a variable.
    most: usize,
    /// What the largest cost adds to an S.
    cost: usize,
}

impl<'a> Group<'a> {
    fn new(frames: &[Frame], layout: &Layout, work: Work<'a>) -> Group<'a> {
        let weight = frames[0].task.settings.weight as usize;
        let costs = frames.iter().flat_map(|frame| frame.task.costs);
        let cost = costs.map(|cost| cost.unsigned_abs()).max().unwrap_or(0);
        // An auxiliary lies in two triples.
        let most = layout.bit_classes.last().map_or(2, |class| class.size);
        Group {
            work,
            lanes: [None; LANES],
            waiting: 0,
            most: most.max(2),
            cost: usize::from(cost) * weight / 256 + 1,
        }
    }

    /// Runs all frames.
    fn run(mut self, frames: &mut [Frame]) {
        for lane in 0..LANES {
            self.fill(lane, frames);
        }
        let (mut safe, mut alone) = (self.safe_iterations(65536), 0);
        while self.running() > 0 {
            if safe == 0 {
                safe = self.safe_iterations(self.work.largest());
            }
            if safe == 0 {
                return self.finish(frames, run_on);
            }
            if alone == LONG {
                return self.finish(frames, run_tuned_on);
            }
            self.iterate(frames);
            safe -= 1;
            alone += u32::from(self.running() == 1);
        }
    }

    /// How many lanes have a frame.
    fn running(&self) -> usize {
        self.lanes.iter().flatten().count()
    }

    /// Iterations for which all sums stay exact, their costs added, if this is the largest s.
    fn safe_iterations(&self, largest: usize) -> usize {
        safe_iterations(EXACT.saturating_sub(self.cost), self.most, largest)
    }

    /// Puts the next frame into a lane, or clears it if none waits.
    fn fill(&mut self, lane: usize, frames: &[Frame]) {
        let frame = self.waiting;
        if let Some(next) = frames.get(frame) {
            self.work.start(lane, &next.task);
            self.lanes[lane] = Some(Runner { frame, k: 0 });
            self.waiting += 1;
        } else {
            self.work.clear(lane);
            self.lanes[lane] = None;
        }
    }

    /// One iteration of all lanes.
    fn iterate(&mut self, frames: &mut [Frame]) {
        self.work.renew_bits();
        let running = self.lanes.map(|lane| lane.is_some());
        let settled = self.work.renew_checks(running);
        for lane in 0..LANES {
            let Some(Runner { frame, k }) = &mut self.lanes[lane] else {
                continue;
            };
            *k += 1;
            let settled = settled >> lane & 1 == 1;
            let frame = &mut frames[*frame];
            if settled || *k == frame.task.settings.limit {
                frame.end = (*k, settled);
                self.work.write(lane, &mut frame.state);
                self.fill(lane, frames);
            }
        }
    }

    /// Lets the frames in lanes go on one after the other, and runs those that wait.
    fn finish(self, frames: &mut [Frame], run_on: RunOn) {
        for (lane, runner) in self.lanes.into_iter().enumerate() {
            if let Some(Runner { frame, k }) = runner {
                let frame = &mut frames[frame];
                self.work.write(lane, &mut frame.state);
                frame.end = run_on(&frame.task, &mut frame.state, k);
            }
        }
        run_each(&mut frames[self.waiting..], run_tuned);
    }
}
