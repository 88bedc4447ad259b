//! Measures whole calls side by side: decoders, from code records and costs to the
//! word and every lent list; groups of frames; import and export of alist texts; the encoder; and calls on
//! words. Run it with `--release`; with the feature `library` the compiled library takes part.

#[cfg(feature = "before")]
mod before;
mod contest;
mod conversion;
mod encoder;
mod groups;
mod placed;
mod places;
mod refused;
mod report;
mod scenario;
mod texts;
mod words;

use contest::Contest;
use conversion::{Conversions, Task};
use encoder::Encoders;
use groups::Groups;
use placed::{Placed, AHEAD, PLACES};
use std::env;
use std::process::ExitCode;
use words::Words;

fn decoders() {
    let contest = Contest::new();
    report::settings();
    report::heading(contest.names());
    for scenario in scenario::all() {
        let result = contest.run(&scenario);
        report::line(&scenario, &result);
    }
    report::two_bits_heading(contest.names());
    for scenario in scenario::two_bits() {
        let result = contest.run(&scenario);
        report::line(&scenario, &result);
    }
    report::growth_heading(contest.names());
    for scenario in scenario::growing() {
        let result = contest.run(&scenario);
        report::growth_line(&scenario, &result);
    }
}

fn groups() {
    let groups = Groups::new();
    report::groups_heading(groups.names());
    for scenario in scenario::grouped() {
        for frames in groups::SIZES {
            let result = groups.run(&scenario, frames);
            report::groups_line(&scenario, frames, &groups.names(), &result);
        }
    }
}

fn longest() {
    let contest = Contest::new();
    report::longest_heading(contest.names());
    for scenario in scenario::longest() {
        let result = contest.run(&scenario);
        report::longest_line(&scenario, &result);
    }
}

fn lists() {
    let contest = Contest::new();
    let scenario = scenario::unsettled();
    report::lists_heading(contest.names());
    let mut places: Vec<Placed> = (0..PLACES).map(|_| Placed::spare(&scenario)).collect();
    for ahead in AHEAD {
        let times = |lists: &mut Placed| {
            lists.put(ahead);
            let times = contest.times(&scenario, lists).into_iter();
            times
                .map(|times| times.expect("no degree is refused").0)
                .collect()
        };
        let times: Vec<Vec<f64>> = places.iter_mut().map(times).collect();
        report::lists_line(&scenario, ahead, &times);
    }
}

fn conversions() {
    let conversions = Conversions::new();
    report::conversion_heading(conversions.names());
    for task in conversion::of_codes() {
        report::conversion_line(&task, &conversions.run(&task));
    }
    for refused in &refused::REFUSED {
        let task = Task::refused(refused);
        report::conversion_line(&task, &conversions.run(&task));
    }
}

fn encoders() {
    let encoders = Encoders::new();
    report::encoder_heading(encoders.names());
    for task in encoder::single() {
        report::encoder_line(&task, &encoders.run(&task));
    }
    report::frames_heading(encoders.names());
    for task in encoder::many() {
        report::frames_line(&task, &encoders.run(&task));
    }
}

fn words() {
    let words = Words::new();
    report::words_heading(words.names());
    for call in [words::Call::Reflect, words::Call::AddWords] {
        for length in words::LENGTHS {
            report::words_line(call, length, &words.run(call, length));
        }
    }
}

fn main() -> ExitCode {
    match env::args().nth(1).as_deref() {
        None => {
            decoders();
            groups();
            longest();
            lists();
            conversions();
            encoders();
            words();
        }
        Some("decoders") => decoders(),
        Some("groups") => groups(),
        Some("longest") => longest(),
        Some("lists") => lists(),
        Some("alist") => conversions(),
        Some("encoder") => encoders(),
        Some("words") => words(),
        Some(_) => {
            eprintln!("usage: bench [decoders|groups|longest|lists|alist|encoder|words]");
            return ExitCode::FAILURE;
        }
    }
    ExitCode::SUCCESS
}
