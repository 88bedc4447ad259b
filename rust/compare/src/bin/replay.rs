//! Replays cases: reads them from standard input, one a line, and shows where
//! an implementation (plain, tuned, vectors, packed or library) differs from the reference.

use compare::case::Case;
use compare::outcome::{converted, decoded, encoded, outcome, Outcome};
use reference::SOUND;
use std::env;
use std::io::{self, BufRead};
use std::process::ExitCode;

type Subject = fn(&Case) -> Option<Outcome>;

fn subject(name: &str) -> Option<Subject> {
    match name {
        "plain" => Some(|case| decoded(&rivals::Plain, case)),
        "tuned" => Some(|case| decoded(&rivals::Tuned, case)),
        "vectors" => Some(|case| converted(&rivals::Vectors, case)),
        "packed" => Some(|case| encoded(&rivals::Packed, case)),
        #[cfg(feature = "library")]
        "library" => Some(|case| {
            use compare::outcome::{called, grouped, printed};
            use compare::program;
            called(&widagbe::Widagbe, case)
                .or_else(|| grouped(&widagbe::Widagbe, case))
                .or_else(|| converted(&widagbe::Widagbe, case))
                .or_else(|| encoded(&widagbe::Widagbe, case))
                .or_else(|| printed(program::frames, case))
        }),
        _ => None,
    }
}

fn replay(subject: Subject, line: &str) -> Result<(), String> {
    let case: Case = line.parse()?;
    let expected = outcome(SOUND, &case);
    println!("expected {:?}", expected.fields);
    print!("{}", String::from_utf8_lossy(&expected.text));
    let found = subject(&case).ok_or("it has no such entry")?;
    match found.difference(&expected) {
        None => Ok(()),
        Some(difference) => Err(difference),
    }
}

fn main() -> ExitCode {
    let Some(subject) = env::args().nth(1).and_then(|name| subject(&name)) else {
        eprintln!("usage: replay plain|tuned|vectors|packed|library < CASES");
        return ExitCode::FAILURE;
    };
    let mut code = ExitCode::SUCCESS;
    for line in io::stdin().lock().lines().map_while(Result::ok) {
        match replay(subject, &line) {
            Ok(()) => println!("equal"),
            Err(what) => {
                println!("{what}");
                code = ExitCode::FAILURE;
            }
        }
    }
    code
}
