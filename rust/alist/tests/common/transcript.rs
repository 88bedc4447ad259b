//! The commands that the READMEs show, with what they print.

use std::fs;
use std::path::{Path, PathBuf};

const PAGES: [&str; 2] = [
    include_str!("../../README.md"),
    include_str!("../../../../README.md"),
];

/// A command's words after `alist`, and what it prints.
#[derive(Debug)]
pub struct Shown {
    pub words: Vec<String>,
    pub printed: String,
}

/// Every line `$ alist ..` of an indented block, with the lines up to the next
/// command or the block's end.
pub fn shown() -> Vec<Shown> {
    let mut commands: Vec<Shown> = Vec::new();
    for page in PAGES {
        let mut open = false;
        for line in page.lines() {
            let Some(line) = line.strip_prefix("    ") else {
                open = false;
                continue;
            };
            if let Some(command) = line.strip_prefix("$ ") {
                open = command.starts_with("alist ");
                if open {
                    let words = command.split(' ').skip(1).map(String::from);
                    commands.push(Shown {
                        words: words.collect(),
                        printed: String::new(),
                    });
                }
            } else if let Some(command) = commands.last_mut().filter(|_| open) {
                command.printed += &format!("{line}\n");
            }
        }
    }
    assert!(commands.len() >= 5, "{commands:?}");
    commands
}

/// A directory with the examples, where the commands are given.
pub fn directory(name: &str) -> PathBuf {
    let here = Path::new(env!("CARGO_MANIFEST_DIR"));
    let directory = Path::new(env!("CARGO_TARGET_TMPDIR")).join(name);
    let _ = fs::remove_dir_all(&directory);
    let copies = directory.join("examples/alist");
    fs::create_dir_all(&copies).expect("a directory");
    for file in fs::read_dir(here.join("../../examples/alist")).expect("examples") {
        let file = file.expect("a file");
        fs::copy(file.path(), copies.join(file.file_name())).expect("a copy");
    }
    directory
}
