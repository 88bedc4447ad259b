//! The command line.

use std::ffi::{OsStr, OsString};
use std::path::PathBuf;

pub const HELP: &str = "\
alist - LDPC codes as alist text

    alist import [IN [OUT]]   code records of a strict alist text
    alist export [IN [OUT]]   the alist text of code records, in normal form
    alist show [IN]           sizes and degrees of a code, from text or records
    alist repair [IN [OUT]]   a strict text of an alist file as it comes
    alist --help              this

IN and OUT are files; a dash, or none, is standard input or output. OUT is written
only when the command succeeds. Messages go to standard error.

Status: 0 done; 1 the input is refused, with the library's number and the place as
FILE:LINE:COLUMN; 2 wrong usage, or a file that cannot be read or written.
";

/// What is to be done.
#[derive(Clone, Copy, Debug, PartialEq, Eq)]
pub enum Task {
    Import,
    Export,
    Show,
    Repair,
}

/// A command; no path stands for standard input or output.
#[derive(Debug, PartialEq, Eq)]
pub enum Command {
    Help,
    Do {
        task: Task,
        input: Option<PathBuf>,
        output: Option<PathBuf>,
    },
}

/// The command that the arguments give, or what is wrong with them.
pub fn parse(arguments: &[OsString]) -> Result<Command, String> {
    let is_help = |word: &OsString| word == "--help" || word == "-h";
    if arguments.iter().any(is_help) {
        return Ok(Command::Help);
    }
    let Some((name, files)) = arguments.split_first() else {
        return Err("a command is missing".into());
    };
    let (task, most) = match name.to_str() {
        Some("import") => (Task::Import, 2),
        Some("export") => (Task::Export, 2),
        Some("show") => (Task::Show, 1),
        Some("repair") => (Task::Repair, 2),
        _ => return Err(format!("no command {}", name.display())),
    };
    if let Some(option) = files.iter().find(|file| is_option(file)) {
        return Err(format!("no option {}", option.display()));
    }
    if let Some(file) = files.get(most) {
        return Err(format!("one file too many: {}", file.display()));
    }
    Ok(Command::Do {
        task,
        input: files.first().and_then(path),
        output: files.get(1).and_then(path),
    })
}

fn is_option(word: &OsStr) -> bool {
    word != "-" && word.as_encoded_bytes().starts_with(b"-")
}

fn path(word: &OsString) -> Option<PathBuf> {
    (word != "-").then(|| word.into())
}

#[cfg(test)]
mod tests {
    use super::*;

    fn parsed(line: &str) -> Result<Command, String> {
        let words: Vec<OsString> = line.split(' ').map(OsString::from).collect();
        parse(&words)
    }

    #[test]
    fn files_and_dashes() {
        let due = |task, input: Option<&str>, output: Option<&str>| {
            Ok(Command::Do {
                task,
                input: input.map(PathBuf::from),
                output: output.map(PathBuf::from),
            })
        };
        assert_eq!(parsed("import"), due(Task::Import, None, None));
        assert_eq!(parsed("export a"), due(Task::Export, Some("a"), None));
        assert_eq!(
            parsed("repair a b"),
            due(Task::Repair, Some("a"), Some("b"))
        );
        assert_eq!(parsed("repair - b"), due(Task::Repair, None, Some("b")));
        assert_eq!(parsed("show -"), due(Task::Show, None, None));
        assert_eq!(parsed("show a --help"), Ok(Command::Help));
    }

    #[test]
    fn wrong_lines_are_told() {
        assert_eq!(parse(&[]), Err("a command is missing".into()));
        assert_eq!(parsed("inport a"), Err("no command inport".into()));
        assert_eq!(parsed("import -x a"), Err("no option -x".into()));
        assert_eq!(parsed("show a b"), Err("one file too many: b".into()));
        assert_eq!(parsed("import a b c"), Err("one file too many: c".into()));
    }
}
