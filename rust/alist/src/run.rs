//! The commands.

use crate::command::{parse, Command, Task, HELP};
use crate::repair::repair;
use crate::{files, messages, records, show};
use interface::{Alist, BytesAnswer};
use std::ffi::OsString;
use std::io::{Read, Write};
use std::path::{Path, PathBuf};

/// Where the program reads and writes.
pub struct Streams<'a> {
    pub input: &'a mut dyn Read,
    pub output: &'a mut dyn Write,
    pub messages: &'a mut dyn Write,
}

/// Why a command stops; the messages of a refusal are to stand behind the input's name.
enum Stop {
    Refused(Vec<String>),
    Failed(String),
}

/// What a command makes, and messages, which are to stand behind the input's name.
struct Made {
    bytes: Vec<u8>,
    messages: Vec<String>,
}

impl Made {
    fn silently(bytes: Vec<u8>) -> Made {
        Made {
            bytes,
            messages: Vec::new(),
        }
    }
}

/// Does what the arguments say; returns the exit status.
pub fn run(library: &dyn Alist, arguments: &[OsString], streams: &mut Streams) -> u8 {
    match parse(arguments) {
        Ok(Command::Help) => status(write(None, streams, HELP.as_bytes()), "", streams),
        Ok(Command::Do {
            task,
            input,
            output,
        }) => {
            let name = name(input.as_deref());
            let result = perform(library, task, input, output, &name, streams);
            status(result, &name, streams)
        }
        Err(wrong) => {
            tell(streams, &format!("alist: {wrong}; see alist --help"));
            2
        }
    }
}

fn name(input: Option<&Path>) -> String {
    input.map_or("standard input".into(), |path| path.display().to_string())
}

/// A message goes lost where it cannot be written.
fn tell(streams: &mut Streams, message: &str) {
    let _ = writeln!(streams.messages, "{message}");
}

fn status(result: Result<(), Stop>, name: &str, streams: &mut Streams) -> u8 {
    match result {
        Ok(()) => 0,
        Err(Stop::Refused(lines)) => {
            for line in lines {
                tell(streams, &format!("{name}:{line}"));
            }
            1
        }
        Err(Stop::Failed(message)) => {
            tell(streams, &format!("alist: {message}"));
            2
        }
    }
}

fn perform(
    library: &dyn Alist,
    task: Task,
    input: Option<PathBuf>,
    output: Option<PathBuf>,
    name: &str,
    streams: &mut Streams,
) -> Result<(), Stop> {
    let given = files::read(input.as_deref(), streams.input)
        .map_err(|error| Stop::Failed(format!("cannot read {name}: {error}")))?;
    let made = match task {
        Task::Import => import(library, &given).map(Made::silently),
        Task::Export => export(library, &given).map(Made::silently),
        Task::Show => describe(library, &given).map(Made::silently),
        Task::Repair => mend(library, &given),
    }?;
    for message in &made.messages {
        tell(streams, &format!("{name}:{message}"));
    }
    write(output.as_deref(), streams, &made.bytes)
}

fn write(output: Option<&Path>, streams: &mut Streams, bytes: &[u8]) -> Result<(), Stop> {
    files::write(output, streams.output, bytes).map_err(|error| {
        let name = output.map_or("standard output".into(), |path| path.display().to_string());
        Stop::Failed(format!("cannot write {name}: {error}"))
    })
}

/// The records of a text, or the library's number.
fn imported(library: &dyn Alist, text: &[u8]) -> Result<Vec<u8>, u32> {
    let mut code = vec![0; text.len()];
    let answer = library.import(text, &mut code);
    filled(answer, code)
}

/// The text of records, or the library's number.
fn exported(library: &dyn Alist, code: &[u8]) -> Result<Vec<u8>, u32> {
    let size = library.export_size(code);
    if size.number != 0 {
        return Err(size.number);
    }
    let mut text = vec![0; size.bytes];
    let answer = library.export(code, &mut text);
    filled(answer, text)
}

fn filled(answer: BytesAnswer, mut bytes: Vec<u8>) -> Result<Vec<u8>, u32> {
    match answer.number {
        0 => {
            bytes.truncate(answer.bytes);
            Ok(bytes)
        }
        number => Err(number),
    }
}

fn import(library: &dyn Alist, text: &[u8]) -> Result<Vec<u8>, Stop> {
    imported(library, text).map_err(|number| Stop::Refused(messages::of_text(text, number)))
}

fn export(library: &dyn Alist, code: &[u8]) -> Result<Vec<u8>, Stop> {
    exported(library, code).map_err(|number| Stop::Refused(messages::of_records(code, number)))
}

/// Sizes and degrees of a code, given as text or as records.
fn describe(library: &dyn Alist, given: &[u8]) -> Result<Vec<u8>, Stop> {
    let records = if given.starts_with(&records::HEADER_MARK) {
        given.to_vec()
    } else {
        import(library, given)?
    };
    let size = library.export_size(&records);
    match records::read(&records) {
        Ok(code) if size.number == 0 => Ok(show::show(&code, records.len(), size.bytes)),
        _ => Err(Stop::Refused(messages::of_records(&records, size.number))),
    }
}

/// A strict text stays as it is; another one is made strict, and comes in the
/// library's normal form.
fn mend(library: &dyn Alist, text: &[u8]) -> Result<Made, Stop> {
    if imported(library, text).is_ok() {
        return Ok(Made {
            bytes: text.to_vec(),
            messages: vec![messages::STRICT_ALREADY.into()],
        });
    }
    let repaired =
        repair(text).map_err(|fault| Stop::Refused(messages::not_repaired(text, &fault)))?;
    let normal = imported(library, &repaired.text).and_then(|code| exported(library, &code));
    let bytes = normal.map_err(|number| Stop::Refused(vec![messages::unplaced(number)]))?;
    Ok(Made {
        bytes,
        messages: messages::changes(text, &repaired.changes),
    })
}
