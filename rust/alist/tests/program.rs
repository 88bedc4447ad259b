//! The program over the compiled library.

mod common;
#[path = "common/transcript.rs"]
mod transcript;

use common::{hamming, normal, text_of};
use compare::codes::records;
use std::io::Write;
use std::path::Path;
use std::process::{Command, Output, Stdio};

/// What the program prints, given this input.
fn alist(words: &[&str], directory: &Path, input: &[u8]) -> Output {
    let mut child = Command::new(env!("CARGO_BIN_EXE_alist"))
        .args(words)
        .current_dir(directory)
        .stdin(Stdio::piped())
        .stdout(Stdio::piped())
        .stderr(Stdio::piped())
        .spawn()
        .expect("the program");
    let mut stdin = child.stdin.take().expect("standard input");
    // A program that reads no input may have ended.
    let _ = stdin.write_all(input);
    drop(stdin);
    child.wait_with_output().expect("output")
}

#[test]
fn commands_print_what_is_shown() {
    let directory = transcript::directory("program");
    for shown in transcript::shown() {
        let words: Vec<&str> = shown.words.iter().map(String::as_str).collect();
        let output = alist(&words, &directory, b"");
        let printed = [output.stderr, output.stdout].concat();
        let printed = String::from_utf8(printed).expect("text");
        assert_eq!(printed, shown.printed, "{words:?}");
    }
}

#[test]
fn standard_streams_and_statuses() {
    let (text, code) = (normal(&hamming()), records(&hamming()));
    let messy = text_of(&hamming()).replace('\n', "\r\n");
    for (line, input, status, due) in [
        ("import", &text[..], 0, &code[..]),
        ("export", &code, 0, &text),
        ("repair", messy.as_bytes(), 0, &text),
        ("import", messy.as_bytes(), 1, b""),
        ("export", &text, 1, b""),
        ("show", b"", 1, b""),
        ("inport", &text, 2, b""),
    ] {
        let output = alist(&[line], Path::new("."), input);
        assert_eq!(output.status.code(), Some(status), "{line}");
        assert_eq!(output.stdout, due, "{line}");
    }
}
