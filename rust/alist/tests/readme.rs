//! The commands that the READMEs show print what is shown, over the reference.

#[path = "common/transcript.rs"]
mod transcript;

use alist::{run, Streams};
use reference::SOUND;
use std::ffi::OsString;
use std::{env, fs, io};

/// One test: it changes the process's directory.
#[test]
fn commands_print_what_is_shown() {
    env::set_current_dir(transcript::directory("readme")).expect("a directory");
    for shown in transcript::shown() {
        let words: Vec<OsString> = shown.words.iter().map(OsString::from).collect();
        let (mut output, mut messages) = (Vec::new(), Vec::new());
        let mut streams = Streams {
            input: &mut io::empty(),
            output: &mut output,
            messages: &mut messages,
        };
        run(&SOUND, &words, &mut streams);
        let printed = String::from_utf8([messages, output].concat()).expect("text");
        assert_eq!(printed, shown.printed, "{:?}", shown.words);
    }
    let [strict, repaired] =
        ["examples/alist/hamming.alist", "code.alist"].map(|file| fs::read(file).expect("a file"));
    assert_eq!(strict, repaired);
}
