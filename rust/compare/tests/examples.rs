//! C programs over the header: each example prints what is stored, as the Rust
//! example does, and a program of every call prints what Rust is answered.

use std::env;
use std::fmt::{Display, Write};
use std::path::{Path, PathBuf};
use std::process::{Command, Output};
use widagbe::{
    work_length, Alist, Channel, DecodeAnswer, Decoder, Encoder, Grouping, Library, OwnLists,
    Widagbe,
};

#[allow(dead_code)]
#[path = "../../widagbe/examples/decode.rs"]
mod decode;

#[allow(dead_code)]
#[path = "../../widagbe/examples/group.rs"]
mod group;

/// What both examples print.
const EXPECTED: &str = include_str!("../../../examples/expected.txt");
const OF_GROUP: &str = include_str!("../../../examples/group-expected.txt");

#[test]
fn the_rust_examples_print_what_is_stored() {
    assert_eq!(decode::report(), EXPECTED);
    assert_eq!(group::report(), OF_GROUP);
}

#[test]
fn the_c_example_prints_what_is_stored() {
    for standard in ["-std=c99", "-std=c17"] {
        assert_eq!(run_c("../../examples/c/main.c", standard), EXPECTED);
    }
}

#[test]
fn the_c_example_of_alist_text_prints_what_is_stored() {
    let expected = include_str!("../../../examples/alist/expected.txt");
    assert_eq!(run_c("../../examples/c/alist.c", "-std=c99"), expected);
}

#[test]
fn the_c_example_of_a_chain_prints_what_is_stored() {
    let expected = include_str!("../../../examples/chain-expected.txt");
    assert_eq!(run_c("../../examples/c/chain.c", "-std=c99"), expected);
}

#[test]
fn the_c_example_of_the_encoder_prints_what_is_stored() {
    let expected = include_str!("../../../examples/encode-expected.txt");
    assert_eq!(run_c("../../examples/c/encode.c", "-std=c99"), expected);
}

#[test]
fn the_c_example_of_a_group_prints_what_is_stored() {
    assert_eq!(run_c("../../examples/c/group.c", "-std=c99"), OF_GROUP);
}

#[test]
fn every_call_answers_c_as_it_answers_rust() {
    assert_eq!(run_c("tests/c/calls.c", "-std=c99"), calls());
}

/// What a C program prints, built with every warning an error.
fn run_c(source: &str, standard: &str) -> String {
    let here = Path::new(env!("CARGO_MANIFEST_DIR"));
    let archive = env::var_os("WIDAGBE_LIB").map_or_else(
        || here.join("../../crates/c_api/out/libc_api.a"),
        PathBuf::from,
    );
    let source = here.join(source);
    let name = source.file_stem().expect("a file").to_string_lossy();
    let program = Path::new(env!("CARGO_TARGET_TMPDIR")).join(format!("{name}{standard}"));
    succeed(
        Command::new("cc")
            .args([standard, "-Wall", "-Wextra", "-Wpedantic", "-Werror"])
            .arg("-I")
            .arg(here.join("../../include"))
            .arg(&source)
            .arg(archive)
            .arg("-o")
            .arg(&program),
    );
    let output = succeed(&mut Command::new(&program));
    String::from_utf8(output.stdout).expect("text")
}

fn succeed(command: &mut Command) -> Output {
    let output = command
        .output()
        .unwrap_or_else(|error| panic!("{command:?}: {error}"));
    assert!(output.status.success(), "{command:?}: {output:?}");
    output
}

/// The calls of `c/calls.c`, from Rust.
fn calls() -> String {
    const CODE: [u8; 26] = [
        0x4c, 0x48, 0, 5, 0, 2, 0x4c, 0x43, 4, 0, 0, 0, 1, 0, 2, 0, 3, 0x4c, 0x43, 3, 0, 1, 0, 3,
        0, 4,
    ];
    let mut text = String::new();
    let sizes = Widagbe.read(&CODE);
    let (n, m, t) = (sizes.bits, sizes.checks, sizes.triples);
    line(&mut text, "read", &[sizes.number as usize, n, m, t]);
    let v = n + t - m;

    let (mut triples, mut counts) = (vec![0; 3 * t + 1], vec![0; v + 1]);
    let number = Widagbe.split(&CODE, &mut triples, &mut counts);
    line(&mut text, "split", &[number]);
    line(&mut text, "", &triples);
    line(&mut text, "", &counts);

    let (mut alist, mut records) = ([0; 64], [0; CODE.len() + 1]);
    let size = Widagbe.export_size(&CODE);
    let (export_size, bytes) = (size.number as usize, size.bytes);
    line(&mut text, "export_size", &[export_size, bytes]);
    let written = Widagbe.export(&CODE, &mut alist);
    let (export, bytes) = (written.number as usize, written.bytes);
    line(&mut text, "export", &[export, bytes]);
    line(&mut text, "", &alist);
    let written = Widagbe.import(&alist[..bytes], &mut records);
    let (import, bytes) = (written.number as usize, written.bytes);
    line(&mut text, "import", &[import, bytes]);
    line(&mut text, "", &records);

    let samples = [-1.5, 0.25, 2.0, -0.125, 1.0];
    let mut costs = vec![0; n];
    for (name, channel) in [
        ("hard", Channel::Hard(300.0)),
        ("erasing", Channel::erasing(0.2, 300.0)),
        ("gaussian", Channel::Gaussian(300.0)),
    ] {
        let number = Widagbe.front(channel, &samples, &mut costs);
        line(&mut text, name, &[number]);
        line(&mut text, "", &costs);
    }

    let (codeword, other) = ([1, 0, 0, 1, 1], [1, 0, 1, 0, 1]);
    let mut result = vec![0; n + 1];
    let number = Widagbe.reflect(&costs, &codeword, &mut result);
    line(&mut text, "reflect", &[number]);
    line(&mut text, "", &result);

    let answer = Widagbe.test(&CODE, &other);
    line(&mut text, "test", &[answer.number as usize, answer.place]);
    let mut point = vec![0; v + 1];
    let answer = Widagbe.extend(&CODE, &codeword, &mut point);
    line(&mut text, "extend", &[answer.number as usize, answer.place]);
    line(&mut text, "", &point);
    let mut sum = vec![0; n + 1];
    let number = Widagbe.add_words(&codeword, &other, &mut sum);
    line(&mut text, "add_words", &[number]);
    line(&mut text, "", &sum);

    let answer = Widagbe.message_length(&CODE);
    let (number, length) = (answer.number as usize, answer.length);
    line(&mut text, "message_length", &[number, length]);
    let (mut word, mut words) = (vec![0; n + 1], vec![0; 2 * n + 1]);
    let messages = [1, 0, 1, 0, 1, 1];
    let number = Widagbe.encode(&CODE, &messages[..length], &mut word);
    line(&mut text, "encode", &[number]);
    line(&mut text, "", &word);
    let number = Widagbe.encode_frames(&CODE, 2, &messages, &mut words);
    line(&mut text, "encode_frames", &[number]);
    line(&mut text, "", &words);
    let mut message = vec![0; length + 1];
    for word in [codeword, other] {
        let answer = Widagbe.read_message(&CODE, &word, &mut message);
        let fields = [answer.number as usize, answer.place];
        line(&mut text, "read_message", &fields);
        line(&mut text, "", &message);
    }

    let mut lists = OwnLists::exact(n + 1, v + 1, t, 0);
    lists.triples.push(0);
    lists.rows.push(0);
    let run = Widagbe.decode(&CODE, decode::SETTINGS, &costs, lists.lend());
    answer_line(&mut text, "decode", run);
    list_lines(&mut text, &lists);

    let frames = [&costs[..], &[i16::MIN; 5], &result[..n]].concat();
    let mut lists = OwnLists::exact_group(3, n, v, t, 0);
    lists.sums.push(0);
    lists.values.push(0);
    lists.rows.push(0);
    lists.word.push(0);
    let mut work = vec![0; work_length(3, n, v, t)];
    let settings = decode::SETTINGS;
    let group = Widagbe.decode_group(&CODE, settings, 3, &frames, lists.lend(), &mut work);
    line(&mut text, "decode_group", &[group.number]);
    for answer in group.frames {
        answer_line(&mut text, "", answer);
    }
    list_lines(&mut text, &lists);
    text
}

fn answer_line(text: &mut String, name: &str, answer: DecodeAnswer) {
    let [number, k, settled] = [answer.number, answer.k, answer.settled].map(|x| x as usize);
    line(text, name, &[number, answer.place, k, settled]);
}

fn list_lines(text: &mut String, lists: &OwnLists) {
    line(text, "", &lists.sums);
    line(text, "", &lists.values);
    line(text, "", &lists.rows);
    line(text, "", &lists.word);
}

fn line(text: &mut String, name: &str, numbers: &[impl Display]) {
    text.push_str(name);
    for number in numbers {
        let _ = write!(text, " {number}");
    }
    text.push('\n');
}
