//! The frame program against the reference, and where reads and writes fail: a
//! read that fails ends the input, a write that fails ends the program.

use compare::comparison::compare;
use compare::families::{program, Effort};
use compare::outcome::printed;
use compare::program::{frames, spawn, start, starting};
use std::fs::File;
use std::io::{Read, Write};
use std::os::fd::OwnedFd;
use std::os::unix::net::UnixStream;
use std::process::{Child, ChildStdin, ExitStatus, Stdio};
use std::thread::sleep;
use std::time::{Duration, Instant};

const PATIENCE: Duration = Duration::from_secs(20);

#[test]
fn the_frame_program_equals_the_reference() {
    let tally = compare(|case| printed(frames, case), program(), Effort::Full).unwrap();
    println!("{}", tally.summary());
    tally.assert_complete(&["frames"], 20);
}

/// The code of document 01's listing, its settings, and so many frames.
fn stream(frames: usize) -> Vec<u8> {
    let mut input = b"LH\0\x03\0\x01LC\x03\0\0\0\x01\0\x02LS\x01\0\0\0\0\x02\0\0\0\0".to_vec();
    for _ in 0..frames {
        input.extend(b"LF\x4e\x20\x4e\x20\x4e\x20");
    }
    input
}

/// What the program prints with a standard input that cannot be read.
fn printed_without_input(stdin: Stdio) -> Vec<u8> {
    let child = start(stdin, Stdio::piped());
    child.wait_with_output().expect("the program runs").stdout
}

/// Feeds the program and waits for its end, with its standard input still open.
fn end_with_input_open(mut child: Child, input: &[u8]) -> ExitStatus {
    let mut stdin: ChildStdin = child.stdin.take().expect("a pipe was asked for");
    let _ = stdin.write_all(input);
    let begun = Instant::now();
    while begun.elapsed() < PATIENCE {
        if let Some(status) = child.try_wait().expect("the program runs") {
            return status;
        }
        sleep(Duration::from_millis(5));
    }
    child.kill().expect("the program runs");
    panic!("the program goes on after a write that failed");
}

#[test]
fn a_read_that_fails_ends_the_input() {
    let directory = File::open("/").expect("a directory");
    assert_eq!(printed_without_input(Stdio::from(directory)), b"R 1\n");
    let only_written = File::options().write(true).open("/dev/null").unwrap();
    assert_eq!(printed_without_input(Stdio::from(only_written)), b"R 1\n");
}

#[test]
fn a_write_that_fails_ends_the_program() {
    let full = File::options().write(true).open("/dev/full").unwrap();
    let child = start(Stdio::piped(), Stdio::from(full));
    assert!(end_with_input_open(child, &stream(2)).success());
}

#[test]
fn an_output_that_is_closed_ends_the_program() {
    let alone = starting();
    let mut child = spawn(Stdio::piped(), Stdio::piped());
    drop(child.stdout.take());
    drop(alone);
    end_with_input_open(child, &stream(2));
}

#[test]
fn nothing_is_written_after_a_write_that_failed() {
    let (output, mut received) = UnixStream::pair().unwrap();
    output.set_nonblocking(true).unwrap();
    let child = start(Stdio::piped(), Stdio::from(OwnedFd::from(output)));
    let input = stream(7_000);
    assert!(end_with_input_open(child, &input).success());
    let mut printed = Vec::new();
    received.read_to_end(&mut printed).unwrap();
    let whole = frames(&input);
    assert!(printed.len() < whole.len());
    assert!(whole.starts_with(&printed));
}
