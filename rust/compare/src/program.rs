//! The compiled frame program.

use std::env;
use std::io::Write;
use std::path::{Path, PathBuf};
use std::process::{Child, Command, Stdio};
use std::sync::{Mutex, MutexGuard, PoisonError};
use std::thread;

/// The frame program's file: the one that WIDAGBE_FRAMES names, or the one that
/// `rt run` leaves in `crates/frames/out`.
pub fn path() -> PathBuf {
    let default = || Path::new(env!("CARGO_MANIFEST_DIR")).join("../../crates/frames/out/frames");
    env::var_os("WIDAGBE_FRAMES").map_or_else(default, PathBuf::from)
}

static STARTING: Mutex<()> = Mutex::new(());

/// Held while a program starts. Until it runs its own code it has every file of
/// this process, so a pipe that another test closes meanwhile would stay open.
pub fn starting() -> MutexGuard<'static, ()> {
    STARTING.lock().unwrap_or_else(PoisonError::into_inner)
}

/// The program, started while no other starts.
pub fn start(stdin: Stdio, stdout: Stdio) -> Child {
    let _alone = starting();
    spawn(stdin, stdout)
}

/// The program, started by one who holds `starting`.
pub fn spawn(stdin: Stdio, stdout: Stdio) -> Child {
    let program = path();
    Command::new(&program)
        .stdin(stdin)
        .stdout(stdout)
        .spawn()
        .unwrap_or_else(|error| panic!("{}: {error}", program.display()))
}

/// Feeds the program, in two pieces so that it meets a short read, and hands
/// back what it prints. It may stop reading early.
pub fn frames(input: &[u8]) -> Vec<u8> {
    let mut child = start(Stdio::piped(), Stdio::piped());
    let mut stdin = child.stdin.take().expect("a pipe was asked for");
    let (first, second) = input.split_at(input.len() / 3);
    let output = thread::scope(|scope| {
        scope.spawn(move || {
            let _ = stdin
                .write_all(first)
                .and_then(|()| stdin.write_all(second));
        });
        child.wait_with_output().expect("the program runs")
    });
    assert!(
        output.status.code().is_some(),
        "the program was ended by a signal: {}",
        output.status
    );
    output.stdout
}
