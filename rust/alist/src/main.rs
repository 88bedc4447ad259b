//! The program `alist` over the compiled library.

use alist::{run, Streams};
use std::ffi::OsString;
use std::io;
use std::process::ExitCode;
use widagbe::Widagbe;

fn main() -> ExitCode {
    let arguments: Vec<OsString> = std::env::args_os().skip(1).collect();
    let mut streams = Streams {
        input: &mut io::stdin(),
        output: &mut io::stdout(),
        messages: &mut io::stderr(),
    };
    ExitCode::from(run(&Widagbe, &arguments, &mut streams))
}
