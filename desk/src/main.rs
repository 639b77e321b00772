//! The program `cocklesway`.
#![forbid(unsafe_code)]

use desk::command::{Console, run};
use std::ffi::OsString;
use std::io::{self, BufWriter};
use std::process::ExitCode;

fn main() -> ExitCode {
    let arguments: Vec<OsString> = std::env::args_os().skip(1).collect();
    let mut input = io::stdin().lock();
    let mut output = BufWriter::new(io::stdout().lock());
    let mut errors = io::stderr().lock();
    let mut console = Console {
        input: Some(&mut input),
        output: &mut output,
        errors: &mut errors,
    };
    run(&arguments, &mut console).into()
}
