//! Runs many scripts: tests/laid.py lays this in the place of the src/main.rt of bitemporal_cli. It
//! is Rattle's, and has another ending since no crate of the repository has it.
//!
//! Standard input has scripts, each with a byte 255 after it, which is in no UTF-8. Each is run as
//! by `bitemporal run --audit`, and its report is followed by a line `== STATUS`.
#![tactic(auto)]

use command_line::{Mode, Tracked};
use command_tool::run_tool;
use std::io::{Read, Write};
use std::process::ExitCode;

/// How a script ends as the program's audited run, with its report on standard output.
fn audited(rt: &HostRuntime, script: &[u8]) -> u8 {
    let mut input = Tracked::new(script);
    let mut err = Tracked::new(rt.stderr());
    run_tool(
        rt.alloc(),
        Mode::RunAudited,
        &mut input,
        &mut rt.stdout(),
        &mut err,
    )
}

/// What stands before the first byte 255, and what stands after it.
fn cut(bytes: &[u8]) -> (&[u8], &[u8]) {
    let mut end = 0;
    while bytes[end] != 255 {
        end += 1;
    }
    (&bytes[..end], &bytes[end + 1..])
}

/// The bytes of standard input.
fn input(rt: &HostRuntime) -> Option<Vec<u8>> {
    let mut bytes = Vec::new(rt.alloc());
    match rt.stdin().read_to_end(&mut bytes) {
        Ok(_) => Some(bytes),
        Err(_) => None,
    }
}

fn main(rt: HostRuntime) -> ExitCode {
    let Some(bytes) = input(&rt) else {
        return ExitCode::from(2);
    };
    let mut rest = bytes.as_slice();
    while !rest.is_empty() {
        let (script, after) = cut(rest);
        let status = audited(&rt, script);
        if write!(rt.stdout(), "== {status}\n").is_err() {
            return ExitCode::from(2);
        }
        rest = after;
    }
    ExitCode::from(0)
}
