//! `run_over_file STORE < SCRIPT`: runs a script over a store in a file, which stays, and prints
//! the records of each statement as soon as its change is in the file. It ends at the first that is
//! refused. The status is 0, 1 if a statement was refused, and 2 if the script or the store
//! was, or a file, the report or memory failed.
#![tactic(auto)]

ghost use Rattle.std.specs.Prelude.{◌≡◌, true, IsOk};

use period_core::Refusal;
use script_engine::{Engine, Listener, Outcome, run_over, write_statement};
use sqlite::{Connection, File, FileStore};
use std::alloc::Global;
use std::env;
use std::io::{Read, Write};
use std::process::ExitCode;

type InFile = FileStore<File>;

/// Writes what it is handed.
#[derive(Drop)]
struct Reporting<W> {
    alloc: Global,
    out: W,
    status: u8,
}

impl<W: Write> Listener<Result<Outcome, Refusal>> for Reporting<W> {
    // The run goes on only after a statement that was accepted.
    ghost hears = { λ _ _ kept goes_on _. goes_on ≡ true → IsOk kept };

    fn hear(&mut self, number: u64, kept: Result<Outcome, Refusal>) -> bool {
        let written = write_statement(self.alloc, &mut self.out, number, &kept);
        if written.is_err() || self.out.flush().is_err() {
            self.status = 2;
            return false;
        }
        let is_accepted = kept.is_ok();
        if !is_accepted {
            self.status = 1;
        }
        is_accepted
    }
}

/// Tells why a script or a store is refused. Gives the exit status.
fn refused(rt: &HostRuntime, refusal: Refusal) -> u8 {
    let code = refusal.code();
    let _ = write!(rt.stderr(), "run_over_file: refused, {code}\n");
    2
}

/// Runs the script over the store in a file, and reports it. Gives the exit status.
fn run_in(rt: &HostRuntime, store: &str, script: &[u8]) -> u8 {
    let Ok(connection) = Connection::open(rt, store) else {
        let _ = write!(rt.stderr(), "run_over_file: cannot open the store\n");
        return 2;
    };
    let opened: Result<Engine<InFile>, (Refusal, Connection<InFile>)> =
        Engine::open(rt.alloc(), connection);
    let mut engine = match opened {
        Ok(engine) => engine,
        Err((refusal, _connection)) => return refused(rt, refusal),
    };
    let mut reporting = Reporting {
        alloc: rt.alloc(),
        out: rt.stdout(),
        status: 0,
    };
    let ran = run_over(rt.alloc(), &mut engine, rt, script, &mut reporting);
    // The engine gives its connection back, and the connection puts all into the file.
    let closed = engine.close().close();
    match ran {
        Err(refusal) => refused(rt, refusal),
        Ok(_) if closed.is_err() => 2,
        Ok(_) => reporting.status,
    }
}

/// The words of the command line.
fn words_of(rt: &HostRuntime) -> Option<Vec<String>> {
    let Ok(args) = env::args(rt) else {
        return None;
    };
    match args.collect(rt.alloc()) {
        Ok(words) => Some(words),
        Err(_) => None,
    }
}

/// The bytes of standard input.
fn input_of(rt: &HostRuntime) -> Option<Vec<u8>> {
    let mut bytes = Vec::new(rt.alloc());
    match rt.stdin().read_to_end(&mut bytes) {
        Ok(_) => Some(bytes),
        Err(_) => None,
    }
}

fn main(rt: HostRuntime) -> ExitCode {
    let Some(words) = words_of(&rt) else {
        return ExitCode::from(2);
    };
    let Some(script) = input_of(&rt) else {
        return ExitCode::from(2);
    };
    if words.len() != 2 {
        return ExitCode::from(2);
    }
    ExitCode::from(run_in(&rt, words[1].as_str(), script.as_slice()))
}
