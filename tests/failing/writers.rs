//! Writers that fail at their k-th write, for each k, and writers that take one byte at a time.

use command_line::{Mode, Tracked};
use command_tool::run_tool;
use memory_store::open_in_memory;
use period_core::Refusal;
use script_engine::{
    Entry, Outcome, ReportFault, check_script, run_audited, run_script, write_audited, write_check,
    write_report,
};
use std::alloc::Global;
use std::io;
use std::io::Write;
use std::test::Fail;

// How a write fails.
#[derive(Clone, Copy)]
enum Fails {
    // By an error.
    Says,
    // It takes none of the bytes.
    TakesNone,
}

// A writer that takes at most `most` bytes a write, and fails once `writes_left` is 0.
#[derive(Drop)]
struct Sink {
    bytes: Vec<u8>,
    most: usize,
    writes_left: usize,
    fails: Fails,
}

impl Sink {
    fn new(alloc: Global, most: usize, writes: usize, fails: Fails) -> Sink {
        Sink {
            bytes: Vec::new(alloc),
            most,
            writes_left: writes,
            fails,
        }
    }
}

impl Write for Sink {
    fn write(&mut self, buf: &[u8]) -> io::Result<usize> {
        if self.writes_left == 0 {
            return match self.fails {
                Fails::Says => Err(io::Error::other("no more writes")),
                Fails::TakesNone => Ok(0),
            };
        }
        let count = buf.len().min(self.most);
        if self.bytes.extend_from_slice(&buf[..count]).is_err() {
            return Err(io::Error::other("no more memory"));
        }
        self.writes_left -= 1;
        Ok(count)
    }

    fn flush(&mut self) -> io::Result<()> {
        Ok(())
    }
}

const MANY: usize = 1_000_000;

const NO_WRITE: &[u8] = b"bitemporal: cannot write the report\n";

// What the three reports of a script are written from.
#[derive(Drop)]
struct Reported {
    results: Vec<Result<Outcome, Refusal>>,
    entries: Vec<Entry>,
    checks: Vec<Result<(), Refusal>>,
}

// Writes one of the reports.
fn write(
    alloc: Global,
    reported: &Reported,
    which: usize,
    out: &mut Sink,
) -> Result<(), ReportFault> {
    match which {
        0 => write_report(alloc, out, reported.results.as_slice()),
        1 => write_audited(alloc, out, reported.entries.as_slice()),
        _ => write_check(alloc, out, reported.checks.as_slice()),
    }
}

// A writer that takes `most` bytes at a time fails at its k-th write, for each k, and has the bytes
// before it. How many writes there are.
fn each_part(
    alloc: Global,
    reported: &Reported,
    which: usize,
    whole: &[u8],
    most: usize,
    fails: Fails,
) -> Result<usize, Fail> {
    let writes = whole.len().div_ceil(most);
    for count in 0..writes {
        let mut sink = Sink::new(alloc, most, count, fails);
        match write(alloc, reported, which, &mut sink) {
            Err(ReportFault::Write) => {}
            Err(ReportFault::Memory) => return Err("a failed write is told as out of memory")?,
            Ok(()) => return Err("a failed write is not told")?,
        }
        if sink.bytes.as_slice() != &whole[..count * most] {
            return Err("the writer has not just the bytes before the failed write")?;
        }
    }
    let mut sink = Sink::new(alloc, most, writes, fails);
    write(alloc, reported, which, &mut sink)?;
    if sink.bytes.as_slice() != whole {
        return Err("other bytes from a writer that fails after the last")?;
    }
    Ok(writes)
}

// Runs the program over a script: its status, and what the writer and standard error got.
fn tool(alloc: Global, mode: Mode, text: &str, out: &mut Sink) -> Result<(u8, Vec<u8>), Fail> {
    let mut told = Vec::new(alloc);
    let mut input = Tracked::new(text.as_bytes());
    let mut err = Tracked::new(&mut told);
    let status = run_tool(alloc, mode, &mut input, out, &mut err);
    drop(err);
    Ok((status, told))
}

// The program with a writer that takes `most` bytes at a time: it gets the same, and where it
// fails at its k-th write, for each k, the program ends with 2 and says so. How many writes there
// are.
fn each_write(
    alloc: Global,
    mode: Mode,
    text: &str,
    most: usize,
    fails: Fails,
) -> Result<usize, Fail> {
    let mut plain = Sink::new(alloc, MANY, MANY, fails);
    let (wanted, _told) = tool(alloc, mode, text, &mut plain)?;
    for most in [1, most] {
        let mut sink = Sink::new(alloc, most, MANY, fails);
        let (status, told) = tool(alloc, mode, text, &mut sink)?;
        if status != wanted || !told.is_empty() || sink.bytes.as_slice() != plain.bytes.as_slice() {
            return Err("other bytes where a writer takes a few at a time")?;
        }
    }
    let writes = plain.bytes.len().div_ceil(most);
    for count in 0..writes {
        let mut sink = Sink::new(alloc, most, count, fails);
        let (status, told) = tool(alloc, mode, text, &mut sink)?;
        if status != 2 || told.as_slice() != NO_WRITE {
            return Err("a failed write ends the program otherwise")?;
        }
        if sink.bytes.as_slice() != &plain.bytes.as_slice()[..count * most] {
            return Err("the writer has not just the bytes before the failed write")?;
        }
    }
    Ok(writes)
}

/// The reports of a script and the program, over writers that fail.
pub fn failing(rt: &HostRuntime, text: &str) -> Result<(), Fail> {
    let alloc = rt.alloc();
    let script = text.as_bytes();
    let reported = Reported {
        results: run_script(alloc, open_in_memory(alloc)?, script)?,
        entries: run_audited(alloc, open_in_memory(alloc)?, script)?,
        checks: check_script(alloc, script)?,
    };
    for fails in [Fails::Says, Fails::TakesNone] {
        for (which, name, most) in [
            (0, "write_report", 4),
            (1, "write_audited", 16),
            (2, "write_check", 1),
        ] {
            let mut whole = Sink::new(alloc, MANY, MANY, fails);
            write(alloc, &reported, which, &mut whole)?;
            let mut single = Sink::new(alloc, 1, MANY, fails);
            write(alloc, &reported, which, &mut single)?;
            if single.bytes.as_slice() != whole.bytes.as_slice() {
                return Err("other bytes from a writer that takes one byte at a time")?;
            }
            let writes = each_part(alloc, &reported, which, whole.bytes.as_slice(), most, fails)?;
            println!(rt; "ok {name}: a fault at each of {writes} writes")?;
        }
        for (mode, name, most) in [
            (Mode::Run, "run", 4),
            (Mode::RunAudited, "run --audit", 16),
            (Mode::Check, "check", 1),
        ] {
            let writes = each_write(alloc, mode, text, most, fails)?;
            println!(rt; "ok {name}: a fault at each of {writes} writes")?;
        }
    }
    Ok(())
}
