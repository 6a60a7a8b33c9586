//! A store in files whose disk stops at each of its calls in turn: first the log's, then the
//! database's. Each call of the engine returns; and the files are then opened again, as they were
//! written and as a crash leaves them, which loses all that no sync wrote.

use crate::opened::{Script, Shown, report_of};
use period_core::Refusal;
use script_engine::{Engine, Outcome};
use sqlite::{Connection, FileStore, Files, Options};
use sqlite_disk::{Crash, Disk, Fuse, Memory};
use std::alloc::Global;
use std::test::Fail;

pub type Fused = Fuse<Memory>;

type InFiles = Engine<FileStore<Fused>>;

/// All calls are passed on.
pub const ALL: u64 = u64::MAX;

/// Small enough that the log is copied into the database within the script, and pages are written
/// before they are committed.
pub fn options() -> Options {
    let mut options = Options::new(1);
    options.cache_pages = 24;
    options.spill_pages = 4;
    options.checkpoint_frames = 12;
    options
}

/// A file of these bytes, which passes `calls` calls on.
pub fn file_of(alloc: Global, bytes: &[u8], calls: u64) -> Result<Fused, Fail> {
    let mut memory = Memory::new(alloc);
    if !bytes.is_empty() {
        memory.write_at(0, bytes)?;
        memory.sync()?;
    }
    Ok(Fuse::new(memory, calls))
}

// An engine over files, or what is left of them with the refusal.
fn opened(alloc: Global, files: Files<Fused>) -> Result<InFiles, Files<Fused>> {
    let connection = match Connection::open_files(alloc, files, options()) {
        Ok(connection) => connection,
        Err((_error, left)) => return Err(left.into_files()),
    };
    match Engine::open(alloc, connection) {
        Ok(engine) => Ok(engine),
        Err((_refusal, connection)) => Err(connection.into_store().close()),
    }
}

// What is left of the files of an engine that is not closed well, as where its process ends.
fn left_by(engine: InFiles) -> Files<Fused> {
    engine.close().into_store().close()
}

// The report of the result of one statement.
fn report_of_one(alloc: Global, given: Result<Outcome, Refusal>) -> Result<Vec<u8>, Fail> {
    let mut results = Vec::new(alloc);
    results.push(given)?;
    report_of(alloc, results.as_slice())
}

// What a script gives, and what the engine shows before and after each statement, over disks that
// don't fail.
#[derive(Drop)]
struct Plain {
    reports: Vec<Vec<u8>>,
    shown: Vec<Shown>,
}

fn plain_of(alloc: Global, script: &Script<'_>) -> Result<Plain, Fail> {
    let files = Files {
        log: file_of(alloc, b"", ALL)?,
        db: file_of(alloc, b"", ALL)?,
    };
    let mut engine = opened(alloc, files).ok().ok_or("no engine")?;
    let mut reports = Vec::new(alloc);
    let mut shown = Vec::new(alloc);
    shown.push(Shown::of(alloc, &mut engine)?)?;
    for piece in 0..script.len() {
        let result = script.execute(alloc, &mut engine, piece);
        reports.push(report_of_one(alloc, result)?)?;
        shown.push(Shown::of(alloc, &mut engine)?)?;
    }
    Ok(Plain { reports, shown })
}

// Files that a stopped run left, and how many of its statements gave what they give over disks that
// don't fail.
#[derive(Drop)]
struct Stopped {
    files: Files<Fused>,
    went: usize,
}

// Runs a script over new files, to the first statement that gives something else than over disks
// that don't fail, or beyond it to the end; and closes them, where none did.
fn run(
    alloc: Global,
    script: &Script<'_>,
    plain: &Plain,
    files: Files<Fused>,
    goes_on: bool,
) -> Result<Stopped, Fail> {
    let mut engine = match opened(alloc, files) {
        Ok(engine) => engine,
        Err(files) => return Ok(Stopped { files, went: 0 }),
    };
    let (mut went, mut is_stopped) = (0, false);
    for piece in 0..script.len() {
        if is_stopped && !goes_on {
            break;
        }
        let result = script.execute(alloc, &mut engine, piece);
        if matches!(result, Err(Refusal::BadStore | Refusal::Memory)) {
            return Err("a failing disk is no bad store, and memory was not refused")?;
        }
        is_stopped = is_stopped
            || report_of_one(alloc, result)?.as_slice() != plain.reports[piece].as_slice();
        if !is_stopped {
            went += 1;
        }
    }
    if is_stopped {
        return Ok(Stopped {
            files: left_by(engine),
            went,
        });
    }
    let files = match engine.close().close_files() {
        Ok(files) => files,
        Err((_error, store)) => store.close(),
    };
    Ok(Stopped { files, went })
}

// What an engine shows over files of the same bytes, which don't fail.
fn shown_over(alloc: Global, left: &Files<Fused>) -> Result<Shown, Fail> {
    let files = Files {
        log: file_of(alloc, left.log.inner().bytes(), ALL)?,
        db: file_of(alloc, left.db.inner().bytes(), ALL)?,
    };
    let mut engine = opened(alloc, files)
        .ok()
        .ok_or("files are not opened again")?;
    Shown::of(alloc, &mut engine)
}

// Whether files show what was there before the stopped statement or after it.
fn is_before_or_after(
    alloc: Global,
    plain: &Plain,
    went: usize,
    left: &Files<Fused>,
) -> Result<bool, Fail> {
    let found = shown_over(alloc, left)?;
    Ok(
        found.is(&plain.shown[went])
            || went + 1 < plain.shown.len() && found.is(&plain.shown[went + 1]),
    )
}

// Runs a script once to its stop and once beyond it, and opens what they leave. Whether some call
// was not passed on.
fn stop_at(
    alloc: Global,
    script: &Script<'_>,
    plain: &Plain,
    log_calls: u64,
    db_calls: u64,
) -> Result<bool, Fail> {
    for goes_on in [false, true] {
        let files = Files {
            log: file_of(alloc, b"", log_calls)?,
            db: file_of(alloc, b"", db_calls)?,
        };
        let Stopped { mut files, went } = run(alloc, script, plain, files, goes_on)?;
        let is_whole = files.log.len().is_ok() && files.db.len().is_ok();
        // where statements go on after the stop, some may still go well
        if goes_on {
            let _shown = shown_over(alloc, &files)?;
        } else if !is_before_or_after(alloc, plain, went, &files)? {
            return Err("neither the state before the stopped statement nor the one after")?;
        }
        files.log.crash();
        files.db.crash();
        if !goes_on && !is_before_or_after(alloc, plain, went, &files)? {
            return Err("after a crash neither the state before the statement nor the one after")?;
        }
        if is_whole {
            return Ok(false);
        }
    }
    Ok(true)
}

/// The statements of a script over a log that stops at each of its calls in turn.
pub fn log(rt: &HostRuntime, text: &str) -> Result<(), Fail> {
    let alloc = rt.alloc();
    let script = Script::of(alloc, text)?;
    let plain = plain_of(alloc, &script)?;
    let mut calls = 0;
    while stop_at(alloc, &script, &plain, calls, ALL)? {
        calls += 1;
    }
    println!(rt; "ok the log: {calls} stops")?;
    Ok(())
}

/// The same over a database file that stops.
pub fn database(rt: &HostRuntime, text: &str) -> Result<(), Fail> {
    let alloc = rt.alloc();
    let script = Script::of(alloc, text)?;
    let plain = plain_of(alloc, &script)?;
    let mut calls = 0;
    while stop_at(alloc, &script, &plain, ALL, calls)? {
        calls += 1;
    }
    println!(rt; "ok the database: {calls} stops")?;
    Ok(())
}
