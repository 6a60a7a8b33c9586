//! A store of form 1 in files, as `open` fails at each call: of an allocation that is refused, or
//! of a disk that stops. The files are then as they were, or the store is moved whole.

use crate::disks::{ALL, Fused, file_of, options};
use crate::memory::{must_be_refused, refusals_begin, refusals_end};
use crate::old_stores::{CLOCK, MEETING, write_old_store};
use period_core::Refusal;
use script_engine::Engine;
use sqlite::{Connection, FileStore, Files};
use sqlite_disk::{Crash, Disk};
use std::alloc::Global;
use std::test::Fail;
use version_tables::{meta_rows, number_at};

type InFiles = Connection<FileStore<Fused>>;

// Files of the same bytes, whose log and database pass `log_calls` and `db_calls` calls on.
fn files_like(
    alloc: Global,
    files: &Files<Fused>,
    log_calls: u64,
    db_calls: u64,
) -> Result<Files<Fused>, Fail> {
    Ok(Files {
        log: file_of(alloc, files.log.inner().bytes(), log_calls)?,
        db: file_of(alloc, files.db.inner().bytes(), db_calls)?,
    })
}

fn connected(alloc: Global, files: Files<Fused>) -> Result<InFiles, Files<Fused>> {
    match Connection::open_files(alloc, files, options()) {
        Ok(connection) => Ok(connection),
        Err((_error, left)) => Err(left.into_files()),
    }
}

// The files of a store of form 1, closed well.
fn old_files(alloc: Global) -> Result<Files<Fused>, Fail> {
    let files = Files {
        log: file_of(alloc, b"", ALL)?,
        db: file_of(alloc, b"", ALL)?,
    };
    let mut connection = connected(alloc, files).ok().ok_or("no connection")?;
    write_old_store(alloc, &mut connection, CLOCK, &MEETING)?;
    match connection.close_files() {
        Ok(files) => Ok(files),
        Err(_) => Err("the files are not closed")?,
    }
}

// The form, the clock and the moments of the two versions that files show.
fn numbers_of(alloc: Global, files: &Files<Fused>) -> Result<Vec<i64>, Fail> {
    let files = files_like(alloc, files, ALL, ALL)?;
    let mut connection = connected(alloc, files)
        .ok()
        .ok_or("files are not opened again")?;
    let mut numbers = Vec::new(alloc);
    for row in meta_rows(&mut connection)?.as_slice() {
        numbers.push(number_at(row, 1).ok_or("no form")?)?;
        numbers.push(number_at(row, 2).ok_or("no clock")?)?;
    }
    let versions = connection.query_all("SELECT ss, se FROM bt_version", &[])?;
    for row in versions.as_slice() {
        numbers.push(number_at(row, 0).ok_or("no start")?)?;
        numbers.push(number_at(row, 1).ok_or("no end")?)?;
    }
    Ok(numbers)
}

const OLD: [i64; 6] = [1, 1_000_000, 1, 2, 1_000_000, 253_402_300_799];

const MOVED: [i64; 6] = [
    2,
    1_000_000_000_000,
    1_000_000,
    2_000_000,
    1_000_000_000_000,
    253_402_300_799_999_999,
];

// Opens the store with its N-th allocation refused. Whether one was.
fn open_refused(alloc: Global, old: &Files<Fused>, first: u64) -> Result<bool, Fail> {
    let files = files_like(alloc, old, ALL, ALL)?;
    let connection = connected(alloc, files).ok().ok_or("no connection")?;
    refusals_begin(first, 1, 1);
    let result = Engine::open(alloc, connection);
    let refused = refusals_end();
    let (left, may_be_old, may_be_moved) = match result {
        Ok(engine) => (engine.close().into_store().close(), false, true),
        Err((Refusal::Memory, connection)) => {
            let left = connection.into_store().close();
            // the log may have pages of a transaction that was not committed
            if left.db.inner().bytes() != old.db.inner().bytes() {
                return Err("a refused open wrote to the database file")?;
            }
            (left, true, false)
        }
        // The files are in memory too: where they get none, that is a fault of the disk, after
        // which the log may have the commit.
        Err((Refusal::Store, connection)) => (connection.into_store().close(), true, true),
        Err((_refusal, _connection)) => return Err("an open is refused otherwise")?,
    };
    let found = numbers_of(alloc, &left)?;
    let is_old = may_be_old && found.as_slice() == OLD.as_slice();
    let is_moved = may_be_moved && found.as_slice() == MOVED.as_slice();
    if !is_old && !is_moved {
        return Err("a refused open leaves another store than it says")?;
    }
    Ok(refused > 0)
}

// Opens the store over files that pass these numbers of calls on, and looks at what they leave, as
// they were written and as a crash leaves them. Whether some call was not passed on.
fn stop_at(
    alloc: Global,
    old: &Files<Fused>,
    log_calls: u64,
    db_calls: u64,
) -> Result<bool, Fail> {
    let files = files_like(alloc, old, log_calls, db_calls)?;
    let mut is_moved = false;
    let mut left = match connected(alloc, files) {
        Err(files) => files,
        Ok(connection) => match Engine::open(alloc, connection) {
            Ok(engine) => {
                is_moved = true;
                engine.close().into_store().close()
            }
            Err((Refusal::Store, connection)) => connection.into_store().close(),
            Err((_refusal, _connection)) => return Err("a failing disk is refused otherwise")?,
        },
    };
    let is_whole = left.log.len().is_ok() && left.db.len().is_ok();
    for is_crashed in [false, true] {
        if is_crashed {
            left.log.crash();
            left.db.crash();
        }
        let found = numbers_of(alloc, &left)?;
        let is_old = !is_moved && found.as_slice() == OLD.as_slice();
        if !is_old && found.as_slice() != MOVED.as_slice() {
            return Err("the store is neither as it was nor moved")?;
        }
    }
    Ok(!is_whole)
}

/// `open` of a store of form 1, with each allocation refused in turn, and over a log and a database
/// that stop at each of their calls in turn.
pub fn failing(rt: &HostRuntime) -> Result<(), Fail> {
    let alloc = rt.alloc();
    let old = old_files(alloc)?;
    if numbers_of(alloc, &old)?.as_slice() != OLD.as_slice() {
        return Err("another store than was written")?;
    }
    let mut first = 1;
    while open_refused(alloc, &old, first)? {
        first += 1;
    }
    must_be_refused(first - 1)?;
    println!(rt; "ok the move: {first} tries with an allocation refused")?;
    let mut calls = 0;
    while stop_at(alloc, &old, calls, ALL)? {
        calls += 1;
    }
    must_be_refused(calls)?;
    println!(rt; "ok the move: {calls} stops of the log")?;
    calls = 0;
    while stop_at(alloc, &old, ALL, calls)? {
        calls += 1;
    }
    must_be_refused(calls)?;
    println!(rt; "ok the move: {calls} stops of the database")?;
    Ok(())
}
