//! Stores of form 1 by calls: what `open` makes of one, and what it refuses.

use crate::fixtures::{FOREVER, Recorded, are_versions, moment, statement};
use crate::old_stores::{CLASHING, CLOCK, InSeconds, MEETING, OPEN_END, write_old_store};
use memory_store::{MemoryStore, open_in_memory};
use period_core::{Moment, Refusal};
use script_engine::{Engine, Outcome};
use sqlite::Connection;
use std::alloc::Global;
use std::test::Fail;
use version_store::VersionStore;
use version_tables::{Form, meta_rows, number_at};

type InMemory = Engine<MemoryStore>;

fn old_store(
    alloc: Global,
    clock: i64,
    versions: &[InSeconds<'_>],
) -> Result<Connection<MemoryStore>, Fail> {
    let mut connection = open_in_memory(alloc)?;
    write_old_store(alloc, &mut connection, clock, versions)?;
    Ok(connection)
}

// The form and the clock of a database, as it counts them.
fn form_and_clock(connection: &mut Connection<MemoryStore>) -> Result<(i64, i64), Fail> {
    let rows = meta_rows(connection)?;
    let [row] = rows.as_slice() else {
        return Err("another number of rows")?;
    };
    let form = number_at(row, 1).ok_or("no form")?;
    Ok((form, number_at(row, 2).ok_or("no clock")?))
}

// Whether these are the seconds, or microseconds, from which and to which its versions were
// recorded, by their keys.
fn has_moments(
    connection: &mut Connection<MemoryStore>,
    wanted: &[(i64, i64)],
) -> Result<bool, Fail> {
    let rows = connection.query_all("SELECT ss, se FROM bt_version", &[])?;
    if rows.len() != wanted.len() {
        return Ok(false);
    }
    for (row, (from, to)) in rows.as_slice().iter().zip(wanted) {
        if number_at(row, 0) != Some(*from) || number_at(row, 1) != Some(*to) {
            return Ok(false);
        }
    }
    Ok(true)
}

fn opened(alloc: Global, connection: Connection<MemoryStore>) -> Result<InMemory, Fail> {
    match Engine::open(alloc, connection) {
        Ok(engine) => Ok(engine),
        Err((refusal, _connection)) => Err(refusal)?,
    }
}

// The connection of a store that is refused as a bad one.
fn refused(
    alloc: Global,
    connection: Connection<MemoryStore>,
) -> Result<Connection<MemoryStore>, Fail> {
    match Engine::open(alloc, connection) {
        Err((Refusal::BadStore, connection)) => Ok(connection),
        Err((refusal, _connection)) => Err(refusal)?,
        Ok(_engine) => Err("the store was opened")?,
    }
}

const BOTH: &str = "SELECT * FROM EMP FOR SYSTEM_TIME \
    FROM TIMESTAMP '1970-01-01 00:00:00' TO TIMESTAMP '1970-01-13 00:00:00'";

// Whether a stored query shows these versions.
fn shows(
    alloc: Global,
    engine: &mut InMemory,
    text: &str,
    wanted: &[Recorded<'_>],
) -> Result<bool, Fail> {
    let query = statement(alloc, text)?;
    let outcome = engine.execute(alloc, &query);
    drop(query);
    let Outcome::Versions(list) = outcome? else {
        return Err("no versions")?;
    };
    are_versions(alloc, list.rows.as_slice(), wanted)
}

// The versions of `MEETING` once they are moved.
const MOVED: [Recorded<'static>; 2] = [
    (
        (&[1, 3], "2024-01-01", "2024-02-01"),
        "1970-01-01 00:00:01",
        "1970-01-01 00:00:02",
    ),
    (
        (&[1, 3], "2024-01-01", "2024-02-01"),
        "1970-01-12 13:46:40",
        FOREVER,
    ),
];

const MOVED_NUMBERS: [(i64, i64); 2] = [
    (1_000_000, 2_000_000),
    (1_000_000_000_000, 253_402_300_799_999_999),
];

#[test]
fn starts_that_meet(rt: HostRuntime) -> Result<(), Fail> {
    let alloc = rt.alloc();
    let mut connection = old_store(alloc, CLOCK, &MEETING)?;
    // once moved, then as it is
    for _ in 0..2 {
        let mut engine = opened(alloc, connection)?;
        assert_eq!(rt; engine.clock(), moment("1970-01-12 13:46:40")?);
        assert!(rt; shows(alloc, &mut engine, BOTH, &MOVED)?);
        assert!(rt; shows(alloc, &mut engine, "SELECT * FROM EMP", &MOVED[1..])?);
        connection = engine.close();
        assert_eq!(rt; form_and_clock(&mut connection)?, (2, CLOCK * 1_000_000));
        assert!(rt; has_moments(&mut connection, &MOVED_NUMBERS)?);
    }
    Ok(())
}

// What is opened is read in microseconds, and is moved only once it is accepted.
#[test]
fn moved_as_accepted(rt: HostRuntime) -> Result<(), Fail> {
    let alloc = rt.alloc();
    let connection = old_store(alloc, CLOCK, &MEETING)?;
    let Ok((store, lists)) = VersionStore::open(alloc, connection) else {
        return Err("the store is refused")?;
    };
    assert_eq!(rt; lists.len(), 1);
    assert!(rt; are_versions(alloc, lists[0].as_slice(), &MOVED)?);
    let mut connection = store.refuse();
    assert_eq!(rt; form_and_clock(&mut connection)?, (Form::Seconds.number(), CLOCK));
    assert!(rt; has_moments(&mut connection, &[(1, 2), (CLOCK, OPEN_END)])?);
    let Ok((store, _lists)) = VersionStore::open(alloc, connection) else {
        return Err("the store is refused")?;
    };
    let Ok(store) = store.accept() else {
        return Err("the store is not moved")?;
    };
    let mut connection = store.close();
    assert_eq!(rt; form_and_clock(&mut connection)?.0, Form::Microseconds.number());
    assert!(rt; has_moments(&mut connection, &MOVED_NUMBERS)?);
    Ok(())
}

// A store of form 1 is judged by its own numbers, and then by its keys, before anything is written.
#[test]
fn refused_as_it_is(rt: HostRuntime) -> Result<(), Fail> {
    let alloc = rt.alloc();
    let held = (&[1, 3][..], "2024-01-01", "2024-02-01");
    let microseconds = CLOCK * 1_000_000;
    let bad: [(i64, &[InSeconds<'_>]); 6] = [
        // one key on one day
        (CLOCK, &CLASHING),
        // the clock at the open end, or past it
        (OPEN_END, &[]),
        (OPEN_END * 1_000_000, &[]),
        // before the first second
        (-62_135_596_801, &[]),
        // an end between the clock and the open end
        (CLOCK, &[(held, 1, CLOCK + 1)]),
        // the open end of form 2
        (microseconds, &[(held, 1, 253_402_300_799_999_999)]),
    ];
    for (clock, versions) in bad {
        let mut connection = refused(alloc, old_store(alloc, clock, versions)?)?;
        assert_eq!(rt; form_and_clock(&mut connection)?, (1, clock));
        let mut wanted = Vec::new(alloc);
        for (_, from, to) in versions {
            wanted.push((*from, *to))?;
        }
        assert!(rt; has_moments(&mut connection, wanted.as_slice())?);
    }
    Ok(())
}

// A store whose clock is later than a moment is as it was; one whose clock is that moment is opened.
#[test]
fn ahead_of_a_moment(rt: HostRuntime) -> Result<(), Fail> {
    let alloc = rt.alloc();
    let clock = Moment::new(CLOCK * 1_000_000).ok_or("no moment")?;
    let connection = old_store(alloc, CLOCK, &MEETING)?;
    let mut connection = match Engine::open_by(alloc, connection, clock.prev()) {
        Err((None, connection)) => connection,
        Err((Some(refusal), _connection)) => Err(refusal)?,
        Ok(_engine) => Err("the store was opened")?,
    };
    assert_eq!(rt; form_and_clock(&mut connection)?, (Form::Seconds.number(), CLOCK));
    assert!(rt; has_moments(&mut connection, &[(1, 2), (CLOCK, OPEN_END)])?);
    let Ok(engine) = Engine::open_by(alloc, connection, Some(clock)) else {
        return Err("the store is refused")?;
    };
    assert_eq!(rt; engine.clock(), clock);
    assert!(rt; has_moments(&mut engine.close(), &MOVED_NUMBERS)?);
    Ok(())
}

// The first second and the last before the open end are good clocks.
#[test]
fn clocks_at_both_ends(rt: HostRuntime) -> Result<(), Fail> {
    let alloc = rt.alloc();
    let clocks = [
        (-62_135_596_800, "0001-01-01 00:00:00"),
        (OPEN_END - 1, "9999-12-31 23:59:58"),
    ];
    for (clock, text) in clocks {
        let engine = opened(alloc, old_store(alloc, clock, &[])?)?;
        assert_eq!(rt; engine.clock(), moment(text)?);
    }
    Ok(())
}
