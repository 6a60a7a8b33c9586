//! The engine by calls, over a database in memory: statements, its clock, its tables and rows, and
//! the store that it leaves.

use crate::fixtures::{
    EMP, FOREVER, Held, Recorded, are_rows, are_versions, day, moment, statement,
};
use crate::stores::MOVES;
use memory_store::{MemoryStore, open_in_memory};
use period_core::{Answer, Moment, Refusal};
use script_engine::{Cell, Engine, Outcome, Verdict, Word, run};
use sqlite::{Connection, params};
use std::alloc::Global;
use std::test::Fail;

type InMemory = Engine<MemoryStore>;

// The engine over the store of a connection.
fn opened(alloc: Global, connection: Connection<MemoryStore>) -> Result<InMemory, Fail> {
    match Engine::open(alloc, connection) {
        Ok(engine) => Ok(engine),
        Err((refusal, _connection)) => Err(refusal)?,
    }
}

// What a statement gives.
fn execute(alloc: Global, engine: &mut InMemory, text: &str) -> Result<Outcome, Fail> {
    let statement = statement(alloc, text)?;
    let outcome = engine.execute(alloc, &statement);
    drop(statement);
    Ok(outcome?)
}

// What is done, with a number of rows.
fn done(alloc: Global, engine: &mut InMemory, text: &str) -> Result<(Word, u64), Fail> {
    match execute(alloc, engine, text)? {
        Outcome::Done(word, count) => Ok((word, count)),
        _ => Err("nothing was done")?,
    }
}

// The answer of a query.
fn answer(alloc: Global, engine: &mut InMemory, text: &str) -> Result<Answer, Fail> {
    match execute(alloc, engine, text)? {
        Outcome::Answer(answer) => Ok(answer),
        _ => Err("no answer")?,
    }
}

// Moves the clock.
fn move_clock(engine: &mut InMemory, text: &str) -> Result<(), Fail> {
    Ok(engine.at(moment(text)?)?)
}

// An engine over a new store in memory, with the table EMP, on 2024-01-01.
fn engine_of_january(alloc: Global) -> Result<InMemory, Fail> {
    let mut engine = opened(alloc, open_in_memory(alloc)?)?;
    execute(alloc, &mut engine, EMP)?;
    move_clock(&mut engine, "2024-01-01 00:00:00")?;
    Ok(engine)
}

// An engine over a store in which employee 22217 was moved to department 4 for some time.
fn engine_of_moves(alloc: Global) -> Result<InMemory, Fail> {
    let mut engine = engine_of_january(alloc)?;
    let employed = "INSERT INTO EMP VALUES (22217, 3, DATE '2010-01-01', DATE '2011-11-12')";
    execute(alloc, &mut engine, employed)?;
    move_clock(&mut engine, "2024-01-02 00:00:00")?;
    let moved = "UPDATE EMP FOR PORTION OF EP FROM DATE '2011-02-03' TO DATE '2011-09-10' \
        SET DEPT = 4 WHERE ENO = 22217";
    execute(alloc, &mut engine, moved)?;
    Ok(engine)
}

// Whether these are the versions of EMP.
fn has_versions(
    alloc: Global,
    engine: &mut InMemory,
    wanted: &[Recorded<'_>],
) -> Result<bool, Fail> {
    let rows = engine.rows(alloc, 1)?;
    are_versions(alloc, rows.as_slice(), wanted)
}

// Whether a query gives these rows.
fn answers(
    alloc: Global,
    engine: &mut InMemory,
    text: &str,
    wanted: &[Held<'_>],
) -> Result<bool, Fail> {
    let answer = answer(alloc, engine, text)?;
    are_rows(alloc, answer.rows.as_slice(), wanted)
}

const NUMBERS: &str = "VALIDTIME SELECT DISTINCT ENO FROM EMP";

#[test]
fn reopened_store(rt: HostRuntime) -> Result<(), Fail> {
    let alloc = rt.alloc();
    let mut engine = opened(alloc, engine_of_moves(alloc)?.close())?;
    assert_eq!(rt; engine.clock(), moment("2024-01-02 00:00:00")?);
    assert_eq!(rt; engine.catalog().len(), 1);
    assert!(rt; has_versions(alloc, &mut engine, &MOVES)?);
    let wanted: [Held<'_>; 1] = [(&[22_217], "2010-01-01", "2011-11-12")];
    assert!(rt; answers(alloc, &mut engine, NUMBERS, &wanted)?);
    let mut again = opened(alloc, engine.close_at_exit())?;
    assert!(rt; has_versions(alloc, &mut again, &MOVES)?);
    Ok(())
}

// Changes the form of a store.
fn change_form(connection: &mut Connection<MemoryStore>, form: i64) -> Result<usize, Fail> {
    Ok(connection.execute("UPDATE bt_meta SET form = ?1", params![form])?)
}

// The refusal of the store of a connection.
fn refused(alloc: Global, connection: Connection<MemoryStore>) -> Result<Refusal, Fail> {
    if !connection.is_autocommit() {
        return Err("a transaction is open")?;
    }
    match Engine::open(alloc, connection) {
        Ok(_) => Err("the store was opened")?,
        Err((refusal, _connection)) => Ok(refusal),
    }
}

#[test]
fn store_of_another_form(rt: HostRuntime) -> Result<(), Fail> {
    let alloc = rt.alloc();
    let mut connection = engine_of_moves(alloc)?.close();
    assert_eq!(rt; change_form(&mut connection, 9)?, 1);
    assert_eq!(rt; refused(alloc, connection)?, Refusal::BadStore);
    Ok(())
}

// What a run of a script keeps and leaves, or its refusal with the connection.
type Ran = Result<(Vec<Result<Outcome, Refusal>>, InMemory), (Refusal, Connection<MemoryStore>)>;

#[test]
fn runs_of_scripts(rt: HostRuntime) -> Result<(), Fail> {
    let alloc = rt.alloc();
    // refused as a whole, a script hands the connection back
    let ran: Ran = run(alloc, engine_of_moves(alloc)?.close(), b"\xff");
    let (refusal, connection) = ran.err().ok_or("the script was run")?;
    assert_eq!(rt; refusal, Refusal::NotUtf8);
    let script = b"INSERT INTO EMP VALUES (1, 3, DATE '2024-01-01', DATE '2024-02-01'); SELECT 1";
    let ran: Ran = run(alloc, connection, script);
    let (results, mut engine) = ran.ok().ok_or("the script was refused")?;
    let [first, second] = results.as_slice() else {
        return Err("another number of results")?;
    };
    assert!(rt; matches!(first, Ok(Outcome::Done(Word::Insert, 1))));
    assert!(rt; matches!(second, Err(Refusal::Syntax)));
    let held: Held<'_> = (&[1, 3], "2024-01-01", "2024-02-01");
    let inserted: Recorded<'_> = (held, "2024-01-02 00:00:00", FOREVER);
    let wanted = [inserted, MOVES[0], MOVES[1], MOVES[2], MOVES[3]];
    assert!(rt; has_versions(alloc, &mut engine, &wanted)?);
    Ok(())
}

#[test]
fn insert_with_column_list(rt: HostRuntime) -> Result<(), Fail> {
    let alloc = rt.alloc();
    let mut engine = engine_of_january(alloc)?;
    let insert = "INSERT INTO EMP (E, S, DEPT, ENO) \
        VALUES (DATE '2024-02-01', DATE '2024-01-01', 3, 1)";
    assert_eq!(rt; done(alloc, &mut engine, insert)?, (Word::Insert, 1));
    let mut engine = opened(alloc, engine.close())?;
    assert_eq!(rt; engine.clock(), moment("2024-01-01 00:00:00")?);
    let held: Held<'_> = (&[1, 3], "2024-01-01", "2024-02-01");
    let wanted: [Recorded<'_>; 1] = [(held, "2024-01-01 00:00:00", FOREVER)];
    assert!(rt; has_versions(alloc, &mut engine, &wanted)?);
    Ok(())
}

// The number of rows that a statement touches, or its refusal.
fn touched(alloc: Global, engine: &mut InMemory, text: &str) -> Result<Result<u64, Refusal>, Fail> {
    let statement = statement(alloc, text)?;
    let outcome = engine.execute(alloc, &statement);
    drop(statement);
    match outcome {
        Ok(Outcome::Done(_, count)) => Ok(Ok(count)),
        Ok(_) => Err("no change")?,
        Err(refusal) => Ok(Err(refusal)),
    }
}

// The same of an UPDATE of DEPT to 4 in a portion.
fn updated(
    alloc: Global,
    engine: &mut InMemory,
    start: &str,
    end: &str,
) -> Result<Result<u64, Refusal>, Fail> {
    let text = format!(in alloc;
        "UPDATE EMP FOR PORTION OF EP FROM DATE '{start}' \
        TO DATE '{end}' SET DEPT = 4"
    )?;
    touched(alloc, engine, text.as_str())
}

#[test]
fn portions(rt: HostRuntime) -> Result<(), Fail> {
    let alloc = rt.alloc();
    let mut engine = engine_of_january(alloc)?;
    let insert = "INSERT INTO EMP VALUES (1, 3, DATE '2024-01-01', DATE '2024-02-01')";
    execute(alloc, &mut engine, insert)?;
    let from = "2024-01-01 00:00:00";
    let whole: Recorded<'_> = ((&[1, 3], "2024-01-01", "2024-02-01"), from, FOREVER);
    let found = updated(alloc, &mut engine, "2024-02-01", "2024-03-01")?;
    assert_eq!(rt; found, Ok(0));
    let found = updated(alloc, &mut engine, "2024-01-15", "2024-01-15")?;
    assert_eq!(rt; found, Err(Refusal::EmptyPeriod));
    assert!(rt; has_versions(alloc, &mut engine, &[whole])?);
    let found = updated(alloc, &mut engine, "2024-01-01", "2024-01-15")?;
    assert_eq!(rt; found, Ok(1));
    let rest: Recorded<'_> = ((&[1, 3], "2024-01-15", "2024-02-01"), from, FOREVER);
    let begun: Recorded<'_> = ((&[1, 4], "2024-01-01", "2024-01-15"), from, FOREVER);
    assert!(rt; has_versions(alloc, &mut engine, &[rest, begun])?);
    Ok(())
}

#[test]
fn clocks(rt: HostRuntime) -> Result<(), Fail> {
    let mut engine = engine_of_january(rt.alloc())?;
    let first = engine.clock();
    let before = moment("2023-12-31 23:59:59")?;
    assert_eq!(rt; engine.at(before), Err(Refusal::MomentBack));
    assert_eq!(rt; engine.at(Moment::forever()), Err(Refusal::BadMoment));
    assert_eq!(rt; engine.clock(), first);
    assert_eq!(rt; engine.at(first), Ok(()));
    let next = moment("2024-01-01 00:00:01")?;
    assert_eq!(rt; engine.at(next), Ok(()));
    assert_eq!(rt; engine.clock(), next);
    Ok(())
}

#[test]
fn answers_and_their_copies(rt: HostRuntime) -> Result<(), Fail> {
    let alloc = rt.alloc();
    let mut engine = engine_of_moves(alloc)?;
    let found = answer(alloc, &mut engine, NUMBERS)?;
    let copy = found.copy(alloc)?;
    drop(found);
    assert_eq!(rt; copy.columns.len(), 1);
    let wanted: [Held<'_>; 1] = [(&[22_217], "2010-01-01", "2011-11-12")];
    assert!(rt; are_rows(alloc, copy.rows.as_slice(), &wanted)?);
    let [witness] = copy.witnesses.as_slice() else {
        return Err("another number of witnesses")?;
    };
    assert_eq!(rt; witness.held, day("2010-01-01")?);
    assert_eq!(rt; witness.absent, Some(day("2009-12-31")?));
    Ok(())
}

type Audit = Option<Result<Verdict, Refusal>>;

// The audit of what a statement gives.
fn audited(alloc: Global, engine: &mut InMemory, text: &str) -> Result<Audit, Fail> {
    let statement = statement(alloc, text)?;
    let entry = engine.execute_audited(alloc, &statement);
    drop(statement);
    Ok(entry.audit)
}

#[test]
fn audited_statements(rt: HostRuntime) -> Result<(), Fail> {
    let alloc = rt.alloc();
    let mut engine = engine_of_january(alloc)?;
    let insert = "INSERT INTO EMP VALUES (1, 3, DATE '0001-01-01', DATE '9999-12-31')";
    execute(alloc, &mut engine, insert)?;
    let found = audited(alloc, &mut engine, NUMBERS)?;
    assert_eq!(rt; found, Some(Ok(Verdict::Agrees(2))));
    assert_eq!(rt; audited(alloc, &mut engine, "DELETE FROM EMP")?, None);
    Ok(())
}

#[test]
fn stored_versions(rt: HostRuntime) -> Result<(), Fail> {
    let alloc = rt.alloc();
    let mut engine = engine_of_moves(alloc)?;
    let Outcome::Versions(list) = execute(alloc, &mut engine, "SELECT * FROM EMP")? else {
        return Err("no versions")?;
    };
    assert!(rt; are_versions(alloc, list.rows.as_slice(), &MOVES[1..])?);
    let cells = [
        ("ENO", Cell::Value(0)),
        ("DEPT", Cell::Value(1)),
        ("S", Cell::Start),
        ("E", Cell::End),
        ("SS", Cell::From),
        ("SE", Cell::To),
    ];
    assert_eq!(rt; list.columns.len(), cells.len());
    for (column, (name, cell)) in list.columns.as_slice().iter().zip(cells) {
        assert_eq!(rt; column.name.as_str(), name);
        assert_eq!(rt; column.cell, cell, "of {name}");
    }
    Ok(())
}
