//! Calls of which one allocation is refused, or several, in one process: first the first one, then
//! the second, until a call makes no more. What is refused changes nothing, and gives what it would
//! have given once it is run again.

use crate::fixtures::{EMP, catalog_of, moment, rows, statement};
use crate::opened::{InMemory, Script, Shown, new_engine, opened, plain_report, report_of};
use catalog_core::{Catalog, Query, Tables};
use statement_resolution::resolve_query;
use coalesce_core::witnesses;
use memory_store::{MemoryStore, open_in_memory};
use period_core::{Answer, Items, PeriodRow, Refusal};
use script_engine::{
    Engine, Entry, Outcome, ReportFault, Verdict, check_script, run_audited, run_script,
    write_audited, write_check, write_report,
};
use sequenced_ops::run_query;
use snapshot_audit::audit;
use sql_statements::{Statement, StatementForm};
use sqlite::Connection;
use std::alloc::Global;
use std::io;
use std::io::Write;
use std::test::Fail;
use version_store::VersionStore;

unsafe extern "C" {
    // Refuses the allocation `first`, counted from 1, and each `step`-th one after it, but no more
    // than `most`.
    pub safe fn refusals_begin(first: u64, step: u64, most: u64);

    // Refuses none any more. How many were refused.
    pub safe fn refusals_end() -> u64;

    // How many allocations there were in between.
    safe fn allocations_made() -> u64;
}

const MANY: u64 = 1_000_000;

/// A call that makes no allocation at all would show nothing.
pub fn must_be_refused(times: u64) -> Result<(), Fail> {
    if times == 0 {
        return Err("nothing was refused")?;
    }
    Ok(())
}

// Which allocations are refused from the N-th on: how far they are apart, how many they are at
// most; and how far apart these N are.
#[derive(Clone, Copy)]
struct Pattern {
    step: u64,
    most: u64,
    stride: u64,
    name: &'static str,
}

const PATTERNS: [Pattern; 4] = [
    Pattern {
        step: 1,
        most: 1,
        stride: 1,
        name: "one",
    },
    Pattern {
        step: 1,
        most: 10,
        stride: 7,
        name: "ten, one after the other",
    },
    Pattern {
        step: 2,
        most: MANY,
        stride: 7,
        name: "each second",
    },
    Pattern {
        step: 3,
        most: MANY,
        stride: 7,
        name: "each third",
    },
];

// What a script gives, statement by statement, where nothing is refused: its results' reports, and
// what the engine shows before and after each.
#[derive(Drop)]
struct Plain {
    reports: Vec<Vec<u8>>,
    shown: Vec<Shown>,
}

// The report of the result of one statement.
fn report_of_one(alloc: Global, given: Result<Outcome, Refusal>) -> Result<Vec<u8>, Fail> {
    let mut results = Vec::new(alloc);
    results.push(given)?;
    report_of(alloc, results.as_slice())
}

fn plain_of(alloc: Global, script: &Script<'_>) -> Result<Plain, Fail> {
    let mut engine = new_engine(alloc)?;
    let mut reports = Vec::new(alloc);
    let mut shown = Vec::new(alloc);
    shown.push(Shown::of(alloc, &mut engine)?)?;
    for piece in 0..script.len() {
        let result = script.execute(alloc, &mut engine, piece);
        reports.push(report_of_one(alloc, result)?)?;
        shown.push(Shown::of(alloc, &mut engine)?)?;
    }
    Ok(Plain { reports, shown })
}

// How a call went of which allocations were to be refused.
enum Went {
    // None was refused.
    Whole,
    // It was refused, and all held that has to.
    Refused,
    // Some were refused, and it gave what it gives without.
    Regardless,
}

// Whether a statement that was refused left all as it was, and then gives what it gives without
// refusals, and leaves what it leaves then.
fn is_as_before_and_goes_again(
    alloc: Global,
    script: &Script<'_>,
    piece: usize,
    plain: &Plain,
    engine: &mut InMemory,
) -> Result<bool, Fail> {
    if !Shown::of(alloc, engine)?.is(&plain.shown[piece]) {
        return Ok(false);
    }
    let again = script.execute(alloc, engine, piece);
    Ok(
        report_of_one(alloc, again)?.as_slice() == plain.reports[piece].as_slice()
            && Shown::of(alloc, engine)?.is(&plain.shown[piece + 1]),
    )
}

// Runs a piece of a script over an engine that ran those before it, with refusals.
fn execute_refused(
    alloc: Global,
    script: &Script<'_>,
    piece: usize,
    plain: &Plain,
    engine: &mut InMemory,
    first: u64,
    pattern: Pattern,
) -> Result<Went, Fail> {
    refusals_begin(first, pattern.step, pattern.most);
    let result = script.execute(alloc, engine, piece);
    let refused = refusals_end();
    let is_memory = matches!(result, Err(Refusal::Memory));
    if is_memory {
        if refused == 0 {
            return Err("61 where nothing was refused")?;
        }
        if !is_as_before_and_goes_again(alloc, script, piece, plain, engine)? {
            return Err("a refused statement left something, or went otherwise again")?;
        }
        return Ok(Went::Refused);
    }
    if report_of_one(alloc, result)?.as_slice() != plain.reports[piece].as_slice() {
        return Err("another result than without refusals")?;
    }
    if !Shown::of(alloc, engine)?.is(&plain.shown[piece + 1]) {
        return Err("another state than without refusals")?;
    }
    if refused == 0 {
        Ok(Went::Whole)
    } else {
        Ok(Went::Regardless)
    }
}

/// Each statement of a script, over an engine that ran just those before it, with refusals from its
/// N-th allocation on, for each N until nothing is refused.
pub fn statements(rt: &HostRuntime, text: &str) -> Result<(), Fail> {
    let alloc = rt.alloc();
    let script = Script::of(alloc, text)?;
    let plain = plain_of(alloc, &script)?;
    for pattern in PATTERNS {
        for piece in 0..script.len() {
            let (mut first, mut refused, mut regardless) = (1, 0, 0);
            loop {
                let mut engine = new_engine(alloc)?;
                script.execute_first(alloc, &mut engine, piece);
                match execute_refused(alloc, &script, piece, &plain, &mut engine, first, pattern)? {
                    Went::Whole => break,
                    Went::Refused => refused += 1,
                    Went::Regardless => regardless += 1,
                }
                first += pattern.stride;
            }
            must_be_refused(refused)?;
            let (number, name) = (piece + 1, pattern.name);
            println!(rt;
                "ok statement {number}, {name}: {refused} times 61, {regardless} as if not"
            )?;
        }
    }
    Ok(())
}

/// The statements of a script over one engine, each with its N-th allocation refused, for N from 1
/// until it is not refused.
pub fn again(rt: &HostRuntime, text: &str) -> Result<(), Fail> {
    let alloc = rt.alloc();
    let script = Script::of(alloc, text)?;
    let plain = plain_of(alloc, &script)?;
    let mut engine = new_engine(alloc)?;
    let mut results = Vec::new(alloc);
    let mut all = 0;
    for piece in 0..script.len() {
        let mut first = 1;
        let result = loop {
            refusals_begin(first, 1, 1);
            let result = script.execute(alloc, &mut engine, piece);
            let _refused = refusals_end();
            if !matches!(result, Err(Refusal::Memory)) {
                break result;
            }
            if !Shown::of(alloc, &mut engine)?.is(&plain.shown[piece]) {
                return Err("a refused statement left something")?;
            }
            first += 1;
        };
        must_be_refused(first - 1)?;
        all += first - 1;
        results.push(result)?;
    }
    let report = report_of(alloc, results.as_slice())?;
    if report.as_slice() != plain_report(alloc, text)?.as_slice() {
        return Err("another report than without refusals")?;
    }
    println!(rt; "ok one engine: {all} refusals, and the report of a plain run")?;
    Ok(())
}

// The connection that a script leaves, which says nothing of what it gives.
fn left_by(alloc: Global, script: &Script<'_>) -> Result<Connection<MemoryStore>, Fail> {
    let mut engine = new_engine(alloc)?;
    script.execute_first(alloc, &mut engine, script.len());
    Ok(engine.close())
}

// Opens a store with its N-th allocation refused, and again where that is refused. Whether one was.
fn open_refused(
    alloc: Global,
    connection: Connection<MemoryStore>,
    wanted: &Shown,
    first: u64,
) -> Result<bool, Fail> {
    refusals_begin(first, 1, 1);
    let result = Engine::open(alloc, connection);
    let refused = refusals_end();
    let mut engine = match result {
        Ok(engine) => engine,
        Err((Refusal::Memory, connection)) => opened(alloc, connection)?,
        Err((_refusal, _connection)) => return Err("an open is refused otherwise")?,
    };
    if !Shown::of(alloc, &mut engine)?.is(wanted) {
        return Err("an open shows something else")?;
    }
    Ok(refused > 0)
}

// The same of a store that is closed and opened again.
fn reopen_refused(
    alloc: Global,
    connection: Connection<MemoryStore>,
    wanted: &Shown,
    first: u64,
) -> Result<bool, Fail> {
    let (opened_store, _versions) = match VersionStore::open(alloc, connection) {
        Ok(found) => found,
        Err((refusal, _connection)) => return Err(refusal)?,
    };
    let store = match opened_store.accept() {
        Ok(store) => store,
        Err((refusal, _connection)) => return Err(refusal)?,
    };
    refusals_begin(first, 1, 1);
    let result = store.reopen(alloc);
    let refused = refusals_end();
    let connection = match result {
        Ok((store, _versions)) => store.refuse(),
        Err((Refusal::Memory, connection)) => connection,
        Err((_refusal, _connection)) => return Err("a reopen is refused otherwise")?,
    };
    let mut engine = opened(alloc, connection)?;
    if !Shown::of(alloc, &mut engine)?.is(wanted) {
        return Err("a reopen shows something else")?;
    }
    Ok(refused > 0)
}

/// `open`, `reopen` and `close` of the store that a script leaves.
pub fn opens(rt: &HostRuntime, text: &str) -> Result<(), Fail> {
    let alloc = rt.alloc();
    let script = Script::of(alloc, text)?;
    let mut engine = opened(alloc, left_by(alloc, &script)?)?;
    let left = Shown::of(alloc, &mut engine)?;
    refusals_begin(1, 1, MANY);
    let connection = engine.close();
    let _refused = refusals_end();
    if allocations_made() != 0 {
        return Err("close allocates")?;
    }
    drop(connection);
    println!(rt; "ok close: it makes no allocation")?;
    let mut first = 1;
    while open_refused(alloc, left_by(alloc, &script)?, &left, first)? {
        first += 1;
    }
    must_be_refused(first - 1)?;
    println!(rt; "ok open: {first} tries")?;
    let mut first = 1;
    while reopen_refused(alloc, left_by(alloc, &script)?, &left, first)? {
        first += 1;
    }
    must_be_refused(first - 1)?;
    println!(rt; "ok reopen: {first} tries")?;
    Ok(())
}

// Moves the clock of an engine to a moment with the N-th allocation refused, and again where that
// is refused. Whether one was.
fn at_refused(alloc: Global, first: u64) -> Result<bool, Fail> {
    let mut engine = new_engine(alloc)?;
    let _ = engine.execute(alloc, &statement(alloc, EMP)?)?;
    engine.at(moment("2024-01-01 00:00:00")?)?;
    let later = moment("2024-01-02 00:00:00")?;
    let before = Shown::of(alloc, &mut engine)?;
    refusals_begin(first, 1, 1);
    let result = engine.at(later);
    let refused = refusals_end();
    match result {
        Ok(()) => {}
        Err(Refusal::Memory) => {
            if !Shown::of(alloc, &mut engine)?.is(&before) {
                return Err("a refused move of the clock left something")?;
            }
            engine.at(later)?;
        }
        Err(_) => return Err("a move of the clock is refused otherwise")?,
    }
    if engine.clock() != later {
        return Err("the clock was not moved")?;
    }
    Ok(refused > 0)
}

/// `open` of a new store, and `at`.
pub fn new_store(rt: &HostRuntime) -> Result<(), Fail> {
    let alloc = rt.alloc();
    let none = Shown::of(alloc, &mut new_engine(alloc)?)?;
    let mut first = 1;
    while open_refused(alloc, open_in_memory(alloc)?, &none, first)? {
        first += 1;
    }
    must_be_refused(first - 1)?;
    println!(rt; "ok open of a new store: {first} tries")?;
    let mut first = 1;
    while at_refused(alloc, first)? {
        first += 1;
    }
    must_be_refused(first - 1)?;
    println!(rt; "ok at: {first} tries")?;
    Ok(())
}

// Whether an entry is an answer that its audit finds right.
fn agrees(entry: &Entry) -> bool {
    matches!(entry.result, Ok(Outcome::Answer(_)))
        && matches!(entry.audit, Some(Ok(Verdict::Agrees(_))))
}

// Audits the answer of a script's last statement, with the N-th allocation refused. Whether one
// was.
fn audited_refused(alloc: Global, script: &Script<'_>, first: u64) -> Result<bool, Fail> {
    let mut engine = new_engine(alloc)?;
    let last = script.len() - 1;
    script.execute_first(alloc, &mut engine, last);
    let before = Shown::of(alloc, &mut engine)?;
    let query = script.statement(alloc, last)?;
    refusals_begin(first, 1, 1);
    let entry = engine.execute_audited(alloc, &query);
    let refused = refusals_end();
    let is_refused = matches!(entry.result, Err(Refusal::Memory)) && entry.audit.is_none()
        || matches!(entry.result, Ok(Outcome::Answer(_)))
            && matches!(entry.audit, Some(Err(Refusal::Memory)));
    if is_refused && refused == 0 {
        return Err("61 where nothing was refused")?;
    }
    if !is_refused && !agrees(&entry) {
        return Err("neither refused nor right")?;
    }
    if !Shown::of(alloc, &mut engine)?.is(&before) {
        return Err("an audited query left something")?;
    }
    let entry = engine.execute_audited(alloc, &query);
    drop(query);
    if !agrees(&entry) {
        return Err("another audit than without refusals")?;
    }
    Ok(refused > 0)
}

/// The audited run of a script's last statement, a query.
pub fn audits(rt: &HostRuntime, text: &str) -> Result<(), Fail> {
    let alloc = rt.alloc();
    let script = Script::of(alloc, text)?;
    let mut first = 1;
    while audited_refused(alloc, &script, first)? {
        first += 1;
    }
    must_be_refused(first - 1)?;
    println!(rt; "ok an audited query: {first} tries")?;
    Ok(())
}

// The sequenced query that a statement asks.
fn asked(alloc: Global, catalog: &Catalog, statement: &Statement) -> Result<Query, Refusal> {
    match statement.form() {
        StatementForm::Sequenced(_) => resolve_query(alloc, catalog, statement),
        _ => Err(Refusal::Syntax),
    }
}

const MOST_TRIES: u64 = 1000;

// Answers a query with its N-th allocation refused, for each N until none is, in at most MOST_TRIES
// tries.
fn answered(alloc: Global, query: &Query, tables: &Tables) -> Result<(Vec<PeriodRow>, u64), Fail> {
    for first in 1..MOST_TRIES + 1 {
        refusals_begin(first, 1, 1);
        let result = run_query(alloc, query, tables);
        let refused = refusals_end();
        match result {
            Ok(rows) if refused == 0 => return Ok((rows, first)),
            Ok(_) => {}
            Err(_) if refused > 0 => {}
            Err(_) => return Err("out of memory where nothing was refused")?,
        }
    }
    Err("too many allocations")?
}

// Audits an answer so.
fn audited(
    alloc: Global,
    query: &Query,
    tables: &Tables,
    answer: &Answer,
) -> Result<(Verdict, u64), Fail> {
    for first in 1..MOST_TRIES + 1 {
        refusals_begin(first, 1, 1);
        let result = audit(alloc, query, tables, answer);
        let refused = refusals_end();
        match result {
            Ok(verdict) if refused == 0 => return Ok((verdict, first)),
            Ok(Verdict::Agrees(2)) => {}
            Ok(_) => return Err("another verdict than without refusals")?,
            Err(_) if refused > 0 => {}
            Err(_) => return Err("out of memory where nothing was refused")?,
        }
    }
    Err("too many allocations")?
}

/// A query over one row that holds on all days, and its audit: neither goes from day to day.
pub fn queries(rt: &HostRuntime) -> Result<(), Fail> {
    let alloc = rt.alloc();
    let catalog = catalog_of(alloc, &[EMP])?;
    let asks = statement(alloc, "VALIDTIME SELECT DISTINCT ENO FROM EMP")?;
    let query = asked(alloc, &catalog, &asks)?;
    let mut lists = Vec::new(alloc);
    lists.push(Items::from_vec(rows(alloc, &[(&[1, 3], "0001-01-01", "9999-12-31")])?))?;
    let tables = Tables::new(Items::from_vec(lists));
    let (found, tries) = answered(alloc, &query, &tables)?;
    let wanted = rows(alloc, &[(&[1], "0001-01-01", "9999-12-31")])?;
    if found.as_slice() != wanted.as_slice() {
        return Err("another answer")?;
    }
    must_be_refused(tries - 1)?;
    println!(rt; "ok run_query: {tries} tries")?;
    let witnesses = witnesses(alloc, found.as_slice())?;
    let answer = Answer {
        columns: Items::empty(alloc),
        rows: Items::from_vec(found),
        witnesses: Items::from_vec(witnesses),
    };
    let (verdict, tries) = audited(alloc, &query, &tables, &answer)?;
    if verdict != Verdict::Agrees(2) {
        return Err("another verdict")?;
    }
    must_be_refused(tries - 1)?;
    println!(rt; "ok audit: {tries} tries")?;
    Ok(())
}

const MOST_BYTES: usize = 8192;

// A writer that takes no memory.
#[derive(Drop)]
struct Room {
    bytes: [u8; MOST_BYTES],
    used: usize,
}

impl Room {
    fn new() -> Room {
        Room {
            bytes: [0; MOST_BYTES],
            used: 0,
        }
    }

    fn text(&self) -> &[u8] {
        &self.bytes[..self.used]
    }
}

impl Write for Room {
    fn write(&mut self, buf: &[u8]) -> io::Result<usize> {
        let count = buf.len().min(MOST_BYTES - self.used);
        self.bytes[self.used..self.used + count].copy_from_slice(&buf[..count]);
        self.used += count;
        Ok(count)
    }

    fn flush(&mut self) -> io::Result<()> {
        Ok(())
    }
}

// Whether a report of which the N-th allocation was to be refused is the wanted one, or was refused
// where an allocation was.
fn is_right(
    room: &Room,
    written: &Result<(), ReportFault>,
    refused: u64,
    wanted: &[u8],
) -> Result<(), Fail> {
    match written {
        Ok(()) if room.text() == wanted => Ok(()),
        Ok(()) => Err("another report than without refusals")?,
        Err(ReportFault::Memory) if refused > 0 => Ok(()),
        Err(_) => Err("a report is refused otherwise")?,
    }
}

// The reports of a script: of its results, of an audited run, and of a check.
#[derive(Drop)]
struct Reported {
    results: Vec<Result<Outcome, Refusal>>,
    entries: Vec<Entry>,
    checks: Vec<Result<(), Refusal>>,
}

// Writes one of them.
fn write(
    alloc: Global,
    reported: &Reported,
    which: usize,
    room: &mut Room,
) -> Result<(), ReportFault> {
    match which {
        0 => write_report(alloc, room, reported.results.as_slice()),
        1 => write_audited(alloc, room, reported.entries.as_slice()),
        _ => write_check(alloc, room, reported.checks.as_slice()),
    }
}

/// The three reports of a script, each begun anew.
pub fn reports(rt: &HostRuntime, text: &str) -> Result<(), Fail> {
    let alloc = rt.alloc();
    let script = text.as_bytes();
    let reported = Reported {
        results: run_script(alloc, open_in_memory(alloc)?, script)?,
        entries: run_audited(alloc, open_in_memory(alloc)?, script)?,
        checks: check_script(alloc, script)?,
    };
    for which in 0..3 {
        let mut plain = Room::new();
        write(alloc, &reported, which, &mut plain)?;
        let mut first = 1;
        loop {
            let mut room = Room::new();
            refusals_begin(first, 1, 1);
            let result = write(alloc, &reported, which, &mut room);
            let refused = refusals_end();
            is_right(&room, &result, refused, plain.text())?;
            if refused == 0 {
                break;
            }
            first += 1;
        }
        let name = ["write_report", "write_audited", "write_check"][which];
        must_be_refused(first - 1)?;
        println!(rt; "ok {name}: {first} tries")?;
    }
    Ok(())
}
