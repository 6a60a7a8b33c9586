//! What the tests start from: statements and tables by their texts, rows and versions by their
//! dates.

use catalog_core::{Catalog, TableDef, define};
use period_core::{Day, Moment, Period, PeriodRow, Refusal, Value, Values, VersionRow};
use sql_front::{lex, parse};
use sql_statements::{Statement, StatementForm};
use std::alloc::Global;
use std::test::Fail;

/// Employees, by number, in departments.
pub const EMP: &str = "\
    CREATE TABLE EMP (ENO INTEGER, DEPT INTEGER, S DATE, E DATE, \
    SS TIMESTAMP(12) GENERATED ALWAYS AS ROW START, \
    SE TIMESTAMP(12) GENERATED ALWAYS AS ROW END, \
    PERIOD FOR EP (S, E), PERIOD FOR SYSTEM_TIME (SS, SE), \
    PRIMARY KEY (ENO, EP WITHOUT OVERLAPS)) WITH SYSTEM VERSIONING";

/// Departments, which have names.
pub const DEP: &str = "\
    CREATE TABLE DEP (DNO INTEGER, NAME VARCHAR(30), S DATE, E DATE, \
    SS TIMESTAMP(12) GENERATED ALWAYS AS ROW START, \
    SE TIMESTAMP(12) GENERATED ALWAYS AS ROW END, \
    PERIOD FOR DP (S, E), PERIOD FOR SYSTEM_TIME (SS, SE), \
    PRIMARY KEY (DNO, DP WITHOUT OVERLAPS)) WITH SYSTEM VERSIONING";

/// Workers, each in a department.
pub const WRK: &str = "\
    CREATE TABLE WRK (WNO INTEGER, DNO INTEGER, S DATE, E DATE, \
    SS TIMESTAMP(12) GENERATED ALWAYS AS ROW START, \
    SE TIMESTAMP(12) GENERATED ALWAYS AS ROW END, \
    PERIOD FOR WP (S, E), PERIOD FOR SYSTEM_TIME (SS, SE), \
    PRIMARY KEY (WNO, WP WITHOUT OVERLAPS), \
    FOREIGN KEY (DNO, PERIOD WP) REFERENCES DEP (DNO, PERIOD DP)) WITH SYSTEM VERSIONING";

/// The open end, at which current versions end.
pub const FOREVER: &str = "9999-12-31 23:59:59.999999";

/// Integers, the day from which they hold, and the day on which they end.
pub type Held<'a> = (&'a [i64], &'a str, &'a str);

/// The same, and the moments from which and to which they were recorded.
pub type Recorded<'a> = (Held<'a>, &'a str, &'a str);

/// The statement of a text.
pub fn statement(alloc: Global, text: &str) -> Result<Statement, Fail> {
    let tokens = lex(alloc, text)?;
    Ok(parse(alloc, text, tokens.as_slice())?)
}

// The definition that a statement gives over the tables of a catalog.
fn definition_of(
    alloc: Global,
    catalog: &Catalog,
    statement: &Statement,
) -> Result<TableDef, Refusal> {
    match statement.form() {
        StatementForm::Create(create) => define(alloc, catalog, create.table()),
        _ => Err(Refusal::Syntax),
    }
}

/// The definition that a CREATE gives over the tables of a catalog.
pub fn defined(alloc: Global, catalog: &Catalog, create: &str) -> Result<TableDef, Fail> {
    let statement = statement(alloc, create)?;
    let definition = definition_of(alloc, catalog, &statement);
    drop(statement);
    Ok(definition?)
}

/// The catalog of the tables of these CREATEs, in their order.
pub fn catalog_of(alloc: Global, creates: &[&str]) -> Result<Catalog, Fail> {
    let mut catalog = Catalog::new(alloc);
    for create in creates {
        let definition = defined(alloc, &catalog, create)?;
        if catalog.len() >= 64 {
            return Err("too many tables")?;
        }
        catalog.push(definition)?;
    }
    Ok(catalog)
}

/// The day of a date, written YYYY-MM-DD.
pub fn day(date: &str) -> Result<Day, Fail> {
    Ok(Day::from_text(date.as_bytes()).ok_or("no such day")?)
}

/// The moment of a text, written YYYY-MM-DD HH:MM:SS, with digits after a point or without.
pub fn moment(text: &str) -> Result<Moment, Fail> {
    Ok(Moment::from_text(text.as_bytes()).ok_or("no such moment")?)
}

/// From one date on and before another.
pub fn period(start: &str, end: &str) -> Result<Period, Fail> {
    Ok(Period::new(day(start)?, day(end)?).ok_or("no such period")?)
}

/// A list of integers.
pub fn integers(alloc: Global, numbers: &[i64]) -> Result<Values, Fail> {
    let mut values = Vec::new(alloc);
    for number in numbers {
        values.push(Value::Int(*number))?;
    }
    Ok(Values::from_vec(values))
}

/// A row of integers.
pub fn row(alloc: Global, held: Held<'_>) -> Result<PeriodRow, Fail> {
    let (numbers, start, end) = held;
    Ok(PeriodRow {
        values: integers(alloc, numbers)?,
        period: period(start, end)?,
    })
}

/// Rows of integers.
pub fn rows(alloc: Global, all: &[Held<'_>]) -> Result<Vec<PeriodRow>, Fail> {
    let mut rows = Vec::new(alloc);
    for held in all {
        rows.push(row(alloc, *held)?)?;
    }
    Ok(rows)
}

/// A version of integers.
pub fn version(alloc: Global, recorded: Recorded<'_>) -> Result<VersionRow, Fail> {
    let (held, from, to) = recorded;
    let row = row(alloc, held)?;
    Ok(VersionRow {
        values: row.values,
        period: row.period,
        from: moment(from)?,
        to: moment(to)?,
    })
}

/// Versions of integers.
pub fn versions(alloc: Global, all: &[Recorded<'_>]) -> Result<Vec<VersionRow>, Fail> {
    let mut versions = Vec::new(alloc);
    for recorded in all {
        versions.push(version(alloc, *recorded)?)?;
    }
    Ok(versions)
}

/// Whether the rows are these, in this order.
pub fn are_rows(alloc: Global, rows_found: &[PeriodRow], all: &[Held<'_>]) -> Result<bool, Fail> {
    Ok(rows_found == rows(alloc, all)?.as_slice())
}

/// Whether the versions are these, in this order.
pub fn are_versions(
    alloc: Global,
    versions_found: &[VersionRow],
    all: &[Recorded<'_>],
) -> Result<bool, Fail> {
    Ok(versions_found == versions(alloc, all)?.as_slice())
}
