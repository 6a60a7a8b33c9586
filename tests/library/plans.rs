//! Changes by calls: the change that a statement asks, its plan, the rows that would be current
//! after it, and the least day on which they would break a key or a reference.

use crate::fixtures::{
    DEP, EMP, FOREVER, Held, Recorded, WRK, are_rows, catalog_of, day, defined, rows, statement,
    versions,
};
use catalog_core::{Action, Catalog, Change, Plan, TableDef};
use statement_resolution::resolve_change;
use period_core::{Day, PeriodRow, Refusal, VersionRow};
use period_keys::{key_clash, uncovered};
use portion_dml::{after, plan_delete, plan_insert, plan_update};
use sql_statements::{Statement, StatementForm};
use std::alloc::Global;
use std::test::Fail;

// The change that a statement asks.
fn asked(alloc: Global, catalog: &Catalog, statement: &Statement) -> Result<Change, Refusal> {
    match statement.form() {
        StatementForm::Insert(_) => resolve_change(alloc, catalog, statement),
        StatementForm::Update(_) => resolve_change(alloc, catalog, statement),
        StatementForm::Delete(_) => resolve_change(alloc, catalog, statement),
        _ => Err(Refusal::Syntax),
    }
}

/// The change that a statement asks, of the tables of a catalog.
pub fn change_of(alloc: Global, catalog: &Catalog, text: &str) -> Result<Change, Fail> {
    let statement = statement(alloc, text)?;
    let change = asked(alloc, catalog, &statement);
    drop(statement);
    Ok(change?)
}

/// The plan of a change over the current versions of its table.
pub fn plan_of(alloc: Global, current: &[VersionRow], change: &Change) -> Result<Plan, Fail> {
    match &change.action {
        Action::Insert(_) => Ok(plan_insert(alloc, current, change)?),
        Action::Update(_, _, _) => Ok(plan_update(alloc, current, change)?),
        Action::Delete(_, _) => Ok(plan_delete(alloc, current, change)?),
    }
}

// The rows that would be current after a change of these, in order.
fn rows_after(
    alloc: Global,
    current: &[VersionRow],
    change: &Change,
) -> Result<Vec<PeriodRow>, Fail> {
    let plan = plan_of(alloc, current, change)?;
    let mut rows = after(alloc, current, &plan)?;
    rows.sort()?;
    Ok(rows)
}

// The rows of a table that would be current after a statement, in order.
fn changed(
    alloc: Global,
    catalog: &Catalog,
    current: &[Recorded<'_>],
    text: &str,
) -> Result<Vec<PeriodRow>, Fail> {
    let change = change_of(alloc, catalog, text)?;
    let current = versions(alloc, current)?;
    rows_after(alloc, current.as_slice(), &change)
}

// Employee 22217 in department 3, as recorded on 2024-01-01.
const EMPLOYED: Recorded<'static> = (
    (&[22_217, 3], "2010-01-01", "2011-11-12"),
    "2024-01-01 00:00:00",
    FOREVER,
);

#[test]
fn portion_update(rt: HostRuntime) -> Result<(), Fail> {
    let alloc = rt.alloc();
    let catalog = catalog_of(alloc, &[EMP])?;
    let left = changed(
        alloc,
        &catalog,
        &[EMPLOYED],
        "UPDATE EMP FOR PORTION OF EP FROM DATE '2011-02-03' TO DATE '2011-09-10' \
        SET DEPT = 4 WHERE ENO = 22217",
    )?;
    let wanted: [Held<'_>; 3] = [
        (&[22_217, 3], "2010-01-01", "2011-02-03"),
        (&[22_217, 3], "2011-09-10", "2011-11-12"),
        (&[22_217, 4], "2011-02-03", "2011-09-10"),
    ];
    assert!(rt; are_rows(alloc, left.as_slice(), &wanted)?);
    Ok(())
}

#[test]
fn plans_of_each_form(rt: HostRuntime) -> Result<(), Fail> {
    let alloc = rt.alloc();
    let catalog = catalog_of(alloc, &[EMP])?;
    let current = versions(alloc, &[EMPLOYED])?;
    // how many rows end, and how many are added
    let forms = [
        (
            "INSERT INTO EMP VALUES (1, 3, DATE '2024-01-01', DATE '2024-02-01')",
            0,
            1,
        ),
        ("UPDATE EMP SET DEPT = 4", 1, 1),
        ("DELETE FROM EMP WHERE ENO = 22217", 1, 0),
        (
            "DELETE FROM EMP FOR PORTION OF EP FROM DATE '2011-02-03' TO DATE '2011-09-10'",
            1,
            2,
        ),
        (
            "DELETE FROM EMP FOR PORTION OF EP FROM DATE '2011-11-12' TO DATE '2012-01-01'",
            0,
            0,
        ),
    ];
    for (text, ended, added) in forms {
        let change = change_of(alloc, &catalog, text)?;
        let plan = plan_of(alloc, current.as_slice(), &change)?;
        assert_eq!(rt; change.table, 1, "by {text}");
        assert_eq!(rt; plan.ended.len(), ended, "by {text}");
        assert_eq!(rt; plan.added.len(), added, "by {text}");
    }
    Ok(())
}

#[test]
fn equal_rows_stay_apart(rt: HostRuntime) -> Result<(), Fail> {
    let alloc = rt.alloc();
    let catalog = catalog_of(alloc, &[EMP])?;
    let first: Held<'_> = (&[1, 3], "2024-01-01", "2024-02-01");
    let second: Held<'_> = (&[2, 3], "2024-01-01", "2024-02-01");
    let from = "2024-01-01 00:00:00";
    let left = changed(
        alloc,
        &catalog,
        &[(first, from, FOREVER), (second, from, FOREVER)],
        "UPDATE EMP SET ENO = 1",
    )?;
    assert!(rt; are_rows(alloc, left.as_slice(), &[first, first])?);
    Ok(())
}

// The least day on which two rows would share their key after a statement.
fn clash_after(alloc: Global, current: &[Recorded<'_>], text: &str) -> Result<Option<Day>, Fail> {
    let catalog = catalog_of(alloc, &[EMP])?;
    let definition = defined(alloc, &Catalog::new(alloc), EMP)?;
    let left = changed(alloc, &catalog, current, text)?;
    Ok(key_clash(alloc, &definition, left.as_slice())?)
}

#[test]
fn clashes(rt: HostRuntime) -> Result<(), Fail> {
    let alloc = rt.alloc();
    let from = "2024-01-01 00:00:00";
    let first: Held<'_> = (&[1, 3], "2024-01-01", "2024-02-01");
    let second: Held<'_> = (&[2, 3], "2024-01-15", "2024-03-01");
    let current = [(first, from, FOREVER), (second, from, FOREVER)];
    let meets = "INSERT INTO EMP VALUES (1, 4, DATE '2024-02-01', DATE '2024-03-01')";
    assert_eq!(rt; clash_after(alloc, &current, meets)?, None);
    let overlaps = "INSERT INTO EMP VALUES (1, 4, DATE '2024-01-31', DATE '2024-03-01')";
    assert_eq!(rt;
        clash_after(alloc, &current, overlaps)?,
        Some(day("2024-01-31")?)
    );
    let joins = "UPDATE EMP SET ENO = 1";
    assert_eq!(rt;
        clash_after(alloc, &current, joins)?,
        Some(day("2024-01-15")?)
    );
    let repeats = "INSERT INTO EMP VALUES (1, 3, DATE '2024-01-01', DATE '2024-02-01')";
    assert_eq!(rt;
        clash_after(alloc, &current, repeats)?,
        Some(day("2024-01-01")?)
    );
    Ok(())
}

// The least day of a worker without a department.
fn uncovered_day(
    alloc: Global,
    workers: &TableDef,
    working: &[PeriodRow],
    departments: &TableDef,
    there: &[PeriodRow],
) -> Result<Option<Day>, Fail> {
    match workers.references.as_slice() {
        [reference] => Ok(uncovered(alloc, workers, working, departments, there, reference)?),
        _ => Err("no reference")?,
    }
}

#[test]
fn departments_and_workers(rt: HostRuntime) -> Result<(), Fail> {
    let alloc = rt.alloc();
    let catalog = catalog_of(alloc, &[DEP])?;
    let departments = defined(alloc, &Catalog::new(alloc), DEP)?;
    let workers = defined(alloc, &catalog, WRK)?;
    let there = changed(
        alloc,
        &catalog,
        &[],
        "INSERT INTO DEP VALUES (5, 'Tools', DATE '2024-01-01', DATE '2024-04-01'), \
        (5, 'Tool shop', DATE '2024-04-01', DATE '2024-07-01')",
    )?;
    // the days on which someone works in department 5, and the least without it
    let cases = [
        ("2024-02-01", "2024-06-01", None),
        ("2024-06-15", "2024-08-01", Some(day("2024-07-01")?)),
        ("2023-12-01", "2024-01-02", Some(day("2023-12-01")?)),
    ];
    for (start, end, wanted) in cases {
        let working = rows(alloc, &[(&[1, 5], start, end)])?;
        let found = uncovered_day(
            alloc,
            &workers,
            working.as_slice(),
            &departments,
            there.as_slice(),
        )?;
        assert_eq!(rt; found, wanted, "from {start} to {end}");
    }
    Ok(())
}
