//! Queries by calls: with positions for names, over the rows that their references see, and the
//! versions that a stored query shows.

use crate::fixtures::{
    EMP, FOREVER, Held, Recorded, are_rows, catalog_of, integers, row, rows, statement, versions,
};
use catalog_core::{Catalog, Comparand, CompareValues, Query, Stored, Tables, fits, holds, meets};
use statement_resolution::{resolve_query, resolve_stored};
use coalesce_core::coalesce;
use period_core::{Items, PeriodRow, Refusal, Value};
use sequenced_ops::run_query;
use sql_statements::{Comparison, Statement, StatementForm, Tree};
use std::alloc::Global;
use std::test::Fail;

// The sequenced query that a statement asks.
fn asked(alloc: Global, catalog: &Catalog, statement: &Statement) -> Result<Query, Refusal> {
    match statement.form() {
        StatementForm::Sequenced(_) => resolve_query(alloc, catalog, statement),
        _ => Err(Refusal::Syntax),
    }
}

/// The sequenced query of a text, of the tables of a catalog.
pub fn query_of(alloc: Global, catalog: &Catalog, text: &str) -> Result<Query, Fail> {
    let statement = statement(alloc, text)?;
    let query = asked(alloc, catalog, &statement);
    drop(statement);
    Ok(query?)
}

/// What each reference sees.
pub fn tables_of(alloc: Global, lists: &[&[Held<'_>]]) -> Result<Tables, Fail> {
    let mut tables = Vec::new(alloc);
    for list in lists {
        tables.push(Items::from_vec(rows(alloc, list)?))?;
    }
    Ok(Tables::new(Items::from_vec(tables)))
}

// The shortest answer of a query.
fn answered(alloc: Global, query: &Query, tables: &Tables) -> Result<Vec<PeriodRow>, Fail> {
    if !fits(query, tables) {
        return Err("the tables are not the query's")?;
    }
    let rows = run_query(alloc, query, tables)?;
    Ok(coalesce(alloc, rows)?)
}

// Whether a query over EMP, whose references see these rows, gives these.
fn gives(
    alloc: Global,
    text: &str,
    lists: &[&[Held<'_>]],
    wanted: &[Held<'_>],
) -> Result<bool, Fail> {
    let catalog = catalog_of(alloc, &[EMP])?;
    let query = query_of(alloc, &catalog, text)?;
    let tables = tables_of(alloc, lists)?;
    let found = answered(alloc, &query, &tables)?;
    are_rows(alloc, found.as_slice(), wanted)
}

// Employee 22217 as first recorded, and as recorded later: for some time in department 4.
const BEFORE: [Held<'static>; 1] = [(&[22_217, 3], "2010-01-01", "2011-11-12")];

const NOW: [Held<'static>; 3] = [
    (&[22_217, 3], "2010-01-01", "2011-02-03"),
    (&[22_217, 3], "2011-09-10", "2011-11-12"),
    (&[22_217, 4], "2011-02-03", "2011-09-10"),
];

#[test]
fn first_answer(rt: HostRuntime) -> Result<(), Fail> {
    let query = "VALIDTIME SELECT DISTINCT ENO FROM EMP";
    let wanted: [Held<'_>; 1] = [(&[22_217], "2010-01-01", "2011-11-12")];
    assert!(rt; gives(rt.alloc(), query, &[&NOW], &wanted)?);
    Ok(())
}

#[test]
fn changed_departments(rt: HostRuntime) -> Result<(), Fail> {
    let wanted: [Held<'_>; 1] = [(&[3, 4], "2011-02-03", "2011-09-10")];
    let query = "VALIDTIME SELECT DISTINCT X.DEPT, Y.DEPT AS NEWDEPT FROM EMP X, EMP Y \
        WHERE X.ENO = Y.ENO AND X.DEPT <> Y.DEPT";
    assert!(rt; gives(rt.alloc(), query, &[&BEFORE, &NOW], &wanted)?);
    // no equality that each pair of rows has to meet
    let query = "VALIDTIME SELECT DISTINCT X.DEPT, Y.DEPT AS NEWDEPT FROM EMP X, EMP Y \
        WHERE (X.ENO = Y.ENO OR X.ENO = 0) AND X.DEPT <> Y.DEPT";
    assert!(rt; gives(rt.alloc(), query, &[&BEFORE, &NOW], &wanted)?);
    Ok(())
}

// Six hundred employees of ten departments, all of them on the same days.
fn many_employees(alloc: Global) -> Result<Items<PeriodRow>, Fail> {
    let mut all = Vec::new(alloc);
    for number in 0..600_i64 {
        all.push(row(
            alloc,
            (&[number, number % 10], "2024-01-01", "2024-02-01"),
        )?)?;
    }
    Ok(Items::from_vec(all))
}

#[test]
fn many_pairs_of_few_departments(rt: HostRuntime) -> Result<(), Fail> {
    let alloc = rt.alloc();
    let catalog = catalog_of(alloc, &[EMP])?;
    let text = "VALIDTIME SELECT DISTINCT X.DEPT, Y.DEPT AS OTHER FROM EMP X, EMP Y \
        WHERE X.DEPT < Y.DEPT";
    let query = query_of(alloc, &catalog, text)?;
    let mut lists = Vec::new(alloc);
    lists.push(many_employees(alloc)?)?;
    lists.push(many_employees(alloc)?)?;
    let found = answered(alloc, &query, &Tables::new(Items::from_vec(lists)))?;
    let mut wanted = Vec::new(alloc);
    for first in 0..10_i64 {
        for second in first + 1..10 {
            wanted.push(row(alloc, (&[first, second], "2024-01-01", "2024-02-01"))?)?;
        }
    }
    assert_eq!(rt; found.len(), 45);
    assert!(rt; found.as_slice() == wanted.as_slice());
    Ok(())
}

#[test]
fn common_days(rt: HostRuntime) -> Result<(), Fail> {
    let query = "VALIDTIME SELECT DISTINCT ENO FROM EMP WHERE DEPT = 3 \
        INTERSECT SELECT DISTINCT ENO FROM EMP WHERE DEPT = 3";
    let wanted: [Held<'_>; 2] = [
        (&[22_217], "2010-01-01", "2011-02-03"),
        (&[22_217], "2011-09-10", "2011-11-12"),
    ];
    assert!(rt; gives(rt.alloc(), query, &[&BEFORE, &NOW], &wanted)?);
    assert!(rt; gives(rt.alloc(), query, &[&NOW, &BEFORE], &wanted)?);
    Ok(())
}

#[test]
fn tables_of_a_query(rt: HostRuntime) -> Result<(), Fail> {
    let alloc = rt.alloc();
    let catalog = catalog_of(alloc, &[EMP])?;
    let query = query_of(alloc, &catalog, "VALIDTIME SELECT DISTINCT ENO FROM EMP")?;
    assert!(rt; fits(&query, &tables_of(alloc, &[&NOW])?));
    assert!(rt; fits(&query, &tables_of(alloc, &[&[]])?));
    // no list, two of them, and a row of another length
    assert!(rt; !fits(&query, &tables_of(alloc, &[])?));
    assert!(rt; !fits(&query, &tables_of(alloc, &[&NOW, &NOW])?));
    let short: Held<'_> = (&[1], "2024-01-01", "2024-01-09");
    assert!(rt; !fits(&query, &tables_of(alloc, &[&[short]])?));
    Ok(())
}

// The stored query that a statement asks.
fn shown(alloc: Global, catalog: &Catalog, statement: &Statement) -> Result<Stored, Refusal> {
    match statement.form() {
        StatementForm::Stored(_) => resolve_stored(alloc, catalog, statement),
        _ => Err(Refusal::Syntax),
    }
}

// The stored query of a text, of the tables of a catalog.
fn stored_of(alloc: Global, catalog: &Catalog, text: &str) -> Result<Stored, Fail> {
    let statement = statement(alloc, text)?;
    let query = shown(alloc, catalog, &statement);
    drop(statement);
    Ok(query?)
}

#[test]
fn stored_query_in_a_window(rt: HostRuntime) -> Result<(), Fail> {
    let alloc = rt.alloc();
    let catalog = catalog_of(alloc, &[EMP])?;
    let query = stored_of(
        alloc,
        &catalog,
        "SELECT * FROM EMP FOR SYSTEM_TIME FROM TIMESTAMP '2024-01-01 00:00:00' \
        TO TIMESTAMP '2024-01-03 00:00:00' WHERE EP CONTAINS DATE '2011-02-03'",
    )?;
    assert_eq!(rt; query.table, 1);
    let (from, to) = ("2024-01-01 00:00:00", "2024-01-02 00:00:00");
    let late = "2024-01-03 00:00:00";
    let recorded: [Recorded<'_>; 5] = [
        (BEFORE[0], from, to),
        (NOW[0], to, FOREVER),
        (NOW[1], to, FOREVER),
        (NOW[2], to, FOREVER),
        (NOW[2], late, FOREVER),
    ];
    let shown = [true, false, false, true, false];
    for (version, wanted) in versions(alloc, &recorded)?.iter().zip(shown) {
        assert_eq!(rt; meets(&query, version), wanted, "of {version:?}");
    }
    Ok(())
}

// The condition that the value at a position compares so with an integer.
fn compares(position: usize, comparison: Comparison, number: i64) -> CompareValues {
    CompareValues {
        left: Comparand::Position(position),
        comparison,
        right: Comparand::Literal(Value::Int(number)),
    }
}

#[test]
fn conditions(rt: HostRuntime) -> Result<(), Fail> {
    let values = integers(rt.alloc(), &[22_217, 3])?;
    // of 3: less than 3, equal to it, greater; and where there is no value
    let comparisons = [
        (Comparison::Equal, [false, true, false]),
        (Comparison::NotEqual, [true, false, true]),
        (Comparison::Less, [false, false, true]),
        (Comparison::LessOrEqual, [false, true, true]),
        (Comparison::Greater, [true, false, false]),
        (Comparison::GreaterOrEqual, [true, true, false]),
    ];
    for (comparison, wanted) in comparisons {
        for (number, is_met) in [2, 3, 4].iter().zip(wanted) {
            let test = Tree::Test(compares(1, comparison, *number));
            assert_eq!(rt;
                holds(&test, values.as_slice()),
                is_met,
                "3 {comparison:?} {number}"
            );
        }
        let nowhere = Tree::Test(compares(2, comparison, 3));
        assert!(rt;
            !holds(&nowhere, values.as_slice()),
            "nothing {comparison:?}"
        );
    }
    Ok(())
}
