//! Audits by calls: what rows hold and a query gives on a day, the days of change, witnesses that
//! are checked, and verdicts.

use crate::fixtures::{EMP, Held, catalog_of, day, integers, rows};
use crate::queries::{query_of, tables_of};
use catalog_core::{Query, Tables};
use period_core::{Answer, Day, Items, PeriodRow, Values, Witness};
use snapshot_audit::{Verdict, audit, change_days, check_witnesses, eval_on, rows_on};
use std::alloc::Global;
use std::test::Fail;

// A query over EMP, and what its references see.
fn asked(alloc: Global, text: &str, lists: &[&[Held<'_>]]) -> Result<(Query, Tables), Fail> {
    let catalog = catalog_of(alloc, &[EMP])?;
    Ok((query_of(alloc, &catalog, text)?, tables_of(alloc, lists)?))
}

// Whether the lists of values are these, in this order.
fn are_values(alloc: Global, found: &[Values], all: &[&[i64]]) -> Result<bool, Fail> {
    let mut wanted = Vec::new(alloc);
    for numbers in all {
        wanted.push(integers(alloc, numbers)?)?;
    }
    Ok(found == wanted.as_slice())
}

// Whether the days are those of these dates.
fn are_days(alloc: Global, found: &[Day], dates: &[&str]) -> Result<bool, Fail> {
    let mut wanted = Vec::new(alloc);
    for date in dates {
        wanted.push(day(date)?)?;
    }
    Ok(found == wanted.as_slice())
}

// For each of these days, it and the day before.
fn witnessed(alloc: Global, dates: &[&str]) -> Result<Vec<Witness>, Fail> {
    let mut witnesses = Vec::new(alloc);
    for date in dates {
        let held = day(date)?;
        witnesses.push(Witness {
            held,
            absent: held.prev(),
        })?;
    }
    Ok(witnesses)
}

// What an audit says of an answer of these rows, which are held on these dates.
fn verdict(
    alloc: Global,
    asked: &(Query, Tables),
    answer: &[Held<'_>],
    dates: &[&str],
) -> Result<Verdict, Fail> {
    let answer = Answer {
        columns: Items::empty(alloc),
        rows: Items::from_vec(rows(alloc, answer)?),
        witnesses: Items::from_vec(witnessed(alloc, dates)?),
    };
    Ok(audit(alloc, &asked.0, &asked.1, &answer)?)
}

// Department 7: employee 1 from the first to the ninth, 2 and 3 on days between.
const SEVEN: [Held<'static>; 3] = [
    (&[1, 7], "2024-01-01", "2024-01-09"),
    (&[2, 7], "2024-01-03", "2024-01-04"),
    (&[3, 7], "2024-01-04", "2024-01-06"),
];

const ALONE: &str = "VALIDTIME SELECT DISTINCT DEPT FROM EMP WHERE ENO = 1 \
    EXCEPT SELECT DISTINCT DEPT FROM EMP WHERE ENO > 1";

const SHARED: &str = "VALIDTIME SELECT DISTINCT DEPT FROM EMP WHERE ENO = 1 \
    INTERSECT SELECT DISTINCT DEPT FROM EMP WHERE ENO > 1";

const DEPARTMENTS: &str = "VALIDTIME SELECT DISTINCT DEPT FROM EMP";

#[test]
fn verdicts(rt: HostRuntime) -> Result<(), Fail> {
    let alloc = rt.alloc();
    let asked = asked(
        alloc,
        DEPARTMENTS,
        &[&[(&[1, 7], "2024-01-01", "2024-01-05")]],
    )?;
    let first: Held<'_> = (&[7], "2024-01-01", "2024-01-03");
    let second: Held<'_> = (&[7], "2024-01-03", "2024-01-05");
    let right: Held<'_> = (&[7], "2024-01-01", "2024-01-05");
    let long: Held<'_> = (&[7], "2024-01-01", "2024-01-09");
    let (one, three) = ("2024-01-01", "2024-01-03");
    let found = verdict(alloc, &asked, &[right], &[one])?;
    assert_eq!(rt; found, Verdict::Agrees(3));
    let found = verdict(alloc, &asked, &[long], &[one])?;
    assert_eq!(rt; found, Verdict::Differs(day("2024-01-05")?));
    let found = verdict(alloc, &asked, &[first, second], &[one, three])?;
    assert_eq!(rt; found, Verdict::BadWitness(2));
    let found = verdict(alloc, &asked, &[right], &[one, three])?;
    assert_eq!(rt; found, Verdict::BadWitness(2));
    let found = verdict(alloc, &asked, &[right], &[])?;
    assert_eq!(rt; found, Verdict::BadWitness(1));
    Ok(())
}

// The number of the faulty row, where the witnesses are of these dates.
fn faulty_row(alloc: Global, answer: &[Held<'_>], dates: &[&str]) -> Result<Option<usize>, Fail> {
    let answer = rows(alloc, answer)?;
    let witnesses = witnessed(alloc, dates)?;
    Ok(check_witnesses(answer.as_slice(), witnesses.as_slice()))
}

#[test]
fn checker_and_audit_by_calls(rt: HostRuntime) -> Result<(), Fail> {
    let alloc = rt.alloc();
    let short: Held<'_> = (&[7], "2024-01-01", "2024-01-03");
    let next: Held<'_> = (&[7], "2024-01-03", "2024-01-05");
    let long: Held<'_> = (&[7], "2024-01-01", "2024-01-05");
    let (one, three) = ("2024-01-01", "2024-01-03");
    assert_eq!(rt; faulty_row(alloc, &[short, long], &[one, one])?, Some(2));
    assert_eq!(rt; faulty_row(alloc, &[short, next], &[one, three])?, Some(2));
    assert_eq!(rt; faulty_row(alloc, &[long], &[one])?, None);
    assert_eq!(rt; faulty_row(alloc, &[long], &[three])?, Some(1));
    let asked = asked(alloc, ALONE, &[&SEVEN, &SEVEN])?;
    let whole: Held<'_> = (&[7], "2024-01-01", "2024-01-09");
    let found = verdict(alloc, &asked, &[whole], &[one])?;
    assert_eq!(rt; found, Verdict::Differs(day("2024-01-03")?));
    Ok(())
}

#[test]
fn except_audited(rt: HostRuntime) -> Result<(), Fail> {
    let alloc = rt.alloc();
    let asked = asked(alloc, ALONE, &[&SEVEN, &SEVEN])?;
    let first: Held<'_> = (&[7], "2024-01-01", "2024-01-03");
    let second: Held<'_> = (&[7], "2024-01-06", "2024-01-09");
    let answer = [first, second];
    let found = verdict(alloc, &asked, &answer, &["2024-01-01", "2024-01-06"])?;
    assert_eq!(rt; found, Verdict::Agrees(6));
    Ok(())
}

#[test]
fn intersect_audited(rt: HostRuntime) -> Result<(), Fail> {
    let alloc = rt.alloc();
    let asked = asked(alloc, SHARED, &[&SEVEN, &SEVEN])?;
    let common: Held<'_> = (&[7], "2024-01-03", "2024-01-06");
    let found = verdict(alloc, &asked, &[common], &["2024-01-03"])?;
    assert_eq!(rt; found, Verdict::Agrees(6));
    // the left side as a whole, as a union would give it
    let whole: Held<'_> = (&[7], "2024-01-01", "2024-01-09");
    let found = verdict(alloc, &asked, &[whole], &["2024-01-01"])?;
    assert_eq!(rt; found, Verdict::Differs(day("2024-01-01")?));
    Ok(())
}

#[test]
fn all_of_time_audited(rt: HostRuntime) -> Result<(), Fail> {
    let alloc = rt.alloc();
    let (first, end) = ("0001-01-01", "9999-12-31");
    let asked = asked(alloc, DEPARTMENTS, &[&[(&[1, 3], first, end)]])?;
    let answer: [Held<'_>; 1] = [(&[3], first, end)];
    assert_eq!(rt;
        verdict(alloc, &asked, &answer, &[first])?,
        Verdict::Agrees(2)
    );
    let rows = rows(alloc, &answer)?;
    let days = change_days(alloc, &asked.0, &asked.1, rows.as_slice())?;
    assert!(rt; are_days(alloc, days.as_slice(), &[first, end])?);
    Ok(())
}

// What a query over EMP gives on a day.
fn evaluated(alloc: Global, asked: &(Query, Tables), date: &str) -> Result<Vec<Values>, Fail> {
    Ok(eval_on(alloc, &asked.0, &asked.1, day(date)?)?)
}

#[test]
fn sets_on_a_day(rt: HostRuntime) -> Result<(), Fail> {
    let alloc = rt.alloc();
    let asked = asked(alloc, ALONE, &[&SEVEN, &SEVEN])?;
    for (date, wanted) in [
        ("2023-12-31", [].as_slice()),
        ("2024-01-01", [[7].as_slice()].as_slice()),
        ("2024-01-03", [].as_slice()),
        ("2024-01-05", [].as_slice()),
        ("2024-01-06", [[7].as_slice()].as_slice()),
    ] {
        let found = evaluated(alloc, &asked, date)?;
        assert!(rt; are_values(alloc, found.as_slice(), wanted)?, "on {date}");
    }
    Ok(())
}

#[test]
fn common_sets_on_a_day(rt: HostRuntime) -> Result<(), Fail> {
    let alloc = rt.alloc();
    let asked = asked(alloc, SHARED, &[&SEVEN, &SEVEN])?;
    for (date, wanted) in [
        ("2024-01-02", [].as_slice()),
        ("2024-01-03", [[7].as_slice()].as_slice()),
        ("2024-01-05", [[7].as_slice()].as_slice()),
        ("2024-01-06", [].as_slice()),
    ] {
        let found = evaluated(alloc, &asked, date)?;
        assert!(rt; are_values(alloc, found.as_slice(), wanted)?, "on {date}");
    }
    Ok(())
}

#[test]
fn snapshots(rt: HostRuntime) -> Result<(), Fail> {
    let alloc = rt.alloc();
    // each list of values once, in order
    let list: Vec<PeriodRow> = rows(
        alloc,
        &[
            (&[2, 7], "2024-01-01", "2024-01-04"),
            (&[1, 7], "2024-01-01", "2024-01-03"),
            (&[1, 7], "2024-01-02", "2024-01-09"),
        ],
    )?;
    for (date, wanted) in [
        ("2023-12-31", [].as_slice()),
        (
            "2024-01-02",
            [[1, 7].as_slice(), [2, 7].as_slice()].as_slice(),
        ),
        ("2024-01-04", [[1, 7].as_slice()].as_slice()),
        ("2024-01-09", [].as_slice()),
    ] {
        let found = rows_on(alloc, list.as_slice(), day(date)?)?;
        assert!(rt; are_values(alloc, found.as_slice(), wanted)?, "on {date}");
    }
    Ok(())
}

#[test]
fn days_of_change(rt: HostRuntime) -> Result<(), Fail> {
    let alloc = rt.alloc();
    let asked = asked(alloc, ALONE, &[&SEVEN, &SEVEN])?;
    let days = change_days(alloc, &asked.0, &asked.1, &[])?;
    let dates = [
        "0001-01-01",
        "2024-01-01",
        "2024-01-03",
        "2024-01-04",
        "2024-01-06",
        "2024-01-09",
    ];
    assert!(rt; are_days(alloc, days.as_slice(), &dates)?);
    Ok(())
}
