//! The operators of sequenced queries over rows, coalescing and witnesses. What an operator gives
//! is compared once it is coalesced, since no order and no shortness of it is promised.

use crate::fixtures::{Held, are_rows, day, row, rows};
use catalog_core::{Comparand, CompareValues, Cond};
use coalesce_core::{Coalesce, coalesce, witnesses};
use period_core::{Memory, PeriodRow, Value, Witness};
use sequenced_ops::{difference, intersection, join, select, select_into, union};
use sql_statements::{Comparison, Tree};
use std::alloc::Global;
use std::test::Fail;

// The condition that the value at a position is an integer.
fn is_at(position: usize, number: i64) -> Cond {
    Tree::Test(CompareValues {
        left: Comparand::Position(position),
        comparison: Comparison::Equal,
        right: Comparand::Literal(Value::Int(number)),
    })
}

// The condition that the values at two positions compare so.
fn compares(left: usize, comparison: Comparison, right: usize) -> Cond {
    Tree::Test(CompareValues {
        left: Comparand::Position(left),
        comparison,
        right: Comparand::Position(right),
    })
}

// Whether the rows are these, once they are coalesced.
fn coalesce_to(alloc: Global, found: Vec<PeriodRow>, wanted: &[Held<'_>]) -> Result<bool, Fail> {
    let shortest = coalesce(alloc, found)?;
    are_rows(alloc, shortest.as_slice(), wanted)
}

// Employee 22217: in department 3, and for some time in department 4.
const EMPLOYED: [Held<'static>; 3] = [
    (&[22_217, 3], "2010-01-01", "2011-02-03"),
    (&[22_217, 3], "2011-09-10", "2011-11-12"),
    (&[22_217, 4], "2011-02-03", "2011-09-10"),
];

#[test]
fn selections(rt: HostRuntime) -> Result<(), Fail> {
    let alloc = rt.alloc();
    let employed = rows(alloc, &EMPLOYED)?;
    let found = select(alloc, employed.as_slice(), &is_at(0, 22_217), &[0])?;
    assert!(rt; coalesce_to(alloc, found, &[(&[22_217], "2010-01-01", "2011-11-12")])?);
    let found = select(alloc, employed.as_slice(), &is_at(1, 3), &[1, 0])?;
    let wanted: [Held<'_>; 2] = [
        (&[3, 22_217], "2010-01-01", "2011-02-03"),
        (&[3, 22_217], "2011-09-10", "2011-11-12"),
    ];
    assert!(rt; coalesce_to(alloc, found, &wanted)?);
    let found = select(alloc, employed.as_slice(), &is_at(0, 1), &[0])?;
    assert!(rt; found.is_empty());
    Ok(())
}

#[test]
fn rows_selected_one_at_a_time(rt: HostRuntime) -> Result<(), Fail> {
    let alloc = rt.alloc();
    let first = row(alloc, (&[1, 3], "2024-01-01", "2024-01-09"))?;
    let mut found = Vec::new(alloc);
    select_into(alloc, &mut found, &first, &is_at(1, 4), &[0])?;
    assert!(rt; found.is_empty());
    select_into(alloc, &mut found, &first, &is_at(1, 3), &[0])?;
    select_into(alloc, &mut found, &first, &is_at(0, 1), &[1, 1])?;
    select_into(alloc, &mut found, &first, &is_at(1, 3), &[1])?;
    let wanted: [Held<'_>; 3] = [
        (&[1], "2024-01-01", "2024-01-09"),
        (&[3, 3], "2024-01-01", "2024-01-09"),
        (&[3], "2024-01-01", "2024-01-09"),
    ];
    assert!(rt; are_rows(alloc, found.as_slice(), &wanted)?);
    Ok(())
}

#[test]
fn changed_departments(rt: HostRuntime) -> Result<(), Fail> {
    let alloc = rt.alloc();
    let before = rows(alloc, &[(&[22_217, 3], "2010-01-01", "2011-11-12")])?;
    let now = rows(alloc, &EMPLOYED)?;
    // the same number, then another department; and the other way round
    let same = compares(0, Comparison::Equal, 2);
    let other = compares(1, Comparison::NotEqual, 3);
    for (first, second) in [(&same, &other), (&other, &same)] {
        let pairs = join(alloc, before.as_slice(), now.as_slice(), first)?;
        let found = select(alloc, pairs.as_slice(), second, &[1, 3])?;
        assert!(rt; coalesce_to(alloc, found, &[(&[3, 4], "2011-02-03", "2011-09-10")])?);
    }
    Ok(())
}

#[test]
fn pairs_of_rows(rt: HostRuntime) -> Result<(), Fail> {
    let alloc = rt.alloc();
    let left = rows(
        alloc,
        &[
            (&[1, 10], "2024-01-01", "2024-01-05"),
            (&[2, 20], "2024-01-01", "2024-01-05"),
        ],
    )?;
    let right = rows(
        alloc,
        &[
            (&[1, 30], "2024-01-05", "2024-01-09"),
            (&[2, 40], "2024-01-04", "2024-01-09"),
        ],
    )?;
    let same = compares(0, Comparison::Equal, 2);
    let found = join(alloc, left.as_slice(), right.as_slice(), &same)?;
    let second: [Held<'_>; 1] = [(&[2, 20, 2, 40], "2024-01-04", "2024-01-05")];
    assert!(rt; coalesce_to(alloc, found, &second)?);
    // all pairs of rows that share a day and meet a condition that equals no columns
    let found = join(alloc, left.as_slice(), right.as_slice(), &is_at(1, 10))?;
    let first: [Held<'_>; 1] = [(&[1, 10, 2, 40], "2024-01-04", "2024-01-05")];
    assert!(rt; coalesce_to(alloc, found, &first)?);
    Ok(())
}

#[test]
fn unions(rt: HostRuntime) -> Result<(), Fail> {
    let alloc = rt.alloc();
    let left = rows(alloc, &[(&[1], "2024-01-01", "2024-02-01")])?;
    let right = rows(
        alloc,
        &[
            (&[1], "2024-02-01", "2024-03-01"),
            (&[2], "2024-01-01", "2024-01-02"),
        ],
    )?;
    let wanted: [Held<'_>; 2] = [
        (&[1], "2024-01-01", "2024-03-01"),
        (&[2], "2024-01-01", "2024-01-02"),
    ];
    assert!(rt; coalesce_to(alloc, union(left, right)?, &wanted)?);
    Ok(())
}

#[test]
fn differences_in_every_order(rt: HostRuntime) -> Result<(), Fail> {
    let alloc = rt.alloc();
    let one: Held<'_> = (&[7], "2024-01-01", "2024-01-09");
    let other: Held<'_> = (&[7], "2024-01-05", "2024-01-12");
    let first: Held<'_> = (&[7], "2024-01-02", "2024-01-03");
    let second: Held<'_> = (&[7], "2024-01-08", "2024-01-10");
    let wanted: [Held<'_>; 3] = [
        (&[7], "2024-01-01", "2024-01-02"),
        (&[7], "2024-01-03", "2024-01-08"),
        (&[7], "2024-01-10", "2024-01-12"),
    ];
    for left in [[one, other], [other, one]] {
        for right in [[first, second], [second, first]] {
            let found = difference(alloc, rows(alloc, &left)?, rows(alloc, &right)?)?;
            assert!(rt;
                coalesce_to(alloc, found, &wanted)?,
                "{left:?} without {right:?}"
            );
        }
    }
    Ok(())
}

#[test]
fn intersections(rt: HostRuntime) -> Result<(), Fail> {
    let alloc = rt.alloc();
    let one: Held<'_> = (&[7], "2024-01-01", "2024-01-09");
    let first: Held<'_> = (&[7], "2024-01-03", "2024-01-04");
    let second: Held<'_> = (&[7], "2024-01-04", "2024-01-06");
    let third: Held<'_> = (&[8], "2024-01-01", "2024-01-09");
    let wanted: [Held<'_>; 1] = [(&[7], "2024-01-03", "2024-01-06")];
    for right in [[first, second, third], [third, second, first]] {
        let found = intersection(alloc, rows(alloc, &[one])?, rows(alloc, &right)?)?;
        assert!(rt; coalesce_to(alloc, found, &wanted)?, "with {right:?}");
        let found = intersection(alloc, rows(alloc, &right)?, rows(alloc, &[one])?)?;
        assert!(rt; coalesce_to(alloc, found, &wanted)?, "{right:?} with");
    }
    Ok(())
}

#[test]
fn shortest_lists(rt: HostRuntime) -> Result<(), Fail> {
    let alloc = rt.alloc();
    // rows that overlap, meet, repeat, leave a gap, and hold other values
    let found = rows(
        alloc,
        &[
            (&[2], "2024-01-01", "2024-01-03"),
            (&[1], "2024-01-07", "2024-01-09"),
            (&[1], "2024-01-03", "2024-01-05"),
            (&[1], "2024-01-02", "2024-01-04"),
            (&[1], "2024-01-01", "2024-01-03"),
            (&[1], "2024-01-07", "2024-01-09"),
            (&[1], "2024-01-05", "2024-01-06"),
        ],
    )?;
    let wanted: [Held<'_>; 3] = [
        (&[1], "2024-01-01", "2024-01-06"),
        (&[1], "2024-01-07", "2024-01-09"),
        (&[2], "2024-01-01", "2024-01-03"),
    ];
    assert!(rt; coalesce_to(alloc, found, &wanted)?);
    Ok(())
}

// The rows in order, coalesced one at a time.
fn streamed(alloc: Global, all: Vec<PeriodRow>) -> Result<Vec<PeriodRow>, Memory> {
    let mut sorted = all;
    sorted.sort()?;
    let merged: Vec<PeriodRow> = Coalesce::new(sorted.into_iter()).collect(alloc)?;
    Ok(merged)
}

#[test]
fn rows_coalesced_one_at_a_time(rt: HostRuntime) -> Result<(), Fail> {
    let alloc = rt.alloc();
    let found = rows(
        alloc,
        &[
            (&[2], "2024-01-01", "2024-01-03"),
            (&[1], "2024-01-03", "2024-01-05"),
            (&[1], "2024-01-07", "2024-01-09"),
            (&[1], "2024-01-01", "2024-01-03"),
        ],
    )?;
    let wanted: [Held<'_>; 3] = [
        (&[1], "2024-01-01", "2024-01-05"),
        (&[1], "2024-01-07", "2024-01-09"),
        (&[2], "2024-01-01", "2024-01-03"),
    ];
    let merged = streamed(alloc, found)?;
    assert!(rt; are_rows(alloc, merged.as_slice(), &wanted)?);
    Ok(())
}

#[test]
fn days_that_witness(rt: HostRuntime) -> Result<(), Fail> {
    let alloc = rt.alloc();
    let answer = rows(
        alloc,
        &[
            (&[3], "0001-01-01", "0001-01-03"),
            (&[22_217], "2010-01-01", "2011-11-12"),
        ],
    )?;
    let found = witnesses(alloc, answer.as_slice())?;
    let (first, second) = (day("0001-01-01")?, day("2010-01-01")?);
    let wanted = [
        Witness {
            held: first,
            absent: None,
        },
        Witness {
            held: second,
            absent: Some(day("2009-12-31")?),
        },
    ];
    assert!(rt; found.as_slice() == wanted.as_slice());
    Ok(())
}
