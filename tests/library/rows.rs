//! Values, rows and versions: their order, their runs and their copies.

use crate::fixtures::{Held, integers, row, rows, version};
use period_core::{Day, Text, Value, run_end};
use std::alloc::Global;
use std::test::Fail;

fn text(alloc: Global, characters: &str) -> Result<Value, Fail> {
    Ok(Value::Text(Text::new(String::from_str(alloc, characters)?)))
}

fn date(number: i32) -> Result<Value, Fail> {
    Ok(Value::Date(Day::new(number).ok_or("no such day")?))
}

#[test]
fn copies(rt: HostRuntime) -> Result<(), Fail> {
    let alloc = rt.alloc();
    let name = text(alloc, "Tools")?;
    assert!(rt; name.copy(alloc)? == name);
    assert!(rt; date(0)?.copy(alloc)? == date(0)?);
    let held: Held<'_> = (&[22_217, 3], "2010-01-01", "2011-11-12");
    let one = row(alloc, held)?;
    assert!(rt; one.copy(alloc)? == one);
    let (from, to) = ("2024-01-01 00:00:00", "2024-01-02 00:00:00");
    let recorded = version(alloc, (held, from, to))?;
    assert!(rt; recorded.copy(alloc)? == recorded);
    Ok(())
}

#[test]
fn order(rt: HostRuntime) -> Result<(), Fail> {
    let alloc = rt.alloc();
    // integers, then texts by their bytes, then dates
    let ascending = [
        Value::Int(i64::MIN),
        Value::Int(i64::MAX),
        text(alloc, "")?,
        text(alloc, "Z")?,
        text(alloc, "a")?,
        text(alloc, "ab")?,
        text(alloc, "é")?,
        date(-719_162)?,
        date(0)?,
    ];
    let list = ascending.as_slice();
    for (one, next) in list.iter().zip(&list[1..]) {
        assert!(rt; one < next, "{one:?} before {next:?}");
    }
    // lists by the first value that differs, and one before those that go on after it
    assert!(rt; integers(alloc, &[1, 9])? < integers(alloc, &[2])?);
    assert!(rt; integers(alloc, &[1])? < integers(alloc, &[1, 0])?);
    Ok(())
}

#[test]
fn runs(rt: HostRuntime) -> Result<(), Fail> {
    let alloc = rt.alloc();
    let list = rows(
        alloc,
        &[
            (&[1], "2024-01-01", "2024-01-03"),
            (&[1], "2024-01-05", "2024-01-07"),
            (&[2], "2024-01-01", "2024-01-03"),
            (&[1], "2024-01-08", "2024-01-09"),
        ],
    )?;
    let ends = [2, 2, 3, 4];
    assert_eq!(rt; list.len(), ends.len());
    for at in 0..list.len() {
        assert_eq!(rt; run_end(list.as_slice(), at), ends[at], "from {at}");
    }
    Ok(())
}
