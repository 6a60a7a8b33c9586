//! Stores of form 1, which count moments in seconds, written as docs/PROFILE.md says.

use crate::fixtures::{EMP, Held, catalog_of, row};
use catalog_core::encode_def;
use period_core::encode_values;
use sqlite::{Alter, Connection, params};
use std::alloc::Global;
use std::test::Fail;

/// Integers over a period, and the seconds from which and to which they were recorded.
pub type InSeconds<'a> = (Held<'a>, i64, i64);

/// 9999-12-31 23:59:59 in seconds: the system time of a current version ends at it.
pub const OPEN_END: i64 = 253_402_300_799;

/// The second of the clock of `MEETING`.
pub const CLOCK: i64 = 1_000_000;

/// Two versions of one row: the start of the first in microseconds is that of the second in
/// seconds.
pub const MEETING: [InSeconds<'static>; 2] = [
    ((&[1, 3], "2024-01-01", "2024-02-01"), 1, 2),
    ((&[1, 3], "2024-01-01", "2024-02-01"), CLOCK, OPEN_END),
];

/// Two current versions with one key, which share days.
pub const CLASHING: [InSeconds<'static>; 2] = [
    ((&[1, 3], "2024-01-01", "2024-02-01"), 1, OPEN_END),
    ((&[1, 4], "2024-01-15", "2024-03-01"), CLOCK, OPEN_END),
];

/// Writes a store with the table EMP, a clock and versions.
pub fn write_old_store<S: Alter>(
    alloc: Global,
    connection: &mut Connection<S>,
    clock: i64,
    versions: &[InSeconds<'_>],
) -> Result<(), Fail> {
    connection.execute(
        "CREATE TABLE bt_meta (id INTEGER PRIMARY KEY, form INTEGER NOT NULL, \
         clock INTEGER NOT NULL) STRICT",
        &[],
    )?;
    connection.execute(
        "CREATE TABLE bt_table (id INTEGER PRIMARY KEY, def BLOB NOT NULL) STRICT",
        &[],
    )?;
    connection.execute(
        "CREATE TABLE bt_version (tab INTEGER NOT NULL, vals BLOB NOT NULL, \
         s INTEGER NOT NULL, e INTEGER NOT NULL, ss INTEGER NOT NULL, \
         se INTEGER NOT NULL, PRIMARY KEY (tab, vals, s, ss)) STRICT",
        &[],
    )?;
    connection.execute("INSERT INTO bt_meta VALUES (1, 1, ?1)", params![clock])?;
    let catalog = catalog_of(alloc, &[EMP])?;
    let definition = encode_def(alloc, catalog.def(1).ok_or("no definition")?)?;
    connection.execute(
        "INSERT INTO bt_table VALUES (1, ?1)",
        params![definition.as_slice()],
    )?;
    for (held, from, to) in versions {
        let row = row(alloc, *held)?;
        let values = encode_values(alloc, row.values.as_slice())?;
        let start = i64::from(row.period.start().number());
        let end = i64::from(row.period.end().number());
        connection.execute(
            "INSERT INTO bt_version VALUES (1, ?1, ?2, ?3, ?4, ?5)",
            params![values.as_slice(), start, end, *from, *to],
        )?;
    }
    Ok(())
}
