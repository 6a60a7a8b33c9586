//! The version store by calls, over a database in memory: its changes, its rows, and who visits
//! them.

ghost use Rattle.std.specs.Prelude.{◌++◌, ◌∷◌, [], List};
ghost use Rattle.period_core.specs.declared.version.VersionRow.{VersionRow as AnyRow};

use crate::fixtures::{EMP, FOREVER, Recorded, are_versions, defined, moment};
use crate::plans::{change_of, plan_of};
use memory_store::{MemoryStore, open_in_memory};
use period_core::{Moment, Refusal, VersionRow, Window};
use sqlite::Connection;
use std::alloc::Global;
use std::test::Fail;
use version_store::{RowCollector, OpenedStore, RowVisitor, VersionStore};

type Store = VersionStore<MemoryStore>;

// The store of a connection. Its keys and references are judged by no one: those of these tests are
// kept.
fn opened(alloc: Global, connection: Connection<MemoryStore>) -> Result<Store, Fail> {
    match VersionStore::open(alloc, connection) {
        Ok((opened, _lists)) => accepted(opened),
        Err((refusal, _connection)) => Err(refusal)?,
    }
}

// An opened store, for use.
fn accepted(opened: OpenedStore<MemoryStore>) -> Result<Store, Fail> {
    match opened.accept() {
        Ok(store) => Ok(store),
        Err((refusal, _connection)) => Err(refusal)?,
    }
}

fn new_store(alloc: Global) -> Result<Store, Fail> {
    opened(alloc, open_in_memory(alloc)?)
}

fn add_table(alloc: Global, store: &mut Store, create: &str) -> Result<(), Fail> {
    let definition = defined(alloc, store.catalog(), create)?;
    if store.catalog().len() >= 64 {
        return Err("too many tables")?;
    }
    Ok(store.add_table(alloc, definition)?)
}

// Sets the clock to a later moment.
fn advance(store: &mut Store, text: &str) -> Result<(), Fail> {
    let later = moment(text)?;
    if later < store.clock() || later >= Moment::forever() {
        return Err("no later moment")?;
    }
    Ok(store.advance(later)?)
}

// The current versions of a table.
fn current_rows(alloc: Global, store: &mut Store, table: u8) -> Result<Vec<VersionRow>, Fail> {
    let mut current = Vec::new(alloc);
    for version in store.rows(alloc, table)? {
        if version.to == Moment::forever() {
            current.push(version)?;
        }
    }
    Ok(current)
}

// Makes the change that a statement asks, at the clock.
fn change(alloc: Global, store: &mut Store, text: &str) -> Result<(), Fail> {
    let change = change_of(alloc, store.catalog(), text)?;
    let current = current_rows(alloc, store, change.table)?;
    let plan = plan_of(alloc, current.as_slice(), &change)?;
    let clock = store.clock();
    Ok(store.apply(alloc, change.table, clock, &plan)?)
}

// A store in which employee 22217 was moved to department 4 for some time.
fn store_of_moves(alloc: Global) -> Result<Store, Fail> {
    let mut store = new_store(alloc)?;
    add_table(alloc, &mut store, EMP)?;
    advance(&mut store, "2024-01-01 00:00:00")?;
    let employed = "INSERT INTO EMP VALUES (22217, 3, DATE '2010-01-01', DATE '2011-11-12')";
    change(alloc, &mut store, employed)?;
    advance(&mut store, "2024-01-02 00:00:00")?;
    let moved = "UPDATE EMP FOR PORTION OF EP FROM DATE '2011-02-03' TO DATE '2011-09-10' \
        SET DEPT = 4 WHERE ENO = 22217";
    change(alloc, &mut store, moved)?;
    Ok(store)
}

/// The versions of EMP that the moves leave.
pub const MOVES: [Recorded<'static>; 4] = [
    (
        (&[22_217, 3], "2010-01-01", "2011-11-12"),
        "2024-01-01 00:00:00",
        "2024-01-02 00:00:00",
    ),
    (
        (&[22_217, 3], "2010-01-01", "2011-02-03"),
        "2024-01-02 00:00:00",
        FOREVER,
    ),
    (
        (&[22_217, 3], "2011-09-10", "2011-11-12"),
        "2024-01-02 00:00:00",
        FOREVER,
    ),
    (
        (&[22_217, 4], "2011-02-03", "2011-09-10"),
        "2024-01-02 00:00:00",
        FOREVER,
    ),
];

#[test]
fn new_stores(rt: HostRuntime) -> Result<(), Fail> {
    let mut store = new_store(rt.alloc())?;
    assert_eq!(rt; store.catalog().len(), 0);
    assert_eq!(rt; store.clock(), Moment::first());
    assert!(rt; store.rows(rt.alloc(), 1)?.is_empty());
    Ok(())
}

// Whether it is the store of the moves.
fn has_moves(alloc: Global, store: &mut Store) -> Result<bool, Fail> {
    let rows = store.rows(alloc, 1)?;
    Ok(
        store.catalog().len() == 1
            && store.clock() == moment("2024-01-02 00:00:00")?
            && are_versions(alloc, rows.as_slice(), &MOVES)?,
    )
}

#[test]
fn opened_again(rt: HostRuntime) -> Result<(), Fail> {
    let alloc = rt.alloc();
    let mut store = store_of_moves(alloc)?;
    assert!(rt; has_moves(alloc, &mut store)?);
    let mut store = match store.reopen(alloc) {
        Ok((opened, _lists)) => accepted(opened)?,
        Err((refusal, _connection)) => return Err(refusal)?,
    };
    assert!(rt; has_moves(alloc, &mut store)?);
    let mut store = opened(alloc, store.close())?;
    assert!(rt; has_moves(alloc, &mut store)?);
    Ok(())
}

// What is opened shows its tables and its versions, and is handed back as it was.
#[test]
fn opened_and_refused(rt: HostRuntime) -> Result<(), Fail> {
    let alloc = rt.alloc();
    let store = store_of_moves(alloc)?;
    let (opened_store, lists) = match store.reopen(alloc) {
        Ok(found) => found,
        Err((refusal, _connection)) => return Err(refusal)?,
    };
    assert_eq!(rt; opened_store.catalog().len(), 1);
    assert_eq!(rt; opened_store.clock(), moment("2024-01-02 00:00:00")?);
    assert_eq!(rt; lists.len(), 1);
    assert!(rt; are_versions(alloc, lists[0].as_slice(), &MOVES)?);
    let mut store = opened(alloc, opened_store.refuse())?;
    assert!(rt; has_moves(alloc, &mut store)?);
    Ok(())
}

// The versions of EMP that a window sees.
fn seen(alloc: Global, store: &mut Store, window: Window) -> Result<Vec<VersionRow>, Fail> {
    let mut kept = RowCollector::new(alloc);
    store.scan(alloc, 1, window, &mut kept)?;
    Ok(kept.rows)
}

#[test]
fn windows(rt: HostRuntime) -> Result<(), Fail> {
    let alloc = rt.alloc();
    let mut store = store_of_moves(alloc)?;
    let (first, second) = (
        moment("2024-01-01 00:00:00")?,
        moment("2024-01-02 00:00:00")?,
    );
    let last = moment("2024-01-01 23:59:59")?;
    let windows = [
        (Window::Now, &MOVES[1..]),
        (Window::AsOf(last), &MOVES[..1]),
        (Window::AsOf(second), &MOVES[1..]),
        (Window::FromTo(first, second), &MOVES[..1]),
        (Window::Between(first, second), &MOVES[..]),
        (Window::FromTo(second, second), &MOVES[..0]),
        (Window::Between(second, first), &MOVES[..0]),
    ];
    for (window, wanted) in windows {
        let found = seen(alloc, &mut store, window)?;
        assert!(rt;
            are_versions(alloc, found.as_slice(), wanted)?,
            "through {window:?}"
        );
    }
    Ok(())
}

// A visitor that keeps two rows, and refuses a third.
#[derive(Drop)]
struct FirstTwo {
    rows: Vec<VersionRow>,
    refusal: Option<Refusal>,
}

impl FirstTwo {
    fn refuse(&mut self, refusal: Refusal) -> Result<(), Refusal> {
        self.refusal = Some(refusal);
        Err(refusal)
    }
}

impl RowVisitor for FirstTwo {
    ghost Meaning = { List AnyRow };

    ghost meaning = { λ kept. kept.rows.items };

    ghost next = { λ rows row. rows ++ row ∷ [] };

    ghost may_refuse = { λ _. Unit {0} };

    ghost answered = { λ kept answer. kept.refusal ≡ answer };

    fn visit(&mut self, row: VersionRow) -> Result<(), Refusal> {
        if self.rows.len() == 2 {
            return self.refuse(Refusal::LimitReached);
        }
        match self.rows.push(row) {
            Ok(()) => Ok(()),
            Err(_) => self.refuse(Refusal::Memory),
        }
    }
}

#[test]
fn a_visitor_that_refuses_the_third_row(rt: HostRuntime) -> Result<(), Fail> {
    let alloc = rt.alloc();
    let mut store = store_of_moves(alloc)?;
    let always = Window::FromTo(Moment::first(), Moment::forever());
    let mut two = FirstTwo {
        rows: Vec::new(alloc),
        refusal: None,
    };
    let result = store.scan(alloc, 1, always, &mut two);
    assert_eq!(rt; result, Err(Refusal::LimitReached));
    assert!(rt; are_versions(alloc, two.rows.as_slice(), &MOVES[..2])?);
    let found = seen(alloc, &mut store, always)?;
    assert!(rt; are_versions(alloc, found.as_slice(), &MOVES)?);
    Ok(())
}
