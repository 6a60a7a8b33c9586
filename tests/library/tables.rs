//! Definitions of tables that a CREATE gives, and the numbers of tables.

use crate::fixtures::{DEP, EMP, WRK, catalog_of, defined};
use catalog_core::{Catalog, ColumnKind, encode_def, lawful};
use std::test::Fail;

#[test]
fn of_creates(rt: HostRuntime) -> Result<(), Fail> {
    let alloc = rt.alloc();
    let none = Catalog::new(alloc);
    let employees = defined(alloc, &none, EMP)?;
    let copy = employees.copy(alloc)?;
    drop(employees);
    assert_eq!(rt; copy.name.as_text().as_str(), "EMP");
    assert_eq!(rt; copy.columns.len(), 6);
    let last = copy.columns.as_slice().last().map(|column| column.kind);
    assert_eq!(rt; last, Some(ColumnKind::RowEnd(Some(12))));
    assert_eq!(rt; (copy.period.start, copy.period.end), (2, 3));
    assert_eq!(rt; copy.key.as_slice(), [0].as_slice());
    assert_eq!(rt; copy.references.len(), 0);
    // its name is no longer free, and free where there is another table
    assert!(rt; lawful(&none, &copy));
    let own = catalog_of(alloc, &[EMP])?;
    assert!(rt; !lawful(&own, &copy));
    let other = catalog_of(alloc, &[DEP])?;
    assert!(rt; lawful(&other, &copy));
    Ok(())
}

#[test]
fn references(rt: HostRuntime) -> Result<(), Fail> {
    let alloc = rt.alloc();
    let catalog = catalog_of(alloc, &[EMP, DEP])?;
    let workers = defined(alloc, &catalog, WRK)?;
    let [reference] = workers.references.as_slice() else {
        return Err("another number of references")?;
    };
    assert_eq!(rt; reference.parent, 2);
    assert_eq!(rt; reference.own.as_slice(), [1].as_slice());
    assert_eq!(rt; reference.keys.as_slice(), [0].as_slice());
    assert!(rt; lawful(&catalog, &workers));
    // where EMP is the second table, REFERENCES EMP (ENO, PERIOD EP) would give the same
    assert!(rt; lawful(&catalog_of(alloc, &[DEP, EMP])?, &workers));
    // no second table
    assert!(rt; !lawful(&catalog_of(alloc, &[EMP])?, &workers));
    Ok(())
}

#[test]
fn numbers_of_tables(rt: HostRuntime) -> Result<(), Fail> {
    let alloc = rt.alloc();
    let none = Catalog::new(alloc);
    let catalog = catalog_of(alloc, &[EMP, DEP, WRK])?;
    assert_eq!(rt; catalog.len(), 3);
    let departments = defined(alloc, &none, DEP)?;
    assert_eq!(rt; catalog.find(&departments.name), Some(2));
    assert_eq!(rt; none.find(&departments.name), None);
    let found = catalog.def(2).ok_or("no second table")?;
    let bytes = encode_def(alloc, &departments)?;
    assert!(rt; encode_def(alloc, found)?.as_slice() == bytes.as_slice());
    assert!(rt; catalog.def(0).is_none() && catalog.def(4).is_none());
    Ok(())
}
