//! The number and the name of each refusal.

use period_core::{Day, Refusal};
use std::test::Fail;

#[test]
fn numbers_and_names(rt: HostRuntime) -> Result<(), Fail> {
    let day = Day::first();
    let refusals = [
        (Refusal::NotUtf8, 1, "NotUtf8"),
        (Refusal::ScriptTooLarge, 2, "ScriptTooLarge"),
        (Refusal::BadToken(28), 3, "BadToken"),
        (Refusal::Syntax, 10, "Syntax"),
        (Refusal::TooDeep, 11, "TooDeep"),
        (Refusal::BadDate, 12, "BadDate"),
        (Refusal::BadMoment, 13, "BadMoment"),
        (Refusal::NumberRange, 14, "NumberRange"),
        (Refusal::LimitReached, 21, "LimitReached"),
        (Refusal::TableExists, 22, "TableExists"),
        (Refusal::UnknownTable, 23, "UnknownTable"),
        (Refusal::UnknownColumn, 24, "UnknownColumn"),
        (Refusal::AmbiguousColumn, 25, "AmbiguousColumn"),
        (Refusal::DuplicateName, 26, "DuplicateName"),
        (Refusal::PeriodColumn, 27, "PeriodColumn"),
        (Refusal::BadDefinition, 28, "BadDefinition"),
        (Refusal::ColumnCount, 29, "ColumnCount"),
        (Refusal::TypeMismatch, 30, "TypeMismatch"),
        (Refusal::TextTooLong, 31, "TextTooLong"),
        (Refusal::MomentBack, 40, "MomentBack"),
        (Refusal::EmptyPeriod, 41, "EmptyPeriod"),
        (Refusal::KeyOverlap(day), 42, "KeyOverlap"),
        (Refusal::PeriodReference(day), 43, "PeriodReference"),
        (Refusal::BadStore, 60, "BadStore"),
        (Refusal::Memory, 61, "Memory"),
        (Refusal::Store, 62, "Store"),
    ];
    for (refusal, number, name) in refusals {
        assert_eq!(rt; refusal.code(), number, "of {name}");
        assert_eq!(rt; refusal.name(), name, "of {number}");
    }
    Ok(())
}
