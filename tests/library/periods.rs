//! Days, moments, periods and windows.

use crate::fixtures::{FOREVER, day, moment, period};
use period_core::{Day, Moment, Period, Window};
use std::test::Fail;

#[test]
fn days(rt: HostRuntime) -> Result<(), Fail> {
    // the number of each date, counted from 1970-01-01, and the days beside it
    let dates = [
        ("0001-01-01", -719_162, "", "0001-01-02"),
        ("1969-12-31", -1, "1969-12-30", "1970-01-01"),
        ("2000-02-29", 11_016, "2000-02-28", "2000-03-01"),
        ("9999-12-31", 2_932_896, "9999-12-30", ""),
    ];
    for (date, number, before, after) in dates {
        let one = day(date)?;
        assert_eq!(rt; one.number(), number, "of {date}");
        assert_eq!(rt; Day::new(number), Some(one), "of {date}");
        assert_eq!(rt;
            one.prev(),
            Day::from_text(before.as_bytes()),
            "before {date}"
        );
        assert_eq!(rt;
            one.next(),
            Day::from_text(after.as_bytes()),
            "after {date}"
        );
    }
    assert_eq!(rt; Day::new(-719_163), None);
    assert_eq!(rt; Day::new(2_932_897), None);
    assert_eq!(rt; Day::from_date(2100, 2, 29), None);
    assert_eq!(rt; Day::from_date(2024, 2, 29), Day::new(19_782));
    let mut text = [0; 10];
    day("0987-06-05")?.write_text(&mut text);
    assert!(rt; text == *b"0987-06-05");
    Ok(())
}

// The text of a moment, as it is written.
fn is_written(moment: Moment, wanted: &str) -> bool {
    let mut text = [0; 26];
    let length = moment.write_text(&mut text);
    &text[..length] == wanted.as_bytes()
}

#[test]
fn moments(rt: HostRuntime) -> Result<(), Fail> {
    let second = moment("2024-01-02 00:00:00")?;
    assert_eq!(rt; second.number(), 1_704_153_600_000_000);
    assert_eq!(rt; Moment::new(1_704_153_600_000_000), Some(second));
    assert_eq!(rt; Moment::from_parts(2024, 1, 2, 0, 0, 0, 0), Some(second));
    assert_eq!(rt; Moment::from_parts(2024, 1, 1, 24, 0, 0, 0), None);
    assert_eq!(rt; Moment::from_parts(2024, 1, 1, 0, 0, 0, 1_000_000), None);
    assert_eq!(rt; second.prev(), Some(moment("2024-01-01 23:59:59.999999")?));
    assert_eq!(rt; second.next(), Some(moment("2024-01-02 00:00:00.000001")?));
    assert_eq!(rt; Moment::first(), moment("0001-01-01 00:00:00")?);
    assert_eq!(rt; Moment::first().prev(), None);
    assert_eq!(rt; Moment::forever(), moment(FOREVER)?);
    assert_eq!(rt; Moment::forever().next(), None);
    assert!(rt; is_written(second, "2024-01-02 00:00:00"));
    Ok(())
}

#[test]
fn fractions_of_a_second(rt: HostRuntime) -> Result<(), Fail> {
    // of how many microseconds each fraction is, and how it is written
    let fractions = [
        (".5", 500_000, ".500000"),
        (".25", 250_000, ".250000"),
        (".000", 0, ""),
        (".000001", 1, ".000001"),
        (".999999", 999_999, ".999999"),
    ];
    for (fraction, number, written) in fractions {
        let alloc = rt.alloc();
        let text = format!(in alloc; "2024-01-02 00:00:00{fraction}")?;
        let found = moment(text.as_str())?;
        assert_eq!(rt; found.number(), 1_704_153_600_000_000 + number, "of {fraction}");
        let wanted = format!(in alloc; "2024-01-02 00:00:00{written}")?;
        assert!(rt; is_written(found, wanted.as_str()), "of {fraction}");
    }
    for text in ["2024-01-02 00:00:00.", "2024-01-02 00:00:00.1234567", "2024-01-02 00:00:00,5"] {
        assert_eq!(rt; Moment::from_text(text.as_bytes()), None, "of {text}");
    }
    Ok(())
}

// From the fifth of January to the eighth.
fn four_days() -> Result<Period, Fail> {
    period("2024-01-05", "2024-01-09")
}

#[test]
fn shared_days(rt: HostRuntime) -> Result<(), Fail> {
    // whether it overlaps another, equals it, contains it
    let others = [
        ("2024-01-01", "2024-01-05", false, false, false),
        ("2024-01-01", "2024-01-06", true, false, false),
        ("2024-01-01", "2024-01-09", true, false, false),
        ("2024-01-05", "2024-01-08", true, false, true),
        ("2024-01-05", "2024-01-09", true, true, true),
        ("2024-01-08", "2024-01-10", true, false, false),
        ("2024-01-09", "2024-01-10", false, false, false),
    ];
    for (start, end, overlaps, equals, contains) in others {
        let found = four_days()?.overlaps(period(start, end)?);
        assert_eq!(rt; found, overlaps, "with {start} to {end}");
        let found = four_days()?.equals(period(start, end)?);
        assert_eq!(rt; found, equals, "with {start} to {end}");
        let found = four_days()?.contains(period(start, end)?);
        assert_eq!(rt; found, contains, "with {start} to {end}");
    }
    Ok(())
}

#[test]
fn one_after_the_other(rt: HostRuntime) -> Result<(), Fail> {
    // whether it succeeds another, immediately, precedes it, immediately
    let others = [
        ("2024-01-01", "2024-01-04", true, false, false, false),
        ("2024-01-01", "2024-01-05", true, true, false, false),
        ("2024-01-01", "2024-01-06", false, false, false, false),
        ("2024-01-08", "2024-01-10", false, false, false, false),
        ("2024-01-09", "2024-01-10", false, false, true, true),
        ("2024-01-10", "2024-01-11", false, false, true, false),
    ];
    for (start, end, succeeds, at_once, precedes, before) in others {
        let found = four_days()?.succeeds(period(start, end)?);
        assert_eq!(rt; found, succeeds, "with {start} to {end}");
        let found = four_days()?.immediately_succeeds(period(start, end)?);
        assert_eq!(rt; found, at_once, "with {start} to {end}");
        let found = four_days()?.precedes(period(start, end)?);
        assert_eq!(rt; found, precedes, "with {start} to {end}");
        let found = four_days()?.immediately_precedes(period(start, end)?);
        assert_eq!(rt; found, before, "with {start} to {end}");
    }
    Ok(())
}

#[test]
fn parts_of_periods(rt: HostRuntime) -> Result<(), Fail> {
    let one = four_days()?;
    assert_eq!(rt; one.start(), day("2024-01-05")?);
    assert_eq!(rt; one.end(), day("2024-01-09")?);
    assert_eq!(rt; Period::new(one.end(), one.end()), None);
    let first = period("2024-01-05", "2024-01-06")?;
    let last = period("2024-01-08", "2024-01-09")?;
    assert!(rt; one.contains_day(first.start()) && one.contains_day(last.start()));
    assert!(rt; !one.contains_day(one.end()));
    // what both have, and what the one has before the other and after it
    let middle = period("2024-01-06", "2024-01-08")?;
    assert_eq!(rt; one.intersect(middle), Some(middle));
    assert_eq!(rt; one.minus(middle), (Some(first), Some(last)));
    let later = period("2024-01-08", "2024-01-12")?;
    assert_eq!(rt; one.intersect(later), Some(last));
    assert_eq!(rt;
        one.minus(later),
        (Some(period("2024-01-05", "2024-01-08")?), None)
    );
    assert_eq!(rt; first.intersect(last), None);
    assert_eq!(rt; first.minus(last), (Some(first), None));
    assert_eq!(rt; last.minus(first), (None, Some(last)));
    Ok(())
}

#[test]
fn windows(rt: HostRuntime) -> Result<(), Fail> {
    let (from, to) = (
        moment("2024-01-01 00:00:00")?,
        moment("2024-01-02 00:00:00")?,
    );
    let (before, last) = (
        moment("2023-12-31 23:59:59")?,
        moment("2024-01-01 23:59:59")?,
    );
    // a version that is recorded from the first of January to the second
    let windows = [
        (Window::Now, false),
        (Window::AsOf(before), false),
        (Window::AsOf(from), true),
        (Window::AsOf(last), true),
        (Window::AsOf(to), false),
        (Window::FromTo(before, from), false),
        (Window::FromTo(last, to), true),
        (Window::FromTo(last, last), false),
        (Window::Between(before, from), true),
        (Window::Between(last, last), true),
        (Window::Between(to, Moment::forever()), false),
    ];
    for (window, sees) in windows {
        assert_eq!(rt; window.sees(from, to), sees, "through {window:?}");
    }
    assert!(rt; Window::Now.sees(from, Moment::forever()));
    Ok(())
}
