//! Moments as RFC 3339 has them.
use chumsky::combinator::exact_part;
use chumsky::prelude::*;
use exact::date::{Date, FullDate};
use exact::timestamp::{Clock, Fraction, FromUtc, Offset, TimeMark, TimeOfDay, parse_timestamp};
use std::test::Fail;

#[test]
fn moments_are_read_part_by_part(rt: HostRuntime) -> Result<(), Fail> {
    let alloc = rt.alloc();
    let accepted = [
        ("1985-04-12T23:20:50.52Z", (1985, 4, 12), (23, 20, 50), Some("52"), Offset::Utc),
        ("1996-12-19T16:39:57-08:00", (1996, 12, 19), (16, 39, 57), None, Offset::Behind(8, 0)),
        ("1990-12-31T23:59:60Z", (1990, 12, 31), (23, 59, 60), None, Offset::Utc),
        ("1937-01-01T12:00:27.87+00:20", (1937, 1, 1), (12, 0, 27), Some("87"), Offset::Ahead(0, 20)),
        ("2026-12-01t00:00:00z", (2026, 12, 1), (0, 0, 0), None, Offset::Utc),
        ("0000-01-01T00:00:00-00:00", (0, 1, 1), (0, 0, 0), None, Offset::Behind(0, 0)),
        ("2026-02-31T10:28:60Z", (2026, 2, 31), (10, 28, 60), None, Offset::Utc),
        ("9999-12-31T23:59:59.000000000000000000001+23:59", (9999, 12, 31), (23, 59, 59), Some("000000000000000000001"), Offset::Ahead(23, 59)),
    ];
    for (text, (year, month, day), (hour, minute, second), fraction, offset) in accepted {
        let parsed = parse_timestamp(alloc, text)?;
        let read = parsed.into_output();
        assert!(rt; read.is_some_and(|read| {
            read.date == Date { year, month, day }
                && read.clock == Clock { hour, minute, second }
                && read.fraction == fraction
                && read.offset == offset
        }), "{text}");
    }
    Ok(())
}

#[test]
fn no_other_text_is_a_moment(rt: HostRuntime) -> Result<(), Fail> {
    let alloc = rt.alloc();
    for text in [
        "", "2026-12-01", "2026-12-01T", "2026-12-01T10:28:35", "2026-12-01 10:28:35Z", "2026-12-01T10:28Z", "2026-12-01T24:00:00Z", "2026-12-01T10:60:00Z", "2026-12-01T10:28:61Z",
        "2026-12-01T10:28:35.Z", "2026-12-01T10:28:35,5Z", "2026-12-01T10:28:35.5", "2026-12-01T10:28:35+24:00", "2026-12-01T10:28:35+02:60", "2026-12-01T10:28:35+0200", "2026-12-01T10:28:35+02",
        "2026-12-01T10:28:35ZZ", "2026-12-01T10:28:35Z ", " 2026-12-01T10:28:35Z", "2026-13-01T10:28:35Z", "2026-12-32T10:28:35Z", "26-12-01T10:28:35Z", "2026-12-01T1:28:35Z", "2026-12-01T10:28:35±02:00",
        "2026-12-01T10:28:35.5.5Z", "2026-12-01T10:28:35.٥Z",
    ] {
        let parsed = parse_timestamp(alloc, text)?;
        assert!(rt; parsed.into_output().is_none(), "{text}");
    }
    Ok(())
}

/// `check` runs each part without its value.
#[test]
fn parts_are_checked_as_they_are_read(rt: HostRuntime) -> Result<(), Fail> {
    let alloc = rt.alloc();
    let day = exact_part(FullDate).then_ignore(exact_part(TimeMark));
    let time = exact_part(TimeOfDay).then(exact_part(Fraction)).then(exact_part(FromUtc));
    let moment = day.or_not().then(time.or_not());
    for (text, days, times) in [
        ("", 0, 0),
        ("2026-12-01T", 1, 0),
        ("10:28:35Z", 0, 1),
        ("2026-12-01t10:28:35.5+02:00", 1, 1),
        ("2026-02-31T10:28:60-00:00", 1, 1),
    ] {
        let read = moment.parse(alloc, text)?;
        let checked = moment.check(alloc, text)?;
        assert!(rt; checked.has_output() && !checked.has_errors(), "{text}");
        assert!(rt; read.into_output().is_some_and(|(day, time)| day.iter().count() == days && time.iter().count() == times), "{text}");
    }
    for text in ["2026-12-01", "10:28:35", "10:28:35.Z", "10:28:61Z", "2026-12-01T10:28:35+24:00", "2026-12-01T2026-12-01T"] {
        assert!(rt; !moment.parse(alloc, text)?.has_output(), "{text}");
        assert!(rt; !moment.check(alloc, text)?.has_output(), "{text}");
    }
    Ok(())
}
