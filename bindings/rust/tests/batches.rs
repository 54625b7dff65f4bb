// SPDX-License-Identifier: Apache-2.0
// SPDX-FileCopyrightText: Copyright the Vortex contributors; ported to Rattle and changed
//! Columns of the rows that `Search` finds, beside its records.

use doqallin::{DecimalKind, DecimalWidth, Filter, Indexing, Item, Kind, Reading, Search};
use doqallin::{SearchError, TimeUnit};
use std::error::Error;
use std::io::Cursor;

const KINDS: [(&str, &str); 6] = [
    ("id", "i64"),
    ("town", "utf8?"),
    ("fare", "decimal(12,2)?"),
    ("small", "f32?"),
    ("day", "date"),
    ("raw", "binary?"),
];
const NAMES: [&str; 6] = ["id", "town", "fare", "small", "day", "raw"];

/// A number of a sequence that looks random.
fn next(state: &mut u64) -> u64 {
    *state = state
        .wrapping_mul(6_364_136_223_846_793_005)
        .wrapping_add(1);
    *state >> 33
}

/// The values of a row, each as an `OwnedColumn` gives it.
type Row = [Option<Item>; 6];

/// A row, and its record.
fn random_row(id: u64, state: &mut u64) -> (Row, String) {
    let towns = ["Oslo", "a,b", "say \"so\"", "two\nlines", "\u{10ffff}", ""];
    let mut maybe = |range: u64| (next(state) % 10 > 0).then(|| next(state) % range);
    let (town, fare, small, raw) = (maybe(6), maybe(1_000_000), maybe(1000), maybe(256));
    let day = maybe(30).unwrap_or(0);
    let town = town.map(|place| towns[place as usize]);
    let quoted = |town: &str| format!("\"{}\"", town.replace('"', "\"\""));
    let record = format!(
        "{id},{},{},{},1970-01-{:02},{}\n",
        town.map(quoted).unwrap_or_default(),
        fare.map_or(String::new(), |fare| format!(
            "{}.{:02}",
            fare / 100,
            fare % 100
        )),
        small.map_or(String::new(), |small| format!("{}.5", small)),
        day + 1,
        raw.map_or(String::new(), |raw| format!("{raw:02x}")),
    );
    let float = |small: u64| Item::Float(doqallin::Float(small as f64 + 0.5));
    let row = [
        Some(Item::Integer(id.into())),
        town.map(|town| Item::Utf8(town.into())),
        fare.map(|fare| Item::Integer(fare.into())),
        small.map(float),
        Some(Item::Integer(day.into())),
        raw.map(|raw| Item::Binary(vec![raw as u8])),
    ];
    (row, record)
}

/// Sees that columns have the rows of the records that match.
fn see(
    files: &mut Search<Cursor<&[u8]>>,
    rows: &[Row],
    filter: &str,
    names: &[&str],
) -> Result<(), Box<dyn Error>> {
    let mut wanted = Vec::new();
    files.each(filter, |record| wanted.push(record.number as usize - 1))?;
    let mut count = 0;
    files.each_batch(filter, names, |batch| {
        assert_eq!(batch.columns().len(), names.len());
        for row in 0..batch.row_count() {
            for (name, column) in names.iter().zip(batch.columns()) {
                let place = NAMES.iter().position(|one| one == name).unwrap();
                assert_eq!(column.get(row), rows[wanted[count + row]][place]);
                assert_eq!(batch.column(name).unwrap().len(), batch.row_count());
            }
        }
        count += batch.row_count();
    })?;
    assert_eq!(count, wanted.len());
    assert_eq!(files.count(filter)?, count as u64);
    Ok(())
}

#[test]
fn the_same_rows_as_by_records() -> Result<(), Box<dyn Error>> {
    let reading = Reading {
        columns: &KINDS,
        ..Reading::default()
    };
    for seed in 0..100_u64 {
        let mut state = seed;
        let many = [0, 1, 7, 300, 8_000][seed as usize % 5];
        let made: Vec<_> = (0..many).map(|id| random_row(id, &mut state)).collect();
        let text: String = made.iter().map(|(_, record)| record.as_str()).collect();
        let rows: Vec<Row> = made.into_iter().map(|(row, _)| row).collect();
        let mut plain = Search::guessed(Cursor::new(text.as_bytes()), &reading)?;
        let indexing = Indexing {
            zone_rows: 50,
            ..Indexing::default()
        };
        let index = plain.index(&indexing)?;
        let mut files = Search::<Cursor<&[u8]>>::with_index(
            Cursor::new(text.as_bytes()),
            Cursor::new(index.as_slice()),
        )?;
        let limit = next(&mut state) % (many + 1);
        let filter = [
            format!("id >= {limit}"),
            format!("fare < {}.5 and town is not null", next(&mut state) % 9000),
            "town = 'Oslo' or raw is null".to_string(),
            "true".to_string(),
            "id < 0".to_string(),
        ][seed as usize / 5 % 5]
            .clone();
        let first = next(&mut state) as usize % 6;
        for names in [&NAMES[..], &NAMES[first..], &["raw", "id"], &[]] {
            see(&mut plain, &rows, &filter, names)?;
            see(&mut files, &rows, &filter, names)?;
        }
    }
    Ok(())
}

#[test]
fn cells_without_memory_of_their_own() -> Result<(), Box<dyn Error>> {
    let text = "1,Oslo,9.5,0.5,1970-01-03,00ff\n2,,,,1970-01-01,\n";
    let reading = Reading {
        columns: &KINDS,
        ..Reading::default()
    };
    let mut files = Search::guessed(Cursor::new(text), &reading)?;
    let mut kept = Vec::new();
    files.each_batch("true", &NAMES, |batch| {
        kept.extend_from_slice(batch.columns())
    })?;
    let [id, town, fare, small, day, raw] = &kept[..] else {
        panic!("{} columns", kept.len())
    };
    let decimal = DecimalKind::new(DecimalWidth::Bits128, 12, 2).map(Kind::Decimal);
    assert_eq!(Some(fare.kind()), decimal);
    assert_eq!((fare.integer(0), fare.integer(1)), (Some(950), None));
    assert_eq!(
        (id.integer(1), id.text(1), id.float(1)),
        (Some(2), None, None)
    );
    assert_eq!(
        (town.text(0), town.text(1), town.text(2)),
        (Some("Oslo"), None, None)
    );
    assert_eq!(
        (small.float(0), small.float(1), small.integer(0)),
        (Some(0.5), None, None)
    );
    assert_eq!((day.kind(), day.integer(0)), (Kind::Date32, Some(2)));
    assert_eq!((raw.bytes(0), raw.bytes(1)), (Some(&[0, 255][..]), None));
    assert!(raw.is_null(1) && raw.is_null(2) && !raw.is_null(0));
    let wanted = Filter::parse("day > '1970-01-02'", &[("day", Kind::Date32)])?;
    assert_eq!(wanted.mask(&[day.as_column()], 2)?, [true, false]);
    let times = Reading {
        columns: &[("at", "timestamp(ms,UTC)"), ("clock", "time(ns)")],
        ..Reading::default()
    };
    let mut files = Search::guessed(
        Cursor::new("1970-01-01T01:00:00.5+01:00,00:00:01\n"),
        &times,
    )?;
    files.each_batch("true", &["clock", "at"], |batch| {
        let [clock, at] = batch.columns() else {
            panic!("two columns were asked for")
        };
        assert_eq!(
            (clock.kind(), clock.integer(0)),
            (Kind::Time(TimeUnit::Nanoseconds), Some(10_i128.pow(9)))
        );
        assert_eq!(
            (at.kind(), at.integer(0)),
            (Kind::TimestampUtc(TimeUnit::Milliseconds), Some(500))
        );
    })?;
    Ok(())
}

#[test]
fn what_is_refused() -> Result<(), Box<dyn Error>> {
    let reading = Reading {
        columns: &[("n", "i64"), ("word", "utf8")],
        ..Reading::default()
    };
    let mut files = Search::guessed(Cursor::new("1,a\n2,b\nx,c\n3,d\n"), &reading)?;
    let mut found = Vec::new();
    let refused = files.each_batch("n > 1", &["word"], |batch| {
        found.extend((0..batch.row_count()).map(|row| batch.columns()[0].get(row)));
    });
    assert_eq!(found, [Some(Item::Utf8("b".into()))]);
    let offset = 8;
    assert!(
        matches!(refused, Err(SearchError::BadRecord { offset: found, column: Some(0) }) if found == offset)
    );
    let refused = files.each_batch("n > 1", &["n", "none"], |_| {});
    assert!(matches!(refused, Err(SearchError::NoColumn(name)) if name == "none"));
    let refused = files.each_batch("n >", &["n"], |_| {});
    assert!(matches!(
        refused,
        Err(SearchError::Mistake { place: 3, .. })
    ));
    Ok(())
}
