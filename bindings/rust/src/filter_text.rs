// SPDX-License-Identifier: Apache-2.0
// SPDX-FileCopyrightText: Copyright the Vortex contributors; ported to Rattle and changed
//! A filter with its columns, in one text.

use crate::{Filter, FilterError, Kind, Mistake, TimeUnit};
use std::str::FromStr;

/// The name of a kind: `u8` to `i64`, `bool`, `utf8`, `large_utf8`, `binary`, `large_binary`, `null`, `f32`, `f64`, `date`,
/// `time(us)`, `timestamp(us)`, `timestamp(us,UTC)` or `decimal(10,2)`, perhaps with a question mark behind it. A unit is `s`, `ms`,
/// `us` or `ns`, and decimals have 128 bits.
impl FromStr for Kind {
    type Err = Mistake;

    fn from_str(text: &str) -> Result<Kind, Mistake> {
        let text = text.trim().trim_end_matches('?');
        if let Some((name, words)) = text.split_once('(') {
            return kind_of_words(name, words).ok_or(Mistake::ExpectedKind);
        }
        match text {
            "u8" => Ok(Kind::U8),
            "u16" => Ok(Kind::U16),
            "u32" => Ok(Kind::U32),
            "u64" => Ok(Kind::U64),
            "i8" => Ok(Kind::I8),
            "i16" => Ok(Kind::I16),
            "i32" => Ok(Kind::I32),
            "i64" => Ok(Kind::I64),
            "bool" => Ok(Kind::Bool),
            "utf8" => Ok(Kind::Utf8),
            "large_utf8" => Ok(Kind::LargeUtf8),
            "binary" => Ok(Kind::Binary),
            "large_binary" => Ok(Kind::LargeBinary),
            "null" => Ok(Kind::Null),
            "f32" => Ok(Kind::F32),
            "f64" => Ok(Kind::F64),
            "date" => Ok(Kind::Date32),
            _ => Err(Mistake::ExpectedKind),
        }
    }
}

/// The kind of a name and of words in parentheses, of which the first is open.
fn kind_of_words(name: &str, words: &str) -> Option<Kind> {
    let words: Vec<&str> = words.strip_suffix(')')?.split(',').map(str::trim).collect();
    match (name.trim(), &words[..]) {
        ("time", [unit]) => Some(Kind::Time(unit_of(unit)?)),
        ("timestamp", [unit]) => Some(Kind::Timestamp(unit_of(unit)?)),
        ("timestamp", [unit, "UTC"]) => Some(Kind::TimestampUtc(unit_of(unit)?)),
        ("decimal", [precision, scale]) => {
            Kind::decimal(precision.parse().ok()?, scale.parse().ok()?)
        }
        _ => None,
    }
}

fn unit_of(word: &str) -> Option<TimeUnit> {
    match word {
        "s" => Some(TimeUnit::Seconds),
        "ms" => Some(TimeUnit::Milliseconds),
        "us" => Some(TimeUnit::Microseconds),
        "ns" => Some(TimeUnit::Nanoseconds),
        _ => None,
    }
}

/// The offsets of a byte in a text, outside of its quotes. A quote that is doubled within quotes ends them and begins others.
fn places(text: &str, of: u8) -> impl Iterator<Item = usize> {
    let mut open = None;
    text.bytes().enumerate().filter_map(move |(place, byte)| {
        match open {
            None if byte == b'\'' || byte == b'"' => open = Some(byte),
            Some(quote) if quote == byte => open = None,
            _ => {}
        }
        (open.is_none() && byte == of).then_some(place)
    })
}

/// The offsets of a byte in columns by name and kind, outside of quotes and of the parentheses of a kind.
fn places_between(text: &str, of: u8) -> impl Iterator<Item = usize> {
    let ends = |of: u8| -> Vec<usize> { places(text, of).collect() };
    let (opened, closed) = (ends(b'('), ends(b')'));
    let before = |ends: &[usize], place: usize| ends.partition_point(|end| *end < place);
    places(text, of).filter(move |place| before(&opened, *place) <= before(&closed, *place))
}

/// A column's name, bare or in double quotes, and its kind.
fn named(text: &str) -> Option<(String, Kind)> {
    let text = text.trim();
    let (name, kind) = text.split_at(places_between(text, b' ').last()?);
    let kind = kind.parse().ok()?;
    let name = name.trim();
    match name.strip_prefix('"') {
        Some(rest) => Some((rest.strip_suffix('"')?.replace("\"\"", "\""), kind)),
        None if name.contains([' ', '"']) => None,
        None => Some((name.to_string(), kind)),
    }
}

/// The filter, a semicolon, and the columns that it may name, each with its kind.
///
/// ```
/// let wanted: doqallin::Filter = "fare >= 10 and \"the city\" = 'Oslo'; fare u32, \"the city\" utf8?".parse()?;
/// let fares = doqallin::Column::integers(&[12u32, 3]);
/// let cities = doqallin::Column::utf8(b"OsloOslo", &[0, 4, 8]);
/// assert_eq!(wanted.mask(&[fares, cities], 2)?, [true, false]);
/// # Ok::<(), doqallin::FilterError>(())
/// ```
impl FromStr for Filter {
    type Err = FilterError;

    fn from_str(text: &str) -> Result<Filter, FilterError> {
        let end = places(text, b';').next().unwrap_or(text.len());
        let mut columns = Vec::new();
        let mut start = end + 1;
        while start <= text.len() {
            let rest = &text[start..];
            let length = places_between(rest, b',').next().unwrap_or(rest.len());
            if columns.is_empty() && rest.trim().is_empty() {
                break;
            }
            let column = named(&rest[..length]).ok_or(FilterError::Mistake {
                place: start,
                mistake: Mistake::ExpectedKind,
            })?;
            columns.push(column);
            start += length + 1;
        }
        let named: Vec<(&str, Kind)> = columns
            .iter()
            .map(|(name, kind)| (&name[..], *kind))
            .collect();
        Filter::parse(&text[..end], &named)
    }
}
