// SPDX-License-Identifier: Apache-2.0
//! A line: a call, what it is given, and what it answers.

use std::cmp::Ordering;
use std::fmt::Write as _;
use std::hash::Hash;
use std::hint::black_box;
use std::io::Write as _;

use crate::error::{VortexError, VortexResult};
use crate::filters::{CompareOperator, Outcomes, Truth, compare, comparison};
use crate::hashing::Recorder;
use crate::keys::{
    KeyError, KeyResult, RowEncoder, SortOptions, append_key, append_raw_key, append_row_key,
    decode_key, key_length,
};
use crate::ordering::partial_cmp_values;
use crate::read::{BadLine, Filtered, Read, Reader};
use crate::statistics::{ColumnStatistics, TooManyRows};
use crate::types::DType;
use crate::values::{Scalar, ScalarValue};
use crate::write::{
    truth_word, write_error, write_hex, write_outcomes, write_quoted, write_scalar,
    write_statistics,
};

/// How lines are run: alone, or watched.
#[derive(Clone, Copy)]
pub struct Run {
    pub is_watched: bool,
}

impl Run {
    /// Says how far it is, if it is watched.
    fn says(self, word: &str) {
        if self.is_watched {
            std::io::stderr()
                .write_all(word.as_bytes())
                .expect("standard error takes a word");
        }
    }
}

enum Call {
    Validate(Scalar),
    Clone(Scalar),
    Equal(Scalar, Scalar),
    Hash(Scalar, Scalar),
    Order(Scalar, Scalar),
    Cast(Scalar, DType),
    Text(Scalar),
    Size(Scalar),
    IsZero(Scalar),
    Key(Scalar, SortOptions),
    KeyLength(Scalar),
    FromKey(DType, Vec<u8>, SortOptions),
    RowKey((Vec<Scalar>, Vec<SortOptions>)),
    RowEncoder((Vec<DType>, Vec<SortOptions>), Vec<Scalar>),
    SortedByKeys(Scalar),
    SortedByOrder(Scalar),
    Statistics((DType, Vec<Option<ScalarValue>>)),
    MayBeNull(ColumnStatistics),
    MayBeValue(ColumnStatistics),
    Truth(Filtered<Scalar>),
    Matches(Filtered<Scalar>),
    Matching(Filtered<Scalar>),
    Outcomes(Filtered<ColumnStatistics>),
    MayMatch(Filtered<ColumnStatistics>),
    MustMatch(Filtered<ColumnStatistics>),
    MatchingZones(Filtered<ColumnStatistics>),
    Compare(Scalar, CompareOperator, Scalar),
    CompareZone(ColumnStatistics, CompareOperator, Scalar),
}

enum Answer {
    Word(&'static str),
    Number(usize),
    Scalar(Scalar),
    Text(String),
    Key(Vec<u8>),
    Decoded(Scalar, usize),
    Places(Vec<usize>),
    KeyRefused(KeyError),
    Statistics(DType, ColumnStatistics),
    Truth(Truth),
    Outcomes(Outcomes),
}

pub fn answer_line(run: Run, line: &str, out: &mut String) -> Read<()> {
    let mut reader = Reader::new(line);
    let call = read_call(&mut reader)?;
    reader.end()?;
    if let Some(cause) = reader.refusal {
        write_error(&VortexError::BadType(cause), out);
        return Ok(());
    }
    run.says("called\n");
    let answer = black_box(answer(black_box(&call)));
    run.says("answered\n");
    match &answer {
        Ok(Answer::Word(word)) => out.push_str(word),
        Ok(Answer::Number(number)) => write!(out, "{number}").expect("a String takes every text"),
        Ok(Answer::Scalar(scalar)) => write_scalar(scalar, out),
        Ok(Answer::Text(text)) => write_quoted(text, out),
        Ok(Answer::Key(key)) => {
            out.push('x');
            write_hex(key, out);
        }
        Ok(Answer::Decoded(scalar, length)) => {
            write_scalar(scalar, out);
            write!(out, ", {length}").expect("a String takes every text");
        }
        Ok(Answer::Places(places)) => {
            write!(out, "{places:?}").expect("a String takes every text");
        }
        Ok(Answer::KeyRefused(error)) => write_key_error(error, out),
        Ok(Answer::Statistics(dtype, statistics)) => write_statistics(dtype, statistics, out),
        Ok(Answer::Truth(truth)) => out.push_str(truth_word(*truth)),
        Ok(Answer::Outcomes(outcomes)) => write_outcomes(*outcomes, out),
        Err(error) => write_error(error, out),
    }
    Ok(())
}

fn read_call(reader: &mut Reader<'_>) -> Read<Call> {
    Ok(match reader.word()? {
        "validate" => Call::Validate(scalar(reader)?),
        "clone" => Call::Clone(scalar(reader)?),
        "equal" => Call::Equal(scalar(reader)?, scalar(reader)?),
        "hash" => Call::Hash(scalar(reader)?, scalar(reader)?),
        "order" => Call::Order(scalar(reader)?, scalar(reader)?),
        "cast" => Call::Cast(scalar(reader)?, apart(reader)?.dtype()?),
        "text" => Call::Text(scalar(reader)?),
        "size" => Call::Size(scalar(reader)?),
        "is_zero" => Call::IsZero(scalar(reader)?),
        "key" => Call::Key(scalar(reader)?, reader.options()),
        "key_length" => Call::KeyLength(scalar(reader)?),
        "from_key" => Call::FromKey(apart(reader)?.dtype()?, reader.bytes()?, reader.options()),
        "row_key" => Call::RowKey(apart(reader)?.columns(Reader::scalar)?),
        "row_encoder" => {
            Call::RowEncoder(apart(reader)?.columns(Reader::dtype)?, reader.scalars()?)
        }
        "sorted_by_keys" => Call::SortedByKeys(scalar(reader)?),
        "sorted_by_order" => Call::SortedByOrder(scalar(reader)?),
        "statistics" => Call::Statistics(apart(reader)?.values()?),
        "may_be_null" => Call::MayBeNull(apart(reader)?.statistics()?.1),
        "may_be_value" => Call::MayBeValue(apart(reader)?.statistics()?.1),
        "truth" => Call::Truth(apart(reader)?.filtered_row()?),
        "matches" => Call::Matches(apart(reader)?.filtered_row()?),
        "matching" => Call::Matching(apart(reader)?.filtered_rows()?),
        "outcomes" => Call::Outcomes(apart(reader)?.filtered_zone()?),
        "may_match" => Call::MayMatch(apart(reader)?.filtered_zone()?),
        "must_match" => Call::MustMatch(apart(reader)?.filtered_zone()?),
        "matching_zones" => Call::MatchingZones(apart(reader)?.filtered_zones()?),
        "compare" => Call::Compare(scalar(reader)?, reader.operator()?, scalar(reader)?),
        "compare_zone" => {
            let statistics = apart(reader)?.statistics()?.1;
            Call::CompareZone(statistics, reader.operator()?, scalar(reader)?)
        }
        _ => return Err(BadLine),
    })
}

fn scalar(reader: &mut Reader<'_>) -> Read<Scalar> {
    apart(reader)?.scalar()
}

/// At least one space stands before what a call is given.
fn apart<'r, 'a>(reader: &'r mut Reader<'a>) -> Read<&'r mut Reader<'a>> {
    if reader.spaces() > 0 {
        Ok(reader)
    } else {
        Err(BadLine)
    }
}

/// What the call answers. Calls of valid scalars test that first.
#[inline(never)]
fn answer(call: &Call) -> VortexResult<Answer> {
    Ok(match call {
        Call::Validate(x) => {
            x.validate()?;
            Answer::Word("ok")
        }
        Call::Clone(x) => Answer::Scalar(x.clone()),
        Call::Equal(x, y) => Answer::Word(truth(x == y)),
        Call::Hash(x, y) => Answer::Word(if fed(x) == fed(y) { "same" } else { "differ" }),
        Call::Order(x, y) => {
            x.validate()?;
            y.validate()?;
            Answer::Word(order(x.partial_cmp(y)))
        }
        Call::Cast(x, target) => {
            x.validate()?;
            Answer::Scalar(x.cast(target)?)
        }
        Call::Text(x) => Answer::Text(x.to_string()),
        Call::Size(x) => {
            x.validate()?;
            Answer::Number(x.approx_nbytes())
        }
        Call::IsZero(x) => {
            x.validate()?;
            Answer::Word(x.is_zero().map_or("none", truth))
        }
        Call::Key(x, options) => {
            let mut key = Vec::new();
            of_keys(append_key(x, *options, &mut key), |()| Answer::Key(key))
        }
        Call::KeyLength(x) => Answer::Number(key_length(x.value())),
        Call::FromKey(dtype, bytes, options) => {
            of_keys(decode_key(dtype, *options, bytes), |(scalar, length)| {
                Answer::Decoded(scalar, length)
            })
        }
        Call::RowKey((values, options)) => {
            let values: Vec<&Scalar> = values.iter().collect();
            let mut key = Vec::new();
            of_keys(append_row_key(&values, options, &mut key), |()| {
                Answer::Key(key)
            })
        }
        Call::RowEncoder((dtypes, options), values) => {
            of_keys(encode_rows(dtypes, options, values), Answer::Key)
        }
        Call::SortedByKeys(x) => of_keys(sorted_by_keys(x), Answer::Places),
        Call::SortedByOrder(x) => Answer::Places(sorted_by_order(x)),
        Call::Statistics((dtype, values)) => match statistics_of(dtype, values) {
            Ok(statistics) => Answer::Statistics(dtype.clone(), statistics),
            Err(TooManyRows) => Answer::Word("TooManyRows"),
        },
        Call::MayBeNull(statistics) => Answer::Word(truth(statistics.may_be_null())),
        Call::MayBeValue(statistics) => Answer::Word(truth(statistics.may_be_value())),
        Call::Truth(on) => Answer::Truth(on.filter.truth(&on.items)),
        Call::Matches(on) => Answer::Word(truth(on.filter.matches(&on.items))),
        Call::Matching(on) => Answer::Places(places(on, |row| on.filter.matches(row))),
        Call::Outcomes(on) => Answer::Outcomes(on.filter.outcomes(&on.items)),
        Call::MayMatch(on) => Answer::Word(truth(on.filter.outcomes(&on.items).may_be_true)),
        Call::MustMatch(on) => Answer::Word(truth(on.filter.outcomes(&on.items).is_only_true())),
        Call::MatchingZones(on) => {
            Answer::Places(places(on, |zone| on.filter.outcomes(zone).may_be_true))
        }
        Call::Compare(x, operator, literal) => Answer::Truth(compare(Some(x), *operator, literal)),
        Call::CompareZone(statistics, operator, literal) => {
            Answer::Outcomes(comparison(Some(statistics), *operator, literal))
        }
    })
}

/// The statistics of values, observed one by one.
fn statistics_of(
    dtype: &DType,
    values: &[Option<ScalarValue>],
) -> Result<ColumnStatistics, TooManyRows> {
    let mut statistics = ColumnStatistics::empty();
    for value in values {
        statistics.observe(dtype, value.as_ref())?;
    }
    Ok(statistics)
}

/// The places of the rows, or of the zones, that are wanted.
fn places<T>(on: &Filtered<T>, wanted: impl Fn(&[T]) -> bool) -> Vec<usize> {
    let row = |place| &on.items[place * on.width..][..on.width];
    (0..on.count).filter(|&place| wanted(row(place))).collect()
}

fn of_keys<T>(outcome: KeyResult<T>, answer: impl FnOnce(T) -> Answer) -> Answer {
    outcome.map_or_else(Answer::KeyRefused, answer)
}

/// The keys of rows, one row after another.
fn encode_rows(dtypes: &[DType], options: &[SortOptions], values: &[Scalar]) -> KeyResult<Vec<u8>> {
    let values: Vec<&Scalar> = values.iter().collect();
    let encoder = RowEncoder::try_new(dtypes, options)?;
    let mut keys = Vec::new();
    for row in values.chunks(dtypes.len().max(1)) {
        encoder.append(row, &mut keys)?;
    }
    Ok(keys)
}

/// The type of a list's elements, and the elements.
fn elements(list: &Scalar) -> (&DType, &[Option<ScalarValue>]) {
    match (list.dtype(), list.value()) {
        (DType::List(dtype, _), Some(value)) => (dtype, value.as_list()),
        (dtype, _) => (dtype, &[]),
    }
}

/// The places of a list's elements, sorted by their keys.
fn sorted_by_keys(list: &Scalar) -> KeyResult<Vec<usize>> {
    let (dtype, elements) = elements(list);
    let options = SortOptions {
        descending: false,
        nulls_first: true,
    };
    let mut keys = Vec::with_capacity(elements.len());
    for (place, element) in elements.iter().enumerate() {
        let mut key = Vec::new();
        append_raw_key(dtype, element.as_ref(), options, &mut key)?;
        keys.push((key, place));
    }
    keys.sort_by(|(x, _), (y, _)| x.cmp(y));
    Ok(keys.into_iter().map(|(_, place)| place).collect())
}

/// The places of a list's elements, sorted by their order.
fn sorted_by_order(list: &Scalar) -> Vec<usize> {
    let elements = elements(list).1;
    let mut places: Vec<usize> = (0..elements.len()).collect();
    places.sort_by(|x, y| {
        partial_cmp_values(elements[*x].as_ref(), elements[*y].as_ref()).unwrap_or(Ordering::Equal)
    });
    places
}

fn write_key_error(error: &KeyError, out: &mut String) {
    match error {
        KeyError::HasVariant => out.push_str("HasVariant"),
        KeyError::BadKey { place } => {
            write!(out, "BadKey {place}").expect("a String takes every text");
        }
        KeyError::WrongLength { expected, found } => {
            write!(out, "WrongLength {expected} {found}").expect("a String takes every text");
        }
    }
}

fn fed(scalar: &Scalar) -> u64 {
    let mut recorder = Recorder::new();
    scalar.hash(&mut recorder);
    recorder.digest()
}

fn truth(value: bool) -> &'static str {
    if value { "true" } else { "false" }
}

fn order(ordering: Option<Ordering>) -> &'static str {
    match ordering {
        Some(Ordering::Less) => "less",
        Some(Ordering::Equal) => "equal",
        Some(Ordering::Greater) => "greater",
        None => "none",
    }
}
