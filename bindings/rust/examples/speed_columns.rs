// SPDX-License-Identifier: Apache-2.0
// SPDX-FileCopyrightText: Copyright the Vortex contributors; ported to Rattle and changed
//! Statistics, casts, keys and masks of a million rows, and outcomes of 10,000 zones, beside careful plain loops. `speed_columns` shows
//! the times of both, and their ratio.
//! `speed_columns NAME ours`, `plain` and `none` make the columns, and do one of the two or neither: bench/bindings counts what
//! each takes. `speed_columns aims` has each name after the most that its ratio is to be.

use doqallin::*;
use std::cmp::Ordering;
use std::hint::black_box;
use std::time::Instant;

const ROWS: usize = 1_000_000;
const ZONE_ROWS: usize = 100;

/// A xorshift generator.
struct Random(u64);

impl Random {
    fn next(&mut self) -> u64 {
        self.0 ^= self.0 << 13;
        self.0 ^= self.0 >> 7;
        self.0 ^= self.0 << 17;
        self.0
    }
}

/// A million rows, of which the columns of each name are made.
struct Rows {
    wide: Vec<i64>,
    narrow: Vec<i32>,
    floats: Vec<f64>,
    /// One in eight is null.
    validity: Vec<u8>,
    text: Vec<u8>,
    offsets: Vec<i32>,
    /// The same strings after a beginning of 24 bytes.
    alike: Vec<u8>,
    alike_offsets: Vec<i32>,
    /// Towns of sixteen.
    towns: Vec<u8>,
    town_offsets: Vec<i32>,
}

const TOWNS: [&str; 16] = [
    "Oslo",
    "Bergen",
    "Trondheim",
    "Stavanger",
    "Drammen",
    "Tromsø",
    "Sandnes",
    "Kristiansand",
    "Ålesund",
    "Bodø",
    "Arendal",
    "Larvik",
    "Halden",
    "Moss",
    "Molde",
    "Harstad",
];

fn rows() -> Rows {
    let mut random = Random(88_172_645_463_325_252);
    let wide: Vec<i64> = (0..ROWS).map(|_| i64::from(random.next() as i32)).collect();
    let (mut text, mut offsets) = (Vec::new(), vec![0]);
    let (mut alike, mut alike_offsets) = (Vec::new(), vec![0]);
    let (mut towns, mut town_offsets) = (Vec::new(), vec![0]);
    for _ in 0..ROWS {
        let (start, length) = (text.len(), 4 + random.next() % 25);
        text.extend((0..length).map(|_| b'a' + (random.next() % 26) as u8));
        offsets.push(text.len() as i32);
        alike.extend_from_slice(b"https://www.example.org/");
        alike.extend_from_slice(&text[start..]);
        alike_offsets.push(alike.len() as i32);
        towns.extend_from_slice(TOWNS[(random.next() % 16) as usize].as_bytes());
        town_offsets.push(towns.len() as i32);
    }
    Rows {
        narrow: wide.iter().map(|number| *number as i32).collect(),
        floats: wide.iter().map(|number| *number as f64 / 64.0).collect(),
        validity: (0..ROWS / 8).map(|_| !(1 << (random.next() % 8))).collect(),
        wide,
        text,
        offsets,
        alike,
        alike_offsets,
        towns,
        town_offsets,
    }
}

fn is_valid(validity: &[u8], row: usize) -> bool {
    validity.is_empty() || validity[row / 8] >> (row % 8) & 1 == 1
}

/// The key of a row: a number, and then a string.
fn plain_key(number: i64, text: &[u8], out: &mut Vec<u8>) {
    let distance = number.unsigned_abs();
    let size = 8 - distance.leading_zeros() as usize / 8;
    let (first, bytes) = if number < 0 {
        (12 - size, !distance)
    } else {
        (12 + size, distance)
    };
    out.push(first as u8);
    out.extend_from_slice(&bytes.to_be_bytes()[8 - size..]);
    out.push(21);
    for byte in text {
        if *byte < 2 {
            out.push(1);
        }
        out.push(if *byte < 2 { byte + 1 } else { *byte });
    }
    out.push(0);
}

fn plain_keys(of: &Rows) -> (Vec<u64>, Vec<u8>) {
    let (mut offsets, mut keys) = (vec![0], Vec::new());
    for row in 0..ROWS {
        let text = &of.text[of.offsets[row] as usize..of.offsets[row + 1] as usize];
        plain_key(of.wide[row], text, &mut keys);
        offsets.push(keys.len() as u64);
    }
    (offsets, keys)
}

/// The wide numbers of the rows, all of which are narrow too, as narrow ones.
fn plain_cast(values: &[i64], validity: &[u8]) -> Vec<i32> {
    let value = |(row, value): (usize, &i64)| {
        if is_valid(validity, row) {
            i32::try_from(*value).expect("a narrow number")
        } else {
            0
        }
    };
    values.iter().enumerate().map(value).collect()
}

/// How many rows are null, and the least and the greatest value of the others.
fn plain_extremes<T: Copy + Ord>(values: &[T], validity: &[u8]) -> (u64, T, T) {
    let first = (0..values.len()).find(|row| is_valid(validity, *row));
    let mut least = values[first.expect("a value")];
    let (mut greatest, mut nulls) = (least, 0);
    if validity.is_empty() {
        for value in values {
            least = least.min(*value);
            greatest = greatest.max(*value);
        }
        return (0, least, greatest);
    }
    for (row, value) in values.iter().enumerate() {
        if is_valid(validity, row) {
            least = least.min(*value);
            greatest = greatest.max(*value);
        } else {
            nulls += 1;
        }
    }
    (nulls, least, greatest)
}

/// The integer that sorts as a float does: its bits without the sign, negated if the sign is set. All NaNs are one.
fn stored(number: f64) -> i64 {
    let size = (number.to_bits() & i64::MAX as u64) as i64;
    let size = size.min(f64::INFINITY.to_bits() as i64 + 1);
    if number.is_sign_negative() && !number.is_nan() {
        -size
    } else {
        size
    }
}

/// The same of floats. The bounds are given by what stores them.
fn plain_float_extremes(values: &[f64], validity: &[u8]) -> (u64, i64, i64) {
    let (mut least, mut greatest, mut nulls) = (i64::MAX, i64::MIN, 0);
    if validity.is_empty() {
        for value in values {
            least = least.min(stored(*value));
            greatest = greatest.max(stored(*value));
        }
        return (0, least, greatest);
    }
    for (row, value) in values.iter().enumerate() {
        if is_valid(validity, row) {
            least = least.min(stored(*value));
            greatest = greatest.max(stored(*value));
        } else {
            nulls += 1;
        }
    }
    (nulls, least, greatest)
}

/// The same of strings, in one pass that keeps the slices of both, cut to 16 bytes. The strings are letters.
fn plain_text_extremes(text: &[u8], offsets: &[i32], validity: &[u8]) -> (u64, String, String) {
    let value = |row: usize| &text[offsets[row] as usize..offsets[row + 1] as usize];
    let (mut found, mut nulls) = (None, 0);
    for row in 0..offsets.len() - 1 {
        if !is_valid(validity, row) {
            nulls += 1;
            continue;
        }
        let one = value(row);
        found = match found {
            None => Some((one, one)),
            Some((least, greatest)) if one < least => Some((one, greatest)),
            Some((least, greatest)) if one > greatest => Some((least, one)),
            both => both,
        };
    }
    let (least, greatest) = found.expect("a value");
    let mut upper = greatest[..greatest.len().min(16)].to_vec();
    if greatest.len() > 16 {
        upper[15] += 1;
    }
    let string = |bytes: &[u8]| String::from_utf8(bytes.to_vec()).expect("letters");
    (nulls, string(&least[..least.len().min(16)]), string(&upper))
}

/// A bit for each value, 1 if the test holds.
fn bits_of<T>(values: &[T], test: impl Fn(&T) -> bool) -> Vec<u64> {
    let word = |block: &[T]| {
        let bits = block.iter().enumerate();
        bits.fold(0, |word, (place, value)| {
            word | u64::from(test(value)) << place
        })
    };
    values.chunks(64).map(word).collect()
}

/// A bit for each string, 1 if the test holds.
fn bits_of_strings(text: &[u8], offsets: &[i32], test: impl Fn(&[u8]) -> bool) -> Vec<u64> {
    let word = |first: usize| {
        (first..ROWS.min(first + 64)).fold(0, |word, row| {
            let value = &text[offsets[row] as usize..offsets[row + 1] as usize];
            word | u64::from(test(value)) << (row % 64)
        })
    };
    (0..ROWS).step_by(64).map(word).collect()
}

fn joined(words: &mut [u64], others: &[u64]) {
    for (word, other) in words.iter_mut().zip(others) {
        *word &= other;
    }
}

/// The rows of two columns whose values pass both tests; a null passes none.
fn plain_mask_of_two<T>(
    columns: [&[T]; 2],
    validity: &[u8],
    above: impl Fn(&T) -> bool,
    below: impl Fn(&T) -> bool,
) -> Vec<bool> {
    let mut words = bits_of(columns[0], above);
    joined(&mut words, &bits_of(columns[1], below));
    let valid = validity.chunks(8).map(|bytes| {
        let mut word = [0; 8];
        word[..bytes.len()].copy_from_slice(bytes);
        u64::from_le_bytes(word)
    });
    joined(&mut words, &valid.collect::<Vec<u64>>());
    rows_of(&words)
}

fn rows_of(words: &[u64]) -> Vec<bool> {
    (0..ROWS)
        .map(|row| words[row / 64] >> (row % 64) & 1 == 1)
        .collect()
}

fn plain_mask(name: &str, of: &Rows, validity: &[u8]) -> Vec<bool> {
    let (text, offsets) = (&of.towns[..], &of.town_offsets[..]);
    let is_listed = |town: &[u8]| TOWNS[..8].iter().any(|one| town == one.as_bytes());
    match name {
        name if name.contains("i64") => plain_mask_of_two(
            [&of.wide, &of.wide[..]],
            validity,
            |a| *a > 5,
            |b| *b <= 1_000_000_000,
        ),
        // A NaN is above each number.
        name if name.contains("f64") => plain_mask_of_two(
            [&of.floats, &of.floats[..]],
            validity,
            |a| !(*a <= 5.0),
            |b| *b <= 10_000_000.0,
        ),
        name if name.contains("eight") => rows_of(&bits_of_strings(text, offsets, is_listed)),
        name if name.contains("begin") => rows_of(&bits_of_strings(text, offsets, |town| {
            town.starts_with(b"S")
        })),
        name if name.contains("part") => rows_of(&bits_of_strings(text, offsets, |town| {
            town.windows(2).any(|pair| pair == b"an")
        })),
        _ => rows_of(&bits_of_strings(text, offsets, |town| town == b"Oslo")),
    }
}

/// The mask of a filter, and of its columns.
fn mask(name: &str, of: &Rows) -> Vec<bool> {
    let towns = Column::utf8(&of.towns, &of.town_offsets);
    let numbers = column(name, of);
    let listed = TOWNS[..8].join("', '");
    let (words, columns): (String, Vec<Column>) = match name {
        name if name.contains("i64") => {
            ("a > 5 and b <= 1000000000".into(), vec![numbers, numbers])
        }
        name if name.contains("f64") => ("a > 5 and b <= 10000000".into(), vec![numbers, numbers]),
        name if name.contains("eight") => (format!("a in ('{listed}')"), vec![towns]),
        name if name.contains("begin") => ("a like 'S%'".into(), vec![towns]),
        name if name.contains("part") => ("a like '%an%'".into(), vec![towns]),
        _ => ("a = 'Oslo'".into(), vec![towns]),
    };
    let kinds: Vec<(&str, Kind)> = ["a", "b"]
        .into_iter()
        .zip(columns.iter().map(Column::kind))
        .collect();
    let wanted = Filter::parse(&words, &kinds).expect("a filter");
    wanted.mask(&columns, ROWS).expect("sound columns")
}

/// How many rows match, and which of the last.
fn told_mask(rows: &[bool]) -> String {
    format!(
        "{}, {:?}",
        rows.iter().filter(|is| **is).count(),
        &rows[ROWS - 99..]
    )
}

/// What is measured, and the most that its ratio to plain Rust is to be.
const AIMS: [(&str, f64); 20] = [
    ("statistics of i64", 0.6),
    ("statistics of i64 with nulls", 0.9),
    ("statistics of i32", 0.6),
    ("statistics of i32 with nulls", 0.9),
    ("statistics of f64", 1.0),
    ("statistics of f64 with nulls", 1.0),
    ("statistics of strings", 1.0),
    ("statistics of strings with nulls", 1.0),
    ("statistics of strings that begin alike", 1.0),
    ("cast", 1.0),
    ("cast with nulls", 1.0),
    ("keys", 1.2),
    ("mask of two i64", 1.0),
    ("mask of two i64 with nulls", 1.0),
    ("mask of two f64", 1.0),
    ("mask of two f64 with nulls", 1.0),
    ("mask of a town", 1.0),
    ("mask of eight towns", 1.0),
    ("mask of how towns begin", 1.0),
    ("mask of a part of towns", 1.0),
];

/// Tests of which the first passes one row in a hundred, in no order.
const FIVE_TESTS: [&str; 5] = [
    "a between 0 and 42949672",
    "a <> 7",
    "b <> 'Oslo'",
    "b in ('Bergen', 'Trondheim', 'Stavanger', 'Drammen', 'Sandnes')",
    "b like '%an%'",
];

/// The most time that these are to take together, by that of the dearest.
const AIM_OF_FIVE: f64 = 2.0;

/// The most time that statistics of f64 are to take, by that of i64.
const AIM_OF_FLOATS: f64 = 1.3;

/// The same of a sort by keys.
const AIM_OF_SORTING: f64 = 0.33;

fn column<'a>(name: &str, of: &'a Rows) -> Column<'a> {
    let column = if name.contains("alike") {
        Column::utf8(&of.alike, &of.alike_offsets)
    } else if name.contains("strings") {
        Column::utf8(&of.text, &of.offsets)
    } else if name.contains("i32") {
        Column::integers(&of.narrow)
    } else if name.contains("f64") {
        Column::floats(&of.floats)
    } else {
        Column::integers(&of.wide)
    };
    if name.ends_with("with nulls") {
        column.with_validity(&of.validity)
    } else {
        column
    }
}

fn shown(bound: Option<&Item>) -> String {
    match bound {
        Some(Item::Integer(number)) => number.to_string(),
        Some(Item::Float(number)) => stored(number.0).to_string(),
        Some(Item::Utf8(text)) => text.clone(),
        other => format!("{other:?}"),
    }
}

fn ours(name: &str, of: &Rows) -> String {
    if name.starts_with("mask") {
        return told_mask(&mask(name, of));
    }
    if name.starts_with("statistics") {
        let known = Statistics::of(&column(name, of), 16).expect("a sound column");
        let (lower, upper) = (shown(known.lower()), shown(known.upper()));
        return format!("{:?} null, {lower} to {upper}", known.null_count());
    }
    if name == "keys" {
        let columns = [column("numbers", of), column("strings", of)];
        let keys = row_keys(&columns, &[SortOptions::default(); 2]).expect("sound columns");
        return format!("{:?}", keys.get(ROWS - 1));
    }
    let made = cast_column::<i32>(&column(name, of)).expect("narrow numbers");
    format!("{:?}", &made[ROWS - 9..])
}

fn plain(name: &str, of: &Rows) -> String {
    if name == "keys" {
        let (offsets, keys) = plain_keys(of);
        return format!("{:?}", Some(&keys[offsets[ROWS - 1] as usize..]));
    }
    let validity = if name.ends_with("with nulls") {
        &of.validity[..]
    } else {
        &[]
    };
    if name.starts_with("mask") {
        return told_mask(&plain_mask(name, of, validity));
    }
    let told = |(nulls, least, greatest): (u64, String, String)| {
        format!("{:?} null, {least} to {greatest}", Some(nulls))
    };
    match name.strip_prefix("statistics of ") {
        None => format!("{:?}", &plain_cast(&of.wide, validity)[ROWS - 9..]),
        Some(kind) if kind.contains("alike") => {
            told(plain_text_extremes(&of.alike, &of.alike_offsets, validity))
        }
        Some(kind) if kind.contains("strings") => {
            told(plain_text_extremes(&of.text, &of.offsets, validity))
        }
        Some(kind) if kind.contains("i32") => {
            let (nulls, least, greatest) = plain_extremes(&of.narrow, validity);
            told((nulls, least.to_string(), greatest.to_string()))
        }
        Some(kind) if kind.contains("f64") => {
            let (nulls, least, greatest) = plain_float_extremes(&of.floats, validity);
            told((nulls, least.to_string(), greatest.to_string()))
        }
        Some(_) => {
            let (nulls, least, greatest) = plain_extremes(&of.wide, validity);
            told((nulls, least.to_string(), greatest.to_string()))
        }
    }
}

/// The seconds of one call: the best of five.
fn seconds<T>(mut call: impl FnMut() -> T) -> f64 {
    let round = |_| {
        let start = Instant::now();
        black_box(call());
        start.elapsed().as_secs_f64()
    };
    (0..5).map(round).fold(f64::MAX, f64::min)
}

fn compare(name: &str, aim: f64, ours: f64, plain: f64) {
    println!(
        "Rust, {name}, a million rows: {:.2} ms, {:.2} of the time of plain Rust; the aim is {aim}",
        1e3 * ours,
        ours / plain
    );
}

/// The first eight bytes of a key as a number, which compares as they do.
fn beginning(key: &[u8]) -> u64 {
    if let Some(bytes) = key.first_chunk() {
        return u64::from_be_bytes(*bytes);
    }
    let mut bytes = [0; 8];
    bytes[..key.len()].copy_from_slice(key);
    u64::from_be_bytes(bytes)
}

/// The rows sorted by their keys. A number has the first bits of a key, and then its row: most rows are told apart by these bits.
/// Rows whose keys begin alike are then sorted by their keys.
fn sorted_by_keys(keys: &RowKeys) -> Vec<usize> {
    let bits = usize::BITS - keys.len().leading_zeros();
    let row = (1u64 << bits) - 1;
    let mut rows: Vec<u64> = (0..)
        .zip(keys.iter().map(beginning))
        .map(|(at, first)| first & !row | at)
        .collect();
    rows.sort_unstable();
    for alike in rows.chunk_by_mut(|x, y| x & !row == y & !row) {
        alike.sort_unstable_by_key(|at| keys.get((at & row) as usize));
    }
    rows.into_iter().map(|at| (at & row) as usize).collect()
}

/// Sorting the rows of two columns by their keys, beside sorting them by comparing their values.
fn sorting(name: &str, columns: [Column<'_>; 2], order: impl Fn(&usize, &usize) -> Ordering) {
    let keys = row_keys(&columns, &[SortOptions::default(); 2]).expect("sound columns");
    let sorted_by_values = || {
        let mut rows: Vec<usize> = (0..ROWS).collect();
        rows.sort_unstable_by(&order);
        rows
    };
    assert_eq!(sorted_by_keys(&keys), sorted_by_values());
    compare(
        &format!("sorting by keys of {name}"),
        AIM_OF_SORTING,
        seconds(|| sorted_by_keys(&keys)),
        seconds(sorted_by_values),
    );
}

fn sort(of: &Rows) {
    let (numbers, strings) = (column("numbers", of), column("strings", of));
    let text = |row: usize| &of.text[of.offsets[row] as usize..of.offsets[row + 1] as usize];
    let by_number = |x: &usize, y: &usize| of.wide[*x].cmp(&of.wide[*y]);
    let by_text = |x: &usize, y: &usize| text(*x).cmp(text(*y));
    sorting("numbers and then strings", [numbers, strings], |x, y| {
        by_number(x, y).then_with(|| by_text(x, y))
    });
    sorting("strings and then numbers", [strings, numbers], |x, y| {
        by_text(x, y).then_with(|| by_number(x, y))
    });
}

/// Five tests in one filter, beside each alone.
fn five_tests(of: &Rows) {
    let columns = [column("i64", of), Column::utf8(&of.towns, &of.town_offsets)];
    let kinds = [("a", columns[0].kind()), ("b", columns[1].kind())];
    let time = |words: &str| {
        let wanted = Filter::parse(words, &kinds).expect("a filter");
        seconds(|| wanted.mask(&columns, ROWS).expect("sound columns"))
    };
    let dearest = FIVE_TESTS.iter().map(|test| time(test)).fold(0.0, f64::max);
    let together = time(&FIVE_TESTS.join(" and "));
    println!(
        "Rust, five tests, the first of one row in a hundred, a million rows: {:.2} ms, {:.2} of the time of the dearest; the aim is {AIM_OF_FIVE}",
        1e3 * together,
        together / dearest
    );
}

/// The bounds of two columns, neither of which has a null, on the rows of a zone.
type Bounds<T> = [(T, T); 2];

/// What a filter is on the zones of two columns by their statistics in bytes, beside plain Rust over bounds that are numbers.
/// Returns the time of the first.
fn compare_outcomes<T: Copy + PartialOrd>(
    name: &str,
    numbers: Column<'_>,
    values: &[T],
    ends: (T, T),
) -> f64 {
    let kinds = [("a", numbers.kind()), ("b", numbers.kind())];
    let wanted = Filter::parse("a > 5 and b <= 1000000", &kinds).expect("a filter");
    let known = |zone: usize| Statistics::of(&numbers.slice(ZONE_ROWS * zone, ZONE_ROWS), 16);
    let known: Vec<Statistics> = (0..ROWS / ZONE_ROWS)
        .map(|zone| known(zone).expect("a sound column"))
        .collect();
    let zones: Vec<[Option<&Statistics>; 2]> = known.iter().map(|zone| [Some(zone); 2]).collect();
    let extremes = |zone: &[T]| {
        zone.iter()
            .fold((zone[0], zone[0]), |(least, greatest), value| {
                (
                    if *value < least { *value } else { least },
                    if *value > greatest { *value } else { greatest },
                )
            })
    };
    let bounds: Vec<Bounds<T>> = values
        .chunks(ZONE_ROWS)
        .map(|zone| [extremes(zone); 2])
        .collect();
    let outcomes_of = |[(least, greatest), (lower, upper)]: &Bounds<T>| Outcomes {
        may_be_false: *least <= ends.0 || *upper > ends.1,
        may_be_unknown: false,
        may_be_true: *greatest > ends.0 && *lower <= ends.1,
    };
    let ours = || {
        wanted
            .outcomes_of(zones.iter().map(|zone| &zone[..]))
            .expect("sound statistics")
    };
    let plain = || bounds.iter().map(outcomes_of).collect::<Vec<Outcomes>>();
    assert_eq!(ours(), plain(), "{name}");
    let (of_ours, of_plain) = (seconds(ours), seconds(plain));
    println!(
        "Rust, {name}, {} zones: {:.2} ms, {:.1} of the time of plain Rust",
        zones.len(),
        1e3 * of_ours,
        of_ours / of_plain
    );
    of_ours
}

fn outcomes(of: &Rows) {
    let of_integers = compare_outcomes(
        "outcomes of i64",
        column("i64", of),
        &of.wide,
        (5, 1_000_000),
    );
    let of_floats = compare_outcomes(
        "outcomes of f64",
        column("f64", of),
        &of.floats,
        (5.0, 1_000_000.0),
    );
    println!(
        "Rust, outcomes of f64: {:.2} of the time of i64",
        of_floats / of_integers
    );
}

fn main() {
    let words: Vec<String> = std::env::args().skip(1).collect();
    if words == ["aims"] {
        return AIMS.iter().for_each(|(name, aim)| println!("{aim} {name}"));
    }
    let made = rows();
    if let [name, of] = &words[..] {
        return match &of[..] {
            "ours" => println!("{}", ours(name, &made)),
            "plain" => println!("{}", plain(name, &made)),
            _ => println!("{}", made.wide.len()),
        };
    }
    for (name, aim) in AIMS {
        assert_eq!(ours(name, &made), plain(name, &made), "{name}");
        let times = (
            seconds(|| ours(name, &made)),
            seconds(|| plain(name, &made)),
        );
        compare(name, aim, times.0, times.1);
    }
    let [of_integers, of_floats] =
        ["statistics of i64", "statistics of f64"].map(|name| seconds(|| ours(name, &made)));
    println!(
        "Rust, statistics of f64, a million rows: {:.2} of the time of i64; the aim is {AIM_OF_FLOATS}",
        of_floats / of_integers
    );
    five_tests(&made);
    outcomes(&made);
    sort(&made);
}
