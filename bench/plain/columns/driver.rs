// SPDX-License-Identifier: Apache-2.0
//! The calls of arrow_columns beside careful plain loops on the same columns: `driver WHO WHAT COUNT RUNS` answers and times one of
//! them, `ours` or `plain`, or `both` by turns.
use std::env;
use std::hint::black_box;
use std::time::Instant;

/// A column, as `arrow_columns::Column` has it.
#[repr(C)]
struct Column<'a> {
    kind: u8,
    precision: u8,
    scale: u8,
    validity: &'a [u8],
    values: &'a [u8],
    offsets: &'a [u8],
    offset: usize,
    length: usize,
}

unsafe extern "C" {
    fn columns_check(column: &Column) -> u32;
    fn columns_statistics(column: &Column, out: *mut u64, out_length: usize) -> u32;
    fn columns_cast(column: &Column, to: u8, in_one_pass: bool, room: *mut u8, room_length: usize) -> u32;
    fn columns_word(logical: u8, word: *const u8, length: usize, out: *mut u64, out_length: usize) -> u32;
}

const I32: u8 = 6;
const I64: u8 = 7;
const UTF8: u8 = 9;
const BINARY: u8 = 11;
const F32: u8 = 14;
const F64: u8 = 15;
const DATE32: u8 = 16;
const DECIMAL128: u8 = 31;

/// Numbers that look random.
struct Chance(u64);

impl Chance {
    fn next(&mut self) -> u64 {
        self.0 ^= self.0 << 13;
        self.0 ^= self.0 >> 7;
        self.0 ^= self.0 << 17;
        self.0
    }
}

/// What a column holds, and the same as Rust's own values.
struct Data {
    bits: Vec<u8>,
    wide: Vec<i64>,
    narrow: Vec<i32>,
    doubles: Vec<f64>,
    singles: Vec<f32>,
    dates: Vec<i32>,
    long: Vec<i128>,
    bytes: Vec<u8>,
    offsets: Vec<u32>,
}

fn data(what: &str, count: usize) -> Data {
    let mut chance = Chance(88172645463325252);
    let begin: &[u8] = if what.starts_with("alike") { b"the same first 24 bytes " } else { b"" };
    let fitting = what.starts_with("cast") || what.starts_with("front");
    let mut made = Data { bits: vec![], wide: vec![], narrow: vec![], doubles: vec![], singles: vec![], dates: vec![], long: vec![], bytes: vec![], offsets: vec![0] };
    for _ in 0..count {
        let number = chance.next() as i64;
        made.wide.push(if fitting { number >> 33 } else { number });
        made.narrow.push(number as i32);
        let float = float_of(number);
        made.doubles.push(float);
        made.singles.push(float as f32);
        made.dates.push((number >> 48) as i32);
        made.long.push(i128::from(number));
        made.bytes.extend_from_slice(begin);
        let rest = chance.next();
        if let Some(word) = word(what, rest) {
            made.bytes.extend_from_slice(word.as_bytes());
        } else if what.contains("letters") {
            made.bytes.extend((0..4 + rest % 25).map(|_| b'a' + (chance.next() % 26) as u8));
        } else {
            made.bytes.extend_from_slice(&rest.to_le_bytes()[..(chance.next() % 9) as usize]);
        }
        made.offsets.push(made.bytes.len() as u32);
    }
    if what.ends_with("order") {
        sort(&mut made);
    }
    for _ in 0..count.div_ceil(8) {
        made.bits.push((chance.next() | chance.next() | chance.next()) as u8);
    }
    made
}

/// Few of these are NaN, with either sign, infinite or a zero with a sign.
fn float_of(number: i64) -> f64 {
    match number as u64 % 1024 {
        0 => f64::NAN,
        1 => -f64::NAN,
        2 => -0.0,
        3 => f64::INFINITY,
        4 => f64::NEG_INFINITY,
        _ => number as f64 / 1e6,
    }
}

/// A word of a float, a decimal or a day. Few are of none.
fn word(what: &str, number: u64) -> Option<String> {
    let signed = number as i64;
    match what {
        "floats" | "doubles" | "decimals" | "days" if number % 1024 == 0 => Some("N/A".to_string()),
        "floats" => Some(format!("{}", (signed >> 38) as f64 / 1000.0)),
        "doubles" => Some(format!("{}", signed as f64 / 1e12)),
        "decimals" => Some(format!("{}.{:02}", signed >> 40, number % 100)),
        "days" => Some(format!("{}-{:02}-{:02}", 1900 + number % 200, 1 + number / 200 % 12, 1 + number / 2400 % 31)),
        _ => None,
    }
}

/// Puts the strings in order.
fn sort(made: &mut Data) {
    let mut strings: Vec<Vec<u8>> = made.offsets.windows(2).map(|ends| made.bytes[ends[0] as usize..ends[1] as usize].to_vec()).collect();
    strings.sort();
    made.bytes = strings.concat();
    for (row, string) in strings.iter().enumerate() {
        made.offsets[row + 1] = made.offsets[row] + string.len() as u32;
    }
}

fn bytes_of<T: Copy>(items: &[T]) -> &[u8] {
    unsafe { std::slice::from_raw_parts(items.as_ptr().cast(), size_of_val(items)) }
}

fn is_valid(bits: &[u8], row: usize) -> bool {
    bits[row / 8] >> (row % 8) & 1 == 1
}

macro_rules! plain_extremes {
    ($name:ident, $number:ty) => {
        fn $name(bits: Option<&[u8]>, values: &[$number]) -> (u64, Option<($number, $number)>) {
            let mut nulls = 0;
            let (mut least, mut greatest) = (<$number>::MAX, <$number>::MIN);
            match bits {
                None => {
                    for value in values {
                        least = least.min(*value);
                        greatest = greatest.max(*value);
                    }
                }
                Some(bits) => {
                    for (row, value) in values.iter().enumerate() {
                        if is_valid(bits, row) {
                            least = least.min(*value);
                            greatest = greatest.max(*value);
                        } else {
                            nulls += 1;
                        }
                    }
                }
            }
            (nulls, (nulls < values.len() as u64).then_some((least, greatest)))
        }
    };
}

plain_extremes!(plain_i64, i64);
plain_extremes!(plain_i32, i32);
plain_extremes!(plain_i128, i128);

/// Extremes of floats, as the integers that sort as they do: both zeros are 0, and NaN is above infinity.
macro_rules! plain_float_extremes {
    ($name:ident, $float:ident, $number:ty) => {
        fn $name(bits: Option<&[u8]>, values: &[$float]) -> (u64, Option<($number, $number)>) {
            let (mut nulls, mut nans) = (0, 0);
            let (mut least, mut greatest) = ($float::INFINITY, $float::NEG_INFINITY);
            for (row, value) in values.iter().enumerate() {
                if bits.is_some_and(|bits| !is_valid(bits, row)) {
                    nulls += 1;
                } else {
                    nans += u64::from(value.is_nan());
                    least = least.min(*value);
                    greatest = greatest.max(*value);
                }
            }
            let count = values.len() as u64 - nulls;
            let number = |float: $float| {
                let size = float.abs().to_bits() as $number;
                if float.is_sign_negative() { -size } else { size }
            };
            let nan = number($float::INFINITY) + 1;
            let least = if nans == count { nan } else { number(least) };
            let greatest = if nans > 0 { nan } else { number(greatest) };
            (nulls, (count > 0).then_some((least, greatest)))
        }
    };
}

plain_float_extremes!(plain_f64, f64, i64);
plain_float_extremes!(plain_f32, f32, i32);

/// One pass that keeps the slices, and compares with the greatest only what is not below the least.
fn plain_strings(bits: Option<&[u8]>, bytes: &[u8], offsets: &[u32]) -> (u64, Option<(usize, usize)>) {
    let mut nulls = 0;
    let mut extremes: Option<(usize, &[u8], usize, &[u8])> = None;
    for row in 0..offsets.len() - 1 {
        if bits.is_some_and(|bits| !is_valid(bits, row)) {
            nulls += 1;
            continue;
        }
        let value = &bytes[offsets[row] as usize..offsets[row + 1] as usize];
        match &mut extremes {
            None => extremes = Some((row, value, row, value)),
            Some((least, low, greatest, high)) => {
                if value < *low {
                    (*least, *low) = (row, value);
                } else if value > *high {
                    (*greatest, *high) = (row, value);
                }
            }
        }
    }
    (nulls, extremes.map(|(least, _, greatest, _)| (least, greatest)))
}

fn plain_cast(bits: Option<&[u8]>, values: &[i64], room: &mut [i32]) -> Result<(), usize> {
    match bits {
        None => {
            for (row, value) in values.iter().enumerate() {
                room[row] = i32::try_from(*value).map_err(|_| row)?;
            }
        }
        Some(bits) => {
            for (row, value) in values.iter().enumerate() {
                room[row] = if is_valid(bits, row) { i32::try_from(*value).map_err(|_| row)? } else { 0 };
            }
        }
    }
    Ok(())
}

/// Statistics of numbers, as columns_statistics writes them.
fn told<T: Into<i128>>((nulls, extremes): (u64, Option<(T, T)>)) -> [u64; 3] {
    let (least, greatest) = extremes.map_or((0, 0), |(least, greatest)| (least.into() as u64, greatest.into() as u64));
    [nulls, least, greatest]
}

fn plain_float(word: &[u8]) -> Option<u64> {
    let float: f64 = std::str::from_utf8(word).ok()?.parse().ok()?;
    let size = float.abs().to_bits();
    Some(if float.is_sign_negative() { size.wrapping_neg() } else { size })
}

fn digit(byte: u8) -> Option<i64> {
    byte.is_ascii_digit().then(|| i64::from(byte - b'0'))
}

/// Of at most 18 digits, two of them behind the point.
fn plain_decimal(word: &[u8]) -> Option<u64> {
    let (is_negative, digits) = word.strip_prefix(b"-").map_or((false, word), |digits| (true, digits));
    let point = digits.iter().position(|byte| *byte == b'.').unwrap_or(digits.len());
    let (whole, fraction) = (&digits[..point], digits.get(point + 1..).unwrap_or(&[]));
    if whole.is_empty() || fraction.len() > 2 || whole.len() > 16 {
        return None;
    }
    let mut value = 0;
    for byte in whole.iter().chain(fraction) {
        value = value * 10 + digit(*byte)?;
    }
    for _ in fraction.len()..2 {
        value *= 10;
    }
    Some(if is_negative { -value } else { value } as u64)
}

/// Days since 1970-01-01.
fn plain_day(word: &[u8]) -> Option<u64> {
    let [a, b, c, d, b'-', e, f, b'-', g, h] = *word else { return None };
    let year = digit(a)? * 1000 + digit(b)? * 100 + digit(c)? * 10 + digit(d)?;
    let (month, day) = (digit(e)? * 10 + digit(f)?, digit(g)? * 10 + digit(h)?);
    let is_leap = year % 4 == 0 && (year % 100 != 0 || year % 400 == 0);
    let days = match month {
        2 => 28 + i64::from(is_leap),
        4 | 6 | 9 | 11 => 30,
        1..=12 => 31,
        _ => return None,
    };
    if day < 1 || day > days {
        return None;
    }
    let (year, month) = if month > 2 { (year, month - 3) } else { (year - 1, month + 9) };
    let leaps = year.div_euclid(4) - year.div_euclid(100) + year.div_euclid(400);
    Some((365 * year + leaps + (153 * month + 2) / 5 + day - 1 - 719_468) as u64)
}

/// How many words have no storage, and a sum of the storages of the others.
fn read_words(data: &Data, storage: impl Fn(&[u8]) -> Option<u64>) -> [u64; 3] {
    let (mut refused, mut sum) = (0, 0u64);
    for ends in data.offsets.windows(2) {
        match storage(&data.bytes[ends[0] as usize..ends[1] as usize]) {
            Some(storage) => sum = sum.wrapping_mul(31).wrapping_add(storage),
            None => refused += 1,
        }
    }
    [refused, sum, 0]
}

fn our_word(logical: u8, word: &[u8]) -> Option<u64> {
    let mut storage = 0;
    let status = unsafe { columns_word(logical, word.as_ptr(), word.len(), &mut storage, 1) };
    (status == 0).then_some(storage)
}

/// What is counted: all that it calls.
#[inline(never)]
#[unsafe(no_mangle)]
extern "Rust" fn measured(call: &mut dyn FnMut()) {
    call()
}

fn main() {
    let words: Vec<String> = env::args().collect();
    let (who, what) = (words[1].as_str(), words[2].as_str());
    let (count, runs): (usize, u32) = (words[3].parse().unwrap(), words[4].parse().unwrap());
    let data = data(what, count);
    let bits = what.ends_with("nulls").then_some(data.bits.as_slice());
    let kind = what.split('_').next().unwrap();
    let (code, values) = match kind {
        "i64" | "cast" | "front" => (I64, bytes_of(&data.wide)),
        "i32" => (I32, bytes_of(&data.narrow)),
        "f64" => (F64, bytes_of(&data.doubles)),
        "f32" => (F32, bytes_of(&data.singles)),
        "date32" => (DATE32, bytes_of(&data.dates)),
        "decimal128" => (DECIMAL128, bytes_of(&data.long)),
        _ if what.contains("letters") => (UTF8, data.bytes.as_slice()),
        _ => (BINARY, data.bytes.as_slice()),
    };
    let (validity, offsets) = (bits.unwrap_or(&[]), bytes_of(&data.offsets));
    let column = Column { kind: code, precision: 38, scale: 2, validity, values, offsets, offset: 0, length: count };
    let mut room = vec![0i32; count];
    let mut out = [0u64; 3];
    let mut status = 0;
    let turns: Vec<bool> = [true, false].into_iter().filter(|ours| who != if *ours { "plain" } else { "ours" }).collect();
    let mut best = vec![f64::INFINITY; turns.len()];
    for turn in (0..turns.len()).cycle().take(turns.len() * runs as usize) {
        let ours = turns[turn];
        let start = Instant::now();
        measured(&mut || match (ours, kind) {
            (true, "cast" | "front") => {
                status = unsafe { columns_cast(&column, I32, kind == "front", room.as_mut_ptr().cast(), 4 * count) }
            }
            (true, "floats" | "doubles") => out = read_words(&data, |word| our_word(0, word)),
            (true, "decimals") => out = read_words(&data, |word| our_word(1, word)),
            (true, "days") => out = read_words(&data, |word| our_word(2, word)),
            (false, "floats" | "doubles") => out = read_words(&data, plain_float),
            (false, "decimals") => out = read_words(&data, plain_decimal),
            (false, "days") => out = read_words(&data, plain_day),
            (true, "check") => status = unsafe { columns_check(&column) },
            (true, _) => status = unsafe { columns_statistics(&column, out.as_mut_ptr(), 3) },
            (false, "i64") => out = told(plain_i64(bits, &data.wide)),
            (false, "i32") => out = told(plain_i32(bits, &data.narrow)),
            (false, "f64") => out = told(plain_f64(bits, &data.doubles)),
            (false, "f32") => out = told(plain_f32(bits, &data.singles)),
            (false, "date32") => out = told(plain_i32(bits, &data.dates)),
            (false, "decimal128") => out = told(plain_i128(bits, &data.long)),
            (false, "cast" | "front") => status = plain_cast(bits, &data.wide, &mut room).map_or_else(|row| row as u32 + 1, |()| 0),
            (false, "check") => {}
            (false, _) => {
                let (nulls, extremes) = plain_strings(bits, &data.bytes, &data.offsets);
                out = [nulls, extremes.map_or(0, |e| e.0 as u64), extremes.map_or(0, |e| e.1 as u64)];
            }
        });
        best[turn] = best[turn].min(start.elapsed().as_secs_f64());
    }
    let sum = black_box(&room).iter().fold(0u64, |sum, value| sum.wrapping_mul(31).wrapping_add(*value as u64));
    println!("{status} {out:?} {sum}");
    for seconds in best {
        eprintln!("{:.3}", seconds * 1e9 / count as f64);
    }
}
