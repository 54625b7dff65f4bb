// SPDX-License-Identifier: Apache-2.0
//! The plain Rust program that a user would write in place of `scalar_rows`.

use std::fmt::{self, Write as _};
use std::io::{self, Read, Write};
use std::process::ExitCode;

#[derive(Clone, Copy)]
enum Kind {
    U8,
    U16,
    U32,
    U64,
    I8,
    I16,
    I32,
    I64,
}

impl Kind {
    fn named(word: &[u8]) -> Option<Kind> {
        Some(match word {
            b"u8" => Kind::U8,
            b"u16" => Kind::U16,
            b"u32" => Kind::U32,
            b"u64" => Kind::U64,
            b"i8" => Kind::I8,
            b"i16" => Kind::I16,
            b"i32" => Kind::I32,
            b"i64" => Kind::I64,
            _ => return None,
        })
    }

    fn name(self) -> &'static str {
        match self {
            Kind::U8 => "u8",
            Kind::U16 => "u16",
            Kind::U32 => "u32",
            Kind::U64 => "u64",
            Kind::I8 => "i8",
            Kind::I16 => "i16",
            Kind::I32 => "i32",
            Kind::I64 => "i64",
        }
    }

    fn has(self, number: i128) -> bool {
        match self {
            Kind::U8 => u8::try_from(number).is_ok(),
            Kind::U16 => u16::try_from(number).is_ok(),
            Kind::U32 => u32::try_from(number).is_ok(),
            Kind::U64 => u64::try_from(number).is_ok(),
            Kind::I8 => i8::try_from(number).is_ok(),
            Kind::I16 => i16::try_from(number).is_ok(),
            Kind::I32 => i32::try_from(number).is_ok(),
            Kind::I64 => i64::try_from(number).is_ok(),
        }
    }
}

enum Answer {
    BadLine,
    Refused,
    Number(i128, Kind),
    Bytes(Vec<u8>),
    NoBound,
}

impl fmt::Display for Answer {
    fn fmt(&self, f: &mut fmt::Formatter<'_>) -> fmt::Result {
        match self {
            Answer::BadLine => f.write_str("bad line"),
            Answer::Refused => f.write_str("refused"),
            Answer::Number(number, kind) => write!(f, "{number}{}", kind.name()),
            Answer::Bytes(bytes) => bytes.iter().try_for_each(|byte| write!(f, "{byte:02x}")),
            Answer::NoBound => f.write_str("none"),
        }
    }
}

fn number(word: &[u8]) -> Option<i128> {
    let digits = word.strip_prefix(b"-").unwrap_or(word);
    if digits.is_empty() || digits.len() > 20 || !digits.iter().all(u8::is_ascii_digit) {
        return None;
    }
    std::str::from_utf8(word).ok()?.parse().ok()
}

fn size(word: &[u8]) -> Option<u64> {
    if word.is_empty() || word.len() > 18 || !word.iter().all(u8::is_ascii_digit) {
        return None;
    }
    std::str::from_utf8(word).ok()?.parse().ok()
}

fn hex(word: &[u8]) -> Option<Vec<u8>> {
    if word.len() % 2 == 1 {
        return None;
    }
    let digit = |byte: u8| char::from(byte).to_digit(16);
    word.chunks_exact(2)
        .map(|pair| Some((digit(pair[0])? * 16 + digit(pair[1])?) as u8))
        .collect()
}

fn upper(bytes: &[u8]) -> Option<Vec<u8>> {
    let mut bound = bytes.to_vec();
    for byte in bound.iter_mut().rev() {
        let (next, wrapped) = byte.overflowing_add(1);
        *byte = next;
        if !wrapped {
            return Some(bound);
        }
    }
    None
}

fn bound<'a>(mut words: impl Iterator<Item = &'a [u8]>, is_upper: bool) -> Option<Answer> {
    let size = size(words.next()?)?;
    let mut bytes = hex(words.next()?)?;
    if words.next().is_some() {
        return None;
    }
    if bytes.len() as u64 <= size {
        return Some(Answer::Bytes(bytes));
    }
    bytes.truncate(size as usize);
    if is_upper {
        return Some(upper(&bytes).map_or(Answer::NoBound, Answer::Bytes));
    }
    Some(Answer::Bytes(bytes))
}

fn answer(line: &[u8]) -> Option<Answer> {
    let mut words = line.split(|b| *b == b' ');
    match words.next()? {
        b"cast" => cast(words),
        b"lower" => bound(words, false),
        b"upper" => bound(words, true),
        _ => None,
    }
}

fn cast<'a>(mut words: impl Iterator<Item = &'a [u8]>) -> Option<Answer> {
    let from = Kind::named(words.next()?)?;
    let number = number(words.next()?)?;
    let to = Kind::named(words.next()?)?;
    if words.next().is_some() || !from.has(number) {
        return None;
    }
    Some(if to.has(number) {
        Answer::Number(number, to)
    } else {
        Answer::Refused
    })
}

fn rows(input: &[u8]) -> String {
    let mut output = String::new();
    let text = input.strip_suffix(b"\n").unwrap_or(input);
    if input.is_empty() {
        return output;
    }
    for line in text.split(|b| *b == b'\n') {
        let answer = answer(line).unwrap_or(Answer::BadLine);
        let _ = writeln!(output, "{answer}");
    }
    output
}

fn run() -> Result<(), &'static str> {
    let mut input = Vec::new();
    io::stdin()
        .read_to_end(&mut input)
        .map_err(|_| "read failed")?;
    let output = rows(&input);
    let mut out = io::stdout().lock();
    out.write_all(output.as_bytes())
        .and_then(|()| out.flush())
        .map_err(|_| "write failed")
}

fn main() -> ExitCode {
    match run() {
        Ok(()) => ExitCode::SUCCESS,
        Err(fault) => {
            eprintln!("{fault}");
            ExitCode::FAILURE
        }
    }
}
