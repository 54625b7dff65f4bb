// SPDX-License-Identifier: Apache-2.0
//! Writes the benchmark's lines: as many as the first word on the command line says, casts alone, or
//! with `all` after it a third of each command.

use std::io::{self, Write};

/// A small generator of numbers, the same at each run.
struct Numbers(u64);

impl Numbers {
    fn next(&mut self) -> u64 {
        self.0 ^= self.0 << 13;
        self.0 ^= self.0 >> 7;
        self.0 ^= self.0 << 17;
        self.0
    }

    fn below(&mut self, end: u64) -> u64 {
        (self.next() >> 11) % end
    }

    fn of<T: Copy>(&mut self, items: &[T]) -> T {
        items[self.below(items.len() as u64) as usize]
    }
}

const KINDS: [(&str, i128, i128); 8] = [
    ("u8", 0, u8::MAX as i128),
    ("u16", 0, u16::MAX as i128),
    ("u32", 0, u32::MAX as i128),
    ("u64", 0, u64::MAX as i128),
    ("i8", i8::MIN as i128, i8::MAX as i128),
    ("i16", i16::MIN as i128, i16::MAX as i128),
    ("i32", i32::MIN as i128, i32::MAX as i128),
    ("i64", i64::MIN as i128, i64::MAX as i128),
];

const BAD_LINES: [&str; 8] = [
    "hello",
    "",
    "cast  i8 1 i64",
    "cast u16 +1 u8",
    "cast f32 1 u8",
    "cast i8 1 i64 ",
    "cast u8",
    "lower 2 005",
];

/// A number of any size up to 64 bits: small ones are as frequent as large ones.
fn number(numbers: &mut Numbers) -> i128 {
    let size = i128::from(numbers.next() >> numbers.below(64));
    if numbers.below(3) == 0 { -size } else { size }
}

/// A byte: the greatest is frequent, so that carries go on.
fn byte(numbers: &mut Numbers) -> u64 {
    if numbers.below(3) == 0 {
        255
    } else {
        numbers.below(256)
    }
}

/// A bound of a string of up to 32 bytes.
fn bound(numbers: &mut Numbers) -> String {
    let command = numbers.of(&["lower", "upper"]);
    let size = numbers.below(24);
    let length = numbers.below(33);
    let hex: String = (0..length)
        .map(|_| format!("{:02x}", byte(numbers)))
        .collect();
    format!("{command} {size} {hex}")
}

fn line(numbers: &mut Numbers, all: bool) -> String {
    if numbers.below(10) == 0 {
        return numbers.of(&BAD_LINES).to_string();
    }
    if all && numbers.below(3) > 0 {
        return bound(numbers);
    }
    let (from, least, greatest) = numbers.of(&KINDS);
    let (to, _, _) = numbers.of(&KINDS);
    let any = number(numbers);
    let number = match numbers.below(5) {
        0 => any,
        1 => any.clamp(least, greatest),
        _ => least + (any - least).rem_euclid(greatest - least + 1),
    };
    format!("cast {from} {number} {to}")
}

fn main() -> io::Result<()> {
    let count = std::env::args().nth(1).and_then(|word| word.parse().ok());
    let all = std::env::args().nth(2).is_some();
    let mut numbers = Numbers(0x9e37_79b9_7f4a_7c15);
    let mut text = String::new();
    for _ in 0..count.unwrap_or(200_000) {
        text.push_str(&line(&mut numbers, all));
        text.push('\n');
    }
    io::stdout().write_all(text.as_bytes())
}
