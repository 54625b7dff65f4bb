// SPDX-License-Identifier: Apache-2.0
// SPDX-FileCopyrightText: Copyright the Vortex contributors; ported to Rattle and changed
//! Calls a second through the boundary, beside plain Rust; or one of the two on a column of a million strings, `column ours`
//! or `column plain`, whose instructions bench/bindings counts.

use doqallin::*;
use std::hint::black_box;
use std::time::Instant;

/// The seconds of one call: the best of five rounds.
fn seconds(mut call: impl FnMut()) -> f64 {
    const CALLS: u32 = 1_000_000;
    let round = |_| {
        let start = Instant::now();
        (0..CALLS).for_each(|_| call());
        start.elapsed().as_secs_f64() / f64::from(CALLS)
    };
    (0..5).map(round).fold(f64::MAX, f64::min)
}

fn compare(name: &str, ours: impl FnMut(), plain: impl FnMut()) {
    let (ours, plain) = (seconds(ours), seconds(plain));
    println!(
        "Rust, {name}: {:.1} million calls a second, {:.2} of the time of plain Rust",
        1e-6 / ours,
        ours / plain
    );
}

fn plain_upper(value: &[u8], n: usize) -> Option<Vec<u8>> {
    if value.len() <= n {
        return Some(value.to_vec());
    }
    let mut bound = value[..n].to_vec();
    let last = bound.iter().rposition(|byte| *byte != 255)?;
    bound[last] += 1;
    bound[last + 1..].fill(0);
    Some(bound)
}

fn plain_lower_text(value: &str, n: usize) -> &str {
    &value[..value.floor_char_boundary(n)]
}

fn plain_upper_text(value: &str, n: usize) -> Option<String> {
    if value.len() <= n {
        return Some(value.to_string());
    }
    let mut bound = plain_lower_text(value, n).to_string();
    let last = bound.pop()?;
    let next = char::from_u32(last as u32 + 1).filter(|next| next.len_utf8() == last.len_utf8())?;
    bound.push(next);
    Some(bound)
}

fn calls() {
    let bytes: Vec<u8> = (0..200).collect();
    let text = "añ€𐍈".repeat(20);
    let zone = ZoneBounds::<str>::of("apple pie", "banana split", 16);
    let literal = "cherry";
    compare(
        "cast",
        || _ = black_box(cast::<i64, i16>(black_box(1000))),
        || _ = black_box(i16::try_from(black_box(1000i64))),
    );
    compare(
        "lower bound of 200 bytes at 16",
        || _ = black_box(lower_bound(black_box(&bytes), 16)),
        || _ = black_box(&black_box(&bytes[..])[..16]),
    );
    compare(
        "upper bound of 200 bytes at 16",
        || _ = black_box(upper_bound(black_box(&bytes), 16)),
        || _ = black_box(plain_upper(black_box(&bytes), 16)),
    );
    compare(
        "lower bound of a string of 200 bytes at 16",
        || _ = black_box(lower_bound_text(black_box(&text), 16)),
        || _ = black_box(plain_lower_text(black_box(&text), 16)),
    );
    compare(
        "upper bound of a string of 200 bytes at 16",
        || _ = black_box(upper_bound_text(black_box(&text), 16)),
        || _ = black_box(plain_upper_text(black_box(&text), 16)),
    );
    compare(
        "a literal and a zone",
        || _ = black_box(zone.may_contain(black_box(literal))),
        || {
            _ = black_box(
                black_box(literal) >= zone.lower()
                    && zone.upper().is_none_or(|upper| literal <= upper),
            )
        },
    );
}

/// A million strings of 4 to 28 letters each, after the same beginning.
fn strings(beginning: &str) -> (String, Vec<u64>) {
    let mut state = 88_172_645_463_325_252u64;
    let mut next = || {
        state ^= state << 13;
        state ^= state >> 7;
        state ^= state << 17;
        state
    };
    let (mut all, mut offsets) = (String::new(), vec![0]);
    for _ in 0..1_000_000 {
        all.push_str(beginning);
        for _ in 0..4 + next() % 25 {
            all.push(char::from(b'a' + (next() % 26) as u8));
        }
        offsets.push(all.len() as u64);
    }
    (all, offsets)
}

fn column(of: &str, beginning: &str) {
    let (all, offsets) = strings(beginning);
    let found = match of {
        "ours" => column_bounds_text(&all, &offsets, 16).unwrap(),
        "plain" => {
            let value = |k: usize| &all[offsets[k] as usize..offsets[k + 1] as usize];
            let least = (0..offsets.len() - 1).map(value).min().unwrap();
            let greatest = (0..offsets.len() - 1).map(value).max().unwrap();
            let lower = plain_lower_text(least, 16).to_string();
            Some(ZoneBounds::from_parts(
                lower,
                plain_upper_text(greatest, 16),
            ))
        }
        _ => None,
    };
    let bounds = found.map(|found| format!("{:?} to {:?}", found.lower(), found.upper()));
    println!("{}", bounds.unwrap_or_default());
}

fn main() {
    let words: Vec<String> = std::env::args().skip(1).collect();
    match &words[..] {
        [column_word, of, beginning] if column_word == "column" => column(of, beginning),
        _ => calls(),
    }
}
