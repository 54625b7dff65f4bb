// SPDX-License-Identifier: Apache-2.0
//! Three ways to write a string so that bytes sort as strings do, each as plain Rust: `string_schemes SCHEME LENGTH COUNT` writes
//! a string of so many letters so often and prints the size of one, and with a fourth word it reads each back too.
//!
//! - `zeros`: byte 0 is 0 255, and 0 0 ends the string, as in several stores.
//! - `pairs`: bytes 0 and 1 are 1 1 and 1 2, and 0 ends the string, as in docs/KEYS.md.
//! - `blocks`: four blocks of 8, then blocks of 32, each with a byte that says how full it is, or that more follow.

use std::hint::black_box;

type Encode = fn(&[u8], &mut Vec<u8>);
type Decode = fn(&[u8], &mut Vec<u8>) -> usize;

/// A string without bytes to escape, which is tested at once, is copied whole.
fn append_escaped(mut text: &[u8], most: u8, escape: impl Fn(u8) -> [u8; 2], out: &mut Vec<u8>) {
    if text.iter().fold(255, |least, byte| least.min(*byte)) > most {
        return out.extend_from_slice(text);
    }
    while let Some(place) = text.iter().position(|byte| *byte <= most) {
        out.extend_from_slice(&text[..place]);
        out.extend_from_slice(&escape(text[place]));
        text = &text[place + 1..];
    }
    out.extend_from_slice(text);
}

fn encode_zeros(text: &[u8], out: &mut Vec<u8>) {
    append_escaped(text, 0, |_| [0, 255], out);
    out.extend_from_slice(&[0, 0]);
}

fn encode_pairs(text: &[u8], out: &mut Vec<u8>) {
    append_escaped(text, 1, |byte| [1, byte + 1], out);
    out.push(0);
}

/// The sizes of blocks.
fn sizes() -> impl Iterator<Item = usize> {
    [8; 4].into_iter().chain(std::iter::repeat(32))
}

fn encode_blocks(mut text: &[u8], out: &mut Vec<u8>) {
    if text.is_empty() {
        return out.push(1);
    }
    out.push(2);
    for size in sizes() {
        if text.len() > size {
            out.extend_from_slice(&text[..size]);
            out.push(255);
            text = &text[size..];
        } else {
            let end = out.len() + size;
            out.extend_from_slice(text);
            out.resize(end, 0);
            return out.push(text.len() as u8);
        }
    }
}

fn decode_escaped(
    key: &[u8],
    most: u8,
    unescape: impl Fn(u8, u8) -> Option<u8>,
    out: &mut Vec<u8>,
) -> usize {
    let mut at = 0;
    loop {
        let run = key[at..]
            .iter()
            .position(|byte| *byte <= most)
            .expect("an end");
        out.extend_from_slice(&key[at..at + run]);
        at += run + 1;
        match unescape(key[at - 1], key.get(at).copied().unwrap_or(0)) {
            Some(byte) => out.push(byte),
            None => return at,
        }
        at += 1;
    }
}

fn decode_zeros(key: &[u8], out: &mut Vec<u8>) -> usize {
    decode_escaped(key, 0, |_, next| (next == 255).then_some(0), out) + 1
}

fn decode_pairs(key: &[u8], out: &mut Vec<u8>) -> usize {
    decode_escaped(key, 1, |byte, next| (byte == 1).then(|| next - 1), out)
}

fn decode_blocks(key: &[u8], out: &mut Vec<u8>) -> usize {
    let mut at = 1;
    if key[0] == 1 {
        return at;
    }
    for size in sizes() {
        let count = key[at + size];
        let whole = count == 255;
        out.extend_from_slice(&key[at..at + if whole { size } else { count.into() }]);
        at += size + 1;
        if !whole {
            break;
        }
    }
    at
}

fn main() {
    let words: Vec<String> = std::env::args().skip(1).collect();
    let (encode, decode): (Encode, Decode) = match words[0].as_str() {
        "zeros" => (encode_zeros, decode_zeros),
        "pairs" => (encode_pairs, decode_pairs),
        _ => (encode_blocks, decode_blocks),
    };
    let text = vec![b'a'; words[1].parse().expect("a length")];
    let mut key = Vec::with_capacity(2 * text.len() + 64);
    let mut back = Vec::with_capacity(text.len() + 64);
    for _ in 0..words[2].parse().expect("a count") {
        key.clear();
        encode(black_box(&text), &mut key);
        black_box(&key);
        if words.len() > 3 {
            back.clear();
            assert_eq!(decode(&key, &mut back), key.len());
            assert_eq!(back, text);
        }
    }
    println!("{}", key.len());
}
