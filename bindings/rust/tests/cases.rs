// SPDX-License-Identifier: Apache-2.0
// SPDX-FileCopyrightText: Copyright the Vortex contributors; ported to Rattle and changed
//! The stored worked cases, by `call`.

use doqallin::{call, call_within};
use std::fs::read_to_string;

const CASES: &str = concat!(env!("CARGO_MANIFEST_DIR"), "/../../crates/scalar_cases");

/// How deep a stored case may nest.
const DEPTH: usize = 256;

/// Whether the call before an arrow of the line answers what follows it. A string in a line may have an arrow too.
fn is_right(line: &str) -> bool {
    line.match_indices(" => ")
        .any(|(at, arrow)| call_within(&line[..at], DEPTH) == line[at + arrow.len()..])
}

#[test]
fn stored_cases() {
    let lines = read_to_string(format!("{CASES}/stdin")).unwrap();
    let told = read_to_string(format!("{CASES}/stdout")).unwrap();
    let is_case = |line: &&str| !line.starts_with('#') && line.contains(" => ");
    let cases: Vec<&str> = lines.lines().filter(is_case).collect();
    assert_eq!(told, format!("{} cases, 0 wrong\n", cases.len()));
    let wrong: Vec<&str> = cases.into_iter().filter(|line| !is_right(line)).collect();
    assert!(wrong.is_empty(), "{wrong:#?}");
}

#[test]
fn an_answer_of_any_length() {
    for length in [0, 100, 248, 249, 250, 100_000] {
        let text = format!("utf8:\"{}\"", "a".repeat(length));
        assert_eq!(call(&format!("clone {text}")), text);
    }
}

#[test]
fn what_nests_too_deep() {
    let lists = |depth| format!("zero {}u8{}", "list(".repeat(depth), ")".repeat(depth));
    let negations = |depth| format!("check {}$1 = 1; i32; i32", "not ".repeat(depth));
    for depth in [1, 32, 500] {
        for line in [&lists as &dyn Fn(usize) -> String, &negations] {
            assert_ne!(call_within(&line(depth), depth), "TooDeep");
            assert_eq!(call_within(&line(depth + 1), depth), "TooDeep");
        }
    }
    assert_eq!(call(&negations(32)), "ok");
    assert_eq!(call(&negations(33)), "TooDeep");
    assert_eq!(call(&lists(100_000)), "TooDeep");
    assert_eq!(call_within("zero u8", 0), "u8:0u8");
}

#[test]
fn what_is_no_line() {
    for line in [
        "",
        "cast",
        "cast i32:1i32",
        "# cast i32:1i32 i8",
        "cast i32:1i32 i8\n",
        "\0",
    ] {
        assert_eq!(call(line), "bad line", "{line:?}");
    }
    assert_eq!(call("cast i32:1i32 i8 => 7"), "i8:1i8");
}
