// SPDX-License-Identifier: Apache-2.0
// SPDX-FileCopyrightText: Copyright the Vortex contributors; ported to Rattle and changed
//! Nearly any call of the library, by a line of text.

use crate::{out_of_memory, raw};

/// How deep a line of `call` may nest.
const DEPTH: usize = 32;

/// The answer to a line: the name of a call and what it is given, as in the worked cases of crates/scalar_cases/stdin.
///
/// A refusal is an answer, `OutOfMemory` among them, and so is `bad line`, to a string that is no line. The answer is `TooDeep`
/// if more than 32 brackets nest in a type or a value, or connectives and parentheses in a filter. An arrow, ` => `, and what
/// follows it is passed over. Without memory for the line or for the answer the process ends, as at a `Vec`.
///
/// Needs the feature `call`.
///
/// ```
/// assert_eq!(doqallin::call("cast i32:1000i32 i16"), "i16:1000i16");
/// assert_eq!(doqallin::call("cast i32:1000i32 i8"), "CannotCast");
/// ```
#[must_use]
pub fn call(line: &str) -> String {
    call_within(line, DEPTH)
}

/// As [`call`], for lines that nest at most `depth` deep. Each level takes room on the stack: doqallin.h says how much.
///
/// ```
/// assert_eq!(doqallin::call_within("zero list(list(u8))", 1), "TooDeep");
/// assert_eq!(doqallin::call_within("zero list(list(u8))", 2), "list(list(u8)):[]");
/// ```
#[must_use]
pub fn call_within(line: &str, depth: usize) -> String {
    let mut buffer = vec![0; 256];
    loop {
        let mut count = 0;
        // SAFETY: each pointer and length are of one slice, and the buffer and `count` are places of their own.
        let status = unsafe {
            raw::doqallin_call_within(
                line.as_ptr(),
                line.len(),
                depth,
                buffer.as_mut_ptr(),
                buffer.len(),
                &mut count,
            )
        };
        match status {
            raw::GIVEN => {
                buffer.truncate(count);
                return String::from_utf8(buffer).expect("an answer is UTF-8");
            }
            raw::BUFFER_TOO_SMALL => buffer.resize(count, 0),
            raw::NO_MEMORY => out_of_memory(line.len()),
            other => unreachable!("status {other}"),
        }
    }
}
