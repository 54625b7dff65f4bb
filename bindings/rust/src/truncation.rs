// SPDX-License-Identifier: Apache-2.0
// SPDX-FileCopyrightText: Copyright the Vortex contributors; ported to Rattle and changed
//! Bounds of bytes and of strings.

use crate::{out_of_memory, raw};

/// The greatest bytes, at most n of them, that are not above the value: its first n bytes, or all if it has fewer.
///
/// ```
/// assert_eq!(doqallin::lower_bound(b"apple", 3), b"app");
/// ```
#[must_use]
pub fn lower_bound(value: &[u8], n: usize) -> &[u8] {
    // SAFETY: the pointer and the length are of one slice, which lives until the call returns.
    let count = unsafe { raw::doqallin_lower_bound_bytes(value.as_ptr(), value.len(), n) };
    &value[..count]
}

/// The longest beginning of whole characters and at most n bytes.
///
/// ```
/// assert_eq!(doqallin::lower_bound_text("añb", 2), "a");
/// ```
#[must_use]
pub fn lower_bound_text(value: &str, n: usize) -> &str {
    let mut count = 0;
    // SAFETY: the pointer and the length are of one string, and `count` is a place of its own.
    let status =
        unsafe { raw::doqallin_lower_bound_text(value.as_ptr(), value.len(), n, &mut count) };
    match status {
        raw::GIVEN => &value[..count],
        other => unreachable!("status {other} of a string"),
    }
}

/// The value if it has at most n bytes, and else the least n bytes above it; `None` if its first n bytes are all 255.
///
/// ```
/// assert_eq!(doqallin::upper_bound(b"apple", 3), Some(b"apq".to_vec()));
/// assert_eq!(doqallin::upper_bound(&[255, 255, 7], 2), None);
/// ```
#[must_use]
pub fn upper_bound(value: &[u8], n: usize) -> Option<Vec<u8>> {
    upper_of(raw::doqallin_upper_bound_bytes, value, n)
}

/// The value if it has at most n bytes, and else the least string above it of as many bytes as its lower bound.
///
/// `None` if the lower bound is empty, or if the code point after its last character is no character of as many bytes.
///
/// ```
/// assert_eq!(doqallin::upper_bound_text("añb", 3), Some("aò".to_string()));
/// ```
#[must_use]
pub fn upper_bound_text(value: &str, n: usize) -> Option<String> {
    let bound = upper_of(raw::doqallin_upper_bound_text, value.as_bytes(), n)?;
    Some(String::from_utf8(bound).expect("the bound of a string is one"))
}

fn upper_of(call: raw::Upper, value: &[u8], n: usize) -> Option<Vec<u8>> {
    // So many bytes always suffice.
    let mut buffer = vec![0; n.min(value.len())];
    let mut count = 0;
    // SAFETY: each pointer and length are of one slice, and the buffer and `count` are places of their own.
    let status = unsafe {
        call(
            value.as_ptr(),
            value.len(),
            n,
            buffer.as_mut_ptr(),
            buffer.len(),
            &mut count,
        )
    };
    match status {
        raw::GIVEN => {
            buffer.truncate(count);
            Some(buffer)
        }
        raw::NONE => None,
        raw::NO_MEMORY => out_of_memory(n.min(value.len())),
        other => unreachable!("status {other}: the buffer suffices"),
    }
}
