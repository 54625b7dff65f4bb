// SPDX-License-Identifier: Apache-2.0
// SPDX-FileCopyrightText: Copyright the Vortex contributors; ported to Rattle and changed
//! Bounds of a whole column, in one call. Deprecated: [`Statistics`](crate::Statistics) have them, and count the nulls apart.

use crate::{ZoneBounds, out_of_memory, raw};
use std::fmt;

/// Why a column has no bounds.
#[derive(Clone, Copy, Debug, PartialEq, Eq)]
pub enum ColumnError {
    /// An offset is below the one before it, or past the end of the bytes.
    BadOffsets,
    /// The least or the greatest value is not UTF-8: it does not begin or end where a character does.
    NotUtf8,
}

impl fmt::Display for ColumnError {
    fn fmt(&self, f: &mut fmt::Formatter<'_>) -> fmt::Result {
        f.write_str(match self {
            ColumnError::BadOffsets => "an offset goes down, or past the end of the bytes",
            ColumnError::NotUtf8 => "the least or the greatest value is not UTF-8",
        })
    }
}

impl std::error::Error for ColumnError {}

/// The bounds at n bytes of a column of bytes, from its least value to its greatest one; `None` if it has no values.
///
/// Deprecated, since a null counts as empty bytes: [`Statistics::of`](crate::Statistics::of) has the bounds, and counts the
/// nulls.
///
/// Value k is the bytes from `offsets[k]` to `offsets[k + 1]`, so that m values have m + 1 offsets.
///
/// ```
/// let bounds = doqallin::column_bounds(b"pearapplefig", &[0, 4, 9, 12], 2)?.expect("three values");
/// assert_eq!(bounds.lower(), b"ap");
/// assert_eq!(bounds.upper(), Some(&b"pf"[..]));
/// # Ok::<(), doqallin::ColumnError>(())
/// ```
pub fn column_bounds(
    bytes: &[u8],
    offsets: &[u64],
    n: usize,
) -> Result<Option<ZoneBounds<[u8]>>, ColumnError> {
    let bounds = bounds_of(raw::doqallin_column_bounds_bytes, bytes, offsets, n)?;
    Ok(bounds.map(|(lower, upper)| ZoneBounds::from_parts(lower, upper)))
}

/// The bounds at n bytes of a column of strings, by whole characters; `None` if it has no values.
///
/// Deprecated, since a null counts as an empty string: [`Statistics::of`](crate::Statistics::of) has the bounds, and counts the
/// nulls.
///
/// The offsets count bytes. `NotUtf8` comes if the least or the greatest value does not begin or end where a character does.
pub fn column_bounds_text(
    text: &str,
    offsets: &[u64],
    n: usize,
) -> Result<Option<ZoneBounds<str>>, ColumnError> {
    let bounds = bounds_of(
        raw::doqallin_column_bounds_text,
        text.as_bytes(),
        offsets,
        n,
    )?;
    let of_string = |bytes| String::from_utf8(bytes).expect("the bound of a string is one");
    Ok(bounds.map(|(lower, upper)| ZoneBounds::from_parts(of_string(lower), upper.map(of_string))))
}

/// The lower bound, and the upper one if there is one.
type Bounds = (Vec<u8>, Option<Vec<u8>>);

fn bounds_of(
    call: raw::Column,
    bytes: &[u8],
    offsets: &[u64],
    n: usize,
) -> Result<Option<Bounds>, ColumnError> {
    // So many bytes always suffice.
    let buffer = n.min(bytes.len());
    let (mut lower, mut upper) = (vec![0; buffer], vec![0; buffer]);
    let mut lengths = raw::BoundLengths::default();
    // SAFETY: each pointer and length are of one slice, and the buffers and `lengths` are places of their own.
    let status = unsafe {
        call(
            bytes.as_ptr(),
            bytes.len(),
            offsets.as_ptr(),
            offsets.len(),
            n,
            lower.as_mut_ptr(),
            lower.len(),
            upper.as_mut_ptr(),
            upper.len(),
            &mut lengths,
        )
    };
    match status {
        raw::GIVEN => {
            lower.truncate(lengths.lower);
            upper.truncate(lengths.upper);
            Ok(Some((lower, lengths.has_upper.then_some(upper))))
        }
        raw::NONE => Ok(None),
        raw::BAD_OFFSETS => Err(ColumnError::BadOffsets),
        raw::NOT_UTF8 => Err(ColumnError::NotUtf8),
        raw::NO_MEMORY => out_of_memory(buffer),
        other => unreachable!("status {other}: the buffers suffice"),
    }
}
