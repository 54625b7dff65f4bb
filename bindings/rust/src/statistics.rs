// SPDX-License-Identifier: Apache-2.0
// SPDX-FileCopyrightText: Copyright the Vortex contributors; ported to Rattle and changed
//! Statistics of columns.

use crate::{Column, ColumnFault, Item, Kind, out_of_memory, raw};
use std::fmt;

/// Why there are no statistics.
#[derive(Clone, Copy, Debug, PartialEq, Eq)]
pub enum StatisticsError {
    /// Bytes are not the encoding of statistics of the kind: this one is the first such byte.
    BadBytes(usize),
    /// 64 bits do not count the rows.
    TooManyRows,
    /// The two are of columns of other kinds.
    KindsDiffer,
    /// A bound is of no value of the logical type.
    NotAValue,
}

impl fmt::Display for StatisticsError {
    fn fmt(&self, f: &mut fmt::Formatter<'_>) -> fmt::Result {
        match self {
            StatisticsError::BadBytes(place) => write!(f, "byte {place} is not of the encoding"),
            StatisticsError::TooManyRows => f.write_str("64 bits do not count the rows"),
            StatisticsError::KindsDiffer => f.write_str("the two are of other kinds"),
            StatisticsError::NotAValue => f.write_str("a bound is of no value of the kind"),
        }
    }
}

impl std::error::Error for StatisticsError {}

/// How many rows a column has, how many are null, and bounds of the others.
///
/// A bound that is exact is a value of the column; else it is only a bound. Statistics of parts, merged in any grouping, are
/// those of the whole. Of floats NaN is the greatest value.
///
/// ```
/// use doqallin::{Column, Item, Statistics};
///
/// let first = Statistics::of(&Column::utf8(b"bergenmoss", &[0, 6, 10]), 16)?;
/// let second = Statistics::of(&Column::utf8(b"oslo", &[0, 4]), 16)?;
/// let both = first.merge(&second)?;
/// assert_eq!(both.upper(), Some(&Item::Utf8("oslo".into())));
/// assert_eq!(Statistics::from_bytes(doqallin::Kind::Utf8, both.as_bytes())?, both);
/// # Ok::<(), Box<dyn std::error::Error>>(())
/// ```
#[derive(Clone, Debug, PartialEq, Eq)]
pub struct Statistics {
    kind: Kind,
    bytes: Vec<u8>,
    row_count: u64,
    null_count: Option<u64>,
    lower: Option<Item>,
    upper: Option<Item>,
    lower_is_exact: bool,
    upper_is_exact: bool,
}

impl Statistics {
    /// The statistics of a column, with bounds that are strings or bytes cut to `max_bytes` bytes.
    pub fn of(column: &Column<'_>, max_bytes: usize) -> Result<Statistics, ColumnFault> {
        let mut buffer = vec![0; 32 + 4 * max_bytes.min(256)];
        let mut fault = raw::Fault::default();
        let bytes = loop {
            let mut count = 0;
            // SAFETY: the column's pointers and lengths are of slices; the buffer, `count` and `fault` are places of their own.
            let status = unsafe {
                raw::doqallin_column_statistics(
                    &column.raw(),
                    max_bytes,
                    buffer.as_mut_ptr(),
                    buffer.len(),
                    &mut count,
                    &mut fault,
                )
            };
            match status {
                raw::GIVEN => break &buffer[..count],
                raw::BUFFER_TOO_SMALL => buffer.resize(count, 0),
                other => return Err(ColumnFault::of(other, fault.place)),
            }
        };
        Ok(Statistics::from_bytes(column.kind(), bytes).expect("these are statistics of the kind"))
    }

    /// The statistics of a column of this kind that the bytes are. Bytes from anywhere are safe to read.
    ///
    /// What was written of integers is read as any kind of integers that has its bounds. Statistics of a logical type name it, and
    /// are of no other; decimals of one precision and scale are one type, whatever their width.
    pub fn from_bytes(kind: Kind, bytes: &[u8]) -> Result<Statistics, StatisticsError> {
        // So many bytes always suffice.
        let buffer = bytes.len().max(16);
        let (mut lower, mut upper) = (vec![0; buffer], vec![0; buffer]);
        let (mut parts, mut fault) = (raw::Statistics::default(), raw::Fault::default());
        // SAFETY: each pointer and length are of one slice; the buffers, `parts` and `fault` are places of their own.
        let status = unsafe {
            raw::doqallin_read_typed(
                &kind.code(),
                bytes.as_ptr(),
                bytes.len(),
                lower.as_mut_ptr(),
                buffer,
                upper.as_mut_ptr(),
                buffer,
                &mut parts,
                &mut fault,
            )
        };
        match status {
            raw::GIVEN => {}
            raw::BAD_BYTES => return Err(StatisticsError::BadBytes(fault.place)),
            raw::NOT_A_VALUE => return Err(StatisticsError::NotAValue),
            raw::NO_MEMORY => out_of_memory(bytes.len()),
            other => unreachable!("status {other}: the buffers suffice"),
        }
        let bound = |is_there: bool, buffer: &[u8], length: usize| {
            is_there.then(|| Item::of(kind, &buffer[..length]))
        };
        Ok(Statistics {
            kind,
            bytes: bytes.to_vec(),
            row_count: parts.row_count,
            null_count: parts.has_null_count.then_some(parts.null_count),
            lower: bound(parts.has_lower, &lower, parts.lower_length),
            upper: bound(parts.has_upper, &upper, parts.upper_length),
            lower_is_exact: parts.lower_is_exact,
            upper_is_exact: parts.upper_is_exact,
        })
    }

    /// The statistics of both columns together, which are of one kind.
    pub fn merge(&self, other: &Statistics) -> Result<Statistics, StatisticsError> {
        if self.kind.general() != other.kind.general() {
            return Err(StatisticsError::KindsDiffer);
        }
        // Each bound is that of one of the two.
        let mut buffer = vec![0; self.bytes.len() + other.bytes.len()];
        let (mut count, mut fault) = (0, raw::Fault::default());
        // SAFETY: each pointer and length are of one slice; the buffer, `count` and `fault` are places of their own.
        let status = unsafe {
            raw::doqallin_merge_typed(
                &self.kind.code(),
                self.bytes.as_ptr(),
                self.bytes.len(),
                other.bytes.as_ptr(),
                other.bytes.len(),
                buffer.as_mut_ptr(),
                buffer.len(),
                &mut count,
                &mut fault,
            )
        };
        match status {
            raw::GIVEN => Statistics::from_bytes(self.kind, &buffer[..count]),
            raw::TOO_MANY_ROWS => Err(StatisticsError::TooManyRows),
            raw::NO_MEMORY => out_of_memory(buffer.len()),
            other => unreachable!("status {other} of two statistics"),
        }
    }

    /// The stable encoding, for a file or another program.
    #[must_use]
    pub fn as_bytes(&self) -> &[u8] {
        &self.bytes
    }

    /// The kind of the column.
    #[must_use]
    pub fn kind(&self) -> Kind {
        self.kind
    }

    /// How many rows there are.
    #[must_use]
    pub fn row_count(&self) -> u64 {
        self.row_count
    }

    /// How many rows are null, if that is known.
    #[must_use]
    pub fn null_count(&self) -> Option<u64> {
        self.null_count
    }

    /// No value is below it.
    #[must_use]
    pub fn lower(&self) -> Option<&Item> {
        self.lower.as_ref()
    }

    /// No value is above it.
    #[must_use]
    pub fn upper(&self) -> Option<&Item> {
        self.upper.as_ref()
    }

    /// Whether some value is the lower bound.
    #[must_use]
    pub fn lower_is_exact(&self) -> bool {
        self.lower_is_exact
    }

    /// Whether some value is the upper bound.
    #[must_use]
    pub fn upper_is_exact(&self) -> bool {
        self.upper_is_exact
    }
}
