// SPDX-License-Identifier: Apache-2.0
// SPDX-FileCopyrightText: Copyright the Vortex contributors; ported to Rattle and changed
//! Keys of rows: bytes that sort as the rows do.

use crate::arrow::{RawColumns, bytes_of, whole};
use crate::{Column, Item, Kind, RowsError, out_of_memory, raw};
use std::fmt;

/// How a column is sorted.
#[derive(Clone, Copy, Debug, PartialEq, Eq)]
pub struct SortOptions {
    /// Whether its greatest value comes first.
    pub descending: bool,
    /// Whether nulls come before all values, in either direction.
    pub nulls_first: bool,
}

impl Default for SortOptions {
    /// Ascending, with nulls first.
    fn default() -> SortOptions {
        SortOptions {
            descending: false,
            nulls_first: true,
        }
    }
}

fn option_bytes(options: &[SortOptions]) -> Vec<u8> {
    let byte = |of: &SortOptions| u8::from(of.descending) | u8::from(of.nulls_first) << 1;
    options.iter().map(byte).collect()
}

/// Why bytes are no keys of rows.
#[derive(Clone, Copy, Debug, PartialEq, Eq)]
pub enum KeysError {
    /// No key of the kinds has this byte, the first such one.
    BadBytes(usize),
    /// The offsets of this key go down, or past the end of the bytes.
    BadOffsets(usize),
    /// There are not as many options as kinds.
    WrongLength,
    /// The number that this key has for this column is of no value of its logical type.
    NotAValue {
        /// The column.
        column: usize,
        /// The key.
        row: usize,
    },
}

impl fmt::Display for KeysError {
    fn fmt(&self, f: &mut fmt::Formatter<'_>) -> fmt::Result {
        match self {
            KeysError::BadBytes(place) => write!(f, "no key of the kinds has byte {place}"),
            KeysError::BadOffsets(row) => {
                write!(f, "the offsets of key {row} go down, or past the end")
            }
            KeysError::WrongLength => f.write_str("there are not as many options as kinds"),
            KeysError::NotAValue { column, row } => {
                write!(f, "key {row} has no value of the kind of column {column}")
            }
        }
    }
}

impl std::error::Error for KeysError {}

/// The keys of rows, in the memory of one Arrow array of bytes.
#[derive(Clone, Debug, PartialEq, Eq)]
pub struct RowKeys {
    offsets: Vec<u64>,
    bytes: Vec<u8>,
}

/// The keys of the rows of several columns, each sorted by its options.
///
/// ```
/// use doqallin::{Column, SortOptions, row_keys};
///
/// let columns = [Column::utf8(b"bab", &[0, 1, 2, 3]), Column::integers(&[1u8, 2, 3])];
/// let down = SortOptions { descending: true, ..Default::default() };
/// let keys = row_keys(&columns, &[SortOptions::default(), down])?;
/// let mut rows: Vec<usize> = (0..3).collect();
/// rows.sort_by_key(|row| keys.get(*row));
/// assert_eq!(rows, [1, 2, 0]);
/// assert_eq!(keys.iter().next(), Some(&b"\x15b\0\xf2\xfe"[..]));
/// # Ok::<(), doqallin::RowsError>(())
/// ```
pub fn row_keys(columns: &[Column<'_>], options: &[SortOptions]) -> Result<RowKeys, RowsError> {
    let raws = RawColumns::of(columns);
    let options = option_bytes(options);
    let rows = columns.first().map_or(0, Column::len);
    let mut fault = raw::Fault::default();
    let (places, length) = likely_buffer(columns);
    let mut offsets = Vec::<u64>::with_capacity(places + 1);
    let mut bytes = Vec::<u8>::with_capacity(length);
    loop {
        let mut count = 0;
        // SAFETY: each pointer and length are of one slice, or of a vector's capacity. `count` and `fault` are places of
        // their own.
        let status = unsafe {
            raw::doqallin_row_keys(
                raws.columns.as_ptr(),
                raws.columns.len(),
                options.as_ptr(),
                options.len(),
                offsets.as_mut_ptr(),
                offsets.capacity(),
                bytes.as_mut_ptr(),
                bytes.capacity(),
                &mut count,
                &mut fault,
            )
        };
        match status {
            raw::GIVEN => {
                // SAFETY: the call has written one offset more than there are rows, and so many bytes. It reads neither buffer.
                unsafe {
                    offsets.set_len(rows + 1);
                    bytes.set_len(count);
                }
                // To give back a part of a large buffer takes a sixth of the time of the call.
                if count < bytes.capacity() / 2 {
                    bytes.shrink_to_fit();
                }
                return Ok(RowKeys { offsets, bytes });
            }
            raw::BUFFER_TOO_SMALL => {
                let Some(places) = rows.checked_add(1) else {
                    out_of_memory(rows)
                };
                offsets = Vec::with_capacity(places);
                bytes = Vec::with_capacity(count);
            }
            other => return Err(RowsError::of(other, &fault)),
        }
    }
}

/// The places of the rows in their order, column by column by its options. Rows that are equal stay in the order that they have.
///
/// ```
/// use doqallin::{Column, SortOptions, sort_rows};
///
/// let columns = [Column::utf8(b"bab", &[0, 1, 2, 3]), Column::integers(&[1u8, 2, 3])];
/// assert_eq!(sort_rows(&columns, &[SortOptions::default(); 2])?, [1, 0, 2]);
/// # Ok::<(), doqallin::RowsError>(())
/// ```
pub fn sort_rows(columns: &[Column<'_>], options: &[SortOptions]) -> Result<Vec<usize>, RowsError> {
    Ok(row_keys(columns, options)?.order())
}

/// The first eight bytes of a key, as a number that sorts as they do. What is behind its end is 0.
fn first_bytes(key: Option<&[u8]>) -> u64 {
    let mut first = [0; 8];
    let key = key.unwrap_or_default();
    let count = key.len().min(8);
    first[..count].copy_from_slice(&key[..count]);
    u64::from_be_bytes(first)
}

/// For how many rows the columns have memory, and how many bytes their keys may take. Where these are not enough, the call
/// says what is.
fn likely_buffer(columns: &[Column<'_>]) -> (usize, usize) {
    let rows = columns.iter().map(Column::rows_in_memory).min();
    // No count below is above the greatest `isize`.
    let most = isize::MAX as usize / 66 / columns.len().max(1);
    let rows = rows.filter(|rows| *rows < most).unwrap_or(0);
    let of = |column: &Column<'_>| match (column.kind(), column.kind().width()) {
        // A decimal of more than 18 digits is keyed as bytes.
        (_, Some(width)) => (width + 1 + width / 16 * 17) * rows,
        (Kind::Bool | Kind::Null, _) => rows,
        _ => column.raw().values_length.min(64 * rows) + 2 * rows,
    };
    (rows, columns.iter().map(of).sum())
}

impl RowKeys {
    /// Keys that came from elsewhere. Key k is the bytes from `offsets[k]` to `offsets[k + 1]`; nothing is tested.
    #[must_use]
    pub fn from_parts(offsets: Vec<u64>, bytes: Vec<u8>) -> RowKeys {
        RowKeys { offsets, bytes }
    }

    /// How many keys there are.
    #[must_use]
    pub fn len(&self) -> usize {
        self.offsets.len().saturating_sub(1)
    }

    /// Whether there are none.
    #[must_use]
    pub fn is_empty(&self) -> bool {
        self.len() == 0
    }

    /// The key of a row, if there is one and its offsets lie within the bytes.
    #[must_use]
    pub fn get(&self, row: usize) -> Option<&[u8]> {
        let (start, end) = (*self.offsets.get(row)?, *self.offsets.get(row + 1)?);
        self.bytes.get(start.try_into().ok()?..end.try_into().ok()?)
    }

    /// The keys, row by row.
    pub fn iter(&self) -> impl Iterator<Item = &[u8]> {
        (0..self.len()).map_while(|row| self.get(row))
    }

    /// The places of the keys in their order. Keys that are equal stay in the order that they have.
    #[must_use]
    pub fn order(&self) -> Vec<usize> {
        let first = |row| (first_bytes(self.get(row)), row);
        let mut rows: Vec<(u64, usize)> = (0..self.len()).map(first).collect();
        rows.sort_by(|one, two| {
            let whole = || self.get(one.1).cmp(&self.get(two.1));
            one.0.cmp(&two.0).then_with(whole)
        });
        rows.into_iter().map(|(_, row)| row).collect()
    }

    /// Where each key begins, and all bytes.
    #[must_use]
    pub fn parts(&self) -> (&[u64], &[u8]) {
        (&self.offsets, &self.bytes)
    }

    /// The columns of the rows whose keys these are, by the options that the keys were made with. Each key is read once. The key
    /// of a float, a date or a decimal is that of the integer or the bytes that store it, so only the kinds say which it is. A
    /// zero comes back without a sign, and each NaN as one NaN.
    ///
    /// ```
    /// use doqallin::{Column, Item, Kind, SortOptions, row_keys};
    ///
    /// let numbers = Column::integers(&[3i64, 0]).with_validity(&[1]);
    /// let keys = row_keys(&[numbers], &[SortOptions::default()])?;
    /// let back = keys.columns(&[Kind::I64], &[SortOptions::default()])?;
    /// assert_eq!((back[0].get(0), back[0].get(1)), (Some(Item::Integer(3)), None));
    /// # Ok::<(), Box<dyn std::error::Error>>(())
    /// ```
    pub fn columns(
        &self,
        kinds: &[Kind],
        options: &[SortOptions],
    ) -> Result<Vec<OwnedColumn>, KeysError> {
        let codes: Vec<raw::KindCode> = kinds.iter().map(|kind| kind.code()).collect();
        let options = option_bytes(options);
        let buffers_for =
            |kind: &Kind| OwnedColumn::buffer_for(kind.large(), self.len(), self.bytes.len());
        let mut made: Vec<OwnedColumn> = kinds.iter().map(buffers_for).collect();
        let mut buffers: Vec<raw::ColumnBuffers> =
            made.iter_mut().map(OwnedColumn::buffers).collect();
        let mut fault = raw::Fault::default();
        // SAFETY: each pointer and length are of one slice; the buffers and `fault` are places of their own.
        let status = unsafe {
            raw::doqallin_columns_of_typed_keys(
                codes.as_ptr(),
                codes.len(),
                options.as_ptr(),
                options.len(),
                self.offsets.as_ptr(),
                self.offsets.len(),
                self.bytes.as_ptr(),
                self.bytes.len(),
                buffers.as_mut_ptr(),
                buffers.len(),
                &mut fault,
            )
        };
        match status {
            raw::GIVEN => {
                for (column, written) in made.iter_mut().zip(&buffers) {
                    column.values.truncate(written.count);
                    if written.count < column.values.capacity() / 2 {
                        column.values.shrink_to_fit();
                    }
                }
                Ok(made)
            }
            raw::BAD_BYTES => Err(KeysError::BadBytes(fault.place)),
            raw::BAD_OFFSETS => Err(KeysError::BadOffsets(fault.place)),
            raw::WRONG_LENGTH => Err(KeysError::WrongLength),
            raw::NOT_A_VALUE => Err(KeysError::NotAValue {
                column: fault.column,
                row: fault.place,
            }),
            raw::NO_MEMORY => out_of_memory(self.bytes.len()),
            other => unreachable!("status {other}: the buffers suffice"),
        }
    }
}

impl<'a> IntoIterator for &'a RowKeys {
    type Item = &'a [u8];
    type IntoIter = Box<dyn Iterator<Item = &'a [u8]> + 'a>;

    fn into_iter(self) -> Self::IntoIter {
        Box::new(self.iter())
    }
}

/// A column that the library wrote: a bitmap of the rows that are not null, the values, and offsets of strings and bytes.
#[derive(Clone, Debug, PartialEq, Eq)]
pub struct OwnedColumn {
    kind: Kind,
    length: usize,
    validity: Vec<u8>,
    values: Vec<u8>,
    offsets: Vec<u64>,
}

impl OwnedColumn {
    /// Buffers for a column of so many rows, whose strings have at most so many bytes together.
    pub(crate) fn buffer_for(kind: Kind, length: usize, bytes: usize) -> OwnedColumn {
        let bitmap = length.div_ceil(8);
        let (values, offsets) = match (kind, kind.width()) {
            (_, Some(width)) => (width * length, 0),
            (Kind::Bool, _) => (bitmap, 0),
            (Kind::Null, _) => (0, 0),
            _ => (bytes, length + 1),
        };
        OwnedColumn {
            kind,
            length,
            validity: vec![0; bitmap],
            values: vec![0; values],
            offsets: vec![0; offsets],
        }
    }

    /// Where the column is written.
    pub(crate) fn buffers(&mut self) -> raw::ColumnBuffers {
        raw::ColumnBuffers {
            validity: self.validity.as_mut_ptr(),
            validity_length: self.validity.len(),
            values: self.values.as_mut_ptr(),
            values_length: self.values.len(),
            offsets: self.offsets.as_mut_ptr(),
            offsets_length: self.offsets.len(),
            count: 0,
        }
    }

    /// Makes room for so many rows, whose strings have at most so many bytes together. Memory is kept for later.
    pub(crate) fn make_room(&mut self, length: usize, bytes: usize) {
        let (values, offsets) = match self.kind.width() {
            Some(width) => (width * length, 0),
            None => (bytes, length + 1),
        };
        self.validity.resize(length.div_ceil(8), 0);
        self.values.resize(values, 0);
        self.offsets.resize(offsets, 0);
    }

    /// Leaves the rows that were written, and so many bytes of values.
    pub(crate) fn cut(&mut self, length: usize, bytes: usize) {
        self.length = length;
        self.validity.truncate(length.div_ceil(8));
        self.values.truncate(bytes);
        if !self.offsets.is_empty() {
            self.offsets.truncate(length + 1);
        }
    }

    /// The kind. Strings and bytes have offsets of 64 bits.
    #[must_use]
    pub fn kind(&self) -> Kind {
        self.kind
    }

    /// The column as others take it, where it lies.
    #[must_use]
    pub fn as_column(&self) -> Column<'_> {
        let offsets = bytes_of(&self.offsets);
        Column::from_buffers(self.kind, &self.values, offsets, 0, self.length)
            .with_validity(&self.validity)
    }

    /// Whether a row is null, or is none.
    #[must_use]
    pub fn is_null(&self, row: usize) -> bool {
        let is_valid = || self.validity[row / 8] >> (row % 8) & 1 == 1;
        row >= self.length || self.kind == Kind::Null || !is_valid()
    }

    /// The bytes of a row that is not null: of a string, or of an item as it is stored.
    #[must_use]
    pub fn bytes(&self, row: usize) -> Option<&[u8]> {
        if self.is_null(row) || self.kind == Kind::Bool {
            return None;
        }
        Some(match self.kind.width() {
            Some(width) => &self.values[row * width..][..width],
            None => &self.values[self.offsets[row] as usize..self.offsets[row + 1] as usize],
        })
    }

    /// The string of a row that is not null.
    #[must_use]
    pub fn text(&self, row: usize) -> Option<&str> {
        let is_text = self.kind == Kind::LargeUtf8;
        std::str::from_utf8(self.bytes(row).filter(|_| is_text)?).ok()
    }

    /// The integer of a row that is not null: of a decimal, a date, a time or a timestamp the one that stores it.
    #[must_use]
    pub fn integer(&self, row: usize) -> Option<i128> {
        let is_integer = self.kind.width().is_some() && !matches!(self.kind, Kind::F32 | Kind::F64);
        Some(whole(self.kind, self.bytes(row).filter(|_| is_integer)?))
    }

    /// The float of a row that is not null, of either width.
    #[must_use]
    pub fn float(&self, row: usize) -> Option<f64> {
        let bytes = self.bytes(row)?;
        match self.kind {
            Kind::F32 => Some(f32::from_le_bytes(bytes.try_into().ok()?).into()),
            Kind::F64 => Some(f64::from_le_bytes(bytes.try_into().ok()?)),
            _ => None,
        }
    }

    /// How many rows it has.
    #[must_use]
    pub fn len(&self) -> usize {
        self.length
    }

    /// Whether it has no rows.
    #[must_use]
    pub fn is_empty(&self) -> bool {
        self.length == 0
    }

    /// The bitmap of validity, the values and the offsets.
    #[must_use]
    pub fn parts(&self) -> (&[u8], &[u8], &[u64]) {
        (&self.validity, &self.values, &self.offsets)
    }

    /// The value of a row. `None` if it is null, or if there is no such row.
    #[must_use]
    pub fn get(&self, row: usize) -> Option<Item> {
        if self.kind == Kind::Bool && !self.is_null(row) {
            return Some(Item::Bool(self.values[row / 8] >> (row % 8) & 1 == 1));
        }
        self.bytes(row).map(|bytes| Item::of(self.kind, bytes))
    }
}
