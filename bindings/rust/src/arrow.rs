// SPDX-License-Identifier: Apache-2.0
// SPDX-FileCopyrightText: Copyright the Vortex contributors; ported to Rattle and changed
//! Columns as Arrow lays them out.

use crate::integer::Integer;
use crate::{Float, Kind, out_of_memory, raw};
use std::fmt;
use std::marker::PhantomData;

/// A buffer of a column.
#[derive(Clone, Copy, Debug, PartialEq, Eq)]
pub enum Buffer {
    /// The bitmap of the rows that are not null.
    Validity,
    /// The items, or the bytes.
    Values,
    /// Where each string or value of bytes begins.
    Offsets,
}

/// Why a column cannot be read. Rows count from its first.
#[derive(Clone, Copy, Debug, PartialEq, Eq)]
pub enum ColumnFault {
    /// The call does not take this kind of column.
    UnknownKind,
    /// Offset and length together are above 64 bits.
    TooManyRows,
    /// This buffer is too short for offset and length.
    TooShort(Buffer),
    /// The offsets of this row, the first such one, go down or past the end of the bytes.
    BadOffsets(usize),
    /// This row, the first such one, is not UTF-8.
    NotUtf8(usize),
    /// The number of this row, the first such one, is of no value of the logical type.
    NotAValue(usize),
}

impl ColumnFault {
    /// What a status says of a column.
    pub(crate) fn of(status: u32, place: usize) -> ColumnFault {
        match (status, place) {
            (raw::UNKNOWN_KIND, _) => ColumnFault::UnknownKind,
            (raw::TOO_MANY_ROWS, _) => ColumnFault::TooManyRows,
            (raw::TOO_SHORT, 0) => ColumnFault::TooShort(Buffer::Validity),
            (raw::TOO_SHORT, 1) => ColumnFault::TooShort(Buffer::Values),
            (raw::TOO_SHORT, _) => ColumnFault::TooShort(Buffer::Offsets),
            (raw::BAD_OFFSETS, row) => ColumnFault::BadOffsets(row),
            (raw::NOT_UTF8, row) => ColumnFault::NotUtf8(row),
            (raw::NOT_A_VALUE, row) => ColumnFault::NotAValue(row),
            (raw::NO_MEMORY, _) => out_of_memory(1),
            (other, _) => unreachable!("status {other} of a column"),
        }
    }
}

impl fmt::Display for ColumnFault {
    fn fmt(&self, f: &mut fmt::Formatter<'_>) -> fmt::Result {
        match self {
            ColumnFault::UnknownKind => f.write_str("the call does not take this kind of column"),
            ColumnFault::TooManyRows => f.write_str("64 bits do not count the rows"),
            ColumnFault::TooShort(buffer) => write!(f, "{buffer:?} is too short"),
            ColumnFault::BadOffsets(row) => {
                write!(f, "the offsets of row {row} go down, or past the end")
            }
            ColumnFault::NotUtf8(row) => write!(f, "row {row} is not UTF-8"),
            ColumnFault::NotAValue(row) => {
                write!(f, "the number of row {row} is of no value of the kind")
            }
        }
    }
}

impl std::error::Error for ColumnFault {}

/// Why several columns cannot be read together.
#[derive(Clone, Copy, Debug, PartialEq, Eq)]
pub enum RowsError {
    /// This column cannot be read.
    Column(usize, ColumnFault),
    /// There are not as many columns, options or rows as there are to be.
    WrongLength,
}

impl RowsError {
    pub(crate) fn of(status: u32, fault: &raw::Fault) -> RowsError {
        match status {
            raw::WRONG_LENGTH => RowsError::WrongLength,
            other => RowsError::Column(fault.column, ColumnFault::of(other, fault.place)),
        }
    }
}

impl fmt::Display for RowsError {
    fn fmt(&self, f: &mut fmt::Formatter<'_>) -> fmt::Result {
        match self {
            RowsError::Column(column, fault) => write!(f, "column {column}: {fault}"),
            RowsError::WrongLength => f.write_str("there are not as many as there are to be"),
        }
    }
}

impl std::error::Error for RowsError {}

/// A value of a column.
#[derive(Clone, Debug, PartialEq, Eq, Hash, PartialOrd, Ord)]
pub enum Item {
    /// An integer of any kind; of a decimal, a date, a time or a timestamp the integer that stores it.
    Integer(i128),
    /// A float of either width.
    Float(Float),
    /// A truth.
    Bool(bool),
    /// A string.
    Utf8(String),
    /// Bytes.
    Binary(Vec<u8>),
}

impl Item {
    /// The value that an Arrow array of the kind has as these bytes. A bool is one byte here.
    pub(crate) fn of(kind: Kind, bytes: &[u8]) -> Item {
        match kind {
            Kind::Bool => Item::Bool(bytes != [0]),
            Kind::Utf8 | Kind::LargeUtf8 => Item::Utf8(String::from_utf8_lossy(bytes).into_owned()),
            Kind::Binary | Kind::LargeBinary | Kind::Null => Item::Binary(bytes.to_vec()),
            Kind::F32 => Item::Float(Float(f32::from_bits(whole(kind, bytes) as u32).into())),
            Kind::F64 => Item::Float(Float(f64::from_bits(whole(kind, bytes) as u64))),
            _ => Item::Integer(whole(kind, bytes)),
        }
    }
}

/// The integer that is stored as these bytes.
pub(crate) fn whole(kind: Kind, bytes: &[u8]) -> i128 {
    let is_negative = kind.is_signed() && bytes[bytes.len() - 1] >= 128;
    let mut whole = [if is_negative { 255 } else { 0 }; 16];
    whole[..bytes.len()].copy_from_slice(bytes);
    i128::from_le_bytes(whole)
}

/// A column, as Arrow lays it out. It borrows its memory, and nothing is copied on the way in.
///
/// Nothing is asked of the buffers: a call reports one that is too short, of offsets that go down, and of strings that are no
/// UTF-8. No answer depends on the values under nulls.
///
/// ```
/// use doqallin::{Column, SortOptions, cast_column, row_keys};
///
/// // The second row is null.
/// let numbers = Column::integers(&[3i64, 0, 5]).with_validity(&[0b101]);
/// assert_eq!(cast_column::<u8>(&numbers)?, [3, 0, 5]);
/// // A slice shares the memory.
/// let keys = row_keys(&[numbers.slice(0, 2)], &[SortOptions::default()])?;
/// assert!(keys.get(1) < keys.get(0));
/// # Ok::<(), Box<dyn std::error::Error>>(())
/// ```
#[derive(Clone, Copy, Debug)]
pub struct Column<'a> {
    kind: Kind,
    validity: &'a [u8],
    values: &'a [u8],
    offsets: &'a [u8],
    offset: usize,
    length: usize,
}

/// An integer that stores a decimal, a date, a time or a timestamp: `i32`, `i64` or `i128`.
pub trait Stored: sealed::Stored {}

mod sealed {
    pub trait Stored: Copy {}
}

macro_rules! stored {
    ($($integer:ty)*) => {$(
        impl sealed::Stored for $integer {}
        impl Stored for $integer {}
    )*};
}

stored! { i32 i64 i128 }

/// The bytes of integers or floats.
pub(crate) fn bytes_of<T>(items: &[T]) -> &[u8] {
    // SAFETY: numbers have no padding, and each of their bytes is one. The length in bytes is that of the slice.
    unsafe { std::slice::from_raw_parts(items.as_ptr().cast(), size_of_val(items)) }
}

impl<'a> Column<'a> {
    /// A column of integers.
    #[must_use]
    pub fn integers<T: Integer>(values: &'a [T]) -> Column<'a> {
        let kind = Kind::INTEGERS[usize::from(T::KIND)];
        Column::of(kind, bytes_of(values), &[], values.len())
    }

    /// A column of floats.
    ///
    /// ```
    /// use doqallin::{Column, Float, Item, Statistics};
    ///
    /// let known = Statistics::of(&Column::floats(&[0.5, f64::NAN, -1.0]), 16)?;
    /// assert_eq!(known.lower(), Some(&Item::Float(Float(-1.0))));
    /// assert_eq!(known.upper(), Some(&Item::Float(Float(f64::NAN))));
    /// # Ok::<(), doqallin::ColumnFault>(())
    /// ```
    #[must_use]
    pub fn floats(values: &'a [f64]) -> Column<'a> {
        Column::of(Kind::F64, bytes_of(values), &[], values.len())
    }

    /// A column of floats of 32 bits.
    #[must_use]
    pub fn narrow_floats(values: &'a [f32]) -> Column<'a> {
        Column::of(Kind::F32, bytes_of(values), &[], values.len())
    }

    /// A column of integers that store values of this kind. It panics if the kind has items of another width, or others than such
    /// integers. A number that is no value of the kind is reported when a call reads the column.
    ///
    /// ```
    /// use doqallin::{Column, Filter, Kind, TimeUnit};
    ///
    /// let fares = Column::stored(Kind::decimal(10, 2).expect("such decimals"), &[1230i128, 995]);
    /// let days = Column::stored(Kind::Date32, &[20_512i32, 20_513]);
    /// let wanted: Filter = "fare = 12.3 and day < '2026-03-01'; fare decimal(10,2), day date".parse()?;
    /// assert_eq!(wanted.mask(&[fares, days], 2)?, [true, false]);
    /// let at = Column::stored(Kind::Timestamp(TimeUnit::Microseconds), &[0i64]);
    /// assert_eq!(at.len(), 1);
    /// # Ok::<(), doqallin::FilterError>(())
    /// ```
    #[must_use]
    pub fn stored<T: Stored>(kind: Kind, values: &'a [T]) -> Column<'a> {
        let is_stored = !matches!(kind, Kind::F32 | Kind::F64) && kind.is_signed();
        assert!(
            is_stored && kind.width() == Some(size_of::<T>()),
            "{kind:?} is not stored by integers of {} bytes",
            size_of::<T>()
        );
        Column::of(kind, bytes_of(values), &[], values.len())
    }

    /// A column of so many bools, from the least significant bit of the first byte on.
    #[must_use]
    pub fn bools(bitmap: &'a [u8], length: usize) -> Column<'a> {
        Column::of(Kind::Bool, bitmap, &[], length)
    }

    /// A column of strings. Value k is the bytes from `offsets[k]` to `offsets[k + 1]`.
    #[must_use]
    pub fn utf8(bytes: &'a [u8], offsets: &'a [i32]) -> Column<'a> {
        Column::of(Kind::Utf8, bytes, bytes_of(offsets), rows_of(offsets))
    }

    /// A column of strings, with offsets of 64 bits.
    #[must_use]
    pub fn large_utf8(bytes: &'a [u8], offsets: &'a [i64]) -> Column<'a> {
        Column::of(Kind::LargeUtf8, bytes, bytes_of(offsets), rows_of(offsets))
    }

    /// A column of bytes.
    #[must_use]
    pub fn binary(bytes: &'a [u8], offsets: &'a [i32]) -> Column<'a> {
        Column::of(Kind::Binary, bytes, bytes_of(offsets), rows_of(offsets))
    }

    /// A column of bytes, with offsets of 64 bits.
    #[must_use]
    pub fn large_binary(bytes: &'a [u8], offsets: &'a [i64]) -> Column<'a> {
        Column::of(
            Kind::LargeBinary,
            bytes,
            bytes_of(offsets),
            rows_of(offsets),
        )
    }

    /// A column of so many nulls.
    #[must_use]
    pub fn nulls(length: usize) -> Column<'static> {
        Column::of(Kind::Null, &[], &[], length)
    }

    /// A column of buffers as they came from elsewhere, with any offset and length.
    #[must_use]
    pub fn from_buffers(
        kind: Kind,
        values: &'a [u8],
        offsets: &'a [u8],
        offset: usize,
        length: usize,
    ) -> Column<'a> {
        Column {
            offset,
            ..Column::of(kind, values, offsets, length)
        }
    }

    fn of(kind: Kind, values: &'a [u8], offsets: &'a [u8], length: usize) -> Column<'a> {
        Column {
            kind,
            validity: &[],
            values,
            offsets,
            offset: 0,
            length,
        }
    }

    /// The column with a bitmap of the rows that are not null. The bit of its first row is the bit at its offset. An empty
    /// bitmap says that no row is null.
    #[must_use]
    pub fn with_validity(self, validity: &'a [u8]) -> Column<'a> {
        Column { validity, ..self }
    }

    /// So many rows from this row on. It panics if the column does not have them.
    #[must_use]
    pub fn slice(self, row: usize, length: usize) -> Column<'a> {
        let is_within = row
            .checked_add(length)
            .is_some_and(|end| end <= self.length);
        assert!(
            is_within,
            "{length} rows from row {row} on of {}",
            self.length
        );
        Column {
            offset: self.offset.saturating_add(row),
            length,
            ..self
        }
    }

    /// The kind of its values.
    #[must_use]
    pub fn kind(&self) -> Kind {
        self.kind
    }

    /// How many rows it has.
    #[must_use]
    pub fn len(&self) -> usize {
        self.length
    }

    /// Whether it has no rows.
    #[must_use]
    pub fn is_empty(&self) -> bool {
        self.length == 0
    }

    /// How many rows it has, and at most as many as its buffers have buffer for.
    pub(crate) fn rows_in_memory(&self) -> usize {
        let most = match (self.kind, self.kind.width()) {
            (_, Some(width)) => self.values.len() / width,
            (Kind::Bool, _) => self.values.len().saturating_mul(8),
            (Kind::Null, _) => usize::MAX,
            _ => self.offsets.len() / 4,
        };
        self.length.min(most)
    }

    /// A column of its kind, without rows.
    pub(crate) fn without_rows(&self) -> Column<'static> {
        Column::of(self.kind, &[], &[], 0)
    }

    pub(crate) fn raw(&self) -> raw::ArrowColumn {
        raw::ArrowColumn {
            kind: self.kind.code(),
            validity: self.validity.as_ptr(),
            validity_length: self.validity.len(),
            values: self.values.as_ptr(),
            values_length: self.values.len(),
            offsets: self.offsets.as_ptr(),
            offsets_length: self.offsets.len(),
            offset: self.offset,
            length: self.length,
        }
    }
}

fn rows_of<T>(offsets: &[T]) -> usize {
    offsets.len().saturating_sub(1)
}

/// Columns as C takes them. They live as what they borrow does.
pub(crate) struct RawColumns<'a> {
    pub columns: Vec<raw::ArrowColumn>,
    _lends: PhantomData<&'a [u8]>,
}

impl<'a> RawColumns<'a> {
    pub fn of(columns: &[Column<'a>]) -> RawColumns<'a> {
        RawColumns {
            columns: columns.iter().map(Column::raw).collect(),
            _lends: PhantomData,
        }
    }

    /// So many columns that are of no kind.
    pub fn of_no_kind(count: usize) -> RawColumns<'a> {
        let of_no_kind = || {
            let mut column = Column::nulls(0).raw();
            column.kind.code = raw::NO_KIND;
            column
        };
        RawColumns {
            columns: std::iter::repeat_with(of_no_kind).take(count).collect(),
            _lends: PhantomData,
        }
    }
}

/// Why a column has no cast.
#[derive(Clone, Copy, Debug, PartialEq, Eq)]
pub enum CastError {
    /// The kind does not have the value of this row, the first such one.
    NoValue(usize),
    /// The column cannot be read, or its values are no integers.
    Column(ColumnFault),
}

impl fmt::Display for CastError {
    fn fmt(&self, f: &mut fmt::Formatter<'_>) -> fmt::Result {
        match self {
            CastError::NoValue(row) => write!(f, "the kind does not have the value of row {row}"),
            CastError::Column(fault) => fault.fmt(f),
        }
    }
}

impl std::error::Error for CastError {}

/// The integers of a column as another kind, with 0 for a null.
///
/// ```
/// use doqallin::{CastError, Column, cast_column};
///
/// assert_eq!(cast_column::<u8>(&Column::integers(&[200i64, 7])), Ok(vec![200, 7]));
/// assert_eq!(cast_column::<u8>(&Column::integers(&[200i64, -7])), Err(CastError::NoValue(1)));
/// ```
pub fn cast_column<T: Integer>(column: &Column<'_>) -> Result<Vec<T>, CastError> {
    let rows = if column.kind.is_integer() {
        column.rows_in_memory()
    } else {
        0
    };
    let mut made = Vec::<T>::with_capacity(rows);
    let mut fault = raw::Fault::default();
    // SAFETY: the column's pointers and lengths are of slices, and the buffer and `fault` are places of their own.
    let status = unsafe {
        raw::doqallin_cast_front(
            &column.raw(),
            T::KIND,
            made.as_mut_ptr().cast(),
            rows * size_of::<T>(),
            &mut fault,
        )
    };
    match status {
        raw::GIVEN => {
            // SAFETY: the call has written a number for each row, and reads no byte of the buffer.
            unsafe { made.set_len(rows) };
            Ok(made)
        }
        raw::NONE => Err(CastError::NoValue(fault.place)),
        other => Err(CastError::Column(ColumnFault::of(other, fault.place))),
    }
}
