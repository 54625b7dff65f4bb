// SPDX-License-Identifier: Apache-2.0
// SPDX-FileCopyrightText: Copyright the Vortex contributors; ported to Rattle and changed
//! Filters over columns, in SQL's words.

use crate::arrow::RawColumns;
use crate::{Column, Kind, Mistake, RowsError, Statistics, out_of_memory, raw};
use std::fmt;

/// How deep a filter may nest, if nobody says.
const DEPTH: usize = 32;

/// What `parse` prepared is read at the depth that it was given, and at any greater one.
const WHOLE: usize = usize::MAX;

/// Why there is no filter, or why it cannot be asked.
#[derive(Clone, Copy, Debug, PartialEq, Eq)]
pub enum FilterError {
    /// The text is no filter of these columns.
    Mistake {
        /// The byte at which it is none, or its length.
        place: usize,
        /// What is wrong there.
        mistake: Mistake,
    },
    /// The statistics of this zone are not of the kind of this column, which the filter names.
    BadStatistics {
        /// The zone.
        zone: usize,
        /// The column.
        column: usize,
    },
    /// A zone has more statistics than the filter has columns.
    WrongLength,
    /// This column is of another kind than the filter was prepared for.
    KindsDiffer(usize),
    /// The columns cannot be read together.
    Rows(RowsError),
}

impl fmt::Display for FilterError {
    fn fmt(&self, f: &mut fmt::Formatter<'_>) -> fmt::Result {
        match self {
            FilterError::Mistake { place, mistake } => write!(f, "byte {place}: {mistake}"),
            FilterError::BadStatistics { zone, column } => {
                write!(
                    f,
                    "the statistics of zone {zone} are not of column {column}"
                )
            }
            FilterError::WrongLength => f.write_str("a zone has too many statistics"),
            FilterError::KindsDiffer(column) => {
                write!(f, "column {column} is not of the filter's kind")
            }
            FilterError::Rows(error) => error.fmt(f),
        }
    }
}

impl std::error::Error for FilterError {}

/// What a filter can be on the rows of a zone: the truth of each row is among these.
#[derive(Clone, Copy, Debug, PartialEq, Eq, Hash)]
pub struct Outcomes {
    /// Whether it may be false of a row.
    pub may_be_false: bool,
    /// Whether it may be unknown of a row.
    pub may_be_unknown: bool,
    /// Whether it may be true of a row.
    pub may_be_true: bool,
}

impl Outcomes {
    fn of(byte: u8) -> Outcomes {
        Outcomes {
            may_be_false: byte & 1 != 0,
            may_be_unknown: byte & 2 != 0,
            may_be_true: byte & 4 != 0,
        }
    }

    /// Whether a row may match. If not, the zone need not be read.
    #[must_use]
    pub fn may_match(self) -> bool {
        self.may_be_true
    }

    /// Whether each row matches. If so, no row need be tested.
    #[must_use]
    pub fn must_match(self) -> bool {
        !(self.may_be_false || self.may_be_unknown)
    }
}

/// A filter of rows, prepared for columns of known kinds. A row matches only if the filter is true of it.
///
/// ```
/// use doqallin::{Column, Filter, Kind, Statistics};
///
/// let wanted = Filter::parse("city = 'oslo' and fare >= 10", &[("city", Kind::Utf8), ("fare", Kind::I64)])?;
/// let (cities, fares) = (Column::utf8(b"osloskien", &[0, 4, 9]), Column::integers(&[12i64, 12]));
/// let zone = [Some(&Statistics::of(&cities, 16)?), Some(&Statistics::of(&fares, 16)?)];
/// assert!(wanted.outcomes(&zone)?.may_match());
/// assert_eq!(wanted.mask(&[cities, fares], 2)?, [true, false]);
/// # Ok::<(), Box<dyn std::error::Error>>(())
/// ```
#[derive(Clone, Debug, PartialEq, Eq)]
pub struct Filter {
    bytes: Vec<u8>,
    width: usize,
}

impl Filter {
    /// Reads a filter, in the words of docs/FILTERS.md, over columns of these names and kinds.
    ///
    /// At most 32 connectives and parentheses may nest: each level takes stack.
    pub fn parse(text: &str, columns: &[(&str, Kind)]) -> Result<Filter, FilterError> {
        Filter::parse_within(text, columns, DEPTH)
    }

    /// As [`Filter::parse`], for a text in which at most `depth` connectives and parentheses nest.
    pub fn parse_within(
        text: &str,
        columns: &[(&str, Kind)],
        depth: usize,
    ) -> Result<Filter, FilterError> {
        let named = |(name, kind): &(&str, Kind)| raw::NamedKind {
            name: name.as_ptr(),
            name_length: name.len(),
            kind: kind.code(),
        };
        let kinds: Vec<raw::NamedKind> = columns.iter().map(named).collect();
        let mut buffer = vec![0; 256 + 4 * text.len()];
        loop {
            let (mut count, mut mistake) = (0, raw::Mistake::default());
            // SAFETY: each pointer and length are of one slice; the buffer, `count` and `mistake` are places of their own.
            let status = unsafe {
                raw::doqallin_prepare_filter(
                    text.as_ptr(),
                    text.len(),
                    kinds.as_ptr(),
                    kinds.len(),
                    depth,
                    buffer.as_mut_ptr(),
                    buffer.len(),
                    &mut count,
                    &mut mistake,
                )
            };
            match status {
                raw::GIVEN => {
                    buffer.truncate(count);
                    return Ok(Filter {
                        bytes: buffer,
                        width: columns.len(),
                    });
                }
                raw::BUFFER_TOO_SMALL => buffer.resize(count, 0),
                raw::BAD_FILTER => {
                    return Err(FilterError::Mistake {
                        place: mistake.place,
                        mistake: Mistake::of(mistake.expected),
                    });
                }
                raw::NO_MEMORY => out_of_memory(text.len()),
                other => unreachable!("status {other} of a string"),
            }
        }
    }

    /// What it can be on the rows of a zone, by the statistics of its columns. One that is missing leaves all open. Those of
    /// columns that it does not name are not read.
    pub fn outcomes(&self, zone: &[Option<&Statistics>]) -> Result<Outcomes, FilterError> {
        Ok(self.outcomes_of(std::iter::once(zone))?[0])
    }

    /// What it can be on the rows of each zone, by one call.
    pub fn outcomes_of<'s>(
        &self,
        zones: impl IntoIterator<Item = &'s [Option<&'s Statistics>]>,
    ) -> Result<Vec<Outcomes>, FilterError> {
        let (mut bytes, mut offsets, mut count) = (Vec::new(), vec![0], 0);
        for zone in zones {
            if zone.len() > self.width {
                return Err(FilterError::WrongLength);
            }
            for column in 0..self.width {
                if let Some(Some(known)) = zone.get(column) {
                    bytes.extend_from_slice(known.as_bytes());
                }
                offsets.push(bytes.len() as u64);
            }
            count += 1;
        }
        let (mut outcomes, mut fault) = (vec![0; count], raw::Fault::default());
        // SAFETY: each pointer and length are of one slice; the buffer and `fault` are places of their own.
        let status = unsafe {
            raw::doqallin_filter_outcomes(
                self.bytes.as_ptr(),
                self.bytes.len(),
                bytes.as_ptr(),
                bytes.len(),
                offsets.as_ptr(),
                offsets.len(),
                WHOLE,
                outcomes.as_mut_ptr(),
                outcomes.len(),
                &mut fault,
            )
        };
        match status {
            raw::GIVEN => Ok(outcomes.into_iter().map(Outcomes::of).collect()),
            raw::BAD_BYTES => Err(FilterError::BadStatistics {
                zone: fault.column / self.width.max(1),
                column: fault.column % self.width.max(1),
            }),
            raw::NO_MEMORY => out_of_memory(bytes.len()),
            other => unreachable!("status {other}: the zones are as wide as the filter"),
        }
    }

    /// The places of the zones that may match.
    pub fn prune<'s>(
        &self,
        zones: impl IntoIterator<Item = &'s [Option<&'s Statistics>]>,
    ) -> Result<Vec<usize>, FilterError> {
        let outcomes = self.outcomes_of(zones)?.into_iter().enumerate();
        Ok(outcomes
            .filter_map(|(place, of)| of.may_match().then_some(place))
            .collect())
    }

    /// Whether each of so many rows matches. The columns are those of the filter, in their order, and each that it names has so
    /// many rows; another is not looked at. If it names none, each row has the same answer.
    pub fn mask(&self, columns: &[Column<'_>], rows: usize) -> Result<Vec<bool>, FilterError> {
        // Where a column has other rows, or says more than its buffers have, the buffer is too small. Then the columns are refused,
        // or the filter does not name that one.
        let least = columns
            .iter()
            .map(Column::rows_in_memory)
            .fold(rows, usize::min);
        let raws = RawColumns::of(columns);
        let mut buffer = vec![0u8; least.div_ceil(8)];
        let (mut status, mut fault) = self.write_mask(&raws, rows, &mut buffer);
        if status == raw::BUFFER_TOO_SMALL {
            self.expect_rows(columns, rows)?;
            buffer.resize(rows.div_ceil(8), 0);
            (status, fault) = self.write_mask(&raws, rows, &mut buffer);
        }
        match status {
            raw::GIVEN => Ok((0..rows)
                .map(|row| buffer[row / 8] >> (row % 8) & 1 == 1)
                .collect()),
            raw::UNKNOWN_KIND if fault.place == 1 => Err(FilterError::KindsDiffer(fault.column)),
            other => Err(FilterError::Rows(RowsError::of(other, &fault))),
        }
    }

    /// Refuses the first of the columns that the filter names which cannot be read, or is of another kind, or has other rows.
    fn expect_rows(&self, columns: &[Column<'_>], rows: usize) -> Result<(), FilterError> {
        // Asked of no rows, a filter refuses a column for its kind alone, and one of no kind only if it names it.
        let mut raws = RawColumns::of_no_kind(columns.len());
        let mut has_other_rows = false;
        loop {
            let (status, fault) = self.write_mask(&raws, 0, &mut []);
            match (status, fault.place) {
                (raw::UNKNOWN_KIND, 1) => return Err(FilterError::KindsDiffer(fault.column)),
                _ if has_other_rows => return Err(FilterError::Rows(RowsError::WrongLength)),
                (raw::UNKNOWN_KIND, _) => {}
                (raw::GIVEN, _) => return Ok(()),
                (other, _) => return Err(FilterError::Rows(RowsError::of(other, &fault))),
            }
            let named = &columns[fault.column];
            Statistics::of(named, 0)
                .map_err(|why| FilterError::Rows(RowsError::Column(fault.column, why)))?;
            raws.columns[fault.column] = named.without_rows().raw();
            has_other_rows = named.len() != rows;
        }
    }

    /// Writes a bit for each row, if the buffer has so many.
    fn write_mask(
        &self,
        columns: &RawColumns<'_>,
        rows: usize,
        buffer: &mut [u8],
    ) -> (u32, raw::Fault) {
        let mut fault = raw::Fault::default();
        // SAFETY: each pointer and length are of one slice; the buffer and `fault` are places of their own.
        let status = unsafe {
            raw::doqallin_filter_mask(
                self.bytes.as_ptr(),
                self.bytes.len(),
                columns.columns.as_ptr(),
                columns.columns.len(),
                rows,
                WHOLE,
                buffer.as_mut_ptr(),
                buffer.len(),
                &mut fault,
            )
        };
        (status, fault)
    }

    /// The prepared filter in its stable encoding.
    #[must_use]
    pub fn as_bytes(&self) -> &[u8] {
        &self.bytes
    }
}
