// SPDX-License-Identifier: Apache-2.0
// SPDX-FileCopyrightText: Copyright the Vortex contributors; ported to Rattle and changed
//! Rows of CSV files that match, as columns.

use crate::raw::{FileZone as RawZone, KindCode, SearchFault};
use crate::search::{DEPTH, EVERY_ROW, judge, refusal};
use crate::{Kind, OwnedColumn, Record, Search, SearchError, raw};
use std::io::{Read, Seek};

/// So many bytes of records that match are read together.
const TOGETHER: usize = 1 << 18;

/// Rows that match, as the columns that were asked for. [`Search::each_batch`] gives it. Its memory is that of the next one, too: a
/// column to keep is cloned.
#[derive(Clone, Copy, Debug)]
pub struct Batch<'a> {
    names: &'a [&'a str],
    columns: &'a [OwnedColumn],
    rows: usize,
}

impl<'a> Batch<'a> {
    /// How many rows it has. There is one at least.
    #[must_use]
    pub fn row_count(&self) -> usize {
        self.rows
    }

    /// The columns, in the order in which they were asked for.
    #[must_use]
    pub fn columns(&self) -> &'a [OwnedColumn] {
        self.columns
    }

    /// The column of this name, if it was asked for.
    #[must_use]
    pub fn column(&self, name: &str) -> Option<&'a OwnedColumn> {
        let place = self.names.iter().position(|one| *one == name)?;
        self.columns.get(place)
    }
}

/// Reads the columns that are wanted of texts, one after another.
struct Reader<'a> {
    setup: Vec<u8>,
    names: &'a [&'a str],
    wanted: Vec<usize>,
    columns: Vec<OwnedColumn>,
}

impl<'a> Reader<'a> {
    fn new<R: Read + Seek>(
        search: &Search<R>,
        names: &'a [&'a str],
    ) -> Result<Reader<'a>, SearchError> {
        let all = search.columns();
        let place = |name: &&str| all.iter().position(|(one, _)| one == name);
        let wanted = names
            .iter()
            .map(|name| place(name).ok_or_else(|| SearchError::NoColumn((*name).to_owned())))
            .collect::<Result<Vec<usize>, SearchError>>()?;
        let kinds = kinds_of(&search.setup, all.len())?;
        let columns = wanted
            .iter()
            .map(|place| OwnedColumn::buffer_for(kinds[*place], 0, 0))
            .collect();
        let setup = search.setup.clone();
        Ok(Reader {
            setup,
            names,
            wanted,
            columns,
        })
    }

    /// Gives the rows of the records of a text.
    fn read(&mut self, text: &[u8], found: &mut impl FnMut(Batch<'_>)) -> Result<(), SearchError> {
        let rows = self.write(text)?;
        if rows > 0 {
            found(Batch {
                names: self.names,
                columns: &self.columns,
                rows,
            });
        }
        Ok(())
    }

    /// Writes the columns of the records of a text; returns how many rows they are.
    fn write(&mut self, text: &[u8]) -> Result<usize, SearchError> {
        // No more rows than lines, and no string longer than its record.
        let lines = text.iter().filter(|byte| **byte == b'\n').count();
        for column in &mut self.columns {
            column.make_room(lines + 1, text.len());
        }
        let mut buffers: Vec<raw::ColumnBuffers> =
            self.columns.iter_mut().map(OwnedColumn::buffers).collect();
        let (mut rows, mut fault) = (0, SearchFault::default());
        // SAFETY: each pointer and length are of one slice; the buffers, `rows` and `fault` are places of their own.
        let status = unsafe {
            raw::doqallin_search_columns(
                self.setup.as_ptr(),
                self.setup.len(),
                EVERY_ROW.as_ptr(),
                EVERY_ROW.len(),
                DEPTH,
                0,
                text.as_ptr(),
                text.len(),
                self.wanted.as_ptr(),
                self.wanted.len(),
                buffers.as_mut_ptr(),
                buffers.len(),
                &mut rows,
                &mut fault,
            )
        };
        let counts: Vec<usize> = buffers.iter().map(|written| written.count).collect();
        match status {
            raw::GIVEN => {
                for (column, count) in self.columns.iter_mut().zip(counts) {
                    column.cut(rows, count);
                }
                Ok(rows)
            }
            raw::BAD_BYTES => Err(SearchError::BadReading),
            raw::BUFFER_TOO_SMALL => unreachable!("the buffers suffice"),
            _ => Err(refusal(status, &fault)),
        }
    }
}

/// The kinds of the columns that are made of a setup's.
fn kinds_of(setup: &[u8], columns: usize) -> Result<Vec<Kind>, SearchError> {
    let none = KindCode {
        code: raw::NO_KIND,
        precision: 0,
        scale: 0,
    };
    let (mut kinds, mut count) = (vec![none; columns], 0);
    let mut fault = SearchFault::default();
    // SAFETY: each pointer and length are of one slice; `count` and `fault` are places of their own.
    let status = unsafe {
        raw::doqallin_column_kinds(
            setup.as_ptr(),
            setup.len(),
            kinds.as_mut_ptr(),
            kinds.len(),
            &mut count,
            &mut fault,
        )
    };
    match status {
        raw::GIVEN => Ok(kinds.into_iter().filter_map(Kind::of_code).collect()),
        raw::BAD_BYTES => Err(SearchError::BadReading),
        _ => Err(refusal(status, &fault)),
    }
}

/// Takes records that match, and gives their rows.
struct Giver<'a, F> {
    reader: Reader<'a>,
    records: Vec<u8>,
    found: F,
    failed: Option<SearchError>,
}

impl<F: FnMut(Batch<'_>)> Giver<'_, F> {
    /// Takes a record that matches.
    fn push(&mut self, record: &[u8]) {
        self.records.extend_from_slice(record);
        if self.records.len() >= TOGETHER {
            self.flush();
        }
    }

    /// Gives the rows of the records so far.
    fn flush(&mut self) {
        if self.failed.is_none() {
            self.failed = self.reader.read(&self.records, &mut self.found).err();
        }
        self.records.clear();
    }

    /// Gives the rows of a text, behind those of the records so far.
    fn whole(&mut self, text: &[u8]) {
        self.flush();
        if self.failed.is_none() {
            self.failed = self.reader.read(text, &mut self.found).err();
        }
    }

    /// Gives the rows that are left.
    fn end(mut self) -> Result<(), SearchError> {
        self.flush();
        self.failed.map_or(Ok(()), Err)
    }
}

impl<R: Read + Seek> Search<R> {
    /// Gives the rows that match as columns, some at a time, in the file's order: those of these names, which [`columns`] has.
    /// No cell takes memory of its own. `BadRecord` comes behind the rows before that record.
    ///
    /// ```
    /// use doqallin::{Kind, Reading, Search};
    ///
    /// let text = "id,city,fare\n1,Oslo,9.5\n2,Bergen,12.25\n3,,30\n";
    /// let reading = Reading { has_header: true, ..Reading::default() };
    /// let mut trips = Search::guessed(std::io::Cursor::new(text), &reading)?;
    /// let mut sum = 0;
    /// trips.each_batch("fare > 10", &["city", "fare"], |batch| {
    ///     let fares = batch.column("fare").unwrap();
    ///     assert_eq!(Some(fares.kind()), Kind::decimal(18, 2));
    ///     sum += (0..batch.row_count()).filter_map(|row| fares.integer(row)).sum::<i128>();
    ///     assert_eq!(batch.columns()[0].text(0), Some("Bergen"));
    ///     assert!(batch.columns()[0].is_null(1));
    /// })?;
    /// assert_eq!(sum, 1225 + 3000);
    /// # Ok::<(), doqallin::SearchError>(())
    /// ```
    ///
    /// [`columns`]: Search::columns
    pub fn each_batch(
        &mut self,
        filter: &str,
        columns: &[&str],
        found: impl FnMut(Batch<'_>),
    ) -> Result<(), SearchError> {
        let mut giver = Giver {
            reader: Reader::new(self, columns)?,
            records: Vec::new(),
            found,
            failed: None,
        };
        let searched = match self.zones(filter)? {
            Some(zones) => {
                let setup = self.setup.clone();
                let way = |zone: &RawZone| (zone.way != 0).then_some(zone.way);
                self.each_text(filter, &zones, way, |words, text, mut position| {
                    if words == EVERY_ROW {
                        giver.whole(text);
                        return Ok(());
                    }
                    let mut push = |record: Record<'_>| giver.push(record.bytes);
                    judge(&setup, words, text, true, &mut position, &mut push)
                })
            }
            None => self.each_of_file(filter, &mut |record| giver.push(record.bytes)),
        };
        giver.end().and(searched)
    }
}
