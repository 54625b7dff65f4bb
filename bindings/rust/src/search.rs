// SPDX-License-Identifier: Apache-2.0
// SPDX-FileCopyrightText: Copyright the Vortex contributors; ported to Rattle and changed
//! CSV files, searched by a filter.

use crate::raw::{
    ByteRange, FileZone as RawZone, Found, IndexParts, PlanLengths, Position, SearchFault,
};
use crate::{Mistake, out_of_memory, raw};
use std::fmt;
use std::fs::{self, File};
use std::io::{self, Read, Seek, SeekFrom};
use std::path::Path;
use std::time::UNIX_EPOCH;

/// How deep a filter may nest: each level takes stack.
pub(crate) const DEPTH: usize = 32;
/// So many bytes are read at once.
pub(crate) const PIECE: u64 = 4 << 20;
/// Columns are guessed from so many bytes.
const BEGINNING: u64 = 1 << 20;
/// How many records are found by one call.
const FOUND: usize = 1024;
/// What is said of a link in the place of an index.
const LINK: &str =
    "a link has the name of the index, and none is followed: remove it, and make the index again";
/// Each record that is a row matches.
pub(crate) const EVERY_ROW: &str = "true";

/// Why a file is not searched.
#[derive(Debug)]
#[non_exhaustive]
pub enum SearchError {
    /// The file, or its index, could not be read.
    Io(io::Error),
    /// The filter is none of these columns.
    Mistake {
        /// The byte at which it is none, or its length.
        place: usize,
        /// What is wrong there.
        mistake: Mistake,
    },
    /// The index is damaged, cut or another version's, a link has its name, or the file has none.
    BadIndex(&'static str),
    /// The file is not the one that its index is of: it is longer, shorter, or was changed since.
    StaleIndex,
    /// How the records are to be read cannot be read itself: columns, delimiter and words that are nulls.
    BadReading,
    /// The file has no column of this name.
    NoColumn(String),
    /// The record at this offset is no row of the columns. The column that does not take its field is named, if it is one.
    BadRecord {
        /// Where the record begins.
        offset: u64,
        /// The column, from 0.
        column: Option<usize>,
    },
}

impl fmt::Display for SearchError {
    fn fmt(&self, f: &mut fmt::Formatter<'_>) -> fmt::Result {
        match self {
            SearchError::Io(error) => error.fmt(f),
            SearchError::Mistake { place, mistake } => write!(f, "byte {place}: {mistake}"),
            SearchError::BadIndex(words) => f.write_str(words),
            SearchError::StaleIndex => {
                f.write_str("the file is not as it was when its index was made")
            }
            SearchError::BadReading => f.write_str("the columns or the delimiter cannot be read"),
            SearchError::NoColumn(name) => write!(f, "there is no column {name:?}"),
            SearchError::BadRecord {
                offset,
                column: Some(column),
            } => {
                write!(
                    f,
                    "the record at byte {offset}: column {column} does not take its field"
                )
            }
            SearchError::BadRecord { offset, .. } => {
                write!(f, "the record at byte {offset} is no row of the columns")
            }
        }
    }
}

impl std::error::Error for SearchError {}

impl From<io::Error> for SearchError {
    fn from(error: io::Error) -> SearchError {
        SearchError::Io(error)
    }
}

const OF_INDEX: [&str; 5] = [
    "the index is cut",
    "this is no index",
    "another version wrote the index",
    "the index is damaged",
    "bytes follow the index",
];

/// The error of a status.
pub(crate) fn refusal(status: u32, fault: &SearchFault) -> SearchError {
    match status {
        raw::NO_MEMORY => out_of_memory(0),
        raw::BAD_FILTER => SearchError::Mistake {
            place: fault.place as usize,
            mistake: Mistake::of(fault.reason),
        },
        raw::REFUSED => SearchError::BadRecord {
            offset: fault.place,
            column: (fault.reason == 0).then_some(fault.column as usize),
        },
        raw::BAD_BYTES => SearchError::BadIndex(OF_INDEX[fault.reason as usize % OF_INDEX.len()]),
        _ => SearchError::BadIndex("a zone of the index ends behind what 64 bits count"),
    }
}

/// What a search does with a zone.
#[derive(Clone, Copy, Debug, PartialEq, Eq, Hash)]
pub enum Way {
    /// No row of it matches: it is not read.
    Skip,
    /// Each row of it matches.
    Whole,
    /// Its rows are tested.
    Search,
}

impl Way {
    fn of(code: u8) -> Way {
        match code {
            0 => Way::Skip,
            1 => Way::Whole,
            _ => Way::Search,
        }
    }
}

/// A zone of a file: so many records next to each other.
#[derive(Clone, Copy, Debug, PartialEq, Eq)]
pub struct FileZone {
    /// Where it begins in the file, in bytes.
    pub offset: u64,
    /// How many bytes it has.
    pub length: u64,
    /// How many records it has.
    pub records: u64,
    /// How many of them are rows: an empty line is none.
    pub rows: u64,
    /// What the search does with it.
    pub way: Way,
}

/// How the records of a file without an index are read. What is not said is guessed.
#[derive(Clone, Debug)]
pub struct Reading<'a> {
    /// The byte between fields; none if each line is one field.
    pub delimiter: Option<u8>,
    /// Columns by name and kind, as `("fare", "decimal(10,2)?")`.
    pub columns: &'a [(&'a str, &'a str)],
    /// Words that are nulls.
    pub nulls: &'a [&'a str],
    /// Whether the first record has the names of the columns.
    pub has_header: bool,
    /// Whether words that do not fit are nulls, and ragged records are taken.
    pub is_lenient: bool,
}

impl Default for Reading<'_> {
    fn default() -> Self {
        Reading {
            delimiter: Some(b','),
            columns: &[],
            nulls: &[],
            has_header: false,
            is_lenient: false,
        }
    }
}

impl Reading<'_> {
    /// The text of the setup that this is.
    fn setup(&self) -> String {
        let nulls = self.nulls.iter().map(|word| format!("null {word}\n"));
        let numbers = format!(
            "{} {} 0 0\n",
            self.delimiter.unwrap_or(255),
            u8::from(self.is_lenient)
        );
        let columns = self
            .columns
            .iter()
            .map(|(name, kind)| format!("{} {name}\n", kind.replace(' ', "")));
        nulls.chain([numbers]).chain(columns).collect()
    }
}

/// A record that matches.
#[derive(Clone, Copy, Debug, PartialEq, Eq)]
pub struct Record<'a> {
    /// Its bytes as they are in the file, with its line end.
    pub bytes: &'a [u8],
    /// Where it begins in the file.
    pub offset: u64,
    /// Its number; the first one of the file has 1.
    pub number: u64,
}

/// An index, whose root was read.
struct Index<R> {
    file: R,
    root: Vec<u8>,
    zone_count: usize,
    block_count: usize,
}

/// So many bytes from an offset on, or those that are there.
pub(crate) fn read_at<R: Read + Seek>(
    file: &mut R,
    offset: u64,
    length: u64,
    text: &mut Vec<u8>,
) -> io::Result<()> {
    file.seek(SeekFrom::Start(offset))?;
    file.by_ref().take(length).read_to_end(text)?;
    Ok(())
}

impl<R: Read + Seek> Index<R> {
    /// An index, what it is of, and how the file's records are read.
    fn read(mut file: R) -> Result<(Index<R>, IndexParts, Vec<u8>), SearchError> {
        let (mut head, mut length, mut fault) = (Vec::new(), 0, SearchFault::default());
        read_at(&mut file, 0, raw::INDEX_HEAD as u64, &mut head)?;
        // SAFETY: pointer and length are of one slice; `length` and `fault` are places of their own.
        let status = unsafe {
            raw::doqallin_index_root_length(head.as_ptr(), head.len(), &mut length, &mut fault)
        };
        if status != raw::GIVEN {
            return Err(refusal(status, &fault));
        }
        let (mut root, mut parts, mut setup) = (Vec::new(), IndexParts::default(), vec![0; 1024]);
        read_at(&mut file, 0, length, &mut root)?;
        loop {
            let mut count = 0;
            // SAFETY: as above; the buffer, `count` and `parts` are places of their own.
            let status = unsafe {
                raw::doqallin_index_root(
                    root.as_ptr(),
                    root.len(),
                    setup.as_mut_ptr(),
                    setup.len(),
                    &mut count,
                    &mut parts,
                    &mut fault,
                )
            };
            setup.resize(count, 0);
            match status {
                raw::GIVEN => break,
                raw::BUFFER_TOO_SMALL => {}
                _ => return Err(refusal(status, &fault)),
            }
        }
        let (zone_count, block_count) = (parts.zone_count, parts.block_count);
        Ok((
            Index {
                file,
                root,
                zone_count,
                block_count,
            },
            parts,
            setup,
        ))
    }

    /// The statistics of the columns that a filter names.
    fn blocks(&mut self, filter: &str) -> Result<Vec<u8>, SearchError> {
        let mut ranges = vec![ByteRange::default(); self.block_count];
        let (mut count, mut fault) = (0, SearchFault::default());
        // SAFETY: each pointer and length are of one slice; the ranges, `count` and `fault` are places of their own.
        let status = unsafe {
            raw::doqallin_search_blocks(
                self.root.as_ptr(),
                self.root.len(),
                filter.as_ptr(),
                filter.len(),
                DEPTH,
                ranges.as_mut_ptr(),
                ranges.len(),
                &mut count,
                &mut fault,
            )
        };
        if status != raw::GIVEN {
            return Err(refusal(status, &fault));
        }
        let mut blocks = Vec::new();
        for range in &ranges[..count] {
            read_at(&mut self.file, range.place, range.length, &mut blocks)?;
        }
        Ok(blocks)
    }

    /// What a search does with each zone.
    fn plan(&mut self, filter: &str, is_count: bool) -> Result<Vec<RawZone>, SearchError> {
        let blocks = self.blocks(filter)?;
        let mut zones = vec![RawZone::default(); self.zone_count];
        let mut ranges = vec![ByteRange::default(); self.zone_count];
        let (mut lengths, mut fault) = (PlanLengths::default(), SearchFault::default());
        // SAFETY: each pointer and length are of one slice; what is written has places of its own.
        let status = unsafe {
            raw::doqallin_search_plan(
                self.root.as_ptr(),
                self.root.len(),
                blocks.as_ptr(),
                blocks.len(),
                filter.as_ptr(),
                filter.len(),
                DEPTH,
                is_count,
                zones.as_mut_ptr(),
                zones.len(),
                ranges.as_mut_ptr(),
                ranges.len(),
                &mut lengths,
                &mut fault,
            )
        };
        if status != raw::GIVEN {
            return Err(refusal(status, &fault));
        }
        zones.truncate(lengths.zones);
        Ok(zones)
    }
}

/// A CSV file that is searched by a filter, in the words of docs/FILTERS.md.
///
/// A file with an index, which `zone_map index` or [`index`](Search::index) makes, is read only where rows may match; another one is
/// read whole. Bytes are read by [`Read`] and [`Seek`], so the file may lie anywhere.
///
/// ```
/// use doqallin::{Reading, Search};
///
/// let text = "id,city,fare\n1,Oslo,9.5\n2,Bergen,12.25\n3,Oslo,30\n";
/// let reading = Reading { has_header: true, ..Reading::default() };
/// let mut trips = Search::guessed(std::io::Cursor::new(text), &reading)?;
/// assert_eq!(trips.columns()[2], ("fare".into(), "decimal(18,2)?".into()));
/// assert_eq!(trips.count("city = 'Oslo'")?, 2);
/// let mut found = Vec::new();
/// trips.each("fare >= 10.5 and city = 'Oslo'", |record| found.extend_from_slice(record.bytes))?;
/// assert_eq!(found, b"3,Oslo,30\n");
/// # Ok::<(), doqallin::SearchError>(())
/// ```
pub struct Search<R> {
    pub(crate) file: R,
    pub(crate) setup: Vec<u8>,
    pub(crate) start: u64,
    index: Option<Index<R>>,
}

impl Search<File> {
    /// The file of this path, with its index `PATH.zones` if it has one, or else with columns that are guessed.
    pub fn open(path: impl AsRef<Path>) -> Result<Search<File>, SearchError> {
        let (path, file) = (path.as_ref(), File::open(path.as_ref())?);
        let mut name = path.as_os_str().to_owned();
        name.push(".zones");
        if fs::symlink_metadata(&name).is_ok_and(|found| found.is_symlink()) {
            return Err(SearchError::BadIndex(LINK));
        }
        match File::open(name) {
            Ok(index) => {
                let changed = file
                    .metadata()?
                    .modified()?
                    .duration_since(UNIX_EPOCH)
                    .unwrap_or_default();
                Search::of_index(file, index, u64::try_from(changed.as_nanos()).ok())
            }
            Err(error) if error.kind() == io::ErrorKind::NotFound => {
                Search::guessed(file, &Reading::default())
            }
            Err(error) => Err(SearchError::Io(error)),
        }
    }
}

impl<R: Read + Seek> Search<R> {
    /// A file and its index. Whether the file was changed since is seen by its length alone.
    pub fn with_index(file: R, index: R) -> Result<Search<R>, SearchError> {
        Search::of_index(file, index, None)
    }

    fn of_index(mut file: R, index: R, changed: Option<u64>) -> Result<Search<R>, SearchError> {
        let (index, parts, setup) = Index::read(index)?;
        let length = file.seek(SeekFrom::End(0))?;
        if length != parts.file_length || changed.is_some_and(|changed| changed != parts.changed) {
            return Err(SearchError::StaleIndex);
        }
        let start = parts.start;
        Ok(Search {
            file,
            setup,
            start,
            index: Some(index),
        })
    }

    /// A file without an index. Columns that are not named are guessed from its first thousand records.
    pub fn guessed(mut file: R, reading: &Reading<'_>) -> Result<Search<R>, SearchError> {
        let (given, mut first, mut start) = (reading.setup(), Vec::new(), 0);
        read_at(&mut file, 0, BEGINNING, &mut first)?;
        let (is_all, mut setup) = ((first.len() as u64) < BEGINNING, vec![0; 1024]);
        loop {
            let (mut count, mut fault) = (0, SearchFault::default());
            // SAFETY: each pointer and length are of one slice; what is written has places of its own.
            let status = unsafe {
                raw::doqallin_guess_setup(
                    given.as_ptr(),
                    given.len(),
                    first.as_ptr(),
                    first.len(),
                    reading.has_header,
                    is_all,
                    setup.as_mut_ptr(),
                    setup.len(),
                    &mut count,
                    &mut start,
                    &mut fault,
                )
            };
            match status {
                raw::BUFFER_TOO_SMALL => setup.resize(count, 0),
                raw::GIVEN => {
                    setup.truncate(count);
                    return Ok(Search {
                        file,
                        setup,
                        start,
                        index: None,
                    });
                }
                raw::BAD_BYTES => return Err(SearchError::BadReading),
                _ => return Err(refusal(status, &fault)),
            }
        }
    }

    /// The columns' names and kinds.
    #[must_use]
    pub fn columns(&self) -> Vec<(String, String)> {
        let text = String::from_utf8_lossy(&self.setup);
        let named = text
            .lines()
            .skip_while(|line| line.starts_with("null "))
            .skip(1);
        named
            .filter_map(|line| line.split_once(' '))
            .map(|(kind, name)| (name.into(), kind.into()))
            .collect()
    }

    /// The zones of a file with an index, and what a search by this filter does with each. Without an index there is none.
    pub fn plan(&mut self, filter: &str) -> Result<Vec<FileZone>, SearchError> {
        let zones = match &mut self.index {
            Some(index) => index.plan(filter, false)?,
            None => Vec::new(),
        };
        let zone = |zone: &RawZone| FileZone {
            offset: zone.place,
            length: zone.length,
            records: zone.records,
            rows: zone.rows,
            way: Way::of(zone.way),
        };
        Ok(zones.iter().map(zone).collect())
    }

    /// What a search by this filter does with each zone, if there is an index.
    pub(crate) fn zones(&mut self, filter: &str) -> Result<Option<Vec<RawZone>>, SearchError> {
        let plan = |index: &mut Index<R>| index.plan(filter, false);
        self.index.as_mut().map(plan).transpose()
    }

    /// Gives each record that matches, in the file's order. `BadRecord` comes behind those before that record.
    pub fn each(
        &mut self,
        filter: &str,
        mut found: impl FnMut(Record<'_>),
    ) -> Result<(), SearchError> {
        match self.zones(filter)? {
            Some(zones) => self.each_of_zones(
                filter,
                &zones,
                |zone| (zone.way != 0).then_some(zone.way),
                &mut found,
            ),
            None => self.each_of_file(filter, &mut found),
        }
    }

    /// How many rows match. A zone is not read where its statistics say that all do, or none.
    pub fn count(&mut self, filter: &str) -> Result<u64, SearchError> {
        let mut count = 0;
        match &mut self.index {
            Some(index) => {
                let zones = index.plan(filter, true)?;
                self.each_of_zones(
                    filter,
                    &zones,
                    |zone| (zone.decision == 2).then_some(2),
                    &mut |_| count += 1,
                )?;
                Ok(count
                    + zones
                        .iter()
                        .filter(|zone| zone.decision == 1)
                        .map(|zone| zone.rows)
                        .sum::<u64>())
            }
            None => {
                self.each_of_file(filter, &mut |_| count += 1)?;
                Ok(count)
            }
        }
    }

    /// The records that match in the zones that have a way.
    fn each_of_zones(
        &mut self,
        filter: &str,
        zones: &[RawZone],
        way: impl Fn(&RawZone) -> Option<u8>,
        found: &mut impl FnMut(Record<'_>),
    ) -> Result<(), SearchError> {
        let setup = self.setup.clone();
        self.each_text(filter, zones, way, |words, text, mut position| {
            judge(&setup, words, text, true, &mut position, found)
        })
    }

    /// The texts of the zones that have a way, those next to each other read at once: what is sought in each, its bytes, and where
    /// its first record begins.
    pub(crate) fn each_text(
        &mut self,
        filter: &str,
        zones: &[RawZone],
        way: impl Fn(&RawZone) -> Option<u8>,
        mut take: impl FnMut(&str, &[u8], Position) -> Result<(), SearchError>,
    ) -> Result<(), SearchError> {
        let are_one = |a: &RawZone, b: &RawZone| way(a) == way(b) && a.place + a.length == b.place;
        let mut text = Vec::new();
        for run in zones.chunk_by(are_one) {
            let Some(taken) = way(&run[0]) else { continue };
            for some in run.chunks(64) {
                let (first, last) = (&some[0], &some[some.len() - 1]);
                text.clear();
                read_at(
                    &mut self.file,
                    first.place,
                    last.place + last.length - first.place,
                    &mut text,
                )?;
                let position = Position {
                    place: first.place,
                    number: first.number + 1,
                };
                take(if taken == 1 { EVERY_ROW } else { filter }, &text, position)?;
            }
        }
        Ok(())
    }

    /// The records that match in a file that is read whole.
    pub(crate) fn each_of_file(
        &mut self,
        filter: &str,
        found: &mut impl FnMut(Record<'_>),
    ) -> Result<(), SearchError> {
        let mut position = Position {
            place: self.start,
            number: 1,
        };
        let (mut text, mut next) = (Vec::new(), self.start);
        loop {
            let (left, wanted) = (text.len(), PIECE.max(text.len() as u64));
            read_at(&mut self.file, next, wanted, &mut text)?;
            let (read, start) = (text.len() - left, position.place);
            next += read as u64;
            let is_end = (read as u64) < wanted;
            judge(&self.setup, filter, &text, is_end, &mut position, found)?;
            if is_end {
                return Ok(());
            }
            text.drain(..(position.place - start) as usize);
        }
    }
}

/// Gives the records of a text that match. The position goes on to the first record that was not judged.
pub(crate) fn judge(
    setup: &[u8],
    filter: &str,
    text: &[u8],
    is_end: bool,
    position: &mut Position,
    found: &mut impl FnMut(Record<'_>),
) -> Result<(), SearchError> {
    let start = position.place;
    let mut records = [Found::default(); FOUND];
    loop {
        let rest = &text[(position.place - start) as usize..];
        let (mut count, mut fault) = (0, SearchFault::default());
        // SAFETY: each pointer and length are of one slice; what is written has places of its own.
        let status = unsafe {
            raw::doqallin_search_records(
                setup.as_ptr(),
                setup.len(),
                filter.as_ptr(),
                filter.len(),
                DEPTH,
                rest.as_ptr(),
                rest.len(),
                is_end,
                position,
                records.as_mut_ptr(),
                FOUND,
                &mut count,
                &mut fault,
            )
        };
        match status {
            raw::GIVEN | raw::REFUSED => {}
            raw::BAD_BYTES => return Err(SearchError::BadReading),
            _ => return Err(refusal(status, &fault)),
        }
        for one in &records[..count] {
            let from = (one.place - start) as usize;
            let bytes = &text[from..from + one.length as usize];
            found(Record {
                bytes,
                offset: one.place,
                number: one.number,
            });
        }
        if status == raw::REFUSED {
            return Err(refusal(status, &fault));
        }
        if count < FOUND {
            return Ok(());
        }
    }
}
