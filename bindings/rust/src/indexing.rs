// SPDX-License-Identifier: Apache-2.0
// SPDX-FileCopyrightText: Copyright the Vortex contributors; ported to Rattle and changed
//! Indexes of CSV files, made piece by piece.

use crate::raw::{IndexLengths, IndexZone, SearchFault};
use crate::search::{PIECE, read_at, refusal};
use crate::{Reading, Search, SearchError, raw};
use std::fs::{self, File, OpenOptions};
use std::io::{self, Read, Seek, Write};
use std::path::Path;
use std::time::UNIX_EPOCH;

/// How many bytes a decimal of more than 18 digits is stored in, which no bound may cut.
const WIDE: usize = 16;
/// How many names are tried for a new file.
const NAMES: u32 = 1000;

/// How an index is made.
#[derive(Clone, Copy, Debug)]
pub struct Indexing {
    /// How many records a zone has, at least one.
    pub zone_rows: u64,
    /// How many bytes bounds of strings and bytes have at most.
    pub bound_length: usize,
    /// When the file was changed last, in nanoseconds since 1970. [`Search::open`] sees by it that the file changed since.
    pub changed: u64,
}

impl Default for Indexing {
    fn default() -> Self {
        Indexing {
            zone_rows: 1000,
            bound_length: 24,
            changed: 0,
        }
    }
}

/// The zones of a file so far, and their statistics.
struct Made {
    zones: Vec<IndexZone>,
    statistics: Vec<u8>,
    /// Where the last zone ends.
    end: u64,
}

impl<R: Read + Seek> Search<R> {
    /// The bytes of an index of the file, as `zone_map index` writes them. The file is read once, piece by piece.
    ///
    /// ```
    /// use doqallin::{Indexing, Reading, Search};
    /// use std::io::Cursor;
    ///
    /// let text = "id,city\n1,Oslo\n2,Bergen\n3,Moss\n";
    /// let reading = Reading { has_header: true, ..Reading::default() };
    /// let indexing = Indexing { zone_rows: 2, ..Indexing::default() };
    /// let index = Search::guessed(Cursor::new(text), &reading)?.index(&indexing)?;
    /// let mut cities = Search::with_index(Cursor::new(text.as_bytes()), Cursor::new(&index))?;
    /// assert_eq!(cities.plan("id = 3")?.len(), 2);
    /// assert_eq!(cities.count("city < 'N'")?, 2);
    /// # Ok::<(), doqallin::SearchError>(())
    /// ```
    pub fn index(&mut self, indexing: &Indexing) -> Result<Vec<u8>, SearchError> {
        let setup = self.sized(indexing);
        let mut made = Made {
            zones: Vec::new(),
            statistics: Vec::new(),
            end: self.start,
        };
        let (mut text, mut next) = (Vec::new(), self.start);
        loop {
            let (left, wanted) = (text.len(), PIECE.max(text.len() as u64));
            read_at(&mut self.file, next, wanted, &mut text)?;
            let read = (text.len() - left) as u64;
            next += read;
            let taken = made.add(&setup, &text, read < wanted)?;
            text.drain(..taken);
            if read < wanted {
                return made.bytes(&setup, self.start, self.columns().len(), indexing.changed);
            }
        }
    }

    /// The setup with what is said of zones and bounds, so that no bound cuts a number.
    fn sized(&self, indexing: &Indexing) -> Vec<u8> {
        let is_wide = |kind: &str| {
            let digits = kind
                .strip_prefix("decimal(")
                .and_then(|rest| rest.split(',').next());
            digits.is_some_and(|digits| digits.parse::<u32>().is_ok_and(|digits| digits > 18))
        };
        let least = if self.columns().iter().any(|(_, kind)| is_wide(kind)) {
            WIDE
        } else {
            0
        };
        let sizes = format!(
            "{} {}",
            indexing.bound_length.max(least),
            indexing.zone_rows
        );
        let text = String::from_utf8_lossy(&self.setup);
        let mut lines: Vec<String> = text.split('\n').map(String::from).collect();
        if let Some(numbers) = lines.iter_mut().find(|line| !line.starts_with("null ")) {
            let kept: Vec<&str> = numbers.splitn(3, ' ').take(2).collect();
            *numbers = format!("{} {sizes}", kept.join(" "));
        }
        lines.join("\n").into_bytes()
    }
}

impl Made {
    /// Adds the zones of a text that stands behind those so far. Says how many bytes of it they have.
    fn add(&mut self, setup: &[u8], text: &[u8], is_end: bool) -> Result<usize, SearchError> {
        let (mut zones, mut statistics) = (vec![IndexZone::default(); 4096], vec![0; 1 << 18]);
        let (mut lengths, mut fault) = (IndexLengths::default(), SearchFault::default());
        loop {
            // SAFETY: each pointer and length are of one slice; what is written has places of its own.
            let status = unsafe {
                raw::doqallin_index_records(
                    setup.as_ptr(),
                    setup.len(),
                    self.end,
                    text.as_ptr(),
                    text.len(),
                    is_end,
                    zones.as_mut_ptr(),
                    zones.len(),
                    statistics.as_mut_ptr(),
                    statistics.len(),
                    &mut lengths,
                    &mut fault,
                )
            };
            match status {
                raw::GIVEN => break,
                raw::BUFFER_TOO_SMALL => {
                    zones.resize(lengths.zones.max(zones.len()), IndexZone::default());
                    statistics.resize(lengths.statistics.max(statistics.len()), 0);
                }
                raw::BAD_BYTES => return Err(SearchError::BadReading),
                _ => return Err(refusal(status, &fault)),
            }
        }
        self.zones.extend_from_slice(&zones[..lengths.zones]);
        self.statistics
            .extend_from_slice(&statistics[..lengths.statistics]);
        self.end += lengths.taken as u64;
        Ok(lengths.taken)
    }

    /// The bytes of the index of a file with so many columns that ends with these zones.
    fn bytes(
        &self,
        setup: &[u8],
        start: u64,
        columns: usize,
        changed: u64,
    ) -> Result<Vec<u8>, SearchError> {
        let room = 96 + setup.len() + self.statistics.len() + 32 * self.zones.len() + 40 * columns;
        let (mut buffer, mut count, mut fault) = (vec![0; room], 0, SearchFault::default());
        // SAFETY: as above.
        let status = unsafe {
            raw::doqallin_write_index(
                setup.as_ptr(),
                setup.len(),
                self.end,
                changed,
                start,
                self.zones.as_ptr(),
                self.zones.len(),
                self.statistics.as_ptr(),
                self.statistics.len(),
                buffer.as_mut_ptr(),
                buffer.len(),
                &mut count,
                &mut fault,
            )
        };
        if status != raw::GIVEN {
            return Err(refusal(status, &fault));
        }
        buffer.truncate(count);
        Ok(buffer)
    }
}

impl Search<File> {
    /// Makes the index `PATH.zones` of a file that is read so, and opens the file by it. The index is written whole or not at all, to
    /// a new file beside it that then takes its name; no link with this name is followed.
    pub fn write_index(
        path: impl AsRef<Path>,
        reading: &Reading<'_>,
        indexing: &Indexing,
    ) -> Result<Search<File>, SearchError> {
        let (path, file) = (path.as_ref(), File::open(path.as_ref())?);
        let stamp = |file: &File| -> io::Result<(u64, u64)> {
            let found = file.metadata()?;
            let changed = found.modified()?.duration_since(UNIX_EPOCH);
            let nanoseconds = u64::try_from(changed.unwrap_or_default().as_nanos());
            Ok((found.len(), nanoseconds.unwrap_or(u64::MAX)))
        };
        let before = stamp(&file)?;
        let indexing = Indexing {
            changed: before.1,
            ..*indexing
        };
        let mut search = Search::guessed(file, reading)?;
        let index = search.index(&indexing)?;
        if stamp(&search.file)? != before {
            return Err(SearchError::StaleIndex);
        }
        let mut name = path.as_os_str().to_owned();
        name.push(".zones");
        replace(Path::new(&name), &index)?;
        Search::open(path)
    }
}

/// Writes a file of this name, whole or not at all.
fn replace(name: &Path, bytes: &[u8]) -> io::Result<()> {
    for number in 1..=NAMES {
        let mut temporary = name.as_os_str().to_owned();
        temporary.push(format!(".new{number}"));
        let mut output = match OpenOptions::new()
            .write(true)
            .create_new(true)
            .open(&temporary)
        {
            Ok(output) => output,
            Err(error) if error.kind() == io::ErrorKind::AlreadyExists => continue,
            Err(error) => return Err(error),
        };
        let done = output
            .write_all(bytes)
            .and_then(|()| output.sync_all())
            .and_then(|()| fs::rename(&temporary, name));
        if done.is_err() {
            let _ = fs::remove_file(&temporary);
        }
        return done;
    }
    Err(io::Error::from(io::ErrorKind::AlreadyExists))
}
