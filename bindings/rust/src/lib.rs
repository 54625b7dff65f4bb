// SPDX-License-Identifier: Apache-2.0
// SPDX-FileCopyrightText: Copyright the Vortex contributors; ported to Rattle and changed
//! Columns as Arrow lays them out: statistics, filters that skip what cannot match, keys that sort as the rows do, and casts
//! that never change a value. Bounds that never exclude a value. With the feature `call`, nearly any other call of the library
//! by a line of text.
//!
//! The work is done by functions that are proved against their contracts, in Rattle. This crate is their safe face: it
//! is plain Rust, and not proved.
//!
//! ```
//! use doqallin::{Column, Filter, Kind, SortOptions, Statistics, cast_column, row_keys};
//!
//! let zones = [Column::integers(&[3i64, 5]), Column::integers(&[7i64, 90])];
//! let known = [Statistics::of(&zones[0], 16)?, Statistics::of(&zones[1], 16)?];
//! let wanted = Filter::parse("fare > 6", &[("fare", Kind::I64)])?;
//! assert_eq!(wanted.prune([&[Some(&known[0])][..], &[Some(&known[1])]])?, [1]);
//! assert_eq!(wanted.mask(&[zones[1]], 2)?, [true, true]);
//!
//! let (cities, fares) = (Column::utf8(b"osloskien", &[0, 4, 9]), Column::integers(&[12i64, 7]));
//! let keys = row_keys(&[cities, fares], &[SortOptions::default(); 2])?;
//! assert!(keys.get(0) < keys.get(1));
//! assert_eq!(cast_column::<u8>(&fares)?, [12, 7]);
//! # Ok::<(), Box<dyn std::error::Error>>(())
//! ```
//!
//! Columns have integers, floats, decimals, dates, times, timestamps, bools, strings or bytes. Floats sort as in PostgreSQL: NaN is
//! equal to itself and above infinity, and -0.0 equals 0.0.
//!
//! Of strings the statistics have bounds, and count the nulls apart:
//!
//! ```
//! use doqallin::{Column, Filter, Item, Kind, Statistics};
//!
//! let fruits = Column::utf8(b"bananaapplecherry pie with cream", &[0, 6, 11, 11, 32]).with_validity(&[0b1011]);
//! let known = Statistics::of(&fruits, 16)?;
//! assert_eq!(known.null_count(), Some(1));
//! assert_eq!(known.lower(), Some(&Item::Utf8("apple".into())));
//! assert_eq!(known.upper(), Some(&Item::Utf8("cherry pie with!".into())));
//! let wanted = Filter::parse("fruit = 'zucchini'", &[("fruit", Kind::Utf8)])?;
//! assert!(!wanted.outcomes(&[Some(&known)])?.may_match());
//! # Ok::<(), Box<dyn std::error::Error>>(())
//! ```

mod arrow;
mod batches;
#[cfg(feature = "call")]
mod call;
mod column;
mod filter;
mod filter_text;
mod float;
mod indexing;
mod integer;
mod keys;
mod kinds;
mod mistake;
mod raw;
mod search;
mod statistics;
mod truncation;
mod zone;

pub use arrow::{Buffer, CastError, Column, ColumnFault, Item, RowsError, Stored, cast_column};
pub use batches::Batch;
#[cfg(feature = "call")]
pub use call::{call, call_within};
pub use column::{ColumnError, column_bounds, column_bounds_text};
pub use filter::{Filter, FilterError, Outcomes};
pub use float::Float;
pub use indexing::Indexing;
pub use integer::{Integer, cast};
pub use keys::{KeysError, OwnedColumn, RowKeys, SortOptions, row_keys, sort_rows};
pub use kinds::{DecimalKind, DecimalWidth, Kind, TimeUnit};
pub use mistake::Mistake;
pub use search::{FileZone, Reading, Record, Search, SearchError, Way};
pub use statistics::{Statistics, StatisticsError};
pub use truncation::{lower_bound, lower_bound_text, upper_bound, upper_bound_text};
pub use zone::{Value, ZoneBounds};

/// The version of this crate, as `0.1.0`.
pub const VERSION: &str = env!("CARGO_PKG_VERSION");

/// The version of the library that is linked, as `0.1.0`.
#[must_use]
pub fn library_version() -> String {
    // SAFETY: the call takes nothing.
    let [_, major, minor, patch] = unsafe { raw::doqallin_version() }.to_be_bytes();
    format!("{major}.{minor}.{patch}")
}

/// Ends the process as a `Vec` does that finds no memory for so many bytes.
fn out_of_memory(bytes: usize) -> ! {
    match std::alloc::Layout::array::<u8>(bytes) {
        Ok(layout) => std::alloc::handle_alloc_error(layout),
        Err(_) => panic!("capacity overflow"),
    }
}
