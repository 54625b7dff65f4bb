// SPDX-License-Identifier: Apache-2.0
// SPDX-FileCopyrightText: Copyright the Vortex contributors; ported to Rattle and changed
//! The exports of crates/vortex_c and crates/vortex_call as C sees them, written by hand. `tests/definitions` compares the
//! statuses with those crates, and the suites the rest.
//!
//! A slice crosses as a pointer and then a length. No call keeps a pointer, and none asks more than the header
//! bindings/c/doqallin.h lists.

pub const GIVEN: u32 = 0;
pub const NONE: u32 = 1;
pub const NO_MEMORY: u32 = 2;
pub const BUFFER_TOO_SMALL: u32 = 3;
pub const NOT_UTF8: u32 = 4;
pub const BAD_OFFSETS: u32 = 6;
pub const UNKNOWN_KIND: u32 = 7;
pub const TOO_MANY_ROWS: u32 = 8;
pub const TOO_SHORT: u32 = 9;
pub const BAD_BYTES: u32 = 10;
pub const BAD_FILTER: u32 = 11;
pub const WRONG_LENGTH: u32 = 12;
pub const NOT_A_VALUE: u32 = 14;
pub const REFUSED: u32 = 15;

/// How many bytes of an index say how long its root is.
pub const INDEX_HEAD: usize = 16;

#[repr(C)]
#[derive(Default)]
pub struct BoundLengths {
    pub lower: usize,
    pub upper: usize,
    pub has_upper: bool,
}

/// The code of no kind.
pub const NO_KIND: u8 = u8::MAX;

/// A kind by its code, with the precision and the scale of decimals.
#[repr(C)]
#[derive(Clone, Copy)]
pub struct KindCode {
    pub code: u8,
    pub precision: u8,
    pub scale: u8,
}

/// A column in Arrow's layout.
#[repr(C)]
pub struct ArrowColumn {
    pub kind: KindCode,
    pub validity: *const u8,
    pub validity_length: usize,
    pub values: *const u8,
    pub values_length: usize,
    pub offsets: *const u8,
    pub offsets_length: usize,
    pub offset: usize,
    pub length: usize,
}

/// Where a column is written.
#[repr(C)]
pub struct ColumnBuffers {
    pub validity: *mut u8,
    pub validity_length: usize,
    pub values: *mut u8,
    pub values_length: usize,
    pub offsets: *mut u64,
    pub offsets_length: usize,
    pub count: usize,
}

#[repr(C)]
#[derive(Default)]
pub struct Fault {
    pub column: usize,
    pub place: usize,
}

#[repr(C)]
#[derive(Default)]
pub struct Statistics {
    pub row_count: u64,
    pub null_count: u64,
    pub lower_length: usize,
    pub upper_length: usize,
    pub has_null_count: bool,
    pub has_lower: bool,
    pub lower_is_exact: bool,
    pub has_upper: bool,
    pub upper_is_exact: bool,
}

#[repr(C)]
pub struct NamedKind {
    pub name: *const u8,
    pub name_length: usize,
    pub kind: KindCode,
}

#[repr(C)]
#[derive(Default)]
pub struct Mistake {
    pub place: usize,
    pub expected: u32,
}

/// So many bytes of a file from an offset on.
#[repr(C)]
#[derive(Clone, Copy, Default)]
pub struct ByteRange {
    pub place: u64,
    pub length: u64,
}

#[repr(C)]
#[derive(Default)]
pub struct IndexParts {
    pub file_length: u64,
    pub changed: u64,
    pub start: u64,
    pub zone_count: usize,
    pub block_count: usize,
}

#[repr(C)]
#[derive(Default)]
pub struct SearchFault {
    pub place: u64,
    pub column: u64,
    pub reason: u32,
}

/// A zone of an index, and what a search does with it.
#[repr(C)]
#[derive(Clone, Copy, Default)]
pub struct FileZone {
    pub place: u64,
    pub length: u64,
    pub records: u64,
    pub rows: u64,
    pub number: u64,
    pub way: u8,
    pub decision: u8,
}

#[repr(C)]
#[derive(Default)]
pub struct PlanLengths {
    pub zones: usize,
    pub ranges: usize,
}

/// A zone of an index that is made.
#[repr(C)]
#[derive(Clone, Copy, Default)]
pub struct IndexZone {
    pub first: u64,
    pub length: u64,
    pub records: u64,
    pub rows: u64,
    pub statistics: usize,
}

#[repr(C)]
#[derive(Default)]
pub struct IndexLengths {
    pub zones: usize,
    pub statistics: usize,
    pub taken: usize,
    pub nulls: u64,
    pub longer: u64,
}

/// A record that matches.
#[repr(C)]
#[derive(Clone, Copy, Default)]
pub struct Found {
    pub place: u64,
    pub length: u64,
    pub number: u64,
}

/// Where a record begins.
#[repr(C)]
#[derive(Clone, Copy, Default)]
pub struct Position {
    pub place: u64,
    pub number: u64,
}

/// An upper bound of a value at n bytes, into a buffer.
pub type Upper = unsafe extern "C" fn(*const u8, usize, usize, *mut u8, usize, &mut usize) -> u32;

/// The bounds of a column.
pub type Column = unsafe extern "C" fn(
    *const u8,
    usize,
    *const u64,
    usize,
    usize,
    *mut u8,
    usize,
    *mut u8,
    usize,
    &mut BoundLengths,
) -> u32;

unsafe extern "C" {
    pub fn doqallin_version() -> u32;
    pub fn doqallin_cast_integer(from: u8, bits: u64, to: u8, out: &mut u64) -> u32;
    pub fn doqallin_lower_bound_bytes(value: *const u8, length: usize, n: usize) -> usize;
    pub fn doqallin_lower_bound_text(
        value: *const u8,
        length: usize,
        n: usize,
        count: &mut usize,
    ) -> u32;
    pub fn doqallin_upper_bound_bytes(
        value: *const u8,
        length: usize,
        n: usize,
        buffer: *mut u8,
        buffer_length: usize,
        count: &mut usize,
    ) -> u32;
    pub fn doqallin_upper_bound_text(
        value: *const u8,
        length: usize,
        n: usize,
        buffer: *mut u8,
        buffer_length: usize,
        count: &mut usize,
    ) -> u32;
    pub fn doqallin_may_contain_bytes(
        lower: *const u8,
        lower_length: usize,
        upper: *const u8,
        upper_length: usize,
        has_upper: bool,
        value: *const u8,
        value_length: usize,
    ) -> bool;
    pub fn doqallin_may_contain_text(
        lower: *const u8,
        lower_length: usize,
        upper: *const u8,
        upper_length: usize,
        has_upper: bool,
        value: *const u8,
        value_length: usize,
        answer: &mut bool,
    ) -> u32;
    pub fn doqallin_column_bounds_bytes(
        bytes: *const u8,
        bytes_length: usize,
        offsets: *const u64,
        offsets_length: usize,
        n: usize,
        lower_buffer: *mut u8,
        lower_buffer_length: usize,
        upper_buffer: *mut u8,
        upper_buffer_length: usize,
        lengths: &mut BoundLengths,
    ) -> u32;
    pub fn doqallin_column_bounds_text(
        bytes: *const u8,
        bytes_length: usize,
        offsets: *const u64,
        offsets_length: usize,
        n: usize,
        lower_buffer: *mut u8,
        lower_buffer_length: usize,
        upper_buffer: *mut u8,
        upper_buffer_length: usize,
        lengths: &mut BoundLengths,
    ) -> u32;
    pub fn doqallin_column_statistics(
        column: &ArrowColumn,
        max_length: usize,
        buffer: *mut u8,
        buffer_length: usize,
        count: &mut usize,
        fault: &mut Fault,
    ) -> u32;
    pub fn doqallin_merge_typed(
        kind: &KindCode,
        one: *const u8,
        one_length: usize,
        other: *const u8,
        other_length: usize,
        buffer: *mut u8,
        buffer_length: usize,
        count: &mut usize,
        fault: &mut Fault,
    ) -> u32;
    pub fn doqallin_read_typed(
        kind: &KindCode,
        bytes: *const u8,
        bytes_length: usize,
        lower_buffer: *mut u8,
        lower_buffer_length: usize,
        upper_buffer: *mut u8,
        upper_buffer_length: usize,
        parts: &mut Statistics,
        fault: &mut Fault,
    ) -> u32;
    pub fn doqallin_cast_front(
        column: &ArrowColumn,
        to: u8,
        buffer: *mut u8,
        buffer_length: usize,
        fault: &mut Fault,
    ) -> u32;
    pub fn doqallin_row_keys(
        columns: *const ArrowColumn,
        column_count: usize,
        options: *const u8,
        options_length: usize,
        offsets_buffer: *mut u64,
        offsets_buffer_length: usize,
        buffer: *mut u8,
        buffer_length: usize,
        count: &mut usize,
        fault: &mut Fault,
    ) -> u32;
    pub fn doqallin_columns_of_typed_keys(
        kinds: *const KindCode,
        kinds_length: usize,
        options: *const u8,
        options_length: usize,
        offsets: *const u64,
        offsets_length: usize,
        bytes: *const u8,
        bytes_length: usize,
        columns: *mut ColumnBuffers,
        column_count: usize,
        fault: &mut Fault,
    ) -> u32;
    pub fn doqallin_prepare_filter(
        text: *const u8,
        text_length: usize,
        columns: *const NamedKind,
        column_count: usize,
        depth: usize,
        buffer: *mut u8,
        buffer_length: usize,
        count: &mut usize,
        mistake: &mut Mistake,
    ) -> u32;
    pub fn doqallin_filter_outcomes(
        filter: *const u8,
        filter_length: usize,
        statistics: *const u8,
        statistics_length: usize,
        offsets: *const u64,
        offsets_length: usize,
        depth: usize,
        outcomes: *mut u8,
        outcomes_length: usize,
        fault: &mut Fault,
    ) -> u32;
    pub fn doqallin_filter_mask(
        filter: *const u8,
        filter_length: usize,
        columns: *const ArrowColumn,
        column_count: usize,
        row_count: usize,
        depth: usize,
        buffer: *mut u8,
        buffer_length: usize,
        fault: &mut Fault,
    ) -> u32;
    pub fn doqallin_index_root_length(
        head: *const u8,
        head_length: usize,
        length: &mut u64,
        fault: &mut SearchFault,
    ) -> u32;
    pub fn doqallin_index_root(
        root: *const u8,
        root_length: usize,
        buffer: *mut u8,
        buffer_length: usize,
        count: &mut usize,
        parts: &mut IndexParts,
        fault: &mut SearchFault,
    ) -> u32;
    pub fn doqallin_search_blocks(
        root: *const u8,
        root_length: usize,
        words: *const u8,
        words_length: usize,
        depth: usize,
        ranges: *mut ByteRange,
        ranges_length: usize,
        count: &mut usize,
        fault: &mut SearchFault,
    ) -> u32;
    pub fn doqallin_search_plan(
        root: *const u8,
        root_length: usize,
        blocks: *const u8,
        blocks_length: usize,
        words: *const u8,
        words_length: usize,
        depth: usize,
        is_count: bool,
        zones: *mut FileZone,
        zones_length: usize,
        ranges: *mut ByteRange,
        ranges_length: usize,
        lengths: &mut PlanLengths,
        fault: &mut SearchFault,
    ) -> u32;
    pub fn doqallin_search_records(
        setup: *const u8,
        setup_length: usize,
        words: *const u8,
        words_length: usize,
        depth: usize,
        text: *const u8,
        text_length: usize,
        is_end: bool,
        position: &mut Position,
        found: *mut Found,
        found_length: usize,
        count: &mut usize,
        fault: &mut SearchFault,
    ) -> u32;
    pub fn doqallin_column_kinds(
        setup: *const u8,
        setup_length: usize,
        kinds: *mut KindCode,
        kinds_length: usize,
        count: &mut usize,
        fault: &mut SearchFault,
    ) -> u32;
    pub fn doqallin_search_columns(
        setup: *const u8,
        setup_length: usize,
        words: *const u8,
        words_length: usize,
        depth: usize,
        place: u64,
        text: *const u8,
        text_length: usize,
        wanted: *const usize,
        wanted_length: usize,
        columns: *mut ColumnBuffers,
        column_count: usize,
        rows: &mut usize,
        fault: &mut SearchFault,
    ) -> u32;
    pub fn doqallin_guess_setup(
        setup: *const u8,
        setup_length: usize,
        text: *const u8,
        text_length: usize,
        has_header: bool,
        is_all: bool,
        buffer: *mut u8,
        buffer_length: usize,
        count: &mut usize,
        start: &mut u64,
        fault: &mut SearchFault,
    ) -> u32;
    pub fn doqallin_index_records(
        setup: *const u8,
        setup_length: usize,
        start: u64,
        text: *const u8,
        text_length: usize,
        is_end: bool,
        zones: *mut IndexZone,
        zones_length: usize,
        statistics: *mut u8,
        statistics_length: usize,
        lengths: &mut IndexLengths,
        fault: &mut SearchFault,
    ) -> u32;
    pub fn doqallin_write_index(
        setup: *const u8,
        setup_length: usize,
        file_length: u64,
        changed: u64,
        start: u64,
        zones: *const IndexZone,
        zones_length: usize,
        statistics: *const u8,
        statistics_length: usize,
        buffer: *mut u8,
        buffer_length: usize,
        count: &mut usize,
        fault: &mut SearchFault,
    ) -> u32;
}

#[cfg(feature = "call")]
unsafe extern "C" {
    pub fn doqallin_call_within(
        line: *const u8,
        line_length: usize,
        depth: usize,
        buffer: *mut u8,
        buffer_length: usize,
        count: &mut usize,
    ) -> u32;
}
