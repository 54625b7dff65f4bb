// SPDX-License-Identifier: Apache-2.0
// SPDX-FileCopyrightText: Copyright the Vortex contributors; ported to Rattle and changed
//! Random columns of each kind, compared with plain Rust: slices that begin at any row, with rubbish under nulls and round them.
//! 100,000 of each kind, or as many as DOQALLIN_COUNT says.

use doqallin::*;
use std::cmp::Ordering;

/// A xorshift generator.
struct Random(u64);

const KINDS: [Kind; 14] = [
    Kind::U8,
    Kind::U16,
    Kind::U32,
    Kind::U64,
    Kind::I8,
    Kind::I16,
    Kind::I32,
    Kind::I64,
    Kind::Bool,
    Kind::Utf8,
    Kind::LargeUtf8,
    Kind::Binary,
    Kind::LargeBinary,
    Kind::Null,
];

/// Kinds of logical types.
fn logical_kinds() -> Vec<Kind> {
    let units = [
        TimeUnit::Seconds,
        TimeUnit::Milliseconds,
        TimeUnit::Microseconds,
        TimeUnit::Nanoseconds,
    ];
    let decimals = [
        (DecimalWidth::Bits32, 9, 2),
        (DecimalWidth::Bits64, 10, 2),
        (DecimalWidth::Bits64, 18, 18),
        (DecimalWidth::Bits128, 10, 2),
        (DecimalWidth::Bits128, 19, 0),
        (DecimalWidth::Bits128, 38, 9),
    ];
    let decimal = |(width, precision, scale)| DecimalKind::new(width, precision, scale).unwrap();
    let times = [Kind::Time, Kind::Timestamp, Kind::TimestampUtc].map(|of| units.map(of));
    [Kind::F32, Kind::F64, Kind::Date32]
        .into_iter()
        .chain(times.into_iter().flatten())
        .chain(decimals.map(decimal).map(Kind::Decimal))
        .collect()
}

fn all_kinds() -> Vec<Kind> {
    KINDS.into_iter().chain(logical_kinds()).collect()
}

fn count() -> usize {
    let told = std::env::var("DOQALLIN_COUNT").ok();
    told.map_or(100_000, |told| told.parse().expect("a number"))
}

impl Random {
    fn next(&mut self) -> u64 {
        self.0 ^= self.0 << 13;
        self.0 ^= self.0 >> 7;
        self.0 ^= self.0 << 17;
        self.0
    }

    fn below(&mut self, end: usize) -> usize {
        (self.next() % end as u64) as usize
    }

    fn one_in(&mut self, of: usize) -> bool {
        self.below(of) == 0
    }

    fn one_of<T: Copy>(&mut self, of: &[T]) -> T {
        of[self.below(of.len())]
    }

    fn bytes(&mut self, length: usize) -> Vec<u8> {
        (0..length).map(|_| self.next() as u8).collect()
    }

    fn text(&mut self, of_strings: bool) -> Vec<u8> {
        let length = self.below(9);
        if !of_strings {
            return (0..length).map(|_| self.one_of(&[0, 1, 255, 97])).collect();
        }
        let letters = [
            'a',
            '\0',
            '\u{7f}',
            'ñ',
            '\u{7ff}',
            '€',
            '\u{d7ff}',
            '𐍈',
            '\u{10ffff}',
        ];
        (0..length)
            .map(|_| self.one_of(&letters))
            .collect::<String>()
            .into_bytes()
    }
}

/// How many bytes an item has.
fn width(kind: Kind) -> usize {
    match kind {
        Kind::U8 | Kind::I8 => 1,
        Kind::U16 | Kind::I16 => 2,
        Kind::U32 | Kind::I32 | Kind::F32 | Kind::Date32 => 4,
        Kind::Time(TimeUnit::Seconds | TimeUnit::Milliseconds) => 4,
        Kind::Decimal(of) => match of.width() {
            DecimalWidth::Bits32 => 4,
            DecimalWidth::Bits64 => 8,
            DecimalWidth::Bits128 => 16,
        },
        _ => 8,
    }
}

fn is_integer(kind: Kind) -> bool {
    KINDS[..8].contains(&kind)
}

fn is_float(kind: Kind) -> bool {
    matches!(kind, Kind::F32 | Kind::F64)
}

/// Whether a column has an item for each row.
fn has_items(kind: Kind) -> bool {
    is_integer(kind) || !KINDS.contains(&kind)
}

fn is_text(kind: Kind) -> bool {
    matches!(kind, Kind::Utf8 | Kind::LargeUtf8)
}

fn offset_width(kind: Kind) -> usize {
    if matches!(kind, Kind::Utf8 | Kind::Binary) {
        4
    } else {
        8
    }
}

/// How many of a unit a second has.
fn in_a_second(unit: TimeUnit) -> i128 {
    match unit {
        TimeUnit::Seconds => 1,
        TimeUnit::Milliseconds => 1_000,
        TimeUnit::Microseconds => 1_000_000,
        TimeUnit::Nanoseconds => 1_000_000_000,
    }
}

/// The least and the greatest integer of a kind, or those that store its values: the years are -9999 to 9999.
fn limits(kind: Kind) -> (i128, i128) {
    let bits = 8 * width(kind);
    match kind {
        Kind::U8 | Kind::U16 | Kind::U32 | Kind::U64 => (0, (1 << bits) - 1),
        Kind::Date32 => (-4_371_587, 2_932_896),
        Kind::Time(unit) => (0, 86_400 * in_a_second(unit) - 1),
        Kind::Timestamp(unit) | Kind::TimestampUtc(unit) => (
            (-377_705_116_800 * in_a_second(unit)).max(i64::MIN.into()),
            (253_402_300_800 * in_a_second(unit) - 1).min(i64::MAX.into()),
        ),
        Kind::Decimal(of) => {
            let greatest = 10i128.pow(of.precision().into()) - 1;
            (-greatest, greatest)
        }
        _ => (-(1 << (bits - 1)), (1 << (bits - 1)) - 1),
    }
}

/// A float of any bits, or one of those that are treated apart.
fn float(random: &mut Random, kind: Kind) -> f64 {
    let special = [
        0.0,
        -0.0,
        1.5,
        -1.5,
        f64::NAN,
        -f64::NAN,
        f64::INFINITY,
        1e-310,
    ];
    let (special, any) = (random.one_of(&special), random.next());
    match (kind, random.one_in(2)) {
        (Kind::F32, true) => (special as f32).into(),
        (Kind::F32, false) => f32::from_bits(any as u32).into(),
        (_, true) => special,
        (_, false) => f64::from_bits(any),
    }
}

fn item(random: &mut Random, kind: Kind) -> Item {
    match kind {
        Kind::Bool => Item::Bool(random.one_in(2)),
        Kind::Utf8 | Kind::LargeUtf8 => Item::Utf8(String::from_utf8(random.text(true)).unwrap()),
        Kind::Binary | Kind::LargeBinary => Item::Binary(random.text(false)),
        Kind::F32 | Kind::F64 => Item::Float(Float(float(random, kind))),
        integer => {
            let (least, greatest) = limits(integer);
            let small = random.below(19) as i128 - 9;
            let wide = u128::from(random.next()) << 64 | u128::from(random.next());
            let span = greatest.wrapping_sub(least) as u128 + 1;
            let any = least.wrapping_add((wide % span) as i128);
            Item::Integer(random.one_of(&[least, greatest, any, small.clamp(least, greatest)]))
        }
    }
}

/// The memory of a column, and what it holds.
struct Layout {
    kind: Kind,
    validity: Vec<u8>,
    values: Vec<u8>,
    offsets: Vec<u8>,
    offset: usize,
    rows: Vec<Option<Item>>,
}

impl Layout {
    fn column(&self) -> Column<'_> {
        let rows = self.rows.len();
        Column::from_buffers(self.kind, &self.values, &self.offsets, self.offset, rows)
            .with_validity(&self.validity)
    }
}

fn bitmap(bits: &[bool]) -> Vec<u8> {
    let byte =
        |bits: &[bool]| (0..bits.len()).fold(0, |byte, bit| byte | u8::from(bits[bit]) << bit);
    bits.chunks(8).map(byte).collect()
}

fn rows(random: &mut Random, kind: Kind, count: usize) -> Vec<Option<Item>> {
    let nulls = random.one_of(&[0, 0, 2, 10]);
    let is_null = |random: &mut Random| random.below(10) < nulls || kind == Kind::Null;
    (0..count)
        .map(|_| (!is_null(random)).then(|| item(random, kind)))
        .collect()
}

fn bytes_of(item: &Item, kind: Kind) -> Vec<u8> {
    match item {
        Item::Integer(number) => number.to_le_bytes()[..width(kind)].to_vec(),
        Item::Float(number) if kind == Kind::F32 => (number.0 as f32).to_le_bytes().to_vec(),
        Item::Float(number) => number.0.to_le_bytes().to_vec(),
        Item::Bool(truth) => vec![u8::from(*truth)],
        Item::Utf8(text) => text.clone().into_bytes(),
        Item::Binary(bytes) => bytes.clone(),
    }
}

/// Lays rows out after some rows of rubbish, and before some.
fn layout(random: &mut Random, kind: Kind, rows: Vec<Option<Item>>) -> Layout {
    let offset = if kind == Kind::Null {
        0
    } else {
        random.one_of(&[0, 1, 3, 7, 8, 9, 13])
    };
    let after = random.one_of(&[0, 0, 1, 5]);
    let total = offset + rows.len() + after;
    let at = |place: usize| {
        place
            .checked_sub(offset)
            .and_then(|row| rows.get(row))
            .cloned()
    };
    let mut valid = Vec::new();
    let (mut values, mut offsets) = (Vec::new(), Vec::new());
    let mut bits = Vec::new();
    let mut end = random.below(3);
    if !has_items(kind) {
        values = random.bytes(end);
    }
    offsets.extend_from_slice(&end.to_le_bytes()[..offset_width(kind)]);
    for place in 0..total {
        let row = at(place);
        valid.push(
            row.as_ref()
                .map_or_else(|| random.one_in(2), Option::is_some),
        );
        let bytes = match row.flatten() {
            Some(item) => bytes_of(&item, kind),
            None if has_items(kind) => random.bytes(width(kind)),
            None if kind == Kind::Bool => vec![random.one_in(2).into()],
            None => random.one_of(&[&b""[..], b"rubbish", b"\xc3"]).to_vec(),
        };
        bits.push(bytes.first() == Some(&1));
        end += bytes.len();
        offsets.extend_from_slice(&end.to_le_bytes()[..offset_width(kind)]);
        values.extend(bytes);
    }
    let has_bitmap = rows.contains(&None) || random.one_in(3);
    let (values, offsets) = match kind {
        Kind::Bool => (bitmap(&bits), Vec::new()),
        Kind::Null => (Vec::new(), Vec::new()),
        kind if has_items(kind) => (values, Vec::new()),
        _ => (values, offsets),
    };
    let validity = if has_bitmap && kind != Kind::Null {
        bitmap(&valid)
    } else {
        Vec::new()
    };
    Layout {
        kind,
        validity,
        values,
        offsets,
        offset,
        rows,
    }
}

fn some_layout(random: &mut Random, kind: Kind, most: usize) -> Layout {
    let count = random.below(most);
    let rows = rows(random, kind, count);
    layout(random, kind, rows)
}

fn plain_upper(value: &[u8], n: usize) -> Option<Vec<u8>> {
    if value.len() <= n {
        return Some(value.to_vec());
    }
    let mut bound = value[..n].to_vec();
    let last = bound.iter().rposition(|byte| *byte != 255)?;
    bound[last] += 1;
    bound[last + 1..].fill(0);
    Some(bound)
}

fn plain_lower_text(value: &str, n: usize) -> &str {
    &value[..value.floor_char_boundary(n)]
}

fn plain_upper_text(value: &str, n: usize) -> Option<String> {
    if value.len() <= n {
        return Some(value.to_string());
    }
    let mut bound = plain_lower_text(value, n).to_string();
    let last = bound.pop()?;
    let next = char::from_u32(last as u32 + 1)?;
    (next.len_utf8() == last.len_utf8()).then(|| {
        bound.push(next);
        bound
    })
}

/// A bound, and whether it is exact.
type Bound = Option<(Item, bool)>;

fn cut(item: &Item, n: usize, is_upper: bool) -> Bound {
    let bound = match item {
        Item::Utf8(text) if is_upper => Item::Utf8(plain_upper_text(text, n)?),
        Item::Utf8(text) => Item::Utf8(plain_lower_text(text, n).to_string()),
        Item::Binary(bytes) if is_upper => Item::Binary(plain_upper(bytes, n)?),
        Item::Binary(bytes) => Item::Binary(bytes[..n.min(bytes.len())].to_vec()),
        other => other.clone(),
    };
    let is_exact = bound == *item;
    Some((bound, is_exact))
}

/// Counts of rows and nulls, and bounds.
type Known = (u64, Option<u64>, Bound, Bound);

fn plain_statistics(rows: &[Option<Item>], n: usize) -> Known {
    let values = || rows.iter().flatten();
    (
        rows.len() as u64,
        Some(rows.iter().filter(|row| row.is_none()).count() as u64),
        values().min().and_then(|least| cut(least, n, false)),
        values().max().and_then(|greatest| cut(greatest, n, true)),
    )
}

fn told(of: &Statistics) -> Known {
    let bound = |bound: Option<&Item>, is_exact: bool| bound.map(|bound| (bound.clone(), is_exact));
    (
        of.row_count(),
        of.null_count(),
        bound(of.lower(), of.lower_is_exact()),
        bound(of.upper(), of.upper_is_exact()),
    )
}

#[test]
fn statistics_of_each_kind() {
    for (seed, kind) in (0..).zip(all_kinds()) {
        let mut random = Random(0x1234_5678 + seed);
        for _ in 0..count() {
            let made = some_layout(&mut random, kind, 12);
            let n = random.one_of(&[0, 1, 3, 8, 16, usize::MAX]);
            let found = Statistics::of(&made.column(), n).unwrap();
            assert_eq!(
                told(&found),
                plain_statistics(&made.rows, n),
                "{kind:?} {:?} {n}",
                made.rows
            );
            let start = random.below(made.rows.len() + 1);
            let length = random.below(made.rows.len() - start + 1);
            let part = made.column().slice(start, length);
            let found = Statistics::of(&part, n).unwrap();
            assert_eq!(
                told(&found),
                plain_statistics(&made.rows[start..start + length], n)
            );
        }
    }
}

#[test]
fn statistics_are_merged_and_read_back() {
    for (seed, kind) in (0..).zip(all_kinds()) {
        let mut random = Random(0x2345_6789 + seed);
        for _ in 0..count() / 10 {
            let parts: Vec<Layout> = (0..3).map(|_| some_layout(&mut random, kind, 5)).collect();
            let each: Vec<Statistics> = parts
                .iter()
                .map(|part| Statistics::of(&part.column(), usize::MAX).unwrap())
                .collect();
            let whole: Vec<Option<Item>> =
                parts.iter().flat_map(|part| part.rows.clone()).collect();
            let left = each[0].merge(&each[1]).unwrap().merge(&each[2]).unwrap();
            let right = each[0].merge(&each[1].merge(&each[2]).unwrap()).unwrap();
            assert_eq!(left, right);
            assert_eq!(told(&left), plain_statistics(&whole, usize::MAX));
            assert_eq!(Statistics::from_bytes(kind, left.as_bytes()), Ok(left));
        }
    }
    let (one, other) = (Column::integers(&[1u8]), Column::bools(&[1], 1));
    let (one, other) = (
        Statistics::of(&one, 16).unwrap(),
        Statistics::of(&other, 16).unwrap(),
    );
    assert_eq!(one.merge(&other), Err(StatisticsError::KindsDiffer));
    let most = [&[1, 1][..], &[255; 8], &[0; 8]].concat();
    let most = Statistics::from_bytes(Kind::U8, &most).unwrap();
    assert_eq!(most.merge(&one), Err(StatisticsError::TooManyRows));
}

#[test]
fn hostile_statistics() {
    let mut random = Random(0x3456_789a);
    let (mut read, mut refused) = (0, 0);
    for _ in 0..count() {
        let kind = random.one_of(&all_kinds());
        let made = some_layout(&mut random, kind, 5);
        let mut bytes = Statistics::of(&made.column(), 3)
            .unwrap()
            .as_bytes()
            .to_vec();
        let place = random.below(bytes.len());
        bytes[place] = random.one_of(&[0, 1, 12, 13, 21, 22, 255]);
        bytes.truncate(bytes.len() - random.one_of(&[0, 0, 1]));
        match Statistics::from_bytes(kind, &bytes) {
            Ok(found) => {
                assert_eq!(found.as_bytes(), bytes);
                read += 1;
            }
            Err(error) => {
                match error {
                    StatisticsError::BadBytes(place) => assert!(place <= bytes.len()),
                    StatisticsError::NotAValue => assert!(has_items(kind) && !is_integer(kind)),
                    error => panic!("{error}"),
                }
                refused += 1;
            }
        }
    }
    assert!(
        read > count() / 100 && refused > count() / 100,
        "{read} {refused}"
    );
}

macro_rules! casts {
    ($random:expr, $made:expr; $($kind:ident: $to:ty),*) => {$(
        let (least, greatest) = limits(Kind::$kind);
        let fits = |item: &Option<Item>| match item {
            Some(Item::Integer(number)) => least <= *number && *number <= greatest,
            _ => true,
        };
        let as_number = |item: &Option<Item>| match item {
            Some(Item::Integer(number)) => *number as $to,
            _ => 0,
        };
        let wanted = match $made.rows.iter().position(|item| !fits(item)) {
            Some(row) => Err(CastError::NoValue(row)),
            None => Ok($made.rows.iter().map(as_number).collect::<Vec<$to>>()),
        };
        assert_eq!(cast_column::<$to>(&$made.column()), wanted, "{:?}", $made.rows);
    )*};
}

#[test]
fn casts_of_columns() {
    let mut random = Random(0x4567_89ab);
    for kind in &KINDS[..8] {
        for _ in 0..count() / 8 {
            let made = some_layout(&mut random, *kind, 5);
            casts!(random, made; U8: u8, U16: u16, U32: u32, U64: u64, I8: i8, I16: i16, I32: i32, I64: i64);
        }
    }
    let no_integers = Err(CastError::Column(ColumnFault::UnknownKind));
    assert_eq!(cast_column::<u8>(&Column::bools(&[1], 1)), no_integers);
}

/// How rows compare, column by column.
fn order(one: &[Option<Item>], two: &[Option<Item>], options: &[SortOptions]) -> Ordering {
    let of_column = |column: usize| {
        let of = options[column];
        match (&one[column], &two[column]) {
            (Some(x), Some(y)) if of.descending => y.cmp(x),
            (Some(x), Some(y)) => x.cmp(y),
            (x, y) if of.nulls_first => x.is_some().cmp(&y.is_some()),
            (x, y) => x.is_none().cmp(&y.is_none()),
        }
    };
    (0..options.len())
        .map(of_column)
        .find(|order| order.is_ne())
        .unwrap_or(Ordering::Equal)
}

/// The integer that stores a float: its bits without the sign, negated if the sign is set. All NaNs are one.
fn stored(of: Float, kind: Kind) -> i128 {
    let size: i128 = match (kind, of.0.is_nan()) {
        (Kind::F32, true) => 0x7f80_0001,
        (Kind::F32, false) => (of.0.abs() as f32).to_bits().into(),
        (_, true) => 0x7ff0_0000_0000_0001,
        (_, false) => of.0.abs().to_bits().into(),
    };
    if of.0 < 0.0 { -size } else { size }
}

/// What a row of a column is keyed as: an integer, a string or bytes. Decimals of more than 18 digits are bytes that sort.
fn keyed(item: &Item, kind: Kind) -> Item {
    match (item, kind) {
        (Item::Float(of), _) => Item::Integer(stored(*of, kind)),
        (Item::Integer(number), Kind::Decimal(of)) if of.precision() > 18 => {
            Item::Binary((*number as u128 ^ 1 << 127).to_be_bytes().to_vec())
        }
        (item, _) => item.clone(),
    }
}

/// The key of a row, by docs/KEYS.md.
fn plain_key(row: &[Option<Item>], kinds: &[Kind], options: &[SortOptions]) -> Vec<u8> {
    let escaped = |first: u8, bytes: &[u8]| {
        let mut key = vec![first];
        for byte in bytes {
            match byte {
                0 | 1 => key.extend([1, byte + 1]),
                _ => key.push(*byte),
            }
        }
        key.push(0);
        key
    };
    let of_item = |item: &Item| match item {
        Item::Bool(truth) => vec![2 + u8::from(*truth)],
        Item::Utf8(text) => escaped(21, text.as_bytes()),
        Item::Binary(bytes) => escaped(22, bytes),
        Item::Integer(number) => {
            let distance = number.unsigned_abs().to_be_bytes();
            let digits = &distance[distance.iter().take_while(|byte| **byte == 0).count()..];
            let size = digits.len() as u8;
            let (first, mask) = if *number < 0 {
                (12 - size, 255)
            } else {
                (12 + size, 0)
            };
            let digits = digits.iter().map(|byte| byte ^ mask);
            std::iter::once(first).chain(digits).collect()
        }
        Item::Float(_) => unreachable!("a float is keyed as an integer"),
    };
    let mut whole = Vec::new();
    for ((item, kind), of) in row.iter().zip(kinds).zip(options) {
        let mask = if of.descending { 255 } else { 0 };
        match item.as_ref().map(|item| keyed(item, *kind)) {
            Some(item) => whole.extend(of_item(&item).iter().map(|byte| byte ^ mask)),
            None => whole.push(if of.nulls_first { 1 } else { 255 }),
        }
    }
    whole
}

#[test]
fn keys_sort_as_rows_and_come_back() {
    let mut random = Random(0x5678_9abc);
    for _ in 0..count() {
        let (width, length) = (1 + random.below(3), random.below(7));
        let all = all_kinds();
        let kinds: Vec<Kind> = (0..width).map(|_| random.one_of(&all)).collect();
        let options: Vec<SortOptions> = (0..width)
            .map(|_| SortOptions {
                descending: random.one_in(2),
                nulls_first: random.one_in(2),
            })
            .collect();
        let made: Vec<Layout> = kinds
            .iter()
            .map(|kind| {
                let rows = rows(&mut random, *kind, length);
                layout(&mut random, *kind, rows)
            })
            .collect();
        let columns: Vec<Column<'_>> = made.iter().map(Layout::column).collect();
        let keys = row_keys(&columns, &options).unwrap();
        assert_eq!((keys.len(), keys.iter().count()), (length, length));
        let row = |place: usize| {
            made.iter()
                .map(|part| part.rows[place].clone())
                .collect::<Vec<_>>()
        };
        for x in 0..length {
            for y in 0..length {
                let wanted = order(&row(x), &row(y), &options);
                assert_eq!(
                    keys.get(x).cmp(&keys.get(y)),
                    wanted,
                    "{:?} {:?} {options:?}",
                    row(x),
                    row(y)
                );
            }
        }
        let mut wanted: Vec<usize> = (0..length).collect();
        wanted.sort_by(|x, y| order(&row(*x), &row(*y), &options));
        assert_eq!(sort_rows(&columns, &options), Ok(wanted));
        for place in 0..length {
            let wanted = plain_key(&row(place), &kinds, &options);
            assert_eq!(keys.get(place), Some(&wanted[..]), "{:?}", row(place));
        }
        let back = keys.columns(&kinds, &options).unwrap();
        assert_eq!(back.len(), made.len());
        for (column, part) in back.iter().zip(&made) {
            assert_eq!(
                (0..length)
                    .map(|place| column.get(place))
                    .collect::<Vec<_>>(),
                part.rows
            );
        }
    }
}

#[test]
fn hostile_keys() {
    let mut random = Random(0x6789_abcd);
    let mut read = 0;
    for _ in 0..count() {
        let kind = random.one_of(&all_kinds());
        let bytes: Vec<u8> = (0..random.below(8))
            .map(|_| random.one_of(&[0, 1, 2, 12, 13, 21, 22, 97, 255]))
            .collect();
        let offsets: Vec<u64> = (0..random.below(4))
            .map(|_| random.below(9) as u64)
            .collect();
        let are_sound = offsets
            .windows(2)
            .all(|pair| pair[0] <= pair[1] && pair[1] <= bytes.len() as u64);
        let keys = RowKeys::from_parts(offsets, bytes);
        match keys.columns(&[kind], &[SortOptions::default()]) {
            Ok(back) => {
                assert!(are_sound && back.len() == 1 && back[0].len() == keys.len());
                read += 1;
            }
            Err(KeysError::BadOffsets(_)) => assert!(!are_sound),
            Err(KeysError::BadBytes(place)) => assert!(place <= keys.parts().1.len()),
            Err(KeysError::NotAValue { column, row }) => {
                assert!(column == 0 && row < keys.len() && !KINDS.contains(&kind));
            }
            Err(error) => panic!("{error}"),
        }
    }
    assert!(read > count() / 100, "{read}");
    let keys = RowKeys::from_parts(vec![0], Vec::new());
    assert_eq!(keys.columns(&[Kind::U8], &[]), Err(KeysError::WrongLength));
    assert_eq!(keys.columns(&[], &[]), Ok(Vec::new()));
}

#[test]
fn columns_that_differ_in_length() {
    let columns = [Column::integers(&[1u8]), Column::integers(&[1u8, 2])];
    let options = [SortOptions::default(); 2];
    assert_eq!(row_keys(&columns, &options), Err(RowsError::WrongLength));
    assert_eq!(
        row_keys(&columns[..1], &options),
        Err(RowsError::WrongLength)
    );
}

/// Whether the item at a place stores a value of the kind. Each float is one.
fn is_value(of: &Layout, place: usize) -> bool {
    if is_float(of.kind) || is_integer(of.kind) {
        return true;
    }
    let size = width(of.kind);
    let bytes = &of.values[place * size..][..size];
    let mut whole = [if bytes[size - 1] >= 128 { 255 } else { 0 }; 16];
    whole[..size].copy_from_slice(bytes);
    let (least, greatest) = limits(of.kind);
    (least..=greatest).contains(&i128::from_le_bytes(whole))
}

/// What the test of a column says: by its buffers alone.
fn plain_fault(of: &Layout, offset: usize, length: usize) -> Option<ColumnFault> {
    if of.kind == Kind::Null || length == 0 {
        return None;
    }
    let Some(end) = offset.checked_add(length) else {
        return Some(ColumnFault::TooManyRows);
    };
    let is_short = |bytes: &[u8], rows_a_byte: u128, bytes_a_row: u128| {
        (bytes.len() as u128) < (end as u128 * bytes_a_row).div_ceil(rows_a_byte)
    };
    if !of.validity.is_empty() && is_short(&of.validity, 8, 1) {
        return Some(ColumnFault::TooShort(Buffer::Validity));
    }
    let is_valid =
        |place: usize| of.validity.is_empty() || of.validity[place / 8] >> (place % 8) & 1 == 1;
    if has_items(of.kind) {
        if is_short(&of.values, 1, width(of.kind) as u128) {
            return Some(ColumnFault::TooShort(Buffer::Values));
        }
        let is_none = |row: &usize| is_valid(offset + row) && !is_value(of, offset + row);
        let first = (0..length).find(is_none);
        return first.map(ColumnFault::NotAValue);
    }
    if of.kind == Kind::Bool {
        return is_short(&of.values, 8, 1).then_some(ColumnFault::TooShort(Buffer::Values));
    }
    let size = offset_width(of.kind);
    if (of.offsets.len() as u128) < (end as u128 + 1) * size as u128 {
        return Some(ColumnFault::TooShort(Buffer::Offsets));
    }
    let at = |place: usize| {
        let mut bytes = [0; 8];
        bytes[..size].copy_from_slice(&of.offsets[place * size..][..size]);
        u64::from_le_bytes(bytes)
    };
    let ends = |row: usize| (at(offset + row), at(offset + row + 1));
    let goes_down = |row: &usize| ends(*row).0 > ends(*row).1;
    let is_past = |row: &usize| ends(*row).1 > of.values.len() as u64;
    if let Some(row) = (0..length).find(|row| goes_down(row) || is_past(row)) {
        return Some(ColumnFault::BadOffsets(row));
    }
    let is_bad = |row: &usize| {
        let bytes = &of.values[ends(*row).0 as usize..ends(*row).1 as usize];
        is_text(of.kind) && is_valid(offset + row) && std::str::from_utf8(bytes).is_err()
    };
    (0..length).find(is_bad).map(ColumnFault::NotUtf8)
}

#[test]
fn hostile_columns() {
    for (seed, kind) in (0..).zip(all_kinds()) {
        let mut random = Random(0x789a_bcde + seed);
        let (mut given, mut refused) = (0, 0);
        for _ in 0..count() / 4 {
            let mut made = some_layout(&mut random, kind, 6);
            for buffer in [&mut made.validity, &mut made.values, &mut made.offsets] {
                let length =
                    buffer.len() - random.below(buffer.len() + 1) * usize::from(random.one_in(8));
                buffer.truncate(length);
                if length > 0 && random.one_in(4) {
                    buffer[random.next() as usize % length] = random.next() as u8;
                }
            }
            let hostile = [usize::MAX, usize::MAX - 7, 1 << 61, 1 << 32, 0, 1, 9];
            let offset = if random.one_in(6) {
                random.one_of(&hostile)
            } else {
                made.offset
            };
            let mut length = if random.one_in(6) {
                random.one_of(&hostile)
            } else {
                made.rows.len()
            };
            if kind == Kind::Null {
                length = length.min(9);
            }
            let column = Column::from_buffers(kind, &made.values, &made.offsets, offset, length)
                .with_validity(&made.validity);
            let wanted = plain_fault(&made, offset, length);
            let found = Statistics::of(&column, 16).err();
            assert_eq!(found, wanted, "{kind:?} {offset} {length}");
            let filter = Filter::parse("x is null", &[("x", kind)]).unwrap();
            let of_mask = filter.mask(&[column], length).err();
            let refused_rows = wanted.map(|fault| FilterError::Rows(RowsError::Column(0, fault)));
            assert_eq!(of_mask, refused_rows);
            let of_keys = row_keys(&[column], &[SortOptions::default()]).err();
            assert_eq!(of_keys, wanted.map(|fault| RowsError::Column(0, fault)));
            let of_cast = cast_column::<i64>(&column).err();
            if !is_integer(kind) {
                assert_eq!(of_cast, Some(CastError::Column(ColumnFault::UnknownKind)));
            } else if wanted.is_some() || kind != Kind::U64 {
                assert_eq!(of_cast, wanted.map(CastError::Column));
            }
            given += u32::from(wanted.is_none());
            refused += u32::from(wanted.is_some());
        }
        let is_refused = refused > 0 || kind == Kind::Null;
        assert!(given > 0 && is_refused, "{kind:?} {given} {refused}");
    }
}

/// True, false or unknown.
type Truth = Option<bool>;

/// A comparison of two columns' cells with literals, and what SQL says of it.
fn plain_truth(row: (Option<i128>, &Option<String>), number: i128, text: &str) -> Truth {
    let fits = row.0.map(|found| found >= number);
    let is_text = row.1.as_ref().map(|found| found == text);
    match (fits, is_text) {
        (Some(false), _) | (_, Some(false)) => Some(false),
        (Some(true), Some(true)) => Some(true),
        _ => None,
    }
}

#[test]
fn filters_of_rows_and_zones() {
    let mut random = Random(0x89ab_cdef);
    let (mut skipped, mut whole) = (0, 0);
    for _ in 0..count() / 4 {
        let length = random.below(9);
        let numbers = rows(&mut random, Kind::I16, length);
        let texts: Vec<Option<Item>> = (0..length)
            .map(|_| {
                (!random.one_in(6))
                    .then(|| Item::Utf8(random.one_of(&["oslo", "moss", ""]).to_string()))
            })
            .collect();
        let (numbers, texts) = (
            layout(&mut random, Kind::I16, numbers),
            layout(&mut random, Kind::Utf8, texts),
        );
        let number = random.one_of(&[-40_000, -9, 0, 5, 40_000]);
        let filter = format!("number >= {number} and \"the text\" = 'oslo'");
        let filter =
            Filter::parse(&filter, &[("number", Kind::I16), ("the text", Kind::Utf8)]).unwrap();
        let truth = |row: usize| {
            let found = match &numbers.rows[row] {
                Some(Item::Integer(found)) => Some(*found),
                _ => None,
            };
            let text = match &texts.rows[row] {
                Some(Item::Utf8(text)) => Some(text.clone()),
                _ => None,
            };
            plain_truth((found, &text), number, "oslo")
        };
        let truths: Vec<Truth> = (0..length).map(truth).collect();
        let columns = [numbers.column(), texts.column()];
        let wanted: Vec<bool> = truths.iter().map(|truth| *truth == Some(true)).collect();
        assert_eq!(filter.mask(&columns, length), Ok(wanted));
        let known = columns.map(|column| Statistics::of(&column, 2).unwrap());
        let zone = [random.one_in(9), random.one_in(9)];
        let zone: Vec<Option<&Statistics>> = known
            .iter()
            .zip(zone)
            .map(|(known, hides)| (!hides).then_some(known))
            .collect();
        let outcomes = filter.outcomes(&zone).unwrap();
        for truth in truths {
            assert!(match truth {
                Some(true) => outcomes.may_be_true,
                Some(false) => outcomes.may_be_false,
                None => outcomes.may_be_unknown,
            });
        }
        let open = filter.outcomes(&[]).unwrap();
        assert_eq!(open.may_match(), number <= 32_767);
        let left = [outcomes, open].map(Outcomes::may_match);
        let left: Vec<usize> = (0..2).filter(|place| left[*place]).collect();
        assert_eq!(filter.prune([&zone[..], &[]]), Ok(left));
        skipped += u32::from(!outcomes.may_match());
        whole += u32::from(outcomes.must_match());
    }
    assert!(skipped > 0 && whole > 0, "{skipped} {whole}");
}

#[test]
fn mistakes_of_filters() {
    let columns = [("city", Kind::Utf8)];
    for (text, place, mistake) in [
        ("", 0, Mistake::ExpectedFilter),
        ("city", 4, Mistake::ExpectedOperator),
        ("city = 1", 7, Mistake::TypesDiffer),
        ("town = 'a'", 0, Mistake::NoColumn),
        ("city = 'a", 7, Mistake::BadText),
        ("city = 'a' and", 14, Mistake::ExpectedFilter),
    ] {
        let error = Filter::parse(text, &columns).unwrap_err();
        assert_eq!(error, FilterError::Mistake { place, mistake }, "{text}");
        assert_eq!(error.to_string(), format!("byte {place}: {mistake}"));
        let text = format!("{text}; city utf8?");
        if mistake != Mistake::BadText {
            assert_eq!(text.parse::<Filter>(), Err(error));
        }
    }
    let filter = Filter::parse("city = 'a'", &columns).unwrap();
    let number = Statistics::of(&Column::integers(&[1i64]), 16).unwrap();
    let bad = FilterError::BadStatistics { zone: 1, column: 0 };
    assert_eq!(filter.prune([&[][..], &[Some(&number)]]), Err(bad));
    assert_eq!(
        filter.outcomes(&[None, None]),
        Err(FilterError::WrongLength)
    );
    assert_eq!(
        filter.mask(&[], 0),
        Err(FilterError::Rows(RowsError::WrongLength))
    );
    let numbers = Column::integers(&[1i64]);
    assert_eq!(filter.mask(&[numbers], 1), Err(FilterError::KindsDiffer(0)));
    let large = Column::large_utf8(b"ab", &[0, 1, 2]);
    assert_eq!(filter.mask(&[large], 2), Ok(vec![true, false]));
    assert_eq!(
        filter.mask(&[large], 3),
        Err(FilterError::Rows(RowsError::WrongLength))
    );
    assert!(error_words(&bad).contains("zone 1"));
}

#[test]
fn filters_that_nest() {
    let column = Column::integers(&[1i64, 2]);
    let text = |depth: usize| format!("{}n = 1", "not ".repeat(depth));
    let schema = [("n", Kind::I64)];
    for depth in [0, 1, 32, 500] {
        let place = 4 * (depth + 1);
        let mistake = Mistake::TooDeep;
        let error = FilterError::Mistake { place, mistake };
        assert_eq!(
            Filter::parse_within(&text(depth + 1), &schema, depth),
            Err(error)
        );
        let filter = Filter::parse_within(&text(depth), &schema, depth).unwrap();
        let is_even = depth % 2 == 0;
        assert_eq!(filter.mask(&[column], 2), Ok(vec![is_even, !is_even]));
        assert!(filter.outcomes(&[None]).unwrap().may_match());
    }
    let parts = ["n is not null"; 33].join(" and ");
    let of_parts = Filter::parse(&parts, &schema).unwrap();
    assert_eq!(of_parts.mask(&[column], 2), Ok(vec![true, true]));
    assert!(Filter::parse(&text(32), &schema).is_ok());
    assert!(Filter::parse(&text(33), &schema).is_err());
}

#[test]
fn filters_of_no_columns() {
    for (text, is_true) in [("true", true), ("null or false", false)] {
        let filter = Filter::parse(text, &[]).unwrap();
        for rows in [0, 1, 8, 10] {
            assert_eq!(filter.mask(&[], rows), Ok(vec![is_true; rows]));
        }
    }
}

#[test]
fn filters_from_one_text() {
    let text = "\"the; city\" = 'a;, ''b' and n > 1; \"the; city\" large_utf8? , n i16";
    let columns = [("the; city", Kind::LargeUtf8), ("n", Kind::I16)];
    let filter = Filter::parse("\"the; city\" = 'a;, ''b' and n > 1", &columns);
    assert_eq!(text.parse(), filter);
    assert_eq!("true".parse(), Filter::parse("true", &[]));
    assert_eq!("true;".parse(), Filter::parse("true", &[]));
    let mistake = Mistake::ExpectedKind;
    for (text, place) in [
        ("true; city", 5),
        ("true; city text", 5),
        ("true; a i8,", 11),
        ("true; a b i8", 5),
        ("true; \"a i8", 5),
    ] {
        let wanted: Result<Filter, FilterError> = Err(FilterError::Mistake { place, mistake });
        assert_eq!(text.parse(), wanted, "{text}");
    }
    for kind in KINDS {
        let name = format!("{kind:?}").to_lowercase();
        assert_eq!(name.replace("large", "large_").parse(), Ok(kind));
    }
    for (name, kind) in [
        ("f32", Kind::F32),
        ("f64?", Kind::F64),
        ("date", Kind::Date32),
        ("time(s)", Kind::Time(TimeUnit::Seconds)),
        ("timestamp(ns)?", Kind::Timestamp(TimeUnit::Nanoseconds)),
        (
            "timestamp(us, UTC)",
            Kind::TimestampUtc(TimeUnit::Microseconds),
        ),
        ("decimal( 10 , 2 )", Kind::decimal(10, 2).unwrap()),
    ] {
        assert_eq!(name.parse(), Ok(kind), "{name}");
    }
    for name in [
        "f16",
        "decimal(39,0)",
        "decimal(2,3)",
        "decimal(10)",
        "timestamp",
        "time(h)",
        "timestamp(us,Oslo)",
    ] {
        assert_eq!(name.parse::<Kind>(), Err(Mistake::ExpectedKind), "{name}");
    }
}

#[test]
fn logical_types() {
    let fares = [1230i128, 995, -5];
    let fares = Column::stored(Kind::decimal(10, 2).unwrap(), &fares);
    let days = [20_512i32, 20_513, 20_514];
    let days = Column::stored(Kind::Date32, &days);
    let prices = Column::floats(&[10.5, f64::NAN, f64::NEG_INFINITY]);
    let text = "fare >= 9.95 and \"the day\" between '2026-02-28' and '2026-03-01' and price > 10; \
                fare decimal( 10, 2 ), \"the day\" date?, price f64";
    let filter: Filter = text.parse().unwrap();
    // NaN is above all.
    assert_eq!(
        filter.mask(&[fares, days, prices], 3),
        Ok(vec![true, true, false])
    );
    // A column that no filter names is not looked at.
    let filter = Filter::parse("b = 1", &[("a", Kind::F64), ("b", Kind::I64)]).unwrap();
    let odd = Column::from_buffers(Kind::Utf8, &[], &[], 9, 5);
    assert_eq!(
        filter.mask(&[odd, Column::integers(&[1i64, 2])], 2),
        Ok(vec![true, false])
    );
    let beside_no_rows = |column, rows| filter.mask(&[Column::nulls(0), column], rows);
    let nine = Column::integers(&[1i64; 9]);
    assert_eq!(beside_no_rows(nine, 9), Ok(vec![true; 9]));
    let wrong_length = Err(FilterError::Rows(RowsError::WrongLength));
    assert_eq!(beside_no_rows(nine, usize::MAX), wrong_length);
    let bytes = Column::integers(&[1u8; 9]);
    assert_eq!(
        beside_no_rows(bytes, usize::MAX),
        Err(FilterError::KindsDiffer(1))
    );
    let cut = Column::from_buffers(Kind::I64, &[0; 7], &[], 0, 9);
    let too_short = ColumnFault::TooShort(Buffer::Values);
    assert_eq!(
        beside_no_rows(cut, 9),
        Err(FilterError::Rows(RowsError::Column(1, too_short)))
    );

    // Decimals of one precision and scale are one type, whatever their width.
    let narrow = Kind::Decimal(DecimalKind::new(DecimalWidth::Bits32, 9, 2).unwrap());
    let wide = Kind::decimal(9, 2).unwrap();
    let one = Statistics::of(&Column::stored(narrow, &[7i32]), 16).unwrap();
    let other = Statistics::of(&Column::stored(wide, &[9i128]), 16).unwrap();
    assert_eq!(
        told(&one.merge(&other).unwrap()).3,
        Some((Item::Integer(9), true))
    );
    assert_eq!(
        Statistics::from_bytes(wide, one.as_bytes())
            .unwrap()
            .lower(),
        Some(&Item::Integer(7))
    );
    let mask = Filter::parse("x > 0.08", &[("x", wide)]).unwrap();
    assert_eq!(
        mask.mask(&[Column::stored(narrow, &[7i32, 9])], 2),
        Ok(vec![false, true])
    );

    // The bytes of statistics name the type.
    let known = Statistics::of(&Column::integers(&[1i64]), 16).unwrap();
    let of_floats = Statistics::from_bytes(Kind::F64, known.as_bytes());
    assert!(matches!(of_floats, Err(StatisticsError::BadBytes(_))));

    // A time of 25 hours is none, and a key of it is none.
    let time = Kind::Time(TimeUnit::Seconds);
    let late = Column::stored(time, &[0i32, 90_000]);
    assert_eq!(Statistics::of(&late, 16), Err(ColumnFault::NotAValue(1)));
    let keys = row_keys(
        &[Column::integers(&[0i32, 90_000])],
        &[SortOptions::default()],
    )
    .unwrap();
    let no_value = KeysError::NotAValue { column: 0, row: 1 };
    assert_eq!(
        keys.columns(&[time], &[SortOptions::default()]),
        Err(no_value)
    );
    let no_integers = Err(CastError::Column(ColumnFault::UnknownKind));
    assert_eq!(cast_column::<i64>(&late), no_integers);
    let refused = std::panic::catch_unwind(|| Column::stored(Kind::F32, &[0i32]));
    assert!(
        refused.is_err() && std::panic::catch_unwind(|| Column::stored(time, &[0i64])).is_err()
    );
    assert!(
        DecimalKind::new(DecimalWidth::Bits32, 10, 0).is_none() && Kind::decimal(0, 0).is_none()
    );
}

fn error_words(error: &dyn std::error::Error) -> String {
    error.to_string()
}

#[test]
fn slices_and_offsets_of_rust() {
    let numbers = [1i32, 2, 3, 4];
    let part = Column::integers(&numbers).slice(1, 3).slice(1, 1);
    assert_eq!(cast_column::<u8>(&part), Ok(vec![3]));
    let known = Statistics::of(&part, 0).unwrap();
    assert_eq!(told(&known).3, Some((Item::Integer(3), true)));
    let known = Statistics::of(&Column::nulls(7), 1).unwrap();
    assert_eq!(told(&known), (7, Some(7), None, None));
    let options = [SortOptions::default()];
    for column in [
        Column::utf8(b"ab", &[0, 1, 2]),
        Column::large_utf8(b"ab", &[0, 1, 2]),
        Column::binary(b"ab", &[0, 1, 2]),
        Column::large_binary(b"ab", &[0, 1, 2]),
    ] {
        let keys = row_keys(&[column.slice(1, 1)], &options).unwrap();
        let first = if is_text(column.kind()) { 21 } else { 22 };
        assert_eq!(keys.get(0), Some(&[first, b'b', 0][..]));
        assert_eq!((column.len(), keys.len(), keys.get(1)), (2, 1, None));
    }
    assert!(Column::utf8(b"", &[]).is_empty() && Column::binary(b"", &[0]).is_empty());
    let keys = row_keys(
        &[Column::nulls(3), Column::bools(&[2], 3)],
        &[options[0]; 2],
    )
    .unwrap();
    assert_eq!(keys.parts(), (&[0, 2, 4, 6][..], &[1, 2, 1, 3, 1, 2][..]));
    assert!(row_keys(&[], &[]).unwrap().is_empty());
    let past = std::panic::catch_unwind(|| Column::nulls(1).slice(1, 1));
    assert!(past.is_err());
    let far = Column::from_buffers(Kind::U8, &[], &[], usize::MAX, 2).slice(1, 1);
    let too_many = CastError::Column(ColumnFault::TooManyRows);
    assert_eq!(cast_column::<u8>(&far), Err(too_many));
    assert_eq!(too_many.to_string(), "64 bits do not count the rows");
    let error: &dyn std::error::Error = &RowsError::Column(1, ColumnFault::NotUtf8(2));
    assert_eq!(
        error.to_string(),
        format!("column {}: row {} is not UTF-8", 1, 2)
    );
}
