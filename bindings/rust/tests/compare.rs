// SPDX-License-Identifier: Apache-2.0
// SPDX-FileCopyrightText: Copyright the Vortex contributors; ported to Rattle and changed
//! 100,000 random values of each call, compared with plain Rust.

use doqallin::*;

/// A xorshift generator.
struct Random(u64);

/// The least and the greatest character of each width in UTF-8, and those beside the surrogates.
const EDGES: [char; 12] = [
    '\0',
    'A',
    '\u{7F}',
    '\u{80}',
    '\u{7FF}',
    '\u{800}',
    '\u{D7FF}',
    '\u{E000}',
    '\u{FFFF}',
    '\u{10000}',
    '\u{10FFFE}',
    '\u{10FFFF}',
];

impl Random {
    fn next(&mut self) -> u64 {
        self.0 ^= self.0 << 13;
        self.0 ^= self.0 >> 7;
        self.0 ^= self.0 << 17;
        self.0
    }

    fn below(&mut self, end: u64) -> u64 {
        self.next() % end
    }

    fn coin(&mut self) -> bool {
        self.below(2) == 0
    }

    /// A number of some random magnitude, of either sign.
    fn number(&mut self) -> u64 {
        let shift = self.below(64);
        let number = self.next() >> shift;
        if self.coin() {
            number
        } else {
            number.wrapping_neg()
        }
    }

    fn bytes(&mut self) -> Vec<u8> {
        let all_high = self.below(8) == 0;
        let length = self.below(30);
        (0..length)
            .map(|_| {
                if all_high || self.coin() {
                    255
                } else {
                    self.next() as u8
                }
            })
            .collect()
    }

    fn char(&mut self) -> char {
        if self.coin() {
            return EDGES[self.below(12) as usize];
        }
        char::from_u32(self.below(0x11_0000) as u32).unwrap_or('x')
    }

    fn text(&mut self) -> String {
        let length = self.below(12);
        (0..length).map(|_| self.char()).collect()
    }

    /// A length from 0 past that of the value, now and then one of the greatest.
    fn length(&mut self, of: usize) -> usize {
        if self.below(20) == 0 {
            usize::MAX - self.below(3) as usize
        } else {
            self.below(of as u64 + 3) as usize
        }
    }
}

fn plain_lower(value: &[u8], n: usize) -> &[u8] {
    &value[..n.min(value.len())]
}

fn plain_upper(value: &[u8], n: usize) -> Option<Vec<u8>> {
    if value.len() <= n {
        return Some(value.to_vec());
    }
    let mut bound = value[..n].to_vec();
    let last = bound.iter().rposition(|byte| *byte != 255)?;
    bound[last] += 1;
    bound[last + 1..].fill(0);
    Some(bound)
}

fn plain_lower_text(value: &str, n: usize) -> &str {
    let end = (0..=n.min(value.len()))
        .rev()
        .find(|end| value.is_char_boundary(*end));
    &value[..end.unwrap()]
}

fn plain_upper_text(value: &str, n: usize) -> Option<String> {
    if value.len() <= n {
        return Some(value.to_string());
    }
    let mut bound = plain_lower_text(value, n).to_string();
    let last = bound.pop()?;
    let next = char::from_u32(last as u32 + 1)?;
    if next.len_utf8() != last.len_utf8() {
        return None;
    }
    bound.push(next);
    Some(bound)
}

fn plain_may_contain<T: Ord + ?Sized>(lower: &T, upper: Option<&T>, value: &T) -> bool {
    value >= lower && upper.is_none_or(|upper| value <= upper)
}

macro_rules! compare_casts {
    ($bits:expr; $($from:ty),*) => {$(
        compare_casts!(@ $bits, $from; u8, u16, u32, u64, i8, i16, i32, i64);
    )*};
    (@ $bits:expr, $from:ty; $($to:ty),*) => {$(
        let number = $bits as $from;
        assert_eq!(cast::<$from, $to>(number), <$to>::try_from(number).ok(), "{number}");
    )*};
}

#[test]
fn casts() {
    let mut random = Random(0x123_4567);
    for _ in 0..100_000 {
        let bits = random.number();
        compare_casts!(bits; u8, u16, u32, u64, i8, i16, i32, i64);
    }
}

#[test]
fn bounds_of_bytes() {
    let mut random = Random(0x765_4321);
    let mut without = 0;
    for _ in 0..100_000 {
        let value = random.bytes();
        let n = random.length(value.len());
        assert_eq!(
            lower_bound(&value, n),
            plain_lower(&value, n),
            "{value:?} {n}"
        );
        let upper = upper_bound(&value, n);
        without += u32::from(upper.is_none());
        assert_eq!(upper, plain_upper(&value, n), "{value:?} {n}");
    }
    assert!(without > 1000, "{without}");
}

#[test]
fn bounds_of_texts() {
    let mut random = Random(0x11_1111);
    let mut without = 0;
    for _ in 0..100_000 {
        let value = random.text();
        let n = random.length(value.len());
        assert_eq!(
            lower_bound_text(&value, n),
            plain_lower_text(&value, n),
            "{value:?} {n}"
        );
        let upper = upper_bound_text(&value, n);
        without += u32::from(upper.is_none());
        assert_eq!(upper, plain_upper_text(&value, n), "{value:?} {n}");
    }
    assert!(without > 1000, "{without}");
}

#[test]
fn zones_of_bytes() {
    let mut random = Random(0x22_2222);
    let mut possible = 0;
    for _ in 0..100_000 {
        let (least, greatest, value) = (random.bytes(), random.bytes(), random.bytes());
        let n = random.length(least.len());
        let bounds = ZoneBounds::<[u8]>::of(&least, &greatest, n);
        let (lower, upper) = (plain_lower(&least, n), plain_upper(&greatest, n));
        assert_eq!((bounds.lower(), bounds.upper()), (lower, upper.as_deref()));
        let answer = bounds.may_contain(&value);
        possible += u32::from(answer);
        assert_eq!(
            answer,
            plain_may_contain(lower, upper.as_deref(), &value[..]),
            "{least:?} {greatest:?} {n} {value:?}"
        );
        assert!(
            least > value || value > greatest || answer,
            "{value:?} is lost"
        );
    }
    assert!((1000..99_000).contains(&possible), "{possible}");
}

#[test]
fn zones_of_texts() {
    let mut random = Random(0x33_3333);
    let mut possible = 0;
    for _ in 0..100_000 {
        let (least, greatest, value) = (random.text(), random.text(), random.text());
        let n = random.length(least.len());
        let bounds = ZoneBounds::<str>::of(&least, &greatest, n);
        let (lower, upper) = (plain_lower_text(&least, n), plain_upper_text(&greatest, n));
        assert_eq!((bounds.lower(), bounds.upper()), (lower, upper.as_deref()));
        let answer = bounds.may_contain(&value);
        possible += u32::from(answer);
        assert_eq!(
            answer,
            plain_may_contain(lower, upper.as_deref(), &value),
            "{least:?} {greatest:?} {n} {value:?}"
        );
        assert!(
            least > value || value > greatest || answer,
            "{value:?} is lost"
        );
    }
    assert!((1000..99_000).contains(&possible), "{possible}");
}

fn offsets_of(lengths: impl Iterator<Item = usize>) -> Vec<u64> {
    let ends = lengths.scan(0, |end, length| {
        *end += length as u64;
        Some(*end)
    });
    std::iter::once(0).chain(ends).collect()
}

#[test]
fn columns_of_bytes() {
    let mut random = Random(0x44_4444);
    for _ in 0..100_000 {
        let count = random.below(6);
        let values: Vec<Vec<u8>> = (0..count).map(|_| random.bytes()).collect();
        let offsets = offsets_of(values.iter().map(Vec::len));
        let n = random.length(20);
        let found = column_bounds(&values.concat(), &offsets, n).unwrap();
        match (values.iter().min(), values.iter().max()) {
            (Some(least), Some(greatest)) => {
                let found = found.unwrap();
                assert_eq!(found.lower(), plain_lower(least, n), "{values:?} {n}");
                assert_eq!(
                    found.upper(),
                    plain_upper(greatest, n).as_deref(),
                    "{values:?} {n}"
                );
            }
            _ => assert!(found.is_none()),
        }
    }
}

#[test]
fn columns_of_texts() {
    let mut random = Random(0x55_5555);
    for _ in 0..100_000 {
        let count = random.below(6);
        let values: Vec<String> = (0..count).map(|_| random.text()).collect();
        let offsets = offsets_of(values.iter().map(String::len));
        let n = random.length(20);
        let found = column_bounds_text(&values.concat(), &offsets, n).unwrap();
        match (values.iter().min(), values.iter().max()) {
            (Some(least), Some(greatest)) => {
                let found = found.unwrap();
                assert_eq!(found.lower(), plain_lower_text(least, n), "{values:?} {n}");
                assert_eq!(
                    found.upper(),
                    plain_upper_text(greatest, n).as_deref(),
                    "{values:?} {n}"
                );
            }
            _ => assert!(found.is_none()),
        }
    }
}

/// Offsets that are any numbers, small ones mostly: each is answered as its first error asks.
#[test]
fn hostile_offsets() {
    let mut random = Random(0x66_6666);
    let (mut given, mut refused) = (0, 0);
    for _ in 0..100_000 {
        let bytes = random.bytes();
        let count = random.below(5);
        let offsets: Vec<u64> = (0..count)
            .map(|_| {
                if random.below(10) == 0 {
                    random.number()
                } else {
                    random.below(bytes.len() as u64 + 2)
                }
            })
            .collect();
        let sound = offsets
            .windows(2)
            .all(|pair| pair[0] <= pair[1] && pair[1] <= bytes.len() as u64);
        match column_bounds(&bytes, &offsets, 8) {
            Err(error) => {
                assert!(
                    !sound && error == ColumnError::BadOffsets,
                    "{bytes:?} {offsets:?}"
                );
                refused += 1;
            }
            Ok(found) => {
                assert!(
                    sound && found.is_some() == (offsets.len() > 1),
                    "{bytes:?} {offsets:?}"
                );
                given += 1;
            }
        }
    }
    assert!(given > 1000 && refused > 1000, "{given} {refused}");
}

#[test]
fn an_offset_within_a_character_is_told() {
    for offsets in [&[0, 1][..], &[0, 1, 2]] {
        assert_eq!(
            column_bounds_text("ñ", offsets, 8),
            Err(ColumnError::NotUtf8)
        );
    }
}

#[test]
fn bounds_are_compared_by_both() {
    let bounds = ZoneBounds::<str>::of("apple", "banana", 3);
    assert_eq!(bounds.clone(), bounds);
    assert_ne!(bounds, ZoneBounds::of("apple", "banana", 2));
    assert_ne!(bounds, ZoneBounds::of("apple", "cherry", 3));
    assert_ne!(bounds, ZoneBounds::from_parts("app".into(), None));
    assert_eq!(
        format!("{bounds:?}"),
        r#"ZoneBounds { lower: "app", upper: Some("bao") }"#
    );
}

#[test]
fn versions_agree() {
    let told =
        std::fs::read_to_string(concat!(env!("CARGO_MANIFEST_DIR"), "/../../VERSION")).unwrap();
    assert_eq!(told.trim_end(), VERSION);
    assert_eq!(library_version(), VERSION);
}

/// A value is tested whole, and not as far as its bound.
#[test]
fn a_byte_past_the_bound_is_told() {
    for offsets in [&[0, 2][..], &[0, 2, 3]] {
        assert_eq!(
            column_bounds_text("añb", offsets, 1),
            Err(ColumnError::NotUtf8)
        );
    }
}
