// SPDX-License-Identifier: Apache-2.0
// SPDX-FileCopyrightText: Copyright the Vortex contributors; ported to Rattle and changed
//! Kinds of columns.

use crate::raw::KindCode;

/// The unit of times and timestamps.
#[derive(Clone, Copy, Debug, PartialEq, Eq, Hash)]
pub enum TimeUnit {
    /// Seconds.
    Seconds,
    /// Thousandths of a second.
    Milliseconds,
    /// Millionths of a second.
    Microseconds,
    /// Billionths of a second.
    Nanoseconds,
}

/// How many bits an integer has that stores a decimal.
#[derive(Clone, Copy, Debug, PartialEq, Eq, Hash)]
pub enum DecimalWidth {
    /// 32, for at most 9 digits.
    Bits32,
    /// 64, for at most 18 digits.
    Bits64,
    /// 128, for at most 38 digits.
    Bits128,
}

/// Decimals of at most so many digits, with so many of them behind the point.
#[derive(Clone, Copy, Debug, PartialEq, Eq, Hash)]
pub struct DecimalKind {
    width: DecimalWidth,
    precision: u8,
    scale: u8,
}

impl DecimalKind {
    /// Decimals of this width, precision and scale, if there are such: a digit or more, no more than the width holds, and no more
    /// behind the point than there are.
    #[must_use]
    pub fn new(width: DecimalWidth, precision: u8, scale: u8) -> Option<DecimalKind> {
        let greatest = match width {
            DecimalWidth::Bits32 => 9,
            DecimalWidth::Bits64 => 18,
            DecimalWidth::Bits128 => 38,
        };
        let is_one = (1..=greatest).contains(&precision) && scale <= precision;
        is_one.then_some(DecimalKind {
            width,
            precision,
            scale,
        })
    }

    /// How many bits an integer has that stores one.
    #[must_use]
    pub fn width(self) -> DecimalWidth {
        self.width
    }

    /// How many digits there are at most.
    #[must_use]
    pub fn precision(self) -> u8 {
        self.precision
    }

    /// How many of them are behind the point.
    #[must_use]
    pub fn scale(self) -> u8 {
        self.scale
    }
}

/// A kind of column. A duration or an interval is none: give the integers that store it.
#[derive(Clone, Copy, Debug, PartialEq, Eq, Hash)]
pub enum Kind {
    /// Integers of 8 bits, without a sign.
    U8,
    /// Of 16 bits.
    U16,
    /// Of 32 bits.
    U32,
    /// Of 64 bits.
    U64,
    /// Integers of 8 bits, with a sign.
    I8,
    /// Of 16 bits.
    I16,
    /// Of 32 bits.
    I32,
    /// Of 64 bits.
    I64,
    /// A bitmap.
    Bool,
    /// Strings, with offsets of 32 bits.
    Utf8,
    /// Strings, with offsets of 64 bits.
    LargeUtf8,
    /// Bytes, with offsets of 32 bits.
    Binary,
    /// Bytes, with offsets of 64 bits.
    LargeBinary,
    /// Nulls alone, without a buffer.
    Null,
    /// Floats of 32 bits. NaN is equal to itself and above infinity, and -0.0 equals 0.0.
    F32,
    /// Floats of 64 bits, likewise.
    F64,
    /// Days since 1970-01-01, of 32 bits.
    Date32,
    /// A number of the unit since midnight: of 32 bits for seconds and milliseconds, and else of 64.
    Time(TimeUnit),
    /// A number of the unit since 1970-01-01T00:00:00, of 64 bits. Arrow's date64 is one of milliseconds.
    Timestamp(TimeUnit),
    /// The same in UTC, of timestamps with a zone, whatever its name is.
    TimestampUtc(TimeUnit),
    /// Decimals, as integers that are 10 to the scale times as large.
    Decimal(DecimalKind),
}

impl Kind {
    pub(crate) const INTEGERS: [Kind; 8] = [
        Kind::U8,
        Kind::U16,
        Kind::U32,
        Kind::U64,
        Kind::I8,
        Kind::I16,
        Kind::I32,
        Kind::I64,
    ];

    /// Decimals of 128 bits of this precision and scale, if there are such.
    #[must_use]
    pub fn decimal(precision: u8, scale: u8) -> Option<Kind> {
        DecimalKind::new(DecimalWidth::Bits128, precision, scale).map(Kind::Decimal)
    }

    /// The codes that C has for it.
    pub(crate) fn code(self) -> KindCode {
        let code = match self {
            Kind::U8 => 0,
            Kind::U16 => 1,
            Kind::U32 => 2,
            Kind::U64 => 3,
            Kind::I8 => 4,
            Kind::I16 => 5,
            Kind::I32 => 6,
            Kind::I64 => 7,
            Kind::Bool => 8,
            Kind::Utf8 => 9,
            Kind::LargeUtf8 => 10,
            Kind::Binary => 11,
            Kind::LargeBinary => 12,
            Kind::Null => 13,
            Kind::F32 => 14,
            Kind::F64 => 15,
            Kind::Date32 => 16,
            Kind::Time(unit) => 17 + unit as u8,
            Kind::Timestamp(unit) => 21 + unit as u8,
            Kind::TimestampUtc(unit) => 25 + unit as u8,
            Kind::Decimal(of) => 29 + of.width as u8,
        };
        let (precision, scale) = match self {
            Kind::Decimal(of) => (of.precision, of.scale),
            _ => (0, 0),
        };
        KindCode {
            code,
            precision,
            scale,
        }
    }

    /// The kind of a code of C's.
    pub(crate) fn of_code(of: KindCode) -> Option<Kind> {
        let units = [
            TimeUnit::Seconds,
            TimeUnit::Milliseconds,
            TimeUnit::Microseconds,
            TimeUnit::Nanoseconds,
        ];
        let widths = [
            DecimalWidth::Bits32,
            DecimalWidth::Bits64,
            DecimalWidth::Bits128,
        ];
        let code = usize::from(of.code);
        Some(match code {
            0..8 => Kind::INTEGERS[code],
            8 => Kind::Bool,
            9 => Kind::Utf8,
            10 => Kind::LargeUtf8,
            11 => Kind::Binary,
            12 => Kind::LargeBinary,
            13 => Kind::Null,
            14 => Kind::F32,
            15 => Kind::F64,
            16 => Kind::Date32,
            17..21 => Kind::Time(units[code - 17]),
            21..25 => Kind::Timestamp(units[code - 21]),
            25..29 => Kind::TimestampUtc(units[code - 25]),
            29..32 => Kind::Decimal(DecimalKind::new(widths[code - 29], of.precision, of.scale)?),
            _ => return None,
        })
    }

    pub(crate) fn is_integer(self) -> bool {
        Kind::INTEGERS.contains(&self)
    }

    /// Whether its items are numbers with a sign.
    pub(crate) fn is_signed(self) -> bool {
        !matches!(self, Kind::U8 | Kind::U16 | Kind::U32 | Kind::U64)
    }

    /// How many bytes an item has, if there are items.
    pub(crate) fn width(self) -> Option<usize> {
        match self {
            Kind::U8 | Kind::I8 => Some(1),
            Kind::U16 | Kind::I16 => Some(2),
            Kind::U32 | Kind::I32 | Kind::F32 | Kind::Date32 => Some(4),
            Kind::U64 | Kind::I64 | Kind::F64 => Some(8),
            Kind::Time(TimeUnit::Seconds | TimeUnit::Milliseconds) => Some(4),
            Kind::Time(_) | Kind::Timestamp(_) | Kind::TimestampUtc(_) => Some(8),
            Kind::Decimal(of) => Some(4 << of.width as u8),
            Kind::Bool
            | Kind::Utf8
            | Kind::LargeUtf8
            | Kind::Binary
            | Kind::LargeBinary
            | Kind::Null => None,
        }
    }

    /// The kind of the same values, with offsets of 64 bits.
    pub(crate) fn large(self) -> Kind {
        match self {
            Kind::Utf8 => Kind::LargeUtf8,
            Kind::Binary => Kind::LargeBinary,
            other => other,
        }
    }

    /// The one kind of these values, whatever the width of offsets or of decimals.
    pub(crate) fn general(self) -> Kind {
        match self {
            Kind::Decimal(of) => Kind::Decimal(DecimalKind {
                width: DecimalWidth::Bits128,
                ..of
            }),
            other => other.large(),
        }
    }
}
