// SPDX-License-Identifier: Apache-2.0
//! Integer values: a kind and a whole number.

use std::cmp::Ordering;
use std::fmt::{self, Display, Formatter};
use std::hash::{Hash, Hasher};

use crate::types::PType;

#[derive(Clone, Copy)]
pub enum PValue {
    U8(u8),
    U16(u16),
    U32(u32),
    U64(u64),
    I8(i8),
    I16(i16),
    I32(i32),
    I64(i64),
}

/// One expression for the native number of a value, whatever its kind.
macro_rules! match_each_pvalue {
    ($value:expr, |$number:ident| $body:expr) => {
        match $value {
            PValue::U8($number) => $body,
            PValue::U16($number) => $body,
            PValue::U32($number) => $body,
            PValue::U64($number) => $body,
            PValue::I8($number) => $body,
            PValue::I16($number) => $body,
            PValue::I32($number) => $body,
            PValue::I64($number) => $body,
        }
    };
}

impl PValue {
    #[inline]
    pub fn ptype(self) -> PType {
        match self {
            Self::U8(_) => PType::U8,
            Self::U16(_) => PType::U16,
            Self::U32(_) => PType::U32,
            Self::U64(_) => PType::U64,
            Self::I8(_) => PType::I8,
            Self::I16(_) => PType::I16,
            Self::I32(_) => PType::I32,
            Self::I64(_) => PType::I64,
        }
    }

    #[inline]
    pub fn is_zero(self) -> bool {
        match_each_pvalue!(self, |number| number == 0)
    }

    #[inline]
    fn whole(self) -> i128 {
        match_each_pvalue!(self, |number| i128::from(number))
    }

    /// The same number in another integer type, if it fits.
    #[inline]
    pub fn cast(self, ptype: PType) -> Option<Self> {
        match ptype {
            PType::U8 => match_each_pvalue!(self, |number| u8::try_from(number).ok()).map(Self::U8),
            PType::U16 => {
                match_each_pvalue!(self, |number| u16::try_from(number).ok()).map(Self::U16)
            }
            PType::U32 => {
                match_each_pvalue!(self, |number| u32::try_from(number).ok()).map(Self::U32)
            }
            PType::U64 => {
                match_each_pvalue!(self, |number| u64::try_from(number).ok()).map(Self::U64)
            }
            PType::I8 => match_each_pvalue!(self, |number| i8::try_from(number).ok()).map(Self::I8),
            PType::I16 => {
                match_each_pvalue!(self, |number| i16::try_from(number).ok()).map(Self::I16)
            }
            PType::I32 => {
                match_each_pvalue!(self, |number| i32::try_from(number).ok()).map(Self::I32)
            }
            PType::I64 => {
                match_each_pvalue!(self, |number| i64::try_from(number).ok()).map(Self::I64)
            }
        }
    }

    /// The whole number in an integer type, if it fits.
    pub fn from_whole(number: i128, ptype: PType) -> Option<Self> {
        Some(match ptype {
            PType::U8 => Self::U8(number.try_into().ok()?),
            PType::U16 => Self::U16(number.try_into().ok()?),
            PType::U32 => Self::U32(number.try_into().ok()?),
            PType::U64 => Self::U64(number.try_into().ok()?),
            PType::I8 => Self::I8(number.try_into().ok()?),
            PType::I16 => Self::I16(number.try_into().ok()?),
            PType::I32 => Self::I32(number.try_into().ok()?),
            PType::I64 => Self::I64(number.try_into().ok()?),
        })
    }
}

/// Whole numbers are compared, whatever the kinds; values of one kind, which are the rule, at their own width.
impl PartialEq for PValue {
    #[inline]
    fn eq(&self, other: &Self) -> bool {
        match (self, other) {
            (Self::U8(left), Self::U8(right)) => left == right,
            (Self::U16(left), Self::U16(right)) => left == right,
            (Self::U32(left), Self::U32(right)) => left == right,
            (Self::U64(left), Self::U64(right)) => left == right,
            (Self::I8(left), Self::I8(right)) => left == right,
            (Self::I16(left), Self::I16(right)) => left == right,
            (Self::I32(left), Self::I32(right)) => left == right,
            (Self::I64(left), Self::I64(right)) => left == right,
            (left, right) => left.whole() == right.whole(),
        }
    }
}

impl Eq for PValue {}

impl Ord for PValue {
    #[inline]
    fn cmp(&self, other: &Self) -> Ordering {
        match (self, other) {
            (Self::U8(left), Self::U8(right)) => left.cmp(right),
            (Self::U16(left), Self::U16(right)) => left.cmp(right),
            (Self::U32(left), Self::U32(right)) => left.cmp(right),
            (Self::U64(left), Self::U64(right)) => left.cmp(right),
            (Self::I8(left), Self::I8(right)) => left.cmp(right),
            (Self::I16(left), Self::I16(right)) => left.cmp(right),
            (Self::I32(left), Self::I32(right)) => left.cmp(right),
            (Self::I64(left), Self::I64(right)) => left.cmp(right),
            (left, right) => left.whole().cmp(&right.whole()),
        }
    }
}

impl PartialOrd for PValue {
    #[inline]
    fn partial_cmp(&self, other: &Self) -> Option<Ordering> {
        Some(self.cmp(other))
    }
}

impl Hash for PValue {
    #[inline]
    fn hash<H: Hasher>(&self, state: &mut H) {
        self.whole().hash(state);
    }
}

impl Display for PValue {
    fn fmt(&self, f: &mut Formatter<'_>) -> fmt::Result {
        match self {
            Self::U8(number) => write!(f, "{number}u8"),
            Self::U16(number) => write!(f, "{number}u16"),
            Self::U32(number) => write!(f, "{number}u32"),
            Self::U64(number) => write!(f, "{number}u64"),
            Self::I8(number) => write!(f, "{number}i8"),
            Self::I16(number) => write!(f, "{number}i16"),
            Self::I32(number) => write!(f, "{number}i32"),
            Self::I64(number) => write!(f, "{number}i64"),
        }
    }
}
