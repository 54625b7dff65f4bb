// SPDX-License-Identifier: Apache-2.0
// SPDX-FileCopyrightText: Copyright the Vortex contributors; ported to Rattle and changed
//! Casts of integers.

use crate::raw;

pub(crate) mod sealed {
    pub trait Bits: Copy {
        const KIND: u8;
        fn to_bits(self) -> u64;
        fn from_bits(bits: u64) -> Self;
    }
}

/// One of the eight integer types of at most 64 bits.
pub trait Integer: sealed::Bits {}

macro_rules! integers {
    ($($kind:literal: $integer:ty, $widest:ty;)*) => {$(
        impl sealed::Bits for $integer {
            const KIND: u8 = $kind;

            fn to_bits(self) -> u64 {
                <$widest>::from(self) as u64
            }

            fn from_bits(bits: u64) -> $integer {
                bits as $integer
            }
        }

        impl Integer for $integer {}
    )*};
}

integers! {
    0: u8, u64;
    1: u16, u64;
    2: u32, u64;
    3: u64, u64;
    4: i8, i64;
    5: i16, i64;
    6: i32, i64;
    7: i64, i64;
}

/// The same number as another type, or `None` if that type does not have it.
///
/// ```
/// assert_eq!(doqallin::cast::<i64, u8>(200), Some(200));
/// assert_eq!(doqallin::cast::<i64, u8>(-1), None);
/// ```
#[must_use]
pub fn cast<From: Integer, To: Integer>(number: From) -> Option<To> {
    let mut bits = 0;
    // SAFETY: `bits` is a place of its own, and the call asks nothing of the numbers.
    let status =
        unsafe { raw::doqallin_cast_integer(From::KIND, number.to_bits(), To::KIND, &mut bits) };
    match status {
        raw::GIVEN => Some(To::from_bits(bits)),
        raw::NONE => None,
        other => unreachable!("status {other}: the kinds and the number are of Rust's types"),
    }
}
