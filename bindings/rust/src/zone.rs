// SPDX-License-Identifier: Apache-2.0
// SPDX-FileCopyrightText: Copyright the Vortex contributors; ported to Rattle and changed
//! Bounds of a zone of a column.

use crate::{lower_bound, lower_bound_text, raw, upper_bound, upper_bound_text};
use std::borrow::Borrow;
use std::fmt;

mod sealed {
    pub trait Bounded: ToOwned {
        fn lower_of(&self, n: usize) -> Self::Owned;
        fn upper_of(&self, n: usize) -> Option<Self::Owned>;
        fn may_lie(&self, lower: &Self, upper: Option<&Self>) -> bool;
    }
}

/// What a zone holds: bytes, `[u8]`, or strings, `str`.
pub trait Value: sealed::Bounded {}

impl sealed::Bounded for [u8] {
    fn lower_of(&self, n: usize) -> Vec<u8> {
        lower_bound(self, n).to_vec()
    }

    fn upper_of(&self, n: usize) -> Option<Vec<u8>> {
        upper_bound(self, n)
    }

    fn may_lie(&self, lower: &[u8], upper: Option<&[u8]>) -> bool {
        let has_upper = upper.is_some();
        let upper = upper.unwrap_or_default();
        // SAFETY: each pointer and length are of one slice, which lives until the call returns.
        unsafe {
            raw::doqallin_may_contain_bytes(
                lower.as_ptr(),
                lower.len(),
                upper.as_ptr(),
                upper.len(),
                has_upper,
                self.as_ptr(),
                self.len(),
            )
        }
    }
}

impl sealed::Bounded for str {
    fn lower_of(&self, n: usize) -> String {
        lower_bound_text(self, n).to_string()
    }

    fn upper_of(&self, n: usize) -> Option<String> {
        upper_bound_text(self, n)
    }

    fn may_lie(&self, lower: &str, upper: Option<&str>) -> bool {
        let has_upper = upper.is_some();
        let upper = upper.unwrap_or_default();
        let mut answer = false;
        // SAFETY: each pointer and length are of one string, and `answer` is a place of its own.
        let status = unsafe {
            raw::doqallin_may_contain_text(
                lower.as_ptr(),
                lower.len(),
                upper.as_ptr(),
                upper.len(),
                has_upper,
                self.as_ptr(),
                self.len(),
                &mut answer,
            )
        };
        assert_eq!(status, raw::GIVEN, "all three are strings");
        answer
    }
}

impl Value for [u8] {}
impl Value for str {}

/// The bounds of a zone: a lower one, and an upper one if there is one. A value outside of them is not in the zone.
///
/// Deprecated, since a null has no place in them: [`Statistics`](crate::Statistics) have the bounds of a column, and
/// [`Filter::prune`](crate::Filter::prune) asks them.
///
/// ```
/// let bounds = doqallin::ZoneBounds::of("apple", "banana", 3);
/// assert!(bounds.may_contain("banana"));
/// assert!(!bounds.may_contain("ap"));
/// ```
pub struct ZoneBounds<T: Value + ?Sized> {
    lower: T::Owned,
    upper: Option<T::Owned>,
}

impl<T: Value + ?Sized> ZoneBounds<T> {
    /// The bounds at n bytes of a zone whose values lie from `least` to `greatest`. These are not compared.
    #[must_use]
    pub fn of(least: &T, greatest: &T, n: usize) -> ZoneBounds<T> {
        ZoneBounds {
            lower: least.lower_of(n),
            upper: greatest.upper_of(n),
        }
    }

    /// Bounds that were computed before.
    #[must_use]
    pub fn from_parts(lower: T::Owned, upper: Option<T::Owned>) -> ZoneBounds<T> {
        ZoneBounds { lower, upper }
    }

    /// The lower bound: no value of the zone is below it.
    #[must_use]
    pub fn lower(&self) -> &T {
        self.lower.borrow()
    }

    /// The upper bound: no value of the zone is above it. `None` if there is none.
    #[must_use]
    pub fn upper(&self) -> Option<&T> {
        self.upper.as_ref().map(Borrow::borrow)
    }

    /// Whether the zone may hold the value. Deprecated: [`Filter::outcomes`](crate::Filter::outcomes) asks statistics, for any
    /// test.
    #[must_use]
    pub fn may_contain(&self, value: &T) -> bool {
        value.may_lie(self.lower(), self.upper())
    }
}

impl<T: Value + fmt::Debug + ?Sized> fmt::Debug for ZoneBounds<T> {
    fn fmt(&self, f: &mut fmt::Formatter<'_>) -> fmt::Result {
        f.debug_struct("ZoneBounds")
            .field("lower", &self.lower())
            .field("upper", &self.upper())
            .finish()
    }
}

impl<T: Value + ?Sized> Clone for ZoneBounds<T>
where
    T::Owned: Clone,
{
    fn clone(&self) -> ZoneBounds<T> {
        ZoneBounds {
            lower: self.lower.clone(),
            upper: self.upper.clone(),
        }
    }
}

impl<T: Value + PartialEq + ?Sized> PartialEq for ZoneBounds<T> {
    fn eq(&self, other: &ZoneBounds<T>) -> bool {
        self.lower() == other.lower() && self.upper() == other.upper()
    }
}

impl<T: Value + Eq + ?Sized> Eq for ZoneBounds<T> {}
