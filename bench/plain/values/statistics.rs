// SPDX-License-Identifier: Apache-2.0
//! Statistics of a column: how many rows and nulls it has, and bounds of its values.

use std::cmp::Ordering;

use crate::ordering::partial_cmp_values;
use crate::types::DType;
use crate::values::{Scalar, ScalarValue};

pub struct Bound {
    pub value: Scalar,
    pub is_exact: bool,
}

pub struct ColumnStatistics {
    pub row_count: u64,
    pub null_count: Option<u64>,
    pub lower: Option<Bound>,
    pub upper: Option<Bound>,
}

/// There are more rows than 64 bits can count.
#[derive(Debug)]
pub struct TooManyRows;

impl ColumnStatistics {
    pub fn empty() -> Self {
        Self {
            row_count: 0,
            null_count: Some(0),
            lower: None,
            upper: None,
        }
    }

    #[inline]
    pub fn may_be_null(&self) -> bool {
        self.null_count.unwrap_or(self.row_count) > 0
    }

    #[inline]
    pub fn may_be_value(&self) -> bool {
        self.null_count.unwrap_or(0) < self.row_count
    }

    /// Counts one cell more, and takes a value that is past a bound as that bound.
    pub fn observe(
        &mut self,
        dtype: &DType,
        value: Option<&ScalarValue>,
    ) -> Result<(), TooManyRows> {
        let row_count = self.row_count.checked_add(1).ok_or(TooManyRows)?;
        if value.is_none() {
            self.row_count = row_count;
            self.null_count = self.null_count.and_then(|nulls| nulls.checked_add(1));
            return Ok(());
        }
        if self.may_be_value() {
            widen(&mut self.lower, dtype, value, Ordering::Less);
            widen(&mut self.upper, dtype, value, Ordering::Greater);
        } else {
            self.lower = bound_of(dtype, value);
            self.upper = bound_of(dtype, value);
        }
        self.row_count = row_count;
        Ok(())
    }
}

/// A value as a bound, if it compares with itself.
fn bound_of(dtype: &DType, value: Option<&ScalarValue>) -> Option<Bound> {
    partial_cmp_values(value, value)?;
    Some(Bound {
        value: Scalar::new_unchecked(dtype.clone(), value.cloned()),
        is_exact: true,
    })
}

/// Makes a value that is past the bound the bound.
#[inline]
fn widen(bound: &mut Option<Bound>, dtype: &DType, value: Option<&ScalarValue>, past: Ordering) {
    let Some(before) = bound else {
        return;
    };
    match compared(dtype, value, &before.value) {
        Some(Ordering::Equal) => before.is_exact = true,
        Some(order) if order == past => *bound = bound_of(dtype, value),
        Some(_) => {}
        None => *bound = None,
    }
}

#[inline]
fn compared(dtype: &DType, value: Option<&ScalarValue>, bound: &Scalar) -> Option<Ordering> {
    if dtype.eq_ignore_nullability(bound.dtype()) {
        partial_cmp_values(value, bound.value())
    } else {
        None
    }
}
