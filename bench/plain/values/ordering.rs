// SPDX-License-Identifier: Apache-2.0
//! The order of scalars, which is `None` if their types differ up to nullability.

use std::cmp::Ordering;

use crate::values::{Scalar, ScalarValue};

/// The values are valid, so they are compared without their types.
impl PartialOrd for Scalar {
    fn partial_cmp(&self, other: &Self) -> Option<Ordering> {
        if !self.dtype().eq_ignore_nullability(other.dtype()) {
            return None;
        }
        partial_cmp_values(self.value(), other.value())
    }
}

#[inline]
pub fn partial_cmp_values(
    left: Option<&ScalarValue>,
    right: Option<&ScalarValue>,
) -> Option<Ordering> {
    match (left, right) {
        (Some(left), Some(right)) => partial_cmp_non_null_values(left, right),
        _ => Some(left.is_some().cmp(&right.is_some())),
    }
}

fn partial_cmp_non_null_values(left: &ScalarValue, right: &ScalarValue) -> Option<Ordering> {
    match (left, right) {
        (ScalarValue::Bool(left), ScalarValue::Bool(right)) => Some(left.cmp(right)),
        (ScalarValue::Primitive(left), ScalarValue::Primitive(right)) => Some(left.cmp(right)),
        (ScalarValue::Utf8(left), ScalarValue::Utf8(right)) => Some(left.cmp(right)),
        (ScalarValue::Binary(left), ScalarValue::Binary(right)) => Some(left.cmp(right)),
        (ScalarValue::Tuple(left), ScalarValue::Tuple(right)) => {
            for (left, right) in left.iter().zip(right) {
                match partial_cmp_values(left.as_ref(), right.as_ref())? {
                    Ordering::Equal => continue,
                    ordering => return Some(ordering),
                }
            }
            Some(left.len().cmp(&right.len()))
        }
        (ScalarValue::Union(left), ScalarValue::Union(right))
            if left.type_id() == right.type_id() =>
        {
            partial_cmp_values(left.child_value(), right.child_value())
        }
        _ => None,
    }
}
