// SPDX-License-Identifier: Apache-2.0
//! Equality of scalars: the types up to nullability, and the raw values.

use crate::values::Scalar;

impl PartialEq for Scalar {
    fn eq(&self, other: &Self) -> bool {
        self.dtype().eq_ignore_nullability(other.dtype()) && self.value() == other.value()
    }
}

impl Eq for Scalar {}
