// SPDX-License-Identifier: Apache-2.0
// SPDX-FileCopyrightText: Copyright the Vortex contributors; ported to Rattle and changed
//! Floats in the order that columns have.

use std::cmp::Ordering;
use std::hash::{Hash, Hasher};

/// A float that has PostgreSQL's order: NaN is equal to itself and above infinity, and -0.0 equals 0.0.
///
/// ```
/// use doqallin::Float;
///
/// assert!(Float(f64::NAN) > Float(f64::INFINITY) && Float(f64::NAN) == Float(-f64::NAN));
/// assert_eq!(Float(-0.0), Float(0.0));
/// ```
#[derive(Clone, Copy, Debug)]
pub struct Float(
    /// The float itself.
    pub f64,
);

impl PartialEq for Float {
    fn eq(&self, other: &Float) -> bool {
        self.cmp(other).is_eq()
    }
}

impl Eq for Float {}

impl PartialOrd for Float {
    fn partial_cmp(&self, other: &Float) -> Option<Ordering> {
        Some(self.cmp(other))
    }
}

impl Ord for Float {
    fn cmp(&self, other: &Float) -> Ordering {
        let order = self.0.partial_cmp(&other.0);
        order.unwrap_or_else(|| self.0.is_nan().cmp(&other.0.is_nan()))
    }
}

impl Hash for Float {
    fn hash<H: Hasher>(&self, state: &mut H) {
        // Those that are equal have the same bits here.
        let one = if self.0.is_nan() {
            f64::NAN
        } else {
            self.0 + 0.0
        };
        one.to_bits().hash(state);
    }
}
