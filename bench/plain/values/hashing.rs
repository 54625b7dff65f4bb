// SPDX-License-Identifier: Apache-2.0
//! Hashes of scalars: by their types up to nullability, and their raw values.

use std::hash::{Hash, Hasher};

use crate::values::Scalar;

impl Hash for Scalar {
    fn hash<H: Hasher>(&self, state: &mut H) {
        self.dtype().hash_ignore_nullability(state);
        self.value().hash(state);
    }
}

/// A hasher that keeps a digest of all bytes in their order, the same as that of `scalar_cases`.
pub struct Recorder(u64);

impl Recorder {
    pub fn new() -> Self {
        Self(14_695_981_039_346_656_037)
    }

    pub fn digest(&self) -> u64 {
        self.0
    }
}

impl Hasher for Recorder {
    #[inline]
    fn write(&mut self, bytes: &[u8]) {
        for byte in bytes {
            self.0 = (self.0 ^ u64::from(*byte)).wrapping_mul(1_099_511_628_211);
        }
    }

    #[inline]
    fn finish(&self) -> u64 {
        self.0
    }
}
