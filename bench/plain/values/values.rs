// SPDX-License-Identifier: Apache-2.0
//! Raw values and scalars.

use std::sync::Arc;

use crate::pvalues::PValue;
use crate::types::DType;

/// Shared bytes.
#[derive(Clone, PartialEq, Eq, PartialOrd, Ord, Hash)]
pub struct ByteBuffer(Arc<[u8]>);

/// A shared text.
#[derive(Clone, PartialEq, Eq, PartialOrd, Ord, Hash)]
pub struct BufferString(Arc<str>);

impl ByteBuffer {
    pub fn new(bytes: Vec<u8>) -> Self {
        Self(bytes.into())
    }

    #[inline]
    pub fn as_slice(&self) -> &[u8] {
        &self.0
    }
}

impl BufferString {
    pub fn new(text: String) -> Self {
        Self(text.into())
    }

    #[inline]
    pub fn as_str(&self) -> &str {
        &self.0
    }
}

#[derive(Clone, PartialEq, Eq, Hash)]
pub enum ScalarValue {
    Bool(bool),
    Primitive(PValue),
    Utf8(BufferString),
    Binary(ByteBuffer),
    /// A list, a struct, a map, or an entry of one.
    Tuple(Vec<Option<ScalarValue>>),
    Union(UnionValue),
    Variant(Box<Scalar>),
}

#[derive(Clone, PartialEq, Eq, Hash)]
pub struct UnionValue {
    type_id: u8,
    value: Option<Box<ScalarValue>>,
}

impl UnionValue {
    pub fn new(type_id: u8, value: Option<ScalarValue>) -> Self {
        Self {
            type_id,
            value: value.map(Box::new),
        }
    }

    #[inline]
    pub fn type_id(&self) -> u8 {
        self.type_id
    }

    #[inline]
    pub fn child_value(&self) -> Option<&ScalarValue> {
        self.value.as_deref()
    }
}

#[derive(Clone)]
pub struct Scalar {
    dtype: DType,
    value: Option<ScalarValue>,
}

impl Scalar {
    /// Nothing is tested.
    pub fn new_unchecked(dtype: DType, value: Option<ScalarValue>) -> Self {
        Self { dtype, value }
    }

    #[inline]
    pub fn dtype(&self) -> &DType {
        &self.dtype
    }

    #[inline]
    pub fn value(&self) -> Option<&ScalarValue> {
        self.value.as_ref()
    }

    #[inline]
    pub fn is_null(&self) -> bool {
        self.value.is_none()
    }
}

impl ScalarValue {
    #[inline]
    pub fn as_primitive(&self) -> &PValue {
        match self {
            Self::Primitive(value) => value,
            _ => panic!("not a Primitive"),
        }
    }

    #[inline]
    pub fn as_utf8(&self) -> &BufferString {
        match self {
            Self::Utf8(value) => value,
            _ => panic!("not a Utf8"),
        }
    }

    #[inline]
    pub fn as_binary(&self) -> &ByteBuffer {
        match self {
            Self::Binary(value) => value,
            _ => panic!("not a Binary"),
        }
    }

    #[inline]
    pub fn as_list(&self) -> &[Option<ScalarValue>] {
        match self {
            Self::Tuple(elements) => elements,
            _ => panic!("not a Tuple"),
        }
    }

    #[inline]
    pub fn as_union(&self) -> &UnionValue {
        match self {
            Self::Union(value) => value,
            _ => panic!("not a Union"),
        }
    }

    #[inline]
    pub fn as_variant(&self) -> &Scalar {
        match self {
            Self::Variant(value) => value,
            _ => panic!("not a Variant"),
        }
    }
}

/// The key and the value of an entry of a valid map.
pub fn pair(entry: &Option<ScalarValue>) -> (Option<&ScalarValue>, Option<&ScalarValue>) {
    match entry.as_ref().expect("an entry is not null").as_list() {
        [key, value] => (key.as_ref(), value.as_ref()),
        _ => panic!("an entry has two parts"),
    }
}
