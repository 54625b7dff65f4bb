// SPDX-License-Identifier: Apache-2.0
//! Whether a value is the zero of its type.

use crate::types::DType;
use crate::values::{Scalar, ScalarValue};

impl Scalar {
    /// None for a null. The scalar is valid.
    pub fn is_zero(&self) -> Option<bool> {
        is_zero(self.dtype(), self.value())
    }
}

/// Leaves are inline, as in the test of validity.
#[inline]
fn is_zero(dtype: &DType, value: Option<&ScalarValue>) -> Option<bool> {
    match value? {
        ScalarValue::Bool(value) => Some(!value),
        ScalarValue::Primitive(number) => Some(number.is_zero()),
        ScalarValue::Utf8(text) => Some(text.as_str().is_empty()),
        ScalarValue::Binary(bytes) => Some(bytes.as_slice().is_empty()),
        value => is_zero_nested(dtype, value),
    }
}

fn is_zero_nested(dtype: &DType, value: &ScalarValue) -> Option<bool> {
    match dtype {
        DType::List(..) | DType::Map(..) => Some(value.as_list().is_empty()),
        DType::FixedSizeList(element_dtype, ..) => Some(
            value
                .as_list()
                .iter()
                .all(|element| is_zero(element_dtype, element.as_ref()) == Some(true)),
        ),
        DType::Struct(fields, _) => Some(
            fields
                .dtypes()
                .iter()
                .zip(value.as_list())
                .all(|(dtype, value)| is_zero(dtype, value.as_ref()) == Some(true)),
        ),
        DType::Union(variants, _) => {
            let union = value.as_union();
            match variants.tag_to_child_index(union.type_id()) {
                Some(0) => is_zero(&variants.dtypes()[0], union.child_value()),
                _ => Some(false),
            }
        }
        DType::Variant(_) => match value.as_variant() {
            inner if inner.is_null() => Some(true),
            inner => inner.is_zero(),
        },
        DType::Extension(ext) => is_zero_nested(ext.storage_dtype(), value),
        _ => unreachable!("the value is valid for its type"),
    }
}
