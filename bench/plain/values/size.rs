// SPDX-License-Identifier: Apache-2.0
//! How many bytes a value takes.

use crate::types::DType;
use crate::values::{Scalar, ScalarValue, pair};

impl Scalar {
    /// The scalar is valid.
    pub fn approx_nbytes(&self) -> usize {
        approx_nbytes(self.dtype(), self.value())
    }
}

#[inline]
fn approx_nbytes(dtype: &DType, value: Option<&ScalarValue>) -> usize {
    match dtype {
        DType::Null => 0,
        DType::Bool(_) => 1,
        DType::Primitive(ptype, _) => ptype.byte_width(),
        DType::Extension(ext) => approx_nbytes(ext.storage_dtype(), value),
        _ => value.map_or(0, |value| non_null_nbytes(dtype, value)),
    }
}

fn non_null_nbytes(dtype: &DType, value: &ScalarValue) -> usize {
    match dtype {
        DType::Utf8(_) => value.as_utf8().as_str().len(),
        DType::Binary(_) => value.as_binary().as_slice().len(),
        DType::List(element_dtype, _) | DType::FixedSizeList(element_dtype, ..) => sum(value
            .as_list()
            .iter()
            .map(|element| approx_nbytes(element_dtype, element.as_ref()))),
        DType::Map(map, _) => sum(value.as_list().iter().map(|entry| {
            let (key, value) = pair(entry);
            approx_nbytes(map.key_dtype(), key)
                .saturating_add(approx_nbytes(map.value_dtype(), value))
        })),
        DType::Struct(fields, _) => sum(fields
            .dtypes()
            .iter()
            .zip(value.as_list())
            .map(|(dtype, value)| approx_nbytes(dtype, value.as_ref()))),
        DType::Union(variants, _) => {
            let union = value.as_union();
            let index = variants.index_of(union.type_id());
            approx_nbytes(&variants.dtypes()[index], union.child_value()).saturating_add(1)
        }
        DType::Variant(_) => value.as_variant().approx_nbytes(),
        _ => unreachable!("the other types are sized without a value"),
    }
}

fn sum(sizes: impl Iterator<Item = usize>) -> usize {
    sizes.fold(0, usize::saturating_add)
}
