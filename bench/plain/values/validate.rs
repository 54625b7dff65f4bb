// SPDX-License-Identifier: Apache-2.0
//! Validity: whether a value is one of its type, and the first breach if it is not.

use crate::error::{Breach, Step, VortexError, VortexResult};
use crate::types::{DType, MapDType};
use crate::values::{Scalar, ScalarValue};

impl Scalar {
    /// A valid value takes no memory and is walked once.
    #[inline]
    pub fn validate(&self) -> VortexResult<()> {
        if Self::is_compatible(self.dtype(), self.value()) {
            return Ok(());
        }
        first_breach(self.dtype(), self.value())
    }

    /// Whether the value is valid. Nulls and leaves are tested inline.
    #[inline]
    pub fn is_compatible(dtype: &DType, value: Option<&ScalarValue>) -> bool {
        let Some(value) = value else {
            return dtype.is_nullable();
        };
        match (dtype, value) {
            (DType::Bool(_), ScalarValue::Bool(_))
            | (DType::Utf8(_), ScalarValue::Utf8(_))
            | (DType::Binary(_), ScalarValue::Binary(_)) => true,
            (DType::Primitive(ptype, _), ScalarValue::Primitive(number)) => {
                number.ptype() == *ptype
            }
            _ => is_compatible_nested(dtype, value),
        }
    }
}

fn is_compatible_nested(dtype: &DType, value: &ScalarValue) -> bool {
    match (dtype, value) {
        (DType::List(element_dtype, _), ScalarValue::Tuple(elements)) => elements
            .iter()
            .all(|element| Scalar::is_compatible(element_dtype, element.as_ref())),
        (DType::FixedSizeList(element_dtype, size, _), ScalarValue::Tuple(elements)) => {
            elements.len() == *size as usize
                && elements
                    .iter()
                    .all(|element| Scalar::is_compatible(element_dtype, element.as_ref()))
        }
        (DType::Map(map, _), ScalarValue::Tuple(entries)) => {
            entries.iter().all(|entry| is_entry(map, entry.as_ref()))
        }
        (DType::Struct(fields, _), ScalarValue::Tuple(values)) => {
            values.len() == fields.dtypes().len()
                && fields
                    .dtypes()
                    .iter()
                    .zip(values)
                    .all(|(dtype, value)| Scalar::is_compatible(dtype, value.as_ref()))
        }
        (DType::Union(variants, _), ScalarValue::Union(union)) => variants
            .tag_to_child_index(union.type_id())
            .is_some_and(|index| {
                Scalar::is_compatible(&variants.dtypes()[index], union.child_value())
            }),
        (DType::Variant(_), ScalarValue::Variant(inner)) => {
            (!inner.is_null() || matches!(inner.dtype(), DType::Null))
                && Scalar::is_compatible(inner.dtype(), inner.value())
        }
        (DType::Extension(ext), value) => Scalar::is_compatible(ext.storage_dtype(), Some(value)),
        _ => false,
    }
}

#[inline]
fn is_entry(map: &MapDType, entry: Option<&ScalarValue>) -> bool {
    let Some(ScalarValue::Tuple(pair)) = entry else {
        return false;
    };
    let [key, value] = pair.as_slice() else {
        return false;
    };
    Scalar::is_compatible(map.key_dtype(), key.as_ref())
        && Scalar::is_compatible(map.value_dtype(), value.as_ref())
}

/// The first breach in reading order, a value before its parts.
#[cold]
fn first_breach(dtype: &DType, value: Option<&ScalarValue>) -> VortexResult<()> {
    let Some(value) = value else {
        return ensure(dtype.is_nullable(), Breach::NullNotAllowed);
    };
    match (dtype, value) {
        (DType::List(element_dtype, _), ScalarValue::Tuple(elements)) => {
            breach_of_elements(element_dtype, elements)
        }
        (DType::FixedSizeList(element_dtype, size, _), ScalarValue::Tuple(elements)) => {
            ensure(elements.len() == *size as usize, Breach::WrongLength)?;
            breach_of_elements(element_dtype, elements)
        }
        (DType::Map(map, _), ScalarValue::Tuple(entries)) => breach_of_entries(map, entries),
        (DType::Struct(fields, _), ScalarValue::Tuple(values)) => {
            breach_of_fields(fields.dtypes(), values)
        }
        (DType::Union(variants, _), ScalarValue::Union(union)) => {
            let Some(index) = variants.tag_to_child_index(union.type_id()) else {
                return Err(VortexError::invalid(Breach::UnknownTypeId));
            };
            first_breach(&variants.dtypes()[index], union.child_value())
                .map_err(|error| error.under(Step::Child))
        }
        (DType::Variant(_), ScalarValue::Variant(inner)) => {
            let is_null = inner.is_null() && !matches!(inner.dtype(), DType::Null);
            ensure(!is_null, Breach::VariantNull)?;
            first_breach(inner.dtype(), inner.value()).map_err(|error| error.under(Step::Inner))
        }
        (DType::Extension(ext), value) => first_breach(ext.storage_dtype(), Some(value)),
        _ => ensure(
            Scalar::is_compatible(dtype, Some(value)),
            Breach::WrongValue,
        ),
    }
}

fn breach_of_elements(dtype: &DType, elements: &[Option<ScalarValue>]) -> VortexResult<()> {
    for (index, element) in elements.iter().enumerate() {
        first_breach(dtype, element.as_ref()).map_err(|error| error.under(Step::Element(index)))?;
    }
    Ok(())
}

fn breach_of_fields(dtypes: &[DType], values: &[Option<ScalarValue>]) -> VortexResult<()> {
    ensure(values.len() == dtypes.len(), Breach::WrongLength)?;
    for (index, (dtype, value)) in dtypes.iter().zip(values).enumerate() {
        first_breach(dtype, value.as_ref()).map_err(|error| error.under(Step::Field(index)))?;
    }
    Ok(())
}

fn breach_of_entries(map: &MapDType, entries: &[Option<ScalarValue>]) -> VortexResult<()> {
    for (index, entry) in entries.iter().enumerate() {
        breach_of_entry(map, entry.as_ref()).map_err(|error| error.under(Step::Entry(index)))?;
    }
    Ok(())
}

fn breach_of_entry(map: &MapDType, entry: Option<&ScalarValue>) -> VortexResult<()> {
    let entry = entry.ok_or_else(|| VortexError::invalid(Breach::NullEntry))?;
    let ScalarValue::Tuple(pair) = entry else {
        return Err(VortexError::invalid(Breach::WrongValue));
    };
    let [key, value] = pair.as_slice() else {
        return Err(VortexError::invalid(Breach::WrongLength));
    };
    first_breach(map.key_dtype(), key.as_ref()).map_err(|error| error.under(Step::Key))?;
    first_breach(map.value_dtype(), value.as_ref()).map_err(|error| error.under(Step::Value))
}

fn ensure(holds: bool, breach: Breach) -> VortexResult<()> {
    if holds {
        Ok(())
    } else {
        Err(VortexError::invalid(breach))
    }
}
