// SPDX-License-Identifier: Apache-2.0
//! Casts: the value of another type with the same content.

use crate::error::{VortexError, VortexResult};
use crate::types::{DType, MapDType, UnionVariants};
use crate::values::{Scalar, ScalarValue, UnionValue, pair};

/// How like two types are. The elements of a list share one answer.
#[derive(Clone, Copy)]
enum Likeness {
    Equal,
    EqualButForNullability,
    Other,
}

fn compare(source: &DType, target: &DType) -> Likeness {
    if source == target {
        Likeness::Equal
    } else if source.eq_ignore_nullability(target) {
        Likeness::EqualButForNullability
    } else {
        Likeness::Other
    }
}

/// The same of parts. Of two lists, maps or structs the parts are compared in their stead, so that no type is compared
/// anew at each level above it.
fn compare_part(source: &DType, target: &DType) -> Likeness {
    match (source, target) {
        (
            DType::List(..) | DType::FixedSizeList(..),
            DType::List(..) | DType::FixedSizeList(..),
        )
        | (DType::Map(..), DType::Map(..))
        | (DType::Struct(..), DType::Struct(..)) => Likeness::Other,
        _ => compare(source, target),
    }
}

impl Scalar {
    /// The scalar is valid.
    pub fn cast(&self, target: &DType) -> VortexResult<Scalar> {
        let likeness = compare(self.dtype(), target);
        let value = cast_compared(self.value(), self.dtype(), target, likeness)?;
        Ok(Scalar::new_unchecked(target.clone(), value))
    }
}

fn cast_part(
    value: Option<&ScalarValue>,
    source: &DType,
    target: &DType,
) -> VortexResult<Option<ScalarValue>> {
    cast_compared(value, source, target, compare_part(source, target))
}

/// A cast between types whose likeness is known.
fn cast_compared(
    value: Option<&ScalarValue>,
    source: &DType,
    target: &DType,
    likeness: Likeness,
) -> VortexResult<Option<ScalarValue>> {
    match likeness {
        Likeness::Equal => return Ok(value.cloned()),
        Likeness::EqualButForNullability => return keep(value, target),
        Likeness::Other => {}
    }
    if let (DType::Map(from, _), DType::Map(to, _)) = (source, target)
        && to.keys_sorted()
        && !from.keys_sorted()
    {
        return Err(VortexError::CannotCast);
    }
    match value {
        Some(value) => cast_present(value, source, target),
        None => keep(None, target),
    }
}

/// The same of a value that is present, between types that are not alike.
#[inline]
fn cast_present(
    value: &ScalarValue,
    source: &DType,
    target: &DType,
) -> VortexResult<Option<ScalarValue>> {
    match (source, target) {
        (_, DType::Extension(ext)) => cast_part(Some(value), source, ext.storage_dtype()),
        (DType::Primitive(..), DType::Primitive(ptype, _)) => {
            let number = value
                .as_primitive()
                .cast(*ptype)
                .ok_or(VortexError::CannotCast)?;
            Ok(Some(ScalarValue::Primitive(number)))
        }
        (DType::List(from, _) | DType::FixedSizeList(from, ..), DType::List(to, _)) => {
            cast_elements(value.as_list(), from, to)
        }
        (
            DType::List(from, _) | DType::FixedSizeList(from, ..),
            DType::FixedSizeList(to, size, _),
        ) if value.as_list().len() == *size as usize => cast_elements(value.as_list(), from, to),
        (DType::Map(from, _), DType::Map(to, _)) => cast_entries(value.as_list(), from, to),
        (DType::Struct(from, _), DType::Struct(to, _))
            if from.dtypes().len() == to.dtypes().len() =>
        {
            cast_fields(value.as_list(), from.dtypes(), to.dtypes())
        }
        (DType::Union(from, _), DType::Union(to, _)) if from.type_ids() == to.type_ids() => {
            cast_child(value.as_union(), from, to)
        }
        (DType::Extension(ext), _) if ext.storage_dtype().eq_ignore_nullability(target) => {
            keep(Some(value), target)
        }
        _ => Err(VortexError::CannotCast),
    }
}

/// The same value, if the target accepts it.
fn keep(value: Option<&ScalarValue>, target: &DType) -> VortexResult<Option<ScalarValue>> {
    if Scalar::is_compatible(target, value) {
        Ok(value.cloned())
    } else {
        Err(VortexError::CannotCast)
    }
}

fn cast_elements(
    elements: &[Option<ScalarValue>],
    from: &DType,
    to: &DType,
) -> VortexResult<Option<ScalarValue>> {
    let likeness = compare_part(from, to);
    if let Likeness::Equal = likeness {
        return Ok(Some(ScalarValue::Tuple(elements.to_vec())));
    }
    let mut made = Vec::with_capacity(elements.len());
    for element in elements {
        made.push(cast_compared(element.as_ref(), from, to, likeness)?);
    }
    Ok(Some(ScalarValue::Tuple(made)))
}

fn cast_entries(
    entries: &[Option<ScalarValue>],
    from: &MapDType,
    to: &MapDType,
) -> VortexResult<Option<ScalarValue>> {
    let keys = compare_part(from.key_dtype(), to.key_dtype());
    let values = compare_part(from.value_dtype(), to.value_dtype());
    let mut made = Vec::with_capacity(entries.len());
    for entry in entries {
        let (key, value) = pair(entry);
        let key = cast_compared(key, from.key_dtype(), to.key_dtype(), keys)?;
        let value = cast_compared(value, from.value_dtype(), to.value_dtype(), values)?;
        made.push(Some(ScalarValue::Tuple(vec![key, value])));
    }
    Ok(Some(ScalarValue::Tuple(made)))
}

fn cast_fields(
    values: &[Option<ScalarValue>],
    from: &[DType],
    to: &[DType],
) -> VortexResult<Option<ScalarValue>> {
    let mut made = Vec::with_capacity(values.len());
    for ((value, from), to) in values.iter().zip(from).zip(to) {
        made.push(cast_part(value.as_ref(), from, to)?);
    }
    Ok(Some(ScalarValue::Tuple(made)))
}

/// Between unions of the same ids: the child between the two variants with its id.
fn cast_child(
    union: &UnionValue,
    from: &UnionVariants,
    to: &UnionVariants,
) -> VortexResult<Option<ScalarValue>> {
    let index = from.index_of(union.type_id());
    let child = cast_part(
        union.child_value(),
        &from.dtypes()[index],
        &to.dtypes()[index],
    )?;
    Ok(Some(ScalarValue::Union(UnionValue::new(
        union.type_id(),
        child,
    ))))
}
