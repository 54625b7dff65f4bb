// SPDX-License-Identifier: Apache-2.0
//! Types, scalars and refusals as they stand in lines.

use std::fmt::Write;

use crate::display::StringEscape;
use crate::error::VortexError;
use crate::filters::{Outcomes, Truth};
use crate::statistics::{Bound, ColumnStatistics};
use crate::types::{DType, ExtDType, FieldName, StructFields, UnionVariants};
use crate::values::{Scalar, ScalarValue};

macro_rules! put {
    ($out:expr, $($parts:tt)*) => {
        write!($out, $($parts)*).expect("a String takes every text")
    };
}

pub fn write_quoted(text: &str, out: &mut String) {
    put!(out, "\"{}\"", StringEscape(text));
}

fn write_name(name: &str, out: &mut String) {
    let is_word = name
        .bytes()
        .all(|byte| byte.is_ascii_alphanumeric() || byte == b'_');
    if is_word
        && name
            .bytes()
            .next()
            .is_some_and(|byte| !byte.is_ascii_digit())
    {
        out.push_str(name);
    } else {
        write_quoted(name, out);
    }
}

pub fn write_hex(bytes: &[u8], out: &mut String) {
    for byte in bytes {
        put!(out, "{byte:02x}");
    }
}

fn write_separated<T>(
    items: impl IntoIterator<Item = T>,
    out: &mut String,
    mut item: impl FnMut(T, &mut String),
) {
    for (index, x) in items.into_iter().enumerate() {
        if index > 0 {
            out.push_str(", ");
        }
        item(x, out);
    }
}

fn write_field(name: &FieldName, dtype: &DType, out: &mut String) {
    write_name(name, out);
    out.push_str(": ");
    write_type(dtype, out);
}

fn write_type(dtype: &DType, out: &mut String) {
    write_bare_type(dtype, out);
    if dtype.is_nullable() && !matches!(dtype, DType::Null | DType::Extension(_)) {
        out.push('?');
    }
}

fn write_bare_type(dtype: &DType, out: &mut String) {
    match dtype {
        DType::Null => out.push_str("null"),
        DType::Bool(_) => out.push_str("bool"),
        DType::Primitive(ptype, _) => out.push_str(ptype.name()),
        DType::Utf8(_) => out.push_str("utf8"),
        DType::Binary(_) => out.push_str("binary"),
        DType::Variant(_) => out.push_str("variant"),
        DType::List(element, _) => {
            out.push_str("list(");
            write_type(element, out);
            out.push(')');
        }
        DType::FixedSizeList(element, size, _) => {
            out.push_str("fsl(");
            write_type(element, out);
            put!(out, ", {size})");
        }
        DType::Map(map, _) => {
            out.push_str("map(");
            write_type(map.key_dtype(), out);
            out.push_str(", ");
            write_type(map.value_dtype(), out);
            out.push_str(if map.keys_sorted() { ", sorted)" } else { ")" });
        }
        DType::Struct(fields, _) => write_fields(fields, out),
        DType::Union(variants, _) => write_variants(variants, out),
        DType::Extension(ext) => write_extension(ext, out),
    }
}

fn write_fields(fields: &StructFields, out: &mut String) {
    out.push('{');
    write_separated(
        fields.names().iter().zip(fields.dtypes()),
        out,
        |(name, dtype), out| {
            write_field(name, dtype, out);
        },
    );
    out.push('}');
}

fn write_variants(variants: &UnionVariants, out: &mut String) {
    out.push_str("union(");
    let parts = variants
        .type_ids()
        .iter()
        .zip(variants.names())
        .zip(variants.dtypes());
    write_separated(parts, out, |((id, name), dtype), out| {
        put!(out, "{id} ");
        write_field(name, dtype, out);
    });
    out.push(')');
}

fn write_extension(ext: &ExtDType, out: &mut String) {
    out.push_str("ext(");
    write_name(ext.id(), out);
    out.push_str(", ");
    write_hex(ext.metadata(), out);
    out.push_str(", ");
    write_type(ext.storage_dtype(), out);
    out.push(')');
}

fn write_raw(value: Option<&ScalarValue>, out: &mut String) {
    match value {
        None => out.push_str("null"),
        Some(ScalarValue::Bool(value)) => out.push_str(if *value { "true" } else { "false" }),
        Some(ScalarValue::Primitive(number)) => put!(out, "{number}"),
        Some(ScalarValue::Utf8(text)) => write_quoted(text.as_str(), out),
        Some(ScalarValue::Binary(bytes)) => {
            out.push('x');
            write_hex(bytes.as_slice(), out);
        }
        Some(ScalarValue::Tuple(elements)) => {
            out.push('[');
            write_separated(elements, out, |element, out| {
                write_raw(element.as_ref(), out)
            });
            out.push(']');
        }
        Some(ScalarValue::Union(union)) => {
            put!(out, "{}(", union.type_id());
            write_raw(union.child_value(), out);
            out.push(')');
        }
        Some(ScalarValue::Variant(inner)) => {
            out.push('<');
            write_scalar(inner, out);
            out.push('>');
        }
    }
}

pub fn write_scalar(scalar: &Scalar, out: &mut String) {
    write_type(scalar.dtype(), out);
    out.push(':');
    write_raw(scalar.value(), out);
}

pub fn write_error(error: &VortexError, out: &mut String) {
    match error {
        VortexError::CannotCast => out.push_str("CannotCast"),
        VortexError::BadType(cause) => put!(out, "BadType {cause:?}"),
        VortexError::Invalid(invalid) => {
            let steps: Vec<_> = invalid
                .path
                .iter()
                .rev()
                .map(|step| format!("{step:?}"))
                .collect();
            let path = if steps.is_empty() {
                ".".to_string()
            } else {
                steps.join("/")
            };
            put!(out, "Invalid {path} {:?}", invalid.breach);
        }
    }
}

pub fn write_statistics(dtype: &DType, statistics: &ColumnStatistics, out: &mut String) {
    write_type(dtype, out);
    out.push_str(":(");
    write_count(statistics.row_count, "row", out);
    out.push_str(", ");
    match statistics.null_count {
        Some(nulls) => write_count(nulls, "null", out),
        None => out.push('_'),
    }
    out.push_str(", ");
    write_bound(dtype, statistics.lower.as_ref(), out);
    out.push_str(", ");
    write_bound(dtype, statistics.upper.as_ref(), out);
    out.push(')');
}

fn write_count(count: u64, noun: &str, out: &mut String) {
    put!(out, "{count} {noun}{}", if count == 1 { "" } else { "s" });
}

fn write_bound(dtype: &DType, bound: Option<&Bound>, out: &mut String) {
    let Some(bound) = bound else {
        return out.push('_');
    };
    write_raw(bound.value.value(), out);
    if bound.value.dtype() != dtype {
        out.push_str(" of ");
        write_type(bound.value.dtype(), out);
    }
    if bound.is_exact {
        out.push_str(" exact");
    }
}

pub fn truth_word(truth: Truth) -> &'static str {
    match truth {
        Truth::False => "false",
        Truth::Unknown => "unknown",
        Truth::True => "true",
    }
}

/// The truth values that are possible.
pub fn write_outcomes(outcomes: Outcomes, out: &mut String) {
    let possible: Vec<&str> = [
        (outcomes.may_be_true, "true"),
        (outcomes.may_be_false, "false"),
        (outcomes.may_be_unknown, "unknown"),
    ]
    .into_iter()
    .filter_map(|(is_possible, word)| is_possible.then_some(word))
    .collect();
    out.push_str(if possible.is_empty() { "none" } else { "" });
    out.push_str(&possible.join(" "));
}
