// SPDX-License-Identifier: Apache-2.0
//! Texts of scalars: of valid ones by their types, of others the raw text.

use std::cmp::Ordering;
use std::fmt::{self, Display, Formatter, Write};

use crate::error::{Step, VortexError};
use crate::types::{DType, MapDType, StructFields};
use crate::values::{Scalar, ScalarValue, pair};

impl Display for Scalar {
    fn fmt(&self, f: &mut Formatter<'_>) -> fmt::Result {
        match self.validate() {
            Err(VortexError::Invalid(invalid)) => {
                fmt_raw(self.value(), Tested::Breach(&invalid.path), f)
            }
            _ => fmt_view(self.dtype(), self.value(), f),
        }
    }
}

/// What the test of the scalar around it says of a raw value. The text of a variant within an invalid scalar asks
/// whether the variant is valid: so no part is tested anew for each variant around it.
#[derive(Clone, Copy)]
enum Tested<'a> {
    /// It stands before the first breach.
    Valid,
    /// It has the first breach, at the end of this path. The first step comes last.
    Breach(&'a [Step]),
    /// It stands behind the first breach.
    Not,
}

impl Tested<'_> {
    fn part(self, index: usize) -> Self {
        match self {
            Self::Breach([path @ .., step]) => match index.cmp(&place(*step)) {
                Ordering::Less => Self::Valid,
                Ordering::Equal => Self::Breach(path),
                Ordering::Greater => Self::Not,
            },
            Self::Breach([]) => Self::Not,
            Self::Valid | Self::Not => self,
        }
    }
}

/// The place among the parts of a raw value.
fn place(step: Step) -> usize {
    match step {
        Step::Element(index) | Step::Entry(index) | Step::Field(index) => index,
        Step::Key | Step::Child | Step::Inner => 0,
        Step::Value => 1,
    }
}

fn fmt_raw(value: Option<&ScalarValue>, tested: Tested<'_>, f: &mut Formatter<'_>) -> fmt::Result {
    match value {
        Some(value) => fmt_raw_non_null(value, tested, f),
        None => f.write_str("null"),
    }
}

fn fmt_raw_non_null(value: &ScalarValue, tested: Tested<'_>, f: &mut Formatter<'_>) -> fmt::Result {
    match value {
        ScalarValue::Bool(value) => f.write_str(if *value { "true" } else { "false" }),
        ScalarValue::Primitive(number) => number.fmt(f),
        ScalarValue::Utf8(text) => fmt_shortened(text.as_str(), f),
        ScalarValue::Binary(bytes) => match bytes.as_slice() {
            bytes if bytes.len() <= 10 => fmt_hex(bytes, f),
            bytes => {
                fmt_hex(&bytes[..5], f)?;
                f.write_str("..")?;
                fmt_hex(&bytes[bytes.len() - 5..], f)
            }
        },
        ScalarValue::Tuple(elements) => {
            f.write_str("[")?;
            fmt_separated(elements.iter().enumerate(), f, |(index, element), f| {
                fmt_raw(element.as_ref(), tested.part(index), f)
            })?;
            f.write_str("]")
        }
        ScalarValue::Union(union) => {
            write!(f, "union@{}(", union.type_id())?;
            fmt_raw(union.child_value(), tested.part(0), f)?;
            f.write_str(")")
        }
        ScalarValue::Variant(inner) => match tested.part(0) {
            Tested::Valid => fmt_view(inner.dtype(), inner.value(), f),
            Tested::Breach(path) => fmt_raw(inner.value(), Tested::Breach(path), f),
            Tested::Not => inner.fmt(f),
        },
    }
}

/// Texts of more than 10 characters show their first and last 5.
fn fmt_shortened(text: &str, f: &mut Formatter<'_>) -> fmt::Result {
    let start = |nth: Option<(usize, char)>| nth.expect("more than 10 characters").0;
    f.write_char('"')?;
    if text.chars().nth(10).is_none() {
        f.write_str(text)?;
    } else {
        let first = start(text.char_indices().nth(5));
        let last = start(text.char_indices().nth_back(4));
        f.write_str(&text[..first])?;
        f.write_str("..")?;
        f.write_str(&text[last..])?;
    }
    f.write_char('"')
}

fn fmt_hex(bytes: &[u8], f: &mut Formatter<'_>) -> fmt::Result {
    bytes.iter().try_for_each(|byte| write!(f, "{byte:02x}"))
}

fn fmt_separated<T>(
    items: impl IntoIterator<Item = T>,
    f: &mut Formatter<'_>,
    mut item: impl FnMut(T, &mut Formatter<'_>) -> fmt::Result,
) -> fmt::Result {
    for (index, x) in items.into_iter().enumerate() {
        if index > 0 {
            f.write_str(", ")?;
        }
        item(x, f)?;
    }
    Ok(())
}

/// The text of a value that is valid for its type.
fn fmt_view(dtype: &DType, value: Option<&ScalarValue>, f: &mut Formatter<'_>) -> fmt::Result {
    let Some(value) = value else {
        return f.write_str("null");
    };
    match dtype {
        DType::Null => unreachable!("a value of type Null is null"),
        DType::Bool(_) | DType::Primitive(..) => fmt_raw_non_null(value, Tested::Valid, f),
        DType::Utf8(_) => {
            f.write_char('"')?;
            StringEscape(value.as_utf8().as_str()).fmt(f)?;
            f.write_char('"')
        }
        DType::Binary(_) => fmt_bytes(value.as_binary().as_slice(), f),
        DType::List(element_dtype, _) => fmt_elements(element_dtype, value.as_list(), f),
        DType::FixedSizeList(element_dtype, size, _) => {
            write!(f, "fixed_size<{size}>")?;
            fmt_elements(element_dtype, value.as_list(), f)
        }
        DType::Map(map, _) => fmt_entries(map, value.as_list(), f),
        DType::Struct(fields, _) => fmt_fields(fields, value.as_list(), f),
        DType::Union(variants, _) => {
            let union = value.as_union();
            let index = variants.index_of(union.type_id());
            f.write_str(&variants.names()[index])?;
            f.write_str("(")?;
            fmt_view(&variants.dtypes()[index], union.child_value(), f)?;
            f.write_str(")")
        }
        DType::Variant(_) => {
            let inner = value.as_variant();
            f.write_str("variant(")?;
            fmt_view(inner.dtype(), inner.value(), f)?;
            f.write_str(")")
        }
        DType::Extension(ext) => fmt_view(ext.storage_dtype(), Some(value), f),
    }
}

fn fmt_bytes(bytes: &[u8], f: &mut Formatter<'_>) -> fmt::Result {
    f.write_char('"')?;
    for (index, byte) in bytes.iter().enumerate() {
        if index > 0 {
            f.write_char(' ')?;
        }
        write!(f, "{byte:x}")?;
    }
    f.write_char('"')
}

fn fmt_elements(
    dtype: &DType,
    elements: &[Option<ScalarValue>],
    f: &mut Formatter<'_>,
) -> fmt::Result {
    f.write_str("[")?;
    fmt_separated(elements, f, |element, f| {
        fmt_view(dtype, element.as_ref(), f)
    })?;
    f.write_str("]")
}

fn fmt_entries(
    map: &MapDType,
    entries: &[Option<ScalarValue>],
    f: &mut Formatter<'_>,
) -> fmt::Result {
    f.write_str("{")?;
    fmt_separated(entries, f, |entry, f| {
        let (key, value) = pair(entry);
        fmt_view(map.key_dtype(), key, f)?;
        f.write_str(": ")?;
        fmt_view(map.value_dtype(), value, f)
    })?;
    f.write_str("}")
}

fn fmt_fields(
    fields: &StructFields,
    values: &[Option<ScalarValue>],
    f: &mut Formatter<'_>,
) -> fmt::Result {
    f.write_str("{")?;
    let parts = fields.names().iter().zip(fields.dtypes()).zip(values);
    fmt_separated(parts, f, |((name, dtype), value), f| {
        f.write_str(name)?;
        f.write_str(": ")?;
        fmt_view(dtype, value.as_ref(), f)
    })?;
    f.write_str("}")
}

/// A text with its escapes.
pub struct StringEscape<'a>(pub &'a str);

impl Display for StringEscape<'_> {
    fn fmt(&self, f: &mut Formatter<'_>) -> fmt::Result {
        let mut start = 0;
        for (place, byte) in self.0.bytes().enumerate() {
            if byte >= 0x20 && byte != b'"' && byte != b'\\' && byte != 0x7f {
                continue;
            }
            f.write_str(&self.0[start..place])?;
            start = place + 1;
            match byte {
                b'\\' => f.write_str("\\\\")?,
                b'"' => f.write_str("\\\"")?,
                b'\n' => f.write_str("\\n")?,
                b'\r' => f.write_str("\\r")?,
                b'\t' => f.write_str("\\t")?,
                _ => write!(f, "\\u{{{byte:x}}}")?,
            }
        }
        f.write_str(&self.0[start..])
    }
}
