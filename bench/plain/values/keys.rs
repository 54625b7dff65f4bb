//! Keys: bytes that sort as the scalars do, and back.

use std::str;

use crate::pvalues::PValue;
use crate::types::{DType, PType};
use crate::values::{BufferString, ByteBuffer, Scalar, ScalarValue, UnionValue};

#[derive(Clone, Copy)]
pub struct SortOptions {
    pub descending: bool,
    pub nulls_first: bool,
}

#[derive(Debug)]
pub enum KeyError {
    HasVariant,
    BadKey { place: usize },
    WrongLength { expected: usize, found: usize },
}

pub type KeyResult<T> = Result<T, KeyError>;

fn has_variant(dtype: &DType) -> bool {
    match dtype {
        DType::Variant(_) => true,
        DType::List(element, _) | DType::FixedSizeList(element, ..) => has_variant(element),
        DType::Map(map, _) => has_variant(map.key_dtype()) || has_variant(map.value_dtype()),
        DType::Struct(fields, _) => fields.dtypes().iter().any(has_variant),
        DType::Union(variants, _) => variants.dtypes().iter().any(has_variant),
        DType::Extension(ext) => has_variant(ext.storage_dtype()),
        _ => false,
    }
}

/// Whether a variant stands in the value, at any depth.
fn holds_variant(value: Option<&ScalarValue>) -> bool {
    match value {
        Some(ScalarValue::Variant(_)) => true,
        Some(ScalarValue::Tuple(parts)) => parts.iter().any(|part| holds_variant(part.as_ref())),
        Some(ScalarValue::Union(union)) => holds_variant(union.child_value()),
        _ => false,
    }
}

/// Whether a union without variants stands in the type, at any depth: then types may have no value.
fn has_empty_union(dtype: &DType) -> bool {
    match dtype {
        DType::List(element, _) | DType::FixedSizeList(element, ..) => has_empty_union(element),
        DType::Map(map, _) => has_empty_union(map.key_dtype()) || has_empty_union(map.value_dtype()),
        DType::Struct(fields, _) => fields.dtypes().iter().any(has_empty_union),
        DType::Union(variants, _) => {
            variants.dtypes().is_empty() || variants.dtypes().iter().any(has_empty_union)
        }
        DType::Extension(ext) => has_empty_union(ext.storage_dtype()),
        _ => false,
    }
}

fn has_value(dtype: &DType) -> bool {
    dtype.is_nullable() || has_present(dtype)
}

/// Whether the type has a value that is no null.
fn has_present(dtype: &DType) -> bool {
    match dtype {
        DType::FixedSizeList(element, size, _) => *size == 0 || has_value(element),
        DType::Struct(fields, _) => fields.dtypes().iter().all(has_value),
        DType::Union(variants, _) => variants.dtypes().iter().any(has_value),
        DType::Extension(ext) => has_present(ext.storage_dtype()),
        DType::Null | DType::Variant(_) => false,
        _ => true,
    }
}

// Keys

pub fn append_key(scalar: &Scalar, options: SortOptions, out: &mut Vec<u8>) -> KeyResult<()> {
    append_raw_key(scalar.dtype(), scalar.value(), options, out)
}

pub fn append_raw_key(
    dtype: &DType,
    value: Option<&ScalarValue>,
    options: SortOptions,
    out: &mut Vec<u8>,
) -> KeyResult<()> {
    if has_variant(dtype) || holds_variant(value) {
        return Err(KeyError::HasVariant);
    }
    out.reserve(key_length(value));
    append_column(value, options, out);
    Ok(())
}

pub fn append_row_key(
    row: &[&Scalar],
    options: &[SortOptions],
    out: &mut Vec<u8>,
) -> KeyResult<()> {
    same_length(options.len(), row.len())?;
    let is_held = |scalar: &&Scalar| has_variant(scalar.dtype()) || holds_variant(scalar.value());
    if row.iter().any(is_held) {
        return Err(KeyError::HasVariant);
    }
    append_columns(row, options, out);
    Ok(())
}

/// Appends the keys of rows, whose columns have no variant.
pub struct RowEncoder<'a> {
    options: &'a [SortOptions],
}

impl<'a> RowEncoder<'a> {
    pub fn try_new(dtypes: &[DType], options: &'a [SortOptions]) -> KeyResult<Self> {
        same_length(dtypes.len(), options.len())?;
        if dtypes.iter().any(has_variant) {
            return Err(KeyError::HasVariant);
        }
        Ok(Self { options })
    }

    pub fn append(&self, row: &[&Scalar], out: &mut Vec<u8>) -> KeyResult<()> {
        same_length(self.options.len(), row.len())?;
        if row.iter().any(|scalar| holds_variant(scalar.value())) {
            return Err(KeyError::HasVariant);
        }
        append_columns(row, self.options, out);
        Ok(())
    }
}

fn append_columns(row: &[&Scalar], options: &[SortOptions], out: &mut Vec<u8>) {
    out.reserve(row.iter().map(|scalar| key_length(scalar.value())).sum());
    for (scalar, options) in row.iter().zip(options) {
        append_column(scalar.value(), *options, out);
    }
}

fn same_length(expected: usize, found: usize) -> KeyResult<()> {
    if expected == found {
        Ok(())
    } else {
        Err(KeyError::WrongLength { expected, found })
    }
}

fn append_column(value: Option<&ScalarValue>, options: SortOptions, out: &mut Vec<u8>) {
    let Some(value) = value else {
        return out.push(if options.nulls_first { 1 } else { 255 });
    };
    let start = out.len();
    append_value(value, out);
    if options.descending {
        out[start..].iter_mut().for_each(|byte| *byte = !*byte);
    }
}

fn append(value: Option<&ScalarValue>, out: &mut Vec<u8>) {
    match value {
        Some(value) => append_value(value, out),
        None => out.push(1),
    }
}

fn append_value(value: &ScalarValue, out: &mut Vec<u8>) {
    match value {
        ScalarValue::Bool(truth) => out.push(2 + u8::from(*truth)),
        ScalarValue::Primitive(number) => append_number(*number, out),
        ScalarValue::Utf8(text) => append_string(21, text.as_str().as_bytes(), out),
        ScalarValue::Binary(bytes) => append_string(22, bytes.as_slice(), out),
        ScalarValue::Tuple(parts) => {
            out.push(23);
            for part in parts {
                append(part.as_ref(), out);
            }
            out.push(0);
        }
        ScalarValue::Union(union) => {
            out.extend_from_slice(&[24, union.type_id()]);
            append(union.child_value(), out);
        }
        ScalarValue::Variant(_) => out.push(25),
    }
}

/// How far a number is from 0, and whether it is below.
fn distance(number: PValue) -> (u64, bool) {
    let signed = |number: i64| (number.unsigned_abs(), number < 0);
    match number {
        PValue::U8(number) => (number.into(), false),
        PValue::U16(number) => (number.into(), false),
        PValue::U32(number) => (number.into(), false),
        PValue::U64(number) => (number, false),
        PValue::I8(number) => signed(number.into()),
        PValue::I16(number) => signed(number.into()),
        PValue::I32(number) => signed(number.into()),
        PValue::I64(number) => signed(number),
    }
}

fn size_of(distance: u64) -> usize {
    8 - distance.leading_zeros() as usize / 8
}

fn append_number(number: PValue, out: &mut Vec<u8>) {
    let (distance, is_below) = distance(number);
    let size = size_of(distance);
    let (first, bytes) = if is_below {
        (12 - size, !distance)
    } else {
        (12 + size, distance)
    };
    out.push(first as u8);
    out.extend_from_slice(&bytes.to_be_bytes()[8 - size..]);
}

/// Whether no byte is written as two. All are looked at, so that several are at once.
fn is_plain(text: &[u8]) -> bool {
    text.iter().fold(255, |least, byte| least.min(*byte)) > 1
}

fn append_string(first: u8, mut text: &[u8], out: &mut Vec<u8>) {
    out.push(first);
    if is_plain(text) {
        out.extend_from_slice(text);
        return out.push(0);
    }
    while let Some(place) = text.iter().position(|byte| *byte <= 1) {
        out.extend_from_slice(&text[..place]);
        out.extend_from_slice(&[1, text[place] + 1]);
        text = &text[place + 1..];
    }
    out.extend_from_slice(text);
    out.push(0);
}

pub fn key_length(value: Option<&ScalarValue>) -> usize {
    let string = |text: &[u8]| {
        let doubled = |text: &[u8]| text.iter().filter(|byte| **byte <= 1).count();
        2 + text.len() + if is_plain(text) { 0 } else { doubled(text) }
    };
    match value {
        None | Some(ScalarValue::Bool(_) | ScalarValue::Variant(_)) => 1,
        Some(ScalarValue::Primitive(number)) => 1 + size_of(distance(*number).0),
        Some(ScalarValue::Utf8(text)) => string(text.as_str().as_bytes()),
        Some(ScalarValue::Binary(bytes)) => string(bytes.as_slice()),
        Some(ScalarValue::Tuple(parts)) => {
            2 + parts
                .iter()
                .map(|part| key_length(part.as_ref()))
                .sum::<usize>()
        }
        Some(ScalarValue::Union(union)) => 2 + key_length(union.child_value()),
    }
}

// Back

/// The scalar whose key the bytes begin with, and how long that is.
pub fn decode_key(dtype: &DType, options: SortOptions, bytes: &[u8]) -> KeyResult<(Scalar, usize)> {
    if has_variant(dtype) {
        return Err(KeyError::HasVariant);
    }
    let mut decoder = Decoder {
        bytes,
        at: 0,
        mask: if options.descending { 255 } else { 0 },
        is_sparse: has_empty_union(dtype),
    };
    let null = if options.nulls_first { 1 } else { 255 };
    let value = if bytes.first() == Some(&null) {
        if !dtype.is_nullable() {
            return Err(decoder.bad());
        }
        decoder.at = 1;
        None
    } else {
        Some(decoder.value(dtype)?)
    };
    Ok((Scalar::new_unchecked(dtype.clone(), value), decoder.at))
}

/// Reads a key. No byte is passed that no key has there.
struct Decoder<'a> {
    bytes: &'a [u8],
    at: usize,
    mask: u8,
    is_sparse: bool,
}

impl Decoder<'_> {
    #[cold]
    fn bad(&self) -> KeyError {
        KeyError::BadKey { place: self.at }
    }

    #[inline]
    fn peek(&self) -> KeyResult<u8> {
        match self.bytes.get(self.at) {
            Some(byte) => Ok(byte ^ self.mask),
            None => Err(self.bad()),
        }
    }

    #[inline]
    fn takes(&mut self, wanted: u8) -> KeyResult<bool> {
        let is_next = self.peek()? == wanted;
        self.at += usize::from(is_next);
        Ok(is_next)
    }

    #[inline]
    fn need(&mut self, wanted: u8) -> KeyResult<()> {
        if self.takes(wanted)? {
            Ok(())
        } else {
            Err(self.bad())
        }
    }

    fn optional(&mut self, dtype: &DType) -> KeyResult<Option<ScalarValue>> {
        if dtype.is_nullable() && self.takes(1)? {
            return Ok(None);
        }
        self.value(dtype).map(Some)
    }

    fn value(&mut self, dtype: &DType) -> KeyResult<ScalarValue> {
        if self.is_sparse && !has_present(dtype) {
            return Err(self.bad());
        }
        match dtype {
            DType::Null | DType::Variant(_) => {
                self.peek()?;
                Err(self.bad())
            }
            DType::Bool(_) => {
                let truth = match self.peek()? {
                    2 => false,
                    3 => true,
                    _ => return Err(self.bad()),
                };
                self.at += 1;
                Ok(ScalarValue::Bool(truth))
            }
            DType::Primitive(ptype, _) => self.number(*ptype).map(ScalarValue::Primitive),
            DType::Utf8(_) => self.text(),
            DType::Binary(_) => {
                self.need(22)?;
                let bytes = self.string()?;
                Ok(ScalarValue::Binary(ByteBuffer::new(bytes)))
            }
            DType::Extension(ext) => self.value(ext.storage_dtype()),
            DType::Union(variants, _) => {
                self.need(24)?;
                let id = self.peek()?;
                let Some(place) = variants.tag_to_child_index(id) else {
                    return Err(self.bad());
                };
                let dtype = &variants.dtypes()[place];
                if self.is_sparse && !has_value(dtype) {
                    return Err(self.bad());
                }
                self.at += 1;
                let child = self.optional(dtype)?;
                Ok(ScalarValue::Union(UnionValue::new(id, child)))
            }
            _ => {
                self.need(23)?;
                self.parts(dtype).map(ScalarValue::Tuple)
            }
        }
    }

    /// The parts of a list, a map or a struct, and their end.
    fn parts(&mut self, dtype: &DType) -> KeyResult<Vec<Option<ScalarValue>>> {
        let mut parts = Vec::new();
        match dtype {
            DType::List(element, _) => {
                while !self.takes(0)? {
                    parts.push(self.optional(element)?);
                }
                return Ok(parts);
            }
            DType::Map(map, _) => {
                let has_entry = has_value(map.key_dtype()) && has_value(map.value_dtype());
                while !self.takes(0)? {
                    if self.is_sparse && !has_entry {
                        return Err(self.bad());
                    }
                    self.need(23)?;
                    let key = self.optional(map.key_dtype())?;
                    let value = self.optional(map.value_dtype())?;
                    self.need(0)?;
                    parts.push(Some(ScalarValue::Tuple(vec![key, value])));
                }
                return Ok(parts);
            }
            DType::FixedSizeList(element, size, _) => {
                for _ in 0..*size {
                    parts.push(self.optional(element)?);
                }
            }
            DType::Struct(fields, _) => {
                for dtype in fields.dtypes() {
                    parts.push(self.optional(dtype)?);
                }
            }
            _ => unreachable!("other types have no parts"),
        }
        self.need(0)?;
        Ok(parts)
    }

    fn number(&mut self, ptype: PType) -> KeyResult<PValue> {
        let first = self.peek()?;
        let size = usize::from(first.abs_diff(12));
        let start = self.at + 1;
        match self.bytes.get(start..start + size) {
            Some(digits) if size <= 8 => {
                let mut bytes = [0; 8];
                bytes[8 - size..].copy_from_slice(digits);
                let unused = u64::MAX.checked_shl(8 * size as u32).unwrap_or(0);
                let mask = if (first < 12) ^ (self.mask != 0) {
                    !unused
                } else {
                    0
                };
                let distance = u64::from_be_bytes(bytes) ^ mask;
                let whole = if first < 12 {
                    -i128::from(distance)
                } else {
                    i128::from(distance)
                };
                match PValue::from_whole(whole, ptype) {
                    Some(number) if size_of(distance) == size => {
                        self.at = start + size;
                        Ok(number)
                    }
                    _ => Err(self.bad_number(ptype, first)),
                }
            }
            _ => Err(self.bad_number(ptype, first)),
        }
    }

    /// Where a number that cannot be read goes wrong.
    #[cold]
    fn bad_number(&mut self, ptype: PType, first: u8) -> KeyError {
        let bits = 8 * ptype.byte_width() as u32;
        let is_signed = ptype.name().starts_with('i');
        let most = match (first < 12, is_signed) {
            (true, true) => 1 << (bits - 1),
            (true, false) => 0,
            (false, true) => (1u128 << (bits - 1)) - 1,
            (false, false) => (1u128 << bits) - 1,
        };
        let size = u32::from(first.abs_diff(12));
        if !(4..=20).contains(&first) || size > 0 && 1 << (8 * (size - 1)) > most {
            return self.bad();
        }
        let mut begun = 0;
        for left in (0..size).rev() {
            self.at += 1;
            let Ok(byte) = self.peek() else {
                return self.bad();
            };
            begun = begun << 8 | u128::from(if first < 12 { !byte } else { byte });
            if begun == 0 || begun << (8 * left) > most {
                return self.bad();
            }
        }
        unreachable!("the number cannot be read")
    }

    /// The bytes of a string up to its end.
    fn string(&mut self) -> KeyResult<Vec<u8>> {
        let mut made = Vec::new();
        loop {
            let rest = &self.bytes[self.at..];
            let Some(run) = rest.iter().position(|byte| byte ^ self.mask <= 1) else {
                self.at = self.bytes.len();
                return Err(self.bad());
            };
            made.extend(rest[..run].iter().map(|byte| byte ^ self.mask));
            self.at += run + 1;
            if rest[run] == self.mask {
                return Ok(made);
            }
            match self.peek()? {
                escape @ (1 | 2) => made.push(escape - 1),
                _ => return Err(self.bad()),
            }
            self.at += 1;
        }
    }

    fn text(&mut self) -> KeyResult<ScalarValue> {
        self.need(21)?;
        let start = self.at;
        match self.string().map(String::from_utf8) {
            Ok(Ok(text)) => Ok(ScalarValue::Utf8(BufferString::new(text))),
            _ => {
                self.at = start;
                Err(self.bad_text())
            }
        }
    }

    /// Where a text that cannot be read goes wrong.
    #[cold]
    fn bad_text(&mut self) -> KeyError {
        let mut character = Vec::new();
        loop {
            let Ok(byte) = self.peek() else {
                return self.bad();
            };
            if byte <= 1 && !character.is_empty() {
                return self.bad();
            }
            if byte == 1 {
                self.at += 1;
                if !matches!(self.peek(), Ok(1 | 2)) {
                    return self.bad();
                }
            } else {
                character.push(byte);
                match str::from_utf8(&character) {
                    Ok(_) => character.clear(),
                    Err(error) if error.error_len().is_none() => {}
                    Err(_) => return self.bad(),
                }
            }
            self.at += 1;
        }
    }
}
