// SPDX-License-Identifier: Apache-2.0
//! Lines as they are read.

use std::sync::Arc;

use crate::error::TypeCause;
use crate::filters::{CompareOperator, Filter};
use crate::keys::SortOptions;
use crate::pvalues::PValue;
use crate::sql;
use crate::statistics::{Bound, ColumnStatistics};
use crate::types::{
    DType, ExtDType, FieldName, MapDType, Nullability, PType, StructFields, UnionVariants,
};
use crate::values::{BufferString, ByteBuffer, Scalar, ScalarValue, UnionValue};

/// A line that cannot be read.
pub struct BadLine;

pub type Read<T> = Result<T, BadLine>;

pub struct Reader<'a> {
    line: &'a str,
    at: usize,
    /// Of the first type that cannot be made.
    pub refusal: Option<TypeCause>,
}

fn is_word(byte: u8) -> bool {
    byte.is_ascii_alphanumeric() || byte == b'_'
}

/// Words, numbers and texts.
impl<'a> Reader<'a> {
    pub fn new(line: &'a str) -> Self {
        Self {
            line,
            at: 0,
            refusal: None,
        }
    }

    fn peek(&self) -> Option<u8> {
        self.line.as_bytes().get(self.at).copied()
    }

    fn next(&mut self) -> Read<u8> {
        let byte = self.peek().ok_or(BadLine)?;
        self.at += 1;
        Ok(byte)
    }

    /// The bytes up to the first that is none of these.
    fn run(&mut self, of: impl Fn(u8) -> bool) -> &'a str {
        let start = self.at;
        while self.peek().is_some_and(&of) {
            self.at += 1;
        }
        &self.line[start..self.at]
    }

    pub fn spaces(&mut self) -> usize {
        self.run(|byte| byte == b' ').len()
    }

    pub fn end(&mut self) -> Read<()> {
        self.spaces();
        if self.at == self.line.len() {
            Ok(())
        } else {
            Err(BadLine)
        }
    }

    /// Takes the token, if it comes next.
    fn take(&mut self, token: u8) -> bool {
        self.spaces();
        let is_next = self.peek() == Some(token);
        self.at += usize::from(is_next);
        is_next
    }

    fn need(&mut self, token: u8) -> Read<()> {
        if self.take(token) {
            Ok(())
        } else {
            Err(BadLine)
        }
    }

    pub fn word(&mut self) -> Read<&'a str> {
        self.spaces();
        let word = self.run(is_word);
        if word.is_empty() || word.as_bytes()[0].is_ascii_digit() {
            Err(BadLine)
        } else {
            Ok(word)
        }
    }

    fn number<T: std::str::FromStr>(&mut self) -> Read<T> {
        self.spaces();
        self.run(|byte| byte.is_ascii_digit())
            .parse()
            .map_err(|_| BadLine)
    }

    fn hex(&mut self) -> Read<Vec<u8>> {
        let digits = self.run(|byte| byte.is_ascii_hexdigit());
        let byte = |at| u8::from_str_radix(digits.get(at..at + 2)?, 16).ok();
        (0..digits.len())
            .step_by(2)
            .map(|at| byte(at).ok_or(BadLine))
            .collect()
    }

    fn quoted(&mut self) -> Read<String> {
        self.need(b'"')?;
        let mut text = String::new();
        loop {
            text.push_str(self.run(|byte| byte != b'"' && byte != b'\\'));
            if self.next()? == b'"' {
                return Ok(text);
            }
            text.push(match self.next()? {
                b'\\' => '\\',
                b'"' => '"',
                b'n' => '\n',
                b'r' => '\r',
                b't' => '\t',
                b'u' => self.code_point()?,
                _ => return Err(BadLine),
            });
        }
    }

    fn code_point(&mut self) -> Read<char> {
        self.need(b'{')?;
        let digits = self.run(|byte| byte.is_ascii_hexdigit());
        self.need(b'}')?;
        let code = u32::from_str_radix(digits, 16).map_err(|_| BadLine)?;
        char::from_u32(code).ok_or(BadLine)
    }

    fn name(&mut self) -> Read<FieldName> {
        self.spaces();
        match self.peek() {
            Some(b'"') => Ok(self.quoted()?.into()),
            _ => Ok(self.word()?.into()),
        }
    }

    /// Parts with commas between, up to the closing bracket.
    fn parts(&mut self, close: u8, mut read: impl FnMut(&mut Self) -> Read<()>) -> Read<()> {
        if self.take(close) {
            return Ok(());
        }
        loop {
            read(self)?;
            if self.take(close) {
                return Ok(());
            }
            self.need(b',')?;
        }
    }
}

/// Types.
impl Reader<'_> {
    pub fn dtype(&mut self) -> Read<DType> {
        let dtype = self.bare_type()?;
        Ok(if self.take(b'?') {
            dtype.into_nullable()
        } else {
            dtype
        })
    }

    fn bare_type(&mut self) -> Read<DType> {
        let not = Nullability::NonNullable;
        if self.take(b'{') {
            return Ok(DType::Struct(self.fields()?, not));
        }
        let word = self.word()?;
        Ok(match word {
            "null" => DType::Null,
            "bool" => DType::Bool(not),
            "utf8" => DType::Utf8(not),
            "binary" => DType::Binary(not),
            "variant" => DType::Variant(not),
            "list" | "fsl" | "map" | "union" | "ext" => {
                self.need(b'(')?;
                self.type_with_parts(word)?
            }
            word => DType::Primitive(PType::named(word).ok_or(BadLine)?, not),
        })
    }

    /// What stands behind the open bracket.
    fn type_with_parts(&mut self, word: &str) -> Read<DType> {
        let not = Nullability::NonNullable;
        let dtype = match word {
            "union" => return Ok(DType::Union(self.variants()?, not)),
            "list" => DType::List(Arc::new(self.dtype()?), not),
            "map" => DType::Map(self.map()?, not),
            "fsl" => {
                let element = Arc::new(self.dtype()?);
                self.need(b',')?;
                DType::FixedSizeList(element, self.number()?, not)
            }
            _ => {
                let id = self.name()?;
                self.need(b',')?;
                self.spaces();
                let metadata = self.hex()?;
                self.need(b',')?;
                DType::Extension(ExtDType::new(id, metadata.into(), self.dtype()?))
            }
        };
        self.need(b')')?;
        Ok(dtype)
    }

    fn map(&mut self) -> Read<MapDType> {
        let key = self.dtype()?;
        self.need(b',')?;
        let value = self.dtype()?;
        let keys_sorted = self.take(b',');
        if keys_sorted && self.word()? != "sorted" {
            return Err(BadLine);
        }
        if key.is_nullable() {
            self.refusal.get_or_insert(TypeCause::NullableKey);
        }
        Ok(MapDType::new(key, value, keys_sorted))
    }

    fn fields(&mut self) -> Read<StructFields> {
        let (mut names, mut dtypes) = (Vec::new(), Vec::new());
        self.parts(b'}', |reader| {
            names.push(reader.name()?);
            reader.need(b':')?;
            dtypes.push(reader.dtype()?);
            Ok(())
        })?;
        Ok(StructFields::new(names, dtypes))
    }

    fn variants(&mut self) -> Read<UnionVariants> {
        let (mut names, mut dtypes, mut type_ids) = (Vec::new(), Vec::new(), Vec::new());
        let mut is_repeated = false;
        self.parts(b')', |reader| {
            let id: u8 = reader.number()?;
            is_repeated |= type_ids.contains(&id);
            type_ids.push(id);
            names.push(reader.name()?);
            reader.need(b':')?;
            dtypes.push(reader.dtype()?);
            Ok(())
        })?;
        if is_repeated {
            self.refusal.get_or_insert(TypeCause::RepeatedTypeId);
        }
        Ok(UnionVariants::new(names, dtypes, type_ids))
    }
}

/// Columns.
impl Reader<'_> {
    pub fn takes_word(&mut self, word: &str) -> bool {
        self.spaces();
        let start = self.at;
        let is_next = self.run(is_word) == word;
        if !is_next {
            self.at = start;
        }
        is_next
    }

    pub fn options(&mut self) -> SortOptions {
        SortOptions {
            descending: self.takes_word("desc"),
            nulls_first: !self.takes_word("nulls_last"),
        }
    }

    /// What columns have and their options, with semicolons between columns. An underscore stands for what is missing.
    pub fn columns<T>(
        &mut self,
        mut read: impl FnMut(&mut Self) -> Read<T>,
    ) -> Read<(Vec<T>, Vec<SortOptions>)> {
        let (mut contents, mut options) = (Vec::new(), Vec::new());
        loop {
            if !self.take(b'_') {
                contents.push(read(self)?);
            }
            if !self.take(b'_') {
                options.push(self.options());
            }
            if !self.take(b';') {
                return Ok((contents, options));
            }
        }
    }
}

/// Raw values.
impl Reader<'_> {
    pub fn scalar(&mut self) -> Read<Scalar> {
        let dtype = self.dtype()?;
        self.need(b':')?;
        Ok(Scalar::new_unchecked(dtype, self.raw()?))
    }

    fn raw(&mut self) -> Read<Option<ScalarValue>> {
        self.spaces();
        Ok(Some(match self.peek().ok_or(BadLine)? {
            b'"' => ScalarValue::Utf8(BufferString::new(self.quoted()?)),
            b'[' => {
                self.at += 1;
                let mut elements = Vec::new();
                self.parts(b']', |reader| {
                    elements.push(reader.raw()?);
                    Ok(())
                })?;
                ScalarValue::Tuple(elements)
            }
            b'<' => {
                self.at += 1;
                let inner = self.scalar()?;
                self.need(b'>')?;
                ScalarValue::Variant(Box::new(inner))
            }
            b'-' | b'0'..=b'9' => self.number_or_union()?,
            b'x' => {
                self.at += 1;
                ScalarValue::Binary(ByteBuffer::new(self.hex()?))
            }
            _ => match self.word()? {
                "null" => return Ok(None),
                "true" => ScalarValue::Bool(true),
                "false" => ScalarValue::Bool(false),
                _ => return Err(BadLine),
            },
        }))
    }

    /// Scalars in brackets.
    pub fn scalars(&mut self) -> Read<Vec<Scalar>> {
        let mut scalars = Vec::new();
        self.need(b'[')?;
        self.parts(b']', |reader| {
            scalars.push(reader.scalar()?);
            Ok(())
        })?;
        Ok(scalars)
    }

    pub fn bytes(&mut self) -> Read<Vec<u8>> {
        self.need(b'x')?;
        self.hex()
    }

    fn number_or_union(&mut self) -> Read<ScalarValue> {
        let number = self.run(|byte| byte == b'-' || byte.is_ascii_digit());
        let kind = self.run(is_word);
        if !kind.is_empty() {
            let whole = number.parse().map_err(|_| BadLine)?;
            let ptype = PType::named(kind).ok_or(BadLine)?;
            return Ok(ScalarValue::Primitive(
                PValue::from_whole(whole, ptype).ok_or(BadLine)?,
            ));
        }
        let type_id = number.parse().map_err(|_| BadLine)?;
        self.need(b'(')?;
        let child = self.raw()?;
        self.need(b')')?;
        Ok(ScalarValue::Union(UnionValue::new(type_id, child)))
    }
}

/// A filter, how many columns it has, how many rows or zones there are, and cells or statistics for each column of these.
pub struct Filtered<T> {
    pub filter: Filter,
    pub width: usize,
    pub count: usize,
    pub items: Vec<T>,
}

/// Statistics and filters.
impl<'a> Reader<'a> {
    /// Values of a type, with commas between them, to the end of the line.
    pub fn values(&mut self) -> Read<(DType, Vec<Option<ScalarValue>>)> {
        let dtype = self.dtype()?;
        let values = self.separated(Self::raw)?;
        Ok((dtype, values))
    }

    /// Items with commas between them, up to the end of the line or a semicolon.
    fn separated<T>(&mut self, mut read: impl FnMut(&mut Self) -> Read<T>) -> Read<Vec<T>> {
        let mut items = Vec::new();
        self.spaces();
        if matches!(self.peek(), None | Some(b';')) {
            return Ok(items);
        }
        loop {
            items.push(read(self)?);
            if !self.take(b',') {
                return Ok(items);
            }
        }
    }

    pub fn statistics(&mut self) -> Read<(DType, ColumnStatistics)> {
        let dtype = self.dtype()?;
        self.need(b':')?;
        let statistics = self.statistics_of(&dtype)?;
        Ok((dtype, statistics))
    }

    fn statistics_of(&mut self, dtype: &DType) -> Read<ColumnStatistics> {
        self.need(b'(')?;
        let row_count = self.number()?;
        self.counted("row")?;
        self.need(b',')?;
        let null_count = if self.take(b'_') {
            None
        } else {
            let nulls = self.number()?;
            self.counted("null")?;
            Some(nulls)
        };
        self.need(b',')?;
        let lower = self.bound(dtype)?;
        self.need(b',')?;
        let upper = self.bound(dtype)?;
        self.need(b')')?;
        Ok(ColumnStatistics {
            row_count,
            null_count,
            lower,
            upper,
        })
    }

    fn counted(&mut self, noun: &str) -> Read<()> {
        match self.word()?.strip_prefix(noun) {
            Some("" | "s") => Ok(()),
            _ => Err(BadLine),
        }
    }

    fn bound(&mut self, dtype: &DType) -> Read<Option<Bound>> {
        if self.take(b'_') {
            return Ok(None);
        }
        let value = self.raw()?;
        let dtype = if self.takes_word("of") {
            self.dtype()?
        } else {
            dtype.clone()
        };
        let is_exact = self.takes_word("exact");
        Ok(Some(Bound {
            value: Scalar::new_unchecked(dtype, value),
            is_exact,
        }))
    }

    /// SQL text and the semicolon after it.
    fn sql(&mut self) -> Read<&'a str> {
        let start = self.at;
        let mut open = None;
        loop {
            let byte = self.next()?;
            match open {
                None if byte == b';' => return Ok(&self.line[start..self.at - 1]),
                None if byte == b'\'' || byte == b'"' => open = Some(byte),
                Some(quote) if quote == byte => open = None,
                _ => {}
            }
        }
    }

    /// A filter, and a row.
    pub fn filtered_row(&mut self) -> Read<Filtered<Scalar>> {
        self.filtered(|reader, dtype| Ok(Scalar::new_unchecked(dtype.clone(), reader.raw()?)))
    }

    /// A filter, and the statistics of a zone.
    pub fn filtered_zone(&mut self) -> Read<Filtered<ColumnStatistics>> {
        self.filtered(|reader, dtype| reader.statistics_of(dtype))
    }

    fn filtered<T>(
        &mut self,
        mut read: impl FnMut(&mut Self, &DType) -> Read<T>,
    ) -> Read<Filtered<T>> {
        let text = self.sql()?;
        let mut dtypes = Vec::new();
        let items = self.separated(|reader| {
            let dtype = reader.dtype()?;
            reader.need(b':')?;
            let item = read(reader, &dtype)?;
            dtypes.push(dtype);
            Ok(item)
        })?;
        Ok(Filtered {
            filter: sql::parse(text, &dtypes)?,
            width: dtypes.len(),
            count: 1,
            items,
        })
    }

    /// A filter, and rows.
    pub fn filtered_rows(&mut self) -> Read<Filtered<Scalar>> {
        self.filtered_many(|reader, dtype| Ok(Scalar::new_unchecked(dtype.clone(), reader.raw()?)))
    }

    /// A filter, and the statistics of zones.
    pub fn filtered_zones(&mut self) -> Read<Filtered<ColumnStatistics>> {
        self.filtered_many(|reader, dtype| reader.statistics_of(dtype))
    }

    fn filtered_many<T>(
        &mut self,
        mut read: impl FnMut(&mut Self, &DType) -> Read<T>,
    ) -> Read<Filtered<T>> {
        let text = self.sql()?;
        let dtypes = self.separated(Self::dtype)?;
        self.need(b';')?;
        let mut items = Vec::new();
        let rows = self.separated(|reader| {
            reader.need(b'[')?;
            for (place, dtype) in dtypes.iter().enumerate() {
                if place > 0 {
                    reader.need(b',')?;
                }
                items.push(read(reader, dtype)?);
            }
            reader.need(b']')
        })?;
        Ok(Filtered {
            filter: sql::parse(text, &dtypes)?,
            width: dtypes.len(),
            count: rows.len(),
            items,
        })
    }

    pub fn operator(&mut self) -> Read<CompareOperator> {
        Ok(match self.word()? {
            "eq" => CompareOperator::Eq,
            "not_eq" => CompareOperator::NotEq,
            "gt" => CompareOperator::Gt,
            "gte" => CompareOperator::Gte,
            "lt" => CompareOperator::Lt,
            "lte" => CompareOperator::Lte,
            _ => return Err(BadLine),
        })
    }
}
