// SPDX-License-Identifier: Apache-2.0
//! Types.

use std::hash::{Hash, Hasher};
use std::mem::discriminant;
use std::sync::Arc;

#[derive(Clone, Copy, PartialEq, Eq)]
pub enum Nullability {
    NonNullable,
    Nullable,
}

use Nullability::Nullable;

#[derive(Clone, Copy, PartialEq, Eq, Hash)]
pub enum PType {
    U8,
    U16,
    U32,
    U64,
    I8,
    I16,
    I32,
    I64,
}

impl PType {
    pub fn named(word: &str) -> Option<Self> {
        Some(match word {
            "u8" => Self::U8,
            "u16" => Self::U16,
            "u32" => Self::U32,
            "u64" => Self::U64,
            "i8" => Self::I8,
            "i16" => Self::I16,
            "i32" => Self::I32,
            "i64" => Self::I64,
            _ => return None,
        })
    }

    pub fn byte_width(self) -> usize {
        match self {
            Self::U8 | Self::I8 => 1,
            Self::U16 | Self::I16 => 2,
            Self::U32 | Self::I32 => 4,
            Self::U64 | Self::I64 => 8,
        }
    }

    pub fn name(self) -> &'static str {
        match self {
            Self::U8 => "u8",
            Self::U16 => "u16",
            Self::U32 => "u32",
            Self::U64 => "u64",
            Self::I8 => "i8",
            Self::I16 => "i16",
            Self::I32 => "i32",
            Self::I64 => "i64",
        }
    }
}

pub type FieldName = Arc<str>;
pub type FieldNames = Arc<[FieldName]>;

/// A type. Its parts are shared, so a copy costs no memory.
#[derive(Clone, PartialEq, Eq)]
pub enum DType {
    Null,
    Bool(Nullability),
    Primitive(PType, Nullability),
    Utf8(Nullability),
    Binary(Nullability),
    List(Arc<DType>, Nullability),
    FixedSizeList(Arc<DType>, u32, Nullability),
    Map(MapDType, Nullability),
    Struct(StructFields, Nullability),
    Union(UnionVariants, Nullability),
    Variant(Nullability),
    Extension(ExtDType),
}

#[derive(Clone, PartialEq, Eq)]
pub struct MapDType(Arc<MapParts>);

#[derive(PartialEq, Eq)]
struct MapParts {
    key: DType,
    value: DType,
    keys_sorted: bool,
}

#[derive(Clone, PartialEq, Eq)]
pub struct StructFields(Arc<StructParts>);

#[derive(PartialEq, Eq)]
struct StructParts {
    names: FieldNames,
    dtypes: Box<[DType]>,
}

#[derive(Clone, PartialEq, Eq)]
pub struct UnionVariants(Arc<UnionParts>);

#[derive(PartialEq, Eq)]
struct UnionParts {
    names: FieldNames,
    dtypes: Box<[DType]>,
    type_ids: Box<[u8]>,
}

#[derive(Clone, PartialEq, Eq)]
pub struct ExtDType(Arc<ExtParts>);

#[derive(PartialEq, Eq)]
struct ExtParts {
    id: Arc<str>,
    metadata: Box<[u8]>,
    storage: DType,
}

impl DType {
    #[inline]
    pub fn is_nullable(&self) -> bool {
        match self {
            Self::Null => true,
            Self::Bool(nullability)
            | Self::Primitive(_, nullability)
            | Self::Utf8(nullability)
            | Self::Binary(nullability)
            | Self::List(_, nullability)
            | Self::FixedSizeList(_, _, nullability)
            | Self::Map(_, nullability)
            | Self::Struct(_, nullability)
            | Self::Union(_, nullability)
            | Self::Variant(nullability) => *nullability == Nullable,
            Self::Extension(ext) => ext.storage_dtype().is_nullable(),
        }
    }

    /// The same type, nullable. An extension stays as it is.
    pub fn into_nullable(self) -> Self {
        match self {
            Self::Null | Self::Extension(_) => self,
            Self::Bool(_) => Self::Bool(Nullable),
            Self::Primitive(ptype, _) => Self::Primitive(ptype, Nullable),
            Self::Utf8(_) => Self::Utf8(Nullable),
            Self::Binary(_) => Self::Binary(Nullable),
            Self::List(element, _) => Self::List(element, Nullable),
            Self::FixedSizeList(element, size, _) => Self::FixedSizeList(element, size, Nullable),
            Self::Map(map, _) => Self::Map(map, Nullable),
            Self::Struct(fields, _) => Self::Struct(fields, Nullable),
            Self::Union(variants, _) => Self::Union(variants, Nullable),
            Self::Variant(_) => Self::Variant(Nullable),
        }
    }

    pub fn eq_ignore_nullability(&self, other: &Self) -> bool {
        match (self, other) {
            (Self::Null, Self::Null)
            | (Self::Bool(_), Self::Bool(_))
            | (Self::Utf8(_), Self::Utf8(_))
            | (Self::Binary(_), Self::Binary(_))
            | (Self::Variant(_), Self::Variant(_)) => true,
            (Self::Primitive(left, _), Self::Primitive(right, _)) => left == right,
            (Self::List(left, _), Self::List(right, _)) => same_elements(left, right),
            (
                Self::FixedSizeList(left, left_size, _),
                Self::FixedSizeList(right, right_size, _),
            ) => left_size == right_size && same_elements(left, right),
            (Self::Map(left, _), Self::Map(right, _)) => left.eq_ignore_nullability(right),
            (Self::Struct(left, _), Self::Struct(right, _)) => left.eq_ignore_nullability(right),
            (Self::Union(left, _), Self::Union(right, _)) => left.eq_ignore_nullability(right),
            (Self::Extension(left), Self::Extension(right)) => left.eq_ignore_nullability(right),
            _ => false,
        }
    }

    pub fn hash_ignore_nullability<H: Hasher>(&self, state: &mut H) {
        discriminant(self).hash(state);
        match self {
            Self::Null | Self::Bool(_) | Self::Utf8(_) | Self::Binary(_) | Self::Variant(_) => {}
            Self::Primitive(ptype, _) => ptype.hash(state),
            Self::List(element, _) => element.hash_ignore_nullability(state),
            Self::FixedSizeList(element, size, _) => {
                element.hash_ignore_nullability(state);
                size.hash(state);
            }
            Self::Map(map, _) => {
                map.key_dtype().hash_ignore_nullability(state);
                map.value_dtype().hash_ignore_nullability(state);
                map.keys_sorted().hash(state);
            }
            Self::Struct(fields, _) => {
                fields.names().hash(state);
                fields
                    .dtypes()
                    .iter()
                    .for_each(|dtype| dtype.hash_ignore_nullability(state));
            }
            Self::Union(variants, _) => {
                variants.names().hash(state);
                variants.type_ids().hash(state);
                variants
                    .dtypes()
                    .iter()
                    .for_each(|dtype| dtype.hash_ignore_nullability(state));
            }
            Self::Extension(ext) => {
                ext.id().hash(state);
                ext.metadata().hash(state);
                ext.storage_dtype().hash_ignore_nullability(state);
            }
        }
    }
}

fn same_elements(left: &Arc<DType>, right: &Arc<DType>) -> bool {
    Arc::ptr_eq(left, right) || left.eq_ignore_nullability(right)
}

fn all_eq_ignore_nullability(left: &[DType], right: &[DType]) -> bool {
    left.len() == right.len()
        && left
            .iter()
            .zip(right)
            .all(|(left, right)| left.eq_ignore_nullability(right))
}

impl MapDType {
    pub fn new(key: DType, value: DType, keys_sorted: bool) -> Self {
        Self(Arc::new(MapParts {
            key,
            value,
            keys_sorted,
        }))
    }

    fn eq_ignore_nullability(&self, other: &Self) -> bool {
        Arc::ptr_eq(&self.0, &other.0)
            || self.0.keys_sorted == other.0.keys_sorted
                && self.0.key.eq_ignore_nullability(&other.0.key)
                && self.0.value.eq_ignore_nullability(&other.0.value)
    }

    #[inline]
    pub fn key_dtype(&self) -> &DType {
        &self.0.key
    }

    #[inline]
    pub fn value_dtype(&self) -> &DType {
        &self.0.value
    }

    #[inline]
    pub fn keys_sorted(&self) -> bool {
        self.0.keys_sorted
    }
}

impl StructFields {
    pub fn new(names: Vec<FieldName>, dtypes: Vec<DType>) -> Self {
        Self(Arc::new(StructParts {
            names: names.into(),
            dtypes: dtypes.into(),
        }))
    }

    fn eq_ignore_nullability(&self, other: &Self) -> bool {
        Arc::ptr_eq(&self.0, &other.0)
            || self.0.names == other.0.names
                && all_eq_ignore_nullability(&self.0.dtypes, &other.0.dtypes)
    }

    #[inline]
    pub fn names(&self) -> &[FieldName] {
        &self.0.names
    }

    #[inline]
    pub fn dtypes(&self) -> &[DType] {
        &self.0.dtypes
    }
}

impl UnionVariants {
    pub fn new(names: Vec<FieldName>, dtypes: Vec<DType>, type_ids: Vec<u8>) -> Self {
        Self(Arc::new(UnionParts {
            names: names.into(),
            dtypes: dtypes.into(),
            type_ids: type_ids.into(),
        }))
    }

    fn eq_ignore_nullability(&self, other: &Self) -> bool {
        Arc::ptr_eq(&self.0, &other.0)
            || self.0.type_ids == other.0.type_ids
                && self.0.names == other.0.names
                && all_eq_ignore_nullability(&self.0.dtypes, &other.0.dtypes)
    }

    #[inline]
    pub fn names(&self) -> &[FieldName] {
        &self.0.names
    }

    #[inline]
    pub fn dtypes(&self) -> &[DType] {
        &self.0.dtypes
    }

    #[inline]
    pub fn type_ids(&self) -> &[u8] {
        &self.0.type_ids
    }

    #[inline]
    pub fn tag_to_child_index(&self, type_id: u8) -> Option<usize> {
        self.0.type_ids.iter().position(|id| *id == type_id)
    }

    /// The same of a valid union's id.
    #[inline]
    pub fn index_of(&self, type_id: u8) -> usize {
        self.tag_to_child_index(type_id)
            .expect("a valid union has a variant's id")
    }
}

impl ExtDType {
    pub fn new(id: Arc<str>, metadata: Box<[u8]>, storage: DType) -> Self {
        Self(Arc::new(ExtParts {
            id,
            metadata,
            storage,
        }))
    }

    fn eq_ignore_nullability(&self, other: &Self) -> bool {
        Arc::ptr_eq(&self.0, &other.0)
            || self.0.id == other.0.id
                && self.0.metadata == other.0.metadata
                && self.0.storage.eq_ignore_nullability(&other.0.storage)
    }

    #[inline]
    pub fn id(&self) -> &str {
        &self.0.id
    }

    #[inline]
    pub fn metadata(&self) -> &[u8] {
        &self.0.metadata
    }

    #[inline]
    pub fn storage_dtype(&self) -> &DType {
        &self.0.storage
    }
}
