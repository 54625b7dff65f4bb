// SPDX-License-Identifier: Apache-2.0
//! The refusals of these calls.

#[derive(Clone, Copy, Debug)]
pub enum Step {
    Element(usize),
    Entry(usize),
    Key,
    Value,
    Field(usize),
    Child,
    Inner,
}

#[derive(Clone, Copy, Debug)]
pub enum Breach {
    NullNotAllowed,
    WrongValue,
    WrongLength,
    UnknownTypeId,
    NullEntry,
    VariantNull,
}

/// The first breach of validity in reading order.
pub struct Invalid {
    pub path: Vec<Step>,
    pub breach: Breach,
}

#[derive(Clone, Copy, Debug)]
pub enum TypeCause {
    NullableKey,
    RepeatedTypeId,
}

/// The breach is boxed, which keeps results small.
pub enum VortexError {
    Invalid(Box<Invalid>),
    CannotCast,
    BadType(TypeCause),
}

pub type VortexResult<T> = Result<T, VortexError>;

impl VortexError {
    #[cold]
    pub fn invalid(breach: Breach) -> Self {
        Self::Invalid(Box::new(Invalid {
            path: Vec::new(),
            breach,
        }))
    }

    /// The same breach, one step further up: a path has its last step first.
    #[cold]
    pub fn under(mut self, step: Step) -> Self {
        if let Self::Invalid(invalid) = &mut self {
            invalid.path.push(step);
        }
        self
    }
}
