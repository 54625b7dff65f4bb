// SPDX-License-Identifier: Apache-2.0
//! Filters: their truth on a row, and what they can be on the rows of a zone.

use std::cmp::Ordering;

use crate::statistics::{Bound, ColumnStatistics};
use crate::values::{Scalar, ScalarValue};

#[derive(Clone, Copy, PartialEq, Eq)]
pub enum Truth {
    False,
    Unknown,
    True,
}

impl Truth {
    #[inline]
    fn of(holds: bool) -> Self {
        if holds { Self::True } else { Self::False }
    }

    #[inline]
    fn and(self, other: Self) -> Self {
        match (self, other) {
            (Self::False, _) | (_, Self::False) => Self::False,
            (Self::True, Self::True) => Self::True,
            _ => Self::Unknown,
        }
    }

    #[inline]
    fn or(self, other: Self) -> Self {
        match (self, other) {
            (Self::True, _) | (_, Self::True) => Self::True,
            (Self::False, Self::False) => Self::False,
            _ => Self::Unknown,
        }
    }

    #[inline]
    fn negate(self) -> Self {
        match self {
            Self::False => Self::True,
            Self::Unknown => Self::Unknown,
            Self::True => Self::False,
        }
    }
}

#[derive(Clone, Copy)]
pub enum CompareOperator {
    Eq,
    NotEq,
    Gt,
    Gte,
    Lt,
    Lte,
}

impl CompareOperator {
    #[inline]
    fn holds(self, order: Ordering) -> bool {
        match self {
            Self::Eq => order.is_eq(),
            Self::NotEq => order.is_ne(),
            Self::Gt => order.is_gt(),
            Self::Gte => order.is_ge(),
            Self::Lt => order.is_lt(),
            Self::Lte => order.is_le(),
        }
    }
}

pub enum Filter {
    Constant(Truth),
    Compare {
        column: usize,
        operator: CompareOperator,
        literal: Scalar,
    },
    IsNull {
        column: usize,
    },
    In {
        column: usize,
        literals: Vec<Scalar>,
    },
    Between {
        column: usize,
        lower: Scalar,
        upper: Scalar,
    },
    StartsWith {
        column: usize,
        prefix: Scalar,
    },
    And(Box<Filter>, Box<Filter>),
    Or(Box<Filter>, Box<Filter>),
    Not(Box<Filter>),
}

// Truth

impl Filter {
    pub fn truth(&self, row: &[Scalar]) -> Truth {
        match self {
            Self::Constant(truth) => *truth,
            Self::Compare {
                column,
                operator,
                literal,
            } => compare(row.get(*column), *operator, literal),
            Self::IsNull { column } => Truth::of(row.get(*column).is_none_or(Scalar::is_null)),
            Self::In { column, literals } => contained(row.get(*column), literals),
            Self::Between {
                column,
                lower,
                upper,
            } => {
                let cell = row.get(*column);
                match compare(cell, CompareOperator::Gte, lower) {
                    Truth::False => Truth::False,
                    truth => truth.and(compare(cell, CompareOperator::Lte, upper)),
                }
            }
            Self::StartsWith { column, prefix } => {
                match row.get(*column).and_then(|cell| begins(cell, prefix)) {
                    Some(order) => Truth::of(order.is_eq()),
                    None => Truth::Unknown,
                }
            }
            Self::And(left, right) => match left.truth(row) {
                Truth::False => Truth::False,
                truth => truth.and(right.truth(row)),
            },
            Self::Or(left, right) => match left.truth(row) {
                Truth::True => Truth::True,
                truth => truth.or(right.truth(row)),
            },
            Self::Not(filter) => filter.truth(row).negate(),
        }
    }

    pub fn matches(&self, row: &[Scalar]) -> bool {
        self.truth(row) == Truth::True
    }
}

#[inline]
pub fn compare(cell: Option<&Scalar>, operator: CompareOperator, literal: &Scalar) -> Truth {
    match cell {
        Some(cell) if !cell.is_null() && !literal.is_null() => match cell.partial_cmp(literal) {
            Some(order) => Truth::of(operator.holds(order)),
            None => Truth::Unknown,
        },
        _ => Truth::Unknown,
    }
}

fn contained(cell: Option<&Scalar>, literals: &[Scalar]) -> Truth {
    let mut any = Truth::False;
    for literal in literals {
        any = any.or(compare(cell, CompareOperator::Eq, literal));
        if any == Truth::True {
            break;
        }
    }
    any
}

/// How the prefix stands to as many bytes of the value.
fn begins(value: &Scalar, prefix: &Scalar) -> Option<Ordering> {
    if !value.dtype().eq_ignore_nullability(prefix.dtype()) {
        return None;
    }
    let (bytes, prefix) = match (value.value()?, prefix.value()?) {
        (ScalarValue::Utf8(text), ScalarValue::Utf8(prefix)) => {
            (text.as_str().as_bytes(), prefix.as_str().as_bytes())
        }
        (ScalarValue::Binary(bytes), ScalarValue::Binary(prefix)) => {
            (bytes.as_slice(), prefix.as_slice())
        }
        _ => return None,
    };
    Some(prefix.cmp(&bytes[..bytes.len().min(prefix.len())]))
}

// Outcomes

#[derive(Clone, Copy)]
pub struct Outcomes {
    pub may_be_false: bool,
    pub may_be_unknown: bool,
    pub may_be_true: bool,
}

impl Outcomes {
    fn only(truth: Truth) -> Self {
        Self {
            may_be_false: truth == Truth::False,
            may_be_unknown: truth == Truth::Unknown,
            may_be_true: truth == Truth::True,
        }
    }

    fn any() -> Self {
        Self {
            may_be_false: true,
            may_be_unknown: true,
            may_be_true: true,
        }
    }

    #[inline]
    fn and(self, other: Self) -> Self {
        Self {
            may_be_false: self.may_be_false || other.may_be_false,
            may_be_unknown: (self.may_be_unknown && (other.may_be_unknown || other.may_be_true))
                || (self.may_be_true && other.may_be_unknown),
            may_be_true: self.may_be_true && other.may_be_true,
        }
    }

    #[inline]
    fn or(self, other: Self) -> Self {
        Self {
            may_be_false: self.may_be_false && other.may_be_false,
            may_be_unknown: (self.may_be_unknown && (other.may_be_unknown || other.may_be_false))
                || (self.may_be_false && other.may_be_unknown),
            may_be_true: self.may_be_true || other.may_be_true,
        }
    }

    pub fn is_only_true(self) -> bool {
        !(self.may_be_false || self.may_be_unknown)
    }

    #[inline]
    fn negate(self) -> Self {
        Self {
            may_be_false: self.may_be_true,
            may_be_unknown: self.may_be_unknown,
            may_be_true: self.may_be_false,
        }
    }
}

impl Filter {
    pub fn outcomes(&self, zone: &[ColumnStatistics]) -> Outcomes {
        match self {
            Self::Constant(truth) => Outcomes::only(*truth),
            Self::Compare {
                column,
                operator,
                literal,
            } => comparison(zone.get(*column), *operator, literal),
            Self::IsNull { column } => {
                let column = zone.get(*column);
                Outcomes {
                    may_be_false: column.is_none_or(ColumnStatistics::may_be_value),
                    may_be_unknown: false,
                    may_be_true: column.is_none_or(ColumnStatistics::may_be_null),
                }
            }
            Self::In { column, literals } => {
                let none = Outcomes::only(Truth::False);
                literals.iter().fold(none, |outcomes, literal| {
                    let column = zone.get(*column);
                    outcomes.or(comparison(column, CompareOperator::Eq, literal))
                })
            }
            Self::Between {
                column,
                lower,
                upper,
            } => {
                let column = zone.get(*column);
                comparison(column, CompareOperator::Gte, lower).and(comparison(
                    column,
                    CompareOperator::Lte,
                    upper,
                ))
            }
            Self::StartsWith { column, prefix } => beginning(zone.get(*column), prefix),
            Self::And(left, right) => left.outcomes(zone).and(right.outcomes(zone)),
            Self::Or(left, right) => left.outcomes(zone).or(right.outcomes(zone)),
            Self::Not(filter) => filter.outcomes(zone).negate(),
        }
    }
}

fn is_plain(bound: &Bound) -> bool {
    matches!(
        bound.value.value(),
        Some(
            ScalarValue::Bool(_)
                | ScalarValue::Primitive(_)
                | ScalarValue::Utf8(_)
                | ScalarValue::Binary(_)
        )
    )
}

pub fn comparison(
    column: Option<&ColumnStatistics>,
    operator: CompareOperator,
    literal: &Scalar,
) -> Outcomes {
    let Some(column) = column else {
        return if literal.is_null() {
            Outcomes::only(Truth::Unknown)
        } else {
            Outcomes::any()
        };
    };
    let has_nulls = column.may_be_null();
    let has_values = column.may_be_value();
    if literal.is_null() {
        return Outcomes {
            may_be_false: false,
            may_be_unknown: has_nulls || has_values,
            may_be_true: false,
        };
    }
    let lower = column.lower.as_ref();
    let upper = column.upper.as_ref();
    // How each bound stands to the literal, from its own side.
    let from_lower = lower.and_then(|bound| bound.value.partial_cmp(literal));
    let from_upper = upper.and_then(|bound| literal.partial_cmp(&bound.value));
    let lower_is_plain = lower.is_some_and(is_plain);
    let upper_is_plain = upper.is_some_and(is_plain);
    let never =
        (lower_is_plain && from_lower.is_none()) || (upper_is_plain && from_upper.is_none());
    let always =
        (lower_is_plain && from_lower.is_some()) || (upper_is_plain && from_upper.is_some());
    let no_less = from_lower.is_some_and(Ordering::is_ge);
    let no_greater = from_upper.is_some_and(Ordering::is_ge);
    let is_outside =
        from_lower.is_some_and(Ordering::is_gt) || from_upper.is_some_and(Ordering::is_gt);
    let can_be = [
        (!(never || no_less), Ordering::Less),
        (!(never || is_outside), Ordering::Equal),
        (!(never || no_greater), Ordering::Greater),
    ];
    let can = |wanted: bool| {
        can_be
            .iter()
            .any(|(is_possible, order)| *is_possible && operator.holds(*order) == wanted)
    };
    Outcomes {
        may_be_false: has_values && can(false),
        may_be_unknown: has_nulls || (has_values && !(always || no_less || no_greater)),
        may_be_true: has_values && can(true),
    }
}

fn beginning(column: Option<&ColumnStatistics>, prefix: &Scalar) -> Outcomes {
    let is_prefix = matches!(
        prefix.value(),
        Some(ScalarValue::Utf8(_) | ScalarValue::Binary(_))
    );
    let Some(column) = column else {
        return if is_prefix {
            Outcomes::any()
        } else {
            Outcomes::only(Truth::Unknown)
        };
    };
    let has_values = column.may_be_value();
    let begins = |bound: &Option<Bound>| {
        let order = bound
            .as_ref()
            .and_then(|bound| begins(&bound.value, prefix));
        (
            order,
            order.is_none() && bound.as_ref().is_some_and(is_plain),
        )
    };
    let (lower, lower_rules_out) = begins(&column.lower);
    let (upper, upper_rules_out) = begins(&column.upper);
    let never = !is_prefix || lower_rules_out || upper_rules_out;
    let is_equal = |order: Option<Ordering>| order.is_some_and(Ordering::is_eq);
    let is_outside = lower.is_some_and(Ordering::is_lt) || upper.is_some_and(Ordering::is_gt);
    Outcomes {
        may_be_false: has_values && !(never || (is_equal(lower) && is_equal(upper))),
        may_be_unknown: column.may_be_null() || (has_values && lower.is_none() && upper.is_none()),
        may_be_true: has_values && !(never || is_outside),
    }
}
