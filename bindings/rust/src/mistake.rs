// SPDX-License-Identifier: Apache-2.0
// SPDX-FileCopyrightText: Copyright the Vortex contributors; ported to Rattle and changed
//! What is wrong with a text that is no filter.

use std::fmt;

macro_rules! mistakes {
    ($($name:ident $words:literal)*) => {
        /// What is wrong with a text that is no filter, at the offset that comes with it.
        #[derive(Clone, Copy, Debug, PartialEq, Eq, Hash)]
        #[non_exhaustive]
        pub enum Mistake {
            $(#[doc = concat!("Told as: ", $words, ".")] $name,)*
        }

        impl Mistake {
            /// Each by its code.
            const ALL: &[Mistake] = &[$(Mistake::$name),*];

            fn words(self) -> &'static str {
                match self {
                    $(Mistake::$name => $words,)*
                }
            }
        }
    };
}

mistakes! {
    ExpectedFilter "expected a filter"
    ExpectedColumn "expected a column"
    ExpectedOperator "expected an operator"
    ExpectedLiteral "expected a literal"
    ExpectedPattern "expected a pattern that its escape does not end"
    ExpectedEscape "expected a string of one character"
    ExpectedNull "expected null"
    ExpectedAnd "expected and"
    ExpectedOpening "expected ("
    ExpectedClosing "expected )"
    ExpectedComma "expected a comma"
    ExpectedEnd "expected the end"
    NoColumn "no such column"
    TypesDiffer "a literal of another type than the column"
    NoLiteral "no literal but null is of the column's type"
    NumberTooLong "no value of the column's type is written as the number"
    BadText "no token"
    TooDeep "nested too deep"
    ExpectedKind "expected a column's name, and its kind behind it"
}

impl Mistake {
    pub(crate) fn of(code: u32) -> Mistake {
        Mistake::ALL[code as usize]
    }
}

impl fmt::Display for Mistake {
    fn fmt(&self, f: &mut fmt::Formatter<'_>) -> fmt::Result {
        f.write_str(self.words())
    }
}
