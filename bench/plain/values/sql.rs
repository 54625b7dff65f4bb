// SPDX-License-Identifier: Apache-2.0
//! SQL text as filters. The columns are `$1`, `$2` and so on, of types that are given.

use std::iter::Peekable;
use std::vec::IntoIter;

use crate::filters::{CompareOperator, Filter, Truth};
use crate::pvalues::PValue;
use crate::read::{BadLine, Read};
use crate::types::{DType, PType};
use crate::values::{BufferString, ByteBuffer, Scalar, ScalarValue};

#[derive(PartialEq)]
enum Token {
    /// In lower case.
    Word(String),
    Column(usize),
    /// As it is written.
    Number(String),
    Text(String),
    Bytes(Vec<u8>),
    Mark(&'static str),
}

const MARKS: [&str; 10] = ["<>", "!=", "<=", ">=", "<", ">", "=", "(", ")", ","];

fn tokens(mut text: &str) -> Read<Vec<Token>> {
    let mut tokens = Vec::new();
    loop {
        text = text.trim_start();
        let Some(first) = text.chars().next() else {
            return Ok(tokens);
        };
        let (token, rest) = match first {
            '\'' => quoted(text, '\'').map(|(text, rest)| (Token::Text(text), rest))?,
            '"' => {
                let (name, rest) = quoted(text, '"')?;
                (column(&name)?, rest)
            }
            '$' => {
                let end = end_of(&text[1..], |letter| letter.is_ascii_digit()) + 1;
                (column(&text[..end])?, &text[end..])
            }
            'x' | 'X' if text[1..].starts_with('\'') => {
                let (digits, rest) = quoted(&text[1..], '\'')?;
                (Token::Bytes(bytes(&digits)?), rest)
            }
            '-' | '0'..='9' => {
                let end = end_of(&text[1..], |letter| {
                    letter.is_ascii_digit() || letter == '.'
                }) + 1;
                (Token::Number(text[..end].to_string()), &text[end..])
            }
            'a'..='z' | 'A'..='Z' | '_' => {
                let end = end_of(text, |letter| {
                    letter.is_ascii_alphanumeric() || letter == '_'
                });
                (Token::Word(text[..end].to_lowercase()), &text[end..])
            }
            _ => {
                let mark = MARKS.into_iter().find(|mark| text.starts_with(mark));
                let mark = mark.ok_or(BadLine)?;
                (Token::Mark(mark), &text[mark.len()..])
            }
        };
        tokens.push(token);
        text = rest;
    }
}

fn end_of(text: &str, of: impl Fn(char) -> bool) -> usize {
    text.find(|letter| !of(letter)).unwrap_or(text.len())
}

fn column(name: &str) -> Read<Token> {
    let digits = name.strip_prefix('$').ok_or(BadLine)?;
    let number: usize = digits.parse().map_err(|_| BadLine)?;
    Ok(Token::Column(number.checked_sub(1).ok_or(BadLine)?))
}

/// What stands in quotes, where a quote is doubled, and what follows.
fn quoted(text: &str, quote: char) -> Read<(String, &str)> {
    let mut content = String::new();
    let mut rest = &text[1..];
    loop {
        let end = rest.find(quote).ok_or(BadLine)?;
        content.push_str(&rest[..end]);
        rest = &rest[end + 1..];
        if !rest.starts_with(quote) {
            return Ok((content, rest));
        }
        content.push(quote);
        rest = &rest[1..];
    }
}

fn bytes(digits: &str) -> Read<Vec<u8>> {
    let byte = |at| u8::from_str_radix(digits.get(at..at + 2)?, 16).ok();
    (0..digits.len())
        .step_by(2)
        .map(|at| byte(at).ok_or(BadLine))
        .collect()
}

pub fn parse(text: &str, columns: &[DType]) -> Read<Filter> {
    let tokens = tokens(text)?.into_iter().peekable();
    let mut parser = Parser { tokens, columns };
    let filter = parser.any()?;
    match parser.tokens.next() {
        None => Ok(filter),
        Some(_) => Err(BadLine),
    }
}

struct Parser<'a> {
    tokens: Peekable<IntoIter<Token>>,
    columns: &'a [DType],
}

/// A literal of a column's type, or a number that the type lacks: between this value and the next, below or above all.
enum Literal {
    Scalar(Scalar),
    JustAbove(Scalar),
    Below,
    Above,
}

impl Parser<'_> {
    fn takes(&mut self, token: &Token) -> bool {
        self.tokens.next_if_eq(token).is_some()
    }

    fn takes_word(&mut self, word: &str) -> bool {
        self.takes(&Token::Word(word.to_string()))
    }

    fn need(&mut self, token: Token) -> Read<()> {
        if self.takes(&token) {
            Ok(())
        } else {
            Err(BadLine)
        }
    }

    fn need_word(&mut self, word: &str) -> Read<()> {
        self.need(Token::Word(word.to_string()))
    }

    fn any(&mut self) -> Read<Filter> {
        let left = self.all()?;
        Ok(if self.takes_word("or") {
            or(left, self.any()?)
        } else {
            left
        })
    }

    fn all(&mut self) -> Read<Filter> {
        let left = self.negated()?;
        Ok(if self.takes_word("and") {
            and(left, self.all()?)
        } else {
            left
        })
    }

    fn negated(&mut self) -> Read<Filter> {
        if self.takes_word("not") {
            Ok(not(self.negated()?))
        } else {
            self.predicate()
        }
    }

    fn predicate(&mut self) -> Read<Filter> {
        match self.tokens.next().ok_or(BadLine)? {
            Token::Mark("(") => {
                let filter = self.any()?;
                self.need(Token::Mark(")"))?;
                Ok(filter)
            }
            Token::Word(word) => match word.as_str() {
                "true" => Ok(Filter::Constant(Truth::True)),
                "false" => Ok(Filter::Constant(Truth::False)),
                "null" => Ok(Filter::Constant(Truth::Unknown)),
                "starts_with" => self.call(),
                _ => Err(BadLine),
            },
            Token::Column(column) if column < self.columns.len() => self.test(column),
            _ => Err(BadLine),
        }
    }

    fn call(&mut self) -> Read<Filter> {
        self.need(Token::Mark("("))?;
        let Some(Token::Column(column)) = self.tokens.next() else {
            return Err(BadLine);
        };
        self.need(Token::Mark(","))?;
        let prefix = match self.literal(column)? {
            Literal::Scalar(prefix) => prefix,
            _ => return Err(BadLine),
        };
        self.need(Token::Mark(")"))?;
        Ok(Filter::StartsWith { column, prefix })
    }

    /// What follows a column.
    fn test(&mut self, column: usize) -> Read<Filter> {
        if let Some(Token::Mark(mark)) = self.tokens.peek() {
            let operator = match *mark {
                "=" => CompareOperator::Eq,
                "<>" | "!=" => CompareOperator::NotEq,
                ">" => CompareOperator::Gt,
                ">=" => CompareOperator::Gte,
                "<" => CompareOperator::Lt,
                "<=" => CompareOperator::Lte,
                _ => return Err(BadLine),
            };
            self.tokens.next();
            let literal = self.literal(column)?;
            return Ok(comparison(column, operator, literal));
        }
        if self.takes_word("is") {
            let is_not = self.takes_word("not");
            self.need_word("null")?;
            return Ok(negated_if(is_not, Filter::IsNull { column }));
        }
        let is_not = self.takes_word("not");
        let filter = if self.takes_word("in") {
            self.contained(column)?
        } else if self.takes_word("between") {
            let lower = self.literal(column)?;
            self.need_word("and")?;
            between(column, lower, self.literal(column)?)
        } else {
            self.need_word("like")?;
            self.like(column)?
        };
        Ok(negated_if(is_not, filter))
    }

    fn contained(&mut self, column: usize) -> Read<Filter> {
        self.need(Token::Mark("("))?;
        let (mut literals, mut lacks) = (Vec::new(), false);
        if self.takes(&Token::Mark(")")) {
            return Ok(Filter::In { column, literals });
        }
        loop {
            match self.literal(column)? {
                Literal::Scalar(literal) => literals.push(literal),
                _ => lacks = true,
            }
            if self.takes(&Token::Mark(")")) {
                break;
            }
            self.need(Token::Mark(","))?;
        }
        let filter = Filter::In { column, literals };
        Ok(if lacks {
            or(filter, never(column))
        } else {
            filter
        })
    }

    fn like(&mut self, column: usize) -> Read<Filter> {
        let Some(Token::Text(pattern)) = self.tokens.next() else {
            return Err(BadLine);
        };
        let escapes = self.takes_word("escape");
        if escapes {
            self.need(Token::Text("\\".to_string()))?;
        }
        let mut prefix = String::new();
        let mut letters = pattern.chars();
        loop {
            match letters.next().ok_or(BadLine)? {
                '\\' if escapes => prefix.push(letters.next().ok_or(BadLine)?),
                '%' => break,
                '_' => return Err(BadLine),
                letter => prefix.push(letter),
            }
        }
        let value = ScalarValue::Utf8(BufferString::new(prefix));
        let prefix = Scalar::new_unchecked(self.columns[column].clone(), Some(value));
        if letters.next().is_some() {
            return Err(BadLine);
        }
        Ok(Filter::StartsWith { column, prefix })
    }

    fn literal(&mut self, column: usize) -> Read<Literal> {
        let dtype = self.columns.get(column).ok_or(BadLine)?;
        let value = match (self.tokens.next().ok_or(BadLine)?, dtype) {
            (Token::Word(word), _) if word == "null" => None,
            (Token::Word(word), DType::Bool(_)) if word == "true" => Some(ScalarValue::Bool(true)),
            (Token::Word(word), DType::Bool(_)) if word == "false" => {
                Some(ScalarValue::Bool(false))
            }
            (Token::Number(word) | Token::Text(word), DType::Primitive(ptype, _)) => {
                return number(&word, *ptype, dtype);
            }
            (Token::Text(text), DType::Utf8(_)) => Some(ScalarValue::Utf8(BufferString::new(text))),
            (Token::Bytes(bytes), DType::Binary(_)) => {
                Some(ScalarValue::Binary(ByteBuffer::new(bytes)))
            }
            _ => return Err(BadLine),
        };
        Ok(Literal::Scalar(Scalar::new_unchecked(dtype.clone(), value)))
    }
}

/// A number among the integers of a type.
fn number(word: &str, ptype: PType, dtype: &DType) -> Read<Literal> {
    let (whole, fraction) = word.split_once('.').unwrap_or((word, ""));
    let whole: i128 = whole.parse().map_err(|_| BadLine)?;
    let is_whole = fraction.bytes().all(|digit| digit == b'0');
    let is_below = !is_whole && word.starts_with('-');
    let number = if is_below { whole - 1 } else { whole };
    let value = |number| PValue::from_whole(number, ptype).map(ScalarValue::Primitive);
    let Some(value) = value(number).filter(|_| is_whole || value(number + 1).is_some()) else {
        return Ok(if number < 0 {
            Literal::Below
        } else {
            Literal::Above
        });
    };
    let scalar = Scalar::new_unchecked(dtype.clone(), Some(value));
    Ok(if is_whole {
        Literal::Scalar(scalar)
    } else {
        Literal::JustAbove(scalar)
    })
}

fn and(left: Filter, right: Filter) -> Filter {
    Filter::And(Box::new(left), Box::new(right))
}

fn or(left: Filter, right: Filter) -> Filter {
    Filter::Or(Box::new(left), Box::new(right))
}

fn not(filter: Filter) -> Filter {
    Filter::Not(Box::new(filter))
}

fn negated_if(is_not: bool, filter: Filter) -> Filter {
    if is_not { not(filter) } else { filter }
}

/// False, and Unknown for a null.
fn never(column: usize) -> Filter {
    and(Filter::IsNull { column }, Filter::Constant(Truth::Unknown))
}

fn comparison(column: usize, operator: CompareOperator, literal: Literal) -> Filter {
    let is_above = match literal {
        Literal::Scalar(literal) => return compared(column, operator, literal),
        Literal::JustAbove(value) => return comparison_above(column, operator, value),
        Literal::Below => false,
        Literal::Above => true,
    };
    let holds = match operator {
        CompareOperator::Eq => false,
        CompareOperator::NotEq => true,
        CompareOperator::Gt | CompareOperator::Gte => !is_above,
        CompareOperator::Lt | CompareOperator::Lte => is_above,
    };
    negated_if(holds, never(column))
}

fn compared(column: usize, operator: CompareOperator, literal: Scalar) -> Filter {
    Filter::Compare {
        column,
        operator,
        literal,
    }
}

/// A comparison with a number between a value and the next.
fn comparison_above(column: usize, operator: CompareOperator, value: Scalar) -> Filter {
    match operator {
        CompareOperator::Eq => never(column),
        CompareOperator::NotEq => not(never(column)),
        CompareOperator::Gt | CompareOperator::Gte => compared(column, CompareOperator::Gt, value),
        CompareOperator::Lt | CompareOperator::Lte => compared(column, CompareOperator::Lte, value),
    }
}

fn between(column: usize, lower: Literal, upper: Literal) -> Filter {
    match (lower, upper) {
        (Literal::Scalar(lower), Literal::Scalar(upper)) => Filter::Between {
            column,
            lower,
            upper,
        },
        (lower, upper) => and(
            comparison(column, CompareOperator::Gte, lower),
            comparison(column, CompareOperator::Lte, upper),
        ),
    }
}
