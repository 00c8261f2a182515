//! The words, numbers and signs of a text, each with its line and columns.

use super::error::{unseen, Error};
use super::hints;
use std::fmt;

/// A place in a text, both counted from 1; a column counts characters.
#[derive(Clone, Copy, PartialEq, Eq, Debug)]
pub struct Place {
    pub line: usize,
    pub column: usize,
}

/// A part of a line: from a place up to a column.
#[derive(Clone, Copy, PartialEq, Eq, Debug)]
pub struct Span {
    pub place: Place,
    pub end: usize,
}

impl Span {
    /// From here to the end of another part, or to the line's end if that is in a later line.
    pub fn to(self, last: Span) -> Span {
        let same_line = last.place.line == self.place.line;
        Span { place: self.place, end: if same_line { last.end } else { usize::MAX } }
    }
}

#[derive(Clone, PartialEq, Eq, Debug)]
pub enum Token {
    Word(String),
    Number(u32),
    Sign(&'static str),
    /// What has no meaning, which is an error already.
    Wrong,
    /// The end of a line.
    Line,
    /// The end of the text.
    End,
}

impl fmt::Display for Token {
    fn fmt(&self, out: &mut fmt::Formatter) -> fmt::Result {
        match self {
            Token::Word(word) => write!(out, "`{word}`"),
            Token::Number(number) => write!(out, "the number {number}"),
            Token::Sign(sign) => write!(out, "`{sign}`"),
            Token::Wrong => write!(out, "what has no meaning"),
            Token::Line => write!(out, "the end of the line"),
            Token::End => write!(out, "the end of the text"),
        }
    }
}

/// Longer signs first, so that the longest that fits is taken. Those of C that have no meaning here
/// are among them for the hints.
const SIGNS: [&str; 45] = [
    "<<=", ">>=", "->", "==", "!=", "<=", ">=", "<<", ">>", "&&", "||", "++", "--", "+=", "-=",
    "*=", "/=", "%=", "&=", "|=", "^=", "=", "+", "-", "*", "&", "|", "^", "/", "%", "<", ">", "!",
    "~", "?", "(", ")", "[", "]", "{", "}", ":", ";", ",", ".",
];

struct Lexer<'t> {
    rest: &'t str,
    place: Place,
    /// No sign closes a comment of C from here on.
    unclosed: bool,
}

impl<'t> Lexer<'t> {
    fn take(&mut self, bytes: usize) -> &'t str {
        let (taken, rest) = self.rest.split_at(bytes);
        self.rest = rest;
        self.place.column += taken.chars().count();
        taken
    }

    fn take_while(&mut self, fits: impl Fn(char) -> bool) -> &'t str {
        let end = self.rest.find(|next| !fits(next)).unwrap_or(self.rest.len());
        self.take(end)
    }

    /// What was taken since a place.
    fn since(&self, place: Place) -> Span {
        Span { place, end: self.place.column }
    }

    fn token(&mut self) -> Result<Token, Error> {
        let place = self.place;
        let Some(first) = self.rest.chars().next() else {
            return Ok(Token::End);
        };
        if first == '\n' {
            self.take(1);
            self.place = Place { line: place.line + 1, column: 1 };
            return Ok(Token::Line);
        }
        if first.is_ascii_alphabetic() || first == '_' {
            let word = self.take_while(|next| next.is_ascii_alphanumeric() || next == '_');
            return Ok(Token::Word(word.to_string()));
        }
        if first.is_ascii_digit() {
            let whole = self.rest;
            let word = |next: char| next.is_ascii_alphanumeric() || next == '_';
            let mut length = self.take_while(word).len();
            // A fraction is no number, and is said as a whole.
            if matches!(self.rest.as_bytes(), [b'.', b'0'..=b'9', ..]) {
                self.take(1);
                length += 1 + self.take_while(word).len();
            }
            return number(&whole[..length], self.since(place));
        }
        if first == '\'' {
            return self.character();
        }
        match SIGNS.into_iter().find(|sign| self.rest.starts_with(sign)) {
            Some(sign) => {
                self.take(sign.len());
                Ok(Token::Sign(sign))
            }
            None => Err(self.no_meaning(first)),
        }
    }

    /// Takes a character that has no meaning.
    fn no_meaning(&mut self, first: char) -> Error {
        let place = self.place;
        let sign = self.take(first.len_utf8());
        let shown = match unseen(first) {
            true => format!("U+{:04X}", u32::from(first)),
            false => format!("`{sign}`"),
        };
        let error = Error::new(self.since(place), format!("{shown} has no meaning here"));
        error.hinting(hints::of_sign(sign))
    }

    /// A character of one byte between quotes is its number; `\n`, `\0` and `\x41` are as in C.
    fn character(&mut self) -> Result<Token, Error> {
        let place = self.place;
        let (length, byte) = match self.rest.as_bytes() {
            [b'\'', byte @ b' '..=b'~', b'\'', ..] => (3, *byte),
            [b'\'', b'\\', b'n', b'\'', ..] => (4, b'\n'),
            [b'\'', b'\\', b'0', b'\'', ..] => (4, 0),
            [b'\'', b'\\', b'x', high, low, b'\'', ..]
                if high.is_ascii_hexdigit() && low.is_ascii_hexdigit() =>
            {
                let digit = |digit: u8| char::from(digit).to_digit(16).unwrap_or_default() as u8;
                (6, 16 * digit(*high) + digit(*low))
            }
            _ => {
                self.take(1);
                self.take_while(|next| next != '\'' && next != '\n');
                self.take(usize::from(self.rest.starts_with('\'')));
                let message = "expected one character between quotes, as in 'a', '\\n', '\\0' or \
                               '\\x41'";
                return Error::at(self.since(place), message);
            }
        };
        self.take(length);
        Ok(Token::Number(u32::from(byte)))
    }

    /// Takes blanks and comments. Comments as C writes them are errors, but hide no others.
    fn skip(&mut self, errors: &mut Vec<Error>) {
        loop {
            self.take_while(|next| next == ' ' || next == '\t' || next == '\r');
            if self.rest.starts_with('#') {
                self.take_while(|next| next != '\n');
            }
            // A blank of another kind is an error that hides no others.
            let next = self.rest.chars().next();
            if let Some(blank) = next.filter(|&next| next != '\n' && unseen(next)) {
                errors.push(self.no_meaning(blank));
                continue;
            }
            let Some(sign) = ["//", "/*"].into_iter().find(|sign| self.rest.starts_with(sign))
            else {
                return;
            };
            let span = Span { place: self.place, end: self.place.column + sign.len() };
            let error = Error::new(span, format!("`{sign}` begins no comment"));
            errors.push(error.hinting(hints::COMMENT));
            self.take_comment(sign);
        }
    }

    /// A comment of C: to the end of its line, or to its closing sign if there is one.
    fn take_comment(&mut self, sign: &str) {
        let line = self.rest.find('\n').unwrap_or(self.rest.len());
        let close = match sign {
            "/*" if !self.unclosed => self.rest.find("*/").map(|at| at + "*/".len()),
            _ => None,
        };
        self.unclosed |= sign == "/*" && close.is_none();
        let comment = self.take(close.unwrap_or(line));
        if let Some(at) = comment.rfind('\n') {
            self.place.line += comment.matches('\n').count();
            self.place.column = comment[at..].chars().count();
        }
    }
}

/// A decimal number, or one to the base 16 after `0x` or `0X`; `_` may stand between digits.
fn number(digits: &str, span: Span) -> Result<Token, Error> {
    let plain = digits.replace('_', "");
    let hex = plain.strip_prefix("0x").or(plain.strip_prefix("0X"));
    let (written, base) = hex.map_or((plain.as_str(), 10), |hex| (hex, 16));
    if written.is_empty() || !written.chars().all(|digit| digit.is_digit(base)) {
        let message = format!("expected a number, found `{digits}`");
        return Err(Error::new(span, message).hinting(hints::NUMBER));
    }
    if base == 10 && written.len() > 1 && written.starts_with('0') {
        let message = format!("expected a number without zeros before it, found `{digits}`");
        return Err(Error::new(span, message).hinting(hints::of_octal(written)));
    }
    match u32::from_str_radix(written, base) {
        Ok(number) => Ok(Token::Number(number)),
        Err(_) => Error::at(span, format!("expected a number below 4294967296, found `{digits}`")),
    }
}

/// A text without the byte order mark that it may begin with.
pub fn without_mark(text: &str) -> &str {
    text.strip_prefix('\u{feff}').unwrap_or(text)
}

/// All tokens of a text, the last is its end, and what has no meaning. A comment goes from `#` to
/// the end of its line.
pub fn tokens(text: &str) -> (Vec<(Token, Span)>, Vec<Error>) {
    let place = Place { line: 1, column: 1 };
    let mut lexer = Lexer { rest: without_mark(text), place, unclosed: false };
    let (mut tokens, mut errors) = (Vec::new(), Vec::new());
    loop {
        let before = lexer.place;
        lexer.skip(&mut errors);
        let place = lexer.place;
        if place.line != before.line {
            tokens.push((Token::Line, Span { place: before, end: before.column + 1 }));
        }
        let token = lexer.token().unwrap_or_else(|error| {
            errors.push(error);
            Token::Wrong
        });
        let end = token == Token::End;
        let span = match token {
            // An end stands behind what is written, before blanks and a comment.
            Token::Line | Token::End if place.line == before.line => {
                Span { place: before, end: before.column + 1 }
            }
            Token::Line | Token::End => Span { place, end: place.column + 1 },
            _ => lexer.since(place),
        };
        tokens.push((token, span));
        if end {
            return (tokens, errors);
        }
    }
}
