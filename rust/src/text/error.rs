//! What is wrong with a text: where, which rule, what stands there and what may help, and how it is
//! shown to people.

use super::lexer::{without_mark, Place, Span};
use std::fmt;

/// What is wrong with a text, and where.
#[derive(Clone, PartialEq, Eq, Debug)]
pub struct Error {
    pub place: Place,
    /// The column behind what is meant, in the line of the place.
    pub end: usize,
    pub message: String,
    /// What stands there; empty where the message says it.
    pub found: String,
    /// How it may be meant; empty where nothing is known.
    pub hint: String,
    /// A rule of the checker is broken: the text can be assembled all the same.
    pub refused: bool,
}

impl fmt::Display for Error {
    fn fmt(&self, out: &mut fmt::Formatter) -> fmt::Result {
        write!(out, "line {}, column {}: {}", self.place.line, self.place.column, self.message)
    }
}

impl Error {
    pub fn new(span: Span, message: impl Into<String>) -> Error {
        let Span { place, end } = span;
        let (message, found, hint) = (message.into(), String::new(), String::new());
        Error { place, end, message, found, hint, refused: false }
    }

    pub fn at<T>(span: Span, message: impl Into<String>) -> Result<T, Error> {
        Err(Error::new(span, message))
    }

    pub fn hinting(self, hint: impl Into<String>) -> Error {
        Error { hint: hint.into(), ..self }
    }

    /// A broken rule of the checker, with what stands there.
    pub fn refusing(span: Span, asked: &str, found: String) -> Error {
        Error { found, refused: true, ..Error::new(span, asked) }
    }
}

/// Errors by their places, of each line the first: what else cannot be read there may only follow.
pub fn first_in_lines(mut errors: Vec<Error>) -> Vec<Error> {
    errors.sort_by_key(|error| (error.place.line, error.place.column));
    errors.dedup_by_key(|error| error.place.line);
    errors
}

/// Errors by their places, each once. Of a line one broken rule of the checker is said, and none if
/// something in it has no meaning.
pub fn in_order(mut errors: Vec<Error>) -> Vec<Error> {
    errors.sort_by_key(|error| (error.place.line, error.refused, error.place.column));
    errors.dedup_by(|later, earlier| {
        later.place.line == earlier.place.line && (later.refused || later == earlier)
    });
    errors
}

/// So many errors are shown, so much of a line around a mark, and so much of one message.
const MOST_SHOWN: usize = 100;
const WINDOW: usize = 100;
const BEFORE_MARK: usize = 40;
const MOST_SAID: usize = 400;

/// Errors or warnings of a text in lines: place and message, the line of the text with a mark under
/// what is meant, a hint.
pub fn report(source: &str, text: &str, what: &str, errors: &[Error]) -> String {
    let lines: Vec<&str> = without_mark(text).lines().collect();
    let first = errors.iter().take(MOST_SHOWN);
    let mut report: String = first.map(|error| shown(source, &lines, what, error)).collect();
    let more = errors.len().saturating_sub(MOST_SHOWN);
    if more > 0 {
        report += &format!("{source}: and {more} more {what}{}\n", if more > 1 { "s" } else { "" });
    }
    report
}

fn shown(source: &str, lines: &[&str], what: &str, error: &Error) -> String {
    let Error { place: Place { line, column }, end, message, found, hint, .. } = error;
    let mut text = format!("{source}:{line}:{column}: {what}: {}\n", cut(message));
    if let Some(written) = lines.get(line - 1) {
        let number = line.to_string();
        let width = number.len().max(5);
        let (written, marks) = excerpt(&printable(written), *column, *end);
        text += &format!("{number:>width$} | {}\n", written.trim_end());
        text += format!("{:>width$} | {marks} {}", "", cut(found)).trim_end();
        text += "\n";
    }
    if !hint.is_empty() {
        text += &format!("   hint: {}\n", cut(hint));
    }
    text
}

/// A line and the marks under a part of it; of a long line what stands around the part's beginning.
fn excerpt(line: &str, column: usize, end: usize) -> (String, String) {
    let length = line.chars().count();
    let (from, to) = if length <= WINDOW {
        (0, length)
    } else {
        let from = (column - 1).saturating_sub(BEFORE_MARK).min(length - WINDOW);
        (from, from + WINDOW)
    };
    let before = if from > 0 { ".. " } else { "" };
    let behind = if to < length { " .." } else { "" };
    let window: String = line.chars().skip(from).take(to - from).collect();
    let above = before.chars().chain(window.chars());
    let indent: String = above.take(before.len() + column - 1 - from).map(blank).collect();
    let marks = "^".repeat(end.min(to + 1).saturating_sub(column).max(1));
    (format!("{before}{window}{behind}"), indent + &marks)
}

/// A message of a length that can be read.
fn cut(said: &str) -> String {
    match said.char_indices().nth(MOST_SAID) {
        Some((at, _)) => format!("{} ..", &said[..at]),
        None => said.to_string(),
    }
}

/// A character that is not seen as itself, or that moves what stands beside it.
pub fn unseen(one: char) -> bool {
    const FORMATTING: [std::ops::RangeInclusive<char>; 4] = [
        '\u{200b}'..='\u{200f}',
        '\u{2028}'..='\u{202e}',
        '\u{2060}'..='\u{206f}',
        '\u{feff}'..='\u{feff}',
    ];
    let formatting = FORMATTING.iter().any(|range| range.contains(&one));
    one.is_control() || formatting || (one.is_whitespace() && one != ' ')
}

/// A line without what would move a terminal's cursor.
fn printable(line: &str) -> String {
    let shown = |next: char| match next {
        '\t' => next,
        _ if unseen(next) => '\u{fffd}',
        _ => next,
    };
    line.trim_end_matches('\r').chars().map(shown).collect()
}

/// The same width as a character above.
fn blank(above: char) -> char {
    if above == '\t' {
        return above;
    }
    ' '
}
