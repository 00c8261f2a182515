//! JSON texts, as far as the tool prints them: one object on one line.

use std::fmt;

/// A value as JSON writes it. Numbers are whole.
#[derive(Clone, Debug)]
pub enum Json {
    Bool(bool),
    Number(u64),
    Text(String),
    List(Vec<Json>),
    /// Names with their values, in this order.
    Object(Vec<(&'static str, Json)>),
}

impl Json {
    pub fn text(text: impl Into<String>) -> Json {
        Json::Text(text.into())
    }

    pub fn list<T>(items: impl IntoIterator<Item = T>, value: impl FnMut(T) -> Json) -> Json {
        Json::List(items.into_iter().map(value).collect())
    }

    /// Bytes as a list of numbers.
    pub fn bytes(bytes: &[u8]) -> Json {
        Json::list(bytes, |&byte| Json::Number(u64::from(byte)))
    }
}

fn quoted(text: &str, out: &mut fmt::Formatter) -> fmt::Result {
    write!(out, "\"")?;
    for letter in text.chars() {
        match letter {
            '"' | '\\' => write!(out, "\\{letter}")?,
            '\u{0}'..='\u{1f}' => write!(out, "\\u{:04x}", u32::from(letter))?,
            _ => write!(out, "{letter}")?,
        }
    }
    write!(out, "\"")
}

impl fmt::Display for Json {
    fn fmt(&self, out: &mut fmt::Formatter) -> fmt::Result {
        match self {
            Json::Bool(value) => write!(out, "{value}"),
            Json::Number(value) => write!(out, "{value}"),
            Json::Text(text) => quoted(text, out),
            Json::List(items) => {
                write!(out, "[")?;
                for (at, item) in items.iter().enumerate() {
                    write!(out, "{}{item}", if at == 0 { "" } else { ", " })?;
                }
                write!(out, "]")
            }
            Json::Object(members) => {
                write!(out, "{{")?;
                for (at, (name, value)) in members.iter().enumerate() {
                    write!(out, "{}\"{name}\": {value}", if at == 0 { "" } else { ", " })?;
                }
                write!(out, "}}")
            }
        }
    }
}
