//! The words of a command line: those that stand alone and options, as the command's table says.

use super::{counted, Command};
use std::str::FromStr;

/// An option of a command: what its value is called, if it takes one.
pub struct Choice {
    pub name: &'static str,
    pub value: Option<&'static str>,
    pub does: &'static str,
    /// It may be given more than once.
    pub many: bool,
}

impl Choice {
    pub const fn flag(name: &'static str, does: &'static str) -> Choice {
        Choice { name, value: None, does, many: false }
    }

    pub const fn valued(name: &'static str, value: &'static str, does: &'static str) -> Choice {
        Choice { name, value: Some(value), does, many: false }
    }
}

/// A command line without the command's name.
pub struct Words<'w> {
    command: &'static Command,
    plain: Vec<&'w str>,
    options: Vec<(&'static str, &'w str)>,
}

impl<'w> Words<'w> {
    /// Options are given as `--name value` or `--name=value`; words behind `--` stand alone.
    pub fn new(command: &'static Command, words: &'w [String]) -> Result<Words<'w>, String> {
        let mut found = Words { command, plain: Vec::new(), options: Vec::new() };
        let mut words = words.iter().map(String::as_str);
        while let Some(word) = words.next() {
            if word == "--" {
                found.plain.extend(words);
                break;
            }
            if word == "-" || !word.starts_with('-') {
                found.plain.push(word);
                continue;
            }
            let (name, given) = match word.split_once('=') {
                Some((name, value)) => (name, Some(value)),
                None => (word, None),
            };
            let choice = found.choice(name)?;
            let value = match (choice.value, given) {
                (None, None) => "",
                (None, Some(_)) => return found.wrong(&format!("{name} takes no value")),
                (Some(_), Some(value)) => value,
                (Some(_), None) => match words.next() {
                    Some(value) => value,
                    None => return found.wrong(&format!("{name} wants a value")),
                },
            };
            if !choice.many && found.option(name).is_some() {
                return Err(format!("{name} is given twice"));
            }
            found.options.push((choice.name, value));
        }
        Ok(found)
    }

    fn choice(&self, name: &str) -> Result<&'static Choice, String> {
        match self.command.options.iter().find(|choice| choice.name == name) {
            Some(choice) => Ok(choice),
            None => self.wrong(&format!("there is no option `{name}` here")),
        }
    }

    /// A message with the command's usage.
    fn wrong<T>(&self, message: &str) -> Result<T, String> {
        Err(format!("{}: {message}\n{}", self.command.name, self.command.usage()))
    }

    pub fn option(&self, name: &str) -> Option<&'w str> {
        self.all(name).next()
    }

    /// All values of an option that may be given more than once.
    pub fn all<'a>(&'a self, name: &'a str) -> impl Iterator<Item = &'w str> + 'a {
        self.options.iter().filter(move |(option, _)| *option == name).map(|(_, value)| *value)
    }

    pub fn flag(&self, name: &str) -> bool {
        self.option(name).is_some()
    }

    pub fn number<T: FromStr + TryFrom<u64>>(&self, name: &str) -> Result<Option<T>, String> {
        self.option(name).map(|word| number(name, word)).transpose()
    }

    /// The words that stand alone: one for each of these.
    pub fn exactly<const N: usize>(&self, wanted: [&str; N]) -> Result<[&'w str; N], String> {
        match self.plain.clone().try_into() {
            Ok(words) => Ok(words),
            Err(_) => self.wrong(&format!("wanted: {}; {}", wanted.join(" "), self.given())),
        }
    }

    /// All words that stand alone.
    pub fn any(&self) -> &[&'w str] {
        &self.plain
    }

    /// One or more words that stand alone.
    pub fn some(&self, wanted: &str) -> Result<&[&'w str], String> {
        match self.any() {
            [] => self.wrong(&format!("wanted: {wanted}; {}", self.given())),
            words => Ok(words),
        }
    }

    fn given(&self) -> String {
        format!("{} given", counted(self.plain.len() as u64, "file"))
    }
}

/// A number, decimal or after `0x` to the base 16; `_` may stand between digits.
pub fn number<T: FromStr + TryFrom<u64>>(option: &str, word: &str) -> Result<T, String> {
    let digits = word.replace('_', "");
    let value = match digits.strip_prefix("0x").or_else(|| digits.strip_prefix("0X")) {
        Some(hex) => u64::from_str_radix(hex, 16).ok().and_then(|value| T::try_from(value).ok()),
        None => digits.parse().ok(),
    };
    value.ok_or_else(|| format!("{option} wants a number, not `{word}`"))
}
