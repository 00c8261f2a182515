//! What each refusal's and stop's number means and what to do next, as c/numbers.def says it for C
//! and for the tool.

/// The file's lines: REFUSAL or STOP with a number, what it means and what to do next.
const DEFINITIONS: &str = include_str!("../../../c/numbers.def");

/// The answers that have a number.
#[derive(Clone, Copy, PartialEq, Eq, Debug)]
pub enum Kind {
    Refusal,
    Stop,
}

impl Kind {
    /// The word that stands before the number.
    pub fn word(self) -> &'static str {
        match self {
            Kind::Refusal => "refused",
            Kind::Stop => "stopped",
        }
    }
}

#[derive(Clone, Copy, PartialEq, Eq, Debug)]
pub struct Number {
    pub kind: Kind,
    pub number: u64,
    /// What it means, without a full stop.
    pub meaning: &'static str,
    /// What to do next, in whole sentences.
    pub advice: &'static str,
}

/// The number of a line; comments have none.
fn read(line: &'static str) -> Option<Number> {
    let (name, rest) = line.split_once('(')?;
    let kind = match name {
        "REFUSAL" => Kind::Refusal,
        "STOP" => Kind::Stop,
        _ => return None,
    };
    let (number, texts) = rest.strip_suffix("\")")?.split_once(", \"")?;
    let (meaning, advice) = texts.split_once("\", \"")?;
    Some(Number { kind, number: number.parse().ok()?, meaning, advice })
}

/// All refusals and then all stops, by number.
pub fn all() -> impl Iterator<Item = Number> {
    DEFINITIONS.lines().filter_map(read)
}

pub fn refusal(number: u64) -> Option<Number> {
    all().find(|one| (one.kind, one.number) == (Kind::Refusal, number))
}

pub fn stop(number: u64) -> Option<Number> {
    all().find(|one| (one.kind, one.number) == (Kind::Stop, number))
}

#[cfg(test)]
mod tests {
    use super::*;
    use crate::state::{FIRST_STOP, LAST_STOP};

    /// Document 01's numbers, each once and in order, with texts for people.
    #[test]
    fn the_file_says_every_number_once() {
        let numbers = |kind: Kind| {
            all().filter(move |one| one.kind == kind).map(|one| one.number).collect::<Vec<_>>()
        };
        let refusals: Vec<u64> = (1..=9).chain(20..=22).collect();
        let stops: Vec<u64> = (FIRST_STOP..=LAST_STOP).map(u64::from).collect();
        assert_eq!(numbers(Kind::Refusal), refusals);
        assert_eq!(numbers(Kind::Stop), stops);
        let lines = DEFINITIONS.lines().filter(|line| !line.starts_with("/*"));
        assert_eq!(lines.count(), refusals.len() + stops.len());
        for one in all() {
            assert!(!one.meaning.is_empty() && !one.meaning.ends_with('.'), "{one:?}");
            assert!(one.advice.ends_with('.'), "{one:?}");
        }
    }
}
