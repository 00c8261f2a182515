//! The `#:` lines of a text (docs/TOOL.md, test): the verdict that is expected of its module, and
//! cases, each a run from the opening with what is expected of it.

use super::going::{argument_bytes, DEFAULT_BUDGET};
use super::words::number;
use crate::state::{FIRST_STOP, LAST_STOP};
use std::fmt;

/// What a line of a script begins with.
const MARK: &str = "#:";

/// The words of the lines, as an error lists them.
const WORDS: &str = "form, arguments, budget, accepted, refused, ended, stopped, running or output";

const LAST_MODULE_REFUSAL: u64 = 8;
/// The refusal of a form or of arguments: an answer of a run, not the verdict on the file.
const CALL_REFUSAL: u64 = 9;

/// An answer as document 01's program prints it: its word and its numbers.
#[derive(Clone, PartialEq, Eq, Debug)]
pub struct Answered {
    pub word: &'static str,
    pub numbers: Vec<u64>,
}

impl Answered {
    /// The last numbers may be left out of what is expected.
    pub fn fits(&self, found: &Answered) -> bool {
        self.word == found.word && found.numbers.starts_with(&self.numbers)
    }
}

impl fmt::Display for Answered {
    fn fmt(&self, out: &mut fmt::Formatter) -> fmt::Result {
        write!(out, "{}", self.word)?;
        self.numbers.iter().try_for_each(|number| write!(out, " {number}"))
    }
}

/// The word of an answer, how many numbers may follow it, and how it is written.
const ANSWERS: [(&str, &[usize], &str); 5] = [
    ("accepted", &[0, 4], "`accepted` alone or with its four counts"),
    ("refused", &[1, 2], "`refused NUMBER PLACE` or `refused NUMBER`"),
    ("ended", &[1, 2], "`ended VALUE STEPS` or `ended VALUE`"),
    ("stopped", &[1, 2], "`stopped NUMBER STEPS` or `stopped NUMBER`"),
    ("running", &[0, 1], "`running STEPS` or `running`"),
];

/// What a line expects, and the line's number.
pub struct Expected<T> {
    pub line: usize,
    pub what: T,
}

/// A run: what it is opened with, and what is expected of it.
#[derive(Default)]
pub struct Case {
    line: usize,
    /// A line has said what to expect, be it understood or not: the next setting is another case's.
    expects: bool,
    form: Option<Vec<u8>>,
    arguments: Option<Vec<u8>>,
    budget: Option<u64>,
    pub answer: Option<Expected<Answered>>,
    pub output: Option<Expected<Vec<u8>>>,
}

impl Case {
    pub fn form(&self) -> &[u8] {
        self.form.as_deref().unwrap_or_default()
    }

    pub fn arguments(&self) -> &[u8] {
        self.arguments.as_deref().unwrap_or_default()
    }

    pub fn budget(&self) -> u64 {
        self.budget.unwrap_or(DEFAULT_BUDGET)
    }
}

/// All that the lines of a text say.
#[derive(Default)]
pub struct Script {
    pub verdict: Option<Expected<Answered>>,
    pub cases: Vec<Case>,
}

/// What is wrong with a line, and its number.
pub type Wrong = (usize, String);

/// Reads a text's lines; gives everything that is wrong with them.
pub fn read(text: &str) -> Result<Script, Vec<Wrong>> {
    let mut script = Script::default();
    let mut wrong = Vec::new();
    for (at, line) in (1..).zip(text.lines()) {
        if let Some(said) = line.trim_start().strip_prefix(MARK) {
            wrong.extend(script.add(at, said.trim()).err().map(|message| (at, message)));
        }
    }
    if wrong.is_empty() {
        wrong.extend(script.idle());
    }
    if wrong.is_empty() {
        Ok(script)
    } else {
        Err(wrong)
    }
}

/// Fills a place that is filled once.
fn once<T>(place: &mut Option<T>, value: T, word: &str) -> Result<(), String> {
    match place.replace(value) {
        None => Ok(()),
        Some(_) => Err(format!(
            "expected one {word} line for a case, found a second; a form, arguments or budget \
             line begins the next case"
        )),
    }
}

impl Script {
    fn add(&mut self, line: usize, said: &str) -> Result<(), String> {
        let (word, rest) = said.split_once(char::is_whitespace).unwrap_or((said, ""));
        match word {
            "form" => once(&mut self.setting(line).form, bytes(rest)?, word),
            "arguments" => once(&mut self.setting(line).arguments, arguments(rest.trim())?, word),
            "budget" => once(&mut self.setting(line).budget, steps(rest.trim())?, word),
            "output" => {
                let case = self.expecting(line);
                once(&mut case.output, Expected { line, what: bytes(rest)? }, word)
            }
            _ => match answered(word, rest) {
                Ok(what) => self.answer(line, what),
                Err(message) => {
                    self.expecting(line);
                    Err(message)
                }
            },
        }
    }

    /// The case that a setting belongs to: the next one where the last has what it expects.
    fn setting(&mut self, line: usize) -> &mut Case {
        if self.cases.last().is_some_and(|case| case.expects) {
            self.cases.push(Case { line, ..Case::default() });
        }
        self.case(line)
    }

    fn case(&mut self, line: usize) -> &mut Case {
        if self.cases.is_empty() {
            self.cases.push(Case { line, ..Case::default() });
        }
        self.cases.last_mut().expect("a case")
    }

    fn expecting(&mut self, line: usize) -> &mut Case {
        let case = self.case(line);
        case.expects = true;
        case
    }

    /// The verdict is the file's, other answers are a run's.
    fn answer(&mut self, line: usize, what: Answered) -> Result<(), String> {
        let expected = Expected { line, what };
        match (expected.what.word, expected.what.numbers.first()) {
            ("accepted", _) | ("refused", Some(1..=LAST_MODULE_REFUSAL)) => {
                match self.verdict.replace(expected) {
                    None => Ok(()),
                    Some(_) => Err("expected one verdict for a text, found a second".to_string()),
                }
            }
            _ => once(&mut self.expecting(line).answer, expected, "answer"),
        }
    }

    /// What cannot fail is no test: a text without lines, a case that expects nothing.
    fn idle(&self) -> Option<Wrong> {
        match self.cases.last() {
            None if self.verdict.is_none() => {
                Some((1, format!("expected lines `{MARK}` that say what to expect, found none")))
            }
            Some(case) if !case.expects => {
                let expected = "expected what the run gives behind the settings, found nothing";
                Some((case.line, expected.to_string()))
            }
            _ => None,
        }
    }
}

fn answered(word: &str, rest: &str) -> Result<Answered, String> {
    let Some((word, counts, written)) = ANSWERS.into_iter().find(|(answer, ..)| *answer == word)
    else {
        return Err(format!("expected {WORDS}, found `{word}`"));
    };
    let numbers: Result<Vec<u64>, _> =
        rest.split_whitespace().map(|digits| number(word, digits)).collect();
    let numbers = numbers.ok().filter(|numbers| counts.contains(&numbers.len()));
    let Some(numbers) = numbers else {
        return Err(format!("expected {written}, found `{}`", format!("{word} {rest}").trim_end()));
    };
    let known = match word {
        "refused" => 1..=CALL_REFUSAL,
        "stopped" => u64::from(FIRST_STOP)..=u64::from(LAST_STOP),
        _ => 0..=u64::MAX,
    };
    if numbers.first().is_some_and(|number| !known.contains(number)) {
        let (first, last) = (known.start(), known.end());
        return Err(format!("expected a number from {first} to {last}, found {}", numbers[0]));
    }
    Ok(Answered { word, numbers })
}

fn arguments(rest: &str) -> Result<Vec<u8>, String> {
    let bytes = argument_bytes(rest);
    bytes.map_err(|_| format!("expected numbers of 4 bytes with commas between, found `{rest}`"))
}

fn steps(rest: &str) -> Result<u64, String> {
    number("budget", rest).map_err(|_| format!("expected a number of steps, found `{rest}`"))
}

const NO_QUOTE: &str = "expected a quotation mark at a text's end, found none";

/// Bytes: numbers, characters as in 'a' and texts as in "abc", with or without blanks between them.
fn bytes(text: &str) -> Result<Vec<u8>, String> {
    let mut bytes = Vec::new();
    let mut rest = text.trim_start();
    while !rest.is_empty() {
        let length = match rest.as_bytes() {
            [b'\'', byte @ b' '..=b'~', b'\'', ..] => {
                bytes.push(*byte);
                3
            }
            [b'"', ..] => {
                let end = rest[1..].find('"').ok_or(NO_QUOTE)?;
                bytes.extend(rest[1..=end].bytes());
                end + 2
            }
            [b'0'..=b'9', ..] => {
                let end = rest.find(|next: char| !next.is_ascii_alphanumeric() && next != '_');
                let digits = &rest[..end.unwrap_or(rest.len())];
                let byte = number("byte", digits);
                let byte = byte.map_err(|_| format!("expected a byte, 0 to 255, found `{digits}`"));
                bytes.push(byte?);
                digits.len()
            }
            _ => {
                let kinds = "a number, a character as in 'a' or a text as in \"abc\"";
                return Err(format!("expected {kinds}, found `{rest}`"));
            }
        };
        rest = rest[length..].trim_start();
    }
    Ok(bytes)
}
