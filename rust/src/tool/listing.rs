//! `rcm list`: runs a module from its opening and prints its list, marked where it is partial.

use super::explain::stop_title;
use super::files::distinct;
use super::going::{argument_bytes, refused, Going, Went, ARGUMENTS, BUDGET, DEFAULT_BUDGET};
use super::json::Json;
use super::numbers;
use super::words::Choice;
use super::{counted, print, Command, Outcome, Session, Words};
use crate::host::{self, Answer};

pub const LIST: Command = Command {
    name: "list",
    takes: "MODULE FORM [--text | --csv | --json]",
    options: &[
        Choice::flag("--text", "the list as characters, on one line"),
        Choice::flag("--csv", "the list as a table of places, from 1 on, and values"),
        Choice::flag("--json", "answer and list as one JSON object"),
        BUDGET,
        ARGUMENTS,
    ],
    does: "runs a module and prints its list, one number a line, marked where it is partial",
    run: list,
};

/// How a list is printed.
#[derive(Clone, Copy)]
enum Shape {
    Decimal,
    Text,
    Csv,
    Json,
}

const SHAPES: [(&str, Shape); 3] =
    [("--text", Shape::Text), ("--csv", Shape::Csv), ("--json", Shape::Json)];

fn shape(words: &Words) -> Result<Shape, String> {
    let asked: Vec<_> = SHAPES.into_iter().filter(|(option, _)| words.flag(option)).collect();
    match asked[..] {
        [] => Ok(Shape::Decimal),
        [(_, shape)] => Ok(shape),
        [(first, _), (second, _), ..] => Err(format!(
            "list: expected one of --text, --csv and --json, found {first} and {second}"
        )),
    }
}

fn list(words: &Words, session: &mut Session) -> Outcome {
    let [module_name, form_name] = words.exactly(["MODULE", "FORM"])?;
    let shape = shape(words)?;
    let arguments = argument_bytes(words.option("--arguments").unwrap_or_default())?;
    let budget = words.number("--budget")?.unwrap_or(DEFAULT_BUDGET);
    distinct(&[("module", module_name), ("form", form_name)], &[])?;
    let mut going = Going::read(module_name, form_name)?;
    let opened = going.open(&arguments, session.machine()?);
    if opened[0] == host::REFUSED {
        return refused_and_next(&going, module_name, opened, words, session);
    }
    let went = going.go_in_slices(budget, session)?;
    if went.answer[0] == host::REFUSED {
        return refused_and_next(&going, module_name, went.answer, words, session);
    }
    print(session.out, &text(&went, going.written(), shape))?;
    if let Some(mark) = mark(&went) {
        session.say(&format!("the list is partial, do not use it: {mark}"));
        session.say(&next(went.answer));
    }
    Ok(went.status())
}

fn refused_and_next(
    going: &Going,
    name: &str,
    answer: Answer,
    words: &Words,
    session: &mut Session,
) -> Outcome {
    let status = refused(going, [name, name], answer, words.flag("--json"), session)?;
    session.say(&next(answer));
    Ok(status)
}

/// What to do next where a list is partial or there is none.
fn next(answer: Answer) -> String {
    let number = match answer {
        [host::REFUSED, number, ..] => numbers::refusal(number),
        [host::STOPPED, number, ..] => numbers::stop(number),
        _ => None,
    };
    let more = "Allow more steps with --budget, or go on from a saved state (rcm run --state).";
    format!("what to do next: {}", number.map_or(more, |number| number.advice))
}

/// Why a list is partial, if it is.
fn mark(went: &Went) -> Option<String> {
    let [kind, number, steps, _] = went.answer;
    match kind {
        host::ENDED => None,
        host::STOPPED => Some(format!("stopped {number} ({})", stop_title(number))),
        _ => Some(format!("running after {}", counted(steps, "step"))),
    }
}

fn text(went: &Went, list: &[u8], shape: Shape) -> String {
    let mark = mark(went).map(|mark| format!("partial: {mark}\n")).unwrap_or_default();
    match shape {
        Shape::Decimal => {
            let lines = list.iter().map(|value| format!("{value}\n"));
            mark + &lines.collect::<String>()
        }
        Shape::Text => format!("{mark}{}\n", escaped(list)),
        Shape::Csv => {
            let comment = if mark.is_empty() { "" } else { "# " };
            let lines = (1..).zip(list).map(|(place, value)| format!("{place},{value}\n"));
            format!("{comment}{mark}place,value\n{}", lines.collect::<String>())
        }
        Shape::Json => format!("{}\n", json(went, list)),
    }
}

/// Printable characters as they are, a backslash doubled, other bytes as `\xNN`.
fn escaped(bytes: &[u8]) -> String {
    let letters = bytes.iter().map(|&byte| match byte {
        b'\\' => "\\\\".to_string(),
        b' '..=b'~' => char::from(byte).to_string(),
        _ => format!("\\x{byte:02x}"),
    });
    letters.collect()
}

fn json(went: &Went, list: &[u8]) -> Json {
    let [kind, value, steps, _] = went.answer;
    let mut members = match kind {
        host::ENDED => vec![("answer", Json::text("ended")), ("value", Json::Number(value))],
        host::STOPPED => vec![
            ("answer", Json::text("stopped")),
            ("number", Json::Number(value)),
            ("meaning", Json::text(stop_title(value))),
        ],
        _ => vec![("answer", Json::text("running"))],
    };
    members.extend([
        ("steps", Json::Number(steps)),
        ("interrupted", Json::Bool(went.interrupted.is_some())),
        ("partial", Json::Bool(went.partial())),
        ("list", Json::bytes(list)),
    ]);
    Json::Object(members)
}
