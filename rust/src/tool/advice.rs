//! `rcm explain`: an answer, a refusal or a stop in plain words, and what to do next.

use super::numbers::{self, Kind, Number};
use super::words::number;
use super::{print, Command, Outcome, Session, Words};

pub const EXPLAIN: Command = Command {
    name: "explain",
    takes: "[NUMBER | ANSWER]",
    options: &[],
    does: "a refusal, a stop or an answer in plain words, and what to do next; alone it lists them",
    run: explain,
};

/// The page that says more.
const PAGE: &str = "docs/COORDINATOR.md";

/// An answer's word, what it asks of whoever reads it, and the section that says more.
const ANSWERS: [(&str, &str, &str); 5] = [
    (
        "accepted",
        "The module file keeps to every rule and can be run. Nothing has run yet.",
        "Check a module",
    ),
    (
        "refused",
        "What was handed over is bad: nothing has run and nothing has changed. The number says \
         whom to ask.",
        "When something is refused",
    ),
    (
        "ended",
        "The module is done and its list is whole. To run it again, start it anew.",
        "Run it and read the list",
    ),
    (
        "stopped",
        "The module met something that it cannot go on from, and its list is partial: do not use \
         it. The number says what to do.",
        "When a run stops",
    ),
    (
        "running",
        "The steps are used up before the module is done, and its list is partial so far: do not \
         use it yet. Allow more steps, or go on from a saved state.",
        "When a list is partial",
    ),
];

fn explain(words: &Words, session: &mut Session) -> Outcome {
    let asked = words.any();
    if asked.is_empty() {
        return print(session.out, &listed());
    }
    match explained(asked) {
        Some(text) => print(session.out, &text),
        None => {
            let asked = asked.join(" ");
            Err(format!("there is no refusal, stop or answer `{asked}`\n{}", listed()))
        }
    }
}

/// A number, or an answer as it was printed: its word, its number if it has one, and what follows.
fn explained(asked: &[&str]) -> Option<String> {
    let number = |word: &str| number("explain", word).ok();
    let found = match asked {
        ["refused", word, ..] => numbers::refusal(number(word)?),
        ["stopped", word, ..] => numbers::stop(number(word)?),
        [word] if number(word).is_some() => {
            number(word).and_then(|one| numbers::refusal(one).or_else(|| numbers::stop(one)))
        }
        [word, ..] => return answer_text(word),
        [] => None,
    };
    found.as_ref().map(number_text)
}

fn answer_text(word: &str) -> Option<String> {
    let (answer, text, section) = ANSWERS.iter().find(|(answer, ..)| *answer == word)?;
    Some(format!("{answer}\n{text}\n{}", more(section)))
}

fn number_text(number: &Number) -> String {
    let section = match number.kind {
        Kind::Refusal => "When something is refused",
        Kind::Stop => "When a run stops",
    };
    let Number { kind, number, meaning, advice } = number;
    format!("{} {number}: {meaning}\n{advice}\n{}", kind.word(), more(section))
}

fn more(section: &str) -> String {
    format!("more: {PAGE}, \"{section}\"\n")
}

/// Every answer and every number, one a line.
fn listed() -> String {
    let answers = ANSWERS.iter().map(|(answer, text, _)| format!("{answer:10}  {text}\n"));
    let numbers = numbers::all().map(|Number { kind, number, meaning, .. }| {
        format!("{:10}  {meaning}\n", format!("{} {number}", kind.word()))
    });
    answers.chain(numbers).collect()
}
