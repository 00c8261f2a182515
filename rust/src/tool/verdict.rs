//! `rcm check`: the verdict on a module, and the rule of a refusal in plain words.

use super::explain::Refused;
use super::files::{read, MODULE_MAX};
use super::json::Json;
use super::maps::usable_map;
use super::words::Choice;
use super::{counted, print, Command, Outcome, Session, Words, DONE, REFUSED};
use crate::host::{self, Answer, FUNCTIONS_UNIT};

pub const CHECK: Command = Command {
    name: "check",
    takes: "MODULE",
    options: &[Choice::flag("--json", "prints the verdict as JSON")],
    does: "the verdict, a refusal in plain words",
    run: check,
};

fn check(words: &Words, session: &mut Session) -> Outcome {
    let [name] = words.exactly(["MODULE"])?;
    let file = read(name, MODULE_MAX)?;
    let answer = session.machine()?.check(&file);
    if answer[0] == host::REFUSED {
        let map = usable_map(name, &file, session);
        let refused = Refused::new(&file, map.as_ref(), answer);
        let text = match words.flag("--json") {
            true => format!("{}\n", refused.json()),
            false => refused.text(),
        };
        print(session.out, &text)?;
        return Ok(REFUSED);
    }
    print(session.out, &accepted(answer, words.flag("--json")))?;
    Ok(DONE)
}

fn accepted(answer: Answer, json: bool) -> String {
    let [_, terms, names, rest] = answer;
    let (functions, instructions) = (rest / FUNCTIONS_UNIT, rest % FUNCTIONS_UNIT);
    let counts = [
        (terms, "type", "types"),
        (names, "struct", "structs"),
        (functions, "function", "functions"),
        (instructions, "instruction", "instructions"),
    ];
    if json {
        let counts = counts.map(|(count, _, name)| (name, Json::Number(count)));
        let answer = ("answer", Json::text("accepted"));
        return format!("{}\n", Json::Object([answer].into_iter().chain(counts).collect()));
    }
    let words = counts.map(|(count, name, _)| counted(count, name)).join(", ");
    format!("accepted {terms} {names} {functions} {instructions}\n{words}\n")
}
