//! `rcm run`: opens a module or goes on from a saved state, shows the answer, writes output and
//! state. Nothing is written where a call is refused; what an interrupted run has reached is saved.

use super::explain::Refused;
use super::files::{read, FORM_MAX, MODULE_MAX, STANDARD};
use super::json::Json;
use super::kept::Kept;
use super::maps::usable_map;
use super::stops::Stopped;
use super::trace::{traced, TRACE_MAX};
use super::words::{number, Choice};
use super::{counted, explain, print, Command, Outcome, Session, Words};
use super::{DONE, REFUSED, RUNNING, STOPPED};
use crate::compare::Interface;
use crate::host::{self, Answer};
use crate::module::{decode, Module};
use crate::state::{self, State, OUTPUT_BYTES, STATE_BYTES};
use crate::text::Names;

/// As document 01's program.
pub const DEFAULT_BUDGET: u64 = 1_000_000;
/// Steps of a call: between two of them a signal is seen and progress is shown.
const SLICE: u64 = 20_000_000;
/// Bytes of the output that are shown where it is not written to a file.
const SHOWN: usize = 64;

pub const BUDGET: Choice = Choice::valued("--budget", "N", "at most N steps, by default 1,000,000");
pub const ARGUMENTS: Choice = Choice::valued("--arguments", "N,N,..", "function 0's arguments");

pub const RUN: Command = Command {
    name: "run",
    takes: "MODULE FORM",
    options: &[
        BUDGET,
        ARGUMENTS,
        Choice::valued(
            "--state",
            "FILE",
            "goes on from the state in FILE if it is there, and saves the state to it",
        ),
        Choice::valued(
            "--output",
            "FILE",
            "writes the output to FILE; without it the new bytes are shown",
        ),
        Choice::valued("--trace", "N", "prints the last N steps"),
        Choice::flag("--json", "prints the answer as JSON"),
    ],
    does: "opens and runs, or goes on from the state in FILE if it is there",
    run,
};

/// What a run is lent and keeps.
pub struct Going {
    pub file: Vec<u8>,
    pub form: Vec<u8>,
    pub state: Vec<u8>,
    pub output: Vec<u8>,
}

/// How a run went: the last call's answer with the steps of all of them, and the exit status of the
/// signal that ended it early.
pub struct Went {
    pub answer: Answer,
    pub interrupted: Option<u8>,
}

impl Went {
    /// The module has not ended, so that its output is not whole.
    pub fn partial(&self) -> bool {
        self.answer[0] != host::ENDED
    }

    pub fn status(&self) -> u8 {
        match (self.interrupted, self.answer[0]) {
            (Some(status), _) => status,
            (None, host::ENDED) => DONE,
            (None, host::STOPPED) => STOPPED,
            (None, _) => RUNNING,
        }
    }
}

impl Going {
    /// A module and a form, not yet opened.
    pub fn read(module_name: &str, form_name: &str) -> Result<Going, String> {
        Ok(Going {
            file: read(module_name, MODULE_MAX)?,
            form: read(form_name, FORM_MAX)?,
            state: vec![0; STATE_BYTES],
            output: vec![0; OUTPUT_BYTES],
        })
    }

    pub fn open(&mut self, arguments: &[u8], machine: &mut dyn Interface) -> Answer {
        machine.open(&self.file, arguments, &mut self.state)
    }

    pub fn go(&mut self, machine: &mut dyn Interface, budget: u64) -> Answer {
        machine.go(&self.file, &self.form, &mut self.state, &mut self.output, budget)
    }

    /// Goes on in calls of a slice each, which gives the same answer as one call. A signal ends it
    /// between two of them. Shows its progress where standard error is a terminal.
    pub fn go_in_slices(&mut self, budget: u64, session: &mut Session) -> Result<Went, String> {
        let mut steps = 0;
        // From here on a signal waits for the end of its slice.
        let mut interrupted = (session.interrupted)();
        loop {
            let slice = SLICE.min(budget - steps);
            let mut answer = self.go(session.machine()?, slice);
            steps += answer[2];
            let more = answer[0] == host::STILL_RUNNING && steps < budget;
            interrupted = interrupted.or_else(session.interrupted).filter(|_| more);
            if more && interrupted.is_none() {
                if session.terminal {
                    let _ = write!(session.error, "\r{steps} steps");
                }
                continue;
            }
            if session.terminal && steps > SLICE {
                let _ = write!(session.error, "\r{:24}\r", "");
            }
            if answer[0] != host::REFUSED {
                answer[2] = steps;
            }
            return Ok(Went { answer, interrupted });
        }
    }

    /// How many bytes the module has written, if the state has its length.
    fn count(&self) -> usize {
        match self.state[..] {
            [_, _, low, high, ..] => usize::from(u16::from_le_bytes([low, high])).min(OUTPUT_BYTES),
            _ => 0,
        }
    }

    /// The bytes that the module has written.
    pub fn written(&self) -> &[u8] {
        &self.output[..self.count()]
    }
}

/// Numbers with commas, each 4 bytes; below zero they are in two's complement.
pub fn argument_bytes(word: &str) -> Result<Vec<u8>, String> {
    let mut bytes = Vec::new();
    if word.is_empty() {
        return Ok(bytes);
    }
    for part in word.split(',') {
        let value: i64 = number("--arguments", part)?;
        let word = u32::try_from(value).or_else(|_| i32::try_from(value).map(i32::cast_unsigned));
        let word = word.map_err(|_| format!("--arguments: {part} does not fit 4 bytes"))?;
        bytes.extend(word.to_le_bytes());
    }
    Ok(bytes)
}

/// Arguments as one text, however they were written.
fn argument_text(bytes: &[u8]) -> String {
    let words = bytes.chunks_exact(4);
    let words = words.map(|word| u32::from_le_bytes(word.try_into().expect("four bytes")));
    words.map(|word| word.to_string()).collect::<Vec<_>>().join(",")
}

fn run(words: &Words, session: &mut Session) -> Outcome {
    let kept = Kept::new(words)?;
    let budget = words.number("--budget")?.unwrap_or(DEFAULT_BUDGET);
    let trace = words.number("--trace")?.unwrap_or(0);
    if trace > TRACE_MAX {
        return Err(format!("--trace wants at most {TRACE_MAX} steps"));
    }
    let json = words.flag("--json");
    let arguments = words.option("--arguments").map(argument_bytes).transpose()?;
    let mut going = Going::read(kept.module, kept.form)?;
    let start = match kept.saved() {
        Some(name) => {
            kept.restore(name, arguments.as_deref().map(argument_text), &mut going, session)?
        }
        None => {
            let arguments = arguments.unwrap_or_default();
            let answer = going.open(&arguments, session.machine()?);
            if answer[0] == host::REFUSED {
                return refused(&going, [kept.module, kept.module], answer, json, session);
            }
            kept.opened(argument_text(&arguments))?
        }
    };
    let before = going.state.clone();
    // Bytes that an earlier run has written are not here without its output.
    let known_from = if kept.output_file().is_some() { 0 } else { going.count() };
    let mut went = going.go_in_slices(budget, session)?;
    if went.answer[0] == host::REFUSED {
        if State::from_bytes(&going.state).is_ok_and(|state| state.status == state::ENDED) {
            kept.over();
        }
        let state = kept.saved().unwrap_or(kept.module);
        return refused(&going, [kept.module, state], went.answer, json, session);
    }
    let module = decode(&going.file).map_err(|_| "the module does not decode".to_string())?;
    let traces = trace > 0 && went.interrupted.is_none();
    let named = traces || went.answer[0] == host::STOPPED;
    let map = named.then(|| usable_map(kept.module, &going.file, session)).flatten();
    let names = Names::of(map.as_ref());
    let stopped = stopped(&module, names, &going, went.answer);
    let answer = answer_text(stopped.as_ref(), went.answer);
    let output = &going.written()[known_from..];
    kept.save(&going, output, &went, start, session)
        .map_err(|error| format!("{error}\nwhat could not be saved: {}", answer.trim_end()))?;
    let steps = match traces {
        true => traced(&module, names, &going, before, went.answer[2], trace, session)?,
        false => String::new(),
    };
    // All is saved; only the trace has ended early.
    let cut = traces && (session.interrupted)().is_some();
    if cut {
        went.interrupted = (session.interrupted)();
    }
    let text = match json {
        true => format!("{}\n", answer_json(stopped.as_ref(), output, &went, &steps)),
        false => steps + &answer + &output_text(&kept, output, &went),
    };
    // On standard error where the output's bytes go to standard output.
    match kept.output {
        Some(STANDARD) => print(session.error, &text)?,
        _ => print(session.out, &text)?,
    };
    if cut {
        session.say("interrupted: the trace is not whole");
    } else if went.interrupted.is_some() {
        session.say(&interrupted_text(&kept, &went));
    }
    Ok(went.status())
}

fn interrupted_text(kept: &Kept, went: &Went) -> String {
    let steps = counted(went.answer[2], "step");
    match kept.state {
        Some(name) => format!("interrupted after {steps}: saved in {name}; the same words go on"),
        None => format!("interrupted after {steps}: without --state they are lost"),
    }
}

/// Why a module has stopped, if it has.
pub fn stopped<'m>(
    module: &Module,
    names: Names<'m>,
    going: &Going,
    answer: Answer,
) -> Option<Stopped<'m>> {
    let [host::STOPPED, number, ..] = answer else { return None };
    let state = State::from_bytes(&going.state).ok()?;
    Some(Stopped::new(module, names, &state, going.form.len(), number))
}

fn answer_text(stopped: Option<&Stopped>, answer: Answer) -> String {
    let [kind, value, steps, _] = answer;
    match kind {
        host::ENDED => format!("ended {value} {steps}\n"),
        host::STOPPED => {
            let why = stopped.map(Stopped::text);
            format!("stopped {value} {steps}\n{}", why.unwrap_or_default())
        }
        _ => format!("running {steps}\n"),
    }
}

/// The answer with the output as far as it is known, whole or not.
fn answer_json(stopped: Option<&Stopped>, output: &[u8], went: &Went, steps: &str) -> Json {
    let [kind, value, count, _] = went.answer;
    let mut members = match kind {
        host::ENDED => vec![("answer", Json::text("ended")), ("value", Json::Number(value))],
        host::STOPPED => vec![("answer", Json::text("stopped")), ("number", Json::Number(value))],
        _ => vec![("answer", Json::text("running"))],
    };
    members.extend(stopped.map(Stopped::members).unwrap_or_default());
    members.push(("steps", Json::Number(count)));
    members.push(("interrupted", Json::Bool(went.interrupted.is_some())));
    members.push(("partial", Json::Bool(went.partial())));
    members.push(("output", Json::bytes(output)));
    if !steps.is_empty() {
        members.push(("trace", Json::list(steps.lines(), Json::text)));
    }
    Json::Object(members)
}

/// The bytes of the output where they are not written to a file, and whether they are whole.
fn output_text(kept: &Kept, bytes: &[u8], went: &Went) -> String {
    let partial = if went.partial() { "partial output" } else { "output" };
    let count = counted(bytes.len() as u64, "byte");
    if let Some(name) = kept.output {
        let name = if name == STANDARD { "standard output" } else { name };
        return match went.partial() {
            true => format!("{partial}, {count}: in {name}\n"),
            false => String::new(),
        };
    }
    if bytes.is_empty() {
        return String::new();
    }
    let hex: Vec<String> = bytes.iter().take(SHOWN).map(|byte| format!("{byte:02x}")).collect();
    let more = if bytes.len() > SHOWN { " .." } else { "" };
    format!("{partial}, {count}: {}{more}\n", hex.join(" "))
}

/// Says the refusal of a call, of the module or of the state by these names; as JSON too if asked for.
/// A module's own refusal is explained as `check` does.
pub fn refused(
    going: &Going,
    [module, state]: [&str; 2],
    answer: Answer,
    json: bool,
    session: &mut Session,
) -> Outcome {
    let [_, number, place, _] = answer;
    let map = match number {
        1..=8 => usable_map(module, &going.file, session),
        _ => None,
    };
    let refusal = Refused::new(&going.file, map.as_ref(), answer);
    let message = match number {
        1..=8 => format!("{module}: {}{}", refusal.text(), exchanged(going)),
        9 if going.form.len() > FORM_MAX => {
            format!("refused 9 0: the form has over {FORM_MAX} bytes, at most {FORM_MAX} are taken")
        }
        9 => format!("{module}: refused 9 0: {}", wanted_arguments(&going.file)),
        20 => format!("{state}: {}", explain::state_length(&going.state)),
        21 => format!("{state}: refused 21 0: this is no sound state of the module"),
        22 => format!("{state}: refused 22 0: {}", over(&going.state)),
        _ => format!("{state}: refused {number} {place}"),
    };
    session.say(&message);
    if json {
        print(session.out, &format!("{}\n", refusal.json()))?;
    }
    Ok(REFUSED)
}

/// Whether module and form are likely to stand in each other's place.
fn exchanged(going: &Going) -> &'static str {
    match decode(&going.form) {
        Ok(_) => "the second file is a module: MODULE stands before FORM\n",
        Err(_) => "",
    }
}

/// How a state is over, and what that means for its list.
fn over(state: &[u8]) -> String {
    match State::from_bytes(state).map(|state| state.status) {
        Ok(state::ENDED) => "this state has ended already: its list is whole".to_string(),
        Ok(number) => format!("this state has stopped already ({number}): its list is partial"),
        Err(_) => "this state has ended or stopped already".to_string(),
    }
}

fn wanted_arguments(file: &[u8]) -> String {
    match decode(file).map(|module| module.functions[0].parameters) {
        Ok(0) => "function 0 takes no arguments".to_string(),
        Ok(1) => "function 0 takes 1 argument: --arguments N".to_string(),
        Ok(count) => format!("function 0 takes {count} arguments: --arguments N,N,.."),
        Err(_) => "the arguments do not fit".to_string(),
    }
}
