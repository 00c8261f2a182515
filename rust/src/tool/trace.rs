//! The last steps of a run in the text form (`rcm run --trace`) with the values that each reads and
//! sets, found by running it again up to them.

use super::going::Going;
use super::standing::Standing;
use super::Session;
use crate::module::{Module, KIND_CALL};
use crate::state::{State, ENDED, FIRST_STOP, OUTPUT_BYTES};
use crate::text::{Listing, Names};

/// The most steps that are shown: each is a call of its own.
pub const TRACE_MAX: u64 = 100_000;

/// The least width of the columns for places and instructions.
const PLACE: usize = 8;
const INSTRUCTION: usize = 28;

/// The last so many of a run's steps; `before` is the state that the run started from.
pub fn traced(
    module: &Module,
    names: Names,
    going: &Going,
    before: Vec<u8>,
    steps: u64,
    last: u64,
    session: &mut Session,
) -> Result<String, String> {
    let mut again = Going {
        file: going.file.clone(),
        form: going.form.clone(),
        state: before,
        output: vec![0; OUTPUT_BYTES],
    };
    let from = steps.saturating_sub(last);
    if from > 0 {
        again.go_in_slices(from, session)?;
    }
    let listing = Listing::new(module, names);
    let mut rows = Vec::new();
    for step in from..steps {
        let Ok(view) = State::from_bytes(&again.state) else { break };
        if (session.interrupted)().is_some() {
            break;
        }
        again.go(session.machine()?, 1);
        let after = State::from_bytes(&again.state).ok();
        rows.extend(after.and_then(|after| row(&listing, step + 1, &view, &after)));
    }
    Ok(table(&rows))
}

/// One step: its number, its place, its instruction, indented by the frame's depth, and the values.
struct Row {
    step: u64,
    place: String,
    instruction: String,
    values: String,
}

fn table(rows: &[Row]) -> String {
    let widest = |least: usize, text: fn(&Row) -> &str| {
        rows.iter().map(|row| text(row).chars().count()).max().unwrap_or(0).max(least)
    };
    let place_width = widest(PLACE, |row| &row.place);
    let width = widest(INSTRUCTION, |row| &row.instruction);
    let mut text = String::new();
    for Row { step, place, instruction, values } in rows {
        let line = format!("{step:>9}  {place:place_width$} {instruction:width$}  {values}");
        text += line.trim_end();
        text += "\n";
    }
    text
}

fn row(listing: &Listing, step: u64, before: &State, after: &State) -> Option<Row> {
    let at = Standing::top(listing, before)?;
    let place = match at.source() {
        Some(source) => source.short(),
        None => format!("{}:{}", at.function_name(), at.frame.instruction),
    };
    let indent = before.frames.len() - 1;
    let instruction = format!("{:indent$}{}", "", at.text());
    let read: Vec<String> = reads(&at).into_iter().map(|register| at.register(register)).collect();
    let read = read.join(", ");
    let values = match outcome(&at, before, after) {
        Some(outcome) if read.is_empty() => outcome,
        Some(outcome) => format!("{read} -> {outcome}"),
        None => read,
    };
    Some(Row { step, place, instruction, values })
}

/// The instruction sets its register a. A call's is set by the return.
fn sets(at: &Standing) -> bool {
    matches!(at.instruction.kind, 16..=25 | 27 | 29)
}

/// The registers that an instruction reads, each once, in the order of its operands.
fn reads(at: &Standing) -> Vec<u8> {
    let mut registers = match at.instruction.kind {
        KIND_CALL => {
            let callee = &at.listing.module.functions[usize::from(at.instruction.b)];
            at.instruction.arguments[..callee.parameters].to_vec()
        }
        _ => at.instruction.registers().split_off(usize::from(sets(at))),
    };
    let mut met = Vec::new();
    registers.retain(|register| {
        let new = !met.contains(register);
        met.push(*register);
        new
    });
    registers
}

/// What a step comes to: the register that it sets, whether a branch is taken, where a returned
/// value goes. None where it only reads, or stops.
fn outcome(at: &Standing, before: &State, after: &State) -> Option<String> {
    if after.status >= FIRST_STOP {
        return None;
    }
    let a = at.instruction.a;
    match at.instruction.kind {
        32 if at.value(a) == 0 => Some("not taken".to_string()),
        32 => Some("taken".to_string()),
        34 if after.status == ENDED => Some("ended".to_string()),
        34 => {
            let caller = before.frames.iter().rev().nth(1)?;
            let call = Standing::of(at.listing, caller)?;
            let set = call.register_as(call.instruction.a, at.value(a));
            Some(format!("{set} in {}", call.function_name()))
        }
        _ if !sets(at) => None,
        kind => {
            let now = after.frames.get(before.frames.len() - 1)?;
            let set = at.register_as(a, now.registers[usize::from(a)]);
            // Without a grant only the new object's own bytes can have changed.
            let reused = kind == 27 && after.owners == before.owners;
            let cleared = if reused && after.memory != before.memory { ", cleared" } else { "" };
            Some(set + cleared)
        }
    }
}
