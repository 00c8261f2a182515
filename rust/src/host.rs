//! The host's functions over byte slices, in the shapes of the C interface: an answer is four
//! numbers. The first is 0 refused, 1 accepted, opened, passed or found, 2 ended, 3 stopped,
//! 4 running.

use crate::checker;
use crate::file::Refusal;
use crate::machine::{Machine, Outcome, Run};
use crate::module::Module;
use crate::state::{State, FORM_BYTES, MEMORY_AT, OUTPUT_BYTES, RUNNING, STATE_BYTES};
use crate::state_test::{object_at, passes};

pub type Answer = [u64; 4];

pub const REFUSED: u64 = 0;
pub const GOOD: u64 = 1;
pub const ENDED: u64 = 2;
pub const STOPPED: u64 = 3;
pub const STILL_RUNNING: u64 = 4;

const ARGUMENT_BYTES: usize = 4;
/// Functions and instructions share one number of the answer.
pub const FUNCTIONS_UNIT: u64 = 65_536;

fn answer(result: Result<Answer, Refusal>) -> Answer {
    result.unwrap_or_else(|refusal| {
        let Refusal { number, place, .. } = refusal;
        [REFUSED, u64::from(number), place as u64, 0]
    })
}

fn require(condition: bool, number: u8) -> Result<(), Refusal> {
    condition.then_some(()).ok_or(Refusal::at(number, 0))
}

/// The verdict on a file alone.
pub fn check(file: &[u8]) -> Answer {
    answer(checker::check(file).map(|module| {
        let functions = module.functions.len() as u64 * FUNCTIONS_UNIT;
        let instructions = module.instructions() as u64;
        [GOOD, module.terms.len() as u64, module.names.len() as u64, functions + instructions]
    }))
}

/// Writes the opened module's state; refusals 1 to 8, 9, 20.
pub fn open(file: &[u8], arguments: &[u8], state: &mut [u8]) -> Answer {
    answer(opened(file, arguments, state.len()).map(|opened| {
        opened.write(state);
        [GOOD, 0, 0, 0]
    }))
}

fn opened(file: &[u8], arguments: &[u8], state_len: usize) -> Result<State, Refusal> {
    let module = checker::check(file)?;
    require(arguments.len() == ARGUMENT_BYTES * module.functions[0].parameters, 9)?;
    require(state_len == STATE_BYTES, 20)?;
    let words = arguments.chunks_exact(ARGUMENT_BYTES);
    let words: Vec<u32> =
        words.map(|word| u32::from_le_bytes(word.try_into().expect("four bytes"))).collect();
    Ok(Machine::new(&module).open(&words))
}

/// Goes on for at most `budget` steps; refusals 1 to 8, 9, 20, 21, 22.
pub fn go(file: &[u8], form: &[u8], state: &mut [u8], output: &mut [u8], budget: u64) -> Answer {
    answer(go_counting(file, form, state, output, budget).map(|run| match run.outcome {
        Outcome::Ended(value) => [ENDED, u64::from(value), run.steps, 0],
        Outcome::Stopped(number) => [STOPPED, u64::from(number), run.steps, 0],
        Outcome::Running => [STILL_RUNNING, 0, run.steps, 0],
    }))
}

/// As `go`, with the pages granted and handed back.
pub fn go_counting(
    file: &[u8],
    form: &[u8],
    state: &mut [u8],
    output: &mut [u8],
    budget: u64,
) -> Result<Run, Refusal> {
    let module = checker::check(file)?;
    require(form.len() <= FORM_BYTES, 9)?;
    require(state.len() == STATE_BYTES && output.len() == OUTPUT_BYTES, 20)?;
    let mut view = tested(&module, state)?;
    require(view.status == RUNNING, 22)?;
    let run = Machine::new(&module).go(&mut view, form, output, budget);
    view.write(state);
    Ok(run)
}

/// The state that these bytes hold if it passes the state test for the module.
fn tested(module: &Module, state: &[u8]) -> Result<State, Refusal> {
    let view = State::from_bytes(state).map_err(|_| Refusal::at(21, 0))?;
    require(passes(module, &view), 21)?;
    Ok(view)
}

fn accepted_and_tested(file: &[u8], state: &[u8]) -> Result<(Module, State), Refusal> {
    let module = checker::check(file)?;
    require(state.len() == STATE_BYTES, 20)?;
    let view = tested(&module, state)?;
    Ok((module, view))
}

/// The state test; refusals 1 to 8, 20, 21.
pub fn test(file: &[u8], state: &[u8]) -> Answer {
    answer(accepted_and_tested(file, state).map(|_| [GOOD, 0, 0, 0]))
}

/// The reader of states: offset in the state and size of the whole object at an address; all
/// zero where there is none, also when module or state is refused.
pub fn object(file: &[u8], state: &[u8], address: u32) -> Answer {
    let Ok((module, view)) = accepted_and_tested(file, state) else {
        return [0; 4];
    };
    match object_at(&module, &view, address) {
        None => [0; 4],
        Some(place) => {
            let size = u64::from(place.end - place.start);
            [GOOD, MEMORY_AT as u64 + u64::from(place.start), size, 0]
        }
    }
}
