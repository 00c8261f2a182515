//! The comparison itself: it finds no difference with this interpreter, and notices each of
//! several that err in one point.

mod common;

use common::{object_of, object_type, standing};
use reference::compare::{compare, Interface, Reference};
use reference::host::{self, Answer};
use reference::machine::search;
use reference::module::{decode, Instruction, Module};
use reference::state::{State, MEMORY_AT, MEMORY_BYTES, PAGE_BYTES, RUNNING};

/// Errs in one point, else as the reference.
#[derive(Clone, Copy, PartialEq, Debug)]
enum Erring {
    /// A refusal's place is one too high.
    Place,
    /// Opening leaves a byte of the old state.
    Open,
    /// A step too many is reported.
    Steps,
    /// A refused call writes the output.
    Output,
    /// The state test passes every state.
    Test,
    /// The reader gives the part of the object from the address on.
    Object,
    /// Kind 27 leaves the object as it was.
    Keeps,
    /// Kind 27 leaves the first byte, or the last.
    KeepsFirst,
    KeepsLast,
    /// Kind 27 clears also the byte before the object, or the one behind it.
    ClearsBefore,
    ClearsBehind,
    /// The object is cleared when it is freed, too.
    ClearsFreed,
    /// Kind 27 goes on behind the first page with room, and takes a place in the next one.
    NextPage,
}

/// Those that err in what kinds 27 and 28 do to a state.
const OF_KIND_27: [Erring; 7] = [
    Erring::Keeps,
    Erring::KeepsFirst,
    Erring::KeepsLast,
    Erring::ClearsBefore,
    Erring::ClearsBehind,
    Erring::ClearsFreed,
    Erring::NextPage,
];

/// Steps of a call that go one by one; the rest goes at once and as it should.
const SINGLE_STEPS: u64 = 200;

/// The state after a kind 27 that took its object in the region's second page with room, if there is
/// one; by the states before and after the right step.
fn taken_in_the_next_page(
    module: &Module,
    instruction: &Instruction,
    old: &State,
    new: &State,
) -> Option<State> {
    let (size, region) = object_type(module, old, instruction);
    let places = PAGE_BYTES as u32 / size;
    let (first, _) = search(old, region, places).room?;
    let mut without = old.clone();
    without.marks[first] = [u64::MAX; 4];
    let (page, place) = search(&without, region, places).room?;
    let object = page * PAGE_BYTES + (place * size) as usize;
    let mut taken = new.clone();
    taken.marks = old.marks;
    taken.marks[page][place as usize / 64] |= 1 << (place % 64);
    taken.memory = old.memory.clone();
    taken.memory[object..object + size as usize].fill(0);
    taken.frames.last_mut()?.registers[usize::from(instruction.a)] = object as u32;
    Some(taken)
}

impl Erring {
    /// What the wrong machine leaves after one step of the right one.
    fn spoil(self, module: &Module, old: &State, state: &mut [u8]) {
        let (_, _, instruction) = standing(module, old);
        let new = State::from_bytes(state).expect("a state");
        if self == Erring::NextPage && instruction.kind == 27 {
            if let Some(taken) = taken_in_the_next_page(module, instruction, old, &new) {
                state.copy_from_slice(&taken.to_bytes());
            }
            return;
        }
        let memory = &mut state[MEMORY_AT..];
        match instruction.kind {
            // A page that was granted is zero for another reason.
            27 if new.status == RUNNING && new.owners == old.owners => {
                let object = object_of(module, &new, instruction);
                let kept = match self {
                    Erring::Keeps => object,
                    Erring::KeepsFirst => object.start..object.start + 1,
                    Erring::KeepsLast => object.end - 1..object.end,
                    Erring::ClearsBefore => return memory[object.start - 1] = 0,
                    Erring::ClearsBehind if object.end < MEMORY_BYTES => {
                        return memory[object.end] = 0;
                    }
                    _ => return,
                };
                memory[kept.clone()].copy_from_slice(&old.memory[kept]);
            }
            28 if self == Erring::ClearsFreed => {
                memory[object_of(module, old, instruction)].fill(0);
            }
            _ => (),
        }
    }

    fn go_by_steps(
        self,
        file: &[u8],
        form: &[u8],
        state: &mut [u8],
        output: &mut [u8],
        budget: u64,
    ) -> Answer {
        let (Ok(module), Ok(_)) = (decode(file), State::from_bytes(state)) else {
            return Reference.go(file, form, state, output, budget);
        };
        let mut steps = 0;
        while steps < budget.min(SINGLE_STEPS) {
            let old = State::from_bytes(state).expect("a state");
            let mut answer = Reference.go(file, form, state, output, 1);
            if answer[0] == host::REFUSED {
                return answer;
            }
            self.spoil(&module, &old, state);
            steps += 1;
            if answer[0] != host::STILL_RUNNING {
                answer[2] = steps;
                return answer;
            }
        }
        let mut answer = Reference.go(file, form, state, output, budget - steps);
        if answer[0] != host::REFUSED {
            answer[2] += steps;
        }
        answer
    }
}

impl Interface for Erring {
    fn check(&mut self, file: &[u8]) -> Answer {
        let mut answer = Reference.check(file);
        answer[2] += u64::from(*self == Erring::Place && answer[1] == 7);
        answer
    }

    fn open(&mut self, file: &[u8], arguments: &[u8], state: &mut [u8]) -> Answer {
        let old = state[24_000];
        let answer = Reference.open(file, arguments, state);
        if *self == Erring::Open {
            state[24_000] = old;
        }
        answer
    }

    fn go(
        &mut self,
        file: &[u8],
        form: &[u8],
        state: &mut [u8],
        output: &mut [u8],
        budget: u64,
    ) -> Answer {
        if OF_KIND_27.contains(self) {
            return self.go_by_steps(file, form, state, output, budget);
        }
        let mut answer = Reference.go(file, form, state, output, budget);
        answer[2] += u64::from(*self == Erring::Steps && answer[..2] == [host::STOPPED, 33]);
        if *self == Erring::Output && answer[..2] == [host::REFUSED, 22] {
            output[4095] = 1;
        }
        answer
    }

    fn test(&mut self, file: &[u8], state: &[u8]) -> Answer {
        let answer = Reference.test(file, state);
        if *self == Erring::Test && answer[1] == 21 {
            return [host::GOOD, 0, 0, 0];
        }
        answer
    }

    fn object(&mut self, file: &[u8], state: &[u8], address: u32) -> Answer {
        let mut answer = Reference.object(file, state, address);
        if *self == Erring::Object && answer[0] == host::GOOD {
            answer[1] = 8192 + u64::from(address);
        }
        answer
    }
}

#[test]
fn the_reference_agrees_with_itself() {
    let comparison = compare(&mut Reference, 3, 0, 1000);
    assert!(comparison.differences.is_empty(), "{:?}", comparison.differences);
    assert!(comparison.calls > 5000 && comparison.steps > 50_000);
}

#[test]
fn errors_are_noticed() {
    use Erring::{Object, Open, Output, Place, Steps, Test};
    for mut erring in [Place, Open, Steps, Output, Test, Object] {
        assert!(!compare(&mut erring, 4, 0, 400).differences.is_empty(), "{erring:?}");
    }
}

#[test]
fn errors_of_kind_27_are_noticed() {
    for mut erring in OF_KIND_27 {
        let differences = compare(&mut erring, 4, 0, 300).differences.len();
        println!("{erring:?}: {differences} modules differ");
        assert!(differences >= 3, "{erring:?}: {differences}");
    }
}
