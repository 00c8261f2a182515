//! A module with its buffers, as the tests of the machine and of the state run it, the terms that
//! their modules begin with, the instruction that a state stands at, and the tool `rcm` as its tests
//! run it. Each test file uses a part.
#![allow(dead_code)]

use reference::builder::{record, FunctionBuilder, ModuleBuilder};
use reference::calls;
use reference::compare::Interface;
use reference::file::Record;
use reference::host::{self, Answer};
use reference::module::{Function, Instruction, Module, Term};
use reference::state::{Frame, State, OUTPUT_BYTES, STATE_BYTES};
use reference::tool;
use reference::types::{sizes, Live};
use std::ops::Range;
use std::path::{Path, PathBuf};
use std::process::Command;

pub const I32: u8 = 0;
pub const I8: u8 = 1;
pub const I16: u8 = 2;

/// The records of document 01's worked module, which returns 42.
pub fn worked_records() -> [Record; 5] {
    [
        record(1, 4, 0, 0, 0),
        Record([7, 0, 0, 1, 0, 0, 2, 0]),
        record(9, 0, 0, 0, 0),
        record(16, 0, 0, 0, 42),
        record(34, 0, 0, 0, 0),
    ]
}

/// Terms 0 i32, 1 i8, 2 i16.
pub fn integers() -> ModuleBuilder {
    let mut module = ModuleBuilder::new();
    for width in [4, 1, 2] {
        module.integer(width);
    }
    module
}

/// Function 0 without parameters.
pub fn main_function(regions: &[u8], registers: &[u8], code: &[Record]) -> FunctionBuilder {
    FunctionBuilder {
        regions: regions.to_vec(),
        registers: registers.to_vec(),
        return_term: I32,
        code: code.to_vec(),
        ..FunctionBuilder::default()
    }
}

#[derive(Clone)]
pub struct Session {
    pub file: Vec<u8>,
    pub state: Vec<u8>,
    pub output: Vec<u8>,
}

impl Session {
    pub fn open(file: Vec<u8>, arguments: &[u32]) -> Session {
        let mut state = vec![0xee; STATE_BYTES];
        let bytes: Vec<u8> = arguments.iter().flat_map(|word| word.to_le_bytes()).collect();
        assert_eq!(calls::check(&file)[0], host::GOOD, "{:?}", calls::check(&file));
        assert_eq!(calls::open(&file, &bytes, &mut state), [host::GOOD, 0, 0, 0]);
        Session { file, state, output: vec![0; OUTPUT_BYTES] }
    }

    pub fn go(&mut self, budget: u64) -> Answer {
        self.go_with(&[], budget)
    }

    pub fn go_with(&mut self, form: &[u8], budget: u64) -> Answer {
        calls::go(&self.file, form, &mut self.state, &mut self.output, budget)
    }

    pub fn test(&self) -> Answer {
        calls::test(&self.file, &self.state)
    }

    pub fn passes(&self) -> bool {
        self.test() == [host::GOOD, 0, 0, 0]
    }

    pub fn object(&self, address: u32) -> Option<(u64, u64)> {
        let answer = calls::object(&self.file, &self.state, address);
        (answer[0] == host::GOOD).then(|| (answer[1] - 8192, answer[2]))
    }

    pub fn view(&self) -> State {
        State::from_bytes(&self.state).expect("a state")
    }

    /// A register of the top frame.
    pub fn register(&self, register: usize) -> u32 {
        self.view().frames.last().expect("a frame").registers[register]
    }
}

/// Opens and runs to the end a module of function 0 alone.
pub fn run(module: &ModuleBuilder, function: &FunctionBuilder) -> Answer {
    let mut module = module.clone();
    module.function(function);
    Session::open(module.file(), &[]).go(1_000_000)
}

/// The instruction that a state stands at, with its frame and function.
pub fn standing<'s>(
    module: &'s Module,
    state: &'s State,
) -> (&'s Frame, &'s Function, &'s Instruction) {
    let frame = state.frames.last().expect("a frame");
    let function = &module.functions[usize::from(frame.function)];
    (frame, function, &function.code[usize::from(frame.instruction)])
}

/// The object's size and the live region of a kind 27 or 28 in the top frame.
pub fn object_type(module: &Module, state: &State, instruction: &Instruction) -> (u32, Live) {
    let frame = state.frames.last().expect("a frame");
    let function = &module.functions[usize::from(frame.function)];
    let pointer = function.register_types[usize::from(instruction.a)];
    let Term::Pointer { target, region } = module.terms[usize::from(pointer)] else {
        panic!("kinds 27 and 28 have a pointer");
    };
    (sizes(module).terms[usize::from(target)], frame.map[usize::from(region)])
}

/// The bytes of the object that the top frame's register of a kind 27, after its step, or of a kind
/// 28, before its step, points to.
pub fn object_of(module: &Module, state: &State, instruction: &Instruction) -> Range<usize> {
    let (size, _) = object_type(module, state, instruction);
    let frame = state.frames.last().expect("a frame");
    let start = frame.registers[usize::from(instruction.a)] as usize;
    start..start + size as usize
}

/// The proved library with the feature `librcm`, else the reference interpreter in its place.
#[cfg(feature = "librcm")]
fn machine() -> impl Interface {
    reference::library::Library
}

#[cfg(not(feature = "librcm"))]
fn machine() -> impl Interface {
    reference::compare::Reference
}

/// Status, standard output and standard error of the tool.
pub fn rcm<S: ToString>(words: &[S], terminal: bool) -> (u8, String, String) {
    let words: Vec<String> = words.iter().map(S::to_string).collect();
    let (mut out, mut error) = (Vec::new(), Vec::new());
    let mut machine = machine();
    let mut session = tool::Session {
        machine: Some(&mut machine),
        out: &mut out,
        error: &mut error,
        terminal,
        interrupted: || None,
    };
    let status = tool::run(&words, &mut session);
    let text = |bytes: Vec<u8>| String::from_utf8(bytes).expect("text");
    (status, text(out), text(error))
}

/// What the tool gave: its status, standard output and standard error.
pub struct Ran {
    pub status: u8,
    pub out: String,
    pub error: String,
}

/// The tool on a line of words; those with an `@` in front are files of the folder.
pub fn rcm_in(folder: &Path, line: &str, terminal: bool) -> Ran {
    let words = line.split_whitespace().map(|word| match word.strip_prefix('@') {
        Some(name) => folder.join(name).display().to_string(),
        None => word.to_string(),
    });
    let (status, out, error) = rcm(&words.collect::<Vec<_>>(), terminal);
    Ran { status, out, error }
}

/// What python3 prints for a part of a JSON text; the text is `v` and the part is written behind it.
pub fn json(text: &str, part: &str) -> String {
    let program = "import json, sys\nv = json.loads(sys.argv[1])\nprint(eval('v' + sys.argv[2]))";
    let output = Command::new("python3").args(["-c", program, text, part]).output();
    let output = output.expect("python3");
    assert!(output.status.success(), "{text}\n{}", String::from_utf8_lossy(&output.stderr));
    String::from_utf8(output.stdout).expect("text").trim_end().to_string()
}

pub fn repository() -> PathBuf {
    Path::new(env!("CARGO_MANIFEST_DIR")).join("..")
}

/// The names of a folder's files.
pub fn files(folder: &Path) -> Vec<String> {
    let entries = std::fs::read_dir(folder).expect("a folder").flatten();
    let mut names: Vec<String> =
        entries.map(|entry| entry.file_name().to_string_lossy().to_string()).collect();
    names.sort();
    names
}

/// A new folder for the files of one test.
pub fn new_folder(name: &str) -> PathBuf {
    let folder = Path::new(env!("CARGO_TARGET_TMPDIR")).join(name);
    let _ = std::fs::remove_dir_all(&folder);
    std::fs::create_dir_all(&folder).expect("a folder for test files");
    folder
}
